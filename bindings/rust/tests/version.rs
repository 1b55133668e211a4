//! The version of the library is that of this crate and of the file VERSION.

mod common;

#[test]
fn one_version_everywhere() {
    let version = kistrovu::version().to_string();
    assert_eq!(version, common::file("VERSION").trim_end());
    assert_eq!(version, env!("CARGO_PKG_VERSION"));
}
