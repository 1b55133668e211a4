//! Wrong declarations, made by editing the right ones, and a folder to compile them in.

use declarations::{edited, Texts};
use std::fs;
use std::path::{Path, PathBuf};

/// What is altered, what it becomes, and a part of what must be said about it.
pub type Wrong = (&'static str, &'static str, &'static str);

/// Declarations of one language: which text they are, and how they are checked.
pub struct Declarations {
    pub text: fn(&mut Texts) -> &mut String,
    pub check: fn(&Texts, &Path) -> Result<(), String>,
}

/// An empty folder below the build's own.
pub fn folder(name: &str) -> PathBuf {
    let folder = Path::new(env!("CARGO_TARGET_TMPDIR")).join(name);
    let _ = fs::remove_dir_all(&folder);
    fs::create_dir_all(&folder).expect("a folder can be made");
    folder
}

impl Declarations {
    pub fn agree(&self, name: &str) {
        let checked = (self.check)(&Texts::of_repository(), &folder(name));
        assert_eq!(checked, Ok(()));
    }

    /// Each edit by itself is refused, for what is wrong in it.
    pub fn refused(&self, name: &str, edits: &[Wrong]) {
        let right = Texts::of_repository();
        let folder = folder(name);
        for (from, to, said) in edits {
            let mut wrong = right.clone();
            let text = (self.text)(&mut wrong);
            *text = edited(text, from, to);
            let found = (self.check)(&wrong, &folder).expect_err(to);
            assert!(found.contains(said), "`{to}` is refused, but with: {found}");
        }
    }
}
