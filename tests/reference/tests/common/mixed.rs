//! Pixels of many colours, without a pattern.

use reference::cards::Pixel;

pub fn mixed(count: u32) -> Vec<Pixel> {
    let byte = |index: u32, factor: u32| (index.wrapping_mul(factor) >> 20) as u8;
    (1..=count)
        .map(|index| [2_654_435_761, 2_246_822_519, 3_266_489_917].map(|f| byte(index, f)))
        .collect()
}
