//! The engine's public calls through the declarations of `bindings/rust`, as the comparison needs them: whatever is only
//! read is lent for writing too, so that the caller can see whether it came back as lent. Flags come back as bytes and
//! are compared as bytes, so that a flag that is neither 0 nor 1 shows up as a difference.

mod into_raw;

pub use into_raw::IntoRaw;
pub use kistrovu::raw::{
    Card, FitAnswer, LogAnswer, MeasuresAnswer, ModesAnswer, Printed, VerdictAnswer,
};

use kistrovu::raw;

pub fn measures(red: u8, green: u8, blue: u8) -> MeasuresAnswer {
    // SAFETY: the call takes and hands back plain numbers.
    unsafe { raw::kistrovu_measures(red, green, blue) }
}

pub fn fit(histogram: &mut [u32], rising: bool) -> FitAnswer {
    // SAFETY: pointer and length are those of one slice, lent for the time of the call.
    unsafe { raw::kistrovu_fit(histogram.as_mut_ptr(), histogram.len(), rising) }
}

pub fn verdict(histogram: &mut [u32], rising: bool, closeness: i32) -> VerdictAnswer {
    // SAFETY: as in `fit`.
    unsafe { raw::kistrovu_verdict(histogram.as_mut_ptr(), histogram.len(), rising, closeness) }
}

type ModesCall = unsafe extern "C" fn(*const u32, usize, i32, *mut u32, usize) -> ModesAnswer;

pub fn line_modes(histogram: &mut [u32], closeness: i32, separators: &mut [u32]) -> ModesAnswer {
    modes(raw::kistrovu_line_modes, histogram, closeness, separators)
}

pub fn ring_modes(histogram: &mut [u32], closeness: i32, separators: &mut [u32]) -> ModesAnswer {
    modes(raw::kistrovu_ring_modes, histogram, closeness, separators)
}

fn modes(
    call: ModesCall,
    histogram: &mut [u32],
    closeness: i32,
    separators: &mut [u32],
) -> ModesAnswer {
    let (bins, len) = (histogram.as_mut_ptr(), histogram.len());
    let (list, places) = (separators.as_mut_ptr(), separators.len());
    // SAFETY: each pointer and length are those of one slice, lent for the time of the call; the two do not overlap.
    unsafe { call(bins, len, closeness, list, places) }
}

pub fn join_log(histogram: &mut [u32], closeness: i32, log: &mut [i64]) -> LogAnswer {
    let (bins, len) = (histogram.as_mut_ptr(), histogram.len());
    let (list, numbers) = (log.as_mut_ptr(), log.len());
    // SAFETY: each pointer and length are those of one slice, lent for the time of the call; the two do not overlap.
    unsafe { raw::kistrovu_join_log(bins, len, closeness, list, numbers) }
}

pub fn replay(
    histogram: &mut [u32],
    closeness: i32,
    log: &mut [i64],
    separators: &mut [u32],
) -> ModesAnswer {
    let (bins, len) = (histogram.as_mut_ptr(), histogram.len());
    let (joins, numbers) = (log.as_mut_ptr(), log.len());
    let (list, places) = (separators.as_mut_ptr(), separators.len());
    // SAFETY: each pointer and length are those of one slice, lent for the time of the call; no two of them overlap.
    unsafe { raw::kistrovu_replay(bins, len, closeness, joins, numbers, list, places) }
}

pub fn card(pixels: &mut [u8], closeness: i32, labels: &mut [u16]) -> Card {
    let (start, bytes) = (pixels.as_mut_ptr(), pixels.len());
    let (list, places) = (labels.as_mut_ptr(), labels.len());
    // SAFETY: each pointer and length are those of one slice, lent for the time of the call; the two do not overlap.
    unsafe { raw::kistrovu_card(start, bytes, closeness, list, places) }
}

pub fn widen_labels(narrow: &mut [u8], labels: &mut [u16]) -> u32 {
    let (start, count) = (narrow.as_mut_ptr(), narrow.len());
    let (list, places) = (labels.as_mut_ptr(), labels.len());
    // SAFETY: each pointer and length are those of one slice, lent for the time of the call; the two do not overlap.
    unsafe { raw::kistrovu_widen_labels(start, count, list, places) }
}

pub fn print_card(text: &mut [u8]) -> Printed {
    // SAFETY: pointer and length are those of one slice, lent for the time of the call.
    unsafe { raw::kistrovu_print_card(text.as_mut_ptr(), text.len()) }
}

pub fn print_ground(number: u32) -> Printed {
    // SAFETY: the call takes and hands back plain numbers.
    unsafe { raw::kistrovu_print_ground(number) }
}
