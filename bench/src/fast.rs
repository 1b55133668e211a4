//! The fit, the verdict and the modes of a served histogram, written for speed: what a careful Rust program would do.
//! It is compared with the reference before anything is timed.

use crate::fast_weight::{bar, Largest, Part};
use reference::calls::MOST_BINS;
use std::convert::Infallible;
use std::ops::{ControlFlow, Range, RangeInclusive};

#[derive(Clone, Copy)]
pub struct Block {
    pub first: u32,
    pub len: u32,
    pub sum: u32,
}

pub const NO_BLOCK: Block = Block {
    first: 0,
    len: 0,
    sum: 0,
};

impl Block {
    pub fn bins(&self) -> Range<usize> {
        self.first as usize..(self.first + self.len) as usize
    }
}

/// The blocks of a fit, from left to right: adjacent violators pooled on a stack.
pub fn pool<'a>(histogram: &[u32], rising: bool, stack: &'a mut [Block; MOST_BINS]) -> &'a [Block] {
    let mut count = 0;
    for (first, &bin) in histogram.iter().enumerate() {
        let mut last = Block {
            first: first as u32,
            len: 1,
            sum: bin,
        };
        while count > 0 && !in_order(&stack[count - 1], &last, rising) {
            let before = stack[count - 1];
            last = Block {
                first: before.first,
                len: before.len + last.len,
                sum: before.sum + last.sum,
            };
            count -= 1;
        }
        stack[count] = last;
        count += 1;
    }
    &stack[..count]
}

/// Sum times length is at most 2^16 times 2^8.
fn in_order(left: &Block, right: &Block, rising: bool) -> bool {
    let (a, b) = (left.sum * right.len, right.sum * left.len);
    if rising {
        a < b
    } else {
        a > b
    }
}

/// Each bin's block sum and block length.
pub fn fit(histogram: &[u32], rising: bool) -> ([u32; MOST_BINS], [u32; MOST_BINS]) {
    let mut sums = [0; MOST_BINS];
    let mut lengths = [0; MOST_BINS];
    for block in pool(histogram, rising, &mut [NO_BLOCK; MOST_BINS]) {
        for bin in block.bins() {
            sums[bin] = block.sum;
            lengths[bin] = block.len;
        }
    }
    (sums, lengths)
}

pub fn verdict(histogram: &[u32], rising: bool, closeness: i32) -> (i64, bool) {
    let largest = largest_weight(histogram, rising, |_| ());
    let cost = largest - bar(histogram.len(), closeness);
    (cost, cost >= 0 && has_step_against(histogram, rising))
}

/// `seen` is told of each part whether it is weighed.
#[inline(always)]
fn largest_weight(histogram: &[u32], rising: bool, mut seen: impl FnMut(bool)) -> i64 {
    let mut stack = [NO_BLOCK; MOST_BINS];
    let mut largest = Largest::new(total(histogram));
    let blocks = pool(histogram, rising, &mut stack);
    let mut visit = |part| {
        let weighed = !largest.covers(part) && !largest.covers_closely(part);
        seen(weighed);
        if weighed {
            largest.raise(largest.weigh(part));
        }
        ControlFlow::<Infallible>::Continue(())
    };
    for index in 0..blocks.len() {
        for first in blocks[index].bins() {
            let _ = inside(histogram, &blocks[index], first, &mut visit);
            let _ = across(histogram, &blocks[index..], first, &mut visit);
        }
    }
    largest.weight
}

/// A bin is followed by a lower one, or by a higher one if the fit falls.
fn has_step_against(histogram: &[u32], rising: bool) -> bool {
    let against = |pair: &[u32]| {
        if rising {
            pair[1] < pair[0]
        } else {
            pair[0] < pair[1]
        }
    };
    histogram.windows(2).any(against)
}

/// The cost where that is below the cap, else a number at or above the cap: the search ends at the first part that is
/// sure to bring the cost there.
fn capped_cost(
    histogram: &[u32],
    rising: bool,
    closeness: i32,
    cap: i64,
    stack: &mut [Block; MOST_BINS],
) -> i64 {
    let bar = bar(histogram.len(), closeness);
    let enough = cap + bar;
    let mut largest = Largest::new(total(histogram));
    if largest.weight < enough {
        let _ = search(histogram, pool(histogram, rising, stack), |part| {
            if largest.covers(part) {
                return ControlFlow::Continue(());
            }
            if largest.reaches(part, enough) {
                largest.weight = enough;
                return ControlFlow::Break(());
            }
            if !largest.covers_closely(part) {
                largest.raise(largest.weigh(part));
                if largest.weight >= enough {
                    return ControlFlow::Break(());
                }
            }
            ControlFlow::Continue(())
        });
    }
    largest.weight - bar
}

/// All parts, until a visit stops the search. Those inside one block come first, since the largest weight is most often
/// among them.
#[inline(always)]
fn search(
    histogram: &[u32],
    blocks: &[Block],
    mut visit: impl FnMut(Part) -> ControlFlow<()>,
) -> ControlFlow<()> {
    for block in blocks {
        for first in block.bins() {
            inside(histogram, block, first, &mut visit)?;
        }
    }
    for index in 0..blocks.len() {
        for first in blocks[index].bins() {
            across(histogram, &blocks[index..], first, &mut visit)?;
        }
    }
    ControlFlow::Continue(())
}

pub fn total(histogram: &[u32]) -> u64 {
    histogram.iter().map(|&bin| u64::from(bin)).sum()
}

/// How many parts there are, and how many of them need no logarithm.
pub fn spared(histogram: &[u32], rising: bool) -> (usize, usize) {
    let (mut parts, mut weighed) = (0, 0);
    largest_weight(histogram, rising, |is_weighed| {
        parts += 1;
        weighed += usize::from(is_weighed);
    });
    (parts, parts - weighed)
}

/// The parts from a bin of the block to a bin of the same block, until a visit stops them.
#[inline(always)]
fn inside<S>(
    histogram: &[u32],
    block: &Block,
    first: usize,
    visit: &mut impl FnMut(Part) -> ControlFlow<S>,
) -> ControlFlow<S> {
    let over = u64::from(block.len);
    let mut count = 0;
    let mut mass = 0;
    for &bin in &histogram[first..block.bins().end] {
        count += u64::from(bin);
        mass += u64::from(block.sum);
        visit(Part { count, mass, over })?;
    }
    ControlFlow::Continue(())
}

/// The parts from a bin of the first block to a bin of a later one, until a visit stops them.
#[inline(always)]
fn across<S>(
    histogram: &[u32],
    blocks: &[Block],
    first: usize,
    visit: &mut impl FnMut(Part) -> ControlFlow<S>,
) -> ControlFlow<S> {
    let block = &blocks[0];
    let len = u64::from(block.len);
    // What lies before the last block: the tail of the first one, over its length, and whole blocks.
    let rest = &histogram[first..block.bins().end];
    let mut count = total(rest);
    let tail = rest.len() as u64 * u64::from(block.sum);
    let mut between = 0;
    for last in &blocks[1..] {
        let over = len * u64::from(last.len);
        let step = len * u64::from(last.sum);
        let mut mass = tail * u64::from(last.len) + between * over;
        for &bin in &histogram[last.bins()] {
            count += u64::from(bin);
            mass += step;
            visit(Part { count, mass, over })?;
        }
        between += u64::from(last.sum);
    }
    ControlFlow::Continue(())
}

/// The segments of a line, or of a ring by places from its opening on: one more separator than peaks.
struct Segments {
    separators: [usize; MOST_BINS],
    peaks: [usize; MOST_BINS],
    count: usize,
}

/// The run of `len` segments from number `first`, and the peak that is kept when it is joined.
struct Join {
    first: usize,
    len: usize,
    peak: usize,
}

/// Which runs a search looks at: those inside a line, those of a ring that go past its last segment to the first, or all
/// those of a ring.
#[derive(Clone, Copy)]
enum Runs {
    Inside,
    Past,
    Round,
}

/// How many separators there are; they are the first places of the list, which has one for each bin or more.
pub fn line_modes(histogram: &[u32], closeness: i32, list: &mut [u32]) -> usize {
    let mut stack = [NO_BLOCK; MOST_BINS];
    line_modes_by(histogram, list, |stretch, rising, cap| {
        capped_cost(stretch, rising, closeness, cap, &mut stack)
    })
}

/// The same with another way to find the capped cost of a stretch, rising or not.
pub fn line_modes_by(
    histogram: &[u32],
    list: &mut [u32],
    mut cost: impl FnMut(&[u32], bool, i64) -> i64,
) -> usize {
    let mut segments = first_segments(histogram);
    segments.join_inside(&mut |bins, rising, cap| cost(&histogram[bins], rising, cap));
    write(&segments.separators[..=segments.count], list)
}

/// How many modes a ring has that is given by two turns, from its opening on. Where they start, by places from there, are
/// the first places of the list. With the opening again at its end a turn is a line of at most `MOST_BINS` bins.
pub fn ring_modes(turns: &[u32], closeness: i32, list: &mut [u32]) -> usize {
    let segments = ring_segments(turns, closeness);
    write(&segments.separators[..segments.count], list)
}

/// How many separators there are; they are copied to the first places of the list.
fn write(separators: &[usize], list: &mut [u32]) -> usize {
    for (place, &separator) in list.iter_mut().zip(separators) {
        *place = separator as u32;
    }
    separators.len()
}

fn ring_segments(turns: &[u32], closeness: i32) -> Segments {
    let bins = turns.len() / 2;
    let mut stack = [NO_BLOCK; MOST_BINS];
    let mut cost = |places: RangeInclusive<usize>, rising, cap| {
        capped_cost(&turns[places], rising, closeness, cap, &mut stack)
    };
    let mut segments = first_segments(&turns[..=bins]);
    segments.join_inside(&mut cost);
    segments.join_round(bins, &mut cost);
    segments
}

/// One walk: a fall, then a rise, makes a separator of the first bin at the bottom.
fn first_segments(histogram: &[u32]) -> Segments {
    let mut segments = Segments {
        separators: [0; MOST_BINS],
        peaks: [0; MOST_BINS],
        count: 0,
    };
    let mut bottom = None;
    let mut peak = 0;
    for bin in 1..histogram.len() {
        if histogram[bin] < histogram[bin - 1] {
            bottom = Some(bin);
        } else if histogram[bin] > histogram[bin - 1] {
            if let Some(separator) = bottom.take() {
                segments.push(peak, separator);
                peak = separator;
            }
        }
        if histogram[bin] > histogram[peak] {
            peak = bin;
        }
    }
    segments.push(peak, histogram.len() - 1);
    segments
}

impl Segments {
    fn push(&mut self, peak: usize, end: usize) {
        self.peaks[self.count] = peak;
        self.count += 1;
        self.separators[self.count] = end;
    }

    fn join(&mut self, join: &Join) {
        let behind = join.first + join.len;
        self.peaks[join.first] = join.peak;
        self.peaks.copy_within(behind..self.count, join.first + 1);
        self.separators
            .copy_within(behind..=self.count, join.first + 1);
        self.count -= join.len - 1;
    }

    fn join_inside(&mut self, cost: &mut impl FnMut(RangeInclusive<usize>, bool, i64) -> i64) {
        while let Some(join) = self.next_join(Runs::Inside, cost) {
            self.join(&join);
        }
    }

    /// Goes on all round a ring of so many bins. Its line is finished, so no run inside that is joinable, and the first
    /// search leaves those out.
    fn join_round(
        &mut self,
        bins: usize,
        cost: &mut impl FnMut(RangeInclusive<usize>, bool, i64) -> i64,
    ) {
        let mut runs = Runs::Past;
        while self.count > 1 {
            self.repeat(bins);
            let Some(join) = self.next_join(runs, cost) else {
                return;
            };
            let join = self.begin_behind(join);
            self.join(&join);
            runs = Runs::Round;
        }
    }

    /// Holds the segments a second time, a turn later, so that a run past the last one is a row like any other. No run
    /// is longer than a turn, so none reaches the end of the last segment of the second turn.
    fn repeat(&mut self, bins: usize) {
        for index in 0..self.count {
            self.peaks[self.count + index] = self.peaks[index] + bins;
            self.separators[self.count + index] = self.separators[index] + bins;
        }
    }

    /// Where the run goes past the last segment, a turn is taken that begins behind it: the run is then the last of that
    /// turn, which begins at the first separator that is left after the opening.
    fn begin_behind(&mut self, join: Join) -> Join {
        let past = (join.first + join.len).saturating_sub(self.count);
        self.peaks.copy_within(past..past + self.count, 0);
        self.separators.copy_within(past..=past + self.count, 0);
        Join {
            first: join.first - past,
            ..join
        }
    }

    fn next_join(
        &self,
        runs: Runs,
        cost: &mut impl FnMut(RangeInclusive<usize>, bool, i64) -> i64,
    ) -> Option<Join> {
        (2..=self.count).find_map(|len| {
            let past = self.count - len + 1;
            let starts = match runs {
                Runs::Inside => 0..past,
                Runs::Past => past..self.count,
                Runs::Round => 0..self.count,
            };
            self.cheapest(len, starts, cost)
        })
    }

    /// Only a cost below all before it counts, and only a rise that is cheaper than its fall: hence the caps.
    fn cheapest(
        &self,
        len: usize,
        starts: Range<usize>,
        cost: &mut impl FnMut(RangeInclusive<usize>, bool, i64) -> i64,
    ) -> Option<Join> {
        let (separators, peaks) = (&self.separators, &self.peaks);
        let mut least = 0;
        let mut found = None;
        for first in starts {
            let last = first + len - 1;
            let fall = cost(peaks[first]..=separators[last + 1], false, least);
            if fall < least {
                least = fall;
                let peak = peaks[first];
                found = Some(Join { first, len, peak });
            }
            let rise = cost(separators[first]..=peaks[last], true, least);
            if rise < least {
                least = rise;
                let peak = peaks[last];
                found = Some(Join { first, len, peak });
            }
        }
        found
    }
}

#[cfg(test)]
mod tests {
    use super::*;

    /// A closeness and a ring; its separators; and its modes, each by its start, its peak and its end, in places from
    /// the opening on.
    type Row = (i32, &'static [u32], &'static [usize], &'static [[usize; 3]]);

    const RINGS: [Row; 12] = [
        (0, &[0, 4, 0, 0, 4], &[2], &[[2, 6, 7]]),
        (0, &[0, 4, 0, 0, 9], &[2], &[[2, 4, 7]]),
        (3, &[8, 0, 8, 0, 8, 0, 0], &[5], &[[4, 10, 11]]),
        (-1, &[0, 3, 0, 7, 0, 3], &[2], &[[2, 3, 8]]),
        (-2, &[0, 3, 0, 3, 0, 0, 3, 3], &[4], &[[4, 6, 12]]),
        (-1, &[4, 0, 4, 0, 4, 0, 0, 4, 0], &[5], &[[4, 12, 13]]),
        (-1, &[7, 0, 3, 0, 4, 0, 0, 7], &[5], &[[4, 6, 12]]),
        (-1, &[85, 85, 60, 85, 60, 60, 98, 60], &[4], &[[2, 4, 10]]),
        (0, &[12, 0, 5, 0, 0, 5, 0, 12], &[3], &[[2, 6, 10]]),
        (
            -2,
            &[2, 0, 2, 7, 0, 7, 0],
            &[4, 6],
            &[[3, 4, 5], [5, 9, 10]],
        ),
        (0, &[35, 5, 17, 4, 17, 5], &[5], &[[2, 3, 8]]),
        (-1, &[6, 2, 2, 0, 2, 2, 6, 0, 7, 0], &[9], &[[6, 7, 16]]),
    ];

    #[test]
    fn rings_are_joined_past_their_opening() {
        for (closeness, ring, separators, modes) in RINGS {
            let bins = ring.len();
            let opening = (0..bins).min_by_key(|&bin| ring[bin]).unwrap();
            let turns: Vec<u32> = (0..2 * bins).map(|p| ring[(opening + p) % bins]).collect();
            let found = ring_segments(&turns, closeness);
            let mode = |m| [found.separators[m], found.peaks[m], found.separators[m + 1]];
            let found_modes: Vec<[usize; 3]> = (0..found.count).map(mode).collect();
            assert_eq!(found_modes, modes, "{ring:?}");

            let mut list = vec![0; bins];
            let count = ring_modes(&turns, closeness, &mut list);
            let starts = list[..count].iter();
            let listed: Vec<usize> = starts.map(|&s| (opening + s as usize) % bins).collect();
            assert_eq!(listed, separators, "{ring:?}");
        }
    }
}
