//! Pooling in steps, from the last bin to the first: a histogram can arrive from its top bin down, and each step leaves
//! the blocks of the bins from there to the last.

use crate::pooling::Block;

/// The blocks held after each step, from left to right: at first the last bin alone, in the end the blocks of all bins.
pub fn steps(counts: &[u64], rising: bool) -> Vec<Vec<Block>> {
    // From right to left, so that a step works at the end of the list.
    let mut held = Vec::new();
    let mut after_each = Vec::new();
    for (bin, &count) in counts.iter().enumerate().rev() {
        step(&mut held, bin, count, rising);
        after_each.push(held.iter().rev().copied().collect());
    }
    after_each
}

/// Takes the next lower bin, as a block of its own before all others. The blocks held are in order among themselves, so
/// only the new one can be out of order with the one after it; and it can be so again each time that it has grown.
fn step(held: &mut Vec<Block>, bin: usize, count: u64, rising: bool) {
    let mut new = Block {
        first: bin,
        len: 1,
        sum: count,
    };
    while let Some(after) = held.pop() {
        if in_order(&new, &after, rising) {
            held.push(after);
            break;
        }
        new.len += after.len;
        new.sum += after.sum;
    }
    held.push(new);
}

/// Strictly, as equal means share a block. Each sum is multiplied by the other's length, so nothing is rounded.
fn in_order(left: &Block, right: &Block, rising: bool) -> bool {
    let left_mean = u128::from(left.sum) * right.len as u128;
    let right_mean = u128::from(right.sum) * left.len as u128;
    if rising {
        left_mean < right_mean
    } else {
        left_mean > right_mean
    }
}
