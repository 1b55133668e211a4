//! Lines of two segments whose smaller cost of joining is exactly 0 or next to it, found by search: at 0 they are not
//! joined.

/// Cost, closeness, counts.
pub const MODE_TIES: &[(i64, i32, &[u32])] = &[
    (0, -1, &[3587, 3414, 3557]),
    (0, -2, &[3305, 3129, 3212]),
    (0, 14, &[294, 164, 1442]),
    (0, 1, &[0, 158, 107, 744]),
    (0, 6, &[227, 141, 1722, 0]),
    (0, 12, &[1197, 285, 286, 404]),
    (0, 2, &[0, 195, 143, 143, 708]),
    (0, 14, &[2645, 2239, 4812, 4784, 150]),
    (0, 1, &[0, 56, 56, 35, 35, 102]),
    (0, 15, &[0, 0, 0, 18519, 10495, 11373]),
    (0, 17, &[53, 52, 52, 18, 18, 648]),
    (0, 1, &[0, 76, 35, 35, 61, 51, 26]),
    (0, 4, &[0, 219, 218, 218, 169, 168, 706, 0]),
    (0, 0, &[203, 306, 307, 501, 425, 425, 501, 0, 0, 0, 0]),
    (
        0,
        10,
        &[94, 693, 1258, 1862, 2230, 1968, 1968, 1968, 2628, 0, 0, 0],
    ),
    (-1, 16, &[194, 91, 445]),
    (-1, 18, &[0, 530, 343, 636]),
    (-1, 11, &[0, 1650, 137, 246]),
    (-1, 12, &[403, 286, 286, 952, 0]),
    (-1, 7, &[39, 14, 13, 13, 623]),
    (-1, 20, &[234, 139, 139, 138, 468, 0]),
    (-1, 0, &[0, 0, 352, 351, 293, 478]),
    (-1, 14, &[0, 203, 202, 129, 128, 369, 0, 0]),
    (1, 0, &[558, 487, 596]),
    (1, 7, &[820, 398, 399, 506]),
    (1, 1, &[0, 351, 286, 286, 1341]),
    (1, 15, &[0, 249, 248, 165, 164, 389]),
    (1, 3, &[5059, 4800, 4800, 4800, 5124, 154]),
    (1, 0, &[331, 216, 216, 271, 0, 0, 0, 0]),
];

#[cfg(test)]
mod tests {
    use super::MODE_TIES;
    use reference::lines::{first_segments, join, separators};

    #[test]
    fn costs_are_as_listed() {
        for &(cost, closeness, counts) in MODE_TIES {
            let line: Vec<u64> = counts.iter().map(|&count| u64::from(count)).collect();
            let segments = first_segments(&line);
            assert_eq!(segments.len(), 2, "{counts:?}");
            assert_eq!(join(&line, closeness, &segments).cost, cost, "{counts:?}");
            let modes = separators(&line, closeness).len() - 1;
            assert_eq!(modes, if cost < 0 { 1 } else { 2 }, "{counts:?}");
        }
    }

    /// The test above passes on any list with the right costs; this one keeps the three costs in it.
    #[test]
    fn each_cost_is_listed() {
        for cost in [0, -1, 1] {
            assert!(MODE_TIES.iter().any(|tie| tie.0 == cost), "{cost}");
        }
    }
}
