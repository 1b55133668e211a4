//! What the tests of several calls share.

/// Each closeness at an end of the range or past it, and the number of a call that is right in all else.
pub const CLOSENESSES: [(i32, u32); 8] = [
    (i32::MIN, 8),
    (-21, 8),
    (-11, 8),
    (-10, 0),
    (0, 0),
    (20, 0),
    (21, 8),
    (i32::MAX, 8),
];
