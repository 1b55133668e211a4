//! The conformance kit `tests/vectors`: its cases, the answers on which the engine and the second implementation agree,
//! the text that is written, and a reader of that text which shares nothing with the writer.

pub mod calls;
pub mod cases;
pub mod files;
pub mod kept;
pub mod reading;
pub mod writing;
