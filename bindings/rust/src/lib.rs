//! Kistrovu makes the *card* of a scanned cloth: the greys and colours found in it, how many pixels each accounts for,
//! and which pixel belongs where. This crate calls the engine through its static library, and asks nothing of the
//! caller: a call is served, or turned down with a [`Ground`].
//!
//! Black beside red, two pixels of three bytes each, at closeness 0:
//!
//! ```
//! # use kistrovu::{card, Ground, Kind};
//! let card = card(&[0, 0, 0, 255, 0, 0], 0)?;
//!
//! let [black, red] = &card.entries[..] else { panic!("two entries") };
//! assert_eq!((black.kind, black.count), (Kind::Grey, 1));
//! assert_eq!((red.kind, red.count), (Kind::Colour, 1));
//! assert_eq!([red.red, red.green, red.blue], [255, 0, 0]);
//! assert_eq!(card.labels, [0, 1]);
//! # Ok::<(), Ground>(())
//! ```
//!
//! # The calls
//!
//! | call | what it hands back | [grounds](Ground) |
//! | --- | --- | --- |
//! | [`measures`] | intensity, saturation and hue bin of a pixel, and whether it is grey | none |
//! | [`fit`] | the monotone histogram that is nearest to a histogram | 6, 7 |
//! | [`verdict`] | whether a histogram can be taken for a monotone one, and by how much | 6, 7, 8 |
//! | [`line_modes`], [`line_modes_into`] | where the modes of a line of bins begin and end | 6, 7, 8; into a list also 10 |
//! | [`ring_modes`], [`ring_modes_into`] | the same for a ring | 6, 7, 8; into a list also 10 |
//! | [`join_log`], [`join_log_into`] | how a line came to its modes: a record of each join | 6, 7, 8; into a log also 10 |
//! | [`replay`], [`replay_into`] | the modes of a line by a log of its joins | 6, 7, 8, 20; into a list also 10 |
//! | [`card`], [`card_into`] | the card of an image and the label of each pixel | 4, 5, 8, 11; into labels also 9 |
//! | [`widen_labels`], [`widen_labels_into`] | labels of one byte, as up to version 5, as labels of 16 bits | none; into labels 9 |
//! | [`print_card`] | the text of the card of a swatch that is given as text | 1, 2, 3, 11 |
//! | [`print_ground`] | the line that the card program prints for a swatch that is turned down | none |
//! | [`version`] | the version of the library | none |
//!
//! A *swatch* is the scan of a piece of cloth: the program reads it as text, and the card call takes its pixels. The
//! *closeness* e, [`LEAST_CLOSENESS`](raw::LEAST_CLOSENESS) to [`MOST_CLOSENESS`](raw::MOST_CLOSENESS), says how much
//! evidence it takes to keep two modes apart: one more raises the bar of the test by one bit. A larger closeness
//! gives fewer entries as a rule, a smaller one is looser and gives more. The bar of a stretch of L bins is
//! log2(L(L+1)/2) + e bits; where that is 0 or less, nothing joins. At −10 this is so for up to 44 bins: the 42 of
//! saturation then have a mode for every hump, while runs over more than 44 bins of intensity or hue can still be joined.
//! The program works at 0.
//!
//! # Stack, heap and threads
//!
//! The engine keeps everything on the stack, and hands its answers back by value. Whatever the image, a thread of 512 KB
//! is enough for [`card`], one of 448 KB for [`print_card`], one of 192 KB for [`print_ground`], and one of 64 KB for every
//! other call. **Give a thread that makes cards 1 MB.** Threads of the standard library have 2 MB by default. The engine
//! keeps no state, so calls may run on many threads at once.
//!
//! Only the calls that hand back a `Vec` ([`card`], [`widen_labels`], [`line_modes`], [`ring_modes`], [`join_log`],
//! [`replay`]) use the heap; without the feature `alloc`, which is on by default, they are left out. The crate does not
//! need the standard library.
//!
//! # What is proved, and what is not
//!
//! Every call, on every input, gives exactly the answer that the rules define. This is proved for the engine's source;
//! `crates/kistrovu/src/lib.rt` states it. The proof does not cover the compiler that makes the library from it, nor
//! anything in this crate: the declarations of [`raw`] are written by hand, and so is the wrapper around them. They are
//! tested: the comparison under `tests/` makes all calls except [`version`] through these declarations, and the tests
//! beside this crate make all of them through the wrapper. Where memory is at stake, the wrapper does not trust the
//! library's figures: lengths are cut to the room there is, and flags are read as bytes.
#![no_std]
#![deny(missing_docs)]

#[cfg(feature = "alloc")]
extern crate alloc;
#[cfg(test)]
extern crate std;

mod cards;
mod grounds;
mod histograms;
mod joins;
mod labels;
mod measures;
mod modes;
pub mod raw;
mod texts;
mod versions;

#[cfg(feature = "alloc")]
pub use cards::{card, Card};
pub use cards::{card_into, Entries, Entry, Kind};
pub use grounds::Ground;
pub use histograms::{fit, verdict, Block, Direction, Fit, Verdict};
#[cfg(feature = "alloc")]
pub use joins::{join_log, replay};
pub use joins::{join_log_into, replay_into};
#[cfg(feature = "alloc")]
pub use labels::widen_labels;
pub use labels::widen_labels_into;
pub use measures::{measures, Measures};
#[cfg(feature = "alloc")]
pub use modes::{line_modes, ring_modes};
pub use modes::{line_modes_into, ring_modes_into};
#[doc(inline)]
pub use raw::JoinRecord;
pub use texts::{print_card, print_ground, Printed};
pub use versions::{version, Version};

/// Runs the example of the README with those of the documentation.
#[cfg(doctest)]
#[doc = include_str!("../README.md")]
struct Readme;
