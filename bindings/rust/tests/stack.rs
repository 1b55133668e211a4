//! The calls on threads that have as much stack as the crate's documentation says. A call that took more would end the whole
//! test program.

mod common;

use common::file;
use kistrovu::raw::{MOST_BINS, MOST_ENTRIES, MOST_PIXELS, MOST_PRINTED};
use kistrovu::{card, fit, join_log, line_modes, print_card, print_ground, replay, ring_modes};
use kistrovu::{verdict, widen_labels, Direction};
use std::thread::Builder;

/// What the documentation says, in KB of 1,024 bytes.
const CARD: usize = 512;
const TEXT: usize = 448;
const GROUND: usize = 192;
const OTHER: usize = 64;

fn with_stack<T: Send + 'static>(size: usize, work: impl FnOnce() -> T + Send + 'static) -> T {
    let thread = Builder::new().stack_size(size << 10).spawn(work);
    thread.expect("a thread").join().expect("its end")
}

/// An image of this many pixels, each of another colour than the one before it.
fn image(pixels: usize) -> Vec<u8> {
    let colour = |place: usize| [place, 3 * place, place / 256].map(|level| (level % 256) as u8);
    (0..pixels).flat_map(colour).collect()
}

#[test]
fn the_documentation_says_so() {
    let said = |document: &str, sizes: &[usize]| {
        let text = file(document);
        for size in sizes {
            assert!(text.contains(&format!("{size} KB")), "{document}: {size}");
        }
    };
    said("bindings/rust/src/lib.rs", &[CARD, TEXT, GROUND, OTHER]);
    said("bindings/rust/README.md", &[CARD, TEXT]);
}

#[test]
fn the_largest_image() {
    let made = with_stack(CARD, || card(&image(MOST_PIXELS), 20)).unwrap();
    assert_eq!(made.labels.len(), MOST_PIXELS);
    let counts: u32 = made.entries.iter().map(|entry| entry.count).sum();
    assert_eq!(counts as usize, MOST_PIXELS);
    assert!(made.entries.len() > 1);
}

/// The stored swatch and its stored card, printed.
fn printed(name: &str) -> usize {
    let text = file(&format!("tests/swatches/{name}.txt"));
    let card = file(&format!("tests/swatches/{name}.card"));
    let printed = with_stack(TEXT, move || {
        print_card(text.as_bytes()).map(|printed| printed.bytes().to_vec())
    });
    assert_eq!(printed.expect(name), card.as_bytes());
    card.len()
}

#[test]
fn the_longest_text_and_the_longest_card() {
    printed("16384-pixels");
    assert_eq!(printed(&format!("{MOST_ENTRIES}-entries")), MOST_PRINTED);
}

#[test]
fn the_line_of_a_ground() {
    let line = with_stack(GROUND, || print_ground(11).bytes().to_vec());
    assert_eq!(line, b"    11\n");
}

#[test]
fn labels_of_the_largest_image() {
    let narrow = vec![7; MOST_PIXELS];
    let widened = with_stack(OTHER, move || widen_labels(&narrow));
    assert_eq!(widened, Ok(vec![7; MOST_PIXELS]));
}

/// As many bins and humps as there can be, which are joined to one mode.
#[test]
fn the_longest_line_and_its_log() {
    let line: Vec<u32> = (0..MOST_BINS as u32).map(|bin| bin % 2).collect();
    let (separators, joins, replayed) = with_stack(OTHER, move || {
        let log = join_log(&line, 20).unwrap();
        (line_modes(&line, 20), log.len(), replay(&line, 20, &log))
    });
    assert_eq!(separators, Ok(vec![0, 255]));
    assert!(joins > 100);
    assert_eq!(replayed, separators);
}

#[test]
fn the_longest_ring_and_its_fit() {
    let ring: Vec<u32> = (0..MOST_BINS as u32).map(|bin| bin % 2).collect();
    let (separators, cost, last) = with_stack(OTHER, move || {
        let verdict = verdict(&ring, Direction::Increasing, 20).unwrap();
        let fitted = fit(&ring, Direction::Increasing).unwrap();
        (ring_modes(&ring, 20), verdict.cost, fitted[MOST_BINS - 1])
    });
    assert_eq!(separators.map(|list| list.len()), Ok(1));
    assert!(cost < 0);
    assert_eq!((last.sum, last.length), (1, 1));
}
