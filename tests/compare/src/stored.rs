//! The stored swatches of `swatches/` and of `examples/`: the engine's calls and, if KISTROVU_CARD names it, the card
//! program are compared with the stored cards, byte for byte. The program is given very long texts too.

use crate::card_comparison::shown;
use crate::comparison::{Difference, Tally};
use crate::text_groups::very_long;
use cloths::random::Random;
use cloths::stored::{printed, stored, Stored};
use std::env;
use std::ffi::OsString;
use std::io::Write;
use std::process::{Command, Stdio};
use std::thread;

/// The program to try, if one is named.
pub fn program() -> Option<OsString> {
    env::var_os("KISTROVU_CARD")
}

pub fn by_calls(tally: &mut Tally) -> Result<(), Difference> {
    compare(kept()?, tally, |text| {
        let card = engine::print_card(&mut text.to_vec());
        let answer = match card.number {
            0 => card,
            ground => engine::print_ground(ground),
        };
        let end = answer.bytes.len().min(answer.len as usize);
        Ok(answer.bytes[..end].to_vec())
    })
}

pub fn by_program(program: &OsString, tally: &mut Tally) -> Result<(), Difference> {
    compare(kept()?, tally, |text| run(program, text))
}

pub fn long_by_program(
    program: &OsString,
    random: &mut Random,
    tally: &mut Tally,
) -> Result<(), Difference> {
    let texts = very_long(random).into_iter().enumerate();
    let swatches = texts.map(|(index, text)| Stored {
        name: format!("number {index} of the very long texts"),
        card: printed(&text),
        text,
    });
    compare(swatches.collect(), tally, |text| run(program, text))
}

fn kept() -> Result<Vec<Stored>, Difference> {
    stored().map_err(|wrong| Difference {
        input: "the stored swatches".to_string(),
        reference: "can be read".to_string(),
        engine: wrong,
    })
}

fn compare(
    swatches: Vec<Stored>,
    tally: &mut Tally,
    printed: impl Fn(&[u8]) -> Result<Vec<u8>, String>,
) -> Result<(), Difference> {
    for Stored { name, text, card } in swatches {
        tally.stored += 1;
        let found = printed(&text);
        if found.as_deref() != Ok(card.as_slice()) {
            return Err(Difference {
                input: format!("swatch {name}"),
                reference: shown(&card),
                engine: found.map_or_else(|wrong| wrong, |bytes| shown(&bytes)),
            });
        }
    }
    Ok(())
}

/// What the program prints. It may end before it has read everything.
fn run(program: &OsString, text: &[u8]) -> Result<Vec<u8>, String> {
    let mut child = Command::new(program)
        .stdin(Stdio::piped())
        .stdout(Stdio::piped())
        .spawn()
        .map_err(|wrong| format!("{}: {wrong}", program.display()))?;
    let mut input = child.stdin.take().expect("it was asked for");
    let text = text.to_vec();
    let writer = thread::spawn(move || input.write_all(&text));
    let output = child.wait_with_output().map_err(|wrong| wrong.to_string());
    // A pipe that the program closed early is no difference.
    let _ = writer.join();
    let output = output?;
    // Any exit code will do, but a program that was stopped has none.
    match output.status.code() {
        Some(_) => Ok(output.stdout),
        None => Err(format!("ended by {}", output.status)),
    }
}
