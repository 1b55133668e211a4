//! Other programs that reduce a picture's colours, if they are installed. They are given the picture as a file and, if
//! they ask for a number of colours, as many as the card has entries. Their times include starting the program and reading
//! and writing files; the time on a picture of four pixels shows how long that takes alone.

use crate::picture::png;
use crate::NAME_WIDTH;
use cloths::swatch::Swatch;
use std::env;
use std::fs;
use std::io;
use std::path::{Path, PathBuf};
use std::process::{Command, Stdio};
use std::time::Instant;

const ROUNDS: usize = 9;

type Arguments = fn(&Path, &Path, u32) -> Command;

/// What is timed, the program that must be there, and how it is called.
const PROGRAMS: [(&str, &str, Arguments); 3] = [
    ("pngquant", "pngquant", pngquant),
    ("convert -colors", "convert", image_magick_colours),
    ("convert -segment", "convert", image_magick_segments),
];

fn pngquant(from: &Path, to: &Path, colours: u32) -> Command {
    let mut command = Command::new("pngquant");
    command.args(["--force", "--nofs", "--output"]).arg(to);
    command.arg(colours.to_string()).arg("--").arg(from);
    command
}

fn image_magick_colours(from: &Path, to: &Path, colours: u32) -> Command {
    let mut command = Command::new("convert");
    command.arg(from).args(["+dither", "-colors"]);
    command.arg(colours.to_string()).arg(to);
    command
}

/// It finds the colours from the histograms by itself, as a card does; thresholds are those that its manual has.
fn image_magick_segments(from: &Path, to: &Path, _colours: u32) -> Command {
    let mut command = Command::new("convert");
    command.arg(from).args(["-segment", "1x1.5"]).arg(to);
    command
}

/// `engine` is the engine's time on the same picture.
pub fn time(name: &str, swatch: &Swatch, entries: u32, engine: f64) {
    let colours = entries.max(2);
    let small = Swatch::new(2, 2, |column, row| [100 * column as u8, 100 * row as u8, 0]);
    for (title, program, arguments) in PROGRAMS {
        let heading = format!("{title}, {name}");
        if !installed(program) {
            println!("{heading:NAME_WIDTH$} not installed");
            continue;
        }
        let whole = median(arguments, swatch, colours);
        let start = median(arguments, &small, 2);
        match (whole, start) {
            (Ok(whole), Ok(start)) => {
                let times = (whole - start) / engine;
                println!(
                    "{heading:NAME_WIDTH$} {whole:12.0} {start:12.0} without a picture; the rest is {times:.1} of the engine"
                )
            }
            (Err(wrong), _) | (_, Err(wrong)) => {
                println!("{heading:NAME_WIDTH$} not timed: {wrong}")
            }
        }
    }
}

fn installed(program: &str) -> bool {
    let path = env::var_os("PATH").unwrap_or_default();
    env::split_paths(&path).any(|folder| folder.join(program).is_file())
}

/// Nanoseconds of one run, a median.
fn median(arguments: Arguments, swatch: &Swatch, colours: u32) -> Result<f64, String> {
    let folder = TemporaryFolder::new().map_err(|wrong| wrong.to_string())?;
    let (from, to) = (folder.0.join("from.png"), folder.0.join("to.png"));
    fs::write(&from, png(swatch)).map_err(|wrong| wrong.to_string())?;
    let mut times = Vec::new();
    for _ in 0..ROUNDS {
        let mut command = arguments(&from, &to, colours);
        command.stdout(Stdio::null()).stderr(Stdio::null());
        let start = Instant::now();
        let status = command.status().map_err(|wrong| wrong.to_string())?;
        times.push(start.elapsed().as_nanos() as f64);
        if !status.success() || !to.is_file() {
            return Err(format!("it ended with {status}"));
        }
    }
    times.sort_unstable_by(f64::total_cmp);
    Ok(times[ROUNDS / 2])
}

/// A folder that goes when it is let go.
struct TemporaryFolder(PathBuf);

impl TemporaryFolder {
    fn new() -> io::Result<TemporaryFolder> {
        let path = env::temp_dir().join(format!("kistrovu-bench-{}", std::process::id()));
        fs::create_dir_all(&path)?;
        Ok(TemporaryFolder(path))
    }
}

impl Drop for TemporaryFolder {
    fn drop(&mut self) {
        // What cannot be removed stays in the temporary folder.
        let _ = fs::remove_dir_all(&self.0);
    }
}
