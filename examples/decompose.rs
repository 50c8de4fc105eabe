//! Reads a desk file, examples/production.desk if none is named, and prints its tables: t (the month, counted from 0), figure, D10, D11, D12,
//! D13 in units, and the weights B17 and C17. The file's own weights are checked and not used. A refusal goes to standard error with its
//! number, place and text, and its number is the exit status; 100 if reading or printing fails (where standard output is closed, Rust prints
//! to the null device). In the repository's folder:
//!
//!     tools/build
//!     rustc --edition 2021 -O -D warnings -L target/staticlib -o target/decompose-rust examples/decompose.rs
//!     target/decompose-rust examples/production.desk

use std::ffi::OsStr;
use std::fmt::Display;
use std::fs::File;
use std::io::{stderr, stdout, Error, Read, Write};
use std::process::ExitCode;

// As in include/vepsjalm.h, which says what each asks and leaves. A slice is a pointer and its length.
#[link(name = "vepsjalm", kind = "static")]
extern "C" {
    fn vepsjalm_read(
        file: *const u8, file_length: usize, figures: *mut i32, figures_length: usize, weights: *mut u16, weights_length: usize,
        count: *mut usize, start: *mut u8, place: *mut usize,
    ) -> u8;
    fn vepsjalm_decompose(
        figures: *const i32, figures_length: usize, start: u8,
        d10: *mut i64, d10_length: usize, d11: *mut i64, d11_length: usize,
        d12: *mut i64, d12_length: usize, d13: *mut i64, d13_length: usize,
        b17: *mut u16, b17_length: usize, c17: *mut u16, c17_length: usize,
        scratch: *mut i64, scratch_length: usize, place: *mut usize,
    ) -> u8;
}

const MOST_MONTHS: usize = 600;
const LONGEST_FILE: u64 = 3604;
const FAILED: u8 = 100; // the exit status where the system fails to read or print: no refusal has this number

/// When each number of the refusal sheet is the answer, in the header's words.
fn refusal_text(number: u8) -> &'static str {
    match number {
        0 => "no refusal",
        1 => "n below 72",
        2 => "n above 600",
        3 => "start month outside 1 to 12",
        4 => "a lent slice has the wrong length",
        5 => "a figure outside -200,000 to 200,000",
        7 => "a file of fewer bytes than its header, or a members' sheet than its sizes",
        8 => "the file's period is not 12",
        9 => "the length of the file or members' sheet is not that of n months",
        10 => "a weight above 1,000",
        11 => "first year or year of the last month outside 1 to 9999",
        12 => "an unknown kind, or an unused double with a byte that is not zero",
        13 => "a gap in the members' sheet",
        14 => "a double that is no whole number within -200,000 to 200,000",
        _ => "no number of the refusal sheet",
    }
}

/// The figures and the start month, or a refusal's number and place.
fn read(file: &[u8]) -> Result<(Vec<i32>, u8), (u8, usize)> {
    let (mut figures, mut weights) = (vec![0; MOST_MONTHS], vec![0; MOST_MONTHS]);
    let (mut count, mut start, mut place) = (0, 0, 0);
    // Each pointer goes with the length of what it points to, and no two overlap; below likewise.
    let number = unsafe {
        vepsjalm_read(file.as_ptr(), file.len(), figures.as_mut_ptr(), MOST_MONTHS, weights.as_mut_ptr(), MOST_MONTHS,
            &mut count, &mut start, &mut place)
    };
    figures.truncate(count);
    if number == 0 { Ok((figures, start)) } else { Err((number, place)) }
}

/// The text of the tables, or a refusal's number and place.
fn tables(figures: &[i32], start: u8) -> Result<String, (u8, usize)> {
    let n = figures.len();
    let (mut d10, mut d11, mut d12, mut d13) = (vec![0; n], vec![0; n], vec![0; n], vec![0; n]);
    let (mut b17, mut c17, mut scratch, mut place) = (vec![0; n], vec![0; n], vec![0; 5 * n], 0);
    let number = unsafe {
        vepsjalm_decompose(figures.as_ptr(), n, start,
            d10.as_mut_ptr(), n, d11.as_mut_ptr(), n, d12.as_mut_ptr(), n, d13.as_mut_ptr(), n,
            b17.as_mut_ptr(), n, c17.as_mut_ptr(), n, scratch.as_mut_ptr(), scratch.len(), &mut place)
    };
    if number != 0 {
        return Err((number, place));
    }
    let units = |thousandths: i64| thousandths as f64 / 1000.0;
    let mut text = format!("{:>3} {:>7} {:>12} {:>12} {:>12} {:>12} {:>4} {:>4}\n",
        "t", "figure", "D10", "D11", "D12", "D13", "B17", "C17");
    for t in 0..n {
        text += &format!("{t:3} {:7} {:12.3} {:12.3} {:12.3} {:12.3} {:4} {:4}\n", figures[t],
            units(d10[t]), units(d11[t]), units(d12[t]), units(d13[t]), b17[t], c17[t]);
    }
    Ok(text)
}

/// The file, or its first bytes: one more than the longest desk file, so that a longer one is seen to be too long.
fn load(name: &OsStr) -> Result<Vec<u8>, Error> {
    let mut file = Vec::new();
    File::open(name)?.take(LONGEST_FILE + 1).read_to_end(&mut file)?;
    Ok(file)
}

fn print(text: &str) -> Result<(), Error> {
    stdout().write_all(text.as_bytes())?;
    stdout().flush()
}

/// Puts a line on standard error; where that fails, the exit status alone tells what happened (eprintln! would panic).
fn say(line: impl Display) {
    let _ = writeln!(stderr(), "{line}");
}

/// Says what failed (a file's name, or standard output) and why; the exit status.
fn failed(what: impl Display, error: Error) -> u8 {
    say(format_args!("{what}: {error}"));
    FAILED
}

/// Says the refusal; the exit status.
fn refused((number, place): (u8, usize)) -> u8 {
    say(format_args!("refused {number} {place}: {}", refusal_text(number)));
    number
}

/// The exit status where the tables could not be printed.
fn run(name: &OsStr) -> Result<(), u8> {
    let file = load(name).map_err(|error| failed(name.display(), error))?;
    let (figures, start) = read(&file).map_err(refused)?;
    let text = tables(&figures, start).map_err(refused)?;
    print(&text).map_err(|error| failed("standard output", error))
}

fn main() -> ExitCode {
    let name = std::env::args_os().nth(1).unwrap_or("examples/production.desk".into());
    ExitCode::from(run(&name).err().unwrap_or(0))
}
