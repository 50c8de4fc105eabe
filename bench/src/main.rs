//! How long decomposing a series and reading a members' sheet take: the proved program beside a plain one, on the same series and sheets.
//!
//!     bench                               the times, as tables for Markdown
//!     bench count PROGRAM N [replaced]    works the series of N months once with ours or plain, for counting instructions:
//!                                         the ordinary ones or those with nearly all values replaced
//!     bench count PROGRAM sheet N         reads the members' sheets of N months once
//!
//! A round takes each line in turn, and for each line ours and plain. All lent slices are cleared before each call,
//! outside the timed part; each call is timed by itself, and a round gives the median of its calls. Of the rounds the median
//! is taken, also of the ratios, which compare times of the same round.

use bench::series::{self, Dice, Series};
use bench::{ours, plain, plain_sheet, sheets, Answer, Lent, SheetLent};
use std::hint::black_box;
use std::time::Instant;

/// The kinds of series with their lengths, a line of the tables for each.
const LINES: [(Kind, usize); 6] =
    [(ORDINARY, 72), (ORDINARY, 120), (ORDINARY, 240), (ORDINARY, 600), (REPLACED, 72), (REPLACED, 600)];
/// The lengths of the members' sheets, a line of their own table for each.
const SHEETS: [usize; 2] = [72, 600];
const SERIES: u64 = 8;
const ROUNDS: usize = 201;
/// A round works so many months with each program.
const MONTHS_A_ROUND: usize = 40_000;

/// The name of a kind of series, and the kth series of n months.
type Kind = (&'static str, fn(usize, u64) -> Series);
const ORDINARY: Kind = ("ordinary", ordinary);
const REPLACED: Kind = ("replaced", replaced);

/// From small and smooth to large and noisy.
fn ordinary(n: usize, k: u64) -> Series {
    let level = [900, 4_000, 20_000, 90_000][k as usize % 4];
    series::ordinary(1000 * n as u64 + k, n, level, level / [100, 30][k as usize / 4])
}

/// Nearly all values of SI1 and SI2 are replaced. Each twelve months have one 0, by the throw of a die: of what was tried, nothing took
/// clearly longer.
fn replaced(n: usize, k: u64) -> Series {
    let (mut dice, mut month) = (Dice::new(1000 * n as u64 + k), 0);
    series::up_and_down(k as u8 + 1, n, 1, |t| {
        if t % 12 == 0 {
            month = dice.between(0, 11) as usize;
        }
        t % 12 == month
    })
}

fn inputs((_, series): Kind, n: usize) -> Vec<Series> {
    (0..SERIES).map(|k| series(n, k)).collect()
}

/// The bytes of a members' sheet.
struct Sheet(Vec<u8>);

/// The members' sheets of the ordinary series of n months; every third month is a revision.
fn sheets(n: usize) -> Vec<Sheet> {
    let sheet = |(k, series): (u64, Series)| Sheet(sheets::sheet(series.start, &sheets::revised(k, &series, |t| t % 3 == 2)));
    (0..).zip(inputs(ORDINARY, n)).map(sheet).collect()
}

/// A series or a members' sheet, with what is lent for it.
trait Input: Sized {
    type Lent: PartialEq;
    const NAME: &'static str;
    /// Ours and plain.
    const PROGRAMS: [fn(&Self, &mut Self::Lent) -> Answer; 2];
    /// What is lent for n months, every entry as given.
    fn lend(n: usize, value: u8) -> Self::Lent;
    fn clear(lent: &mut Self::Lent);
}

impl Input for Series {
    type Lent = Lent;
    const NAME: &'static str = "series";
    const PROGRAMS: [fn(&Series, &mut Lent) -> Answer; 2] = [
        |Series { start, figures }, lent| ours::decompose(figures, *start, lent),
        |Series { start, figures }, lent| plain::decompose(figures, *start, lent),
    ];

    fn lend(n: usize, value: u8) -> Lent {
        Lent::new(n, value.into(), value.into())
    }

    fn clear(lent: &mut Lent) {
        lent.fill(0, 0);
    }
}

impl Input for Sheet {
    type Lent = SheetLent;
    const NAME: &'static str = "members' sheet";
    const PROGRAMS: [fn(&Sheet, &mut SheetLent) -> Answer; 2] =
        [|Sheet(bytes), lent| ours::read_sheet(bytes, lent), |Sheet(bytes), lent| plain_sheet::read_sheet(bytes, lent)];

    fn lend(n: usize, value: u8) -> SheetLent {
        SheetLent::new(n, value)
    }

    fn clear(lent: &mut SheetLent) {
        lent.fill(0);
    }
}

/// Ends the program where ours and plain differ on some input.
fn check_agreement<I: Input>(line: &Line<I>) {
    for (k, input) in line.inputs.iter().enumerate() {
        let left = I::PROGRAMS.map(|work| {
            let mut lent = I::lend(line.n, 7);
            (work(input, &mut lent), lent)
        });
        if left[0].0 != (0, 0) || left[1] != left[0] {
            eprintln!("{} {k} of {} months: ours and plain differ, so no times are taken", I::NAME, line.n);
            std::process::exit(1);
        }
    }
}

/// Nanoseconds of a call, the median over all inputs so many times.
fn time<I: Input>(inputs: &[I], times: usize, work: fn(&I, &mut I::Lent) -> Answer, lent: &mut I::Lent) -> f64 {
    let mut calls = Vec::with_capacity(times * inputs.len());
    for _ in 0..times {
        for input in inputs {
            I::clear(lent);
            let (input, lent) = black_box((input, &mut *lent));
            let begun = Instant::now();
            black_box(work(input, lent));
            calls.push(begun.elapsed().as_nanos() as f64);
        }
    }
    percentile(calls.into_iter(), 50)
}

/// The inputs of one line with the times of all rounds, each of ours and plain.
struct Line<I> {
    name: &'static str,
    n: usize,
    inputs: Vec<I>,
    rounds: Vec<[f64; 2]>,
}

/// One round of one line.
fn measure<I: Input>(line: &mut Line<I>) {
    let Line { n, inputs, rounds, .. } = line;
    let times = MONTHS_A_ROUND / (*n * inputs.len());
    let mut lent = I::lend(*n, 0);
    rounds.push(I::PROGRAMS.map(|work| time(inputs, times, work, &mut lent)));
}

/// What the clock itself takes, a median.
fn clock() -> f64 {
    percentile((0..10_001).map(|_| Instant::now().elapsed().as_nanos() as f64), 50)
}

/// The value that so many per cent of all do not exceed.
fn percentile(values: impl Iterator<Item = f64>, percent: usize) -> f64 {
    let mut values: Vec<f64> = values.collect();
    values.sort_by(f64::total_cmp);
    values[(values.len() - 1) * percent / 100]
}

fn print_times<I: Input>(lines: &[Line<I>]) {
    println!("Nanoseconds for a {}, median of {ROUNDS} rounds (10th to 90th percentile):\n", I::NAME);
    println!("| {} | months | ours | plain | ours / plain |", I::NAME);
    println!("|---|---:|---:|---:|---:|");
    for Line { name, n, rounds, .. } in lines {
        let time = |k: usize, percent: usize| percentile(rounds.iter().map(|round| round[k]), percent);
        let times = [0, 1].map(|k| format!("{:.0} ({:.0} to {:.0})", time(k, 50), time(k, 10), time(k, 90)));
        let ratio = percentile(rounds.iter().map(|round| round[0] / round[1]), 50);
        println!("| {name} | {n} | {} | {ratio:.2} |", times.join(" | "));
    }
}

fn print_tables(lines: &[Line<Series>]) {
    print_times(lines);
    println!("\nNanoseconds for a month:\n");
    println!("| series | months | ours | plain |\n|---|---:|---:|---:|");
    for Line { name, n, rounds, .. } in lines {
        let times = [0, 1].map(|k| format!("{:.1}", percentile(rounds.iter().map(|round| round[k]), 50) / *n as f64));
        println!("| {name} | {n} | {} |", times.join(" | "));
    }
    println!("\nTimes of the others over those of the ordinary series:\n");
    println!("| series | months | ours | plain |\n|---|---:|---:|---:|");
    for Line { name, n, rounds, .. } in lines.iter().filter(|line| line.name != ORDINARY.0) {
        let Some(ordinary) = lines.iter().find(|line| line.name == ORDINARY.0 && line.n == *n) else { continue };
        let pairs = || rounds.iter().zip(&ordinary.rounds);
        let ratios = [0, 1].map(|k| format!("{:.2}", percentile(pairs().map(|(round, other)| round[k] / other[k]), 50)));
        println!("| {name} | {n} | {} |", ratios.join(" | "));
    }
}

/// All rounds, then the tables.
fn measure_all() {
    let mut lines = LINES.map(|(kind, n)| Line { name: kind.0, n, inputs: inputs(kind, n), rounds: Vec::new() });
    let mut sheet_lines = SHEETS.map(|n| Line { name: "a third revised", n, inputs: sheets(n), rounds: Vec::new() });
    lines.iter().for_each(check_agreement);
    sheet_lines.iter().for_each(check_agreement);
    for _ in 0..ROUNDS {
        lines.iter_mut().for_each(measure);
        sheet_lines.iter_mut().for_each(measure);
    }
    print_tables(&lines);
    println!();
    print_times(&sheet_lines);
    println!("\nThe clock itself takes about {:.0} ns of each call.", clock());
}

/// Works each input of n months once with one program.
fn count<I: Input>(program: &str, n: usize, inputs: Vec<I>) {
    let work = I::PROGRAMS[usize::from(program == "plain")];
    let mut lent = I::lend(n, 0);
    for input in black_box(inputs) {
        assert_eq!(black_box(work(&input, &mut lent)), (0, 0));
    }
}

/// The months that a word says, if a series may have so many.
fn months(word: &str) -> Option<usize> {
    word.parse().ok().filter(|n| (72..=600).contains(n))
}

fn main() {
    let words: Vec<String> = std::env::args().skip(1).collect();
    let done = match words.iter().map(String::as_str).collect::<Vec<&str>>()[..] {
        [] => {
            measure_all();
            Some(())
        }
        ["count", program @ ("ours" | "plain"), n] => months(n).map(|n| count(program, n, inputs(ORDINARY, n))),
        ["count", program @ ("ours" | "plain"), n, "replaced"] => months(n).map(|n| count(program, n, inputs(REPLACED, n))),
        ["count", program @ ("ours" | "plain"), "sheet", n] => months(n).map(|n| count(program, n, sheets(n))),
        _ => None,
    };
    if done.is_none() {
        eprintln!("bench, or bench count ours|plain N [replaced], or bench count ours|plain sheet N, with N from 72 to 600");
        std::process::exit(2);
    }
}
