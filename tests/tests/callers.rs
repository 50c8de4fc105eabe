//! The examples in C and Rust, built and run by the commands of their headings, beside the separately written program; and the C header: its
//! constants beside the limits and refusals, its texts, its functions for both forms of the desk file, and the call with a struct beside the
//! plain one, on scratches of several lengths.

use separate::columns::{self, from_columns, read_columns, to_columns, write_columns, EARLIEST_YEAR, LATEST_YEAR};
use separate::decompose::{decompose, decompose_fitting, scratch_for, Lent, Refusal, Tables, FEWEST_MONTHS, FIGURE_LIMIT, MOST_MONTHS};
use separate::desk::{bytes_of, read, write, DeskSeries};
use separate::generators::book_series;
use separate::sheet::{self, read_sheet, Cell, SheetSeries};
use std::fs;
use std::io::Write;
use std::os::unix::fs::symlink;
use std::path::{Path, PathBuf};
use std::process::{Command, Output, Stdio};
use std::sync::LazyLock;

const VERSION: [usize; 3] = [0, 18, 1];

/// The words of the refusal sheet by number, and those for every other number. There is no 6.
const TEXTS: [(u8, &str); 14] = [
    (0, "no refusal"),
    (1, "n below 72"),
    (2, "n above 600"),
    (3, "start month outside 1 to 12"),
    (4, "a lent slice has the wrong length"),
    (5, "a figure outside -200,000 to 200,000"),
    (7, "a file of fewer bytes than its header, or a members' sheet than its sizes"),
    (8, "the file's period is not 12"),
    (9, "the length of the file or members' sheet is not that of n months"),
    (10, "a weight above 1,000"),
    (11, "first year or year of the last month outside 1 to 9999"),
    (12, "an unknown kind, or an unused double with a byte that is not zero"),
    (13, "a gap in the members' sheet"),
    (14, "a double that is no whole number within -200,000 to 200,000"),
];
const NO_TEXT: &str = "no number of the refusal sheet";

/// The exit status where the system fails to read or write.
const FAILED: i32 = 100;

fn root() -> &'static Path {
    Path::new(env!("CARGO_MANIFEST_DIR")).parent().expect("the repository's folder")
}

/// A file of the tests' own.
fn own(name: &str) -> PathBuf {
    Path::new(env!("CARGO_TARGET_TMPDIR")).join(name)
}

fn stored(name: &str, bytes: &[u8]) -> PathBuf {
    fs::write(own(name), bytes).expect("a file");
    own(name)
}

fn text(bytes: &[u8]) -> String {
    String::from_utf8(bytes.to_vec()).expect("text")
}

/// Runs a command in the repository's folder, by the shell.
fn shell(command: &str) -> Output {
    Command::new("sh").arg("-c").arg(command).current_dir(root()).output().expect("a shell")
}

/// Builds a program that was not there before.
fn build(command: &str, program: &Path) {
    let _ = fs::remove_file(program);
    assert!(!program.exists());
    let built = shell(command);
    assert!(built.status.success() && program.exists(), "{command}\n{}", text(&built.stderr));
}

/// The lines of an example's heading that start so.
fn heading_lines(source: &str, start: &str) -> Vec<String> {
    let text = fs::read_to_string(root().join(source)).expect("an example");
    text.lines().map(|line| line.trim_start_matches("//!").trim().to_string()).filter(|line| line.starts_with(start)).collect()
}

/// The one line that starts so.
fn heading_line(source: &str, start: &str) -> String {
    let lines = heading_lines(source, start);
    assert_eq!(lines.len(), 1, "{source}: {start}");
    lines[0].clone()
}

struct Example {
    source: &'static str,
    program: PathBuf,
}

impl Example {
    /// Built by the command of its heading that starts so.
    fn built(source: &'static str, compiler: &str) -> Example {
        let command = heading_line(source, compiler);
        let (_, after) = command.split_once("-o ").expect("the program's name");
        let (name, _) = after.split_once(' ').expect("a program and its sources");
        let program = root().join(name);
        assert!(heading_lines(source, "target/").iter().all(|run| run.starts_with(&format!("{name} "))), "{source}");
        build(&command, &program);
        Example { source, program }
    }

    /// Built so that a file left open makes the exit status 99.
    fn counting_streams(source: &'static str) -> Example {
        let command = heading_line(source, "cc ");
        let (before, after) = command.split_once("-o target/").expect("the program's name");
        let (name, sources) = after.split_once(' ').expect("a program and its sources");
        let program = own(&format!("{name}-streams"));
        build(&format!("{before}-include tests/tests/streams.h -o '{}' {sources}", program.display()), &program);
        Example { source, program }
    }

    /// The command of its heading that runs it.
    fn run(&self) -> String {
        heading_line(self.source, "target/")
    }

    /// Runs the program on files by the shell, in the repository's folder.
    fn output(&self, before: &str, files: &[&Path], redirections: &str) -> Output {
        let script = format!("{before} exec \"$0\" \"$@\" {redirections}");
        Command::new("sh").arg("-c").arg(script).arg(&self.program).args(files).current_dir(root()).output().expect("a run")
    }

    /// Exit status, standard output, standard error.
    fn on(&self, files: &[&Path], redirections: &str) -> (i32, String, String) {
        given(&self.output("", files, redirections))
    }
}

static IN_C: LazyLock<Example> = LazyLock::new(|| Example::built("examples/decompose.c", "cc "));
static IN_RUST: LazyLock<Example> = LazyLock::new(|| Example::built("examples/decompose.rs", "rustc "));
static FINAL_WEIGHTS: LazyLock<Example> = LazyLock::new(|| Example::built("examples/final-weights.c", "cc "));
static COLUMNS: LazyLock<Example> = LazyLock::new(|| Example::built("examples/columns.c", "cc "));
static SHEET: LazyLock<Example> = LazyLock::new(|| Example::built("examples/sheet.c", "cc "));

fn given(output: &Output) -> (i32, String, String) {
    (output.status.code().expect("an exit status"), text(&output.stdout), text(&output.stderr))
}

/// Thousandths as units with three decimals, by whole numbers.
fn units(thousandths: i64) -> String {
    let (sign, size) = if thousandths < 0 { ("-", -thousandths) } else { ("", thousandths) };
    format!("{sign}{}.{:03}", size / 1000, size % 1000)
}

fn tables_text(figures: &[i32], tables: &Tables) -> String {
    let mut text = "  t  figure          D10          D11          D12          D13  B17  C17\n".to_string();
    for (t, figure) in figures.iter().enumerate() {
        let [d10, d11, d12, d13] = [&tables.d10, &tables.d11, &tables.d12, &tables.d13].map(|table| units(table[t]));
        let (b17, c17) = (tables.b17[t], tables.c17[t]);
        text.push_str(&format!("{t:>3} {figure:>7} {d10:>12} {d11:>12} {d12:>12} {d13:>12} {b17:>4} {c17:>4}\n"));
    }
    text
}

fn worked(file: &[u8]) -> Result<(DeskSeries, Tables), Refusal> {
    let series = read(file, MOST_MONTHS, MOST_MONTHS)?;
    let tables = decompose_fitting(&series.figures, series.start)?;
    Ok((series, tables))
}

/// The words for any number.
fn text_of(number: u8) -> &'static str {
    TEXTS.iter().find(|(own, _)| *own == number).map_or(NO_TEXT, |(_, text)| text)
}

/// What a refusal puts on standard error.
fn refusal_line(number: u8, place: usize) -> String {
    format!("refused {number} {place}: {}\n", text_of(number))
}

/// What an example that prints tables must give for a file: exit status, standard output, standard error.
fn expected(file: &[u8]) -> (i32, String, String) {
    match worked(file) {
        Ok((series, tables)) => (0, tables_text(&series.figures, &tables), String::new()),
        Err(Refusal { number, place }) => (number.into(), String::new(), refusal_line(number, place)),
    }
}

fn desk(figures: &[i32], start: u8) -> Vec<u8> {
    bytes_of(figures, start, 12, &vec![1000; figures.len()])
}

fn book() -> Vec<u8> {
    desk(&book_series(), 10)
}

/// Desk files that are accepted: one with small figures, whose tables have values between -1 and 0, and with weights that are not its final
/// ones; and the longest, at both limits.
fn accepted() -> [Vec<u8>; 2] {
    let small: Vec<i32> = (0..72).map(|t| t * t % 7 - 3).collect();
    let weights: Vec<u16> = (0..72).map(|t| t * 14).collect();
    let large: Vec<i32> = (0..600).map(|t| if t * t % 11 < 4 { FIGURE_LIMIT } else { -FIGURE_LIMIT }).collect();
    let small = bytes_of(&small, 7, 12, &weights);
    assert!(expected(&small).1.contains(" -0."));
    [small, desk(&large, 1)]
}

/// Desk files that are refused, with the number and the place.
fn refused() -> Vec<(Vec<u8>, u8, usize)> {
    let good = desk(&[100; 72], 1);
    let mut longer = desk(&[100; 600], 1);
    longer.extend([0; 2000]);
    let (mut figures, mut weights) = ([100; 72], [1000; 72]);
    (figures[44], weights[5]) = (-200_001, 1001);
    vec![
        (desk(&[100; 71], 1), 1, 0),
        (desk(&[100; 601], 1), 2, 0),
        (desk(&[100; 72], 13), 3, 0),
        (desk(&figures, 1), 5, 44),
        (vec![], 7, 0),
        (good[..3].to_vec(), 7, 0),
        (bytes_of(&[100; 72], 1, 4, &[1000; 72]), 8, 0),
        (good[..435].to_vec(), 9, 0),
        (longer[..3605].to_vec(), 9, 0),
        (longer, 9, 0),
        (bytes_of(&[100; 72], 1, 12, &weights), 10, 5),
    ]
}

/// The tables of files that are accepted, and the lines of those that are refused.
fn try_printing(example: &Example, name: &str) {
    let run = &example.run();
    assert!(run.ends_with(" examples/production.desk"));
    assert_eq!(expected(&book()).1.lines().count(), 115);
    assert_eq!(given(&shell(run)), expected(&book()), "{run}");
    assert_eq!(example.on(&[], ""), expected(&book()), "{run}, without the name of the same file");
    for file in accepted() {
        assert_eq!(expected(&file).0, 0);
        assert_eq!(example.on(&[&stored(name, &file)], ""), expected(&file), "{run}, {} bytes", file.len());
    }
    for (file, number, place) in refused() {
        assert_eq!(expected(&file), (number.into(), String::new(), refusal_line(number, place)));
        assert_eq!(example.on(&[&stored(name, &file)], ""), expected(&file), "{run}, {} bytes", file.len());
    }
}

#[test]
fn example_in_c() {
    try_printing(&IN_C, "printed-in-c.desk");
}

#[test]
fn example_in_rust() {
    try_printing(&IN_RUST, "printed-in-rust.desk");
}

/// One line on standard error that starts so; nothing on standard output.
fn assert_failed(given: (i32, String, String), start: &str, what: &str) {
    assert_eq!((given.0, given.1.as_str()), (FAILED, ""), "{what}");
    assert!(given.2.starts_with(start) && given.2.ends_with('\n') && given.2.lines().count() == 1, "{what}: {}", given.2);
}

/// Output that fails at the end only: the shell lets a file have 8,192 bytes.
fn try_cut_output(example: &Example, book_file: &Path) {
    let cut = book_file.with_extension("cut");
    let output = example.output("trap '' XFSZ; ulimit -f 16;", &[book_file], &format!(">'{}'", cut.display()));
    assert_failed(given(&output), "standard output: File too large", "cut output");
    let whole = expected(&book()).1;
    assert!((8193..12288).contains(&whole.len()), "buffers of 4,096 bytes: all but the last go out");
    assert_eq!(text(&fs::read(&cut).expect("a file")), whole[..8192]);
}

/// Input and output that fail, and refusals; also where standard error is full or closed.
fn try_failing(example: &Example, name: &str) {
    let (missing, folder) = (own("missing.desk"), root().join("examples"));
    let book_file = stored(name, &book());
    for (file, why) in [(&missing, "No such file or directory"), (&folder, "Is a directory")] {
        let named = format!("{}: {why}", file.display());
        assert_failed(example.on(&[file], ""), &named, &named);
        for redirection in ["2>/dev/full", "2>&-", ">&- 2>&-"] {
            assert_eq!(example.on(&[file], redirection), (FAILED, String::new(), String::new()), "{named}, {redirection}");
        }
    }
    assert_failed(example.on(&[&book_file], ">/dev/full"), "standard output: No space left on device", "full output");
    for redirections in [">/dev/full 2>/dev/full", ">/dev/full 2>&-"] {
        assert_eq!(example.on(&[&book_file], redirections), (FAILED, String::new(), String::new()), "{redirections}");
    }
    for redirection in ["2>/dev/full", "2>&-"] {
        assert_eq!(example.on(&[&book_file], redirection), expected(&book()), "{redirection}");
    }
    try_cut_output(example, &book_file);
    for (file, number, _) in refused() {
        let refused_file = stored(name, &file);
        for redirections in ["2>/dev/full", "2>&-", ">&- 2>&-"] {
            assert_eq!(example.on(&[&refused_file], redirections), (number.into(), String::new(), String::new()), "{redirections}");
        }
    }
}

#[test]
fn failing_input_and_output_in_c() {
    try_failing(&IN_C, "failing-in-c.desk");
    let book_file = stored("closed-in-c.desk", &book());
    assert_failed(IN_C.on(&[&book_file], ">&-"), "standard output: Bad file descriptor", "closed output");
}

#[test]
fn failing_input_and_output_in_rust() {
    try_failing(&IN_RUST, "failing-in-rust.desk");
    let book_file = stored("closed-in-rust.desk", &book());
    assert_eq!(IN_RUST.on(&[&book_file], ">&-"), (0, String::new(), String::new()), "the null device for closed output");
}

/// What final-weights must write for a file: the series with its C17.
fn with_final_weights(file: &[u8]) -> Vec<u8> {
    let (series, tables) = worked(file).expect("an accepted file");
    bytes_of(&series.figures, series.start, 12, &tables.c17)
}

/// A name with no file.
fn free(name: &str) -> PathBuf {
    let _ = fs::remove_file(own(name));
    assert!(!own(name).exists() && !own(name).is_symlink());
    own(name)
}

const SILENT: (i32, String, String) = (0, String::new(), String::new());

#[test]
fn final_weights() {
    let run = FINAL_WEIGHTS.run();
    let by_heading = root().join(run.rsplit_once(' ').expect("two files").1);
    let _ = fs::remove_file(&by_heading);
    assert_eq!(given(&shell(&run)), SILENT, "{run}");
    assert_eq!(fs::read(&by_heading).expect("a file"), with_final_weights(&book()));
    assert_ne!(with_final_weights(&book()), book());
    for file in accepted() {
        for redirections in ["", ">/dev/full", ">&-", "2>&-", ">&- 2>&-", "<&- >&- 2>&-"] {
            let (from, to) = (stored("in.desk", &file), free("out.desk"));
            assert_eq!(FINAL_WEIGHTS.on(&[&from, &to], redirections), SILENT, "{redirections}");
            assert_eq!(fs::read(&to).expect("a file"), with_final_weights(&file), "{redirections}");
        }
    }
}

#[test]
fn final_weights_without_input() {
    let to = free("not-made.desk");
    for (file, number, place) in refused() {
        let from = stored("refused.desk", &file);
        assert_eq!(FINAL_WEIGHTS.on(&[&from, &to], ""), (number.into(), String::new(), refusal_line(number, place)));
        for redirection in ["2>/dev/full", "2>&-"] {
            assert_eq!(FINAL_WEIGHTS.on(&[&from, &to], redirection), (number.into(), String::new(), String::new()), "{redirection}");
        }
    }
    for (from, why) in [(own("missing.desk"), "No such file or directory"), (root().join("examples"), "Is a directory")] {
        let named = format!("{}: {why}", from.display());
        assert_failed(FINAL_WEIGHTS.on(&[&from, &to], ""), &named, &named);
    }
    for files in [&[][..], &[to.as_path()], &[to.as_path(); 3]] {
        assert_failed(FINAL_WEIGHTS.on(files, ""), "usage: final-weights IN.desk OUT.desk", "usage");
    }
    assert!(!to.exists());
}

/// The words of a run that makes a file of another: both names, and what follows them.
fn names<'a>(from: &'a Path, to: &'a Path, after: &[&'a Path]) -> Vec<&'a Path> {
    [&[from, to], after].concat()
}

/// Outputs that cannot be made; those that are there stay as they are.
fn try_without_output(example: &Example, name: &str, file: &[u8], after: &[&Path]) {
    let from = stored(&format!("{name}-from"), file);
    let (there, full) = (stored(&format!("{name}-there"), b"what was there"), free(&format!("{name}-full")));
    symlink("/dev/full", &full).expect("a name for the full device");
    for (to, why) in [
        (there.clone(), "File exists"),
        (from.clone(), "File exists"),
        (full.clone(), "File exists"),
        (root().join("examples"), "File exists"),
        (own("no-folder/out"), "No such file or directory"),
    ] {
        let named = format!("{}: {why}", to.display());
        let words = names(&from, &to, after);
        assert_failed(example.on(&words, ""), &named, &named);
        for redirection in ["2>/dev/full", "2>&-"] {
            assert_eq!(example.on(&words, redirection), (FAILED, String::new(), String::new()), "{named}, {redirection}");
        }
    }
    assert_eq!(fs::read(&there).expect("a file"), b"what was there");
    assert_eq!(fs::read(&from).expect("a file"), file);
    assert!(full.is_symlink());
}

/// The shell lets a file have 512 bytes: writing the longest fails half-way.
const HALF: &str = "trap '' XFSZ; ulimit -f 1;";

/// What is half-written is removed.
fn try_half_written(example: &Example, name: &str, file: &[u8], after: &[&Path]) {
    let from = stored(&format!("{name}-whole"), file);
    let cut = own(&format!("{name}-half"));
    let half = shell(&format!("{HALF} cat '{}' > '{}'", from.display(), cut.display()));
    assert!(!half.status.success() && fs::metadata(&cut).expect("half a file").len() == 512);
    for (redirection, line) in [("", "File too large\n"), ("2>&-", "")] {
        let to = free(&format!("{name}-half-written"));
        let words = names(&from, &to, after);
        let (status, output, error) = given(&example.output(HALF, &words, redirection));
        let line = if line.is_empty() { String::new() } else { format!("{}: {line}", to.display()) };
        assert_eq!((status, output.as_str(), error), (FAILED, "", line), "{redirection}");
        assert!(!to.exists(), "{redirection}");
    }
}

#[test]
fn final_weights_without_output() {
    let [_, longest] = accepted();
    try_without_output(&FINAL_WEIGHTS, "weights", &longest, &[]);
    try_half_written(&FINAL_WEIGHTS, "weights", &longest, &[]);
}

/// The word for a first year.
fn word(year: &str) -> &Path {
    Path::new(year)
}

/// What moving back puts on standard output.
fn year_line(year: u16) -> String {
    format!("first year {year}\n")
}

#[test]
fn columns_by_the_heading() {
    let runs = heading_lines(COLUMNS.source, "target/");
    let [made, made_again] = ["target/production-moved.columns", "target/production-again.desk"].map(|name| root().join(name));
    for file in [&made, &made_again] {
        let _ = fs::remove_file(file);
    }
    let by_month = to_columns(&book(), 1985, usize::MAX).expect("a file");
    for (run, output, made, file) in [(&runs[0], String::new(), &made, by_month), (&runs[1], year_line(1985), &made_again, book())] {
        assert_eq!(given(&shell(run)), (0, output, String::new()), "{run}");
        assert_eq!(fs::read(made).expect("a file"), file, "{run}");
    }
    assert_eq!(runs.len(), 2);
}

/// Forward, and back again; also where what is not used is closed or full.
#[test]
fn columns_there_and_back() {
    let [small, longest] = accepted();
    for (plain, year) in [(&small, 1), (&small, 256), (&small, 9993), (&longest, 1), (&longest, 2021), (&longest, 9950)] {
        let by_month = to_columns(plain, year, usize::MAX).expect("a file");
        for redirections in ["", ">/dev/full", ">&-", "2>&-", ">&- 2>&-", "<&- >&- 2>&-"] {
            let (from, to) = (stored("there.desk", plain), free("there.columns"));
            assert_eq!(COLUMNS.on(&[&from, &to, word(&year.to_string())], redirections), SILENT, "{year}, {redirections}");
            assert_eq!(fs::read(&to).expect("a file"), by_month, "{year}, {redirections}");
        }
        for redirections in ["", "2>/dev/full", "2>&-", "<&- 2>&-"] {
            let (from, to) = (stored("back.columns", &by_month), free("back.desk"));
            assert_eq!(COLUMNS.on(&[&from, &to], redirections), (0, year_line(year), String::new()), "{year}, {redirections}");
            assert_eq!(&fs::read(&to).expect("a file"), plain, "{year}, {redirections}");
        }
    }
}

/// A file by calendar month with one thing changed: 72 months from July of 2021.
fn changed(change: impl Fn(&mut [i32; 72], &mut [u16; 72], &mut u16)) -> Vec<u8> {
    let (mut figures, mut weights, mut year) = ([100; 72], [1000; 72], 2021);
    change(&mut figures, &mut weights, &mut year);
    columns::bytes_of(&figures, 7, year, &weights)
}

/// Files by calendar month that are refused, with the number and the place. From July t 5 is a December and stands after t 6, a January.
fn refused_by_month() -> Vec<(Vec<u8>, u8, usize)> {
    let same = |n: usize| columns::bytes_of(&vec![100; n], 7, 2021, &vec![1000; n]);
    let with_byte = |place: usize, byte: u8| {
        let mut file = same(72);
        file[place] = byte;
        file
    };
    let mut longer = same(600);
    longer.extend([0; 2000]);
    vec![
        (same(71), 1, 0),
        (same(601), 2, 0),
        (with_byte(2, 13), 3, 0),
        (changed(|figures, _, _| (figures[5], figures[6]) = (-200_001, 200_001)), 5, 5),
        (vec![], 7, 0),
        (same(72)[..5].to_vec(), 7, 0),
        (with_byte(3, 4), 8, 0),
        (same(72)[..437].to_vec(), 9, 0),
        (longer[..3607].to_vec(), 9, 0),
        (longer, 9, 0),
        (book(), 9, 0),
        (changed(|_, weights, _| (weights[5], weights[6]) = (1001, 1001)), 10, 5),
        (changed(|_, _, year| *year = 0), 11, 0),
        (changed(|_, _, year| *year = 9994), 11, 0),
        (changed(|_, _, year| *year = 65_535), 11, 0),
    ]
}

/// A refusal is said on standard error, its number is the exit status, and nothing is made.
fn assert_refused(words: &[&Path], number: u8, place: usize) {
    let status = i32::from(number);
    assert_eq!(COLUMNS.on(words, ""), (status, String::new(), refusal_line(number, place)), "{words:?}");
    for redirections in ["2>/dev/full", "2>&-", ">&- 2>&-"] {
        assert_eq!(COLUMNS.on(words, redirections), (status, String::new(), String::new()), "{words:?}, {redirections}");
    }
    assert!(!words[1].exists(), "{words:?}");
}

#[test]
fn columns_refuses_files() {
    let to = free("refused-out");
    for (file, number, place) in refused() {
        assert_eq!(to_columns(&file, 2021, usize::MAX), Err(Refusal { number, place }));
        assert_refused(&[&stored("refused-forward", &file), &to, word("2021")], number, place);
    }
    for (file, number, place) in refused_by_month() {
        assert_eq!(from_columns(&file, usize::MAX), Err(Refusal { number, place }));
        assert_refused(&[&stored("refused-back", &file), &to], number, place);
    }
    assert_refused(&[&stored("refused-forward", &changed(|_, _, _| ())), &to, word("2021")], 9, 0);
}

/// Years that are refused; cut to 16, 32 or 64 bits those of the second line would be 1985.
#[test]
fn columns_refuses_years() {
    let (from, to) = (stored("years.desk", &book()), free("years.columns"));
    for year in ["0", "-0", "-1", "9990", "9999", "10000", "32768", "65535", "65536", "-32768", "99999999999999999999", "-99999999999999999999",
        "67521", "-63551", "4294969281", "-4294965311", "18446744073709553601", "-18446744073709549631"] {
        let nearest = year.parse::<i128>().expect("a number").clamp(0, u16::MAX.into()) as u16;
        assert_eq!(to_columns(&book(), nearest, usize::MAX), Err(Refusal { number: 11, place: 0 }), "{year}");
        assert_refused(&[&from, &to, word(year)], 11, 0);
    }
}

#[test]
fn columns_without_input() {
    let (from, to) = (stored("not-moved.desk", &book()), free("not-moved-out"));
    for (from, why) in [(own("missing.desk"), "No such file or directory"), (root().join("examples"), "Is a directory")] {
        let named = format!("{}: {why}", from.display());
        assert_failed(COLUMNS.on(&[&from, &to], ""), &named, &named);
        assert_failed(COLUMNS.on(&[&from, &to, word("2021")], ""), &named, &named);
    }
    let usage = "usage: columns PLAIN OUT YEAR, or columns BY-MONTH OUT";
    for words in [&[][..], &[from.as_path()], &[&from, &to, word("2021"), word("1")]] {
        assert_failed(COLUMNS.on(words, ""), usage, usage);
    }
    for year in ["", " ", "-", "x", "2021x", "2021 ", "20 21", "2021.0", "2021-03", "x2021", "\u{661}"] {
        assert_failed(COLUMNS.on(&[&from, &to, word(year)], ""), usage, year);
    }
    assert!(!to.exists());
}

#[test]
fn columns_without_output() {
    let [_, longest] = accepted();
    let by_month = to_columns(&longest, 2021, usize::MAX).expect("a file");
    try_without_output(&COLUMNS, "forward", &longest, &[word("2021")]);
    try_half_written(&COLUMNS, "forward", &longest, &[word("2021")]);
    try_without_output(&COLUMNS, "back", &by_month, &[]);
    try_half_written(&COLUMNS, "back", &by_month, &[]);
    let (from, to) = (stored("untold.columns", &by_month), free("untold.desk"));
    for (redirection, why) in [(">/dev/full", "No space left on device"), (">&-", "Bad file descriptor")] {
        assert_failed(COLUMNS.on(&[&from, &to], redirection), &format!("standard output: {why}"), redirection);
        assert!(!to.exists(), "{redirection}");
        for error in ["2>/dev/full", "2>&-"] {
            let redirections = format!("{redirection} {error}");
            assert_eq!(COLUMNS.on(&[&from, &to], &redirections), (FAILED, String::new(), String::new()), "{redirections}");
            assert!(!to.exists(), "{redirections}");
        }
    }
}

/// The bytes of a members' sheet: the kind and both doubles of each month.
fn sheet_of(start: u8, cells: &[(u8, f64, f64)]) -> Vec<u8> {
    let mut bytes = (cells.len() as u16).to_le_bytes().to_vec();
    bytes.push(start);
    bytes.extend(cells.iter().map(|cell| cell.0));
    bytes.extend(cells.iter().flat_map(|cell| [cell.1, cell.2]).flat_map(f64::to_le_bytes));
    bytes
}

/// What the example prints of an accepted sheet with this series and total revision.
fn sheet_text(figures: &[i32], start: u8, revision: i64) -> String {
    let (n, tables) = (figures.len(), decompose_fitting(figures, start).expect("tables"));
    let mut text = format!("months {n} start {start} revision {revision}\n  t  figure          D11\n");
    for t in n - 12..n {
        text += &format!("{t:>3} {:>7} {:>12}\n", figures[t], units(tables.d11[t]));
    }
    text
}

/// What the example gives for this sheet, which is stored by this name.
fn on_sheet(name: &str, bytes: &[u8], redirections: &str) -> (i32, String, String) {
    let file = stored(name, bytes);
    SHEET.on(&[], &format!("<'{}' {redirections}", file.display()))
}

/// The example of the repository, with its revisions from the list that it is made of.
#[test]
fn sheet_by_the_heading() {
    let list = fs::read_to_string(root().join("examples/revised.txt")).expect("a list");
    let number = |word: &str| word.parse::<i64>().expect("a number");
    let revisions = list.split_whitespace().filter_map(|word| word.split_once('>')).map(|(old, new)| number(new) - number(old));
    let printed = (0, sheet_text(&book_series(), 10, revisions.sum()), String::new());
    assert!(printed.1.starts_with("months 114 start 10 revision -17\n") && printed.1.lines().count() == 14);
    let run = SHEET.run();
    assert!(run.ends_with(" < examples/revised.sheet"));
    assert_eq!(given(&shell(&run)), printed, "{run}");
    let (program, file) = run.split_once(" < ").expect("a program and its input");
    assert_eq!(given(&shell(&format!("(dd bs=1000 count=1 2>/dev/null; sleep 0.1; cat) < {file} | {program}"))), printed, "in pieces");
}

/// Sheets that are accepted, with their figures, start month and total revision: zeros of both signs, one of them all that is revised;
/// differences that cancel; the largest totals; months that are revised by turns.
fn accepted_sheets() -> Vec<(Vec<u8>, Vec<i32>, u8, i64)> {
    let of = |n: usize, start: u8, cell: fn(usize) -> (u8, f64, f64)| {
        let cells: Vec<(u8, f64, f64)> = (0..n).map(cell).collect();
        let figures = cells.iter().map(|&(kind, first, second)| if kind == 2 { second as i32 } else { first as i32 }).collect();
        let revision = cells.iter().filter(|cell| cell.0 == 2).map(|&(_, old, new)| new as i64 - old as i64).sum();
        (sheet_of(start, &cells), figures, start, revision)
    };
    vec![
        of(72, 7, |t| (1, (t * t % 7) as f64 - 3.0, 0.0)),
        of(72, 12, |t| if t == 9 { (2, 0.0, -0.0) } else { (1, -0.0, 0.0) }),
        of(73, 1, |t| (2, t as f64, 72.0 - t as f64)),
        of(600, 1, |_| (2, -200_000.0, 200_000.0)),
        of(600, 2, |_| (2, 200_000.0, -200_000.0)),
        of(100, 3, |t| if t % 3 == 0 { (2, 5.0, (t * t % 97) as f64) } else { (1, (t * 11 % 60) as f64, 0.0) }),
    ]
}

#[test]
fn sheet_that_is_accepted() {
    let totals: Vec<i64> = accepted_sheets().iter().map(|sheet| sheet.3).collect();
    assert!(totals[..5] == [0, 0, 0, 240_000_000, -240_000_000] && totals[5] > 0, "{totals:?}");
    for (bytes, figures, start, revision) in accepted_sheets() {
        assert_eq!(read_sheet(&bytes, MOST_MONTHS), Ok(SheetSeries { start, figures: figures.clone(), total: revision }));
        let printed = (0, sheet_text(&figures, start, revision), String::new());
        for redirections in ["", "2>/dev/full", "2>&-"] {
            assert_eq!(on_sheet("accepted.sheet", &bytes, redirections), printed, "{} months, {redirections}", figures.len());
        }
    }
}

/// Sheets that are refused, with the number and the place.
fn refused_sheets() -> Vec<(Vec<u8>, u8, usize)> {
    let same = |n: usize, start: u8| sheet_of(start, &vec![(1, 100.0, 0.0); n]);
    let with = |place: usize, cell: (u8, f64, f64)| {
        let mut cells = [(2, 90.0, 100.0); 72];
        (cells[place], cells[71]) = (cell, (3, 0.5, 0.5)); // a bad one behind it changes nothing
        sheet_of(1, &cells)
    };
    let mut longer = same(600, 1);
    longer.extend([0; 9000]);
    let mut refused = vec![(vec![], 7, 0), (vec![72, 0], 7, 0), (same(71, 1), 1, 0), (vec![0; 3], 1, 0), (same(601, 1), 2, 0),
        (vec![255; 3], 2, 0), (same(72, 0), 3, 0), (same(72, 13), 3, 0), (same(72, 1)[..1226].to_vec(), 9, 0),
        (longer[..10_204].to_vec(), 9, 0), (longer, 9, 0), (book(), 9, 0)];
    for cell in [(3, 0.0, 0.0), (255, 0.0, 0.0), (1, 100.0, 1.0), (1, 100.0, -0.0), (1, 0.5, 1.0), (0, 100.0, 0.0), (0, 0.0, 100.0),
        (0, 0.0, -0.0)] {
        refused.push((with(5, cell), 12, 5));
    }
    refused.push((with(70, (0, 0.0, 0.0)), 13, 70));
    for bad in [0.5, -0.1, 200_001.0, -200_001.0, 199_999.5, 5e-324, f64::NAN, f64::INFINITY, f64::NEG_INFINITY, 4_294_967_396.0, 1e300] {
        refused.extend([(with(0, (1, bad, 0.0)), 14, 0), (with(44, (2, bad, 100.0)), 14, 44), (with(44, (2, 100.0, bad)), 14, 44)]);
    }
    refused
}

#[test]
fn sheet_that_is_refused() {
    for number in [7, 1, 2, 3, 9, 12, 13, 14] {
        assert!(refused_sheets().iter().any(|sheet| sheet.1 == number), "{number}");
    }
    for (bytes, number, place) in refused_sheets() {
        assert_eq!(read_sheet(&bytes, MOST_MONTHS), Err(Refusal { number, place }));
        let on = |redirections: &str| on_sheet("refused.sheet", &bytes, redirections);
        assert_eq!(on(""), (number.into(), String::new(), refusal_line(number, place)), "{number} {place}");
        for redirections in ["2>/dev/full", "2>&-", ">&- 2>&-"] {
            assert_eq!(on(redirections), (number.into(), String::new(), String::new()), "{number} {place}, {redirections}");
        }
    }
}

#[test]
fn sheet_with_failing_input_and_output() {
    let bytes = fs::read(root().join("examples/revised.sheet")).expect("the example");
    let on = |redirections: &str| on_sheet("failing.sheet", &bytes, redirections);
    for (input, why) in [("<examples", "Is a directory"), ("<&-", "Bad file descriptor")] {
        assert_failed(SHEET.on(&[], input), &format!("standard input: {why}"), input);
        for error in ["2>/dev/full", "2>&-", ">&- 2>&-"] {
            assert_eq!(SHEET.on(&[], &format!("{input} {error}")), (FAILED, String::new(), String::new()), "{input} {error}");
        }
    }
    for (output, why) in [(">/dev/full", "No space left on device"), (">&-", "Bad file descriptor")] {
        assert_failed(on(output), &format!("standard output: {why}"), output);
        for error in ["2>/dev/full", "2>&-"] {
            assert_eq!(on(&format!("{output} {error}")), (FAILED, String::new(), String::new()), "{output} {error}");
        }
    }
    let named = Path::new("examples/revised.sheet");
    for words in [&[named][..], &[named, named]] {
        assert_failed(SHEET.on(words, "</dev/null"), "usage: sheet < examples/revised.sheet\n", "usage");
    }
}

#[test]
fn examples_in_c_close_their_files() {
    let [book_file, refused_file] = [stored("closing.desk", &book()), stored("closing-refused.desk", b"")];
    let (folder, missing) = (root().join("examples"), own("missing.desk"));
    let printing = Example::counting_streams("examples/decompose.c");
    let writing = Example::counting_streams("examples/final-weights.c");
    let moving = Example::counting_streams("examples/columns.c");
    for (from, status) in [(&book_file, 0), (&refused_file, 7), (&folder, FAILED), (&missing, FAILED)] {
        assert_eq!(printing.on(&[from], "").0, status, "printing {}", from.display());
        assert_eq!(writing.on(&[from, &free("closed.desk")], "").0, status, "writing from {}", from.display());
        assert_eq!(moving.on(&[from, &free("closed.columns"), word("1985")], "").0, status, "moving from {}", from.display());
    }
    let by_month = stored("closing.columns", &to_columns(&book(), 1985, usize::MAX).expect("a file"));
    assert_eq!(moving.on(&[&by_month, &free("closed.desk")], "").0, 0, "moving back");
    let [_, longest] = accepted();
    let from = stored("closing-longest.desk", &longest);
    for (example, after) in [(&writing, &[][..]), (&moving, &[word("1985")])] {
        let half = example.output(HALF, &names(&from, &free("closed.desk"), after), "");
        assert_eq!(half.status.code(), Some(FAILED), "half-written");
    }
}

fn number<T: std::fmt::Debug>(answer: Result<T, Refusal>) -> usize {
    answer.unwrap_err().number.into()
}

/// The header's numbers, as the separately written program has them.
fn constants() -> Vec<(&'static str, usize)> {
    let series = |n| decompose_fitting(&vec![0; n], 1);
    let file = |bytes: &[u8]| read(bytes, MOST_MONTHS, MOST_MONTHS);
    let length = |n| write(&vec![0; n], 1, &vec![0; n], usize::MAX).unwrap().len();
    let columns_length = |n| write_columns(&vec![0; n], 1, 1, &vec![0; n], usize::MAX).unwrap().len();
    let sheet = |n, cell| sheet::bytes_of(1, &vec![cell; n]);
    let right = Lent::right_for(72);
    vec![
        ("VERSION_MAJOR", VERSION[0]),
        ("VERSION_MINOR", VERSION[1]),
        ("VERSION_PATCH", VERSION[2]),
        ("LEAST_MONTHS", FEWEST_MONTHS),
        ("MOST_MONTHS", MOST_MONTHS),
        ("YEAR", 12),
        ("LARGEST_FIGURE", FIGURE_LIMIT as usize),
        ("UNIT", decompose_fitting(&[1; 72], 1).unwrap().b1[0] as usize),
        ("FULL_WEIGHT", series(72).unwrap().c17[0].into()),
        ("EARLIEST_YEAR", EARLIEST_YEAR),
        ("LATEST_YEAR", LATEST_YEAR),
        ("SCRATCH_FOR(71 + 1)", scratch_for(72)),
        ("FILE_LENGTH(71 + 1)", length(72)),
        ("LONGEST_FILE", length(MOST_MONTHS)),
        ("COLUMNS_LENGTH(71 + 1)", columns_length(72)),
        ("LONGEST_COLUMNS", columns_length(MOST_MONTHS)),
        ("SHEET_LENGTH(71 + 1)", sheet(72, Cell::figure(0)).len()),
        ("LONGEST_SHEET", sheet(MOST_MONTHS, Cell::figure(0)).len()),
        ("KIND_GAP", Cell::gap().kind.into()),
        ("KIND_FIGURE", Cell::figure(0).kind.into()),
        ("KIND_REVISION", Cell::revision(0, 0).kind.into()),
        ("SUCCESS", 0),
        ("TOO_SHORT", number(series(71))),
        ("TOO_LONG", number(series(601))),
        ("BAD_START", number(decompose_fitting(&[0; 72], 13))),
        ("WRONG_LENGTH", number(decompose(&[0; 72], 1, &Lent { d10: 71, ..right }))),
        ("FIGURE_OUTSIDE", number(decompose_fitting(&[200_001; 72], 1))),
        ("NO_HEADER", number(file(&[72, 0, 1]))),
        ("BAD_PERIOD", number(file(&bytes_of(&[0; 72], 1, 4, &[0; 72])))),
        ("BAD_FILE_LENGTH", number(file(&[72, 0, 1, 12]))),
        ("WEIGHT_ABOVE", number(file(&bytes_of(&[0; 72], 1, 12, &[1001; 72])))),
        ("BAD_YEARS", number(write_columns(&[0; 72], 1, 0, &[0; 72], usize::MAX))),
        ("MALFORMED_CELL", number(read_sheet(&sheet(72, Cell { kind: 3, ..Cell::gap() }), 72))),
        ("GAP", number(read_sheet(&sheet(72, Cell::gap()), 72))),
        ("BAD_DOUBLE", number(read_sheet(&sheet(72, Cell::figure(200_001)), 72))),
    ]
}

#[test]
fn every_constant_is_known() {
    let header = fs::read_to_string(root().join("include/vepsjalm.h")).expect("the header");
    let names: Vec<String> = header
        .lines()
        .filter_map(|line| line.trim_start().strip_prefix('#')?.trim_start().strip_prefix("define"))
        .map(|rest| rest.trim_start().strip_prefix("VEPSJALM_").expect("a name of this header"))
        .map(|rest| rest.split(' ').next().expect("a name").replace("(n)", "(71 + 1)"))
        .collect();
    let known: Vec<&str> = ["H", "VERSION"].into_iter().chain(constants().iter().map(|(name, _)| *name)).collect();
    assert_eq!(names, known);
}

/// C, and C++ where there is a compiler: the compiler with its standard, and the language.
fn languages() -> Vec<(&'static str, &'static str)> {
    let mut languages = vec![("cc -std=c99", "c")];
    if shell("c++ --version").status.success() {
        languages.push(("c++ -std=c++11", "c++"));
    }
    languages
}

const WARNINGS: &str = "-Wall -Wextra -Wpedantic -Werror";

/// Builds a source of the tests in a language.
fn built_in(name: &str, (compiler, language): (&str, &str)) -> PathBuf {
    let program = own(&format!("{name}-{language}"));
    let sources = format!("-x {language} tests/tests/{name}.c -x none target/staticlib/libvepsjalm.a");
    build(&format!("{compiler} {WARNINGS} -I include -o '{}' {sources}", program.display()), &program);
    program
}

/// Number, length and place of an answer that is a file.
fn sized(answer: &Result<Vec<u8>, Refusal>) -> (u8, usize, usize) {
    answer.as_ref().map_or_else(|refusal| (refusal.number, 0, refusal.place), |file| (0, file.len(), 0))
}

/// What header.c must print of an accepted plain file and a first year, and the bytes of the files that it makes.
fn through_both_forms(file: &[u8], first_year: u16) -> (String, Vec<u8>) {
    let DeskSeries { start, figures, weights } = read(file, MOST_MONTHS, MOST_MONTHS).expect("an accepted file");
    let mut text = format!("read 0 {} {start} 0\nwrite 0 {} 0\n", figures.len(), file.len());
    let written = write_columns(&figures, start, first_year, &weights, usize::MAX);
    let (number, size, place) = sized(&written);
    text += &format!("write_columns {number} {size} {place}\n");
    let written = written.unwrap_or_default();
    text += &match read_columns(&written, MOST_MONTHS, MOST_MONTHS) {
        Ok(series) => format!("read_columns 0 {} {} {} 0\n", series.n(), series.start, series.first_year),
        Err(Refusal { number, place }) => format!("read_columns {number} 0 0 0 {place}\n"),
    };
    let forward = to_columns(file, first_year, usize::MAX);
    let (number, size, place) = sized(&forward);
    text += &format!("unlike 0\nto_columns {number} {size} {place}\n");
    let forward = forward.unwrap_or_default();
    let back = from_columns(&forward, usize::MAX);
    let told = back.as_ref().map_or(0, |(_, year)| *year);
    let back = back.map(|(file, _)| file);
    let (number, size, place) = sized(&back);
    text += &format!("from_columns {number} {size} {told} {place}\n");
    let total: i32 = figures.iter().skip(1).step_by(2).map(|figure| figure - 1).sum();
    text += &format!("read_sheet 0 {} {start} {total} 0\nunlike 0\n", figures.len());
    (text, [file.to_vec(), written, forward, back.unwrap_or_default()].concat())
}

#[test]
fn header_in_c_and_cpp() {
    let [major, minor, patch] = VERSION;
    let mut lines = vec![format!("VEPSJALM_VERSION {major}.{minor}.{patch}\n")];
    lines.extend(constants().iter().map(|(name, value)| {
        let quotient = if name.ends_with(')') { format!(" {}", 1_000_000 / value) } else { String::new() };
        format!("VEPSJALM_{name} {value}{quotient}\n")
    }));
    lines.extend((0..=255).map(|number| format!("{number} {}\n", text_of(number))));
    let [small, longest] = accepted();
    for language in languages() {
        let program = built_in("header", language);
        for (file, year) in [(&book(), 1985), (&small, 1), (&longest, 9950), (&book(), 0), (&longest, 9951)] {
            let (answers, bytes) = through_both_forms(file, year);
            let from = stored("header.desk", file);
            let output = Command::new(&program).arg(from).arg(year.to_string()).output().expect("a run");
            let shown = output.stdout.strip_suffix(&bytes[..]).unwrap_or_else(|| panic!("{language:?}, {year}: other files"));
            assert_eq!(text(shown), lines.concat() + &answers, "{language:?}, {year}");
        }
    }
}

/// Nothing is warned of where nothing of the header is used, and it may be included twice.
#[test]
fn header_alone() {
    for (compiler, language) in languages() {
        let object = own(&format!("alone-{language}"));
        let source = "printf '#include \"vepsjalm.h\"\\n#include \"vepsjalm.h\"\\n'";
        build(&format!("{source} | {compiler} {WARNINGS} -I include -x {language} -c -o '{}' -", object.display()), &object);
    }
}

/// The Rust example has the header's words, for every number.
#[test]
fn texts_in_rust() {
    let source = fs::read_to_string(root().join("examples/decompose.rs")).expect("an example");
    let (_, after) = source.split_once("\nfn refusal_text(").expect("the function");
    let (body, _) = after.split_once("\n}").expect("its end");
    let words: Vec<String> = body.lines().filter(|line| line.contains("=>")).map(|line| line.trim().to_string()).collect();
    let mut wanted: Vec<String> = TEXTS.iter().map(|(number, text)| format!("{number} => {text:?},")).collect();
    wanted.push(format!("_ => {NO_TEXT:?},"));
    assert_eq!(words, wanted);
}

/// Series for decomposing with a scratch of some length: the figures, start month and length.
fn series_with_scratch() -> Vec<(Vec<i32>, u8, usize)> {
    let wavy = |n: i32| -> Vec<i32> { (0..n).map(|t| t * t % 97 * 11 - 40 * (t % 12)).collect() };
    let mut outside = wavy(72);
    outside[44] = -200_001;
    vec![
        // 5n entries, 8n, and far more.
        (wavy(72), 1, 360),
        (wavy(72), 1, 576),
        (wavy(72), 12, 5600),
        (book_series(), 10, 570),
        (book_series(), 10, 912),
        (wavy(600), 7, 3000),
        (wavy(600), 7, 4800),
        (vec![], 1, 0),
        (wavy(71), 13, 355),
        (wavy(601), 1, 0),
        (wavy(601), 1, 3005),
        (wavy(72), 0, 0),
        (outside.clone(), 13, 360),
        (outside.clone(), 1, 359),
        (wavy(600), 7, 2999),
        (wavy(72), 1, 0),
        (outside.clone(), 1, 361),
        (outside, 1, 576),
    ]
}

#[test]
fn struct_beside_the_plain_call() {
    let (mut input, mut lines) = (String::new(), String::new());
    for (figures, start, scratch) in series_with_scratch() {
        let listed: Vec<String> = figures.iter().map(i32::to_string).collect();
        input += &format!("{} {start} {scratch}\n{}\n", figures.len(), listed.join(" "));
        let lent = Lent { scratch, ..Lent::right_for(figures.len()) };
        let (number, place, zeros) =
            decompose(&figures, start, &lent).map_or_else(|r| (r.number, r.place, 0), |_| (0, 0, scratch_for(figures.len())));
        lines += &format!("{number} {place}, {number} {place}, alike, {zeros} zero, the rest marked\n");
    }
    for (row, count) in [(0, 7), (1, 2), (2, 2), (3, 2), (4, 3), (5, 2)] {
        assert_eq!(lines.lines().filter(|line| line.starts_with(&format!("{row} "))).count(), count, "row {row}");
    }
    for language in languages() {
        let mut command = Command::new(built_in("slices", language));
        let mut running = command.stdin(Stdio::piped()).stdout(Stdio::piped()).spawn().expect("a run");
        running.stdin.take().expect("its input").write_all(input.as_bytes()).expect("to be read");
        let output = running.wait_with_output().expect("its end");
        assert_eq!((output.status.code(), text(&output.stdout)), (Some(0), lines.clone()), "{language:?}");
    }
}
