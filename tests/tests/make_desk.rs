//! `examples/make-desk`, which makes a desk file in either form of a list or a table of figures: the files that it makes beside the separately
//! written writers and readers, and what it says of input that it refuses.

use separate::columns::{read_columns, write_columns, ColumnsSeries, LATEST_YEAR};
use separate::decompose::{Refusal, FEWEST_MONTHS, FIGURE_LIMIT, MOST_MONTHS};
use separate::desk::{read, write, DeskSeries};
use separate::generators::{book_series, Dice};
use std::fs;
use std::io::Write;
use std::path::Path;
use std::process::{Command, Output, Stdio};

const BYTE_ORDER_MARK: &[u8] = b"\xef\xbb\xbf";

/// The first year of tables, and that given beside a list, where no other is named.
const YEAR: u16 = 2021;

fn root() -> &'static Path {
    Path::new(env!("CARGO_MANIFEST_DIR")).parent().expect("the repository's folder")
}

fn text(bytes: &[u8]) -> String {
    String::from_utf8_lossy(bytes).into_owned()
}

/// Runs a command in the repository's folder, by the shell.
fn shell(command: &str) -> Output {
    Command::new("sh").arg("-c").arg(command).current_dir(root()).output().expect("a shell")
}

/// Runs make-desk where the caller's locale is not that of bytes.
fn make_desk(arguments: &[&str], input: &[u8]) -> Output {
    let mut command = Command::new(root().join("examples/make-desk"));
    command.args(arguments).env("LC_ALL", "C.UTF-8").stdin(Stdio::piped()).stdout(Stdio::piped()).stderr(Stdio::piped());
    let mut child = command.spawn().expect("make-desk");
    let _ = child.stdin.take().expect("its input").write_all(input); // it need not read on after a refusal
    child.wait_with_output().expect("a run")
}

/// The plain file, which gives the same when it is read.
fn desk(figures: &[i32], start: u8) -> Vec<u8> {
    let weights = vec![1000; figures.len()];
    let file = write(figures, start, &weights, usize::MAX).expect("a file");
    let series = DeskSeries { start, figures: figures.to_vec(), weights };
    assert_eq!(read(&file, MOST_MONTHS, MOST_MONTHS), Ok(series));
    file
}

/// The file by calendar month, likewise.
fn columns(figures: &[i32], start: u8, first_year: u16) -> Vec<u8> {
    let weights = vec![1000; figures.len()];
    let file = write_columns(figures, start, first_year, &weights, usize::MAX).expect("a file");
    let series = ColumnsSeries { start, first_year, figures: figures.to_vec(), weights };
    assert_eq!(read_columns(&file, MOST_MONTHS, MOST_MONTHS), Ok(series));
    file
}

/// The arguments for a file by calendar month of the same input.
fn by_month<'a>(arguments: &[&'a str]) -> Vec<&'a str> {
    match arguments {
        [] => vec!["-c"],
        _ => [&["-c", "2021"], arguments].concat(),
    }
}

/// The input gives this file, and nothing is said.
fn assert_file(arguments: &[&str], input: &[u8], file: &[u8]) {
    let output = make_desk(arguments, input);
    let shown = format!("{arguments:?}, {:?}", text(&input[..input.len().min(80)]));
    assert_eq!((output.status.code(), text(&output.stderr)), (Some(0), String::new()), "{shown}");
    assert_eq!(output.stdout, file, "{shown}");
}

/// The input gives the desk file of these figures, and that by calendar month.
fn assert_made(arguments: &[&str], input: &[u8], figures: &[i32], start: u8) {
    assert_file(arguments, input, &desk(figures, start));
    assert_file(&by_month(arguments), input, &columns(figures, start, YEAR));
}

/// The run ends with this status, writes nothing, and says this in one line.
fn assert_ends(output: &Output, status: i32, why: &str) {
    assert!(!why.contains('\n'));
    assert_eq!(text(&output.stderr), format!("make-desk: {why}\n"));
    assert_eq!(output.status.code(), Some(status), "{why}");
    assert_eq!(output.stdout, b"", "{why}");
}

/// The input is refused for this, in both forms.
fn assert_refused(arguments: &[&str], input: &[u8], why: &str) {
    assert_ends(&make_desk(arguments, input), 1, why);
    assert_ends(&make_desk(&by_month(arguments), input), 1, why);
}

/// Figures of both signs, of one digit to six.
fn some_figures(n: usize) -> Vec<i32> {
    let mut dice = Dice::new(n as u64);
    let mut up_to = |limit: i32| dice.between(-i64::from(limit), limit.into()) as i32;
    (0..n).map(|t| up_to([FIGURE_LIMIT, 9, 12_000, 700][t % 4])).collect()
}

/// The figures, and after each one what stands between.
fn list(figures: &[i32], between: &str) -> Vec<u8> {
    figures.iter().map(|figure| format!("{figure}{between}")).collect::<String>().into_bytes()
}

/// How a table is written.
#[derive(Clone, Copy)]
struct Form {
    year: u16,
    dates: usize,
    separator: &'static str,
    heading: &'static str,
    line_end: &'static str,
}

const PLAIN: Form = Form { year: YEAR, dates: 0, separator: ",", heading: "", line_end: "\n" };
const SEPARATORS: [&str; 10] = [",", ";", "\t", " ", " , ", "; ", "\t;", "  ", " \t", ",\t "];

/// A date in one of four forms.
fn date(form: usize, year: usize, month: usize) -> String {
    match form {
        0 => format!("{year:04}-{month:02}"),
        1 => format!("{year:04} {month}"),
        2 => format!("{year:04}-{month}"),
        _ => format!("{year:04} {month:02}"),
    }
}

/// The lines of a table of the figures, from the start month of the first year.
fn lines(figures: &[i32], start: u8, form: Form) -> Vec<String> {
    let first = usize::from(start) - 1;
    let line = |(t, figure): (usize, &i32)| {
        let date = date(form.dates, usize::from(form.year) + (first + t) / 12, (first + t) % 12 + 1);
        format!("{date}{}{figure}{}", form.separator, form.line_end)
    };
    figures.iter().enumerate().map(line).collect()
}

fn table(figures: &[i32], start: u8, form: Form) -> Vec<u8> {
    format!("{}{}", form.heading, lines(figures, start, form).concat()).into_bytes()
}

#[test]
fn the_example_of_a_list_and_of_a_table() {
    let plain = fs::read(root().join("examples/production.desk")).expect("the example");
    assert_eq!(plain, desk(&book_series(), 10));
    let by_month = columns(&book_series(), 10, 1985);
    for (command, file) in [
        ("examples/make-desk 10 < examples/production.txt", &plain),
        ("examples/make-desk < examples/production.csv", &plain),
        ("examples/make-desk -c 1985 10 < examples/production.txt", &by_month),
        ("examples/make-desk -c < examples/production.csv", &by_month),
    ] {
        let output = shell(command);
        assert_eq!((output.status.code(), text(&output.stderr)), (Some(0), String::new()), "{command}");
        assert_eq!(&output.stdout, file, "{command}");
    }
}

/// The bytes that a line of README shows: those before dots or a gap.
fn shown_bytes(line: &str) -> Vec<u8> {
    let (bytes, _) = line.trim().split_once("  ").expect("bytes and what they are");
    bytes.split(' ').map(|byte| u8::from_str_radix(byte, 16).expect("a byte")).collect()
}

#[test]
fn readme_shows_the_bytes() {
    let readme = fs::read_to_string(root().join("README.md")).expect("README");
    let (hundreds, counted): (Vec<i32>, Vec<i32>) = (vec![100; 72], (0..72).collect());
    for (mark, file, places) in [
        ("The file of 72 figures of 100 from January, all weights 1,000, in hexadecimal:", desk(&hundreds, 1), &[0, 4, 292][..]),
        ("The file of the figures 0 to 71 from March 2021, all weights 1,000:", columns(&counted, 3, 2021), &[0, 6, 30, 294]),
    ] {
        let (_, rest) = readme.split_once(&format!("{mark}\n\n")).unwrap_or_else(|| panic!("{mark}"));
        let (lines, _) = rest.split_once("\n\n").expect("their end");
        assert_eq!(lines.lines().count(), places.len(), "{mark}");
        for (line, place) in lines.lines().zip(places) {
            assert!(file[*place..].starts_with(&shown_bytes(line)), "{line}");
        }
    }
}

#[test]
fn every_start_month() {
    let figures = some_figures(75);
    for start in 1..=12 {
        assert_made(&[&start.to_string()], &list(&figures, "\n"), &figures, start);
        assert_made(&[&format!("{start:02}")], &list(&figures, "\n"), &figures, start);
        assert_made(&[], &table(&figures, start, PLAIN), &figures, start);
    }
}

/// First years of one digit to four, whose last month is in 9999 at the latest; beside a list also with zeros in front.
#[test]
fn every_size_of_year() {
    let figures = some_figures(74);
    for year in [1, 9, 10, 33, 255, 256, 257, 999, 1000, 1985, 2560, 9990, 9993] {
        let file = columns(&figures, 11, year);
        for word in [format!("{year}"), format!("{year:02}"), format!("{year:03}"), format!("{year:04}")] {
            assert_file(&["-c", &word, "11"], &list(&figures, "\n"), &file);
        }
        for dates in 0..4 {
            assert_file(&["-c"], &table(&figures, 11, Form { year, dates, ..PLAIN }), &file);
        }
    }
}

/// The latest first year of so many months from a start month, and the place of the month after December 9999 if the first year is one more.
const LATEST_YEARS: [(usize, u8, u16, usize); 8] = [(72, 1, 9994, 60), (72, 2, 9993, 71), (72, 12, 9993, 61), (73, 1, 9993, 72),
    (84, 1, 9993, 72), (85, 2, 9992, 83), (600, 1, 9950, 588), (600, 12, 9949, 589)];

#[test]
fn years_after_9999() {
    let years = Err(Refusal { number: 11, place: 0 });
    for (n, start, latest, place) in LATEST_YEARS {
        let (figures, word) = (some_figures(n), start.to_string());
        assert_file(&["-c", &latest.to_string(), &word], &list(&figures, "\n"), &columns(&figures, start, latest));
        assert_file(&["-c"], &table(&figures, start, Form { year: latest, ..PLAIN }), &columns(&figures, start, latest));
        assert_eq!(write_columns(&figures, start, latest + 1, &vec![1000; n], usize::MAX), years);
        let refused = |year: u16, line: usize| {
            let why = format!("line {line}: a month of the year 10000, outside 1 to 9999");
            assert_ends(&make_desk(&["-c", &year.to_string(), &word], &list(&figures, "\n")), 1, &why);
            let why = "line 1: a month of the year 10000, outside 1 to 9999";
            assert_ends(&make_desk(&["-c", &year.to_string(), &word], &list(&figures, " ")), 1, why);
        };
        refused(latest + 1, place + 1);
        refused(9999, 14 - usize::from(start));
        // A date of five digits is none, in either form.
        let why = format!("line {}: no year, month and figure, as 2021-03,1157", place + 1);
        assert_refused(&[], &table(&figures, start, Form { year: latest + 1, ..PLAIN }), &why);
    }
}

/// A table may begin in the year 0 only where the file has no year.
#[test]
fn the_year_0() {
    let figures = some_figures(75);
    for (start, heading, line) in [(1, "", 1), (12, "", 1), (5, "date,figure\n\n", 3)] {
        let input = table(&figures, start, Form { year: 0, heading, ..PLAIN });
        assert_file(&[], &input, &desk(&figures, start));
        assert_ends(&make_desk(&["-c"], &input), 1, &format!("line {line}: a month of the year 0, outside 1 to 9999"));
        let years = Err(Refusal { number: 11, place: 0 });
        assert_eq!(write_columns(&figures, start, 0, &[1000; 75], usize::MAX), years);
    }
}

#[test]
fn fewest_and_most_figures_at_both_limits() {
    for n in [72, 73, 255, 256, 599, 600] {
        let limits: Vec<i32> = (0..n).map(|t| if t % 3 == 0 { FIGURE_LIMIT } else { -FIGURE_LIMIT }).collect();
        for figures in [limits, vec![0; n], vec![-1; n], some_figures(n)] {
            assert_made(&["4"], &list(&figures, " "), &figures, 4);
            assert_made(&[], &table(&figures, 4, PLAIN), &figures, 4);
        }
    }
}

#[test]
fn lists_with_any_blanks() {
    let figures = some_figures(72);
    for between in ["\n", "\r\n", " ", "\t", " \t  ", " \n\t", "\n\n", " \r\n \r\n"] {
        let input = list(&figures, between);
        assert_made(&["12"], &input, &figures, 12);
        assert_made(&["12"], input.strip_suffix(between.as_bytes()).expect("the end"), &figures, 12);
        assert_made(&["12"], &[b"\r\n\t\n ", &input[..]].concat(), &figures, 12);
        assert_made(&["12"], &[BYTE_ORDER_MARK, &input].concat(), &figures, 12);
    }
    let carriage_return_last = list(&figures, "\r\n");
    assert_made(&["12"], &carriage_return_last[..carriage_return_last.len() - 1], &figures, 12);
}

/// Words that are figures: both signs, zeros in front, the limits.
const GOOD_WORDS: [(&str, i32); 13] = [
    ("-0", 0), ("+0", 0), ("00", 0), ("+5", 5), ("-5", -5), ("007", 7), ("-007", -7), ("010", 10), ("08", 8), ("-200000", -200_000),
    ("+200000", 200_000), ("00000000000000000000000000000200000", 200_000), ("-00000000000000000000000000000199999", -199_999),
];

#[test]
fn signs_and_zeros_in_front() {
    for (word, figure) in GOOD_WORDS {
        let mut figures = some_figures(72);
        figures[1] = figure;
        let words = [figures[0].to_string(), word.to_string(), text(&list(&figures[2..], "\n"))].join("\n");
        assert_made(&["2"], words.as_bytes(), &figures, 2);
        let mut rows = lines(&figures, 2, PLAIN);
        rows[1] = format!("2021-03,{word}\n");
        assert_made(&[], rows.concat().as_bytes(), &figures, 2);
    }
}

#[test]
fn tables_with_every_separator_and_date() {
    let figures = some_figures(74);
    for separator in SEPARATORS {
        for dates in 0..4 {
            assert_made(&[], &table(&figures, 11, Form { dates, separator, ..PLAIN }), &figures, 11);
        }
    }
}

#[test]
fn tables_with_headings_and_line_ends() {
    let figures = some_figures(72);
    for heading in ["", "date,figure\n", "\r\n\n  Monat;Umsatz, Mio.\r\n \t\r\n", "month\n", "---\n", "\"month\"\t\"тыс.\"\n"] {
        for line_end in ["\n", "\r\n", " \n", "\t\r\n", "\n\n", "\r\n \r\n", "\n "] {
            let input = table(&figures, 7, Form { heading, line_end, ..PLAIN });
            assert_made(&[], &input, &figures, 7);
            assert_made(&[], &[BYTE_ORDER_MARK, &input].concat(), &figures, 7);
            assert_made(&[], input.strip_suffix(line_end.as_bytes()).expect("the end"), &figures, 7);
        }
    }
}

/// What is no start month.
const NO_STARTS: [&str; 29] = ["0", "00", "13", "20", "100", "257", "-1", "+1", "1x", "x", "", " ", " 1", "1 ", "1\n", "1 2", "1.0", "1e0",
    "001", "*", "010", "[1-9]", "\u{661}", "-v", "--help", "99999999999999999999", "1\\n", "0x1", "Jan"];

/// What is no year.
const NO_YEARS: [&str; 29] = ["0", "00", "000", "0000", "00000", "10000", "02021", "12021", "67557", "99999999999999999999", "-1", "+1",
    "-2021", "2021x", "x", "", " ", " 2021", "2021 ", "2021\n", "20 21", "2021.0", "2e3", "*", "????", "[1-9]", "\u{661}", "-c", "0x1"];

/// Wrong use prints the script's first line of heading.
#[test]
fn wrong_use() {
    let script = fs::read_to_string(root().join("examples/make-desk")).expect("make-desk");
    let line = script.lines().nth(1).and_then(|line| line.strip_prefix("# ")).expect("a heading");
    assert_eq!(line, "make-desk [-c YEAR] START < FIGURES > FILE, or make-desk [-c] < TABLE > FILE");
    let input = list(&some_figures(72), "\n");
    let assert_wrong = |arguments: &[&str], why: &str| assert_ends(&make_desk(arguments, &input), 2, &format!("{why}; use: {line}"));
    for start in NO_STARTS {
        assert_wrong(&[start], "START is no month from 1 to 12");
        assert_wrong(&["-c", "2021", start], "START is no month from 1 to 12");
    }
    for year in NO_YEARS {
        assert_wrong(&["-c", year, "1"], "YEAR is no year from 1 to 9999");
        assert_wrong(&["-c", year, "13"], "YEAR is no year from 1 to 9999");
    }
    for arguments in [&["1", "2"][..], &["1", ""], &["", ""], &["1", "2", "3"], &["13", "1"], &["1", "examples/production.txt"],
        &["1", "-c"], &["1", "-c", "2021"], &["2021", "1"], &["--", "1"], &["-c2021", "1"], &["", "-c"]] {
        assert_wrong(arguments, "more than one argument");
    }
    for arguments in [&["1"][..], &["2021"], &[""], &["-c"], &["2021", "1", "2"], &["2021", "1", ""], &["", "", "", ""]] {
        assert_wrong(&[&["-c"], arguments].concat(), "-c takes YEAR and START, or neither");
    }
}

/// Words that are no figure, with what is said of each.
fn bad_words() -> Vec<(String, String)> {
    let forty_digits = "1234567890".repeat(4);
    let outside = ["200001", "-200001", "+200001", "999999", "1000000", "4295067296", "4294967297", "-4294967295", "0200001", "2000000",
        "18446744073709551617", "-0000000000000000000000000200001", &forty_digits];
    let no_number = ["NA", "figure", "1,234", "4,295,067,296", "1.5", "5.0", "5.", ".5", "1e3", "1E3", "0x10", "nan", "inf", "-inf", "--5",
        "++5", "+-5", "-", "+", "5-", "5+", "1-2", "5x", "x5", "1_000", "1'234", "\"5\"", "\u{665}", "1\u{662}", "\u{2212}5", "5\u{a0}",
        "5\u{feff}", "5%", "(5)", "5\\n", "\\065", "$5", "#5", "*", "5,"];
    let unprinted = [("5\0", "5?"), ("1\u{0}2", "1?2"), ("5\r6", "5?6"), ("5\u{b}6", "5?6"), ("\u{c}5", "?5"), ("\u{1b}5", "?5")];
    let mut words = Vec::new();
    words.extend(outside.map(|word| (word.to_string(), format!("{word} is outside -200000 to 200000"))));
    words.extend(no_number.map(|word| (word.to_string(), format!("'{word}' is no whole number"))));
    words.extend(unprinted.map(|(word, shown)| (word.to_string(), format!("'{shown}' is no whole number"))));
    words
}

#[test]
fn lists_with_a_bad_word() {
    for (word, why) in bad_words() {
        let mut words: Vec<String> = some_figures(72).iter().map(i32::to_string).collect();
        for place in [0, 6, 71] {
            let good = std::mem::replace(&mut words[place], word.clone());
            assert_refused(&["1"], words.join("\n").as_bytes(), &format!("line {}: {why}", place + 1));
            words[place] = good;
        }
        words[30] = word;
        let twelve_on_a_line: Vec<String> = words.chunks(12).map(|chunk| chunk.join(" ")).collect();
        assert_refused(&["1"], format!("\r\n\n{}", twelve_on_a_line.join("\r\n")).as_bytes(), &format!("line 5: {why}"));
    }
}

/// A table from March 2021 with one line instead of that of July, line 5, is refused for this; and so with a heading and blank lines.
fn assert_line_refused(line: &str, why: &str) {
    let mut rows = lines(&some_figures(72), 3, PLAIN);
    rows[4] = format!("{line}\n");
    assert_refused(&[], rows.concat().as_bytes(), &format!("line 5: {why}"));
    let input = format!("date,figure\r\n\n \n{}", rows.concat());
    assert_refused(&[], input.as_bytes(), &format!("line 8: {why}"));
}

#[test]
fn tables_with_a_bad_figure() {
    for (word, why) in bad_words() {
        assert_line_refused(&format!("2021-07,{word}"), &why);
        assert_line_refused(&format!("2021 7\t{word}"), &why);
    }
    for (line, rest) in [("2021-07,", ""), ("2021-07;5;", "5;"), ("2021-07,5,6", "5,6"), ("2021-07,5 6", "5 6"), ("2021-07 1 234", "1 234"),
        ("2021-07,,5", ",5"), ("2021-07;,5", ",5"), ("2021-07, ,5", ",5"), ("2021-07\t- 5", "- 5"), ("2021 07 5 6", "5 6")] {
        assert_line_refused(line, &format!("'{rest}' is no whole number"));
    }
}

#[test]
fn tables_with_a_bad_date() {
    for line in ["2021-07", "2021 7", "2021,5", "7", "date,figure", "NA", ",5", "5,2021-07", "\"2021-07\",5", "'2021-07',5", "21-07,5",
        "02021-07,5", "202107,5", "2021-007,5", "2021-,5", "2021--07,5", "2021- 07,5", "2021 -07,5", "2021-07-01,5", "2021/07,5",
        "2021.07,5", "07-2021,5", "07 2021 5", "x2021-07,5", "-2021-07,5", "2021-07x,5", "2021-07:5", "2021-07x5", "2021-075", "2021-07-5",
        "2021-07+5", "2021-7.0,5", "2O21-07,5", "202\u{661}-07,5", "2021\u{a0}7,5", "\u{feff}2021-07,5", "2021-07\r,5", "2021\0-07,5"] {
        assert_line_refused(line, "no year, month and figure, as 2021-03,1157");
    }
    for month in ["2021-00", "2021-0", "2021-13", "2021-19", "2021-20", "2021-99"] {
        assert_line_refused(&format!("{month},5"), &format!("{month} is no month"));
    }
}

#[test]
fn months_out_of_order() {
    for month in ["2021-08", "2021-06", "2021-05", "2021-01", "2021-12", "2022-07", "2020-07", "2020-08", "9999-07", "0000-07"] {
        assert_line_refused(&format!("{month},5"), &format!("{month} is not the month after 2021-06"));
    }
    let rows = lines(&some_figures(75), 3, PLAIN);
    let gap = [&rows[..20], &rows[21..]].concat().concat();
    assert_refused(&[], gap.as_bytes(), "line 21: 2022-12 is not the month after 2022-10");
    let repeat = [&rows[..22], &rows[21..]].concat().concat();
    assert_refused(&[], repeat.as_bytes(), "line 23: 2022-12 is not the month after 2022-12");
    let mut swapped = rows.clone();
    swapped.swap(21, 22);
    assert_refused(&[], swapped.concat().as_bytes(), "line 22: 2023-01 is not the month after 2022-11");
    let last_twice = format!("{}{}", rows.concat(), rows[74]);
    assert_refused(&[], last_twice.as_bytes(), "line 76: 2027-05 is not the month after 2027-05");
    let backward: String = rows.into_iter().rev().collect();
    assert_refused(&[], backward.as_bytes(), "line 2: 2027-04 is not the month after 2027-05");
}

/// A first line with a digit in it is no heading, and only the first line can be one.
#[test]
fn headings_that_are_none() {
    let rows = lines(&some_figures(80), 3, PLAIN);
    let no_date = "no year, month and figure, as 2021-03,1157";
    for (line, why) in [("2021-03x1157", no_date), ("\"2021-03\",\"1157\"", no_date), ("2021/03,1.5", no_date), ("NA,1157", no_date),
        ("date,2021", no_date), ("index 2015=100", no_date), ("2021-13,5", "2021-13 is no month"),
        ("2021-03,NA", "'NA' is no whole number"), ("2021-03,1.5", "'1.5' is no whole number"),
        ("2021-01,5\n2021-02,x", "'x' is no whole number")] {
        let number = 2 + line.matches('\n').count();
        assert_refused(&[], format!("\n{line}\n{}", rows.concat()).as_bytes(), &format!("line {number}: {why}"));
    }
    assert_refused(&[], format!("date,figure\n,units\n{}", rows.concat()).as_bytes(), &format!("line 2: {no_date}"));
    assert_refused(&[], format!("{}date,figure\n", rows.concat()).as_bytes(), &format!("line 81: {no_date}"));
    assert_refused(&["3"], format!("date,figure\n{}", rows.concat()).as_bytes(), "line 1: 'date,figure' is no whole number");
    assert_refused(&["3"], rows.concat().as_bytes(), &format!("line 1: '{}' is no whole number", rows[0].trim()));
    assert_refused(&[], &list(&some_figures(80), "\n"), &format!("line 1: {no_date}"));
}

#[test]
fn too_few_figures() {
    for n in [0, 1, 12, 71] {
        let why = format!("{n} figures, fewer than 72");
        let figures = some_figures(n);
        assert_refused(&["3"], &list(&figures, "\n"), &why);
        assert_refused(&["3"], &list(&figures, " "), &why);
        assert_refused(&[], &table(&figures, 3, PLAIN), &why);
        assert_refused(&[], &table(&figures, 3, Form { heading: "date,figure\n\n", ..PLAIN }), &why);
    }
    assert_refused(&[], &[BYTE_ORDER_MARK, b"\r\n"].concat(), "0 figures, fewer than 72");
}

#[test]
fn too_many_figures() {
    for n in [601, 602, 672, 72 + 65_536] {
        let figures = some_figures(n);
        assert_refused(&["3"], &list(&figures, "\n"), "line 601: more than 600 figures");
        assert_refused(&["3"], &list(&figures, " "), "line 1: more than 600 figures");
        assert_refused(&["3"], &list(&figures, "\n\n"), "line 1201: more than 600 figures");
        assert_refused(&[], &table(&figures, 3, PLAIN), "line 601: more than 600 figures");
        assert_refused(&[], &table(&figures, 3, Form { heading: "date,figure\n\n", ..PLAIN }), "line 603: more than 600 figures");
    }
}

/// Input that breaks off is tried by reads that fail at once: a directory, a closed input.
#[test]
fn input_that_cannot_be_read() {
    for input in ["10 < examples", "< examples", "10 <&-", "<&-", "-c 1985 10 < examples", "-c <&-"] {
        assert_ends(&shell(&format!("examples/make-desk {input}")), 3, "the input could not be read");
    }
}

#[test]
fn dates_beside_a_start() {
    let figures = some_figures(80);
    for (dates, separator) in [(1, " "), (3, "\t"), (1, "  ")] {
        let dated = table(&figures, 11, Form { dates, separator, ..PLAIN });
        assert_made(&[], &dated, &figures, 11);
        assert_refused(&["11"], &dated, "line 2: a table with dates, which takes no START");
    }
    // Three figures on a line are no dates where two lines are not two months in turn.
    let threes: Vec<i32> = (0..81).map(|t| [2021, 5, 700][t % 3]).collect();
    let lines: String = threes.chunks(3).map(|line| format!("{} {} {}\n", line[0], line[1], line[2])).collect();
    assert_made(&["11"], lines.as_bytes(), &threes, 11);
}

#[test]
fn output_that_cannot_be_written() {
    for output in ["> /dev/full", ">&-"] {
        for input in ["10 < examples/production.txt", "< examples/production.csv", "-c < examples/production.csv"] {
            assert_ends(&shell(&format!("examples/make-desk {input} {output}")), 3, "the output could not be written");
        }
    }
}

/// Start month, first year (0 beside a list for a plain file) and figures, or the number of the line that is refused, 0 for too few figures.
type Parsed = Result<(u8, u16, Vec<i32>), usize>;

fn blank(byte: &u8) -> bool {
    matches!(byte, b' ' | b'\t')
}

fn without_blanks_before(text: &[u8]) -> &[u8] {
    &text[text.iter().take_while(|byte| blank(byte)).count()..]
}

/// The lines that are not blank, with their numbers, without the blanks at both ends.
fn lines_of(input: &[u8]) -> Vec<(usize, &[u8])> {
    let mut lines = Vec::new();
    for (t, line) in input.strip_prefix(BYTE_ORDER_MARK).unwrap_or(input).split(|&byte| byte == b'\n').enumerate() {
        let line = without_blanks_before(line.strip_suffix(b"\r").unwrap_or(line));
        if let Some(last) = line.iter().rposition(|byte| !blank(byte)) {
            lines.push((t + 1, &line[..=last]));
        }
    }
    lines
}

fn digits_before(text: &[u8]) -> (&[u8], &[u8]) {
    text.split_at(text.iter().take_while(|byte| byte.is_ascii_digit()).count())
}

/// Digits as a number, at most a million.
fn value(digits: &[u8]) -> usize {
    digits.iter().fold(0, |sum, digit| (10 * sum + usize::from(digit - b'0')).min(1_000_000))
}

fn parse_figure(word: &[u8]) -> Option<i32> {
    let (sign, unsigned) = match word {
        [b'-', unsigned @ ..] => (-1, unsigned),
        [b'+', unsigned @ ..] => (1, unsigned),
        unsigned => (1, unsigned),
    };
    let (digits, rest) = digits_before(unsigned);
    let size = value(digits) as i32;
    (!digits.is_empty() && rest.is_empty() && size <= FIGURE_LIMIT).then_some(sign * size)
}

/// Months since the year 0, and the figure.
fn parse_row(line: &[u8]) -> Option<(usize, i32)> {
    let (year, rest) = digits_before(line);
    let after_year = match rest {
        [b'-', rest @ ..] => rest,
        [first, ..] if blank(first) => without_blanks_before(rest),
        _ => return None,
    };
    let (month, rest) = digits_before(after_year);
    if year.len() != 4 || month.len() > 2 || !(1..=12).contains(&value(month)) {
        return None;
    }
    let word = match without_blanks_before(rest) {
        [b',' | b';', word @ ..] => without_blanks_before(word),
        word if word.len() < rest.len() => word,
        _ => return None,
    };
    Some((12 * value(year) + value(month) - 1, parse_figure(word)?))
}

fn parse_list(start: u8, year: u16, input: &[u8]) -> Parsed {
    let to_the_latest = 12 * (LATEST_YEAR + 1 - usize::from(year)) - (usize::from(start) - 1);
    let mut figures = Vec::new();
    for (number, line) in lines_of(input) {
        for word in line.split(blank).filter(|word| !word.is_empty()) {
            figures.push(parse_figure(word).filter(|_| figures.len() < MOST_MONTHS.min(to_the_latest)).ok_or(number)?);
        }
    }
    if figures.len() < FEWEST_MONTHS { Err(0) } else { Ok((start, year, figures)) }
}

fn parse_table(earliest: usize, input: &[u8]) -> Parsed {
    let mut rows = lines_of(input);
    if rows.first().is_some_and(|(_, line)| !line.iter().any(u8::is_ascii_digit)) {
        rows.remove(0);
    }
    let (mut first, mut figures) = (None, Vec::new());
    for (number, line) in rows {
        let (month, figure) = parse_row(line).ok_or(number)?;
        if month / 12 < earliest || month != *first.get_or_insert(month) + figures.len() || figures.len() == MOST_MONTHS {
            return Err(number);
        }
        figures.push(figure);
    }
    let first = first.unwrap_or(0);
    if figures.len() < FEWEST_MONTHS { Err(0) } else { Ok(((first % 12) as u8 + 1, (first / 12) as u16, figures)) }
}

/// The input as make-desk must take it, with these arguments.
fn parsed(arguments: &[&str], input: &[u8]) -> Parsed {
    let number = |word: &str| word.parse::<u16>().expect("a number");
    match arguments {
        [] => parse_table(0, input),
        ["-c"] => parse_table(1, input),
        ["-c", year, start] => parse_list(number(start) as u8, number(year), input),
        _ => parse_list(number(arguments[0]) as u8, 0, input),
    }
}

/// The input with one byte changed, put in or left out, in one round of three among the first forty.
fn damaged(dice: &mut Dice, input: &[u8]) -> Vec<u8> {
    const BYTES: &[u8] = b"0123456789--+,;.  \t\r\n\"xe\0\xd9";
    let mut bytes = input.to_vec();
    let reach = if dice.between(1, 3) == 1 { 40 } else { bytes.len() as i64 };
    let place = dice.between(0, reach - 1) as usize;
    let byte = BYTES[dice.between(0, BYTES.len() as i64 - 1) as usize];
    match dice.between(1, 4) {
        1 => drop(bytes.remove(place)),
        2 => bytes.insert(place, byte),
        _ => bytes[place] = byte,
    }
    bytes
}

/// Makes a desk file beside the parser: the same file, or the same line refused. True where a file was made.
fn made_as_parsed(arguments: &[&str], input: &[u8]) -> bool {
    let parsed = parsed(arguments, input);
    let made = parsed.is_ok();
    match parsed {
        Ok((start, year, figures)) if arguments.first() == Some(&"-c") => assert_file(arguments, input, &columns(&figures, start, year)),
        Ok((start, _, figures)) => assert_file(arguments, input, &desk(&figures, start)),
        Err(line) => {
            let output = make_desk(arguments, input);
            let error = text(&output.stderr);
            let place = if line == 0 { "make-desk: ".to_string() } else { format!("make-desk: line {line}: ") };
            assert_eq!((output.status.code(), output.stdout), (Some(1), vec![]), "{:?}", text(input));
            assert!(error.starts_with(&place) && error.ends_with('\n'), "{place}{error}{:?}", text(input));
            assert_eq!(error.matches('\n').count(), 1, "{error}");
        }
    }
    made
}

/// Runs so many damaged inputs; some must be accepted and some refused.
fn try_damaged(seed: u64, rounds: usize, arguments: &[&str], input: impl Fn(&mut Dice) -> Vec<u8>) {
    let mut dice = Dice::new(seed);
    let mut made = 0;
    for _ in 0..rounds {
        let good = input(&mut dice);
        made += usize::from(made_as_parsed(arguments, &damaged(&mut dice, &good)));
    }
    assert!(rounds / 8 < made && made < rounds - rounds / 8, "{made} of {rounds}");
}

/// A table of one of many kinds; some begin in the year 0, and some go on to 10000.
fn some_table(dice: &mut Dice) -> Vec<u8> {
    let mut pick = |many: usize| dice.between(0, many as i64 - 1) as usize;
    let heading = ["", "date,figure\n", "\r\nmonth;index\r\n", "\u{feff}month\tindex\n"][pick(4)];
    let year = [0, 1, YEAR, 9993][pick(4)];
    let form = Form { year, dates: pick(4), separator: SEPARATORS[pick(10)], heading, line_end: ["\n", "\r\n"][pick(2)] };
    table(&some_figures(72 + pick(5)), 1 + pick(12) as u8, form)
}

#[test]
fn damaged_tables() {
    try_damaged(1, 400, &[], some_table);
    try_damaged(4, 400, &["-c"], some_table);
}

#[test]
fn damaged_lists() {
    let short = |dice: &mut Dice| {
        let between = ["\n", "\r\n", " ", "\t", " \n"][dice.between(0, 4) as usize];
        list(&some_figures(dice.between(72, 76) as usize), between)
    };
    try_damaged(2, 200, &["5"], short);
    try_damaged(3, 50, &["5"], |dice| list(&some_figures(dice.between(599, 600) as usize), " "));
    try_damaged(5, 100, &["-c", "2021", "5"], short);
    try_damaged(6, 200, &["-c", "9993", "12"], short); // the 74th figure is of January 10000
}
