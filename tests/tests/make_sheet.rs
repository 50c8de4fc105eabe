//! `examples/make-sheet`, which makes a members' sheet of a list or a table of figures and revisions: its bytes beside those that Rust has for
//! the same doubles, and what it says of input that it refuses.

use separate::decompose::{FIGURE_LIMIT, MOST_MONTHS};
use separate::generators::{book_series, Dice};
use separate::sheet::{read_sheet, SheetSeries};
use std::env;
use std::fs;
use std::io::Write;
use std::os::unix::fs::symlink;
use std::path::{Path, PathBuf};
use std::process::{Command, Output, Stdio};

const BYTE_ORDER_MARK: &str = "\u{feff}";

fn root() -> &'static Path {
    Path::new(env!("CARGO_MANIFEST_DIR")).parent().expect("the repository's folder")
}

fn text(bytes: &[u8]) -> String {
    String::from_utf8_lossy(bytes).into_owned()
}

/// Runs a command in the repository's folder, by the shell.
fn shell(command: &str) -> Output {
    Command::new("sh").arg("-c").arg(command).current_dir(root()).output().expect("a shell")
}

/// Runs make-sheet where programs are looked for in these folders and the caller's locale is not that of bytes.
fn make_sheet_in(folders: &str, arguments: &[&str], input: &str) -> Output {
    let mut command = Command::new(root().join("examples/make-sheet"));
    command.args(arguments).env("LC_ALL", "C.UTF-8").env("PATH", folders);
    let mut child = command.stdin(Stdio::piped()).stdout(Stdio::piped()).stderr(Stdio::piped()).spawn().expect("make-sheet");
    let _ = child.stdin.take().expect("its input").write_all(input.as_bytes()); // it need not read on after a refusal
    child.wait_with_output().expect("a run")
}

fn make_sheet(arguments: &[&str], input: &str) -> Output {
    make_sheet_in(&env::var("PATH").expect("folders"), arguments, input)
}

#[derive(Clone, Copy, Debug, PartialEq)]
enum Entry {
    Figure(i32),
    Revision(i32, i32),
}
use Entry::{Figure, Revision};

impl Entry {
    fn word(self) -> String {
        match self {
            Figure(figure) => figure.to_string(),
            Revision(old, new) => format!("{old}>{new}"),
        }
    }

    /// The kind, and both doubles: one that is not used is eight zero bytes.
    fn cell(self) -> (u8, [f64; 2]) {
        match self {
            Figure(figure) => (1, [figure.into(), 0.0]),
            Revision(old, new) => (2, [old.into(), new.into()]),
        }
    }
}

fn sheet(entries: &[Entry], start: u8) -> Vec<u8> {
    let (kinds, doubles): (Vec<u8>, Vec<[f64; 2]>) = entries.iter().map(|entry| entry.cell()).unzip();
    let cells: Vec<u8> = doubles.concat().into_iter().flat_map(f64::to_le_bytes).collect();
    let bytes = [&(entries.len() as u16).to_le_bytes(), &[start][..], &kinds, &cells].concat();
    assert_eq!(bytes.len(), 3 + 17 * entries.len());
    bytes
}

/// The output is this sheet, and nothing is said.
fn assert_sheet(output: &Output, bytes: &[u8], what: &str) {
    assert_eq!((output.status.code(), text(&output.stderr)), (Some(0), String::new()), "{what}");
    assert_eq!(output.stdout, bytes, "{what}");
}

fn assert_made(arguments: &[&str], input: &str, entries: &[Entry], start: u8) {
    let what = format!("{arguments:?}, {:?}", input.chars().take(80).collect::<String>());
    assert_sheet(&make_sheet(arguments, input), &sheet(entries, start), &what);
}

/// The run ends with this status, writes nothing, and says this in one line.
fn assert_ends(output: &Output, status: i32, why: &str) {
    assert!(!why.contains('\n'));
    assert_eq!(text(&output.stderr), format!("make-sheet: {why}\n"));
    assert_eq!((output.status.code(), text(&output.stdout)), (Some(status), String::new()), "{why}");
}

fn assert_refused(arguments: &[&str], input: &str, why: &str) {
    assert_ends(&make_sheet(arguments, input), 1, why);
}

/// Figures and revisions of both signs, of one digit to six.
fn some_entries(n: usize) -> Vec<Entry> {
    let mut dice = Dice::new(n as u64);
    let mut up_to = |limit: i32| dice.between(-i64::from(limit), limit.into()) as i32;
    let mut entry = |t: usize, limit| if t % 3 == 1 { Revision(up_to(limit), up_to(limit)) } else { Figure(up_to(limit)) };
    (0..n).map(|t| entry(t, [FIGURE_LIMIT, 9, 12_000, 700][t % 4])).collect()
}

/// The entries, and after each one what stands between.
fn list(entries: &[Entry], between: &str) -> String {
    entries.iter().map(|entry| entry.word() + between).collect()
}

/// The lines of a table from a month of 2021; dates are written with a dash, or with a blank and the month by itself.
fn lines(entries: &[Entry], start: u8, separator: &str) -> Vec<String> {
    let dash = separator.contains([',', ';']);
    let line = |(t, entry): (usize, &Entry)| {
        let (year, month) = (2021 + (usize::from(start) - 1 + t) / 12, (usize::from(start) - 1 + t) % 12 + 1);
        let date = if dash { format!("{year}-{month:02}") } else { format!("{year} {month}") };
        format!("{date}{separator}{}\n", entry.word())
    };
    entries.iter().enumerate().map(line).collect()
}

/// The entries of a good list.
fn entries_of(list: &str) -> Vec<Entry> {
    let number = |word: &str| word.parse().expect("a whole number");
    let entry = |word: &str| word.split_once('>').map_or_else(|| Figure(number(word)), |(old, new)| Revision(number(old), number(new)));
    list.split_whitespace().map(entry).collect()
}

/// The example is the book's series with some months revised, up and down.
#[test]
fn the_example() {
    let entries = entries_of(&fs::read_to_string(root().join("examples/revised.txt")).expect("the list"));
    let bytes = fs::read(root().join("examples/revised.sheet")).expect("the sheet");
    assert_eq!(bytes, sheet(&entries, 10));
    let command = "examples/make-sheet 10 < examples/revised.txt";
    assert_sheet(&shell(command), &bytes, command);
    let series = SheetSeries { start: 10, figures: book_series(), total: -17 };
    assert_eq!(read_sheet(&bytes, MOST_MONTHS), Ok(series));
    let revised = |by: fn(i32, i32) -> bool| entries.iter().filter(|entry| matches!(**entry, Revision(old, new) if by(old, new))).count();
    assert_eq!((revised(|old, new| new < old), revised(|old, new| new > old)), (3, 2));
    assert_made(&[], &lines(&entries, 10, ",").concat(), &entries, 10);
}

/// Zero, all powers of two and their neighbours, the limits; of both signs.
fn hard_numbers() -> Vec<i32> {
    let powers = (0..18).flat_map(|power| [(1 << power) - 1, 1 << power, (1 << power) + 1]);
    let sizes: Vec<i32> = powers.chain([FIGURE_LIMIT - 1, FIGURE_LIMIT]).collect();
    sizes.iter().flat_map(|&size| [size, -size]).collect()
}

/// Every number alone, as an old figure and as a new one.
#[test]
fn doubles_of_whole_numbers() {
    let hard = hard_numbers();
    assert!(hard.len() > 72 && hard.contains(&131_073) && hard.contains(&-200_000));
    let mut dice = Dice::new(7);
    let random: Vec<i32> = (0..MOST_MONTHS).map(|_| dice.between(-200_000, 200_000) as i32).collect();
    for numbers in [hard, random] {
        let figures: Vec<Entry> = numbers.iter().copied().map(Figure).collect();
        let revisions: Vec<Entry> = numbers.iter().zip(numbers.iter().rev()).map(|(&old, &new)| Revision(old, new)).collect();
        for entries in [figures, revisions] {
            assert_made(&["4"], &list(&entries, "\n"), &entries, 4);
        }
    }
}

/// The bytes of some doubles, as IEEE 754 has them.
#[test]
fn doubles_by_hand() {
    let words = ["1", "-1", "3", "-200000", "0", "-0", "1>0", "-0>-2"];
    let output = make_sheet(&["1"], &(words.join(" ") + &" 0".repeat(64)));
    assert_eq!(output.status.code(), Some(0));
    let double = |figure: usize| &output.stdout[75 + 8 * figure..83 + 8 * figure];
    for (figure, bytes) in [(0, [0, 0, 0xf0, 0x3f]), (2, [0, 0, 0xf0, 0xbf]), (4, [0, 0, 0x08, 0x40]), (6, [0, 0x6a, 0x08, 0xc1]),
        (8, [0; 4]), (10, [0; 4]), (12, [0, 0, 0xf0, 0x3f]), (13, [0; 4]), (14, [0; 4]), (15, [0, 0, 0, 0xc0])] {
        assert_eq!(double(figure), [&[0; 4], &bytes[..]].concat(), "{figure}");
    }
    assert_eq!(output.stdout[..11], [72, 0, 1, 1, 1, 1, 1, 1, 1, 2, 2]);
}

/// Every awk of these that there is makes the same sheets.
#[test]
fn every_awk() {
    let found = |name: &str| env::split_paths(&env::var("PATH").expect("folders")).map(|folder| folder.join(name)).find(|file| file.is_file());
    let entries = some_entries(600);
    let mut tried = 0;
    for program in ["awk", "mawk", "gawk", "original-awk", "busybox"].into_iter().filter_map(found) {
        let folder: PathBuf = Path::new(env!("CARGO_TARGET_TMPDIR")).join(program.file_name().expect("a name"));
        let _ = fs::remove_dir_all(&folder);
        fs::create_dir(&folder).expect("a folder");
        symlink(&program, folder.join("awk")).expect("another name");
        let folders = format!("{}:{}", folder.display(), env::var("PATH").expect("folders"));
        let what = program.display().to_string();
        assert_sheet(&make_sheet_in(&folders, &["3"], &list(&entries, " ")), &sheet(&entries, 3), &what);
        assert_ends(&make_sheet_in(&folders, &["3"], "5\n5>x"), 1, "line 2: '5>x' is no whole number, nor two as OLD>NEW");
        tried += 1;
    }
    assert!(tried > 0);
}

#[test]
fn every_start_month() {
    let entries = some_entries(75);
    for start in 1..=12 {
        assert_made(&[&start.to_string()], &list(&entries, "\n"), &entries, start);
        assert_made(&[&format!("{start:02}")], &list(&entries, "\n"), &entries, start);
        assert_made(&[], &lines(&entries, start, ",").concat(), &entries, start);
    }
}

#[test]
fn lists_and_tables_in_every_form() {
    for n in [72, 255, 256, 600] {
        let entries = some_entries(n);
        for between in ["\n", "\r\n", " ", " \t  ", " \n\t", "\n\n"] {
            assert_made(&["12"], &list(&entries, between), &entries, 12);
        }
        assert_made(&["12"], list(&entries, "\n").trim_end(), &entries, 12);
        for separator in [",", ";", "\t", " ", " , ", "; ", "  "] {
            let table = lines(&entries, 11, separator).concat();
            for heading in ["", "date,figure\n", "\r\n\n  Monat;Umsatz, Mio.\r\n \t\r\n", BYTE_ORDER_MARK] {
                assert_made(&[], &format!("{heading}{table}"), &entries, 11);
            }
            assert_made(&[], &table.replace('\n', "\r\n"), &entries, 11);
        }
    }
}

/// Signs and zeros in front.
const GOOD_WORDS: [(&str, Entry); 10] = [("-0", Figure(0)), ("+0", Figure(0)), ("00", Figure(0)), ("+5", Figure(5)), ("-007", Figure(-7)),
    ("010", Figure(10)), ("00000000000000000000000200000", Figure(200_000)), ("-0>+0", Revision(0, 0)), ("+08>-09", Revision(8, -9)),
    ("-0000000200000>00199999", Revision(-200_000, 199_999))];

#[test]
fn signs_and_zeros_in_front() {
    let (mut entries, mut words) = (some_entries(72), Vec::new());
    for (t, (word, entry)) in GOOD_WORDS.into_iter().enumerate() {
        entries[t] = entry;
        words.push(word.to_string());
    }
    words.push(list(&entries[words.len()..], " "));
    assert_made(&["2"], &words.join(" "), &entries, 2);
}

/// Words that are no entry, with what is said of each.
fn bad_words() -> Vec<(&'static str, String)> {
    let mut words = Vec::new();
    for (word, figure) in [("200001", "200001"), ("-200001", "-200001"), ("0200001", "0200001"), ("5>200001", "200001"),
        ("-200001>5", "-200001"), ("200002>200001", "200002"), ("1000000", "1000000"), ("18446744073709551617>0", "18446744073709551617")] {
        words.push((word, format!("{figure} is outside -200000 to 200000")));
    }
    for word in ["NA", "5.0", "1,5", "1e3", "0x10", "nan", "--5", "+", "5-", "\u{665}", "\u{2212}5", "5\\n", "\"5\"", ">", "5>", ">5", "5>>6",
        "5>6>7", "5->6", "5>-", "->5", "->-", "5<6", "5>6.5", "5.5>6", "5=>6", "5>\u{665}", "5,>6"] {
        words.push((word, format!("'{word}' is no whole number, nor two as OLD>NEW")));
    }
    for (word, shown) in [("5\0", "5?"), ("5\r6", "5?6"), ("\u{1b}5>6", "?5>6")] {
        words.push((word, format!("'{shown}' is no whole number, nor two as OLD>NEW")));
    }
    words.push(("-", "a gap, with which the sheet would be refused".to_string()));
    words
}

#[test]
fn bad_entries() {
    let words: Vec<String> = some_entries(72).into_iter().map(Entry::word).collect();
    for (word, why) in bad_words() {
        for place in [0, 6, 71] {
            let mut words = words.clone();
            words[place] = word.to_string();
            assert_refused(&["1"], &words.join("\n"), &format!("line {}: {why}", place + 1));
        }
        assert_refused(&["1"], &format!("\r\n{}\n1 2>3 {word} 4", words.join(" ")), &format!("line 3: {why}"));
        assert_line_refused(&format!("2021-07,{word}"), &why);
        assert_line_refused(&format!("2021 7\t{word}"), &why);
    }
}

/// A table from March 2021 with one line instead of that of July, line 5, is refused for this; and so with a heading and blank lines.
fn assert_line_refused(line: &str, why: &str) {
    let mut rows = lines(&some_entries(72), 3, ",");
    rows[4] = format!("{line}\n");
    assert_refused(&[], &rows.concat(), &format!("line 5: {why}"));
    assert_refused(&[], &format!("date,figure\r\n\n \n{}", rows.concat()), &format!("line 8: {why}"));
}

#[test]
fn bad_lines_of_a_table() {
    for line in ["2021-07,", "2021-07;\t", "2021 7 ,"] {
        assert_line_refused(line, "a gap, with which the sheet would be refused");
    }
    for rest in ["5 6", "5 > 6", "5,6", "5> 6", ",5"] {
        assert_line_refused(&format!("2021-07,{rest}"), &format!("'{rest}' is no whole number, nor two as OLD>NEW"));
    }
    for line in ["2021-07", "2021,5", "7", "date,figure", "5>6", "21-07,5", "2021-07-01,5", "2021/07,5", "2021-07>5", "x2021-07,5>6"] {
        assert_line_refused(line, "no year, month and entry, as 2021-03,1157");
    }
    for month in ["2021-00", "2021-13"] {
        assert_line_refused(&format!("{month},5>6"), &format!("{month} is no month"));
    }
    for month in ["2021-08", "2021-06", "2022-07", "2020-07", "0000-07"] {
        assert_line_refused(&format!("{month},5"), &format!("{month} is not the month after 2021-06"));
    }
}

#[test]
fn too_few_and_too_many_months() {
    for n in [0, 1, 71] {
        let entries = some_entries(n);
        assert_refused(&["3"], &list(&entries, "\n"), &format!("{n} months, fewer than 72"));
        assert_refused(&[], &format!("month\n{}", lines(&entries, 3, ",").concat()), &format!("{n} months, fewer than 72"));
    }
    for n in [601, 672] {
        let entries = some_entries(n);
        assert_refused(&["3"], &list(&entries, "\n"), "line 601: more than 600 months");
        assert_refused(&["3"], &list(&entries, " "), "line 1: more than 600 months");
        assert_refused(&[], &format!("month\n{}", lines(&entries, 3, ",").concat()), "line 602: more than 600 months");
    }
}

#[test]
fn dates_beside_a_start() {
    let figures: Vec<Entry> = (0..80).map(Figure).collect();
    assert_refused(&["11"], &lines(&figures, 11, " ").concat(), "line 2: a table with dates, which takes no START");
    assert_refused(&["11"], &lines(&figures, 11, ",").concat(), "line 1: '2021-11,0' is no whole number, nor two as OLD>NEW");
    // Three figures on a line are no dates where two lines are not two months in turn.
    let threes: Vec<Entry> = (0..81).map(|t| Figure([2021, 5, 700][t % 3])).collect();
    let input: String = threes.chunks(3).map(|line| list(line, " ") + "\n").collect();
    assert_made(&["11"], &input, &threes, 11);
}

/// Wrong use prints the script's first line of heading.
#[test]
fn wrong_use() {
    let script = fs::read_to_string(root().join("examples/make-sheet")).expect("make-sheet");
    let line = script.lines().nth(1).and_then(|line| line.strip_prefix("# ")).expect("a heading");
    assert_eq!(line, "make-sheet START < LIST > SHEET, or make-sheet < TABLE > SHEET");
    let input = list(&some_entries(72), "\n");
    let assert_wrong = |arguments: &[&str], why: &str| assert_ends(&make_sheet(arguments, &input), 2, &format!("{why}; use: {line}"));
    for start in ["0", "00", "13", "100", "257", "-1", "+1", "x", "", " 1", "1\n", "1.0", "001", "*", "-c", "--help", "[1-9]"] {
        assert_wrong(&[start], "START is no month from 1 to 12");
    }
    for arguments in [&["1", "2"][..], &["1", ""], &["13", "1"], &["1", "examples/revised.txt"]] {
        assert_wrong(arguments, "more than one argument");
    }
}

/// Reads and writes that fail at once: a directory, a full device, a closed input or output.
#[test]
fn failing_input_and_output() {
    for input in ["10 < examples", "< examples", "10 <&-", "<&-"] {
        assert_ends(&shell(&format!("examples/make-sheet {input}")), 3, "the input could not be read");
    }
    for output in ["> /dev/full", ">&-"] {
        assert_ends(&shell(&format!("examples/make-sheet 10 < examples/revised.txt {output}")), 3, "the output could not be written");
    }
}
