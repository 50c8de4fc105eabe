//! The refusal sheets of METHOD, README and the header, beside the library and the separately written program: the numbers of every row, its
//! example, and the orders of the checks, which are those of the ladders; and METHOD's limits of a series, which are those of the rows.

#[path = "proved/columns/mod.rs"]
mod columns;
mod document;
mod doubles;
mod ladder;
mod proved;
#[path = "proved/sheet/mod.rs"]
mod sheet;

use document::{between, cells_of, document, in_digits, month, numbers, part, table, without_brackets, without_commas};
use doubles::HALF;
use ladder::{DECOMPOSING, PERIOD, READING, READING_COLUMNS, READING_SHEET, WRITING, WRITING_COLUMNS};
use proved::{beside, Answer};
use separate::calendar::labels;
use separate::columns::{bytes_of as columns_of, last_year};
use separate::decompose::{Lent, FEWEST_MONTHS, MOST_MONTHS, ROWS};
use separate::desk::bytes_of;
use separate::sheet::{bytes_of as sheet_of, Cell, REVISION, UNUSED};

// What both programs answer.

fn of_series(figures: &[i32], start: u8) -> Answer {
    beside::decompose("a series", figures, start, &Lent::right_for(figures.len())).0
}

fn of_file(bytes: &[u8]) -> Answer {
    beside::read("a file", bytes, MOST_MONTHS, MOST_MONTHS)
}

fn of_columns(bytes: &[u8]) -> Answer {
    columns::beside::read("by calendar month", bytes, MOST_MONTHS, MOST_MONTHS)
}

fn of_sheet(bytes: &[u8]) -> Answer {
    sheet::beside::answer("a members' sheet", bytes, MOST_MONTHS)
}

fn of_first_year(n: usize, start: u8, year: u16) -> Answer {
    columns::beside::write("a year", &vec![100; n], start, year, &vec![1000; n], 6 + 6 * n).0
}

/// The forms that are read, each with a good byte string of n months.
type Form = (fn(usize) -> Vec<u8>, fn(&[u8]) -> Answer);
const FORMS: [Form; 3] = [
    (|n| bytes_of(&vec![100; n], 1, 12, &vec![1000; n]), of_file),
    (|n| columns_of(&vec![100; n], 1, 2021, &vec![1000; n]), of_columns),
    (|n| sheet_of(1, &vec![Cell::figure(100); n]), of_sheet),
];

fn file(n: usize) -> Vec<u8> {
    FORMS[0].0(n)
}

/// Good months but for one value.
fn with<T: Clone>(good: T, t: usize, value: T) -> Vec<T> {
    let mut list = vec![good; FEWEST_MONTHS];
    list[t] = value;
    list
}

fn of_figure(t: usize, figure: i32) -> Answer {
    of_series(&with(100, t, figure), 1)
}

fn of_weight(t: usize, weight: u16) -> Answer {
    of_file(&bytes_of(&[100; FEWEST_MONTHS], 1, 12, &with(1000, t, weight)))
}

fn of_cell(t: usize, cell: Cell) -> Answer {
    of_sheet(&sheet_of(1, &with(Cell::figure(100), t, cell)))
}

fn of_period(period: u8) -> Answer {
    of_file(&bytes_of(&[100; FEWEST_MONTHS], 1, period, &[1000; FEWEST_MONTHS]))
}

// The numbers of the rows, found by trying.

/// The last of the numbers from a good one to a bad one that a row lets pass.
fn last_good(mut good: i64, mut bad: i64, passes: impl Fn(i64) -> bool) -> i128 {
    assert!(passes(good) && !passes(bad));
    while good.abs_diff(bad) > 1 {
        let middle = (good + bad) / 2;
        if passes(middle) {
            good = middle;
        } else {
            bad = middle;
        }
    }
    good.into()
}

/// The byte values that a row lets pass.
fn bytes_past(row: u8, answer: impl Fn(u8) -> Answer) -> Vec<i128> {
    (0..=255).filter(|&byte| answer(byte).0 != row).map(i128::from).collect()
}

/// The lengths that are accepted of a form, as so many bytes and so many more for each month.
fn accepted_length((bytes, answer): Form) -> [i128; 2] {
    let accepted = |n: usize| {
        let cut = |length: &usize| [bytes(n), vec![0; 9]].concat()[..*length].to_vec();
        let lengths: Vec<usize> = (0..bytes(n).len() + 9).filter(|length| answer(&cut(length)) == (0, 0)).collect();
        assert_eq!(lengths.len(), 1, "{n} months");
        lengths[0] as i128
    };
    let each = accepted(FEWEST_MONTHS + 1) - accepted(FEWEST_MONTHS);
    [accepted(FEWEST_MONTHS) - each * FEWEST_MONTHS as i128, each]
}

/// The numbers by which a row says where it applies.
fn limits(row: u8) -> Vec<i128> {
    let of_months = |n: i64| of_series(&vec![100; n as usize], 1).0;
    match row {
        1 => vec![last_good(100, 0, |n| of_months(n) != 1)],
        2 => vec![last_good(100, 9_999, |n| of_months(n) != 2)],
        3 => {
            let months = bytes_past(3, |start| of_series(&[100; FEWEST_MONTHS], start));
            assert_eq!(months, (months[0]..=months[months.len() - 1]).collect::<Vec<_>>());
            vec![months[0], months[months.len() - 1]]
        }
        5 => [i32::MIN, i32::MAX].map(|bad| last_good(0, bad.into(), |figure| of_figure(0, figure as i32).0 != 5)).to_vec(),
        7 => {
            let passes = |(bytes, answer): Form, length: usize| answer(&bytes(FEWEST_MONTHS)[..length]).0 != 7;
            FORMS.map(|form| (0..).find(|&length| passes(form, length)).expect("a length") as i128).to_vec()
        }
        8 => bytes_past(8, of_period),
        9 => FORMS.map(accepted_length).concat(),
        10 => vec![last_good(0, u16::MAX.into(), |weight| of_weight(0, weight as u16).0 != 10)],
        11 => {
            let latest = last_good(2021, u16::MAX.into(), |year| of_first_year(FEWEST_MONTHS, 1, year as u16).0 != 11);
            let earliest = last_good(2021, 0, |year| of_first_year(FEWEST_MONTHS, 1, year as u16).0 != 11);
            vec![earliest, last_year(1, latest as u16, FEWEST_MONTHS) as i128]
        }
        12 => bytes_past(12, |kind| of_cell(0, Cell { kind, first: UNUSED, second: UNUSED })),
        _ => Vec::new(),
    }
}

/// The rows of a sheet in Markdown: number and the other cells.
fn rows(text: &str, heading: &str) -> Vec<(u8, Vec<String>)> {
    let rows = table(text, heading).into_iter();
    rows.map(|cells| (cells[0].parse().expect("a number"), cells[1..].iter().map(|cell| cell.to_string()).collect())).collect()
}

#[test]
fn rows_by_their_numbers() {
    let readme = without_commas(&document("README.md"));
    let of_method = rows(&part("8.1"), "| no. | applies where | place | example |");
    let of_readme = rows(&readme, "| no. | when |");
    assert_eq!(of_method.iter().map(|row| row.0).collect::<Vec<_>>(), ROWS);
    assert_eq!(of_readme.iter().map(|row| row.0).collect::<Vec<_>>(), ROWS);
    for ((row, cells), (_, words)) in of_method.iter().zip(&of_readme) {
        let due = limits(*row);
        assert_eq!(numbers(&without_brackets(&cells[0])), due, "METHOD, row {row}: {}", cells[0]);
        // README has no numbers of the kinds.
        assert_eq!(numbers(&words[0]), if *row == 12 { Vec::new() } else { due }, "README, row {row}: {}", words[0]);
        let has_place = cells[2].contains("place");
        assert_eq!(numbers(&cells[1]), if has_place { vec![] } else { vec![0] }, "METHOD, row {row}");
        assert_eq!(words[0].contains("place of the first"), has_place, "README, row {row}");
    }
    let no_place = [of_series(&[], 1).1 as i128];
    assert_eq!(numbers(between(&part("8.1"), "rows without a place say ", ".")), no_place);
    assert_eq!(numbers(between(&readme, "a row without one has place ", ".")), no_place);
    let first_month = [of_figure(0, i32::MAX).1 as i128];
    assert_eq!(numbers(between(&readme, "Places are months of the series, counted from ", ",")), first_month);
    let header = document("include/vepsjalm.h");
    let (headers, lengths) = (limits(7), limits(9));
    assert_eq!(numbers(between(&header, "A file's header has ", "The place is")), [headers[0], headers[1], lengths[1], headers[2], lengths[5]]);
}

/// The limits of METHOD 1.1 are those of rows 1, 2, 3 and 5.
#[test]
fn limits_of_a_series() {
    let text = part("1.1");
    let shown: Vec<Vec<i128>> = table(&text, "| | least | most |").iter().map(|cells| numbers(&cells[1..].join(" "))).collect();
    assert_eq!(shown, [[limits(1), limits(2)].concat(), limits(3), limits(5)]);
    let of_the_fewest = in_digits(between(&text, "With ", " times or more"));
    assert_eq!(numbers(&of_the_fewest), [limits(1)[0], limits(1)[0] / limits(3)[1]]);
}

/// What is answered to a row's example, and to the next value, which the row lets pass.
fn provoked(row: u8, example: &str) -> [Answer; 2] {
    let shown = numbers(example);
    let (first, t) = (shown[0], shown.get(1).map_or(0, |&t| t as usize));
    match row {
        1 => [first, first + 1].map(|n| of_series(&vec![100; n as usize], 1)),
        2 => [first, first - 1].map(|n| of_series(&vec![100; n as usize], 1)),
        3 => [first, first - 1].map(|start| of_series(&[100; FEWEST_MONTHS], start as u8)),
        4 => {
            let slices = part("8.3");
            assert!(example.ends_with(&format!(" for {}", between(&slices, "): ", ","))), "{example}");
            let right = Lent::right_for(first as usize);
            [t, t + 1].map(|d10| beside::decompose(example, &vec![100; first as usize], 1, &Lent { d10, ..right }).0)
        }
        5 => {
            let fine = *shown.last().expect("a figure") as i32;
            assert_eq!([fine, fine - 1].map(|figure| of_figure(t, figure)), [(0, 0), (5, t)]);
            [first, first - 1].map(|figure| of_figure(t, figure as i32))
        }
        7 => {
            let bytes: Vec<u8> = shown.iter().map(|&byte| byte as u8).collect();
            assert!(file(FEWEST_MONTHS).starts_with(&bytes), "{example}");
            [0, 1].map(|more| of_file(&file(FEWEST_MONTHS)[..bytes.len() + more]))
        }
        8 => {
            // The one that the ladders try.
            assert!(PERIOD.contains(&(8, first as isize)), "{example}");
            [first, limits(8)[0]].map(|period| of_period(period as u8))
        }
        9 => [first, first + 1].map(|length| of_file(&file(t)[..length as usize])),
        10 => [first, first - 1].map(|weight| of_weight(t, weight as u16)),
        11 => {
            let start = month(between(example, "from ", " "));
            assert_eq!(last_year(start, t as u16, first as usize) as i128, shown[2], "{example}");
            assert_eq!(labels(start, first as usize).pop().map(|last| last.month), Some(month(between(example, "the last is ", " "))));
            [t, t - 1].map(|year| of_first_year(first as usize, start, year as u16))
        }
        12 => [first, first - 1].map(|kind| of_cell(t, Cell { kind: kind as u8, first: UNUSED, second: UNUSED })),
        13 => [first, first + 1].map(|kind| of_cell(t, Cell { kind: kind as u8, first: UNUSED, second: UNUSED })),
        14 => {
            let old: f64 = between(example, "old figure ", " ").parse().expect("a double");
            assert_eq!(old.to_bits(), HALF, "{example}");
            let t = shown[2] as usize;
            [old, 2.0 * old].map(|old| of_cell(t, Cell { kind: REVISION, first: old.to_le_bytes(), second: UNUSED }))
        }
        _ => panic!("row {row}"),
    }
}

#[test]
fn examples_of_the_rows() {
    for (row, cells) in rows(&part("8.1"), "| no. | applies where | place | example |") {
        let example = &cells[2];
        let place = example.split_once("place ").map_or(0, |(_, rest)| numbers(rest)[0] as usize);
        let [answer, next] = provoked(row, example);
        assert_eq!(answer, (row, place), "row {row}: {example}");
        assert_ne!(next.0, row, "row {row}: the next value to {example}");
    }
}

// The orders of the checks.

/// A document's refusal sheet: its text, the numbers of its rows, and the orders of checks, each with its words.
struct RefusalSheet {
    text: String,
    rows: Vec<i128>,
    orders: Vec<(String, Vec<i128>)>,
}

impl RefusalSheet {
    /// From Markdown: lines with a number in their first cell are rows, those with a number in their second alone orders of checks.
    fn from_tables(text: &str) -> RefusalSheet {
        let lines: Vec<Vec<&str>> = text.lines().filter(|line| line.starts_with('|')).map(cells_of).collect();
        let rows = lines.iter().filter_map(|cells| numbers(cells[0]).first().copied()).collect();
        let without = lines.into_iter().filter(|cells| numbers(cells[0]).is_empty());
        let orders = without.map(|cells| (cells[0].to_string(), numbers(cells[1]))).filter(|(_, order)| !order.is_empty()).collect();
        RefusalSheet { text: text.to_string(), rows, orders }
    }

    /// From the header: constants above 0 are rows, lines that are set in orders of checks.
    fn from_header(text: &str) -> RefusalSheet {
        let (words, constants) = text.split_once("#define VEPSJALM_SUCCESS 0\n").expect("the constants");
        let lines = words.lines().filter_map(|line| line.strip_prefix("       ")?.split_once("  "));
        let orders = lines.map(|(name, order)| (name.to_string(), numbers(order))).collect();
        let rows = constants.lines().filter(|line| line.starts_with("#define ")).flat_map(numbers).collect();
        RefusalSheet { text: words.to_string(), rows, orders }
    }
}

/// README, METHOD and the header.
fn sheets() -> [(&'static str, RefusalSheet); 3] {
    let (readme, method, header) = (document("README.md"), document("docs/METHOD.md"), document("include/vepsjalm.h"));
    [
        ("README", RefusalSheet::from_tables(between(&readme, "## The refusal sheet\n", "\n## "))),
        ("METHOD", RefusalSheet::from_tables(between(&method, "**8.1 ", "**8.3 "))),
        ("the header", RefusalSheet::from_header(between(&header, "/* The refusal sheet.", "vepsjalm_refusal_text(uint8_t"))),
    ]
}

/// All have the rows that this program can answer, 1 to 5 and 7 to 14; no order of checks has 6, and each sheet says that it is retired.
#[test]
fn refusal_sheets_are_without_6() {
    let rows: Vec<i128> = (1..=5).chain(7..=14).collect();
    assert_eq!(ROWS.map(i128::from), rows[..]);
    for (name, sheet) in sheets() {
        assert_eq!(sheet.rows, rows, "{name}");
        assert!(sheet.orders.iter().flat_map(|(_, order)| order).all(|row| rows.contains(row)), "{name}: {:?}", sheet.orders);
        let retired = |part: &str| part.contains("retired") && numbers(part).contains(&6);
        assert!(sheet.text.split("\n\n").any(retired), "{name}");
        let statements = sheet.text.matches("There is no 6.").count() + sheet.text.matches("There is no row 6.").count();
        assert_eq!(statements, 1, "{name}");
    }
}

#[test]
fn orders_of_the_checks() {
    let ladders: [(&str, &[u8]); 6] = [
        ("decomposing", &DECOMPOSING),
        ("reading", &READING),
        ("writing", &WRITING),
        ("reading by calendar month", &READING_COLUMNS),
        ("writing by calendar month", &WRITING_COLUMNS),
        ("reading a members' sheet", &READING_SHEET),
    ];
    for (name, sheet) in sheets() {
        let orders: Vec<(&str, Vec<i128>)> =
            sheet.orders.iter().map(|(words, order)| (words.split(',').next().expect("words"), order.clone())).collect();
        let due = ladders.map(|(words, order)| (words, order.iter().map(|&row| i128::from(row)).collect::<Vec<_>>()));
        assert_eq!(orders, due, "{name}");
        assert!(sheet.orders[3].0.contains(", moving"), "{name}");
    }
    // What decomposing could still refuse of a series that was read.
    let read: Vec<i128> = DECOMPOSING.into_iter().filter(|row| *row != 4).chain([4]).map(i128::from).collect();
    assert_eq!(numbers(between(&part("9.1"), "has accepted: rows ", "). So")), read);
}

/// Of moving: a short file, one of the wrong length, a short output, a year that is none.
#[test]
fn rows_of_moving() {
    let (old, room) = (file(FEWEST_MONTHS), 6 + 6 * FEWEST_MONTHS);
    let answer = |bytes: &[u8], year, room| i128::from(columns::beside::forward("moving", bytes, year, room).0 .0);
    let due = [answer(&old[..3], 2021, room), answer(&old[..old.len() - 1], 2021, room), answer(&old, 2021, room - 1), answer(&old, 0, room)];
    assert_eq!(numbers(&without_brackets(between(&part("8.2"), "For moving, ", " is of the year"))), due);
    for (name, sheet) in sheets() {
        if name != "METHOD" {
            assert_eq!(numbers(between(&sheet.text, "In moving, ", " of the output")), due[..3], "{name}");
        }
    }
}
