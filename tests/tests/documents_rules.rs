//! METHOD's rules by their numbers, beside the separately written program and the library: its halves, the tables by which a weight, a
//! length and a filter are chosen, the distances, the layouts of files and sheets, the lent slices, the printed lines; and that every part
//! which is cited is there.

mod document;
mod proved;

use document::{
    between, cells_of, document, first_and_each, lengths, month, multiples, numbers, part, parts, root, table, without_commas,
};
use proved::beside;
use separate::calendar::labels;
use separate::columns::{self, last_year, write_columns, EARLIEST_YEAR, LATEST_YEAR};
use separate::decompose::{decompose_fitting, scratch_for, Lent, Tables, FEWEST_MONTHS, MOST_MONTHS};
use separate::desk;
use separate::exact::{PASS_B_LIMITS, PASS_LIMITS, RESULT_LIMITS};
use separate::generators::book_series;
use separate::noise::Noise;
use separate::print::printed;
use separate::rounding::{nearest_away, nearest_even};
use separate::seasonality::Question;
use separate::sheet::{self, Cell};
use separate::spread::weight;
use std::collections::BTreeSet;
use std::fs;
use std::path::Path;

// Rounding.

#[test]
fn halves_by_both_rules() {
    let [half, of_minus, more, less] = [1, -1, 3, -3].map(|upper| nearest_even(upper, 2));
    assert_eq!(half, of_minus);
    let words = format!("to the even one of them: 1/2 and -1/2 become {half}, 3/2 becomes {more} and -3/2 becomes {less}.");
    assert!(part("1.3").contains(&words), "{words}");
    let [half, of_minus] = [1, -1].map(|upper| nearest_away(upper, 2));
    let words = format!("to the one farther from zero: 1/2 becomes {half} and -1/2 becomes {of_minus}.");
    assert!(part("1.4").contains(&words), "{words}");
}

// Tables of which the first line that fits decides.

/// What two names stand for.
type Named<'a> = [(&'a str, u64); 2];

/// A number, a name, or a multiple of what a name stands for, as 2a.
fn value(term: &str, named: Named) -> u64 {
    let name = term.trim_start_matches(|c: char| c.is_ascii_digit());
    let digits = &term[..term.len() - name.len()];
    let factor = if digits.is_empty() { 1 } else { digits.parse().expect("a factor") };
    match named.into_iter().find(|(known, _)| *known == name) {
        Some((_, value)) => factor * value,
        None => {
            assert!(name.is_empty(), "{term}");
            factor
        }
    }
}

/// Whether the words of a line are true, as σ = 0 and a > 0.
fn is_true(words: &str, named: Named) -> bool {
    words.split(" and ").all(|claim| {
        let signs = [" = ", " < ", " > ", " at least "];
        let found = signs.into_iter().find_map(|sign| Some((sign, claim.split_once(sign)?)));
        let (sign, (left, right)) = found.unwrap_or_else(|| panic!("{claim}"));
        let (left, right) = (value(left, named), value(right, named));
        match sign {
            " = " => left == right,
            " < " => left < right,
            " > " => left > right,
            _ => left >= right,
        }
    })
}

/// The first line that fits: its words and what it says.
fn first_to_fit<'a>(rows: &[Vec<&'a str>], named: Named) -> (&'a str, &'a str) {
    let row = rows.iter().find(|row| row[0] == "otherwise" || is_true(row[0], named)).expect("a line that fits");
    (row[0], row[1])
}

fn pairs(most: u64, most_of_the_other: u64) -> impl Iterator<Item = (u64, u64)> {
    (0..=most).flat_map(move |one| (0..=most_of_the_other).map(move |other| (one, other)))
}

#[test]
fn weights_by_their_table() {
    let part = part("5.6");
    let rows = table(&part, "| where | weight |");
    for (sigma, a) in pairs(50, 140) {
        let (words, shown) = first_to_fit(&rows, [("σ", sigma), ("a", a)]);
        // Where σ is 0, which has no quotient, lines of their own decide.
        assert_eq!(words.starts_with("σ = 0"), sigma == 0, "σ {sigma}, a {a}: {words}");
        let due = match numbers(shown)[..] {
            [weight] => weight,
            [all, thousand] => all - i128::from(nearest_away(thousand * i128::from(a), sigma.into())),
            _ => panic!("{shown}"),
        };
        assert_eq!(due, weight(a, sigma).into(), "σ {sigma}, a {a}: {words}");
    }
}

#[test]
fn lengths_of_the_final_trend_by_their_table() {
    let part = part("4.5");
    let rows = table(&part, "| where | terms |");
    for (i, c) in pairs(80, 80) {
        let (words, shown) = first_to_fit(&rows, [("I", i), ("C", c)]);
        assert_eq!(numbers(shown), [Noise { i, c }.terms() as i128], "I {i}, C {c}: {words}");
    }
}

#[test]
fn seasonal_filters_by_their_table() {
    let part = part("4.6");
    let rows = table(&part, "| where | answer |");
    for (i, s) in pairs(150, 50) {
        let (words, shown) = first_to_fit(&rows, [("I", i), ("S", s)]);
        let answer = Question { months: 72, i, s }.answer();
        assert_eq!(shown, answer.map_or("none".to_string(), |filter| filter.to_string().replace('x', "×")), "I {i}, S {s}: {words}");
    }
}

// Distances.

#[test]
fn distances_in_a_pass() {
    let [(t2, near_t2), (s2, near_s2)] = PASS_LIMITS;
    let [(_, near_t2_in_b), (_, near_s2_in_b)] = PASS_B_LIMITS;
    let passes = format!("in passes C and D {t2} lies within {near_t2} grains of the exact {t2}, and {s2} within {near_s2} of the exact {s2};");
    let pass_b = format!("in pass B, its weights and neighbours held, {t2} within {near_t2_in_b} and {s2} within {near_s2_in_b}.");
    assert!(part("6.3").contains(&format!("{passes} {pass_b}")), "{passes} {pass_b}");
    let contract = document("crates/tables/specs/Nearness.antt");
    for (choices, near) in [
        ("(choices_b start (B1 start figures))", [near_t2_in_b, near_s2_in_b]),
        ("choices_c", [near_t2, near_s2]),
        ("c", [near_t2, near_s2]),
    ] {
        let stated = format!("Near {choices} {} {} (", near[0], near[1]);
        assert!(contract.contains(&stated), "{stated}");
    }
}

#[test]
fn distances_of_the_results() {
    let of = RESULT_LIMITS.map(|(table, near)| (format!("{table} from {}", table.replace('D', "E")), near));
    let [(d10, near), (d11, also), (d12, near_d12), (d13, near_d13)] = &of;
    assert_eq!(near, also);
    let words = format!("{d10} and {d11} at most {near} grains, {d12} at most {near_d12}, {d13} at most {near_d13}.");
    assert!(part("6.4").contains(&words), "{words}");
    let contract = document("crates/tables/specs/Nearness.antt");
    for (table, near) in RESULT_LIMITS {
        let stated = format!("AtMostApart {near} (over_e f) ({} ‼ t)", table.to_lowercase());
        assert!(contract.contains(&stated), "{stated}");
    }
    let readme = document("README.md");
    assert_eq!(numbers(between(&readme, "the adjusted figure differ by at most ", ";")), [*near, *near_d12, *near_d13]);
}

// Layouts.

/// The fields of a layout in bytes that are laid out so: what each is, and its values, one or one for each month.
fn fields(layout: &[Vec<&str>], bytes: &[u8], n: usize) -> Vec<(String, Vec<i128>)> {
    let mut rest = bytes;
    let mut list = Vec::new();
    for line in layout {
        let (digits, count) = line[0].strip_suffix('n').map_or((line[0], 1), |digits| (digits, n));
        let size: usize = if digits.is_empty() { 1 } else { digits.parse().expect("a number of bytes") };
        let (field, behind) = rest.split_at(size * count);
        rest = behind;
        list.push((line[1].to_string(), field.chunks(size).map(|piece| low_byte_first(piece, line[1].contains("signed"))).collect()));
    }
    assert!(rest.is_empty(), "{} bytes are left", rest.len());
    list
}

/// Sixteen bytes at most.
fn low_byte_first(piece: &[u8], signed: bool) -> i128 {
    let value = piece.iter().rev().fold(0, |value: u128, &byte| 256 * value + u128::from(byte)) as i128;
    let is_negative = signed && piece.last().is_some_and(|&high| high >= 128);
    if is_negative { value - (1 << (8 * piece.len())) } else { value }
}

/// A series of n months with weights, each figure and each weight unlike its neighbours.
fn series(n: usize) -> (Vec<i32>, Vec<u16>) {
    ((0..n as i32).map(|t| 300 * t - 70_000).collect(), (0..n as u16).map(|t| t * 7 % 1001).collect())
}

fn whole<T: Copy + Into<i128>>(list: &[T]) -> Vec<i128> {
    list.iter().map(|&value| value.into()).collect()
}

/// A layout by the table of a document, of files of both numbers of months; in month order where it has a year.
fn check_layout(document: &str, layout: &[Vec<&str>], year: Option<u16>) {
    let start = 3;
    for n in [FEWEST_MONTHS, MOST_MONTHS] {
        let (figures, weights) = series(n);
        let ordered = |list: Vec<i128>| if year.is_some() { columns::by_month(&list, start) } else { list };
        let bytes = match year {
            None => desk::bytes_of(&figures, start, 12, &weights),
            Some(year) => columns::bytes_of(&figures, start, year, &weights),
        };
        let (names, found): (Vec<String>, Vec<Vec<i128>>) = fields(layout, &bytes, n).into_iter().unzip();
        let mut due = vec![vec![n as i128], vec![start.into()], vec![bytes[3].into()]];
        due.extend(year.map(|year| vec![year.into()]));
        due.extend([ordered(whole(&figures)), ordered(whole(&weights))]);
        assert_eq!(found, due, "{document}: {n} months");
        assert_eq!(numbers(&names[2]), [i128::from(bytes[3])], "{document}: the period");
    }
}

#[test]
fn layouts_of_desk_files() {
    let readme = document("README.md");
    let (plain, by_month) = readme.split_once("The other form is by calendar month").expect("both forms");
    check_layout("METHOD 7.1", &table(&part("7.1"), "| bytes | what |"), None);
    check_layout("README", &table(plain, "| bytes | what |"), None);
    for year in [2021, 9949] {
        check_layout("METHOD 7.5", &table(&part("7.5"), "| bytes | what |"), Some(year));
        check_layout("README", &table(by_month, "| bytes | what |"), Some(year));
    }
}

/// Count, start month, kinds, and the cells with sixteen bytes each.
#[test]
fn layouts_of_members_sheets() {
    let readme = document("README.md");
    let (_, of_readme) = readme.split_once("## The members' sheet").expect("the sheet");
    for text in [&part("7.10"), of_readme] {
        let layout = table(text, "| bytes | what |");
        let cells: Vec<Cell> = (0..72).map(|t| Cell { kind: 100 + t, first: [t; 8], second: [t; 8] }).collect();
        let found: Vec<Vec<i128>> = fields(&layout, &sheet::bytes_of(5, &cells), 72).into_iter().map(|field| field.1).collect();
        let sixteen = |t: u8| u128::from_le_bytes([t; 16]) as i128;
        assert_eq!(found, [vec![72], vec![5], (100..172).collect(), (0..72).map(sixteen).collect()]);
    }
}

/// Lengths for n months wherever METHOD has them, and those for the fewest and the most.
#[test]
fn lengths_of_files() {
    let [plain, by_month, sheet] = [desk::length_of, columns::length_of, sheet::length_of].map(first_and_each);
    let of_parts = parts().into_iter().map(|(number, text)| (number, lengths(&text)));
    let found: Vec<(String, Vec<[usize; 2]>)> = of_parts.filter(|(_, list)| !list.is_empty()).collect();
    let due = [
        ("7.1", vec![plain]),
        ("7.3", vec![plain, plain]),
        ("7.5", vec![by_month]),
        ("7.7", vec![by_month, by_month]),
        ("7.8", vec![by_month, plain]),
        ("7.10", vec![sheet]),
        ("8.1", vec![plain, by_month, sheet]),
    ];
    assert_eq!(found, due.map(|(number, list)| (number.to_string(), list)));
    for (number, length_of) in [("7.1", desk::length_of as fn(usize) -> usize), ("7.5", columns::length_of), ("7.10", sheet::length_of)] {
        let shown = numbers(between(&part(number), "bytes in all: ", "."));
        let due = [FEWEST_MONTHS, MOST_MONTHS].map(|n| [length_of(n) as i128, n as i128]);
        assert_eq!(shown, due.concat(), "{number}");
    }
    let readme = without_commas(&document("README.md"));
    let sentences = readme.lines().filter(|line| line.contains("bytes in all, ")).map(|line| line.split('.').next().expect("a sentence"));
    let shown: Vec<Vec<i128>> = sentences.map(numbers).collect();
    let due = [desk::length_of, columns::length_of, sheet::length_of].map(|length_of: fn(usize) -> usize| {
        let [first, each] = first_and_each(length_of);
        [first, each, length_of(FEWEST_MONTHS), FEWEST_MONTHS].map(|number| number as i128)
    });
    assert_eq!(shown, due);
}

#[test]
fn years_of_a_series() {
    let text = part("7.5");
    let rule = numbers(between(&text, "as many more as the times that ", ". From"));
    let &[year, one, one_more] = &rule[..] else { panic!("{rule:?}") };
    let example = between(&text, "From ", " times.");
    let (from, _) = example.split_once(' ').expect("a month");
    let shown = numbers(example);
    let (first, n) = (shown[0] as u16, shown[1] as usize);
    let (start, months) = (i128::from(month(from)), n as i128);
    let before = start - one + months - one_more;
    let last = last_year(month(from), first, n) as i128;
    assert_eq!(shown, [first.into(), months, last, start - one, months - one_more, before, year, before / year]);
    assert_eq!(last, i128::from(first) + before / year);
    assert_eq!(month(between(example, "end in ", " ")), labels(month(from), n)[n - 1].month);
    // A series from December has no other month in its first year.
    let of_the_first_year: Vec<i128> = (0..).zip(labels(12, n)).filter(|(_, label)| label.year == 0).map(|(t, _)| t).collect();
    assert_eq!(numbers(between(&text, "which is the year of t = ", ";")), of_the_first_year);
    assert_eq!(numbers(between(&text, "Both years are ", " (")), [EARLIEST_YEAR as i128, LATEST_YEAR as i128]);
    let refused = write_columns(&[0; 72], 1, 0, &[0; 72], usize::MAX).expect_err("no year 0");
    assert_eq!(numbers(between(&text, "(row ", " of")), [i128::from(refused.number)]);
    assert_eq!(numbers(between(&text, "two bytes hold ", " too")), [EARLIEST_YEAR as i128 - 1, LATEST_YEAR as i128 + 1, u16::MAX.into()]);
}

// Lent slices.

/// What is just right for n months, but for one slice.
fn lent_but_for(n: usize, name: &str, length: usize) -> Lent {
    let right = Lent::right_for(n);
    match name {
        "D10" => Lent { d10: length, ..right },
        "D11" => Lent { d11: length, ..right },
        "D12" => Lent { d12: length, ..right },
        "D13" => Lent { d13: length, ..right },
        "B17" => Lent { b17: length, ..right },
        "C17" => Lent { c17: length, ..right },
        "the scratch" => Lent { scratch: length, ..right },
        other => panic!("{other} is not lent"),
    }
}

fn answer_on(n: usize, name: &str, length: usize) -> (u8, usize) {
    let (figures, _) = series(n);
    beside::decompose(&format!("{n} months, {length} of {name}"), &figures, 1, &lent_but_for(n, name, length)).0
}

#[test]
fn lengths_of_lent_slices() {
    let text = part("8.3");
    let row = numbers(between(&text, "(row ", ")"))[0] as u8;
    let names: Vec<String> = between(&text, "): ", " exactly n").replace(" and ", ", ").split(", ").map(str::to_string).collect();
    assert_eq!((names.len(), names.iter().collect::<BTreeSet<_>>().len()), (6, 6));
    for name in &names {
        assert_eq!([71, 72, 73].map(|length| answer_on(72, name, length)), [(row, 0), (0, 0), (row, 0)], "{name}");
    }
    let slices = beside::lent_for(&Lent::right_for(72));
    let bits = 8 * std::mem::size_of_val(&slices.guarded[0]) as i128;
    let shown = numbers(between(&text, "the scratch, ", ". Reading"));
    assert_eq!((shown[0], shown[1], shown.len()), (bits, scratch_for(1) as i128, 8));
    assert_eq!([shown[2], shown[5]], [FEWEST_MONTHS, MOST_MONTHS].map(|n| n as i128));
    for line in shown[2..].chunks(3) {
        let &[n, enough, few] = line else { panic!("{line:?}") };
        assert_eq!((enough, few), (shown[1] * n, enough - 1));
        assert_eq!([enough, few].map(|length| answer_on(n as usize, "the scratch", length as usize)), [(0, 0), (row, 0)], "{n} months");
    }
    let lending = parts().into_iter().filter(|(number, text)| number.starts_with("7.") && is_lent(text));
    let lending: Vec<String> = lending.map(|(number, _)| number).collect();
    assert_eq!(between(&text, "Reading, writing and moving: ", ".\n"), lending.join(", "));
}

/// Whether a part of METHOD says what must be lent.
fn is_lent(text: &str) -> bool {
    text.contains("lent slice") || text.contains("an output")
}

/// The scratch after a success of the library: how many entries are zero at its front, and how many stay as they were.
#[test]
fn what_is_left_in_the_scratch() {
    let text = part("8.4");
    let shown = numbers(between(&text, "Of ", ".\n"));
    let &[n, length, times, zeros, left] = &shown[..] else { panic!("{shown:?}") };
    let lent = lent_but_for(n as usize, "the scratch", length as usize);
    let (figures, _) = series(n as usize);
    beside::decompose("8.4", &figures, 1, &lent);
    let before = beside::lent_for(&lent);
    let mut after = before.clone();
    assert_eq!(proved::decompose(&figures, 1, &mut after), (0, 0));
    let range = proved::GUARD..proved::GUARD + lent.scratch;
    let (before, after) = (&before.guarded[range.clone()], &after.guarded[range]);
    let front = after.iter().take_while(|&&entry| entry == 0).count() as i128;
    let same = (0..after.len()).filter(|&place| after[place] == before[place]).count() as i128;
    assert_eq!((zeros, left, length), (front, same, times * n));
    assert_eq!(multiples(&text), [(front / n) as usize, times as usize]);
}

// What is printed.

/// A table of the results by its name.
fn result(tables: &Tables, name: &str) -> Vec<i128> {
    match name {
        "D10" => whole(&tables.d10),
        "D11" => whole(&tables.d11),
        "D12" => whole(&tables.d12),
        "D13" => whole(&tables.d13),
        "C17" => whole(&tables.c17),
        other => panic!("{other} is not printed"),
    }
}

#[test]
fn printed_lines() {
    let text = part("9.2");
    let shown: Vec<&str> = text.lines().filter_map(|line| line.strip_prefix("    ")).collect();
    let constant = numbers(between(&text, "(A series of ", " such lines"));
    let &[n, figure, lines] = &constant[..] else { panic!("{constant:?}") };
    let all = printed(&desk::bytes_of(&vec![figure as i32; n as usize], 1, 12, &vec![1000; n as usize]));
    let all: Vec<&str> = all.lines().collect();
    assert_eq!((shown, lines), (all[..2].to_vec(), all.len() as i128 - 1));
    // The columns are the tables that are named.
    let names = between(&text, "then t, the figure, ", ".").replace(" and ", ", ");
    let figures = book_series();
    let tables = decompose_fitting(&figures, 10).expect("tables");
    let columns: Vec<Vec<i128>> = names.split(", ").map(|name| result(&tables, name)).collect();
    assert_eq!(names.split(", ").last(), Some(between(&part("7.1"), "The weights are the caller's, ", " where")));
    let text = printed(&desk::bytes_of(&figures, 10, 12, &[1000; 114]));
    for (t, line) in text.lines().skip(1).enumerate() {
        let due = [t as i128, figures[t].into()].into_iter().chain(columns.iter().map(|column| column[t]));
        assert_eq!(numbers(line), due.collect::<Vec<_>>(), "month {t}");
    }
}

/// A refusal is printed with its number and its place; no file is longer than what is read of the input.
#[test]
fn printed_refusals() {
    let text = part("9.1");
    assert_eq!(numbers(between(&text, "no more than ", " of it")), [desk::length_of(MOST_MONTHS) as i128 + 1]);
    let shown = text.lines().find_map(|line| line.strip_prefix("    ")).expect("a refusal");
    let place = numbers(shown)[1] as usize;
    let mut figures = vec![100; 72];
    figures[place] = 200_001;
    assert_eq!(printed(&desk::bytes_of(&figures, 1, 12, &[1000; 72])), format!("{shown}\n"));
}

// Parts that are cited.

/// The parts that a text names, as 3.9. What is followed by "times" is a quantity.
fn cited(text: &str) -> Vec<String> {
    let text = text.replace(" times", "times");
    let words = text.split(|c: char| !c.is_alphanumeric() && c != '.').map(|word| word.trim_matches('.'));
    let is_part = |word: &str| {
        let (section, place) = word.split_once('.')?;
        let (section, _) = (section.parse::<u32>().ok()?, place.parse::<u32>().ok()?);
        Some((1..=11).contains(&section))
    };
    words.filter(|word| is_part(word) == Some(true)).map(str::to_string).collect()
}

/// The parts named behind a mark: numbers with ", ", "and" or "to" between.
fn cited_behind(text: &str, mark: &str) -> Vec<String> {
    let mut list = Vec::new();
    for behind in text.split(mark).skip(1) {
        let end = behind.find(|c: char| !c.is_ascii_digit() && !",. andto".contains(c)).unwrap_or(behind.len());
        let words = behind[..end].split([' ', ',']).map(|word| word.trim_matches('.'));
        let first = words.clone().next().expect("a word");
        list.extend(first.parse::<u32>().ok().map(|section| section.to_string()));
        list.extend(cited(&behind[..end]));
    }
    list
}

/// The definitions, proofs and sources below a folder.
fn sources(folder: &Path, list: &mut Vec<(String, String)>) {
    for entry in fs::read_dir(folder).expect("a folder") {
        let path = entry.expect("an entry").path();
        if path.is_dir() {
            sources(&path, list);
        } else if path.extension().is_some_and(|kind| kind == "antt" || kind == "rt") {
            list.push((path.display().to_string(), fs::read_to_string(&path).expect("a text")));
        }
    }
}

/// Parts are numbered one after another, and every part that is cited is there.
#[test]
fn parts_that_are_cited_are_there() {
    let there: Vec<String> = parts().into_iter().map(|(number, _)| number).collect();
    let place = |number: &String| numbers(&number.replace('.', " ")).iter().fold(0, |place, digit| 100 * place + digit);
    let places: Vec<i128> = there.iter().map(|number| place(number) * if number.contains('.') { 1 } else { 100 }).collect();
    assert_eq!((places[0], places[places.len() - 1]), (100, 1100));
    assert!(places.windows(2).all(|pair| pair[1] == pair[0] + 1 || (pair[1] % 100 == 0 && pair[1] == pair[0] / 100 * 100 + 100)), "{there:?}");
    let contracts = document("docs/CONTRACTS.md");
    let rows: Vec<&str> = contracts.lines().filter(|line| line.starts_with('|')).map(|line| cells_of(line)[0]).collect();
    let readme = document("README.md");
    let mut found = vec![
        ("METHOD".to_string(), cited(&without_commas(&document("docs/METHOD.md")))),
        ("the header".to_string(), cited(&document("include/vepsjalm.h"))),
        ("README".to_string(), cited_behind(&readme, "METHOD](docs/METHOD.md) ")),
        ("CONTRACTS".to_string(), rows.iter().flat_map(|cell| cited(cell)).collect()),
    ];
    let mut files = vec![("CONTRACTS".to_string(), contracts.clone()), ("DECISIONS".to_string(), document("docs/DECISIONS.md"))];
    sources(&root().join("crates"), &mut files);
    found.extend(files.into_iter().map(|(name, text)| (name, cited_behind(&text, "METHOD "))));
    assert!(found.iter().map(|(_, list)| list.len()).sum::<usize>() > 500);
    for (name, list) in found {
        let missing: Vec<&String> = list.iter().filter(|number| !there.contains(number)).collect();
        assert!(missing.is_empty(), "{name} cites {missing:?}");
    }
}

/// The title and the words of the part that a text cites behind some words.
fn part_cited(text: &str, before: &str) -> String {
    let (_, behind) = text.split_once(before).unwrap_or_else(|| panic!("{before}"));
    let cited = cited(behind).into_iter().next().expect("a part");
    assert!(behind.starts_with(&cited), "{before}");
    part(&cited).trim_start_matches(|c: char| !c.is_alphabetic()).to_string()
}

/// Parts are cited for what their titles say.
#[test]
fn parts_that_are_cited_are_meant() {
    for (number, before, title) in [
        ("7.5", "in month order (", "Month order"),
        ("7.5", "signs are as in ", "Layout"),
        ("7.5", "(row 11 of ", "The refusal sheet"),
        ("8.1", "is not 1 to 9999 (", "By calendar month"),
        ("8.1", "a byte that is not zero (", "The members' sheet"),
        ("8.1", "a double of a cell does not count (", "Doubles that count"),
        ("8.1", "there is no such group (", "In no group is every month dropped"),
        ("8.1", "not its place in month order (", "Month order"),
        ("8.2", "row 4 of the output (", "Moving"),
        ("11", "sum of the sizes of changes (", "The length of the final trend's filter"),
        ("11", "sum of the sizes of changes over twelve months (", "The seasonal filter of pass D"),
        ("11", "the filter of ", "The seasonal filter of pass D"),
    ] {
        assert!(part_cited(&part(number), before).starts_with(title), "{number}: {before}");
    }
    let header = document("include/vepsjalm.h");
    for (before, title) in [
        ("how noisy the series is (docs/METHOD.md, ", "The length of the final trend's filter"),
        ("how noisy the series is (docs/METHOD.md, 4.5 and ", "The seasonal filter of pass D"),
        ("replaced by means of their neighbours (", "Extreme values of SI1 and SI2"),
        ("a half to the even one (", "Rounding to a grain"),
    ] {
        assert!(part_cited(&header, before).starts_with(title), "the header: {before}");
    }
    let method = document("docs/METHOD.md");
    assert_eq!(between(&method, "the rounding by request ", ";"), between(&method, "1.3 request ", " too"));
    assert_eq!(method.matches("(document ").count(), method.matches("(document 01, ").count());
}
