//! The numbers in the comments of the C header, beside the separately written program and METHOD. Its constants and texts are in callers.rs, its
//! refusal sheet in documents_refusals.rs.

mod document;

use document::{between, document, first_and_each, lengths, multiples, numbers, part, table, without_commas};
use separate::columns::{self, last_year, EARLIEST_YEAR, LATEST_YEAR};
use separate::decompose::{decompose_fitting, scratch_for, Tables, FIGURE_LIMIT, MOST_MONTHS};
use separate::desk;
use separate::exact::RESULT_LIMITS;
use separate::extremes::FULL_WEIGHT;
use separate::generators::book_series;
use separate::rows::{LENGTHS, SEASONAL_FILTERS, T2_TERMS};
use separate::sheet;

/// The header as one line, without the commas inside numbers.
fn header() -> String {
    without_commas(&document("include/vepsjalm.h")).split_whitespace().collect::<Vec<_>>().join(" ")
}

/// The words of a text, without what stands around each.
fn words(text: &str) -> Vec<&str> {
    text.split(' ').map(|word| word.trim_matches(|c: char| !c.is_ascii_alphanumeric() && c != '-')).collect()
}

/// The comment that stands before a function.
fn comment<'a>(header: &'a str, function: &str) -> &'a str {
    let (before, _) = header.split_once(&format!("uint8_t vepsjalm_{function}(")).unwrap_or_else(|| panic!("{function}"));
    before.rsplit_once("/*").expect("a comment").1
}

#[test]
fn filters_by_their_names() {
    let [nine, thirteen, twenty_three] = LENGTHS;
    let [short, plain, long] = SEASONAL_FILTERS.map(|filter| filter.to_string());
    let of_a_pass = format!("The filters are 2x12, {short}, {plain} and Henderson's with Musgrave's ends: {T2_TERMS} terms in a pass,");
    let of_the_trend = format!("and {nine}, {thirteen} or {twenty_three} for the final trend.");
    let of_the_seasonal = format!("The last pass takes {short}, {plain} or {long} for the final seasonal.");
    let words = [of_a_pass, of_the_trend, of_the_seasonal].join(" ");
    assert!(header().contains(&words), "{words}");
}

/// Ranges, as 1 to 12, and the numbers that are told after a success or a refusal.
#[test]
fn ranges_and_answers() {
    let header = header();
    let words = words(&header);
    let number = |word: &str| word.parse::<i64>().ok();
    let ranges = words.windows(3).filter(|three| three[1] == "to").filter_map(|three| Some([number(three[0])?, number(three[2])?]));
    let limit = i64::from(FIGURE_LIMIT);
    let due = [[1, 12], [0, FULL_WEIGHT.into()], [EARLIEST_YEAR as i64, LATEST_YEAR as i64], [-limit, limit]];
    let found: Vec<[i64; 2]> = ranges.collect();
    assert!(due.iter().all(|range| found.contains(range)) && found.iter().all(|range| due.contains(range)), "{found:?}");
    let is_told = |three: &&[&str]| three[1] == "after" || (three[1] == "for" && ["success", "all"].contains(&three[2]));
    let told: Vec<i64> = words.windows(3).filter(is_told).filter_map(|three| number(three[0])).collect();
    assert!(told.len() > 20 && told.iter().all(|&number| number == 0), "{told:?}");
    assert_eq!(numbers(between(&header, "in the series, counted from ", ";")), [0]);
    assert_eq!(numbers(between(&header, "the last start month, the first being ", ";")), [due[0][0].into()]);
    assert_eq!(numbers(between(&header, "negative zero is ", ".")), [sheet::whole_in((-0.0f64).to_le_bytes()).expect("a figure").into()]);
    assert_eq!(numbers(between(&header, "the major number is ", " while")), numbers(between(&header, "VERSION_MAJOR ", " #")));
    assert_eq!(numbers(between(&header, "is cut to ", " by C")), [u8::BITS.into()]);
    assert_eq!(numbers(between(&header, "as first year to ", ":")), [u16::BITS.into()]);
}

#[test]
fn lengths_for_n_months() {
    let header = header();
    let longest = [desk::length_of(MOST_MONTHS), columns::length_of(MOST_MONTHS), sheet::length_of(MOST_MONTHS)];
    assert_eq!(numbers(between(&header, "of the longest", "*/")), longest.map(|length| length as i128));
    let [plain, by_month, members] = [desk::length_of, columns::length_of, sheet::length_of].map(first_and_each);
    for (function, many, length) in [
        ("read", 1, plain),
        ("write", 3, plain),
        ("read_columns", 1, by_month),
        ("write_columns", 3, by_month),
        ("to_columns", 3, by_month),
        ("from_columns", 3, plain),
        ("read_sheet", 1, members),
    ] {
        assert_eq!(lengths(comment(&header, function)), vec![length; many], "{function}");
    }
    let scratch = multiples(&header);
    assert!(scratch.len() > 2 && scratch.iter().all(|&times| times == scratch_for(1)), "{scratch:?}");
}

/// The layouts are those of METHOD, which documents_rules.rs compares with files.
#[test]
fn layouts_are_those_of_method() {
    let header = header();
    let of_method = |number: &str| -> Vec<i128> {
        let part = part(number);
        let size = |bytes: &str| bytes.trim_end_matches('n').parse().unwrap_or(1);
        table(&part, "| bytes | what |").iter().flat_map(|line| [numbers(line[1]), vec![size(line[0])]].concat()).collect()
    };
    assert_eq!(numbers(between(comment(&header, "read"), "It has ", ", all low byte first")), of_method("7.1")[..]);
    let more = columns::length_of(0) - desk::length_of(0);
    assert_eq!(numbers(between(comment(&header, "read_columns"), "It has ", " bytes more")), [more as i128]);
    let &[count, start, kind, double, cell] = &of_method("7.10")[..] else { panic!("the layout of a members' sheet") };
    let standard = numbers(between(&part("7.10"), "(IEEE ", ","))[0];
    assert_eq!(numbers(between(comment(&header, "read_sheet"), "It has ", " bytes each")), [count, start, kind, standard, double]);
    assert_eq!(cell, 2 * double);
}

#[test]
fn year_of_the_last_month() {
    let header = header();
    let rule = numbers(between(comment(&header, "read_columns"), "as many more as ", ";"));
    let &[year, less] = &rule[..] else { panic!("{rule:?}") };
    for start in 1..=12 {
        for n in 72..=96 {
            assert_eq!(last_year(start, 2021, n) as i128, 2021 + (i128::from(start) + n as i128 - less) / year, "{n} from {start}");
        }
    }
}

/// A table by the name that its slice has.
fn slice<'a>(tables: &'a Tables, name: &str) -> &'a [i64] {
    match name {
        "d10" => &tables.d10,
        "d11" => &tables.d11,
        "d12" => &tables.d12,
        "d13" => &tables.d13,
        other => panic!("{other}"),
    }
}

/// What decomposing promises: parts that add up, and how near the tables are.
#[test]
fn promises_of_decomposing() {
    let header = header();
    let comment = comment(&header, "decompose");
    let (sums, times) = between(comment, "in every month, ", ";").split_once(" are each the figure times ").expect("sums");
    let (figures, unit) = (book_series(), numbers(times)[0] as i64);
    let tables = decompose_fitting(&figures, 10).expect("tables");
    assert_eq!(sums.split(" and ").count(), 2);
    for sum in sums.split(" and ") {
        let names: Vec<&str> = sum.split(" + ").collect();
        let add_up = |t: usize| names.iter().map(|name| slice(&tables, name)[t]).sum::<i64>() == unit * i64::from(figures[t]);
        assert!((0..figures.len()).all(add_up), "{sum}");
    }
    let [(d10, near), (d11, _), (d12, near_d12), (d13, near_d13)] = RESULT_LIMITS.map(|(table, near)| (table.to_lowercase(), near));
    let words = format!("{d10} and {d11} are within {near} thousandths, {d12} within {near_d12} and {d13} within {near_d13}.");
    assert!(comment.contains(&words), "{words}");
    let words = format!("{FULL_WEIGHT} counts in full, 0 not at all, and what is below {FULL_WEIGHT} was found extreme");
    assert!(comment.contains(&words), "{words}");
    assert!(comment.contains(&format!(" {d10} to {d13} exactly n entries each")) && comment.contains(" b17, c17 exactly n entries each"));
}

/// The slices that comments name are arguments, and there are as many arguments as is said.
#[test]
fn slices_and_arguments() {
    let header = header();
    let declared = between(&header, "uint8_t vepsjalm_decompose(", ");").split(',');
    let arguments: Vec<&str> = declared.map(|argument| argument.rsplit([' ', '*']).next().expect("a name")).collect();
    assert_eq!(numbers(between(&header, "in a struct instead of ", " arguments")), [arguments.len() as i128]);
    let is_slice = |word: &&&str| word.len() == 3 && word.starts_with(['b', 'c', 'd']) && word[1..].bytes().all(|byte| byte.is_ascii_digit());
    let words = words(&header);
    let named: Vec<&&str> = words.iter().filter(is_slice).collect();
    assert!(named.len() > 20 && named.iter().all(|name| arguments.contains(name)), "{named:?}");
    let ranges = words.windows(3).filter(|three| three[1] == "to" && is_slice(&&three[0]));
    let ranges: Vec<[&str; 2]> = ranges.map(|three| [three[0], three[2]]).collect();
    assert!(ranges.len() > 1 && ranges.iter().all(|range| *range == ["d10", "d13"]), "{ranges:?}");
}
