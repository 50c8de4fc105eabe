//! What the documents show, beside the separately written program and the repository: README's sample and its members' sheet, METHOD's
//! rows, what they are over and those that are stored, the runs and means of its part 3.9, its flooded January, its lengths of the final
//! trend, its seasonal filters, its weights by years, its month order, its members' sheets and its group that stays whole, the wrong
//! programs that CONTRACTS names. METHOD's other numbers are in documents_rules.rs and documents_pencil.rs, refusal sheets in
//! documents_refusals.rs, the header's comments in documents_header.rs.

mod document;

use document::{between, cells, document, in_digits, numbers, part, root, without_commas};
use separate::calendar::labels;
use separate::columns::by_month;
use separate::decompose::decompose_fitting;
use separate::desk::bytes_of;
use separate::extremes::{neighbours, replacement, RunValue};
use separate::fraction::Fraction;
use separate::generators::book_series;
use separate::noise::Noise;
use separate::pass::{pass, two_by_twelve, Placed};
use separate::print::printed;
use separate::rounding::nearest_even;
use separate::rows::{
    henderson_at, henderson_rows, musgrave_ratio, three_by_five, three_by_nine, three_by_three, HendersonRows, ThreeByFive, ThreeByNine,
    ThreeByThree, LENGTHS, MILLION,
};
use separate::seasonality::{chosen, questions};
use separate::sheet::{self, length_of, read_sheet, whole_in, Cell};
use separate::spread::{two_spreads, weights};
use std::fs;
use std::path::Path;

#[test]
fn readme_shows_what_is_printed() {
    let readme = document("README.md");
    let shown: Vec<&str> = between(&readme, "It prints\n\n", "\n\n").lines().map(str::trim).collect();
    let text = printed(&bytes_of(&book_series(), 10, 12, &[1000; 114]));
    let lines: Vec<&str> = text.lines().collect();
    let first = shown.iter().position(|&line| line == "..").expect("a gap");
    assert!(first > 3 && shown.len() == first + 2);
    assert_eq!(shown[..first], lines[..first]);
    assert_eq!(shown[first + 1], lines[114]);
}

#[test]
fn method_has_every_row() {
    let method = document("docs/METHOD.md");
    let part = |number: &str, next: &str| between(&method, &format!("**{number} "), &format!("**{next} ")).to_string();
    let rows = |text: &str| -> Vec<Vec<i128>> { text.lines().filter(|l| l.starts_with("| ") && numbers(l).len() > 3).map(numbers).collect() };
    let by_counts = |filter: fn(usize, usize) -> Vec<i128>, side: usize| -> Vec<Vec<i128>> {
        let ends = (0..=side).rev().map(|after| (side, after)).chain((0..side).rev().map(|before| (before, side)));
        ends.map(|(before, after)| [vec![before as i128, after as i128], filter(before, after)].concat()).collect()
    };
    assert_eq!(rows(&part("2.3", "2.4")), by_counts(three_by_three, 2));
    assert_eq!(rows(&part("2.4", "2.5")), by_counts(three_by_five, 3));
    let worked: Vec<&HendersonRows> = LENGTHS.into_iter().map(henderson_rows).collect();
    let middle: Vec<Vec<i128>> = part("2.5", "2.6").lines().filter(|l| l.starts_with("    ") && numbers(l).len() > 8).map(numbers).collect();
    assert_eq!(middle, worked.iter().map(|rows| rows.middle.clone()).collect::<Vec<_>>());
    let ends = worked.iter().flat_map(|rows| rows.ends.iter().enumerate().rev().map(|(f, row)| [vec![f as i128], row.clone()].concat()));
    assert_eq!(rows(&part("2.6", "2.7")), ends.collect::<Vec<_>>());
    // Of 3×9 METHOD has the rows with as many values before as after, or more, each over 27 times its values.
    let nine = ThreeByNine.counts().into_iter().filter(|(before, after)| before >= after).map(|(before, after)| {
        let (row, p) = (three_by_nine(before, after), (before + 1 + after) as i128);
        let weights = row.weights.iter().map(|weight| weight * 27 * p / row.divisor).collect();
        [vec![before as i128, after as i128, p, 27 * p], weights].concat()
    });
    let shown = between(&method, "**2.8 ", "\n## 3");
    assert_eq!(rows(shown), nine.collect::<Vec<_>>());
    let full = shown.lines().find(|line| line.starts_with("    ")).map(numbers);
    assert_eq!(full, Some(three_by_nine(5, 5).weights));
}

/// The separately written program sums twelve months twice; its weights are what a single one gives in the months around it.
#[test]
fn method_has_the_row_of_2x12() {
    let mut one = vec![0; 36];
    one[18] = 1;
    let results = two_by_twelve(&Placed::whole_series(one));
    // The latest result takes the one as its oldest value.
    let row: Vec<i128> = results.values.iter().rev().map(|&(weight, _)| weight).filter(|&weight| weight != 0).collect();
    let (over, side) = (results.values[0].1, results.first as i128);
    let text = part("2.2");
    assert_eq!(text.lines().find(|line| line.starts_with("    ")).map(numbers), Some(row.clone()));
    assert_eq!(numbers(&in_digits(between(&text, "over ", " of the middle one"))), [over, row.len() as i128, side]);
    assert_eq!(numbers(&in_digits(between(&text, "only where ", " values"))), [side]);
}

/// What the other rows are over, and D of Henderson's ends.
#[test]
fn method_has_every_denominator() {
    let over = |number: &str| part(number).split("over ").skip(1).map(|behind| numbers(behind)[0]).collect::<Vec<i128>>();
    assert_eq!(over("2.3")[0], ThreeByThree.row(2, 2).divisor);
    assert_eq!(over("2.4"), [ThreeByFive.row(3, 3).divisor]);
    assert_eq!(over("2.5"), LENGTHS.map(|terms| henderson_rows(terms).divisor));
    assert_eq!(over("2.6")[0], MILLION);
    assert_eq!(over("2.8")[0], three_by_nine(5, 5).divisor);
    let ends = part("2.6");
    let shown: Vec<Vec<i128>> = ends.lines().filter(|line| line.contains(" terms, D = ")).map(numbers).collect();
    assert_eq!(shown.len(), LENGTHS.len());
    for (terms, line) in LENGTHS.into_iter().zip(shown) {
        assert_eq!((line[0], Fraction::new(line[1], line[2])), (terms as i128, musgrave_ratio(terms)));
    }
}

/// Henderson's rows as the code stores them: those for the start, the middle row, those for the end, each filled up with zeros.
#[test]
fn stored_rows_are_those_of_the_formulas() {
    for terms in LENGTHS {
        let source = document(&format!("crates/rows/src/henderson_{terms}.rt"));
        let rows = between(&source, "rows: &[", "],");
        let stored: Vec<i128> = rows.lines().filter(|line| !line.contains("//")).flat_map(numbers).collect();
        // Of a series of this many months each row serves one, from none before to none after.
        let served = (0..terms).map(|t| henderson_at(terms, t, terms));
        let worked: Vec<i128> = served.flat_map(|row| [row.weights.clone(), vec![0; terms - row.weights.len()]].concat()).collect();
        assert_eq!(stored, worked, "{terms}");
        let field = |name: &str| numbers(between(&source, &format!("    {name}: "), ","));
        assert_eq!([field("side"), field("middle")], [vec![terms as i128 / 2], vec![henderson_rows(terms).divisor]]);
    }
}

/// The rows of 3×9 as the code stores them: six each for none to five values before, of which each is for one value after fewer.
#[test]
fn stored_rows_of_3x9_are_shared() {
    let source = document("crates/rows/src/three_by_nine.rt");
    let stored: Vec<i128> = between(&source, "rows: &[", "],").lines().filter(|line| !line.contains("//")).flat_map(numbers).collect();
    let field = |name: &str| numbers(between(&source, &format!("    {name}: "), ","))[0];
    let (side, middle, ends) = (field("side") as usize, field("middle"), field("ends"));
    assert_eq!((side, field("row_step"), stored.len()), (5, 6, 36 * 11));
    for (before, after) in ThreeByNine.counts() {
        let row = three_by_nine(before, after);
        let over = if (before, after) == (side, side) { middle } else { ends };
        let at = (before * 6 + side - after) * 11;
        let (shown, rest) = stored[at..at + 11].split_at(row.weights.len());
        let worked: Vec<i128> = row.weights.iter().map(|weight| weight * over).collect();
        assert_eq!(shown.iter().map(|weight| weight * row.divisor).collect::<Vec<_>>(), worked, "{before} {after}");
        assert!(rest.iter().all(|&weight| weight == 0), "{before} {after}");
    }
}

#[test]
fn method_has_the_neighbours_of_its_runs() {
    let method = document("docs/METHOD.md");
    let table = between(&method, "| weights of a run, year 0 first |", "\n\n");
    let rows: Vec<Vec<&str>> = table.lines().skip(2).map(|line| line.trim_matches('|').split('|').map(str::trim).collect()).collect();
    assert_eq!(rows.len(), 4);
    for row in rows {
        let weights = numbers(row[0]);
        let run: Vec<RunValue> = weights.iter().enumerate().map(|(year, &w)| RunValue { year, value: 0, weight: w as u16 }).collect();
        let mut named: Vec<usize> = numbers(row[2]).iter().map(|&year| year as usize).collect();
        named.sort();
        assert_eq!(neighbours(&run, numbers(row[1])[0] as usize), named, "{row:?}");
    }
}

/// The means of METHOD 3.9: a value between four neighbours, by its weight, and between two; of weight 1,000 it stays.
#[test]
fn method_has_means_by_weight() {
    let value = -50_000;
    let mean = |weight: u16, before: &[i64], after: &[i64]| {
        let values = before.iter().map(|&other| (other, 1000)).chain([(value, weight)]).chain(after.iter().map(|&other| (other, 1000)));
        let run: Vec<RunValue> = values.enumerate().map(|(year, (value, weight))| RunValue { year, value, weight }).collect();
        let (upper, lower) = replacement(&run, before.len()).mean;
        (upper, lower, upper as f64 / lower as f64, nearest_even(upper, lower))
    };
    let of_four = |weight: u16| mean(weight, &[100, 200], &[300, 401]);
    let (sum, lower, exact, rounded) = of_four(0);
    let named = format!("With neighbours 100, 200, 300 and 401, a value of {value}");
    let first = format!("of weight 0 becomes {sum} / {lower} = {exact:.2}, rounded {rounded}");
    let [second, third] = [500, 999].map(|weight| {
        let (_, lower, exact, rounded) = of_four(weight);
        format!("of weight {weight} it becomes ({weight} · {value} + {sum}) / {lower} = {exact:.1}, rounded {rounded}")
    });
    let last = format!("of weight 1000 it stays {}.", of_four(1000).3);
    let (_, _, exact, rounded) = mean(0, &[100], &[401]);
    let of_two = format!("With the neighbours 100 and 401 alone, of weight 0, it becomes {exact:.1}, rounded {rounded}.");
    let words = format!("{named} {first}; {second}; {third}; {last} {of_two}");
    assert!(part("3.9").contains(&words), "{words}");
}

#[test]
fn method_has_the_flooded_january() {
    let method = document("docs/METHOD.md");
    let part = between(&method, "**4.4 ", "## 5");
    let figures: Vec<i32> = (0..72).map(flooded).collect();
    let tables = decompose_fitting(&figures, 7).expect("tables");
    let months: Vec<usize> = cells(part, "t").iter().map(|t| t.parse().expect("a month")).collect();
    assert_eq!(months, [6, 18, 30, 42, 54, 66]);
    let shown = |word: &str| -> Vec<i64> { cells(part, word).iter().filter_map(|cell| cell.parse().ok()).collect() };
    let of_five = |f: &dyn Fn(usize) -> i64| -> Vec<i64> { months[..5].iter().map(|&t| f(t)).collect() };
    let of_six = |f: &dyn Fn(usize) -> i64| -> Vec<i64> { months.iter().map(|&t| f(t)).collect() };
    assert_eq!(shown("weight of SI1"), of_five(&|t| i64::from(tables.b4.weight_at(t))));
    assert_eq!(shown("SI1 replaced"), of_five(&|t| tables.b4.replaced.values[t - 6]));
    assert_eq!(shown("weight of SI2"), of_six(&|t| i64::from(tables.b9.weight_at(t))));
    assert_eq!(shown("SI2 replaced"), of_six(&|t| tables.b9.replaced.values[t]));
    assert_eq!(shown("B10"), of_six(&|t| tables.b10[t]));
    let plain = pass(&tables.b1).s2.values;
    assert_eq!(shown("S2, were no value replaced"), of_six(&|t| plain[t]));
    assert_eq!((tables.seasonal_filter, tables.trend_terms), (ThreeByNine, 23));
    assert_eq!(shown("D10, by 3×9"), of_six(&|t| tables.d10[t]));
    assert_eq!(shown("D12, of 23 terms"), of_six(&|t| tables.d12[t]));
}

fn flooded(t: i32) -> i32 {
    if t == 18 { 500 } else { 1000 + t * t % 17 }
}

fn rippled(t: i32) -> i32 {
    1000 + 12 * t + (2 * t * t + 13 * t) % 49
}

fn just_above(t: i32) -> i32 {
    1000 + 10 * t + 37 * t % 45
}

fn straight(t: i32) -> i32 {
    1000 + t
}

#[test]
fn method_has_lengths_of_the_final_trend() {
    let method = document("docs/METHOD.md");
    let table = between(&method, "Three series of 72 figures:\n\n", "\n\n");
    let rows: Vec<Vec<i128>> = table.lines().skip(2).map(|line| line.trim_matches('|').split('|').skip(1).flat_map(numbers).collect()).collect();
    let series: [(fn(i32) -> i32, u8); 3] = [(flooded, 7), (just_above, 7), (rippled, 7)];
    let worked = series.map(|(figure, start)| {
        let tables = decompose_fitting(&(0..72).map(figure).collect::<Vec<i32>>(), start).expect("tables");
        vec![i128::from(start), tables.noise.i.into(), tables.noise.c.into(), tables.trend_terms as i128]
    });
    assert_eq!(rows, worked);
}

#[test]
fn method_has_seasonal_filters() {
    let method = document("docs/METHOD.md");
    let table = between(&method, "each question with the months that are kept:\n\n", "\n\n");
    let rows: Vec<String> = table.lines().skip(2).map(|line| line.trim_matches('|').split('|').skip(1).map(str::trim).collect::<Vec<_>>().join(" ")).collect();
    let by_eleven = |t| 1000 + t % 11;
    let series: [(fn(i32) -> i32, u8, i32); 5] =
        [(flooded, 7, 72), (rippled, 7, 72), (just_above, 7, 72), (straight, 1, 72), (by_eleven, 1, 84)];
    let mut worked = Vec::new();
    for (figure, start, months) in series {
        let tables = decompose_fitting(&(0..months).map(figure).collect::<Vec<i32>>(), start).expect("tables");
        for (asked, question) in tables.questions.iter().enumerate() {
            let month = if asked == 0 { start.to_string() } else { String::new() };
            let answer = question.answer().map_or("none".to_string(), |filter| filter.to_string().replace('x', "×"));
            worked.push(format!("{month} {} {} {} {answer}", question.months, question.i, question.s));
        }
    }
    assert_eq!(rows, worked);
}

/// What METHOD says of the second series of 4.6: what its Januaries get, and what the tables of passes B and D would choose.
#[test]
fn method_has_a_series_chosen_by_pass_c() {
    let tables = decompose_fitting(&(0..72).map(rippled).collect::<Vec<i32>>(), 7).expect("tables");
    let method = document("docs/METHOD.md");
    let shown = |mark: &str, end: &str| numbers(between(between(&method, "t = 6, 18, .., 66, get ", "\n"), mark, end));
    let januaries = |table: &[i64]| (0..6).map(|year| i128::from(table[6 + 12 * year])).collect::<Vec<i128>>();
    assert_eq!(shown("", " in D10"), januaries(&tables.d10));
    assert_eq!(shown("in D10 and ", " in D12"), januaries(&tables.d12));
    let by = |irregular: &[i64], trend: &[i64], seasonal: &[i64]| (Noise::of(irregular, trend).terms(), chosen(&questions(irregular, seasonal)));
    let (d7, d10) = (&tables.d.t2.values, &tables.d10);
    let d13: Vec<i64> = (0..72).map(|t| tables.b1[t] - d10[t] - d7[t]).collect();
    assert_eq!(by(&tables.b13, &tables.b7, &tables.b10), (13, ThreeByFive));
    assert_eq!(by(&tables.c13, &tables.c7, &tables.c10), (9, ThreeByNine));
    assert_eq!(by(&d13, d7, d10), (13, ThreeByNine));
}

/// The weights of that series tenfold, and those that B13 and C13 would have by the years from January.
#[test]
fn method_has_weights_by_the_years_from_july() {
    let tables = decompose_fitting(&(0..72).map(|t| 10 * rippled(t)).collect::<Vec<i32>>(), 7).expect("tables");
    let method = document("docs/METHOD.md");
    let part = between(&method, "ten times as large", "\n## 5");
    let months: Vec<usize> = cells(part, "t").iter().map(|t| t.parse().expect("a month")).collect();
    assert_eq!(months, [7, 19, 31, 43, 55, 67]);
    let at = |months: &[usize], weights: &[u16]| months.iter().map(|&t| i128::from(weights[t])).collect::<Vec<i128>>();
    assert_eq!(numbers(&cells(part, "B17").join(" ")), at(&months, &tables.b17));
    assert_eq!(numbers(&cells(part, "C17").join(" ")), at(&months, &tables.c17));
    let from_january = |irregular: &[i64]| at(&months[3..], &weights(irregular, &labels(1, 72)));
    assert_eq!(numbers(between(part, "B13 would give the last three ", ", and C13 ")), from_january(&tables.b13));
    assert_eq!(numbers(between(part, ", and C13 ", ".")), from_january(&tables.c13));
}

#[test]
fn method_has_month_order() {
    let method = document("docs/METHOD.md");
    let example = between(&method, "75 months from March: ", "\n");
    let order = by_month(&(0..75).collect::<Vec<i128>>(), 3);
    let shown = |month: &str, end: &str| numbers(between(example, month, end));
    assert_eq!(shown("January has the months ", ", six of them"), [order[0], order[1], order[5]]);
    assert_eq!(shown("February ", " at"), [order[6], order[7], order[11]]);
    assert_eq!(shown("March ", ", seven,"), [order[12], order[13], order[18]]);
    let april = shown("So month ", ".");
    assert_eq!((order[*april.last().expect("a place") as usize], april.len()), (april[0], 5));
}

/// Sixty months alike, of which none is dropped: the size, their first spread, twice the one and five times the other.
#[test]
fn method_has_a_group_that_stays_whole() {
    let method = document("docs/METHOD.md");
    let shown = numbers(between(&method, "Sixty months of size ", ": all stay"));
    let (first, second) = two_spreads(&[shown[0] as u64; 60]);
    assert_eq!(shown, [shown[0], first.into(), 2 * shown[0], 5 * i128::from(first)]);
    assert!(first == second && shown[2] <= shown[3]);
}

/// What METHOD says of members' sheets: their length, where doubles start, the doubles that do not count, and a total.
#[test]
fn method_has_members_sheets() {
    let method = document("docs/METHOD.md");
    let text = without_commas(between(&method, "**7.10 The members' sheet.**", "## 8"));
    let sheet = text.as_str();
    let lengths = numbers(between(sheet, "bytes in all: ", "."));
    assert_eq!(lengths, [length_of(72) as i128, 72, length_of(600) as i128, 600]);
    let cells: Vec<Cell> = (0..72).map(|t| Cell { kind: 200 + (t % 50) as u8, first: [t as u8; 8], second: [100 + t as u8; 8] }).collect();
    let bytes = sheet::bytes_of(1, &cells);
    for t in [0, 1, 71] {
        assert_eq!((bytes[3 + t], &bytes[3 + 72 + 16 * t..][..8]), (cells[t].kind, &cells[t].first[..]));
        assert_eq!(&bytes[3 + 72 + 16 * t + 8..][..8], &cells[t].second);
    }
    assert_eq!(numbers(between(sheet, "the last, which is ", ":")), [i128::from((-0f64).to_le_bytes()[7])]);
    let refused = between(sheet, "outside does not count: not ", ", not the smallest");
    let doubles: Vec<f64> = refused.replace(" or ", ", ").replace(" not ", " ").split(", ").map(|word| word.parse().expect("a double")).collect();
    assert_eq!(doubles.len(), 4);
    for double in doubles.iter().chain(&[f64::from_bits(1)]) {
        assert_eq!(whole_in(double.to_le_bytes()), None, "{double}");
    }
    let revised = numbers(between(sheet, "Revisions from ", "give"));
    let mut months: Vec<Cell> = revised.chunks(2).map(|pair| Cell::revision(pair[0] as i64, pair[1] as i64)).collect();
    months.resize(72, Cell::figure(5));
    let total = read_sheet(&sheet::bytes_of(1, &months), 72).expect("a series").total;
    assert_eq!(numbers(between(sheet, " + 0 = ", ".")), [i128::from(total)]);
}

/// The bytes of the members' sheet that README shows.
#[test]
fn readme_shows_a_members_sheet() {
    let readme = document("README.md");
    let mut cells = vec![Cell::figure(100); 71];
    cells.push(Cell::revision(90, 100));
    let bytes = sheet::bytes_of(1, &cells);
    let lines = between(&readme, "the last one revised from 90:\n\n", "\n\n");
    let shown = |line: &str| -> Vec<u8> {
        let (words, _) = line.trim().split_once("  ").expect("bytes and what they are");
        words.split(' ').map(|byte| u8::from_str_radix(byte, 16).expect("a byte")).collect()
    };
    let at = [0, 3, 75, 83, 75 + 71 * 16, 83 + 71 * 16];
    assert_eq!(lines.lines().count(), at.len());
    for (line, place) in lines.lines().zip(at) {
        assert!(bytes[place..].starts_with(&shown(line)), "{line}");
    }
    assert_eq!((bytes[3 + 70], bytes[3 + 71]), (1, 2));
    assert_eq!(read_sheet(&bytes, 72).expect("a series").total, 10);
}

/// The edits of a crate's must-fail folder: crate/label, and whether a rule is edited.
fn edits() -> Vec<(String, bool)> {
    let mut list = Vec::new();
    for folder in fs::read_dir(root().join("crates")).expect("crates") {
        let folder = folder.expect("a crate").path();
        let Ok(files) = fs::read_dir(folder.join("must-fail")) else { continue };
        for file in files {
            let file = file.expect("an edit").path();
            let name = |path: &Path| path.file_stem().expect("a name").to_string_lossy().into_owned();
            let rule = fs::read_to_string(&file).expect("an edit").contains("file: specs/");
            list.push((format!("{}/{}", name(&folder), name(&file)), rule));
        }
    }
    list
}

#[test]
fn contracts_names_the_wrong_rules() {
    let contracts = document("docs/CONTRACTS.md");
    let (_, tried) = contracts.split_once("## What is tried against it").expect("the part");
    let named: Vec<&str> = tried.split('`').skip(1).step_by(2).filter(|name| name.contains('/') && !name.ends_with('/') && !name.starts_with("crates/")).collect();
    let edits = edits();
    assert!(edits.len() > 40);
    let of_crate = |name: &str| name.split('/').next().expect("a crate").to_string();
    for name in &named {
        let found = edits.iter().any(|(edit, _)| edit == name || (name.ends_with("/*") && of_crate(edit) == of_crate(name)));
        assert!(found, "{name} is no edit");
    }
    let rules = between(tried, "**Wrong rules**", "\n\n");
    for (edit, rule) in &edits {
        let listed = rules.contains(&format!("`{edit}`")) || rules.contains(&format!("`{}/*`", of_crate(edit)));
        assert_eq!(listed, *rule, "{edit}");
    }
}
