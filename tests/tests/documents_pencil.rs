//! METHOD's pencil cases: every line worked by the separately written program from the numbers that it names. What a result leaves open, as the
//! sizes of which a weight is 0, is compared with the proved list of crate `pencil`.

mod document;

use document::{between, cells_of, document, in_digits, numbers, part, without_brackets};
use separate::fraction::Fraction;
use separate::noise::Noise;
use separate::pass::{henderson, over_runs, pass, two_by_twelve, Fractions, Placed};
use separate::rounding::{is_half, nearest_even};
use separate::rows::{SeasonalFilter, LENGTHS, SEASONAL_FILTERS, T2_TERMS};
use separate::seasonality::{chosen, questions, sum_of_yearly_changes, Question};
use separate::spread::{correction, two_spreads, units, weight};

// What a line says.

const ORDINALS: [&str; 6] = ["first", "second", "third", "fourth", "fifth", "sixth"];

/// The place that a word names, from 0.
fn ordinal(word: &str) -> Option<usize> {
    ORDINALS.iter().position(|&ordinal| ordinal == word.trim_end_matches(','))
}

/// A fraction as 9/2, 4.5 or 4.
fn fraction(text: &str) -> Fraction {
    let whole = |digits: &str| digits.trim().parse::<i128>().unwrap_or_else(|_| panic!("{text}"));
    if let Some((upper, lower)) = text.split_once('/') {
        return Fraction::new(whole(upper), whole(lower));
    }
    let places = text.trim().split_once('.').map_or(0, |(_, places)| places.len() as u32);
    Fraction::new(whole(&text.replace('.', "")), 10i128.pow(places))
}

/// What stands in round brackets at the end of a text.
fn in_brackets(text: &str) -> Option<&str> {
    Some(text.split_once('(')?.1.split_once(')')?.0)
}

fn shown_name(filter: SeasonalFilter) -> String {
    filter.to_string().replace('x', "×")
}

/// The seasonal filter that a text begins with.
fn filter_named(text: &str) -> SeasonalFilter {
    let found = SEASONAL_FILTERS.into_iter().find(|&filter| text.starts_with(&shown_name(filter)));
    found.unwrap_or_else(|| panic!("{text}"))
}

/// The numbers behind a filter's name.
fn behind_the_name(what: &str) -> Vec<i128> {
    numbers(what.split_once(' ').expect("a name and more").1)
}

/// The proved list without its comments.
fn proved() -> String {
    let source: Vec<char> = document("crates/pencil/specs/Pencil.antt").chars().collect();
    let digit = |i: usize| source[i].is_ascii_digit();
    // A long number has a mark between its thousands.
    let source: String = (0..source.len()).filter(|&i| source[i] != '_' || !digit(i - 1) || !digit(i + 1)).map(|i| source[i]).collect();
    source.lines().filter(|line| !line.trim_start().starts_with("--")).collect::<Vec<_>>().join("\n")
}

fn assert_proved(stated: &str) {
    assert!(proved().contains(stated), "not in the proved list: {stated}");
}

/// The series of the lines: zero but for one number.
#[derive(Clone, Copy)]
struct Series {
    months: usize,
    place: usize,
}

impl Series {
    fn of(self, t: usize, number: i128) -> Vec<i64> {
        let mut list = vec![0; self.months];
        list[t] = number as i64;
        list
    }
}

fn exact_at(table: &Fractions, t: usize) -> Fraction {
    let (upper, lower) = table.values[t - table.first];
    Fraction::new(upper, lower)
}

// The lines.

/// Results there, next to it and so many months away, on both sides; exact, but where the exact one stands in brackets.
fn check_around(table: &Fractions, t: usize, gives: &str) {
    for piece in in_digits(gives).split(", ") {
        let said = numbers(&without_brackets(piece));
        let away = match () {
            _ if piece.contains("there") => 0,
            _ if piece.contains("next to it") => 1,
            _ => said[1] as usize,
        };
        for month in [t - away, t + away] {
            assert_eq!(i128::from(table.rounded().at(month)), said[0], "{gives}: month {month}");
            let exact = in_brackets(piece).map_or(Fraction::whole(said[0]), fraction);
            assert_eq!(exact_at(table, month), exact, "{gives}: month {month}");
        }
    }
}

fn check_two_by_twelve(series: Series, what: &str, gives: &str) {
    let number = behind_the_name(what)[0];
    let table = two_by_twelve(&Placed::whole_series(series.of(series.place, number)));
    check_around(&table, series.place, gives);
    assert_proved(&format!("at2x12 (one {} {number})", series.place));
}

fn check_henderson(series: Series, what: &str, gives: &str) {
    let said = numbers(&in_digits(what));
    let (terms, number) = (said[0] as usize, said[1]);
    let mut months = vec![series.place];
    if let [enough, place, exactly, early, late] = said[2..] {
        assert!(exactly == enough && early == enough && late + enough == series.months as i128 - 1, "{what}");
        months = [place, early, late].map(|month| month as usize).to_vec();
        months.iter().for_each(|month| assert_proved(&format!("(henderson_around {month} ")));
    } else {
        assert_eq!(said.len(), 2, "{what}");
    }
    for month in months {
        check_around(&henderson(&series.of(month, number), terms), month, gives);
    }
}

fn check_ends(series: Series, what: &str, gives: &str) {
    let said = numbers(what);
    let (number, lengths) = said.split_last().expect("numbers");
    let (lists, _) = gives.split_once(". At the first month").expect("both ends");
    assert_eq!(lists.split(';').count(), lengths.len());
    for (terms, list) in lengths.iter().map(|&terms| terms as usize).zip(lists.split(';')) {
        let side = terms / 2;
        let at_the_end = henderson(&series.of(series.months - 1, *number), terms).rounded().values;
        let mut at_the_start = henderson(&series.of(0, *number), terms).rounded().values[..side].to_vec();
        at_the_start.reverse();
        for worked in [&at_the_end[series.months - side..], &at_the_start] {
            assert_eq!(numbers(list), worked.iter().map(|&value| value.into()).collect::<Vec<i128>>(), "{terms} terms");
        }
    }
}

/// The last results of a run whose last value is named; those before are zero. Exact, but where the exact ones stand in brackets.
fn check_last_of_a_run(series: Series, what: &str, gives: &str) {
    let said = behind_the_name(what);
    let (number, months) = said.split_last().expect("a number");
    assert!(months.is_empty() || months == [series.months as i128], "{what}");
    let last = series.months - 1;
    let table = over_runs(&Placed::whole_series(series.of(last, *number)), filter_named(what));
    let shown = numbers(&in_digits(&without_brackets(gives)));
    let results: Vec<i128> = (0..=last).filter(|t| t % 12 == last % 12).map(|t| table.rounded().at(t).into()).collect();
    let (zeros, worked) = results.split_at(results.len() - shown[0] as usize);
    assert_eq!((&shown[1..], zeros.iter().all(|&zero| zero == 0)), (worked, true), "{what}");
    let in_full = worked.iter().map(|&result| Fraction::whole(result)).collect();
    let exact: Vec<Fraction> = in_brackets(gives).map_or(in_full, |list| list.split(", ").map(fraction).collect());
    let due: Vec<Fraction> = (0..worked.len()).rev().map(|back| exact_at(&table, last - 12 * back)).collect();
    assert_eq!(exact, due, "{what}");
}

/// All results of a run with a number at one of its months.
fn check_a_run(what: &str, gives: &str) {
    let said = numbers(&in_digits(what.split_once(' ').expect("a name").1));
    let &[months, number, place, many] = &said[..] else { panic!("{what}") };
    assert_eq!((what.split(' ').find_map(ordinal), months), (Some(place as usize / 12), 12 * many), "{what}");
    let series = Series { months: months as usize, place: place as usize };
    let table = over_runs(&Placed::whole_series(series.of(series.place, number)), filter_named(what));
    let shown = numbers(&in_digits(gives));
    assert_eq!(shown[0], many, "{what}");
    let worked: Vec<Fraction> = (0..series.months).step_by(12).map(|t| exact_at(&table, t)).collect();
    assert_eq!(shown[1..].iter().map(|&result| Fraction::whole(result)).collect::<Vec<_>>(), worked, "{what}");
}

/// A table that has the months of SI1 only.
fn check_part_of_a_table(what: &str, gives: &str) {
    let said = behind_the_name(what);
    let &[first, last, months, number, .., zero, outside] = &said[..] else { panic!("{what}") };
    let of_a_pass = pass(&vec![0; months as usize]).si1;
    assert_eq!((of_a_pass.first as i128, of_a_pass.last() as i128), (first, last), "{what}");
    let places = &said[4..said.len() - 2];
    assert_eq!(places.len(), gives.split("; ").count(), "{what}");
    let mut due = Vec::new();
    for (month, piece) in places.iter().zip(gives.split("; ")) {
        let (results, at) = piece.split_once(" at t = ").expect("months");
        if results != "the same" {
            due = numbers(results).into_iter().map(Fraction::whole).collect();
        }
        let series = Series { months: months as usize, place: *month as usize };
        let table = Placed::whole_series(series.of(series.place, number)).part(first as usize, last as usize);
        let worked = over_runs(&table, filter_named(what));
        let results: Vec<Fraction> = numbers(at).iter().map(|&t| exact_at(&worked, t as usize)).collect();
        assert_eq!(results, due, "{piece}");
    }
    let proved = proved();
    let stated = numbers(between(&proved, "by3x3 c v months = ", "\n").replace("3x3", "").as_str());
    assert_eq!(stated, [first, last + 1, months, first, outside, last + 1, zero, outside], "{what}");
}

fn check_rounding(gives: &str) {
    for piece in gives.split(", ") {
        let said = numbers(piece);
        let (result, fractions) = said.split_last().expect("a result");
        assert!(fractions.chunks(2).all(|pair| i128::from(nearest_even(pair[0], pair[1])) == *result && is_half(pair[0], pair[1])), "{piece}");
    }
}

fn check_weights(what: &str, gives: &str) {
    let said = numbers(what);
    let (sigma, sizes) = (said[0], &said[1..]);
    let worked: Vec<i128> = sizes.iter().map(|&a| weight(a as u64, sigma as u64).into()).collect();
    assert_eq!(numbers(&without_brackets(gives)), worked, "{what}");
    if let Some(quotient) = in_brackets(gives) {
        assert_eq!(fraction(quotient.rsplit(' ').next().expect("a number")), Fraction::new(1000 * sizes[0], sigma), "{what}");
    }
    if sizes.len() > 1 {
        assert_eq!(said, numbers(between(&proved(), "(map (weight ", "[]")), "{what}");
    }
}

fn check_sizes(what: &str, gives: &str) {
    let worked: Vec<i128> = numbers(what).iter().map(|&grains| units(grains as i64).unsigned_abs().into()).collect();
    assert!(numbers(what).iter().all(|&grains| is_half(grains, 1000)), "{what}");
    assert_eq!(numbers(gives), worked, "{what}");
}

fn check_correction(what: &str, gives: &str) {
    let &[grains, w] = &numbers(what)[..] else { panic!("{what}") };
    assert_eq!(numbers(&without_brackets(gives)), [i128::from(correction(grains as i64, w as u16))], "{what}");
    assert_eq!(in_brackets(gives).map(fraction), Some(Fraction::new(grains * (1000 - w), 1000)), "{what}");
}

fn check_group(what: &str, gives: &str) {
    let sizes: Vec<u64> = numbers(what).iter().map(|&size| size as u64).collect();
    let (first, second) = two_spreads(&sizes);
    assert_eq!(first, second, "{what}");
    let weights = sizes.iter().map(|&size| i128::from(weight(size, second)));
    assert_eq!(numbers(gives), [i128::from(first)].into_iter().chain(weights).collect::<Vec<_>>(), "{what}");
}

/// Groups of so many months of a size and so many of another, or by their sizes: first spread, months that stay, second spread.
fn check_dropping(what: &str, gives: &str) {
    let (_, groups) = what.split_once("of the groups ").expect("groups");
    assert_eq!(groups.split(';').count(), gives.split(';').count());
    for (group, result) in groups.split(';').zip(gives.split(';')) {
        let said = numbers(&in_digits(group));
        let (sizes, stated): (Vec<u64>, String) = if let (true, &[many, size, one, other]) = (group.contains("seven"), &said[..]) {
            let sizes = [vec![other as u64; one as usize], vec![size as u64; many as usize]].concat();
            (sizes, format!("{other} ∷ replicate {many} {size}"))
        } else {
            (said.iter().map(|&size| size as u64).collect(), said.iter().map(|size| format!("{size} ∷ ")).collect::<String>() + "[]")
        };
        assert_proved(&format!("(dropping ({stated}))"));
        let (first, second) = two_spreads(&sizes);
        let stay = sizes.iter().filter(|&&size| 2 * size <= 5 * first).count();
        assert_eq!(numbers(result), [first.into(), stay as i128, second.into()], "{group}");
    }
}

/// The squares of t, those of even t below zero.
fn squares(months: usize) -> Vec<i64> {
    (0..months as i64).map(|t| if t % 2 == 0 { -t * t } else { t * t }).collect()
}

fn check_changes(what: &str, gives: &str, sum: fn(&[i64]) -> u64) {
    let what = without_brackets(what);
    let (list, months) = what.split_once(": of ").expect("months");
    let (shown, months) = (numbers(list), numbers(months));
    assert_eq!(shown, squares(shown.len()).into_iter().map(i128::from).collect::<Vec<_>>(), "{what}");
    assert!(months.windows(2).all(|pair| pair[1] == pair[0] + 1), "{what}");
    assert_eq!(numbers(gives), months.iter().map(|&n| sum(&squares(n as usize)).into()).collect::<Vec<i128>>(), "{what}");
}

fn check_terms(what: &str, gives: &str) {
    let said = numbers(what);
    let worked: Vec<i128> = said.chunks(2).map(|pair| Noise { i: pair[0] as u64, c: pair[1] as u64 }.terms() as i128).collect();
    assert_eq!(numbers(gives), worked, "{what}");
    assert_eq!(said, numbers(between(&proved(), "(whole (count_for ", "[]")), "{what}");
}

fn check_answers(what: &str, gives: &str) {
    let said = numbers(what);
    let (pairs, rest) = said.split_at(6);
    let with_s = rest[1..].iter().map(|&i| [i, rest[0]]);
    let sums = pairs.chunks(2).map(|pair| [pair[0], pair[1]]).chain(with_s);
    let answer = |[i, s]: [i128; 2]| Question { months: 72, i: i as u64, s: s as u64 }.answer().map_or("none".to_string(), shown_name);
    assert_eq!(gives.split([',', ';']).map(str::trim).collect::<Vec<_>>(), sums.map(answer).collect::<Vec<_>>(), "{what}");
    assert_eq!(said, numbers(between(&proved(), "(whole (answer_to ", "[]")), "{what}");
}

/// A table of whole years that rises by so much from year to year.
fn rising(changes: &[i128]) -> Vec<i64> {
    let mut value = 0;
    let mut table = vec![0; 12];
    for &change in changes {
        value += change as i64;
        table.extend([value; 12]);
    }
    table
}

/// The filters that are named, and how many questions are asked: one for all lists, or one for each.
fn check_filters(lists: &[Vec<i128>], rise: i128, gives: &str) {
    let asked: Vec<Vec<Question>> = lists.iter().map(|list| questions(&rising(list), &rising(&vec![rise; list.len()]))).collect();
    let names: Vec<SeasonalFilter> = gives.match_indices('×').map(|(at, _)| filter_named(&gives[at - 1..])).collect();
    let (head, tail) = gives.split_once([';', ':']).unwrap_or((gives, ""));
    let mut many: Vec<usize> = head.split(' ').filter_map(ordinal).map(|place| place + 1).collect();
    if many.is_empty() {
        assert!(head.ends_with("without an answer to six questions"), "{gives}");
        many.push(6);
    }
    assert!([names.len(), many.len()].iter().all(|&count| count == 1 || count == lists.len()), "{gives}");
    for (index, questions) in asked.iter().enumerate() {
        assert_eq!((chosen(questions), questions.len()), (names[index % names.len()], many[index % many.len()]), "{gives}: {:?}", lists[index]);
    }
    check_ratios(&asked, tail);
}

/// What is said of I and S at single questions.
fn check_ratios(asked: &[Vec<Question>], tail: &str) {
    let of = |question: &Question| Fraction::new(question.i.into(), question.s.into());
    let said: Vec<Fraction> = tail.split([' ', ',']).filter(|word| word.contains('.')).map(fraction).collect();
    let last = asked.last().expect("a list");
    let due = match tail {
        _ if tail.contains("at first") => asked.iter().map(|questions| of(&questions[0])).collect(),
        _ if tail.contains("of the other") => last[1..].iter().map(of).collect(),
        _ => Vec::new(),
    };
    assert_eq!(said, due, "{tail}");
    if tail.contains("without a change") {
        assert_eq!((asked[0][5].answer(), last[5]), (None, Question { months: 12, i: 0, s: 0 }));
    }
}

// The table.

fn check_line(series: Series, what: &str, gives: &str) {
    match what {
        _ if what.starts_with("2×12") => check_two_by_twelve(series, what, gives),
        _ if what.starts_with("Henderson's") && what.ends_with("at the last month") => check_ends(series, what, gives),
        _ if what.starts_with("Henderson's") => check_henderson(series, what, gives),
        _ if what.contains(" of a table ") => check_part_of_a_table(what, gives),
        _ if what.contains("the last value of a run") => check_last_of_a_run(series, what, gives),
        _ if what.contains("values of a run") => check_a_run(what, gives),
        _ if what.starts_with("rounding") => check_rounding(gives),
        _ if what.starts_with('σ') => check_weights(what, gives),
        _ if what.starts_with("irregulars") => check_sizes(what, gives),
        _ if what.starts_with("irregular ") => check_correction(what, gives),
        _ if what.starts_with("the group of sizes") => check_group(what, gives),
        _ if what.starts_with("the first spread") => check_dropping(what, gives),
        _ if what.starts_with("sum of the sizes of changes over") => check_changes(what, gives, sum_of_yearly_changes),
        _ if what.starts_with("sum of the sizes of changes") => check_changes(what, gives, |table| Noise::of(table, table).i),
        _ if what.starts_with("I and C") => check_terms(what, gives),
        _ if what.starts_with("I and S") => check_answers(what, gives),
        _ => panic!("{what}"),
    }
}

fn lines() -> Vec<[String; 2]> {
    let text = part("11");
    let rows = text.lines().filter(|line| line.starts_with('|')).skip(2).map(cells_of);
    rows.map(|cells| [cells[0].to_string(), cells[1].to_string()]).collect()
}

#[test]
fn every_line_is_worked() {
    let text = part("11");
    let &[months, place] = &numbers(between(&text, "A series has ", " where nothing"))[..] else { panic!("months and a place") };
    assert_proved(&format!("one c v = one_of {months} c v"));
    let series = Series { months: months as usize, place: place as usize };
    let lines = lines();
    assert!(lines.len() > 30);
    for [what, gives] in lines.iter().filter(|[what, _]| !what.contains("C13")) {
        check_line(series, what, gives);
    }
}

#[test]
fn filters_by_yearly_changes() {
    let text = part("11");
    let rise = numbers(between(&text, "C10 rising by ", " from"))[0];
    assert_proved(&format!("(λ _. {rise}) changes"));
    let mut all = Vec::new();
    for [what, gives] in lines().iter().filter(|[what, _]| what.contains("C13")) {
        let (_, lists) = what.rsplit_once("by ").expect("changes");
        let lists: Vec<Vec<i128>> = lists.split(';').map(numbers).collect();
        check_filters(&lists, rise, gives);
        all.extend(lists);
    }
    let proved = proved();
    let stated: Vec<Vec<i128>> = proved.split("chosen_for (").skip(1).map(|list| numbers(list.split("[]").next().expect("a list"))).collect();
    assert_eq!(all, stated);
}

/// The lines that the heading names by their numbers are there.
#[test]
fn heading_names_lines() {
    let text = part("11");
    let heading = between(&text, "(", ")");
    let other = LENGTHS.into_iter().filter(|&terms| terms != T2_TERMS).map(|terms| terms as i128);
    assert_eq!(numbers(between(heading, "on Henderson's ", " terms")), other.collect::<Vec<_>>());
    let sigma = format!("σ {},", between(heading, "of σ ", ","));
    let weight = format!("weight {}", between(heading, "of weight ", ","));
    for name in [sigma, weight] {
        assert!(lines().iter().any(|[what, _]| what.contains(&name)), "{name}");
    }
    let name_in = |words: &str| lines().iter().find(|[what, _]| what.contains(words)).map(|[what, _]| shown_name(filter_named(what)));
    assert_eq!(Some(between(heading, "lengths, on ", " by month").to_string()), name_in(" of a table "));
    assert_eq!(Some(between(heading, "by month, on ", ",").to_string()), name_in("values of a run"));
}
