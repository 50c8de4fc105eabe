//! The seasonal filter of pass D (request 6/12 of document 02): the rows of 3×9 from what the paper asks of them, the choice with years set
//! aside, the series made for each answer and for the bounds, a second working of D10, and rules that a clerk might take for the right one.

mod stored;

use separate::calendar::labels;
use separate::decompose::{decompose_fitting, Tables};
use separate::exact::{distance, exact_working};
use separate::fraction::Fraction;
use separate::generators::{cases, place_by_questions, seasonal_bounds, seasonal_choices, seasonals_without_changes, Case};
use separate::pass::{ends_repeated, henderson, over_runs, pass_with, seasonal, two_by_twelve, Placed};
use separate::rows::{
    three_by_nine, three_by_nine_exact, SeasonalFilter, SeasonalRow, ThreeByFive, ThreeByNine, ThreeByThree, FULL_THREE_BY_NINE,
    SEASONAL_FILTERS,
};
use separate::seasonality::{chosen, questions, Question};
use separate::spread::{correction, weights};
use std::cmp::Ordering;
use std::collections::{BTreeMap, BTreeSet};
use std::io::Write;
use std::process::{Command, Stdio};

// The rows of 3×9.

/// The counts of values before and after that runs of six values or more have, as far as the filter reaches.
fn counts_in_runs() -> BTreeSet<(usize, usize)> {
    let of_run = |many: usize| (0..many).map(move |index| (index.min(5), (many - 1 - index).min(5)));
    (6..=50).flat_map(of_run).collect()
}

#[test]
fn there_is_a_row_for_every_place_of_a_run() {
    let found = counts_in_runs();
    assert_eq!(found, ThreeByNine.counts().into_iter().collect());
    assert_eq!(found.len(), 21);
    // In runs of 6 to 10 no place has the full row, in a run of 11 one has.
    for many in 6..=11 {
        let full = (0..many).filter(|index| (*index).min(many - 1 - index) >= 5).count();
        assert_eq!(full, usize::from(many == 11));
    }
}

#[test]
fn missing_weights_are_shared_equally() {
    for (before, after) in counts_in_runs() {
        let row = three_by_nine_exact(before, after);
        let present = &FULL_THREE_BY_NINE[5 - before..=5 + after];
        assert_eq!(row.len(), present.len());
        let added: Vec<Fraction> = row.iter().zip(present).map(|(weight, full)| weight.less(&Fraction::new(*full, 27))).collect();
        assert!(added.iter().all(|share| share == &added[0] && !share.upper().is_negative()), "{before} {after}");
        // The shares make up what is missing.
        let missing: i128 = 27 - present.iter().sum::<i128>();
        assert_eq!(added[0].times(&Fraction::whole(row.len() as i128)), Fraction::new(missing, 27), "{before} {after}");
    }
}

#[test]
fn rows_are_not_negative_sum_to_one_and_are_mirrored() {
    for (before, after) in counts_in_runs() {
        let SeasonalRow { weights, divisor } = three_by_nine(before, after);
        assert_eq!(weights.iter().sum::<i128>(), divisor);
        assert!(weights.iter().all(|&weight| weight > 0), "{before} {after}");
        let mut turned = three_by_nine(after, before);
        turned.weights.reverse();
        assert_eq!((&weights, divisor), (&turned.weights, turned.divisor), "{before} {after}");
        let exact = three_by_nine_exact(before, after);
        assert_eq!(weights.iter().map(|&weight| Fraction::new(weight, divisor)).collect::<Vec<_>>(), exact);
        // Values more than five places away do not count.
        assert_eq!(three_by_nine(5 + before, after), three_by_nine(5, after));
    }
}

/// Rows worked with a pencil. None after: 3, 3, 3, 2 and 1 are missing, 12 in all, 2 for each of six. Two after and three before, a run of
/// six: every place present has 3, so all have a sixth.
#[test]
fn rows_by_hand() {
    let fractions = |list: &[(i128, i128)]| list.iter().map(|&(upper, lower)| Fraction::new(upper, lower)).collect::<Vec<_>>();
    assert_eq!(three_by_nine(5, 5), SeasonalRow { weights: vec![1, 2, 3, 3, 3, 3, 3, 3, 3, 2, 1], divisor: 27 });
    assert_eq!(three_by_nine_exact(5, 0), fractions(&[(3, 27), (4, 27), (5, 27), (5, 27), (5, 27), (5, 27)]));
    assert_eq!(three_by_nine_exact(0, 5), fractions(&[(5, 27), (5, 27), (5, 27), (5, 27), (4, 27), (3, 27)]));
    assert_eq!(three_by_nine_exact(3, 2), fractions(&[(1, 6); 6]));
    assert_eq!(three_by_nine_exact(3, 3), fractions(&[(1, 7); 7]));
    // 1 before and 4 after, 2 at its end: 3 + 3 + 2 + 1 and 1 are missing, 10 for six places.
    assert_eq!(three_by_nine_exact(1, 4), fractions(&[(28, 162), (28, 162), (28, 162), (28, 162), (28, 162), (22, 162)]));
    // 5 before and 4 after: 1 for ten places.
    assert_eq!(three_by_nine(5, 4), SeasonalRow { weights: vec![11, 21, 31, 31, 31, 31, 31, 31, 31, 21], divisor: 270 });
    // 4 on each side: 1 and 1 for nine places.
    assert_eq!(three_by_nine(4, 4), SeasonalRow { weights: vec![20, 29, 29, 29, 29, 29, 29, 29, 20], divisor: 243 });
}

/// 3×9 of a run with some grains at one place, else 0, in the month that a series of so many years begins with.
fn of_run(years: usize, place: usize, grains: i64) -> Vec<i64> {
    let mut series = vec![0; 12 * years];
    series[12 * place] = grains;
    let filtered = over_runs(&Placed::whole_series(series), ThreeByNine).rounded();
    assert!((0..12 * years).all(|t| t % 12 == 0 || filtered.at(t) == 0));
    (0..years).map(|year| filtered.at(12 * year)).collect()
}

#[test]
fn runs_by_hand() {
    // Six years: over 162 the last place has 18, 22, 27, 27, 28 and 30 in the rows from first to last.
    assert_eq!(of_run(6, 5, 162_000), [18_000, 22_000, 27_000, 27_000, 28_000, 30_000]);
    assert_eq!(of_run(6, 0, 162_000), [30_000, 28_000, 27_000, 27_000, 22_000, 18_000]);
    // Seven years: over 189 nothing, 16, 21, 27, 28, 30, and 30 over 162, which is 35 over 189.
    assert_eq!(of_run(7, 6, 189_000), [0, 16_000, 21_000, 27_000, 28_000, 30_000, 35_000]);
    assert_eq!(of_run(7, 6, -189_000), [0, -16_000, -21_000, -27_000, -28_000, -30_000, -35_000]);
    // Eleven years, the one in the middle: 3/27, 23/189, 30/216, 30/243, 31/270 and 3/27 of it, and back.
    let half = [3 * 2_520, 23 * 360, 30 * 315, 30 * 280, 31 * 252, 3 * 2_520];
    let whole: Vec<i64> = half.into_iter().chain(half.into_iter().rev().skip(1)).collect();
    assert_eq!(of_run(11, 5, 27 * 2_520), whole);
    // Fourteen years: the four places in the middle have the full row.
    assert_eq!(of_run(14, 7, 27)[5..=8], [3, 3, 3, 3]);
    assert_eq!(of_run(14, 3, 27)[5..=8], [3, 3, 2, 1]);
}

#[test]
fn halves_go_to_the_even_grain() {
    // In the middle of a run of six the last place has a sixth.
    for (grains, result) in [(3, 0), (9, 2), (15, 2), (21, 4), (-3, 0), (-9, -2), (-15, -2), (-21, -4)] {
        assert_eq!(of_run(6, 5, grains)[2..=3], [result; 2], "{grains}");
    }
}

// The choice.

/// A table that has one value in all months of a year, beginning with 0 and changing by so much from year to year, up and down in turn.
fn by_years(changes: &[i64]) -> Vec<i64> {
    let mut table = vec![0; 12];
    let mut value = 0;
    for (year, change) in changes.iter().enumerate() {
        value += if year % 2 == 0 { *change } else { -change };
        table.extend([value; 12]);
    }
    table
}

/// The questions asked where C13 changes by so much from year to year, and C10 by 1.
fn asked(changes: &[i64]) -> Vec<Question> {
    questions(&by_years(changes), &by_years(&vec![1; changes.len()]))
}

/// Seven years: the changes of six count 12 months each. A change of the first year counts in all questions, one of the last in the first
/// question only.
#[test]
fn years_set_aside_by_hand() {
    for (changes, number, filter) in [
        ([2, 2, 2, 2, 2, 2], 1, ThreeByThree),
        ([4, 4, 4, 4, 4, 4], 1, ThreeByFive),
        ([7, 7, 7, 7, 7, 7], 1, ThreeByNine),
        // 17/6, 14/5, 11/4, 8/3, 5/2 (2.5 is left open), 2.
        ([2, 3, 3, 3, 3, 3], 6, ThreeByThree),
        // 19/6, 16/5, 13/4, 10/3, 7/2 (3.5 is left open), 4.
        ([4, 3, 3, 3, 3, 3], 6, ThreeByFive),
        // 35/6, 29/5, 23/4, 17/3, 11/2 (5.5 is left open), 5.
        ([5, 6, 6, 6, 6, 6], 6, ThreeByFive),
        // 37/6, 31/5, 25/4, 19/3, 13/2: 6.5 takes 3×9.
        ([7, 6, 6, 6, 6, 6], 5, ThreeByNine),
        // 18/6, 10/5: the great change is set aside first.
        ([2, 2, 2, 2, 2, 8], 2, ThreeByThree),
        // 36/6, 33/5: the small change is set aside first.
        ([6, 6, 7, 7, 7, 3], 2, ThreeByNine),
        // 18/6, 17/5, 16/4.
        ([4, 4, 4, 4, 1, 1], 3, ThreeByFive),
        // 3 and 6 are left open to the end.
        ([3, 3, 3, 3, 3, 3], 6, ThreeByFive),
        ([6, 6, 6, 6, 6, 6], 6, ThreeByFive),
    ] {
        let list = asked(&changes);
        assert_eq!((list.len(), chosen(&list)), (number, filter), "{changes:?}");
        for (index, question) in list.iter().enumerate() {
            let sum: i64 = changes[..6 - index].iter().sum();
            let expected = Question { months: 84 - 12 * index, i: 12 * sum as u64, s: 12 * (6 - index) as u64 };
            assert_eq!(*question, expected, "{changes:?}");
        }
    }
    assert_eq!(asked(&[3; 6])[5].answer(), None);
}

/// Six years: twelve months are left for the sixth question, without a change. Eight years: the sixth has the changes of two years.
#[test]
fn the_sixth_question() {
    let list = asked(&[3; 5]);
    assert_eq!((list.len(), list[5]), (6, Question { months: 12, i: 0, s: 0 }));
    assert_eq!((list[5].answer(), chosen(&list)), (Some(ThreeByFive), ThreeByFive));
    // 20/7, 17/6, 14/5, 11/4, 8/3, 4/2.
    let list = asked(&[2, 2, 4, 3, 3, 3, 3]);
    assert_eq!((list.len(), list[5].months, chosen(&list)), (6, 36, ThreeByThree));
    // 20/7, 17/6, 14/5, 11/4, 8/3, 5/2: left open; a seventh question would have 2/1.
    let list = asked(&[2, 3, 3, 3, 3, 3, 3]);
    assert_eq!((list.len(), list[5].answer(), chosen(&list)), (6, None, ThreeByFive));
}

#[test]
fn sums_of_zero() {
    let (level, moving) = (vec![40; 96], by_years(&[1; 7]));
    assert_eq!(questions(&level, &level), [Question { months: 96, i: 0, s: 0 }]);
    assert_eq!(chosen(&questions(&level, &level)), ThreeByFive);
    assert_eq!(chosen(&questions(&moving, &level)), ThreeByNine);
    assert_eq!(chosen(&questions(&level, &moving)), ThreeByThree);
    // The greatest sums that the tables can have are far from the limits of the numbers.
    let wide = Question::of(&by_years(&[1 << 41; 49]), &by_years(&[1 << 41; 49]), 600);
    assert_eq!((wide.i, wide.s, wide.answer()), (588 << 41, 588 << 41, Some(ThreeByThree)));
}

fn worked(case: &Case) -> Tables {
    decompose_fitting(&case.figures, case.start).expect("an allowed series")
}

/// All made-up series with their tables.
fn all_worked() -> Vec<(Case, Tables)> {
    cases().into_iter().map(|case| (case.clone(), worked(&case))).collect()
}

/// The series found by `separate questions` try what they were found for: each answer at each question, and none at all.
#[test]
fn each_answer_at_each_question() {
    let mut met = BTreeMap::new();
    let mut lengths: BTreeMap<SeasonalFilter, BTreeSet<usize>> = BTreeMap::new();
    let mut starts: BTreeMap<SeasonalFilter, BTreeSet<u8>> = BTreeMap::new();
    for (case, what) in seasonal_choices() {
        let tables = worked(&case);
        assert!(place_by_questions(&tables).contains(&what.to_string()), "{} {what} {:?}", case.name, tables.questions);
        *met.entry(what).or_insert(0) += 1;
        lengths.entry(tables.seasonal_filter).or_default().insert(case.figures.len());
        starts.entry(tables.seasonal_filter).or_default().insert(case.start);
    }
    println!("series by what they were made for: {met:?}");
    for filter in SEASONAL_FILTERS {
        assert!((1..=6).all(|number| met[format!("{filter} at {number}").as_str()] >= 5), "{filter}");
        // Runs of 6 and 7, of 8 to 11 and of many years.
        let wanted = (72..=84).chain([96, 108, 120, 131, 132, 600]);
        assert!(wanted.into_iter().all(|n| lengths[&filter].contains(&n)), "{filter} {:?}", lengths[&filter]);
        assert_eq!(starts[&filter].len(), 12, "{filter}");
    }
    assert!(met["undecided"] >= 5 && met["I=S=0 at 6"] >= 4);
}

/// The series at the bounds: each met exactly and missed by one grain on each side.
#[test]
fn bounds_are_met_and_missed_by_a_grain() {
    let list = seasonal_bounds();
    for (case, what) in &list {
        let tables = worked(case);
        assert!(place_by_questions(&tables).contains(&what.to_string()), "{} {what} {:?}", case.name, tables.questions);
    }
    let kind = |what: &str| what.split(' ').next().expect("a kind").to_string();
    let met: BTreeSet<String> = list.iter().map(|(_, what)| kind(what)).collect();
    let bounds = [5, 7, 11, 13].into_iter().flat_map(|bound| ["-1", "", "+1"].map(|off| format!("2I={bound}S{off}")));
    assert_eq!(met, bounds.chain(["S=0".to_string()]).collect());
}

/// C10 repeats itself from year to year and C13 does not.
#[test]
fn seasonals_without_a_change() {
    for case in seasonals_without_changes() {
        let tables = worked(&case);
        let Question { i, s, .. } = tables.questions[0];
        assert!(i > 0 && s == 0, "{} {i} {s}", case.name);
        assert!((12..case.figures.len()).all(|t| tables.c10[t] == tables.c10[t - 12]), "{}", case.name);
        assert_eq!((tables.questions.len(), tables.seasonal_filter), (1, ThreeByNine), "{}", case.name);
    }
}

// D10 once more.

/// The weights of a filter by the distance in years: a mean of three means of so many, in parts of their product.
fn means_of_means(many: i64) -> BTreeMap<i64, i128> {
    let mut weights = BTreeMap::new();
    for outer in -1..=1 {
        for inner in -(many / 2)..=many / 2 {
            *weights.entry(outer + inner).or_insert(0) += 1;
        }
    }
    weights
}

/// A filter at month t of a table, from the values whole twelves away, as a fraction. Missing weights of 3×9 go to the mean of the values
/// present; the others have the rows of document 01 where a side is short.
fn second_filter(table: &[i64], t: usize, filter: SeasonalFilter) -> (i128, i128) {
    let n = table.len() as i64;
    let full = means_of_means(match filter {
        ThreeByThree => 3,
        ThreeByFive => 5,
        ThreeByNine => 9,
    });
    let product: i128 = full.values().sum();
    let value = |years: &i64| Some(t as i64 + 12 * years).filter(|s| (0..n).contains(s)).map(|s| i128::from(table[s as usize]));
    let present: Vec<(i64, i128, i128)> = full.iter().filter_map(|(years, weight)| value(years).map(|v| (*years, *weight, v))).collect();
    if present.len() == full.len() {
        return (present.iter().map(|(_, weight, v)| weight * v).sum(), product);
    }
    if filter == ThreeByNine {
        let left: i128 = product - present.iter().map(|(_, weight, _)| weight).sum::<i128>();
        let many = present.len() as i128;
        return (present.iter().map(|(_, weight, v)| (weight * many + left) * v).sum(), product * many);
    }
    // How many the short side has; the weights begin on the other side.
    let (row, divisor): (&[i128], i128) = match (filter, present.len()) {
        (ThreeByThree, 4) => (&[3, 7, 10, 7], 27),
        (ThreeByThree, 3) => (&[5, 11, 11], 27),
        (ThreeByFive, 6) => (&[4, 8, 13, 13, 13, 9], 60),
        (ThreeByFive, 5) => (&[4, 11, 15, 15, 15], 60),
        (ThreeByFive, 4) => (&[9, 17, 17, 17], 60),
        _ => panic!("a run too short"),
    };
    let mut values: Vec<i128> = present.iter().map(|(_, _, v)| *v).collect();
    if present[0].0 > -(filter.reach() as i64) {
        values.reverse();
    }
    (row.iter().zip(values).map(|(weight, v)| weight * v).sum(), divisor)
}

/// The grain nearest to a fraction, the even one of two that are as near.
fn grain(upper: i128, lower: i128) -> i64 {
    let about = upper / lower;
    let found = (about - 1..=about + 1).min_by_key(|&grain| ((upper - lower * grain).abs(), grain.rem_euclid(2))).expect("three grains");
    i64::try_from(found).expect("a grain")
}

/// Steps 6 and 7 from SI2: the 2×12 from running sums of twelve.
fn second_seasonal(si2: &[i64], filter: SeasonalFilter) -> Vec<i64> {
    let n = si2.len();
    let r2: Vec<i64> = (0..n).map(|t| second_filter(si2, t, filter)).map(|(upper, lower)| grain(upper, lower)).collect();
    let twelve: Vec<i128> = r2.windows(12).map(|year| year.iter().map(|&v| i128::from(v)).sum()).collect();
    let m2: Vec<i64> = twelve.windows(2).map(|pair| grain(pair[0] + pair[1], 24)).collect();
    (0..n).map(|t| r2[t] - m2[t.clamp(6, n - 7) - 6]).collect()
}

/// The sum of the sizes of twelve-month changes by calendar month: the pairs of one month of the calendar in following years.
fn second_sum(table: &[i64], start: u8, months: usize) -> u64 {
    let labels = labels(start, months);
    let mut sum = 0;
    for (t, later) in labels.iter().enumerate() {
        for (s, earlier) in labels[..t].iter().enumerate() {
            if later.month == earlier.month && later.year == earlier.year + 1 {
                sum += table[t].abs_diff(table[s]);
            }
        }
    }
    sum
}

/// The filter by ratios in fractions, each question being the next one's beginning: the filter and the questions asked.
fn second_choice(c13: &[i64], c10: &[i64], start: u8, months: usize, tries: usize) -> (SeasonalFilter, usize) {
    let (i, s) = (second_sum(c13, start, months), second_sum(c10, start, months));
    if s == 0 {
        return (if i == 0 { ThreeByFive } else { ThreeByNine }, 1);
    }
    let ratio = Fraction::new(i.into(), s.into());
    let place = |upper: i128| ratio.compare(&Fraction::new(upper, 2));
    match [place(5), place(7), place(11), place(13)] {
        [Ordering::Less, ..] => (ThreeByThree, 1),
        [_, Ordering::Greater, Ordering::Less, _] => (ThreeByFive, 1),
        [_, _, _, Ordering::Greater | Ordering::Equal] => (ThreeByNine, 1),
        _ if tries == 0 => (ThreeByFive, 1),
        _ => {
            let (filter, asked) = second_choice(c13, c10, start, months - 12, tries - 1);
            (filter, asked + 1)
        }
    }
}

fn less(a: &[i64], b: &[i64]) -> Vec<i64> {
    a.iter().zip(b).map(|(x, y)| x - y).collect()
}

#[test]
fn a_second_working_of_the_seasonal() {
    let mut counts = BTreeMap::new();
    for (case, tables) in all_worked() {
        let (name, n) = (&case.name, case.figures.len());
        let c13 = less(&less(&tables.b1, &tables.c.s2.values), &tables.c.t2.values);
        let (filter, asked) = second_choice(&c13, &tables.c.s2.values, case.start, n, 5);
        assert_eq!((tables.seasonal_filter, tables.questions.len()), (filter, asked), "{name}");
        for (index, question) in tables.questions.iter().enumerate() {
            assert_eq!(question.months, n - 12 * index, "{name}");
            let sums = [&c13, &tables.c.s2.values].map(|table| second_sum(table, case.start, question.months));
            assert_eq!([question.i, question.s], sums, "{name}");
        }
        let si2 = less(&tables.d1, &tables.d.t2.values);
        assert_eq!(tables.d10, second_seasonal(&si2, filter), "{name}");
        assert_eq!(tables.c10, second_seasonal(&less(&tables.c1, &tables.c7), ThreeByFive), "{name}");
        assert_eq!(tables.b10, second_seasonal(&tables.b9.replaced.values, ThreeByFive), "{name}");
        // Step 3 has 3×3 in every pass.
        for (steps, si1) in [(&tables.b, &tables.b4.replaced), (&tables.c, &tables.c.si1), (&tables.d, &tables.d.si1)] {
            let r1: Vec<i64> = (0..n - 12).map(|t| second_filter(&si1.values, t, ThreeByThree)).map(|(u, l)| grain(u, l)).collect();
            assert_eq!(steps.r1.values, r1, "{name}");
        }
        let last = tables.questions[asked - 1].answer().map_or("undecided".to_string(), |filter| filter.to_string());
        *counts.entry((last, asked)).or_insert(0) += 1;
    }
    println!("series by the last answer and the question that has it: {counts:?}");
    for filter in SEASONAL_FILTERS {
        assert!((1..=6).all(|number| counts[&(filter.to_string(), number)] > 0), "{filter}");
    }
}

/// Every rule is the same above zero and below, so that a series with every sign turned has every table turned, and its filter.
#[test]
fn with_every_sign_turned() {
    for (case, _) in seasonal_choices().into_iter().chain(seasonal_bounds()) {
        let (tables, turned) = (worked(&case), case.figures.iter().map(|figure| -figure).collect::<Vec<i32>>());
        let turned = decompose_fitting(&turned, case.start).expect("an allowed series");
        assert_eq!((turned.questions, turned.seasonal_filter), (tables.questions, tables.seasonal_filter), "{}", case.name);
        assert_eq!(turned.d10, tables.d10.iter().map(|grains| -grains).collect::<Vec<i64>>(), "{}", case.name);
    }
}

/// What a series that is longer by a year at the end asks second is what its beginning would ask first, if C10 and C13 were the same; they
/// are those of all months, so that the sums mostly differ.
#[test]
fn the_tables_of_all_months_are_asked() {
    let mut others = 0;
    for (case, _) in seasonal_choices().into_iter().filter(|(case, _)| (84..200).contains(&case.figures.len())) {
        let tables = worked(&case);
        let kept = case.figures.len() - 12;
        let shorter = decompose_fitting(&case.figures[..kept], case.start).expect("an allowed series");
        let second = Question::of(&tables.c13, &tables.c10, kept);
        others += usize::from(shorter.questions[0] != second);
        if let Some(question) = tables.questions.get(1) {
            assert_eq!(*question, second, "{}", case.name);
        }
    }
    assert!(others > 20);
}

// Other rules.

/// D10 and D12; the other two of the four tables follow from them.
type Parts = (Vec<i64>, Vec<i64>);

type Rule = Box<dyn Fn(&Case, &Tables) -> Parts>;

/// The tables with another D10.
fn with_seasonal(tables: &Tables, d10: Vec<i64>) -> Parts {
    let d12 = henderson(&less(&tables.d1, &d10), tables.trend_terms).rounded().values;
    (d10, d12)
}

/// The tables with another filter.
fn with_filter(tables: &Tables, filter: SeasonalFilter) -> Parts {
    if filter == tables.seasonal_filter {
        return (tables.d10.clone(), tables.d12.clone());
    }
    with_seasonal(tables, seasonal(&tables.d.si2, filter).s.values)
}

/// The filter by some other choice.
fn choice(filter: impl Fn(&Case, &Tables) -> SeasonalFilter + 'static) -> Rule {
    Box::new(move |case, tables| with_filter(tables, filter(case, tables)))
}

/// An answer to sums I and S, nothing where it is left open.
type Answer = fn(u64, u64) -> Option<SeasonalFilter>;

fn right_answer(i: u64, s: u64) -> Option<SeasonalFilter> {
    Question { months: 0, i, s }.answer()
}

/// The sums of a question, its number counting from 0.
type Sums = fn(&Tables, usize) -> (u64, u64);

fn right_sums(tables: &Tables, set_aside: usize) -> (u64, u64) {
    let Question { i, s, .. } = Question::of(&tables.c13, &tables.c10, tables.b1.len().saturating_sub(12 * set_aside));
    (i, s)
}

/// Questions with sums and answers of one's own.
fn asking(most: usize, sums: Sums, answer: Answer) -> Rule {
    choice(move |_, tables| {
        let answers = (0..most).map(|set_aside| sums(tables, set_aside)).map(|(i, s)| answer(i, s));
        answers.flatten().next().unwrap_or(ThreeByFive)
    })
}

/// The right questions with another answer where some condition holds.
fn answering(answer: Answer) -> Rule {
    asking(6, right_sums, answer)
}

/// The sums of changes of two tables over a span of months, each t from first to last with the month so many before.
fn changes(tables: [&[i64]; 2], first: usize, last: usize, apart: usize) -> (u64, u64) {
    let sum = |table: &[i64]| (first..=last).filter(|&t| t >= apart).map(|t| table[t].abs_diff(table[t - apart])).sum();
    (sum(tables[0]), sum(tables[1]))
}

fn last_kept(tables: &Tables, set_aside: usize) -> usize {
    tables.b1.len() - 12 * set_aside - 1
}

fn years_left_off_at_the_start(tables: &Tables, set_aside: usize) -> (u64, u64) {
    changes([&tables.c13, &tables.c10], 12 + 12 * set_aside, tables.b1.len() - 1, 12)
}

/// The changes at t from 0, those of the first year being the sizes of its values.
fn sums_from_the_first_month(tables: &Tables, set_aside: usize) -> (u64, u64) {
    let (i, s) = right_sums(tables, set_aside);
    let sizes = |table: &[i64]| table[..12].iter().map(|v| v.unsigned_abs()).sum::<u64>();
    (i + sizes(&tables.c13), s + sizes(&tables.c10))
}

/// I of all months, S of the months kept.
fn irregular_of_all_months(tables: &Tables, set_aside: usize) -> (u64, u64) {
    (right_sums(tables, 0).0, right_sums(tables, set_aside).1)
}

fn sums_of_pass_b(tables: &Tables, set_aside: usize) -> (u64, u64) {
    changes([&tables.b13, &tables.b10], 12, last_kept(tables, set_aside), 12)
}

fn irregular_of_c1(tables: &Tables, set_aside: usize) -> (u64, u64) {
    let irregular = less(&less(&tables.c1, &tables.c10), &tables.c7);
    changes([&irregular, &tables.c10], 12, last_kept(tables, set_aside), 12)
}

fn changes_from_month_to_month(tables: &Tables, set_aside: usize) -> (u64, u64) {
    changes([&tables.c13, &tables.c10], 1, last_kept(tables, set_aside), 1)
}

fn changes_after_month_12(tables: &Tables, set_aside: usize) -> (u64, u64) {
    changes([&tables.c13, &tables.c10], 13, last_kept(tables, set_aside), 12)
}

fn changes_before_the_last_month(tables: &Tables, set_aside: usize) -> (u64, u64) {
    changes([&tables.c13, &tables.c10], 12, last_kept(tables, set_aside) - 1, 12)
}

/// The inner months only, as for the length of the trend.
fn changes_of_inner_months(tables: &Tables, set_aside: usize) -> (u64, u64) {
    changes([&tables.c13, &tables.c10], 18, last_kept(tables, set_aside) - 6, 12)
}

/// C13 and C10 of the shorter series, where it is long enough to have any.
fn tables_worked_anew(case: &Case, tables: &Tables) -> SeasonalFilter {
    for set_aside in 0..6 {
        let kept = case.figures.len() - 12 * set_aside;
        let sums = match decompose_fitting(&case.figures[..kept], case.start) {
            Ok(shorter) => right_sums(&shorter, 0),
            Err(_) => right_sums(tables, set_aside),
        };
        if let Some(filter) = right_answer(sums.0, sums.1) {
            return filter;
        }
    }
    ThreeByFive
}

/// Other rows for 3×9.
fn rows(row: fn(usize, usize) -> SeasonalRow) -> Rule {
    Box::new(move |_, tables| {
        if tables.seasonal_filter != ThreeByNine {
            return (tables.d10.clone(), tables.d12.clone());
        }
        let (si2, n) = (&tables.d.si2.values, tables.b1.len());
        let r2: Vec<i64> = (0..n)
            .map(|t| {
                let (before, after) = ((t / 12).min(5), ((n - 1 - t) / 12).min(5));
                let row = row(before, after);
                let sum = row.weights.iter().enumerate().map(|(place, w)| w * i128::from(si2[t + 12 * place - 12 * before])).sum();
                grain(sum, row.divisor)
            })
            .collect();
        let r2 = Placed::whole_series(r2);
        let m2 = ends_repeated(&two_by_twelve(&r2).rounded(), 0, n - 1);
        with_seasonal(tables, r2.less(&m2).values)
    })
}

/// The weights present, so many times as large that they sum to one.
fn shared_in_proportion(before: usize, after: usize) -> SeasonalRow {
    let weights = FULL_THREE_BY_NINE[5 - before..=5 + after].to_vec();
    let divisor = weights.iter().sum();
    SeasonalRow { weights, divisor }
}

/// The mean of the values present where any is missing, as the book has it for short runs.
fn mean_of_the_present(before: usize, after: usize) -> SeasonalRow {
    if before + after == 10 {
        return three_by_nine(5, 5);
    }
    let many = before + after + 1;
    SeasonalRow { weights: vec![1; many], divisor: many as i128 }
}

/// The missing weights to the present month.
fn missing_weights_to_the_month_itself(before: usize, after: usize) -> SeasonalRow {
    let mut weights = FULL_THREE_BY_NINE[5 - before..=5 + after].to_vec();
    weights[before] += 27 - weights.iter().sum::<i128>();
    SeasonalRow { weights, divisor: 27 }
}

/// The missing weights of each side among the places of that side and the month itself.
fn missing_weights_stay_on_their_side(before: usize, after: usize) -> SeasonalRow {
    let full = FULL_THREE_BY_NINE;
    let missing = [full[..5 - before].iter().sum::<i128>(), full[6 + after..].iter().sum::<i128>()];
    let many = [before as i128 + 1, after as i128 + 1];
    let weights = (5 - before..=5 + after).map(|place| {
        let early = if place <= 5 { missing[0] * many[1] } else { 0 };
        let late = if place >= 5 { missing[1] * many[0] } else { 0 };
        full[place] * many[0] * many[1] + early + late
    });
    SeasonalRow { weights: weights.collect(), divisor: 27 * many[0] * many[1] }
}

/// The filter in pass C too: its tables are worked once more, and pass D from them.
fn filter_in_pass_c_too(case: &Case, tables: &Tables) -> Parts {
    let c = pass_with(&tables.c1, tables.seasonal_filter);
    let c13 = less(&less(&tables.b1, &c.s2.values), &c.t2.values);
    let c17 = weights(&c13, &labels(case.start, c13.len()));
    let d1: Vec<i64> = (0..c13.len()).map(|t| tables.b1[t] - correction(c13[t], c17[t])).collect();
    let d10 = pass_with(&d1, tables.seasonal_filter).s2.values;
    let d12 = henderson(&less(&d1, &d10), tables.trend_terms).rounded().values;
    (d10, d12)
}

/// Step 3 of pass D with the filter chosen, where its runs of five values and more allow it.
fn step_3_chosen_too(_: &Case, tables: &Tables) -> Parts {
    let n = tables.b1.len();
    if tables.seasonal_filter != ThreeByFive || n < 84 {
        return (tables.d10.clone(), tables.d12.clone());
    }
    let s1 = seasonal(&tables.d.si1, ThreeByFive).s;
    let source = |t: usize| if t < 6 { t + 12 } else if t > n - 7 { t - 12 } else { t };
    let a1: Vec<i64> = (0..n).map(|t| tables.d1[t] - s1.at(source(t))).collect();
    let si2 = Placed::whole_series(less(&tables.d1, &henderson(&a1, 13).rounded().values));
    with_seasonal(tables, seasonal(&si2, ThreeByFive).s.values)
}

fn turned_round(filter: SeasonalFilter) -> SeasonalFilter {
    match filter {
        ThreeByThree => ThreeByNine,
        ThreeByFive => ThreeByFive,
        ThreeByNine => ThreeByThree,
    }
}

/// The right answer but for one case.
fn but_for(i: u64, s: u64, case: bool, answer: Option<SeasonalFilter>) -> Option<SeasonalFilter> {
    if case {
        answer
    } else {
        right_answer(i, s)
    }
}

/// Rules that ask or answer otherwise.
fn other_choices() -> Vec<(&'static str, Rule)> {
    vec![
        ("3×3 always", choice(|_, _| ThreeByThree)),
        ("3×5 always", choice(|_, _| ThreeByFive)),
        ("3×9 always", choice(|_, _| ThreeByNine)),
        ("the short filter for the high ratio", choice(|_, t| turned_round(t.seasonal_filter))),
        ("2.5 takes 3×3", answering(|i, s| but_for(i, s, s > 0 && 2 * i == 5 * s, Some(ThreeByThree)))),
        ("3.5 takes 3×5", answering(|i, s| but_for(i, s, s > 0 && 2 * i == 7 * s, Some(ThreeByFive)))),
        ("5.5 takes 3×5", answering(|i, s| but_for(i, s, s > 0 && 2 * i == 11 * s, Some(ThreeByFive)))),
        ("6.5 is left open", answering(|i, s| but_for(i, s, s > 0 && 2 * i == 13 * s, None))),
        ("both zero takes 3×3", answering(|i, s| but_for(i, s, i == 0 && s == 0, Some(ThreeByThree)))),
        ("both zero takes 3×9", answering(|i, s| but_for(i, s, i == 0 && s == 0, Some(ThreeByNine)))),
        ("S zero takes 3×5", answering(|i, s| but_for(i, s, s == 0, Some(ThreeByFive)))),
        ("the open bands take 3×5 at once", asking(1, right_sums, right_answer)),
        ("the lower open band takes 3×3", answering(|i, s| but_for(i, s, 2 * i <= 7 * s && s > 0, Some(ThreeByThree)))),
        ("five questions", asking(5, right_sums, right_answer)),
        ("seven questions", asking(7, right_sums, right_answer)),
        ("years set aside at the start", asking(6, years_left_off_at_the_start, right_answer)),
        ("sums from t 0, by the size of the value", asking(6, sums_from_the_first_month, right_answer)),
        ("I of all months at every question", asking(6, irregular_of_all_months, right_answer)),
        ("the irregular and seasonal of pass B", asking(6, sums_of_pass_b, right_answer)),
        ("the irregular of C1, not of B1", asking(6, irregular_of_c1, right_answer)),
        ("changes from month to month", asking(6, changes_from_month_to_month, right_answer)),
        ("changes from t 13 on", asking(6, changes_after_month_12, right_answer)),
        ("changes to the last month but one", asking(5, changes_before_the_last_month, right_answer)),
        ("changes of inner months", asking(4, changes_of_inner_months, right_answer)),
        ("tables of the shorter series", choice(tables_worked_anew)),
    ]
}

/// Rules that filter otherwise.
fn other_filters() -> Vec<(&'static str, Rule)> {
    vec![
        ("missing weights in proportion", rows(shared_in_proportion)),
        ("a mean where any is missing", rows(mean_of_the_present)),
        ("missing weights to the month itself", rows(missing_weights_to_the_month_itself)),
        ("missing weights on their own side", rows(missing_weights_stay_on_their_side)),
        ("the filter in pass C too", Box::new(filter_in_pass_c_too)),
        ("the filter in step 3 too", Box::new(step_3_chosen_too)),
    ]
}

/// With the right rows and questions these ways of working give the right tables.
#[test]
fn the_right_rule_gives_the_right_tables() {
    for (case, tables) in all_worked().into_iter().step_by(3) {
        for rule in [answering(right_answer), rows(three_by_nine)] {
            assert_eq!(rule(&case, &tables), (tables.d10.clone(), tables.d12.clone()), "{}", case.name);
        }
    }
}

/// Each of these rules gives some made-up series other tables.
#[test]
fn other_rules_give_other_tables() {
    let list = all_worked();
    for (name, rule) in other_choices().into_iter().chain(other_filters()) {
        let gets_others = |case: &Case, t: &Tables| {
            let (d10, d12) = rule(case, t);
            d10 != t.d10 || d12 != t.d12
        };
        let others: Vec<&str> = list.iter().filter(|(case, t)| gets_others(case, t)).map(|(case, _)| case.name.as_str()).collect();
        println!("{name}: {} series, first {:?}", others.len(), others.first());
        assert!(!others.is_empty(), "{name}");
    }
}

/// The stored cases of printing on a bound: the sums of a question meet it exactly, and D10 would be another one if they were answered
/// otherwise there.
#[test]
fn stored_cases_show_what_holds_on_a_bound() {
    let rules: BTreeMap<&str, Rule> = other_choices().into_iter().collect();
    for (name, what, otherwise) in [
        ("at_two_and_a_half", "2I=5S at 1", "2.5 takes 3×3"),
        ("at_three_and_a_half", "2I=7S at 1", "3.5 takes 3×5"),
        ("at_five_and_a_half", "2I=11S at 1", "5.5 takes 3×5"),
        ("at_six_and_a_half", "2I=13S at 1", "6.5 is left open"),
    ] {
        let case = stored::series(name);
        let tables = worked(&case);
        assert!(place_by_questions(&tables).contains(&what.to_string()), "{name} {what} {:?}", tables.questions);
        let (d10, _) = rules[otherwise](&case, &tables);
        assert_ne!(d10, tables.d10, "{name}, where {otherwise}");
    }
}

/// An exact working that takes 3×5 for all lies beyond the limits.
#[test]
fn the_exact_working_takes_the_filter_chosen() {
    let mut beyond = BTreeMap::new();
    for (case, _) in seasonal_choices().into_iter().filter(|(case, _)| case.figures.len() < 100) {
        let tables = worked(&case);
        if tables.seasonal_filter != ThreeByFive {
            let e10 = exact_working(&tables.b1, &tables.d1, ThreeByFive, tables.trend_terms).e10;
            *beyond.entry(tables.seasonal_filter).or_insert(0) += usize::from(!distance(&tables.d10, &e10).is_within(10));
        }
    }
    println!("series beyond 10 grains of a seasonal of 3×5, by their own filter: {beyond:?}");
    assert!(beyond[&ThreeByThree] > 10 && beyond[&ThreeByNine] > 10);
}

// The program.

/// What the program prints for some input.
fn printed(arguments: &[&str], input: String) -> String {
    let mut command = Command::new(env!("CARGO_BIN_EXE_separate"));
    let mut child = command.args(arguments).stdin(Stdio::piped()).stdout(Stdio::piped()).spawn().expect("the program");
    child.stdin.take().expect("its input").write_all(input.as_bytes()).expect("input taken");
    let output = child.wait_with_output().expect("a run");
    assert!(output.status.success(), "{arguments:?}");
    String::from_utf8(output.stdout).expect("text")
}

#[test]
fn the_steps_show_the_questions() {
    for (case, what) in seasonal_choices().into_iter().filter(|(case, _)| case.figures.len() < 100).step_by(3) {
        let words: Vec<String> = case.figures.iter().map(i32::to_string).collect();
        let text = printed(&["steps", &case.start.to_string()], words.join(" "));
        let shown: Vec<&str> = text.lines().filter(|l| l.starts_with("D question ") || l.starts_with("D filter ")).collect();
        let tables = worked(&case);
        assert_eq!(shown.len(), tables.questions.len() + 1, "{}", case.name);
        for (index, Question { months, i, s }) in tables.questions.iter().enumerate() {
            let is_last = index + 1 == tables.questions.len();
            let answer = if is_last && what != "undecided" { tables.seasonal_filter.to_string() } else { "undecided".to_string() };
            assert_eq!(shown[index], format!("D question {} {months} {i} {s} {answer}", index + 1), "{}", case.name);
        }
        assert_eq!(shown.last(), Some(&format!("D filter {}", tables.seasonal_filter).as_str()), "{}", case.name);
    }
}

#[test]
fn the_rows_are_shown() {
    let text = printed(&["rows"], String::new());
    let lines: Vec<&str> = text.lines().filter(|line| line.starts_with("3x9 ")).collect();
    assert_eq!(lines.len(), 2 * 21);
    for line in [
        "3x9 5 before 5 after: 1 2 3 3 3 3 3 3 3 2 1 over 27",
        "3x9 5 before 0 after: 18 24 30 30 30 30 over 162",
        "3x9 5 before 0 after exact: 1/9 4/27 5/27 5/27 5/27 5/27",
        "3x9 3 before 2 after: 27 27 27 27 27 27 over 162",
    ] {
        assert!(lines.contains(&line), "{line}");
    }
}

#[test]
fn the_search_finds_what_is_there() {
    let text = printed(&["questions", "0", "3"], String::new());
    assert!(text.lines().any(|line| line == "moving_seed0_n72_s1 3x9 at 3"));
}
