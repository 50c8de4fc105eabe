//! The length of the final trend (request 3/12 of document 02): the rows of 9, 13 and 23 terms from what they are made to do, the choice,
//! the series made for each length and for the bounds, a second working of D12, and rules that a clerk might take for the right one.

mod stored;

use separate::decompose::{decompose_fitting, Tables};
use separate::exact::{distance, exact_working};
use separate::fraction::Fraction;
use separate::generators::{cases, place_by_bounds, series_at_the_bounds, trend_lengths};
use separate::noise::Noise;
use separate::pass::{henderson, seasonal, Placed};
use separate::rows::{
    henderson_at, henderson_by_formula, henderson_rows, in_millionths, musgrave, musgrave_exact, musgrave_ratio, LENGTHS, MILLION,
};
use std::cmp::Ordering;
use std::collections::{BTreeMap, BTreeSet};

fn sum<'a>(terms: impl IntoIterator<Item = &'a Fraction>) -> Fraction {
    terms.into_iter().fold(Fraction::whole(0), |sum, term| sum.plus(term))
}

/// The sum of the weights times their places to a power, the first place being given.
fn moment(row: &[Fraction], first: i128, power: u32) -> Fraction {
    let scaled: Vec<Fraction> = row.iter().enumerate().map(|(i, w)| w.times(&Fraction::whole((first + i as i128).pow(power)))).collect();
    sum(&scaled)
}

fn differences(list: &[Fraction]) -> Vec<Fraction> {
    list.windows(2).map(|pair| pair[1].less(&pair[0])).collect()
}

// The rows.

/// 003 asks for the least sum of squared third differences among the weights that sum to one and have no first and no second moment. For
/// these the sixth differences, the weights going on as zeros, lie on a parabola: the third differences of them are zero.
#[test]
fn the_middle_rows_are_the_smoothest() {
    for terms in LENGTHS {
        let side = (terms / 2) as i128;
        let weights = henderson_by_formula(terms);
        assert_eq!([0, 1, 2, 3].map(|power| moment(&weights, -side, power)), [1, 0, 0, 0].map(Fraction::whole), "{terms} terms");
        let zeros = vec![Fraction::whole(0); 3];
        let mut list = [&zeros[..], &weights, &zeros].concat();
        for _ in 0..6 {
            list = differences(&list);
        }
        assert_eq!(list.len(), terms);
        for _ in 0..3 {
            list = differences(&list);
        }
        assert!(list.iter().all(Fraction::is_zero), "{terms} terms");
    }
}

/// 003 asks for the least expected square of the revision. With v the end weights and w the whole row that is the least, over the v that
/// sum to one, of D times the square of B and the squares of v less w, B being the first moment of v less that of w. There v less w, and D
/// times B times the place, make the same sum at every place.
#[test]
fn the_end_rows_revise_least() {
    for terms in LENGTHS {
        let (whole, d) = (henderson_by_formula(terms), musgrave_ratio(terms));
        for f in 0..terms / 2 {
            let row = musgrave_exact(terms, f);
            assert_eq!(sum(&row), Fraction::whole(1));
            let b = moment(&row, 1, 1).less(&moment(&whole, 1, 1));
            let made: Vec<Fraction> = (0..row.len())
                .map(|j| row[j].less(&whole[j]).plus(&d.times(&b).times(&Fraction::whole(j as i128 + 1))))
                .collect();
            assert!(made.iter().all(|one| one == &made[0]), "{terms} terms {f} after");
        }
    }
}

/// How far the weights in millionths lie from the exact ones, in millionths: below a half but for the present month. No exact weight lies
/// on a half millionth, so that the rule for halves decides nothing.
#[test]
fn rows_in_millionths_are_the_nearest() {
    let half = Fraction::new(1, 2);
    for terms in LENGTHS {
        let rows = henderson_rows(terms);
        let mut list: Vec<(Vec<Fraction>, &[i128])> = (0..terms / 2).map(|f| (musgrave_exact(terms, f), &rows.ends[f][..])).collect();
        if rows.divisor == MILLION {
            list.push((henderson_by_formula(terms), &rows.middle));
        }
        let mut remainders = Vec::new();
        for (exact, stored) in list {
            assert_eq!((exact.len(), stored.iter().sum::<i128>()), (stored.len(), MILLION));
            for (place, (weight, &millionths)) in exact.iter().zip(stored).enumerate() {
                let off = Fraction::whole(millionths).less(&weight.times(&Fraction::whole(MILLION)));
                if place == terms / 2 {
                    remainders.push(off.roughly());
                } else {
                    assert_eq!(off.size().compare(&half), Ordering::Less, "{terms} terms, {} weights, place {place}", exact.len());
                }
            }
        }
        println!("{terms} terms: the present month lies off by {remainders:.3?} millionths");
        // Else nobody could say whether it takes the remainder.
        assert!(remainders.iter().any(|off| off.abs() > 0.5), "{terms} terms");
    }
}

/// 9 and 13 terms as the papers give them; 23 terms as the fractions of 000 in millionths, the centre being what is left.
#[test]
fn the_middle_rows_of_the_papers() {
    let outwards = |terms: usize| henderson_rows(terms).middle[terms / 2..].to_vec();
    assert_eq!((outwards(9), henderson_rows(9).divisor), (vec![805, 648, 288, -24, -99], 2_431));
    assert_eq!((outwards(13), henderson_rows(13).divisor), (vec![4032, 3600, 2475, 1100, 0, -468, -325], 16_796));
    let fractions = [557_700, 491_700, 392_700, 275_400, 156_978, 54_150, -19_950, -58_575, -63_250, -44_022, -17_250i128];
    let nearest = |upper: i128| Fraction::new(upper * MILLION, 4_032_015).nearest_away().to_i128().expect("a small number");
    let others: Vec<i128> = fractions.into_iter().map(nearest).collect();
    let centre = MILLION - 2 * others.iter().sum::<i128>();
    assert_eq!((outwards(23), henderson_rows(23).divisor), ([vec![centre], others].concat(), MILLION));
}

#[test]
fn rows_are_symmetric_and_mirrored() {
    for terms in LENGTHS {
        let n = 72;
        let turned = |row: &[i128]| row.iter().rev().copied().collect::<Vec<i128>>();
        let rows = henderson_rows(terms);
        assert_eq!(turned(&rows.middle), rows.middle);
        for t in 0..n {
            let (early, late) = (henderson_at(terms, t, n), henderson_at(terms, n - 1 - t, n));
            assert_eq!((early.weights.iter().sum::<i128>(), late.divisor), (early.divisor, early.divisor));
            assert_eq!(turned(&early.weights), late.weights);
        }
        for (f, row) in rows.ends.iter().enumerate() {
            assert_eq!(&henderson_at(terms, n - 1 - f, n).weights, row);
            assert_eq!(henderson_at(terms, f, n).weights, turned(row));
        }
    }
}

/// The greatest sum of the sizes of a row's weights, in millionths rounded up.
#[test]
fn sums_of_sizes() {
    for (terms, greatest) in [(9, 1_378_742), (13, 1_299_902), (23, 1_435_530)] {
        let rows = henderson_rows(terms);
        let sizes = |row: &[i128]| row.iter().map(|w| w.abs()).sum::<i128>();
        let middle = (sizes(&rows.middle) * MILLION + rows.divisor - 1) / rows.divisor;
        let ends = rows.ends.iter().map(|row| sizes(row)).max().expect("end rows");
        println!("{terms} terms: sums of sizes {middle} in the middle, {ends} at the ends");
        assert_eq!(middle.max(ends), greatest, "{terms} terms");
    }
}

// The choice.

#[test]
fn the_choice_by_hand() {
    for (i, c, terms) in [(0, 0, 13), (0, 5, 9), (5, 0, 23), (4, 5, 9), (5, 5, 13), (6, 5, 13), (17, 5, 13), (18, 5, 23)] {
        assert_eq!(Noise { i, c }.terms(), terms, "{i} and {c}");
    }
    assert_eq!([34, 35, 36].map(|i| Noise { i, c: 10 }.terms()), [13, 23, 23]);
    // 72 months, changes of 3 in C13 and of 1 in C7 at t 5 to 66; t 7 to 65 count, 59 of each.
    let zigzag = |high: i64| (0..72).map(|t| if (5..=66).contains(&t) && t % 2 == 1 { high } else { 0 }).collect::<Vec<i64>>();
    assert_eq!(Noise::of(&zigzag(3), &zigzag(-1)), Noise { i: 177, c: 59 });
    // The greatest sums that the tables can have are far from the limits of the numbers.
    let wide = Noise::of(&(0..600).map(|t| if t % 2 == 0 { 1 << 40 } else { -(1 << 40) }).collect::<Vec<i64>>(), &[0; 600]);
    assert_eq!((wide.i, wide.terms()), (587 << 41, 23));
}

fn worked(case: &separate::generators::Case) -> Tables {
    decompose_fitting(&case.figures, case.start).expect("an allowed series")
}

#[test]
fn series_choose_the_length_they_are_made_for() {
    let mut starts = BTreeMap::new();
    let mut heights = BTreeMap::new();
    for (case, terms) in trend_lengths() {
        let tables = worked(&case);
        assert_eq!(tables.trend_terms, terms, "{} {:?}", case.name, tables.noise);
        if case.name.starts_with("years_repeated") {
            assert_eq!(tables.noise, Noise { i: 0, c: 0 }, "{}", case.name);
        }
        starts.entry(terms).or_insert_with(BTreeSet::new).insert((case.figures.len(), case.start));
        heights.entry(terms).or_insert_with(BTreeSet::new).extend(case.figures);
    }
    for terms in LENGTHS {
        assert!(starts[&terms].len() >= 9, "{terms} terms");
    }
    // The shortest series and the longest, and figures to both limits.
    assert!(starts[&9].iter().any(|(n, _)| *n == 72) && starts[&9].iter().any(|(n, _)| *n == 600));
    assert_eq!((heights[&9].first(), heights[&9].last()), (Some(&-200_000), Some(&200_000)));
    assert!(heights[&23].first() < Some(&-199_000) && heights[&23].last() > Some(&199_000));
    let mut chosen = BTreeMap::new();
    for case in cases() {
        *chosen.entry(worked(&case).trend_terms).or_insert(0) += 1;
    }
    println!("series by the terms they choose: {chosen:?}");
    assert!(LENGTHS.iter().all(|terms| chosen[terms] > 120));
}

/// The series found by `separate bounds` try what they were found for.
#[test]
fn series_at_the_bounds_are_there() {
    let list = series_at_the_bounds();
    for (case, what) in &list {
        let tables = worked(case);
        assert!(place_by_bounds(&tables).contains(&what.to_string()), "{} {what} {:?}", case.name, tables.noise);
    }
    let met: BTreeSet<&str> = list.iter().map(|(_, what)| *what).collect();
    let bounds = ["I=C-1", "I=C", "I=C+1", "2I=7C-1", "2I=7C", "2I=7C+1", "C=0"].map(str::to_string);
    let turned = ["9not13", "13not9", "13not23", "23not13"];
    let outside = ["from5", "to-6"].into_iter().flat_map(|months| turned.map(|lengths| format!("{months}:{lengths}")));
    let all: BTreeSet<String> = bounds.into_iter().chain(outside).collect();
    assert_eq!(met, all.iter().map(String::as_str).collect());
}

// D12 once more.

/// The whole row by the form that the smoothest weights have, its two unknowns from the sum one and the second moment zero.
fn second_middle(terms: usize) -> Vec<Fraction> {
    let side = (terms / 2) as i128;
    let hump = |i: i128| (1..=3).map(|k| (side + k) * (side + k) - i * i).product::<i128>();
    // Sums of the hump times i to the power 0, 2 and 4; the weights are the hump times (a + b i²).
    let [m0, m2, m4] = [0, 2, 4].map(|power| (-side..=side).map(|i| hump(i) * i.pow(power)).sum::<i128>());
    let below = m0 * m4 - m2 * m2;
    (-side..=side).map(|i| Fraction::new(hump(i), 1).times(&Fraction::new(m4 - m2 * i * i, below))).collect()
}

/// The end weights: a level and a slope are added to the whole row. The slope must be taken back by D times the first moment that it makes,
/// and what is left of it grows evenly with the slope.
fn second_end(whole: &[Fraction], d: &Fraction, many: usize) -> Vec<Fraction> {
    let level = sum(&whole[many..]).over(&Fraction::whole(many as i128));
    let with = |slope: &Fraction| -> Vec<Fraction> {
        let from_middle = |j: usize| Fraction::new(2 * j as i128 - many as i128 + 1, 2);
        (0..many).map(|j| whole[j].plus(&level).plus(&slope.times(&from_middle(j)))).collect()
    };
    let left = |slope: &Fraction| slope.plus(&d.times(&moment(&with(slope), 0, 1).less(&moment(whole, 0, 1))));
    let (none, one) = (left(&Fraction::whole(0)), left(&Fraction::whole(1)));
    with(&none.over(&none.less(&one)))
}

/// The rows of a length once more: whole numbers over a divisor, middle row first, then with ever fewer values to follow.
fn second_rows(terms: usize) -> Vec<(Vec<i128>, i128)> {
    let (whole, d) = (second_middle(terms), Fraction::new([12_732, 1_039, 629][LENGTHS.iter().position(|&l| l == terms).unwrap()], 10_000));
    let millionths = |exact: &[Fraction]| -> Vec<i128> {
        let rounded = |weight: &Fraction| {
            let twice = weight.size().times(&Fraction::whole(2 * MILLION)).plus(&Fraction::whole(1));
            let (size, _) = twice.upper().quotient_of_sizes(&twice.lower().plus(twice.lower()));
            size.to_i128().unwrap() * if weight.upper().is_negative() { -1 } else { 1 }
        };
        let mut row: Vec<i128> = exact.iter().map(rounded).collect();
        row[terms / 2] += MILLION - row.iter().sum::<i128>();
        row
    };
    let middle = match terms {
        9 => (vec![-99, -24, 288, 648, 805, 648, 288, -24, -99], 2_431),
        13 => (vec![-325, -468, 0, 1100, 2475, 3600, 4032, 3600, 2475, 1100, 0, -468, -325], 16_796),
        _ => (millionths(&whole), MILLION),
    };
    let ends = (terms / 2 + 1..terms).rev().map(|many| (millionths(&second_end(&whole, &d, many)), MILLION));
    [middle].into_iter().chain(ends).collect()
}

/// The grain nearest to a fraction, the even one of two that are as near.
fn grain(upper: i128, lower: i128) -> i64 {
    let about = upper / lower;
    let found = (about - 1..=about + 1).min_by_key(|&grain| ((upper - lower * grain).abs(), grain.rem_euclid(2))).expect("three grains");
    i64::try_from(found).expect("a grain")
}

/// Each month's value is brought to all months whose rows reach it; the beginning is the end of the series turned round.
fn second_trend(series: &[i64], rows: &[(Vec<i128>, i128)]) -> Vec<i64> {
    let (n, side) = (series.len(), rows.len() - 1);
    let mut sums = vec![0i128; n];
    for (s, &value) in series.iter().enumerate() {
        for t in s.saturating_sub(side).max(side)..=(s + side).min(n - 1 - side) {
            sums[t] += i128::from(value) * rows[0].0[side + s - t];
        }
    }
    let mut trend: Vec<i64> = sums.into_iter().map(|sum| grain(sum, rows[0].1)).collect();
    let turned: Vec<i64> = series.iter().rev().copied().collect();
    for (missing, (row, divisor)) in rows.iter().enumerate().skip(1) {
        let last = |list: &[i64]| row.iter().rev().zip(list.iter().rev()).map(|(w, v)| w * i128::from(*v)).sum::<i128>();
        trend[n - 1 - side + missing] = grain(last(series), *divisor);
        trend[side - missing] = grain(last(&turned), *divisor);
    }
    trend
}

/// The sum of the sizes of changes: twice the rises, less what the whole has risen.
fn second_sum(table: &[i64]) -> i64 {
    let rises: i64 = table.windows(2).map(|pair| (pair[1] - pair[0]).max(0)).sum();
    2 * rises - (table[table.len() - 1] - table[0])
}

fn second_length(i: i64, c: i64) -> usize {
    if c == 0 {
        return if i == 0 { 13 } else { 23 };
    }
    let ratio = Fraction::new(i.into(), c.into());
    [(Fraction::whole(1), 9), (Fraction::new(7, 2), 13)]
        .into_iter()
        .find(|(bound, _)| ratio.compare(bound) == Ordering::Less)
        .map_or(23, |(_, terms)| terms)
}

fn less(a: &[i64], b: &[i64]) -> Vec<i64> {
    a.iter().zip(b).map(|(x, y)| x - y).collect()
}

#[test]
fn a_second_working_of_the_final_trend() {
    let rows: BTreeMap<usize, Vec<(Vec<i128>, i128)>> = LENGTHS.into_iter().map(|terms| (terms, second_rows(terms))).collect();
    for terms in LENGTHS {
        let ours = henderson_rows(terms);
        let stored = [(ours.middle.clone(), ours.divisor)].into_iter().chain(ours.ends.iter().rev().map(|row| (row.clone(), MILLION)));
        assert_eq!(rows[&terms], stored.collect::<Vec<_>>(), "{terms} terms");
        assert_eq!(second_middle(terms), henderson_by_formula(terms));
    }
    for case in cases() {
        let tables = worked(&case);
        let inner = 6..=case.figures.len() - 7;
        let c7 = &tables.c.t2.values;
        let c13 = less(&less(&tables.b1, &tables.c.s2.values), c7);
        let (i, c) = (second_sum(&c13[inner.clone()]), second_sum(&c7[inner]));
        assert_eq!((tables.noise.i, tables.noise.c), (i as u64, c as u64), "{}", case.name);
        let terms = second_length(i, c);
        assert_eq!(tables.trend_terms, terms, "{}", case.name);
        assert_eq!(tables.d12, second_trend(&less(&tables.d1, &tables.d10), &rows[&terms]), "{}", case.name);
        for steps in [&tables.b, &tables.c, &tables.d] {
            assert_eq!(steps.t2.values, second_trend(&steps.a1.values, &rows[&13]), "{}", case.name);
        }
        assert_eq!(tables.d13, less(&tables.d11, &tables.d12));
    }
}

/// Every rule is the same above zero and below, so that a series with every sign turned has every table turned, and its length.
#[test]
fn with_every_sign_turned() {
    for case in cases().into_iter().step_by(5) {
        let (tables, turned) = (worked(&case), case.figures.iter().map(|figure| -figure).collect::<Vec<i32>>());
        let turned = decompose_fitting(&turned, case.start).expect("an allowed series");
        assert_eq!((turned.noise, turned.trend_terms), (tables.noise, tables.trend_terms), "{}", case.name);
        let times = |table: &[i64], sign: i64| table.iter().map(|grains| sign * grains).collect::<Vec<i64>>();
        let four = |t: &Tables, sign: i64| [&t.d10, &t.d11, &t.d12, &t.d13].map(|table| times(table, sign));
        assert_eq!(four(&turned, 1), four(&tables, -1), "{}", case.name);
    }
}

// Other rules.

/// D10 and D12; the other two of the four tables follow from them.
type Parts = (Vec<i64>, Vec<i64>);

type Rule = Box<dyn Fn(&Tables) -> Parts>;

/// The right rows with another length.
fn with_length(tables: &Tables, terms: usize) -> Parts {
    if terms == tables.trend_terms {
        return (tables.d10.clone(), tables.d12.clone());
    }
    (tables.d10.clone(), henderson(&less(&tables.d1, &tables.d10), terms).rounded().values)
}

/// The length by some other choice.
fn choice(terms: impl Fn(&Tables) -> usize + 'static) -> Rule {
    Box::new(move |tables| with_length(tables, terms(tables)))
}

/// The changes of the months first to n less so many.
fn months(first: usize, before_the_end: usize) -> Rule {
    choice(move |t| Noise::between(&t.c13, &t.c7, first, t.b1.len() - before_the_end).terms())
}

/// The bounds with comparisons of one's own.
fn bounds(nine: fn(u64, u64) -> bool, thirteen: fn(u64, u64) -> bool) -> Rule {
    choice(move |t| match (t.noise.i, t.noise.c) {
        (0, 0) => 13,
        (i, c) if nine(i, c) => 9,
        (i, c) if thirteen(2 * i, 7 * c) => 13,
        _ => 23,
    })
}

/// The sums of pass D: its T2, and the irregular that a final trend of 13 terms leaves.
fn sums_of_pass_d(tables: &Tables) -> usize {
    let (_, trend) = with_length(tables, 13);
    Noise::of(&less(&tables.d11, &trend), &tables.d.t2.values).terms()
}

/// T2 of pass D with the length chosen as well.
fn second_trend_of_d_chosen_too(tables: &Tables) -> Parts {
    let t2 = henderson(&tables.d.a1.values, tables.trend_terms).rounded();
    let si2 = Placed::whole_series(tables.d1.clone()).less(&t2);
    let d10 = seasonal(&si2, tables.seasonal_filter).s.values;
    let d12 = henderson(&less(&tables.d1, &d10), tables.trend_terms).rounded().values;
    (d10, d12)
}

/// Other rows for one length: a middle row over its divisor, and the end rows by the values that follow.
fn rows(terms: usize, middle: (Vec<i128>, i128), end: impl Fn(usize) -> Vec<i128>) -> Rule {
    let ends = (0..terms / 2).rev().map(|f| (end(f), MILLION));
    let rows: Vec<(Vec<i128>, i128)> = [middle].into_iter().chain(ends).collect();
    Box::new(move |t| {
        if t.trend_terms != terms {
            return (t.d10.clone(), t.d12.clone());
        }
        (t.d10.clone(), second_trend(&less(&t.d1, &t.d10), &rows))
    })
}

/// Other end rows.
fn ends(terms: usize, end: impl Fn(usize) -> Vec<i128>) -> Rule {
    rows(terms, (henderson_rows(terms).middle.clone(), henderson_rows(terms).divisor), end)
}

/// End rows with another ratio D.
fn ratio(terms: usize, d: Fraction) -> Rule {
    ends(terms, |f| in_millionths(&musgrave(&henderson_by_formula(terms), &d, f), terms / 2))
}

fn ends_of_23_from_its_millionths() -> Rule {
    let whole: Vec<Fraction> = henderson_rows(23).middle.iter().map(|&weight| Fraction::new(weight, MILLION)).collect();
    ends(23, |f| in_millionths(&musgrave(&whole, &musgrave_ratio(23), f), 11))
}

/// The present month of the end rows rounded as the other months are.
fn no_remainder(terms: usize) -> Rule {
    let nearest = |weight: &Fraction| weight.times(&Fraction::whole(MILLION)).nearest_away().to_i128().expect("a small number");
    ends(terms, |f| musgrave_exact(terms, f).iter().map(nearest).collect())
}

/// The middle row of 23 terms as its exact fractions.
fn middle_of_23_in_fractions() -> Rule {
    let over = |weight: &Fraction| weight.times(&Fraction::whole(4_032_015)).upper().to_i128().expect("a small number");
    rows(23, (henderson_by_formula(23).iter().map(over).collect(), 4_032_015), |f| henderson_rows(23).ends[f].clone())
}

/// The middle row of 9 terms in millionths, as that of 23.
fn middle_of_9_in_millionths() -> Rule {
    rows(9, (in_millionths(&henderson_by_formula(9), 4), MILLION), |f| henderson_rows(9).ends[f].clone())
}

fn other_rules() -> Vec<(&'static str, Rule)> {
    vec![
        ("13 terms always", choice(|_| 13)),
        ("9 terms always", choice(|_| 9)),
        ("23 terms always", choice(|_| 23)),
        ("the short filter for the rough series", choice(|t| if t.trend_terms == 13 { 13 } else { 32 - t.trend_terms })),
        ("I equal to C takes 9", bounds(|i, c| i <= c, |i, c| i < c)),
        ("3.5 takes 13", bounds(|i, c| i < c, |i, c| i <= c)),
        ("C zero takes 13", choice(|t| if t.noise.c == 0 { 13 } else { t.trend_terms })),
        ("changes from t 5 on", months(5, 7)),
        ("changes to n-6", months(6, 6)),
        ("changes from t 7 on", months(7, 7)),
        ("changes to n-8", months(6, 8)),
        ("changes of all months", months(0, 1)),
        ("sums of pass B", choice(|t| Noise::of(&t.b13, &t.b7).terms())),
        ("sums of pass D", choice(sums_of_pass_d)),
        ("the irregular of C1, not of B1", choice(|t| Noise::of(&less(&less(&t.c1, &t.c10), &t.c7), &t.c7).terms())),
        ("T2 of pass D chosen too", Box::new(second_trend_of_d_chosen_too)),
        ("ends of 23 from its millionths", ends_of_23_from_its_millionths()),
        ("the middle of 23 in fractions", middle_of_23_in_fractions()),
        ("the middle of 9 in millionths", middle_of_9_in_millionths()),
        ("ends of 9 with the ratio of 13", ratio(9, musgrave_ratio(13))),
        ("ends of 23 with the ratio of 13", ratio(23, musgrave_ratio(13))),
        ("ends of 9 with 4/π to six places", ratio(9, Fraction::new(1_273_240, 1_000_000))),
        ("ends of 23 with 4/(π·4.5²) to six places", ratio(23, Fraction::new(62_876, 1_000_000))),
        ("ends of 9 without a remainder", no_remainder(9)),
        ("ends of 13 without a remainder", no_remainder(13)),
        ("ends of 23 without a remainder", no_remainder(23)),
    ]
}

/// Each of these rules gives some made-up series other tables. (That both sums zero take 13 is not among them: in every such series found
/// the trend is one figure, whatever its length.)
#[test]
fn other_rules_give_other_tables() {
    let list: Vec<(String, Tables)> = cases().into_iter().map(|case| (case.name.clone(), worked(&case))).collect();
    for (name, rule) in other_rules() {
        let gets_others = |t: &Tables| {
            let (d10, d12) = rule(t);
            d10 != t.d10 || d12 != t.d12
        };
        let others: Vec<&str> = list.iter().filter(|(_, t)| gets_others(t)).map(|(case, _)| case.as_str()).collect();
        println!("{name}: {} series, first {:?}", others.len(), others.first());
        assert!(!others.is_empty(), "{name}");
    }
}

/// The stored cases of printing on a bound: the sums meet it exactly, and D12 would be another one if they chose otherwise there.
#[test]
fn stored_cases_show_what_holds_on_a_bound() {
    let rules: BTreeMap<&str, Rule> = other_rules().into_iter().collect();
    for (name, what, otherwise) in
        [("as_rough_as_the_trend", "I=C", "I equal to C takes 9"), ("three_and_a_half_times", "2I=7C", "3.5 takes 13")]
    {
        let tables = worked(&stored::series(name));
        assert!(place_by_bounds(&tables).contains(&what.to_string()), "{name} {what} {:?}", tables.noise);
        let (_, d12) = rules[otherwise](&tables);
        assert_ne!(d12, tables.d12, "{name}, where {otherwise}");
    }
}

/// An exact working that takes 13 terms for all lies beyond the limits.
#[test]
fn the_exact_working_takes_the_length_chosen() {
    let mut beyond = BTreeMap::new();
    for (case, terms) in trend_lengths().into_iter().filter(|(case, terms)| *terms != 13 && case.figures.len() < 120) {
        let tables = worked(&case);
        let e12 = exact_working(&tables.b1, &tables.d1, tables.seasonal_filter, 13).e12;
        *beyond.entry(terms).or_insert(0) += usize::from(!distance(&tables.d12, &e12).is_within(15));
    }
    println!("series beyond 15 grains of a trend of 13 terms, by their own: {beyond:?}");
    assert!(beyond[&9] > 10 && beyond[&23] > 10);
}
