//! Extreme values of SI1 and SI2 in pass B: neighbours and means worked by hand, then every made-up series worked in a second way, with
//! places counted by twelves and years by division instead of labels.

mod groups;

use groups::weights_by_division;
use separate::calendar::labels;
use separate::decompose::{decompose_fitting, Tables};
use separate::extremes::{neighbours, replaced_run, replacement, Extremes, RunValue};
use separate::generators::{cases, extremes_from_every_start, flooded_januaries, months_far_off, smooth, Case, FLOOD, PLAIN_SEASONAL};
use separate::pass::{ends_repeated, henderson, over_runs, pass, pass_with, two_by_twelve, Placed};
use separate::rounding::nearest_even;
use separate::rows::{SeasonalFilter, ThreeByFive, ThreeByNine, ThreeByThree};
use separate::seasonality::{chosen, questions};
use separate::spread::{correction, two_spreads, units, weight, weights};
use std::collections::BTreeSet;

/// A run of values with their weights, from year 0.
fn run_of(values: &[(i64, u16)]) -> Vec<RunValue> {
    values.iter().enumerate().map(|(year, &(value, weight))| RunValue { year, value, weight }).collect()
}

/// A run of zeros with such weights.
fn weighing(weights: &[u16]) -> Vec<RunValue> {
    run_of(&weights.iter().map(|&weight| (0, weight)).collect::<Vec<(i64, u16)>>())
}

/// The whole run, rounded.
fn replaced(values: &[(i64, u16)]) -> Vec<i64> {
    replaced_run(&run_of(values)).iter().map(|found| nearest_even(found.mean.0, found.mean.1)).collect()
}

#[test]
fn two_neighbours_on_each_side() {
    assert_eq!(neighbours(&weighing(&[1000, 1000, 1000, 1000, 0, 1000, 1000, 1000, 1000]), 4), vec![2, 3, 5, 6]);
    // The nearest of full weight, however far; 999 is below full weight.
    assert_eq!(neighbours(&weighing(&[1000, 1000, 999, 1000, 0, 0, 1000, 999, 1000]), 4), vec![1, 3, 6, 8]);
    assert_eq!(neighbours(&weighing(&[1000, 1000, 500, 1000, 1000]), 2), vec![0, 1, 3, 4]);
}

#[test]
fn three_neighbours_where_a_side_has_fewer_than_two() {
    // At the start of a run, and one year later.
    assert_eq!(neighbours(&weighing(&[0, 1000, 1000, 1000, 1000, 1000]), 0), vec![1, 2, 3]);
    assert_eq!(neighbours(&weighing(&[1000, 0, 1000, 1000, 1000, 1000]), 1), vec![0, 2, 3]);
    assert_eq!(neighbours(&weighing(&[999, 0, 999, 1000, 1000, 0, 1000, 1000]), 1), vec![3, 4, 6]);
    // At the end of a run, and one year earlier.
    assert_eq!(neighbours(&weighing(&[1000, 1000, 1000, 1000, 1000, 0]), 5), vec![2, 3, 4]);
    assert_eq!(neighbours(&weighing(&[1000, 1000, 1000, 1000, 0, 1000]), 4), vec![2, 3, 5]);
    // The one earlier value is too far off to be among the three.
    assert_eq!(neighbours(&weighing(&[1000, 0, 0, 0, 0, 1000, 1000, 1000]), 4), vec![5, 6, 7]);
    // Three in all, not three on each side: the earlier side has one, at two years.
    assert_eq!(neighbours(&weighing(&[1000, 0, 0, 1000, 1000, 1000, 1000]), 2), vec![0, 3, 4]);
}

#[test]
fn a_tie_goes_to_the_earlier() {
    // Years 0 and 6 are both three years off; one place is left.
    assert_eq!(neighbours(&weighing(&[1000, 0, 0, 0, 1000, 1000, 1000]), 3), vec![0, 4, 5]);
    assert_eq!(neighbours(&weighing(&[1000, 1000, 1000, 0, 0, 0, 1000]), 3), vec![0, 1, 2]);
    // 10, 0 and 0 over three; with the later of the two it would be 50 over three.
    assert_eq!(replaced(&[(10, 1000), (7, 0), (7, 0), (7, 0), (0, 1000), (0, 1000), (50, 1000)])[3], 3);
}

#[test]
fn fewer_than_three_neighbours_or_none() {
    assert_eq!(neighbours(&weighing(&[0, 0, 1000, 0, 1000]), 3), vec![2, 4]);
    assert_eq!(neighbours(&weighing(&[0, 0, 0, 0, 1000]), 0), vec![4]);
    assert_eq!(neighbours(&weighing(&[999, 0, 0, 500, 999]), 2), Vec::<usize>::new());
    // (500 x 9 + 1,000 x 30) over 1,500 is 23; (0 x 9 + 1,000 x 30) over 1,000 is 30.
    assert_eq!(replaced(&[(9, 500), (30, 1000)]), vec![23, 30]);
    assert_eq!(replaced(&[(9, 0), (30, 1000)]), vec![30, 30]);
    // Without neighbours every value stays, whatever its weight.
    assert_eq!(replaced(&[(9, 0), (-30, 999), (5, 1), (77, 0), (0, 400)]), vec![9, -30, 5, 77, 0]);
}

#[test]
fn the_mean_takes_the_value_at_its_weight() {
    // (500 x 900 + 1,000 x (10 + 20 + 30 + 40)) over 4,500: 550,000 over 4,500 is 122.2.
    let run = [(10, 1000), (20, 1000), (900, 500), (30, 1000), (40, 1000)];
    assert_eq!(replacement(&run_of(&run), 2).mean, (550_000, 4_500));
    assert_eq!(replaced(&run), vec![10, 20, 122, 30, 40]);
    // At weight 0 it counts nothing: 100,000 over 4,000 is 25. At 1 it does: 9,100,000 over 4,001 is 2,274.4.
    assert_eq!(replaced(&[(10, 1000), (20, 1000), (900, 0), (30, 1000), (40, 1000)])[2], 25);
    assert_eq!(replaced(&[(10, 1000), (20, 1000), (9_000_000, 1), (30, 1000), (40, 1000)])[2], 2_274);
    // Three neighbours: (999 x 7 + 1,000 x (1 + 2 + 4)) over 3,999 is 3.5 and a little: 13,993 over 3,999.
    assert_eq!(replacement(&run_of(&[(7, 999), (1, 1000), (2, 1000), (4, 1000)]), 0).mean, (13_993, 3_999));
}

#[test]
fn the_mean_is_rounded_once_a_half_to_the_even_grain() {
    assert_eq!(replaced(&[(0, 1000), (1, 1000), (90, 0), (1, 1000), (0, 1000)])[2], 0);
    assert_eq!(replaced(&[(0, 1000), (-1, 1000), (90, 0), (-1, 1000), (0, 1000)])[2], 0);
    assert_eq!(replaced(&[(0, 1000), (1, 1000), (90, 0), (0, 1000), (0, 1000)])[2], 0);
    assert_eq!(replaced(&[(1, 1000), (1, 1000), (90, 0), (2, 1000), (2, 1000)])[2], 2);
    assert_eq!(replaced(&[(3, 1000), (3, 1000), (90, 0), (2, 1000), (2, 1000)])[2], 2);
    assert_eq!(replaced(&[(-1, 1000), (-1, 1000), (90, 0), (-2, 1000), (-2, 1000)])[2], -2);
    assert_eq!(replaced(&[(-3, 1000), (-3, 1000), (90, 0), (-2, 1000), (-2, 1000)])[2], -2);
    // The value at 200 with three neighbours of 0: 1,600 over 3,200, then 4,800 and 8,000.
    for (value, mean) in [(8, 0), (24, 2), (40, 2), (-8, 0), (-24, -2), (-40, -2)] {
        assert_eq!(replaced(&[(value, 200), (0, 1000), (0, 1000), (0, 1000)])[0], mean);
    }
    // (500 x 1 + 1,000 x 1) over 2,500 with one neighbour 1 and one 0: 0.6.
    assert_eq!(replaced(&[(1, 1000), (1, 500), (0, 1000)])[1], 1);
}

/// Two extremes side by side: neither is the other's neighbour, before or after it is replaced.
#[test]
fn neighbours_are_values_as_they_were() {
    let run = [(100, 1000), (100, 1000), (9_000, 0), (-9_000, 0), (500, 1000), (500, 1000), (900, 1000), (100, 500)];
    // Years 2 and 3 both take 100, 100, 500 and 500. Year 7 has none later: 500, 500 and 900 with 100 at a half over 3.5 is 557.1.
    assert_eq!(replaced(&run), vec![100, 100, 300, 300, 500, 500, 900, 557]);
    // The first two are extreme: both take the years 2, 3 and 4, not one the other.
    assert_eq!(replaced(&[(8, 0), (9, 0), (60, 1000), (90, 1000), (30, 1000), (1, 1000)]), vec![60, 60, 60, 90, 30, 1]);
}

/// One month of 24,000 units and nothing else, twelve years from January; SI1 there is 22,000 units, in the other Januaries 0. Those three
/// years and more away are of full weight and give 0, so nothing of the spike is left in the Januaries of B4g.
#[test]
fn one_spike_on_nothing() {
    let mut figures = vec![0; 144];
    figures[72] = 24_000;
    let tables = decompose_fitting(&figures, 1).unwrap();
    assert_eq!(tables.b.si1.at(72), 22_000_000);
    assert_eq!(tables.b4.weight_at(72), 0);
    assert_eq!(tables.b4.neighbours[72 - 6], vec![24, 36, 108, 120]);
    for t in (12..144).step_by(12) {
        assert_eq!(tables.b4.replaced.at(t), 0, "month {t}");
    }
    // The months beside it keep the 2,000 units that the first trend took off them.
    for t in [67, 71, 73, 77] {
        assert_eq!((tables.b4.weight_at(t), tables.b4.replaced.at(t)), (1000, -2_000_000), "month {t}");
    }
}

/// From July, 72 months: SI1 has the months 6 to 65, five full calendar years, and all of them use one group of 60 months.
#[test]
fn five_years_of_si1_share_one_group() {
    let mut otherwise = 0;
    for case in cases().into_iter().filter(|case| case.start == 7 && case.figures.len() == 72) {
        let tables = decompose_fitting(&case.figures, 7).unwrap();
        let sizes: Vec<u64> = tables.b4.irregular.values.iter().map(|&grains| units(grains).unsigned_abs()).collect();
        assert_eq!(sizes.len(), 60);
        let (_, second) = two_spreads(&sizes);
        let expected: Vec<u16> = sizes.iter().map(|&size| weight(size, second)).collect();
        assert_eq!(tables.b4.weights, expected, "{}", case.name);
        // With the years of the whole series the groups would be of 48 months, or 60 in the middle.
        let mut whole = vec![0; 72];
        whole[6..66].copy_from_slice(&tables.b4.irregular.values);
        otherwise += usize::from(weights(&whole, &labels(7, 72))[6..66] != expected);
    }
    assert!(otherwise > 5);
}

/// How the neighbours of replaced values were found, counted over many series.
#[derive(Debug, Default)]
struct Found {
    two_on_each_side: usize,
    three: usize,
    ties: usize,
    fewer: usize,
    none: usize,
    parts: usize,
    changed: usize,
}

/// The neighbours of month t by walking away from it a year at a time.
fn walked(t: usize, first: usize, last: usize, full: impl Fn(usize) -> bool, found: &mut Found) -> Vec<usize> {
    let (mut earlier, mut later) = (Vec::new(), Vec::new());
    let mut nearest = Vec::new();
    let mut tie = false;
    for years in 1..=50 {
        let before = t.checked_sub(12 * years).filter(|&s| s >= first && full(s));
        let after = Some(t + 12 * years).filter(|&s| s <= last && full(s));
        tie = tie || (nearest.len() == 2 && before.is_some() && after.is_some());
        earlier.extend(before);
        later.extend(after);
        nearest.extend(before.into_iter().chain(after));
    }
    let mut months = if earlier.len() > 1 && later.len() > 1 {
        found.two_on_each_side += 1;
        vec![earlier[0], earlier[1], later[0], later[1]]
    } else {
        found.ties += usize::from(tie);
        match nearest.len() {
            0 => found.none += 1,
            1 | 2 => found.fewer += 1,
            _ => found.three += 1,
        }
        nearest.into_iter().take(3).collect()
    };
    months.sort();
    months
}

/// Whether a fraction is rounded to this grain: none lies nearer, and of two that lie as near it is the even one.
fn is_rounded_to(grain: i64, upper: i128, lower: i128) -> bool {
    let twice_off = 2 * (upper - lower * i128::from(grain)).abs();
    twice_off < lower || (twice_off == lower && grain % 2 == 0)
}

fn check_extremes(name: &str, si: &Placed, filter: SeasonalFilter, start: u8, ours: &Extremes, found: &mut Found) {
    let (first, last) = (si.first, si.last());
    let r = over_runs(si, filter).rounded();
    let m = ends_repeated(&two_by_twelve(&r).rounded(), first, last);
    let irregular = si.less(&r.less(&m));
    assert_eq!(ours.irregular, irregular, "{name}");
    let weights = weights_by_division(&irregular, start);
    assert_eq!(ours.weights, weights, "{name}");
    for t in first..=last {
        let own = weights[t - first];
        let mut months = Vec::new();
        if own < 1000 {
            months = walked(t, first, last, |s| weights[s - first] == 1000, found);
        }
        assert_eq!(ours.neighbours[t - first], months, "{name} month {t}");
        let replaced = ours.replaced.at(t);
        if months.is_empty() {
            assert_eq!(replaced, si.at(t), "{name} month {t}");
        } else {
            let neighbours: i128 = months.iter().map(|&s| i128::from(si.at(s))).sum();
            let sum = i128::from(own) * i128::from(si.at(t)) + 1000 * neighbours;
            assert!(is_rounded_to(replaced, sum, i128::from(own) + 1000 * months.len() as i128), "{name} month {t}");
            found.parts += usize::from(own > 0);
        }
        found.changed += usize::from(replaced != si.at(t));
    }
}

/// What pass B does with the replaced tables, and that C and D do nothing of the kind.
fn check_passes(name: &str, tables: &Tables) {
    let n = tables.b1.len();
    let less = |a: &[i64], b: &[i64]| -> Vec<i64> { a.iter().zip(b).map(|(x, y)| x - y).collect() };
    let b = &tables.b;
    assert_eq!(b.si1, pass(&tables.b1).si1, "{name}");
    assert_eq!(b.r1, over_runs(&tables.b4.replaced, ThreeByThree).rounded(), "{name}");
    assert_eq!(b.m1, ends_repeated(&two_by_twelve(&b.r1).rounded(), 6, n - 7), "{name}");
    for t in 0..n {
        let source = match t {
            0..6 => t + 12,
            _ if t > n - 7 => t - 12,
            _ => t,
        };
        assert_eq!(b.s1.at(t), b.r1.at(source) - b.m1.at(source), "{name} month {t}");
    }
    assert_eq!(b.t2, henderson(&less(&tables.b1, &b.s1.values), 13).rounded(), "{name}");
    assert_eq!(b.si2.values, less(&tables.b1, &b.t2.values), "{name}");
    assert_eq!(b.r2, over_runs(&tables.b9.replaced, ThreeByFive).rounded(), "{name}");
    assert_eq!(b.s2, b.r2.less(&ends_repeated(&two_by_twelve(&b.r2).rounded(), 0, n - 1)), "{name}");
    assert_eq!((&tables.b7, &tables.b10), (&b.t2.values, &b.s2.values), "{name}");
    assert_eq!(tables.b13, less(&less(&tables.b1, &tables.b10), &tables.b7), "{name}");
    assert_eq!(tables.c, pass(&tables.c1), "{name}");
    assert_eq!(tables.d, pass_with(&tables.d1, tables.seasonal_filter), "{name}");
    for t in 0..n {
        assert_eq!(tables.c1[t], tables.b1[t] - correction(tables.b13[t], tables.b17[t]), "{name} month {t}");
        assert_eq!(tables.d1[t], tables.b1[t] - correction(tables.c13[t], tables.c17[t]), "{name} month {t}");
    }
}

fn check(case: &Case, found: &mut Found) -> Tables {
    let tables = decompose_fitting(&case.figures, case.start).expect("an allowed series");
    check_extremes(&format!("{} B4", case.name), &tables.b.si1, ThreeByThree, case.start, &tables.b4, found);
    check_extremes(&format!("{} B9", case.name), &tables.b.si2, ThreeByFive, case.start, &tables.b9, found);
    check_passes(&case.name, &tables);
    tables
}

#[test]
fn every_made_up_series_in_a_second_way() {
    let mut found = Found::default();
    let mut halves = 0;
    for case in cases() {
        let tables = check(&case, &mut found);
        halves += tables.b4.halves + tables.b9.halves;
    }
    println!("{found:?}, means on a half: {halves}");
    for count in [found.two_on_each_side, found.three, found.ties, found.fewer, found.none, found.parts, halves] {
        assert!(count > 20, "{found:?} {halves}");
    }
    assert!(found.changed > 10_000);
}

/// Every start month with every short length and the longest two really has values replaced in SI1 and in SI2, in whole and in part.
#[test]
fn extremes_from_every_start_month() {
    let mut tried = BTreeSet::new();
    for case in extremes_from_every_start() {
        let tables = decompose_fitting(&case.figures, case.start).unwrap();
        for extremes in [&tables.b4, &tables.b9] {
            assert!(extremes.weights.iter().any(|&w| w == 0), "{}", case.name);
            assert!(extremes.weights.iter().any(|&w| w > 0 && w < 1000), "{}", case.name);
        }
        assert_ne!(tables.b4.replaced, tables.b.si1, "{}", case.name);
        assert_ne!(tables.b9.replaced, tables.b.si2, "{}", case.name);
        tried.insert((case.figures.len(), case.start));
    }
    for n in (72..=84).chain([599, 600]) {
        for start in 1..=12 {
            assert!(tried.contains(&(n, start)));
        }
    }
}

/// Runs in which no value is of full weight: all of their values stay.
#[test]
fn runs_without_a_value_of_full_weight() {
    let mut runs = [0, 0];
    for case in months_far_off() {
        let tables = decompose_fitting(&case.figures, case.start).unwrap();
        for (count, extremes, si) in [(0, &tables.b4, &tables.b.si1), (1, &tables.b9, &tables.b.si2)] {
            for first in si.first..si.first + 12 {
                let places: Vec<usize> = (first..=si.last()).step_by(12).collect();
                if places.iter().any(|&t| extremes.weight_at(t) == 1000) {
                    continue;
                }
                runs[count] += 1;
                for t in places {
                    assert_eq!(extremes.replaced.at(t), si.at(t), "{} month {t}", case.name);
                }
            }
        }
    }
    println!("runs without a value of full weight in SI1 and SI2: {runs:?}");
    assert!(runs[0] > 5 && runs[1] > 5);
}

/// Weights of zero at both ends of a run: the first takes three later values, the last three earlier ones.
#[test]
fn weights_of_zero_at_both_ends_of_a_run() {
    let mut ends = [0, 0];
    for (case, floods) in flooded_januaries() {
        let tables = decompose_fitting(&case.figures, case.start).unwrap();
        for (count, extremes, si) in [(0, &tables.b4, &tables.b.si1), (1, &tables.b9, &tables.b.si2)] {
            let places: Vec<usize> = (si.first..=si.last()).filter(|t| t % 12 == floods[0] % 12).collect();
            let (first, last) = (places[0], places[places.len() - 1]);
            let full: Vec<usize> = places.iter().copied().filter(|&t| extremes.weight_at(t) == 1000).collect();
            if extremes.weight_at(first) != 0 || extremes.weight_at(last) != 0 || full.len() < 3 {
                continue;
            }
            ends[count] += 1;
            let mean = |months: &[usize]| nearest_even(months.iter().map(|&t| i128::from(si.at(t))).sum(), 3);
            assert_eq!(extremes.neighbours[first - si.first], full[..3], "{}", case.name);
            assert_eq!(extremes.replaced.at(first), mean(&full[..3]), "{}", case.name);
            assert_eq!(extremes.neighbours[last - si.first], full[full.len() - 3..], "{}", case.name);
            assert_eq!(extremes.replaced.at(last), mean(&full[full.len() - 3..]), "{}", case.name);
        }
    }
    println!("runs with weights of zero at both ends in SI1 and SI2: {ends:?}");
    assert!(ends[0] > 1 && ends[1] > 1);
}

/// D1 without the replacing, and the seasonal filter of pass D: two plain passes.
fn corrected_without_replacing(figures: &[i32], start: u8) -> (Vec<i64>, SeasonalFilter) {
    let labels = labels(start, figures.len());
    let b1: Vec<i64> = figures.iter().map(|&figure| 1000 * i64::from(figure)).collect();
    let mut x = b1.clone();
    let mut filter = ThreeByFive;
    for _ in 0..2 {
        let steps = pass(&x);
        let irregular: Vec<i64> = (0..b1.len()).map(|t| b1[t] - steps.s2.at(t) - steps.t2.at(t)).collect();
        let weights = weights(&irregular, &labels);
        x = (0..b1.len()).map(|t| b1[t] - correction(irregular[t], weights[t])).collect();
        filter = chosen(&questions(&irregular, &steps.s2.values));
    }
    (x, filter)
}

/// A flooded January no longer colours the Januaries around it: twelve years from January, the seventh January 50,000 units below a smooth
/// series with a plain seasonal, in which January has -6,000 units. So it is with 3×5 held, and with the 3×9 that both workings choose: it
/// gives a January 3/27 of those within three years, 3×5 gives it 12/60 of those within one.
#[test]
fn a_flooded_january() {
    let (n, start, flood) = (144, 1, 72);
    let mut figures: Vec<i32> = smooth(start, n).iter().map(|&figure| figure as i32).collect();
    figures[flood] -= FLOOD as i32;
    let tables = decompose_fitting(&figures, start).unwrap();
    let (d1_before, filter_before) = corrected_without_replacing(&figures, start);
    assert_eq!((tables.seasonal_filter, filter_before), (ThreeByNine, ThreeByNine));
    let off = |seasonal: i64| (seasonal - 1000 * PLAIN_SEASONAL[0]).abs();
    for (filter, below, above) in [(ThreeByFive, 1_200_000, 4_600_000), (ThreeByNine, 800_000, 4_100_000)] {
        let (with, without) = (pass_with(&tables.d1, filter).s2, pass_with(&d1_before, filter).s2);
        for t in (48..=96).step_by(12) {
            println!("January {t}: S2 by {filter} {} with the replacing, {} without", with.at(t), without.at(t));
            assert!(off(with.at(t)) < below, "January {t}");
            assert!(off(without.at(t)) > above, "January {t}");
        }
    }
    // B4g has nothing of the flood left; SI1 had eleven twelfths of it.
    assert_eq!(off(tables.b.si1.at(flood)), FLOOD * 11_000 / 12);
    for t in (12..132).step_by(12) {
        assert_eq!(off(tables.b4.replaced.at(t)), 0, "January {t}");
    }
}

/// One flood anywhere: the seasonal of its January is nearer than it was without the replacing; less than a third as far off where the value
/// of the flood was replaced in SI2. In six years a flood in the middle leaves no January of full weight, and less is won.
#[test]
fn one_flood_in_every_part_of_the_series() {
    let mut replaced = 0;
    for (case, floods) in flooded_januaries().into_iter().filter(|(_, floods)| floods.len() == 1) {
        let flood = floods[0];
        let tables = decompose_fitting(&case.figures, case.start).unwrap();
        let off = |seasonal: i64| (seasonal - 1000 * PLAIN_SEASONAL[0]).abs();
        let with = off(tables.d10[flood]);
        let (d1, filter) = corrected_without_replacing(&case.figures, case.start);
        let without = off(pass_with(&d1, filter).s2.at(flood));
        assert!(with < without, "{}: {with} and {without}", case.name);
        if !tables.b9.neighbours[flood].is_empty() {
            replaced += 1;
            assert!(3 * with < without, "{}: {with} and {without}", case.name);
        }
    }
    assert!(replaced > 20);
}
