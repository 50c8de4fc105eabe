//! The made-up series: the parts add back, the four distances, those of the
//! passes and those of pass B keep their limits, and halves of a grain really
//! occur.

use separate::decompose::decompose_fitting;
use separate::exact::{distance, exact_pass, exact_pass_with, exact_working, FourDistances, PASS_B_LIMITS, PASS_LIMITS};
use separate::exact_b::{exact_pass_b, DistanceB, Held};
use separate::fraction::Fraction;
use separate::generators::{
    cases, grain_cases, halves_of_the_final_trend, henderson_halves, small_random, smaller_random, Case,
    SEEDS_WITH_HALVES_AT_THE_ENDS, SEEDS_WITH_HALVES_IN_THE_MIDDLE, SEEDS_WITH_MANY_HALVES,
};
use separate::pass::pass_with;
use separate::rows::{SeasonalFilter, ThreeByFive, ThreeByNine, ThreeByThree, LENGTHS, SEASONAL_FILTERS};
use std::collections::{BTreeMap, BTreeSet};

#[test]
fn every_case_adds_back_and_keeps_its_distance() {
    let mut greatest: BTreeMap<usize, [f64; 4]> = BTreeMap::new();
    let mut greatest_by_filter: BTreeMap<SeasonalFilter, [f64; 4]> = BTreeMap::new();
    let mut partly = 0;
    for case in cases() {
        let tables = decompose_fitting(&case.figures, case.start).expect("an allowed series");
        let n = case.figures.len();
        for t in 0..n {
            assert_eq!(tables.d10[t] + tables.d12[t] + tables.d13[t], tables.b1[t], "{} month {t}", case.name);
            assert_eq!(tables.d10[t] + tables.d11[t], tables.b1[t]);
            assert!(tables.b17[t] <= 1000 && tables.c17[t] <= 1000);
            if tables.c17[t] > 0 && tables.c17[t] < 1000 {
                partly += 1;
            }
        }
        let exact = exact_working(&tables.b1, &tables.d1, tables.seasonal_filter, tables.trend_terms);
        let four = FourDistances::measure(&tables.d10, &tables.d11, &tables.d12, &tables.d13, &exact);
        assert!(four.are_within_limits(), "{}", case.name);
        let (filter, terms) = (tables.seasonal_filter, tables.trend_terms);
        for so_far in [greatest.entry(terms).or_default(), greatest_by_filter.entry(filter).or_default()] {
            for (best, (_, d, _)) in so_far.iter_mut().zip(four.with_limits()) {
                *best = best.max(d.greatest.roughly());
            }
        }
    }
    println!("greatest distances of D10 to D13 by the terms of the trend: {greatest:?}");
    println!("and by the seasonal filter: {greatest_by_filter:?}");
    // A trend within 1 grain is a wrong bound (tables/must-fail/trend-within-1).
    assert!(LENGTHS.iter().all(|terms| greatest[terms][2] > 1.0));
    assert!(SEASONAL_FILTERS.iter().all(|filter| greatest_by_filter[filter][0] > 1.0));
    println!("months with a weight between: {partly}");
    assert!(partly > 100);
}

#[test]
fn halves_of_a_grain_occur() {
    let mut halves = [0usize; 6];
    let mut halves_of_r2: BTreeMap<SeasonalFilter, usize> = BTreeMap::new();
    let mut halves_of_d12: BTreeMap<usize, usize> = BTreeMap::new();
    for case in cases() {
        let tables = decompose_fitting(&case.figures, case.start).expect("an allowed series");
        for steps in [&tables.b, &tables.c, &tables.d] {
            for (sum, count) in halves.iter_mut().zip(steps.halves) {
                *sum += count;
            }
        }
        *halves_of_d12.entry(tables.trend_terms).or_default() += tables.d12_halves;
        *halves_of_r2.entry(tables.seasonal_filter).or_default() += tables.d.halves[4];
    }
    println!("halves met in T1, R1, M1, T2, R2 and M2: {halves:?}; in D12 by its terms: {halves_of_d12:?}");
    println!("halves met in R2 of pass D by the filter: {halves_of_r2:?}");
    // 27ths never meet a half; all others do.
    assert_eq!(halves[1], 0);
    for index in [0, 2, 3, 4, 5] {
        assert!(halves[index] > 0);
    }
    assert!(LENGTHS.iter().all(|terms| halves_of_d12[terms] > 0));
    assert_eq!(SEASONAL_FILTERS.map(|filter| halves_of_r2[&filter] > 0), [false, true, true]);
}

#[test]
fn the_passes_keep_their_distance() {
    let [t2_limit, s2_limit] = PASS_LIMITS.map(|(_, limit)| limit);
    let mut greatest: BTreeMap<SeasonalFilter, [f64; 2]> = BTreeMap::new();
    let mut series: Vec<(String, Vec<i64>)> = grain_cases().into_iter().map(|c| (c.name, c.grains)).collect();
    for case in cases().into_iter().step_by(7) {
        let tables = decompose_fitting(&case.figures, case.start).unwrap();
        series.push((format!("{} B", case.name), tables.b1));
        series.push((format!("{} C", case.name), tables.c1));
        series.push((format!("{} D", case.name), tables.d1));
    }
    for (index, (name, x)) in series.into_iter().enumerate() {
        // Each series with 3×5, and with one of the other filters in turn.
        for filter in [ThreeByFive, [ThreeByThree, ThreeByNine][index % 2]] {
            let (steps, exact) = (pass_with(&x, filter), exact_pass_with(&x, filter));
            let t2 = distance(&steps.t2.values, &exact.t2);
            let s2 = distance(&steps.s2.values, &exact.s2);
            assert!(t2.is_within(t2_limit), "{name} {filter}");
            assert!(s2.is_within(s2_limit), "{name} {filter}");
            let so_far = greatest.entry(filter).or_default();
            *so_far = [so_far[0].max(t2.greatest.roughly()), so_far[1].max(s2.greatest.roughly())];
        }
    }
    println!("greatest distances of T2 and S2: {greatest:?}");
    // S2 within 1 grain is a wrong bound (tables/must-fail/s2-within-1).
    assert!(greatest.values().all(|[_, s2]| *s2 > 1.0));
}

/// Pass B with its weights and neighbours held.
#[test]
fn pass_b_keeps_its_distance() {
    let [t2_limit, s2_limit] = PASS_B_LIMITS.map(|(_, limit)| limit);
    let mut greatest = [(0.0f64, String::new()), (0.0f64, String::new())];
    let mut beyond_when_left_out = [0, 0];
    for case in cases() {
        let tables = decompose_fitting(&case.figures, case.start).unwrap();
        let (of_si1, of_si2) = (tables.b4.held(), tables.b9.held());
        let exact = exact_pass_b(&tables.b1, &of_si1, &of_si2);
        let t2 = DistanceB::measure(&tables.b7, &exact.t2);
        let s2 = DistanceB::measure(&tables.b10, &exact.s2);
        assert!(t2.is_within(t2_limit), "{}", case.name);
        assert!(s2.is_within(s2_limit), "{}", case.name);
        for (best, d) in greatest.iter_mut().zip([t2, s2]) {
            if d.roughly() > best.0 {
                *best = (d.roughly(), format!("{} month {}", case.name, d.place));
            }
        }
        // Without the means of SI1 the trend lies far off, without those of
        // SI2 the seasonal.
        if !of_si1.is_empty() {
            let without = exact_pass_b(&tables.b1, &Held::new(), &of_si2);
            beyond_when_left_out[0] += usize::from(!DistanceB::measure(&tables.b7, &without.t2).is_within(t2_limit));
        }
        if !of_si2.is_empty() {
            let without = exact_pass_b(&tables.b1, &of_si1, &Held::new());
            beyond_when_left_out[1] += usize::from(!DistanceB::measure(&tables.b10, &without.s2).is_within(s2_limit));
        }
    }
    println!("greatest distances of T2 and S2 in pass B: {greatest:?}");
    println!("series beyond the limits without the means of SI1, of SI2: {beyond_when_left_out:?}");
    // A bound of 1 grain would be wrong for either.
    assert!(greatest[0].0 > 1.0 && greatest[1].0 > 1.0);
    assert!(beyond_when_left_out[0] > 400 && beyond_when_left_out[1] > 400);
}

/// With nothing held the exact working of pass B is that of a plain pass, in
/// lowest terms.
#[test]
fn with_nothing_held_pass_b_is_a_plain_pass() {
    for case in cases().into_iter().filter(|case| case.figures.len() < 130).step_by(41) {
        let x: Vec<i64> = case.figures.iter().map(|&figure| 1000 * i64::from(figure)).collect();
        let plain = exact_pass(&x);
        let held = exact_pass_b(&x, &Held::new(), &Held::new());
        for (fractions, table) in [(&plain.t2, &held.t2), (&plain.s2, &held.s2)] {
            assert_eq!(table.uppers.len(), fractions.len());
            for (upper, fraction) in table.uppers.iter().zip(fractions) {
                assert_eq!(&Fraction::lowest(upper.clone(), table.lower.clone()), fraction, "{}", case.name);
            }
        }
    }
}

/// The Henderson sums of a series that fall on a half: the table, whether it
/// is in the middle, and the kind of half, from 0 to 3 (above zero with an
/// even and with an odd grain below, then below zero).
fn henderson_kinds(case: &Case) -> Vec<(&'static str, bool, usize)> {
    let tables = decompose_fitting(&case.figures, case.start).unwrap();
    let in_the_middle = |table: &str, t: usize| {
        let side = if table.starts_with("D D12") { tables.trend_terms / 2 } else { 6 };
        (side..case.figures.len() - side).contains(&t)
    };
    let kind = |sum: &Fraction| {
        let twice = sum.upper().to_i128().unwrap();
        2 * usize::from(twice < 0) + usize::from(twice.div_euclid(2) % 2 != 0)
    };
    henderson_halves(&tables).iter().map(|(table, t, sum)| (*table, in_the_middle(table, *t), kind(sum))).collect()
}

#[test]
fn the_seeds_meet_halves_in_henderson_sums() {
    for seed in SEEDS_WITH_HALVES_IN_THE_MIDDLE {
        assert!(henderson_kinds(&small_random(seed)).iter().any(|&(_, middle, _)| middle), "seed {seed}");
    }
    for index in 0..12 {
        let (table, kind) = (["B T2", "C T2", "D T2"][index / 4], index % 4);
        let (at_the_ends, in_the_middle) = (SEEDS_WITH_HALVES_AT_THE_ENDS[index], SEEDS_WITH_MANY_HALVES[index]);
        assert!(henderson_kinds(&small_random(at_the_ends)).contains(&(table, false, kind)), "seed {at_the_ends}");
        assert!(henderson_kinds(&smaller_random(in_the_middle)).contains(&(table, true, kind)), "seed {in_the_middle}");
    }
    let mut kinds = BTreeSet::new();
    for (table, in_the_middle, kind, case) in halves_of_the_final_trend() {
        assert!(henderson_kinds(&case).contains(&(table, in_the_middle, kind)), "{}", case.name);
        kinds.insert((table, in_the_middle, kind));
    }
    assert_eq!(kinds.len(), 5 * 4);
}

/// The exact working against floating numbers: not exact, but an
/// independent check of the bookkeeping with fractions.
#[test]
fn fractions_agree_with_floating_numbers() {
    for case in cases().into_iter().step_by(11) {
        let tables = decompose_fitting(&case.figures, case.start).unwrap();
        let exact = exact_working(&tables.b1, &tables.d1, tables.seasonal_filter, tables.trend_terms);
        for t in 0..case.figures.len() {
            let sum = exact.e10[t].plus(&exact.e12[t]).plus(&exact.e13[t]);
            assert_eq!(sum.to_string(), format!("{}/1", tables.b1[t]));
        }
        let floating = floating_seasonal(&tables.d1, tables.seasonal_filter);
        for (fraction, value) in exact.e10.iter().zip(&floating) {
            assert!((fraction.roughly() - value).abs() < 1e-4, "{}: {} {}", case.name, fraction.roughly(), value);
        }
    }
}

/// S2 of one pass in floating numbers, with a filter for step 6.
fn floating_seasonal(series: &[i64], filter: SeasonalFilter) -> Vec<f64> {
    use separate::rows::{henderson_at, three_by_three};
    let n = series.len();
    let x: Vec<f64> = series.iter().map(|&v| v as f64).collect();
    let centred = |table: &[f64], t: usize| {
        let inner: f64 = table[t - 5..=t + 5].iter().sum();
        (table[t - 6] / 2.0 + inner + table[t + 6] / 2.0) / 12.0
    };
    let mut si1 = vec![0.0; n];
    for t in 6..n - 6 {
        si1[t] = x[t] - centred(&x, t);
    }
    let mut r1 = vec![0.0; n];
    for t in 6..n - 6 {
        let before = (t - 6) / 12;
        let after = (n - 7 - t) / 12;
        for (index, w) in three_by_three(before, after).iter().enumerate() {
            r1[t] += *w as f64 / 27.0 * si1[t + 12 * index - 12 * before.min(2)];
        }
    }
    let mut s1 = vec![0.0; n];
    for t in 6..n - 6 {
        s1[t] = r1[t] - centred(&r1, t.clamp(12, n - 13));
    }
    for t in 0..6 {
        s1[t] = s1[t + 12];
        s1[n - 1 - t] = s1[n - 13 - t];
    }
    let mut si2 = vec![0.0; n];
    for t in 0..n {
        let row = henderson_at(13, t, n);
        let mut trend = 0.0;
        for (index, w) in row.weights.iter().enumerate() {
            trend += *w as f64 / row.divisor as f64 * (x[row.first + index] - s1[row.first + index]);
        }
        si2[t] = x[t] - trend;
    }
    let mut r2 = vec![0.0; n];
    for t in 0..n {
        let before = t / 12;
        let after = (n - 1 - t) / 12;
        let row = filter.row(before, after);
        for (index, w) in row.weights.iter().enumerate() {
            r2[t] += *w as f64 / row.divisor as f64 * si2[t + 12 * index - 12 * before.min(filter.reach())];
        }
    }
    (0..n).map(|t| r2[t] - centred(&r2, t.clamp(6, n - 7))).collect()
}
