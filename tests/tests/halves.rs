//! Halves of a grain (request 2/12 of document 02).  Filters and lines by hand; then a second working of the three passes that is told
//! where a half goes and counts the halves it meets.  With the even grain it gives the tables of the program, with the grain away from
//! zero, the rule before the request, it gives others.

use separate::calendar::{labels, labels_of_part, run, Label};
use separate::decompose::decompose_fitting;
use separate::extremes::{replaced_run, RunValue};
use separate::generators::{cases, ties, Case};
use separate::noise::Noise;
use separate::pass::{ends_repeated, henderson, over_runs, pass, two_by_twelve, Fractions, Placed};
use separate::rows::{SeasonalFilter, ThreeByFive, ThreeByThree};
use separate::seasonality::{chosen, questions};
use separate::spread::weights;
use std::collections::{BTreeMap, BTreeSet};

/// Some grains at one place of 72, else 0.
fn alone(grains: i64, place: usize) -> Placed {
    let mut values = vec![0; 72];
    values[place] = grains;
    Placed::whole_series(values)
}

#[test]
fn each_filter_takes_a_half_to_the_even_grain() {
    // 2×12: 1/2, 3/2 and 5/2 at the place, and 1/4, 3/4 and 5/4 at six away.
    for (grains, at, away) in [(6, 0, 0), (18, 2, 1), (30, 2, 1), (-6, 0, 0), (-18, -2, -1), (-30, -2, -1)] {
        let trend = two_by_twelve(&alone(grains, 40)).rounded();
        assert_eq!((trend.at(40), trend.at(34), trend.at(46)), (at, away, away));
    }
    // 3×5 of a run of six that ends in 30 or 90: 2, 9/2, 15/2 and 17/2; 6, 27/2, 45/2 and 51/2.
    for (grains, last_four) in [(30, [2, 4, 8, 8]), (90, [6, 14, 22, 26]), (-30, [-2, -4, -8, -8]), (-90, [-6, -14, -22, -26])] {
        let seasonal = over_runs(&alone(grains, 71), ThreeByFive).rounded();
        assert_eq!([35, 47, 59, 71].map(|t| seasonal.at(t)), last_four);
    }
    // Henderson: half of each weight, 2,475/2 and -325/2 being halves.
    for sign in [1, -1] {
        let trend = henderson(&alone(sign * 8_398, 40).values, 13).rounded();
        assert_eq!([40, 41, 42, 43, 44, 45, 46].map(|t| sign * trend.at(t)), [2_016, 1_800, 1_238, 550, 0, -234, -162]);
    }
}

/// On a straight line the end rows lie off by the slope times what a line of one unit gives in millionths; with 0, 1, 2, ... 5 months to
/// follow that is -406,738, -121,154, 3,095, 34,083, 24,356 and 7,931.
#[test]
fn straight_lines_meet_halves_at_the_ends() {
    for (slope, following, off) in [
        (100, 2, 310),      // 309.5
        (125, 4, 3_044),    // 3,044.5
        (250, 0, -101_684), // -101,684.5
        (250, 1, -30_288),  // -30,288.5
        (500, 2, 1_548),    // 1,547.5
        (500, 3, 17_042),   // 17,041.5
        (500, 5, 3_966),    // 3,965.5
    ] {
        for slope in [slope, -slope] {
            let off = if slope < 0 { -off } else { off };
            let line: Vec<i64> = (0..72).map(|t| 1000 * slope * (t - 36)).collect();
            let t2 = pass(&line).t2;
            let (early, late) = (following, 71 - following);
            assert_eq!((line[early] - t2.at(early), t2.at(late) - line[late]), (off, off), "{slope} {following}");
        }
    }
}

/// Where a half goes: to the grain that has the smaller number here.
type Rule = fn(i128) -> i128;

fn to_even(grain: i128) -> i128 {
    grain.rem_euclid(2)
}

fn away_from_zero(grain: i128) -> i128 {
    -grain.abs()
}

/// The nearest grain, by trying those around the fraction.
fn nearest(upper: i128, lower: i128, rule: Rule) -> i64 {
    let about = upper / lower;
    let tried = (about - 1..=about + 1).min_by_key(|&grain| ((upper - lower * grain).abs(), rule(grain)));
    tried.and_then(|grain| i64::try_from(grain).ok()).expect("a grain")
}

/// Halves above zero with an even and with an odd grain below, then those below zero in the same way.
type Counts = [usize; 4];

struct Working {
    rule: Rule,
    /// The halves met, by the names of the tables.
    met: BTreeMap<String, Counts>,
}

impl Working {
    fn new(rule: Rule) -> Working {
        Working { rule, met: BTreeMap::new() }
    }

    /// Rounds a table; its halves are counted under the name of each month's part.
    fn rounded(&mut self, part: impl Fn(usize) -> String, exact: &Fractions) -> Placed {
        for (t, &(upper, lower)) in exact.values.iter().enumerate() {
            let counts = self.met.entry(part(t)).or_default();
            let below = upper.div_euclid(lower);
            if 2 * upper == (2 * below + 1) * lower {
                counts[2 * usize::from(below < 0) + usize::from(below % 2 != 0)] += 1;
            }
        }
        let values = exact.values.iter().map(|&(upper, lower)| nearest(upper, lower, self.rule)).collect();
        Placed { first: exact.first, values }
    }

    fn grains(&mut self, name: String, exact: &Fractions) -> Placed {
        self.rounded(|_| name.clone(), exact)
    }

    /// Henderson of so many terms; the months of the end rows are counted by themselves.
    fn trend(&mut self, name: &str, series: &[i64], terms: usize) -> Placed {
        let middle = terms / 2..series.len() - terms / 2;
        let part = |t: usize| format!("{name}{}", if middle.contains(&t) { "" } else { " ends" });
        self.rounded(part, &henderson(series, terms))
    }

    fn seasonal(&mut self, name: &str, step: &str, si: &Placed, filter: SeasonalFilter) -> Placed {
        let r = self.grains(format!("{name} R{step}"), &over_runs(si, filter));
        let m = self.grains(format!("{name} M{step}"), &two_by_twelve(&r));
        r.less(&ends_repeated(&m, si.first, si.last()))
    }

    fn replaced(&mut self, name: &str, si: &Placed, filter: SeasonalFilter, labels: &[Label]) -> Placed {
        let irregular = si.less(&self.seasonal(name, "", si, filter));
        let labels = labels_of_part(labels, si.first, si.last());
        let weights = weights(&irregular.values, &labels);
        let mut means = Fractions { first: si.first, values: vec![(0, 1); labels.len()] };
        for month in 1..=12 {
            let places = run(&labels, month, 0, labels.len() - 1);
            let value = |&p: &usize| RunValue { year: labels[p].year, value: si.values[p], weight: weights[p] };
            let values: Vec<RunValue> = places.iter().map(value).collect();
            for (&place, found) in places.iter().zip(replaced_run(&values)) {
                means.values[place] = found.mean;
            }
        }
        self.grains(format!("{name} means"), &means)
    }

    /// T2 and S2 of a pass, with a filter for step 6; with labels it is pass B. The tables of pass D have the filter in their names.
    fn pass(&mut self, name: &str, x: &[i64], labels: Option<&[Label]>, filter: SeasonalFilter) -> (Vec<i64>, Vec<i64>) {
        let n = x.len();
        let x = Placed::whole_series(x.to_vec());
        let t1 = self.grains(format!("{name} T1"), &two_by_twelve(&x));
        let mut si1 = x.part(6, n - 7).less(&t1);
        if let Some(labels) = labels {
            si1 = self.replaced("B4", &si1, ThreeByThree, labels);
        }
        let s1 = self.seasonal(name, "1", &si1, ThreeByThree);
        let source = |t: usize| if t < 6 { t + 12 } else if t > n - 7 { t - 12 } else { t };
        let a1: Vec<i64> = (0..n).map(|t| x.at(t) - s1.at(source(t))).collect();
        let t2 = self.trend(&format!("{name} T2"), &a1, 13);
        let mut si2 = x.less(&t2);
        if let Some(labels) = labels {
            si2 = self.replaced("B9", &si2, filter, labels);
        }
        let step = if name == "D" { format!("2 of {filter}") } else { "2".to_string() };
        let s2 = self.seasonal(name, &step, &si2, filter);
        (t2.values, s2.values)
    }

    /// B1 less the corrections that follow from T2 and S2.
    fn corrected(&mut self, name: &str, b1: &[i64], (t2, s2): (Vec<i64>, Vec<i64>), labels: &[Label]) -> Vec<i64> {
        let irregular = less(&less(b1, &s2), &t2);
        let weights = weights(&irregular, labels);
        let share = |(&grains, &weight): (&i64, &u16)| (i128::from(grains) * (1000 - i128::from(weight)), 1000);
        let exact = Fractions { first: 0, values: irregular.iter().zip(&weights).map(share).collect() };
        less(b1, &self.grains(name.to_string(), &exact).values)
    }

    /// D10 to D13.
    fn tables(&mut self, case: &Case) -> [Vec<i64>; 4] {
        let labels = labels(case.start, case.figures.len());
        let b1: Vec<i64> = case.figures.iter().map(|&figure| 1000 * i64::from(figure)).collect();
        let b = self.pass("B", &b1, Some(&labels), ThreeByFive);
        let c1 = self.corrected("B20", &b1, b, &labels);
        let c = self.pass("C", &c1, None, ThreeByFive);
        let c13 = less(&less(&b1, &c.1), &c.0);
        let (filter, terms) = (chosen(&questions(&c13, &c.1)), Noise::of(&c13, &c.0).terms());
        let d1 = self.corrected("C20", &b1, c, &labels);
        let (_, d10) = self.pass("D", &d1, None, filter);
        let d11 = less(&b1, &d10);
        let d12 = self.trend(&format!("D12 of {terms} terms"), &less(&d1, &d10), terms).values;
        let d13 = less(&d11, &d12);
        [d10, d11, d12, d13]
    }
}

fn less(a: &[i64], b: &[i64]) -> Vec<i64> {
    a.iter().zip(b).map(|(x, y)| x - y).collect()
}

/// D10 to D13 of the program.
fn tables_of_the_program(case: &Case) -> [Vec<i64>; 4] {
    let tables = decompose_fitting(&case.figures, case.start).expect("an allowed series");
    [tables.d10, tables.d11, tables.d12, tables.d13]
}

/// The program takes every half to the even grain, and the made-up series bring halves of each kind to every table that can meet one. The
/// 3×3 cannot: 27 is odd. Nor can the middle of a final trend of 9 terms: 2,431 is odd. Nor can T1 of pass B, a sum of whole units: 1,000
/// over 24 is 125 over 3. (3×9 can where its places present are 6, 8 or 10: over 162, 216 or 270.)
#[test]
fn halves_of_every_kind_are_met_and_go_to_the_even_grain() {
    let mut working = Working::new(to_even);
    for case in cases() {
        assert_eq!(working.tables(&case), tables_of_the_program(&case), "{}", case.name);
    }
    println!("halves above zero with an even and an odd grain below, and below zero:");
    for (name, counts) in &working.met {
        println!("{name} {counts:?}");
        if ["B T1", "B4 R", "B R1", "C R1", "D R1", "D R2 of 3x3", "D12 of 9 terms"].contains(&name.as_str()) {
            assert_eq!(counts, &[0; 4], "{name}");
        } else {
            assert!(counts.iter().all(|&count| count > 0), "{name} {counts:?}");
        }
    }
    assert_eq!(working.met.len(), 39, "a table is missing");
}

#[test]
fn ties_meet_many_halves_from_every_start_month() {
    for case in ties() {
        let mut working = Working::new(to_even);
        working.tables(&case);
        let met: usize = working.met.values().flatten().sum();
        let at_the_ends_of_b: usize = working.met["B T2 ends"].iter().sum();
        println!("{}: {met} halves, {at_the_ends_of_b} of them at the ends of T2 in pass B", case.name);
        if case.name.starts_with("ties_line") {
            assert!(met > 20 && at_the_ends_of_b >= 2, "{}", case.name);
        } else {
            assert!(met > 60, "{}", case.name);
        }
    }
    let starts: BTreeSet<u8> = ties().iter().map(|case| case.start).collect();
    assert_eq!(starts, (1..=12).collect());
}

#[test]
fn with_halves_away_from_zero_most_tables_are_others() {
    let mut working = Working::new(away_from_zero);
    let list = cases();
    let others = list.iter().filter(|case| working.tables(case) != tables_of_the_program(case)).count();
    println!("{others} of {} series have other tables with halves away from zero", list.len());
    assert!(others > 900);
}
