//! The proved decomposing beside the separately written one: answers, places, tables, weights, scratch and tails.

mod proved;

use proved::{beside, Answer};
use separate::decompose::{decompose_fitting, scratch_for, Lent};
use separate::exact::{exact_working, FourDistances};
use separate::generators::{cases, Dice};

#[test]
fn every_made_up_series() {
    let mut worked = 0;
    for case in cases() {
        let n = case.figures.len();
        let lengths = Lent { scratch: scratch_for(n) + worked % 3, ..Lent::right_for(n) };
        let (_, tables) = beside::decompose(&case.name, &case.figures, case.start, &lengths);
        let tables = tables.expect("an allowed series");
        // The distances of the tables that came out, from the exact fractions.
        if worked % 9 == 0 {
            let exact = exact_working(&tables.b1, &tables.d1, tables.seasonal_filter, tables.trend_terms);
            let four = FourDistances::measure(&tables.d10, &tables.d11, &tables.d12, &tables.d13, &exact);
            assert!(four.are_within_limits(), "{}", case.name);
        }
        worked += 1;
    }
    assert!(worked > 950);
}

#[test]
fn random_series_good_and_bad() {
    let mut dice = Dice::new(20_261_115);
    let mut refused = 0;
    for round in 0..600 {
        let n = dice.between(60, 160) as usize;
        let size = [9, 500, 20_000, 200_000][dice.between(0, 3) as usize];
        let mut figures: Vec<i32> = (0..n).map(|_| dice.between(-size, size) as i32).collect();
        if dice.between(0, 9) == 0 {
            let t = dice.between(0, n as i64 - 1) as usize;
            figures[t] = [200_001, -200_001, i32::MAX, i32::MIN][dice.between(0, 3) as usize];
        }
        let start = if dice.between(0, 19) == 0 { dice.between(0, 255) } else { dice.between(1, 12) } as u8;
        let (answer, _) = beside::decompose(&format!("random {round}"), &figures, start, &Lent::right_for(n));
        refused += usize::from(answer != (0, 0));
    }
    assert!(refused > 50);
}

#[test]
fn limits_of_the_length() {
    for n in [0, 1, 71, 72, 73, 599, 600, 601, 700] {
        let figures: Vec<i32> = (0..n).map(|t| if t % 2 == 0 { 200_000 } else { -200_000 }).collect();
        for start in [0, 1, 6, 12, 13] {
            beside::decompose(&format!("{n} months from {start}"), &figures, start, &Lent::right_for(n));
        }
    }
}

#[test]
fn lengths_far_off() {
    let n = 75;
    let right = Lent::right_for(n);
    for length in [0, 1, 5 * n, 9 * n] {
        for lengths in [
            Lent { d10: length, ..right },
            Lent { d11: length, ..right },
            Lent { d12: length, ..right },
            Lent { d13: length, ..right },
            Lent { b17: length, ..right },
            Lent { c17: length, ..right },
        ] {
            beside::decompose("lengths", &vec![100; n], 3, &lengths);
        }
    }
}

fn wavy(n: usize) -> Vec<i32> {
    (0..n as i32).map(|t| t * t % 97 * 11 - 40 * (t % 12) + t % 29 / 28 * 50_000).collect()
}

/// At least 5n entries of scratch: those are zero afterwards, all others stay.
#[test]
fn lengths_of_the_scratch() {
    for n in [72, 73, 75, 131, 600] {
        let too_few = [0, 1, n, 4 * n, 5 * n - 1].map(|scratch| (scratch, (4, 0)));
        let enough = [5 * n, 5 * n + 1, 8 * n - 1, 8 * n, 8 * n + 1, 9 * n].map(|scratch| (scratch, (0, 0)));
        for (scratch, answer) in too_few.into_iter().chain(enough) {
            let (name, lengths) = (format!("{n} months, scratch of {scratch}"), Lent { scratch, ..Lent::right_for(n) });
            assert_eq!(beside::decompose(&name, &wavy(n), 7, &lengths).0, answer, "{name}");
        }
    }
}

/// Decomposes one series on scratches of 5n and of 8n that hold marks, or one value, before: all give what is due, so all the same.
fn on_every_scratch(name: &str, figures: &[i32], start: u8) -> Answer {
    let n = figures.len();
    let due = decompose_fitting(figures, start);
    for scratch in [5 * n, 8 * n] {
        let marked = beside::lent_for(&Lent { scratch, ..Lent::right_for(n) });
        beside::decompose_on(&format!("{name}, scratch of {scratch}, marked"), figures, start, &marked, &due);
        for value in [0, i64::MIN, i64::MAX] {
            let mut filled = marked.clone();
            filled.guarded.fill(value);
            beside::decompose_on(&format!("{name}, scratch of {scratch}, all {value}"), figures, start, &filled, &due);
        }
    }
    due.map_or_else(|refusal| (refusal.number, refusal.place), |_| (0, 0))
}

#[test]
fn every_made_up_series_on_every_scratch() {
    for case in cases() {
        assert_eq!(on_every_scratch(&case.name, &case.figures, case.start), (0, 0), "{}", case.name);
    }
}

#[test]
fn refusals_on_every_scratch() {
    let mut outside = wavy(72);
    outside[44] = 200_001;
    for (figures, start, answer) in
        [(wavy(71), 1, (1, 0)), (wavy(601), 1, (2, 0)), (wavy(72), 13, (3, 0)), (outside, 1, (5, 44))]
    {
        assert_eq!(on_every_scratch(&format!("{} months from {start}", figures.len()), &figures, start), answer);
    }
}

#[test]
fn many_series_side_by_side() {
    let series = cases();
    std::thread::scope(|scope| {
        for part in 0..8 {
            let series = &series;
            scope.spawn(move || {
                for case in series.iter().skip(part).step_by(8) {
                    beside::decompose(&case.name, &case.figures, case.start, &Lent::right_for(case.figures.len()));
                }
            });
        }
    });
}
