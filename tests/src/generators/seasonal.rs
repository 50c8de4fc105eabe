//! Series that try the choice of the seasonal filter of pass D.

use super::{case, stairs, uneven_edges, Case, Dice, Made, LIMIT};
use crate::decompose::Tables;
use crate::seasonality::Question;

/// 72 to 132 months (runs of 6 to 11 years) whose seasonal moves from year to
/// year, each month by a step that it keeps for some years, with noise that
/// grows or falls: the proportions of the two lie on both sides of the bounds
/// of the seasonal filter.
pub fn moving_seasonal(seed: u64) -> Case {
    let (n, start) = (72 + (seed % 61) as usize, (seed % 12 + 1) as u8);
    case(format!("moving_seed{seed}_n{n}_s{start}"), start, moving(&mut Dice::new(seed), n, 1))
}

/// The same for decades, in units, tens or thousands of units: the limits cut
/// off the highest.
pub fn moving_for_decades(seed: u64) -> Case {
    let (n, start) = ([600, 599, 350][(seed % 3) as usize], (seed % 12 + 1) as u8);
    let size = [1, 40, 3_000][(seed / 12 % 3) as usize];
    case(format!("moving_by_{size}_seed{seed}_n{n}_s{start}"), start, moving(&mut Dice::new(seed), n, size))
}

/// Such figures for n months, so many times as large.
fn moving(dice: &mut Dice, n: usize, size: i64) -> Vec<i64> {
    let (step, early, late) = (size * dice.between(1, 6), size * dice.between(0, 6), size * dice.between(0, 6));
    let (mut year, mut steps) = ([0; 12], [0; 12]);
    let mut figures = Vec::new();
    for t in 0..n {
        let (month, noise) = (t % 12, early + (late - early) * t as i64 / n as i64);
        if t < 12 || dice.between(0, 3) == 0 {
            steps[month] = dice.between(-step, step);
        }
        year[month] += steps[month];
        figures.push(year[month] + dice.between(-noise, noise));
    }
    figures
}

/// What a series tries of the choice of the seasonal filter: the answer and
/// the question that has it, and for each question asked the bounds that its
/// sums meet or miss by one grain, or sums of zero.
pub fn place_by_questions(tables: &Tables) -> Vec<String> {
    let mut list = Vec::new();
    for (index, question) in tables.questions.iter().enumerate() {
        let (number, Question { i, s, .. }) = (index + 1, *question);
        if let Some(filter) = question.answer() {
            list.push(format!("{filter} at {number}"));
        }
        match (i, s) {
            (0, 0) => list.push(format!("I=S=0 at {number}")),
            (_, 0) => list.push(format!("S=0 at {number}")),
            _ => list.extend(bounds_met(2 * i, s).iter().map(|bound| format!("{bound} at {number}"))),
        }
    }
    if tables.questions.iter().all(|question| question.answer().is_none()) {
        list.push("undecided".to_string());
    }
    list
}

/// The bounds that twice I lies upon or one beside, S being above zero.
fn bounds_met(twice_i: u64, s: u64) -> Vec<String> {
    let mut list = Vec::new();
    for bound in [5, 7, 11, 13] {
        let below = bound * s;
        for (what, met) in [("-1", twice_i + 1 == below), ("", twice_i == below), ("+1", twice_i == below + 1)] {
            if met {
                list.push(format!("2I={bound}S{what}"));
            }
        }
    }
    list
}

/// Seeds found by trying one after the other (`separate questions`), with the
/// answer that each series gets and the question that has it
/// (`place_by_questions`).  They are chosen so that each filter has every
/// length from 72 to 84 months, some of each length of runs, and every start.
const MOVING: [(&str, &[u64]); 20] = [
    ("3x3 at 1", &[25, 35, 48, 58, 182, 219, 220]),
    ("3x3 at 2", &[69, 306, 329, 500, 919, 47, 206]),
    ("3x3 at 3", &[72, 3_178, 4_218, 4_521, 4_868, 6_281, 7_147]),
    ("3x3 at 4", &[25_681, 23_244, 2_656, 6_975, 655, 837, 1_079]),
    ("3x3 at 5", &[3_457, 3_584, 5_667, 9_605, 10_178, 23_542, 25_914]),
    ("3x3 at 6", &[5_312, 16_106, 14_166, 14_269, 30_797, 37_958, 16_654]),
    ("3x5 at 1", &[7, 10, 12, 49, 63, 65, 66]),
    ("3x5 at 2", &[11, 146, 496, 549, 1_892, 147, 192]),
    ("3x5 at 3", &[3_085, 3_758, 3_988, 4_866, 6_586, 6_899, 9_320]),
    ("3x5 at 4", &[12_053, 14_887, 5_182, 18_604, 2_517, 198, 396]),
    ("3x5 at 5", &[87, 116, 263, 266, 283, 533, 1_005]),
    ("3x5 at 6", &[217, 31, 44, 53, 81, 118, 383]),
    ("3x9 at 1", &[1, 2, 3, 6, 36, 68, 130]),
    ("3x9 at 2", &[5_855, 22_168, 47_251, 12_754, 17_946, 21_110, 5_479]),
    ("3x9 at 3", &[14_201, 18_201, 0, 4_768, 17_139, 37_001, 43_868]),
    ("3x9 at 4", &[695, 28_473, 38_905, 1_339, 1_658, 205, 214]),
    ("3x9 at 5", &[89, 148, 582, 936, 1_479, 2_901, 4_796]),
    ("3x9 at 6", &[215, 899, 1_568, 3_523, 3_700, 4_968, 5_626]),
    ("undecided", &[40, 276, 809, 3_002, 3_586, 4_260, 4_354, 4_390]),
    ("I=S=0 at 6", &[1_830, 14_030, 56_425, 45_018]),
];

/// The same for series of decades.
const MOVING_FOR_DECADES: [(&str, &[u64]); 13] = [
    ("3x3 at 1", &[24]),
    ("3x3 at 2", &[430]),
    ("3x3 at 3", &[777]),
    ("3x3 at 5", &[1_477]),
    ("3x3 at 6", &[1_242]),
    ("3x5 at 1", &[204]),
    ("3x5 at 2", &[930]),
    ("3x5 at 3", &[613]),
    ("3x5 at 4", &[1_202]),
    ("3x5 at 5", &[412]),
    ("3x5 at 6", &[933]),
    ("3x9 at 1", &[92, 1_105, 594]),
    ("undecided", &[29, 60]),
];

/// Series for each answer at each question, with what they were made for.
pub fn seasonal_choices() -> Vec<(Case, &'static str)> {
    let mut list = Vec::new();
    for (what, seeds) in MOVING {
        list.extend(seeds.iter().map(|&seed| (moving_seasonal(seed), what)));
    }
    for (what, seeds) in MOVING_FOR_DECADES {
        list.extend(seeds.iter().map(|&seed| (moving_for_decades(seed), what)));
    }
    list
}

/// Seeds whose sums meet a bound at some question or miss it by one grain, or
/// whose seasonal has no change in the one month that the sixth question has.
const AT_THE_BOUNDS: [(&str, Made, &[u64]); 44] = [
    ("2I=5S-1 at 1", stairs, &[75_663]),
    ("2I=5S-1 at 2", stairs, &[25_088]),
    ("2I=5S-1 at 3", stairs, &[498_233]),
    ("2I=5S-1 at 4", stairs, &[10_277_163]),
    ("2I=5S at 1", stairs, &[2_964_599, 9_916_768]),
    ("2I=5S at 2", stairs, &[25_753, 43_104, 1_608_524]),
    ("2I=5S at 3", stairs, &[6_275_333]),
    ("2I=5S+1 at 1", stairs, &[19_235, 2_354_353]),
    ("2I=5S+1 at 2", stairs, &[996, 18_938]),
    ("2I=7S-1 at 1", stairs, &[42_211, 72_411, 4_252_319]),
    ("2I=7S-1 at 2", stairs, &[1_654]),
    ("2I=7S at 1", stairs, &[23_000, 7_044]),
    ("2I=7S at 2", stairs, &[8_908]),
    ("2I=7S at 3", stairs, &[9_517_957, 2_330_294]),
    ("2I=7S at 4", stairs, &[76_240]),
    ("2I=7S+1 at 1", stairs, &[13_321]),
    ("2I=7S+1 at 2", stairs, &[45_825]),
    ("2I=7S+1 at 3", stairs, &[6_423]),
    ("2I=7S+1 at 4", stairs, &[80_891]),
    ("2I=11S-1 at 1", stairs, &[1_782]),
    ("2I=11S-1 at 2", stairs, &[500_879]),
    ("2I=11S-1 at 3", stairs, &[9_085_385]),
    ("2I=11S-1 at 4", stairs, &[6_553_359]),
    ("2I=11S at 1", uneven_edges, &[25_776, 50_031, 64_976]),
    ("2I=11S at 1", stairs, &[18_651]),
    ("2I=11S at 2", stairs, &[20_075]),
    ("2I=11S at 6", stairs, &[9_198_085]),
    ("2I=11S+1 at 1", stairs, &[3_271_927, 10_311_904]),
    ("2I=11S+1 at 2", stairs, &[46_680]),
    ("2I=11S+1 at 3", stairs, &[81_562]),
    ("2I=13S-1 at 1", uneven_edges, &[30_357, 72_033]),
    ("2I=13S-1 at 2", stairs, &[20_411]),
    ("2I=13S-1 at 3", stairs, &[823_691]),
    ("2I=13S at 1", uneven_edges, &[64_372]),
    ("2I=13S at 2", stairs, &[2_804_026]),
    ("2I=13S at 3", stairs, &[72_378, 8_301_042]),
    ("2I=13S at 4", stairs, &[36_320]),
    ("2I=13S at 1", stairs, &[4_278_534]),
    ("2I=13S+1 at 1", stairs, &[39_227]),
    ("2I=13S+1 at 2", stairs, &[56_856]),
    ("2I=13S+1 at 4", uneven_edges, &[15_276]),
    ("2I=13S+1 at 5", stairs, &[7_510_427]),
    ("S=0 at 6", moving_seasonal, &[2_507_284]),
    ("S=0 at 6", stairs, &[2_140_713, 2_202_502, 2_773_499]),
];

/// Series at the bounds, with the bound that each is for.
pub fn seasonal_bounds() -> Vec<(Case, &'static str)> {
    let mut list = Vec::new();
    for (what, made, seeds) in AT_THE_BOUNDS {
        list.extend(seeds.iter().map(|&seed| (made(seed), what)));
    }
    list
}

/// Series that are even but for four figures, which are extreme in pass B and
/// leave nothing in its trend and seasonal that pass C could see: C10 has no
/// changes, C13 has.  (At one place of six or seven years these figures do it,
/// at another those.)
pub fn seasonals_without_changes() -> Vec<Case> {
    let mut list = Vec::new();
    for (n, start, place, level, four) in [
        (72, 1, 18, 0, [23, -60, 60, -23]),
        (72, 6, 48, LIMIT - 60, [-23, 60, -60, 23]),
        (73, 10, 19, 300, [23, -60, 60, -23]),
        (84, 7, 26, -5, [18, -47, 47, -18]),
        (96, 11, 33, 70, [18, -47, 47, -18]),
        (96, 4, 40, 0, [-18, 47, -47, 18]),
        (120, 10, 36, -LIMIT + 47, [18, -47, 47, -18]),
        (120, 7, 33, 1_000, [-18, 47, -47, 18]),
        (600, 6, 44, 0, [18, -47, 47, -18]),
    ] {
        let mut figures = vec![level; n];
        for (index, figure) in four.into_iter().enumerate() {
            figures[place + index] += figure;
        }
        list.push(case(format!("unseen_by_the_seasonal_at{place}_n{n}_s{start}"), start, figures));
    }
    list
}
