//! Series that are hard on an adjustment program, the same at every run.

use crate::decompose::Tables;
use crate::fraction::Fraction;
use crate::noise::Noise;
use crate::pass::henderson;
use crate::rounding::is_half;
use crate::rows::T2_TERMS;

mod seasonal;

pub use seasonal::{moving_for_decades, moving_seasonal, place_by_questions};
pub use seasonal::{seasonal_bounds, seasonal_choices, seasonals_without_changes};

/// A small generator of numbers with a fixed seed (xorshift, then a multiply).
pub struct Dice {
    state: u64,
}

impl Dice {
    pub fn new(seed: u64) -> Dice {
        let mut dice = Dice { state: seed.wrapping_mul(0x9e37_79b9_7f4a_7c15) ^ 0x2545_f491_4f6c_dd1d };
        if dice.state == 0 {
            dice.state = 1;
        }
        for _ in 0..8 {
            dice.roll();
        }
        dice
    }

    pub fn roll(&mut self) -> u64 {
        self.state ^= self.state >> 12;
        self.state ^= self.state << 25;
        self.state ^= self.state >> 27;
        self.state.wrapping_mul(0x2545_f491_4f6c_dd1d) >> 11
    }

    /// A whole number from low to high, both included.
    pub fn between(&mut self, low: i64, high: i64) -> i64 {
        let many = (high - low + 1) as u64;
        low + (self.roll() % many) as i64
    }
}

/// A series of figures with its start month.
#[derive(Clone, Debug)]
pub struct Case {
    pub name: String,
    pub start: u8,
    pub figures: Vec<i32>,
}

/// A series of grains for a single pass.
#[derive(Clone, Debug)]
pub struct GrainCase {
    pub name: String,
    pub grains: Vec<i64>,
}

const LIMIT: i64 = 200_000;

fn case(name: String, start: u8, figures: Vec<i64>) -> Case {
    let figures = figures.into_iter().map(|f| i32::try_from(f.clamp(-LIMIT, LIMIT)).expect("a figure")).collect();
    Case { name, start, figures }
}

/// A plain economic series: level, slope, a seasonal that drifts, noise.
fn ordinary(dice: &mut Dice, n: usize, level: i64, swing: i64, noise: i64) -> Vec<i64> {
    let year: Vec<i64> = (0..12).map(|_| dice.between(-swing, swing)).collect();
    let drift: Vec<i64> = (0..12).map(|_| dice.between(-swing / 20 - 1, swing / 20 + 1)).collect();
    let slope = dice.between(-level / 200 - 1, level / 200 + 1);
    (0..n)
        .map(|t| level + slope * t as i64 / 12 + year[t % 12] + drift[t % 12] * t as i64 / 12 + dice.between(-noise, noise))
        .collect()
}

/// The monthly index of document 000 (table B1), in tenths, from October.
pub fn book_series() -> Vec<i32> {
    vec![
        1157, 1098, 1006, 1066, 987, 1039, 1095, 977, 1037, 997, 657, 1052, 1171, 1083, 1044, 1005, 1032, 1129, 1071,
        1000, 1083, 1018, 687, 1087, 1169, 1147, 1100, 1077, 1102, 1187, 1081, 1074, 1147, 1012, 760, 1146, 1179, 1213,
        1147, 1179, 1122, 1202, 1147, 1105, 1203, 1056, 794, 1142, 1267, 1268, 1127, 1211, 1125, 1236, 1161, 1156, 1168,
        1118, 833, 1146, 1320, 1271, 1108, 1233, 1128, 1193, 1194, 1133, 1167, 1153, 816, 1164, 1324, 1248, 1158, 1235,
        1169, 1240, 1200, 1098, 1187, 1121, 800, 1193, 1290, 1221, 1138, 1137, 1131, 1227, 1142, 1079, 1171, 1081, 797,
        1148, 1210, 1217, 1148, 1163, 1115, 1240, 1154, 1140, 1210, 1095, 854, 1206, 1264, 1277, 1200, 1241, 1163, 1302,
    ]
}

/// Random figures within a height, the start month 1 + seed mod 12.
fn random_figures(name: &str, seed: u64, n: usize, high: i64) -> Case {
    let mut dice = Dice::new(seed);
    let start = (seed % 12 + 1) as u8;
    let figures = (0..n).map(|_| dice.between(-high, high)).collect();
    case(format!("{name}_seed{seed}_n{n}_s{start}"), start, figures)
}

/// 72 to 120 months and a start month, by a seed.
fn short_size(seed: u64) -> (usize, u8) {
    (72 + (seed % 49) as usize, (seed % 12 + 1) as u8)
}

/// 72 months of small random values, used for ties: their sums meet halves
/// of a grain often.
pub fn small_random(seed: u64) -> Case {
    random_figures("halves", seed, 72, 40)
}

/// 72 to 120 months of values so small that corrections and means often fall
/// on halves too.
pub fn smaller_random(seed: u64) -> Case {
    random_figures("ties", seed, short_size(seed).0, 3)
}

/// Seeds of `small_random` for which some Henderson sum at the ends falls
/// exactly on a half grain; they were found by trying one seed after the
/// other (`separate hunt`).  Four each for T2 of pass B, of C and of D: above
/// zero with an even and with an odd grain below, then below zero.
pub const SEEDS_WITH_HALVES_AT_THE_ENDS: [u64; 12] = [
    219_808, 309_025, 54_604, 48_581, 94_819, 273_572, 94_672, 167_550, 50_420, 74_605, 68_050, 816_246,
];

/// The same for the thirteen-term Henderson sums, in no order of kinds.
pub const SEEDS_WITH_HALVES_IN_THE_MIDDLE: [u64; 14] =
    [64, 185, 355, 388, 411, 443, 524, 633, 8_184, 14_178, 17_026, 22_869, 29_054, 30_338];

/// Seeds of `smaller_random` that meet sixty halves and more in all, and one
/// in the thirteen-term Henderson sums: tables and kinds as at the ends.
pub const SEEDS_WITH_MANY_HALVES: [u64; 12] =
    [4_963, 38_766, 41_422, 29_205, 47_607, 46_540, 26_474, 32_077, 7_736, 29_568, 24_191, 47_069];

/// How a series is made from a seed.
type Made = fn(u64) -> Case;

/// Seeds for which some sum of the final trend falls on a half: by the terms,
/// for the middle or the ends, and with the kind of the half from 0 to 3, in
/// the order of the kinds above.  The middle row of 9 terms meets none: its
/// divisor is odd.
const HALVES_OF_THE_FINAL_TREND: [(&str, bool, Made, u64, usize); 10] = [
    ("D D12-9", false, wandering, 6_828, 1),
    ("D D12-9", false, wandering_higher, 36_338, 0),
    ("D D12-13", true, wandering, 359, 0),
    ("D D12-13", true, wandering, 4_436, 1),
    ("D D12-13", false, wandering, 301_098, 1),
    ("D D12-13", false, wandering_higher, 164_710, 0),
    ("D D12-23", true, smaller_random, 2_597, 0),
    ("D D12-23", true, smaller_random, 45_020, 1),
    ("D D12-23", false, smaller_random, 33_593, 0),
    ("D D12-23", false, smaller_random, 124_530, 1),
];

/// A wandering series a thousand units higher: so is its trend, so that a half
/// below zero comes to stand above it, between grains as odd and as even.
fn wandering_higher(seed: u64) -> Case {
    let Case { name, start, figures } = wandering(seed);
    Case { name: format!("higher_{name}"), start, figures: figures.iter().map(|figure| figure + 1_000).collect() }
}

/// The same series with every sign turned.
fn turned_over(series: &Case) -> Case {
    let figures = series.figures.iter().map(|figure| -figure).collect();
    Case { name: format!("turned_over_{}", series.name), start: series.start, figures }
}

/// Series with halves of every kind in the final trend: the table, whether
/// in the middle, the kind and the series.  With every sign turned all tables
/// are, and the kind k is 3 - k.
pub fn halves_of_the_final_trend() -> Vec<(&'static str, bool, usize, Case)> {
    let mut list = Vec::new();
    for (table, in_the_middle, made, seed, kind) in HALVES_OF_THE_FINAL_TREND {
        let series = made(seed);
        list.push((table, in_the_middle, 3 - kind, turned_over(&series)));
        list.push((table, in_the_middle, kind, series));
    }
    list
}

/// The Henderson sums of a working that fall on a half: table, month and
/// sum.  The name of D12 has the terms with it.
pub fn henderson_halves(tables: &Tables) -> Vec<(&'static str, usize, Fraction)> {
    let adjusted = tables.d1.iter().zip(&tables.d10).map(|(d1, d10)| d1 - d10).collect();
    let trend = match tables.trend_terms {
        9 => "D D12-9",
        13 => "D D12-13",
        _ => "D D12-23",
    };
    let mut list = Vec::new();
    for (name, series, terms) in [
        ("B T2", &tables.b.a1.values, T2_TERMS),
        ("C T2", &tables.c.a1.values, T2_TERMS),
        ("D T2", &tables.d.a1.values, T2_TERMS),
        (trend, &adjusted, tables.trend_terms),
    ] {
        for (t, &(upper, lower)) in henderson(series, terms).values.iter().enumerate() {
            if is_half(upper, lower) {
                list.push((name, t, Fraction::new(upper, lower)));
            }
        }
    }
    list
}

/// Series whose sums meet many halves of a grain: straight lines from one
/// side of zero to the other, from which the Henderson rows at the ends lie
/// off by halves, and random ones from every start month.
pub fn ties() -> Vec<Case> {
    let mut list = Vec::new();
    for (index, slope) in [100, 125, 250, 500, -100, -125, -250, -500].into_iter().enumerate() {
        let (n, start) = (72 + 6 * index, index as u8 + 3);
        let line = (0..n).map(|t| slope * (t as i64 - n as i64 / 2)).collect();
        list.push(case(format!("ties_line_{slope}_n{n}_s{start}"), start, line));
    }
    list.extend(SEEDS_WITH_MANY_HALVES.into_iter().map(smaller_random));
    list
}

/// 72 to 120 months that rise and fall in straight pieces, with noise upon
/// them, in many proportions: their sums of changes lie on both sides of the
/// bounds of the trend's length, and are small enough to meet them.
pub fn wandering(seed: u64) -> Case {
    let mut dice = Dice::new(seed);
    let (n, start) = short_size(seed);
    let (steep, noise) = (dice.between(1, 4), dice.between(0, 5));
    let (mut level, mut slope) = (0, 0);
    let mut figures = Vec::new();
    for _ in 0..n {
        if dice.between(0, 7) == 0 {
            slope = dice.between(-steep, steep);
        }
        level += slope;
        figures.push(level + dice.between(-noise, noise));
    }
    case(format!("wandering_seed{seed}_n{n}_s{start}"), start, figures)
}

/// 72 to 120 months of one figure, then of another, with a few straight ways
/// between them: trends with small sums.
pub fn stairs(seed: u64) -> Case {
    let mut dice = Dice::new(seed);
    let (n, start) = short_size(seed);
    let mut figures = vec![0; n];
    for _ in 0..dice.between(1, 3) {
        let (place, steps) = (dice.between(0, n as i64 - 1), dice.between(1, 9));
        let height = 2 * dice.between(0, 1) - 1;
        for (t, figure) in figures.iter_mut().enumerate() {
            *figure += height * (t as i64 - place).clamp(0, steps);
        }
    }
    case(format!("stairs_seed{seed}_n{n}_s{start}"), start, figures)
}

/// 72 to 120 months of one figure but for the first six, or the last six, or
/// both: all changes that count are small.
pub fn uneven_edges(seed: u64) -> Case {
    let mut dice = Dice::new(seed);
    let (n, start) = short_size(seed);
    let mut figures = vec![dice.between(-3, 3); n];
    let (edges, height) = (dice.between(1, 3), dice.between(1, 4));
    for (t, figure) in figures.iter_mut().enumerate() {
        if (edges != 2 && t < 6) || (edges != 1 && t > n - 7) {
            *figure += dice.between(-height, height);
        }
    }
    case(format!("uneven_edges_seed{seed}_n{n}_s{start}"), start, figures)
}

/// 72 months of nothing but for the first four, whose figures from -12 to 12
/// are the digits of the seed.
pub fn four_at_the_beginning(seed: u64) -> Case {
    let start = (seed % 12 + 1) as u8;
    let mut figures: Vec<i64> = (0..4).map(|place| (seed / 25u64.pow(place) % 25) as i64 - 12).collect();
    figures.resize(72, 0);
    case(format!("four_first_seed{seed}_n72_s{start}"), start, figures)
}

/// What a series tries of the choice of the trend's length: a bound that its
/// sums meet or miss by one grain, a trend without changes, and months
/// outside t 6 to n-7 that would choose another length.
pub fn place_by_bounds(tables: &Tables) -> Vec<String> {
    let Noise { i, c } = tables.noise;
    let last = tables.b1.len() - 7;
    let mut list = Vec::new();
    for (name, above, below) in [("I", i, c), ("2I", 2 * i, 7 * c)] {
        let bound = if name == "I" { "C" } else { "7C" };
        for (what, met) in [("-1", above + 1 == below), ("", above == below && c > 0), ("+1", above == below + 1)] {
            if met {
                list.push(format!("{name}={bound}{what}"));
            }
        }
    }
    if c == 0 && i > 0 {
        list.push("C=0".to_string());
    }
    for (what, first, last) in [("from5", 5, last), ("to-6", 6, last + 1), ("all", 0, last + 6)] {
        let other = Noise::between(&tables.c13, &tables.c7, first, last).terms();
        if other != tables.trend_terms {
            list.push(format!("{what}:{}not{other}", tables.trend_terms));
        }
    }
    list
}

/// Seeds found by trying one after the other (`separate bounds`), with what
/// each series tries of the choice (`place_by_bounds`).
const SEEDS_AT_THE_BOUNDS: [(&str, Made, &[u64]); 25] = [
    ("I=C-1", four_at_the_beginning, &[287_988]),
    ("I=C", four_at_the_beginning, &[289_265]),
    ("I=C+1", four_at_the_beginning, &[291_567]),
    ("2I=7C-1", four_at_the_beginning, &[266_518]),
    ("2I=7C", four_at_the_beginning, &[272_500]),
    ("2I=7C+1", four_at_the_beginning, &[227_567]),
    ("I=C-1", uneven_edges, &[24_992]),
    ("I=C-1", stairs, &[136_729, 164_803]),
    ("I=C-1", wandering, &[74_952, 328_693]),
    ("I=C", uneven_edges, &[12_673, 53_507]),
    ("I=C", stairs, &[61_400, 91_283, 98_762, 121_796]),
    ("I=C+1", uneven_edges, &[38_480]),
    ("I=C+1", stairs, &[93, 10_062]),
    ("I=C+1", wandering, &[268_592]),
    ("2I=7C-1", uneven_edges, &[1_622, 4_100, 6_092]),
    ("2I=7C", uneven_edges, &[1_309, 1_837, 3_104, 5_093, 13_408]),
    ("2I=7C+1", uneven_edges, &[975, 2_816, 4_264]),
    ("from5:9not13", wandering, &[364, 416]),
    ("from5:13not9", wandering, &[1_689, 2_507]),
    ("from5:13not23", wandering, &[714, 1_466]),
    ("from5:23not13", wandering, &[590, 1_734]),
    ("to-6:9not13", wandering, &[49, 1_182]),
    ("to-6:13not9", wandering, &[407, 1_284]),
    ("to-6:13not23", wandering, &[1_831, 2_568]),
    ("to-6:23not13", wandering, &[385, 978]),
];

/// Four figures, at the beginning or the end of a series that is even
/// otherwise, that leave C7 without a change in the months that count, and
/// C13 not.  Of all `four_at_the_beginning` only these and the same with
/// turned signs do (seeds 153,240 and 237,384).
const UNSEEN_BY_THE_TREND: [i64; 4] = [3, -8, 8, -3];

/// Series with a C of zero and an I above zero: beginning, end or both.
fn trends_without_changes() -> Vec<Case> {
    let mut list = Vec::new();
    for (n, start, level) in [(72, 1, 0), (75, 4, 50), (114, 10, LIMIT - 8), (600, 7, -LIMIT + 8)] {
        for (name, first, last) in [("beginning", 1, 0), ("end", 0, -1), ("both", 1, 1)] {
            let mut figures = vec![level; n];
            for (place, figure) in UNSEEN_BY_THE_TREND.into_iter().enumerate() {
                figures[place] += first * figure;
                figures[n - 4 + place] += last * figure;
            }
            list.push(case(format!("unseen_at_{name}_n{n}_s{start}"), start, figures));
        }
    }
    list
}

/// Series that try the choice of the trend's length, with what they try.
pub fn series_at_the_bounds() -> Vec<(Case, &'static str)> {
    let mut list: Vec<(Case, &str)> = trends_without_changes().into_iter().map(|case| (case, "C=0")).collect();
    for (what, made, seeds) in SEEDS_AT_THE_BOUNDS {
        list.extend(seeds.iter().map(|&seed| (made(seed), what)));
    }
    list
}

/// A slow wave of whole numbers: arcs of a parabola, now above zero and now
/// below, each over so many months.
fn wave(t: usize, arc: i64, height: i64) -> i64 {
    let t = t as i64;
    let place = t % arc;
    let size = 4 * height * place * (arc - place) / (arc * arc);
    if (t / arc) % 2 == 0 {
        size
    } else {
        -size
    }
}

/// A wave with the plain seasonal in so many thousandths, and noise.
fn waving(start: u8, n: usize, arc: i64, height: i64, seasonal: i64, noise: i64) -> Vec<i64> {
    let mut dice = Dice::new(80_000 + 1_000 * n as u64 + 10 * arc as u64 + u64::from(start));
    let month = |t: usize| PLAIN_SEASONAL[calendar_month(start, t)] * seasonal / 1000;
    (0..n).map(|t| wave(t, arc, height) + month(t) + dice.between(-noise, noise)).collect()
}

/// Series made for each length of the final trend, with the terms that they
/// choose: smooth, ordinary and rough ones, and years that repeat (both sums
/// zero).
pub fn trend_lengths() -> Vec<(Case, usize)> {
    let sizes = [(72, 1), (73, 12), (84, 10), (95, 7), (114, 10), (203, 3), (341, 8), (599, 6), (600, 11)];
    let mut list = Vec::new();
    for (index, (n, start)) in sizes.into_iter().enumerate() {
        let arc = [16, 24, 40][index % 3];
        let mut add = |name: &str, terms: usize, figures: Vec<i64>| {
            list.push((case(format!("{name}_arc{arc}_n{n}_s{start}"), start, figures), terms));
        };
        // The highest wave reaches both limits, the next is cut off there.
        add("smooth_to_the_limits", 9, waving(start, n, arc, LIMIT, 0, 0));
        add("smooth_beyond_the_limits", 9, waving(start, n, arc, LIMIT, 1_000, 100));
        add("smooth", 9, waving(start, n, arc, 30_000, 1_000, 300));
        add("smooth_and_low", 9, waving(start, n, arc, 300, 20, 2));
        for height in [900, 40_000, 140_000] {
            let noise = 8 * height / arc;
            add(&format!("ordinary_{height}"), 13, waving(start, n, arc, height, height / 50, noise));
        }
        add("rough", 23, waving(start, n, arc, 0, 500, 4_000));
        add("rough_and_low", 23, waving(start, n, arc, 0, 1, 9));
        add("rough_to_the_limits", 23, waving(start, n, arc, 0, 0, LIMIT));
        add("years_repeated", 13, waving(start, n, arc, 0, 1_000, 0));
    }
    // Smooth ones for every short length and every start month.
    for n in 72..=84 {
        for start in (1..=12u8).filter(|start| (n + usize::from(*start)) % 3 == 0) {
            let arc = 16 + (n as i64 + 5 * i64::from(start)) % 9;
            let figures = waving(start, n, arc, 6_000 * i64::from(start), 1_500, 700);
            list.push((case(format!("smooth_every_start_arc{arc}_n{n}_s{start}"), start, figures), 9));
        }
    }
    list
}

/// The month from 0 to 11 that place t of a series is, January being 0.
fn calendar_month(start: u8, t: usize) -> usize {
    (usize::from(start) - 1 + t) % 12
}

/// The places of a calendar month, oldest first.
fn places_of(month: usize, start: u8, n: usize) -> Vec<usize> {
    (0..n).filter(|&t| calendar_month(start, t) == month).collect()
}

/// A plain seasonal by calendar month; the twelve values sum to zero.
pub const PLAIN_SEASONAL: [i64; 12] =
    [-6_000, -4_500, -1_000, 500, 2_500, 4_000, 3_000, -2_500, 1_500, 3_500, 2_000, -3_000];

/// A smooth series with the plain seasonal.
pub fn smooth(start: u8, n: usize) -> Vec<i64> {
    (0..n).map(|t| 100_000 + 150 * t as i64 + PLAIN_SEASONAL[calendar_month(start, t)]).collect()
}

/// How far a flooded January lies below.
pub const FLOOD: i64 = 50_000;

/// Smooth series with some Januaries flooded: name, start, figures and the
/// places of the floods.
pub fn flooded_januaries() -> Vec<(Case, Vec<usize>)> {
    let mut list = Vec::new();
    for (n, start) in [(72, 1), (72, 7), (80, 12), (114, 10), (144, 1), (600, 4)] {
        let januaries = places_of(0, start, n);
        let many = januaries.len();
        for chosen in [
            vec![0],
            vec![1],
            vec![many / 2],
            vec![many - 2],
            vec![many - 1],
            vec![0, many - 1],
            vec![1, many - 2],
            vec![0, 1, many - 2, many - 1],
            vec![1, 2, 3],
            vec![2, 3, 4],
        ] {
            let mut figures = smooth(start, n);
            let floods: Vec<usize> = chosen.iter().map(|&index| januaries[index]).collect();
            for &t in &floods {
                figures[t] -= FLOOD;
            }
            let names: Vec<String> = floods.iter().map(usize::to_string).collect();
            list.push((case(format!("flood_at{}_n{n}_s{start}", names.join("_")), start, figures), floods));
        }
    }
    list
}

/// Series in which a month of the calendar is never of full weight, or only
/// in one, two or three years of its run: everywhere else that month lies
/// far off, now above and now below.
pub fn months_far_off() -> Vec<Case> {
    let mut list = Vec::new();
    for (index, (n, start)) in [(72, 7), (77, 2), (96, 1), (120, 9), (150, 5)].into_iter().enumerate() {
        for kept in 0..=3usize {
            for month in [0, 5, 10] {
                let mut dice = Dice::new(40_000 + 100 * index as u64 + 10 * kept as u64 + month as u64);
                let mut figures = smooth(start, n);
                for figure in figures.iter_mut() {
                    *figure += dice.between(-40, 40);
                }
                let places = places_of(month, start, n);
                let quiet: Vec<usize> = (0..kept).map(|_| dice.between(0, places.len() as i64 - 1) as usize).collect();
                for (year, &t) in places.iter().enumerate() {
                    if !quiet.contains(&year) {
                        let off = 20_000 + dice.between(-3_000, 3_000);
                        figures[t] += if year % 2 == 0 { off } else { -off };
                    }
                }
                list.push(case(format!("far_off_month{month}_kept{kept}_n{n}_s{start}"), start, figures));
            }
        }
    }
    list
}

/// Ordinary series with extremes of many sizes, for every start month with
/// every short length and the longest two: whole and part weights, all sides.
pub fn extremes_from_every_start() -> Vec<Case> {
    let mut list = Vec::new();
    for n in (72..=84).chain([599, 600]) {
        for start in 1..=12u8 {
            let mut dice = Dice::new(60_000 + 100 * n as u64 + u64::from(start));
            let mut figures = ordinary(&mut dice, n, 50_000, 8_000, 400);
            for _ in 0..n / 8 {
                let place = dice.between(0, n as i64 - 1) as usize;
                figures[place] += dice.between(-3_000, 3_000);
            }
            list.push(case(format!("extremes_n{n}_s{start}"), start, figures));
        }
    }
    list
}

/// All cases of figures.
pub fn cases() -> Vec<Case> {
    let mut list = Vec::new();

    // Zeros and constants.
    for (n, start) in [(72, 1), (73, 2), (84, 7), (114, 10), (599, 12), (600, 1)] {
        list.push(case(format!("zeros_n{n}_s{start}"), start, vec![0; n]));
    }
    for value in [1, -1, 100, -99_999, LIMIT, -LIMIT] {
        for (n, start) in [(72, 1), (79, 12), (600, 6)] {
            list.push(case(format!("constant_{value}_n{n}_s{start}"), start, vec![value; n]));
        }
    }

    // The limits in turn, with several lengths of the turn.
    for block in [1usize, 2, 3, 4, 5, 6, 7, 11, 12, 13, 18, 24, 30, 36] {
        for (n, start) in [(72, 1), (84, 10), (114, 10), (599, 3), (600, 1)] {
            let figures = (0..n).map(|t| if (t / block) % 2 == 0 { LIMIT } else { -LIMIT }).collect();
            list.push(case(format!("alternating_by{block}_n{n}_s{start}"), start, figures));
        }
    }
    // One month of the year at one limit, the others at the other.
    for month in 0..12 {
        let figures = (0..120).map(|t| if t % 12 == month { LIMIT } else { -LIMIT }).collect();
        list.push(case(format!("one_month_high_{month}_n120_s{}", month + 1), month as u8 + 1, figures));
    }
    // Limits by the throw of a coin.
    for (index, n) in [72usize, 75, 84, 114, 599, 600].into_iter().enumerate() {
        for round in 0..4u64 {
            let mut dice = Dice::new(1000 + 10 * index as u64 + round);
            let start = dice.between(1, 12) as u8;
            let figures = (0..n).map(|_| if dice.roll() & 1 == 0 { LIMIT } else { -LIMIT }).collect();
            list.push(case(format!("coin_limits_{round}_n{n}_s{start}"), start, figures));
        }
    }
    // From limit to limit in a straight line, and in two.
    for (n, start) in [(72, 1), (114, 10), (600, 5)] {
        let ramp: Vec<i64> = (0..n as i64).map(|t| -LIMIT + 2 * LIMIT * t / (n as i64 - 1)).collect();
        let down: Vec<i64> = ramp.iter().map(|f| -f).collect();
        let roof: Vec<i64> =
            (0..n as i64).map(|t| LIMIT - 4 * LIMIT * (t - n as i64 / 2).abs() / n as i64).collect();
        list.push(case(format!("ramp_up_n{n}_s{start}"), start, ramp));
        list.push(case(format!("ramp_down_n{n}_s{start}"), start, down));
        list.push(case(format!("roof_n{n}_s{start}"), start, roof));
        for step_at in [1, 6, n / 2, n - 7, n - 1] {
            let figures = (0..n).map(|t| if t < step_at { -LIMIT } else { LIMIT }).collect();
            list.push(case(format!("step_at{step_at}_n{n}_s{start}"), start, figures));
        }
    }

    // Single spikes, high and of one unit, on nothing and on a constant.
    for n in [72usize, 83] {
        for place in [0, 1, 5, 6, 7, 11, 12, 13, 17, 18, 19, 30, 35, 36, n - 19, n - 13, n - 12, n - 8, n - 7, n - 6, n - 2, n - 1] {
            for (height, ground) in [(LIMIT, 0), (-LIMIT, 0), (1, 0), (-1, 0), (LIMIT, -LIMIT), (1000, 50_000)] {
                let start = (place % 12 + 1) as u8;
                let mut figures = vec![ground; n];
                figures[place] = ground + height;
                if height == LIMIT && ground == -LIMIT {
                    figures[place] = LIMIT;
                }
                list.push(case(format!("spike_{height}_on_{ground}_at{place}_n{n}_s{start}"), start, figures));
            }
        }
    }
    // A spike in the middle of a series with 51-month groups at its ends.
    for place in [0, 2, 3, 50, 51, 62, 63, 110, 111, 113] {
        let mut dice = Dice::new(50 + place as u64);
        let mut figures = ordinary(&mut dice, 114, 10_000, 2_000, 60);
        figures[place] += 5_000;
        list.push(case(format!("spike_on_ordinary_at{place}_n114_s10"), 10, figures));
    }

    // Strikes in the last months.
    for months in 1..=12usize {
        for (index, depth) in [900i64, 40_000, 2 * LIMIT].into_iter().enumerate() {
            let mut dice = Dice::new(300 + 10 * months as u64 + index as u64);
            let n = dice.between(72, 140) as usize;
            let start = dice.between(1, 12) as u8;
            let mut figures = ordinary(&mut dice, n, 60_000, 9_000, 300);
            for figure in figures.iter_mut().skip(n - months) {
                *figure -= depth;
            }
            list.push(case(format!("strike_last{months}_depth{depth}_n{n}_s{start}"), start, figures));
        }
    }

    // Small values, where spreads are 0 or 1 and limits are met exactly.
    for round in 0..24u64 {
        let mut dice = Dice::new(700 + round);
        let n = dice.between(72, 120) as usize;
        let start = dice.between(1, 12) as u8;
        let high = [1i64, 2, 3, 5, 9, 20][round as usize % 6];
        let figures = (0..n).map(|_| dice.between(-high, high)).collect();
        list.push(case(format!("small_{high}_{round}_n{n}_s{start}"), start, figures));
    }
    // Ties at half grains.
    let seeds = SEEDS_WITH_HALVES_IN_THE_MIDDLE.into_iter().chain(SEEDS_WITH_HALVES_AT_THE_ENDS);
    list.extend(seeds.map(small_random));
    list.extend(ties());
    list.extend(halves_of_the_final_trend().into_iter().map(|(_, _, _, case)| case));

    // Every start month with every short length, and the long lengths.
    for n in (72..=84).chain([114, 599, 600]) {
        for start in 1..=12u8 {
            let mut dice = Dice::new(10_000 + 100 * n as u64 + u64::from(start));
            let figures = match (n + usize::from(start)) % 4 {
                0 => ordinary(&mut dice, n, 20_000, 4_000, 200),
                1 => (0..n).map(|_| dice.between(-LIMIT, LIMIT)).collect(),
                2 => (0..n).map(|_| dice.between(-7, 7)).collect(),
                _ => {
                    let mut figures = ordinary(&mut dice, n, 100_000, 50_000, 1_000);
                    for _ in 0..n / 20 {
                        let place = dice.between(0, n as i64 - 1) as usize;
                        figures[place] += dice.between(-20_000, 20_000);
                    }
                    figures
                }
            };
            list.push(case(format!("every_start_n{n}_s{start}"), start, figures));
        }
    }

    // Extreme months, for the replacing in pass B.
    list.extend(flooded_januaries().into_iter().map(|(case, _)| case));
    list.extend(months_far_off());
    list.extend(extremes_from_every_start());

    // The length of the final trend.
    list.extend(trend_lengths().into_iter().map(|(case, _)| case));
    list.extend(series_at_the_bounds().into_iter().map(|(case, _)| case));

    // The seasonal filter of pass D.
    list.extend(seasonal_choices().into_iter().map(|(case, _)| case));
    list.extend(seasonal_bounds().into_iter().map(|(case, _)| case));
    list.extend(seasonals_without_changes());

    list.push(Case { name: "book_n114_s10".to_string(), start: 10, figures: book_series() });
    list
}

/// All cases of grains for a single pass.
pub fn grain_cases() -> Vec<GrainCase> {
    let mut list = Vec::new();
    let mut add = |name: String, grains: Vec<i64>| list.push(GrainCase { name, grains });
    for n in [72usize, 73, 77, 84, 114, 599, 600] {
        add(format!("zeros_n{n}"), vec![0; n]);
        add(format!("alternating_n{n}"), (0..n).map(|t| if t % 2 == 0 { 200_000_000 } else { -200_000_000 }).collect());
        add(format!("half_years_n{n}"), (0..n).map(|t| if (t / 6) % 2 == 0 { 200_000_000 } else { -200_000_000 }).collect());
        for (index, high) in [1i64, 6, 30, 500, 8398, 1_000_000, 1_000_000_000].into_iter().enumerate() {
            let mut dice = Dice::new(n as u64 * 31 + index as u64);
            add(format!("random_{high}_n{n}"), (0..n).map(|_| dice.between(-high, high)).collect());
        }
    }
    // Sums that meet halves of a grain: 6 and 12 for the 24ths, 30 for the
    // 60ths, half the divisor of the Henderson weights, half a million.
    for height in [6i64, -6, 12, -12, 15, 30, -30, 8398, -8398, 500_000, -500_000] {
        for place in [0usize, 3, 6, 12, 20, 36, 60, 65, 71] {
            let mut grains = vec![0; 72];
            grains[place] = height;
            add(format!("half_{height}_at{place}_n72"), grains);
        }
    }
    list
}

#[cfg(test)]
mod tests {
    use super::*;
    use crate::calendar::labels;
    use std::collections::BTreeSet;

    #[test]
    fn names_are_different_and_series_are_allowed() {
        let list = cases();
        let names: BTreeSet<&str> = list.iter().map(|c| c.name.as_str()).collect();
        assert_eq!(names.len(), list.len());
        let mut starts = BTreeSet::new();
        let mut lengths = BTreeSet::new();
        for case in &list {
            assert!((72..=600).contains(&case.figures.len()));
            assert!((1..=12).contains(&case.start));
            assert!(case.figures.iter().all(|&f| (-200_000..=200_000).contains(&f)));
            starts.insert(case.start);
            lengths.insert(case.figures.len());
        }
        assert_eq!(starts.len(), 12);
        for n in (72..=84).chain([114, 599, 600]) {
            assert!(lengths.contains(&n));
        }
        let grain_names: BTreeSet<String> = grain_cases().into_iter().map(|c| c.name).collect();
        assert_eq!(grain_names.len(), grain_cases().len());
    }

    #[test]
    fn a_flood_is_a_january() {
        assert_eq!(PLAIN_SEASONAL.iter().sum::<i64>(), 0);
        for (case, floods) in flooded_januaries() {
            let labels = labels(case.start, case.figures.len());
            let dry = smooth(case.start, case.figures.len());
            for (t, label) in labels.iter().enumerate() {
                let below = dry[t] - i64::from(case.figures[t]);
                assert_eq!(below, if floods.contains(&t) { FLOOD } else { 0 }, "{} month {t}", case.name);
                assert!(below == 0 || label.month == 1);
            }
        }
    }

    #[test]
    fn the_same_at_every_run() {
        let (a, b) = (cases(), cases());
        for (x, y) in a.iter().zip(&b) {
            assert_eq!(x.figures, y.figures);
        }
        assert_eq!(book_series().len(), 114);
    }
}
