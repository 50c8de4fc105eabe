//! A plain integer program for the rules, written for speed in the usual ways: constant divisors and constant rows, a sliding sum for 2×12 and
//! for the full row of 3×9, no test of the row inside a filter, sums of squares once for a year, each group once, a list of the places of full
//! weight once for a month's run, only what leaves the sums when a year is set aside. Tables are in grains. It works in the tables that the
//! caller lends and the front of the scratch; of its own it has the sizes of the months, the sums of the years and the places of a run.

use crate::checks::{check, scratch_for};
use crate::{Answer, Lent};

const UNIT: i64 = 1000;
const FULL_WEIGHT: u16 = 1000;

/// More grains than any table can hold. With LIFT * d added a sum over d is never negative, and an unsigned division cuts it downwards.
const LIFT: i64 = 1 << 42;

/// s / D to the nearest whole number of grains, a half to the even one.
fn nearest<const D: i64>(s: i64) -> i64 {
    nearest_of(s, D)
}

/// A half goes up first, and from an odd number back to the even one below. Only an even divisor has halves.
fn nearest_of(s: i64, d: i64) -> i64 {
    let lifted = (s + d / 2 + LIFT * d) as u64;
    let up = (lifted / d as u64) as i64 - LIFT;
    let half = d % 2 == 0 && lifted % d as u64 == 0;
    if half { up & !1 } else { up }
}

/// The sum of w[k] x[k * step].
fn dot<const N: usize>(w: &[i64; N], x: &[i64], step: usize) -> i64 {
    let mut sum = 0;
    for k in 0..N {
        sum += w[k] * x[k * step];
    }
    sum
}

/// A row over D for as many places as out has, the first window being the first of x.
fn filter<const N: usize, const D: i64>(row: &[i64; N], x: &[i64], step: usize, out: &mut [i64]) {
    for (w, out) in x.windows((N - 1) * step + 1).zip(out) {
        *out = nearest::<D>(dot(row, w, step));
    }
}

/// 2×12 of the places with six on each side.
fn two_by_twelve(x: &[i64], out: &mut [i64]) {
    let mut year: i64 = x[..12].iter().sum();
    for ((out, leaving), entering) in out.iter_mut().zip(x).zip(&x[12..]) {
        let next = year - leaving + entering;
        *out = nearest::<24>(year + next);
        year = next;
    }
}

/// 3×3 of each month's run.
fn three_by_three(x: &[i64], out: &mut [i64]) {
    let n = x.len();
    filter::<3, 27>(&[11, 11, 5], x, 12, &mut out[..12]);
    filter::<4, 27>(&[7, 10, 7, 3], x, 12, &mut out[12..24]);
    filter::<5, 27>(&[3, 6, 9, 6, 3], x, 12, &mut out[24..n - 24]);
    filter::<4, 27>(&[3, 7, 10, 7], &x[n - 48..], 12, &mut out[n - 24..n - 12]);
    filter::<3, 27>(&[5, 11, 11], &x[n - 36..], 12, &mut out[n - 12..]);
}

/// 3×5 of each month's run.
fn three_by_five(x: &[i64], out: &mut [i64]) {
    let n = x.len();
    filter::<4, 60>(&[17, 17, 17, 9], x, 12, &mut out[..12]);
    filter::<5, 60>(&[15, 15, 15, 11, 4], x, 12, &mut out[12..24]);
    filter::<6, 60>(&[9, 13, 13, 13, 8, 4], x, 12, &mut out[24..36]);
    filter::<7, 60>(&[4, 8, 12, 12, 12, 8, 4], x, 12, &mut out[36..n - 36]);
    filter::<6, 60>(&[4, 8, 13, 13, 13, 9], &x[n - 72..], 12, &mut out[n - 36..n - 24]);
    filter::<5, 60>(&[4, 11, 15, 15, 15], &x[n - 60..], 12, &mut out[n - 24..n - 12]);
    filter::<4, 60>(&[9, 17, 17, 17], &x[n - 48..], 12, &mut out[n - 12..]);
}

/// The full row of 3×9: from one year to the next its sum loses three values and gains three.
fn nine_full(x: &[i64], out: &mut [i64]) {
    for (t, sum) in out.iter_mut().take(12).enumerate() {
        *sum = dot(&[1, 2, 3, 3, 3, 3, 3, 3, 3, 2, 1], &x[t..], 12);
    }
    for t in 12..out.len() {
        let lost = x[t - 12] + x[t] + x[t + 12];
        out[t] = out[t - 12] - lost + x[t + 96] + x[t + 108] + x[t + 120];
    }
    for sum in out {
        *sum = nearest::<27>(*sum);
    }
}

/// The row of 3×9 for so many values before and after, the first window being the first of x. A row of p weights is over 27p.
fn nine_row(before: usize, after: usize, x: &[i64], out: &mut [i64]) {
    match (before, after) {
        (0, 5) => filter::<6, 162>(&[30, 30, 30, 30, 24, 18], x, 12, out),
        (1, 4) => filter::<6, 162>(&[28, 28, 28, 28, 28, 22], x, 12, out),
        (1, 5) => filter::<7, 189>(&[30, 30, 30, 30, 30, 23, 16], x, 12, out),
        (2, 3) => filter::<6, 162>(&[27, 27, 27, 27, 27, 27], x, 12, out),
        (2, 4) => filter::<7, 189>(&[28, 28, 28, 28, 28, 28, 21], x, 12, out),
        (2, 5) => filter::<8, 216>(&[30, 30, 30, 30, 30, 30, 22, 14], x, 12, out),
        (3, 2) => filter::<6, 162>(&[27, 27, 27, 27, 27, 27], x, 12, out),
        (3, 3) => filter::<7, 189>(&[27, 27, 27, 27, 27, 27, 27], x, 12, out),
        (3, 4) => filter::<8, 216>(&[28, 28, 28, 28, 28, 28, 28, 20], x, 12, out),
        (3, 5) => filter::<9, 243>(&[30, 30, 30, 30, 30, 30, 30, 21, 12], x, 12, out),
        (4, 1) => filter::<6, 162>(&[22, 28, 28, 28, 28, 28], x, 12, out),
        (4, 2) => filter::<7, 189>(&[21, 28, 28, 28, 28, 28, 28], x, 12, out),
        (4, 3) => filter::<8, 216>(&[20, 28, 28, 28, 28, 28, 28, 28], x, 12, out),
        (4, 4) => filter::<9, 243>(&[20, 29, 29, 29, 29, 29, 29, 29, 20], x, 12, out),
        (4, 5) => filter::<10, 270>(&[21, 31, 31, 31, 31, 31, 31, 31, 21, 11], x, 12, out),
        (5, 0) => filter::<6, 162>(&[18, 24, 30, 30, 30, 30], x, 12, out),
        (5, 1) => filter::<7, 189>(&[16, 23, 30, 30, 30, 30, 30], x, 12, out),
        (5, 2) => filter::<8, 216>(&[14, 22, 30, 30, 30, 30, 30, 30], x, 12, out),
        (5, 3) => filter::<9, 243>(&[12, 21, 30, 30, 30, 30, 30, 30, 30], x, 12, out),
        (5, 4) => filter::<10, 270>(&[11, 21, 31, 31, 31, 31, 31, 31, 31, 21], x, 12, out),
        _ => nine_full(x, out),
    }
}

/// 3×9 of each month's run, a stretch of months with the same row at a time.
pub fn three_by_nine(x: &[i64], out: &mut [i64]) {
    let (n, mut t) = (x.len(), 0);
    while t < n {
        let (before, after) = ((t / 12).min(5), ((n - 1 - t) / 12).min(5));
        let end = (n - 12 * after).min(if before < 5 { 12 * before + 12 } else { n });
        nine_row(before, after, &x[t - 12 * before..], &mut out[t..end]);
        t = end;
    }
}

/// 3×3, 3×5 or 3×9, named by its second number.
fn three_by(span: usize, x: &[i64], out: &mut [i64]) {
    match span {
        3 => three_by_three(x, out),
        5 => three_by_five(x, out),
        _ => three_by_nine(x, out),
    }
}

// The middle rows of Henderson's filters; Musgrave's rows in millionths, where 0, 1 and more values follow, with zeros before the shorter ones.

const HENDERSON_9: [i64; 9] = [-99, -24, 288, 648, 805, 648, 288, -24, -99];
const MUSGRAVE_9: [[i64; 8]; 4] = [
    [0, 0, 0, -155536, -33835, 185356, 424292, 579723],
    [0, 0, -49405, -10556, 125783, 281868, 354447, 297863],
    [0, -22615, -209, 119687, 259329, 315465, 242438, 85905],
    [-30823, -4255, 119804, 263608, 323907, 255042, 102671, -29954],
];

const HENDERSON_13: [i64; 13] = [-325, -468, 0, 1100, 2475, 3600, 4032, 3600, 2475, 1100, 0, -468, -325];
const MUSGRAVE_13: [[i64; 12]; 6] = [
    [0, 0, 0, 0, 0, -91849, -58102, 12022, 119773, 243898, 353139, 421119],
    [0, 0, 0, 0, -42704, -38630, 1822, 79902, 174355, 253923, 292233, 279099],
    [0, 0, 0, -16033, -24868, 2674, 67844, 149387, 216046, 241446, 215403, 148101],
    [0, 0, -8135, -20191, 4132, 66082, 144406, 207845, 230023, 200762, 130241, 44835],
    [0, -10993, -22037, 3297, 66259, 145594, 210045, 233236, 204985, 135475, 51080, -16941],
    [-16430, -25768, 1272, 65939, 146980, 213136, 238034, 211488, 143684, 60995, -5321, -34009],
];

const HENDERSON_23: [i64; 23] = [
    -4278, -10918, -15687, -14527, -4948, 13430, 38933, 68303, 97395, 121949, 138318, 144060,
    138318, 121949, 97395, 68303, 38933, 13430, -4948, -14527, -15687, -10918, -4278,
];
const MUSGRAVE_23: [[i64; 22]; 11] = [
    [0, 0, 0, 0, 0, 0, 0, 0, 0, 0, -76899, -63851, -48931, -28084, 1184, 39250, 84441, 133500, 182280, 226522, 262579, 288009],
    [0, 0, 0, 0, 0, 0, 0, 0, 0, -45197, -41304, -35539, -23846, -3734, 25178, 61214, 101118, 140743, 175830, 202732, 219006, 223799],
    [0, 0, 0, 0, 0, 0, 0, 0, -22931, -24858, -24915, -19043, -4751, 18340, 48555, 82638, 116443, 145709, 166791, 177247, 176216, 164559],
    [0, 0, 0, 0, 0, 0, 0, -8614, -13965, -17445, -14996, -4128, 15539, 42331, 72990, 103372, 129214, 146872, 153904, 149450, 134370, 111106],
    [0, 0, 0, 0, 0, 0, -654, -7761, -12996, -12303, -3190, 14721, 39758, 68662, 97287, 121374, 137277, 142553, 136344, 119509, 94489, 64930],
    [0, 0, 0, 0, 0, 2580, -5189, -11087, -11056, -2605, 14644, 39018, 67260, 95223, 118648, 133888, 138501, 131631, 114133, 88451, 58230, 27730],
    [0, 0, 0, 0, 2677, -5110, -11026, -11014, -2582, 14648, 39004, 67227, 95171, 118578, 133799, 138394, 131504, 113988, 88287, 58047, 27529, 879],
    [0, 0, 0, 1081, -6420, -12050, -11751, -3033, 14484, 39126, 67635, 95866, 119559, 135067, 139948, 133345, 116115, 90700, 60747, 30516, 4152, -15087],
    [0, 0, -1026, -8171, -13445, -12790, -3715, 14158, 39156, 68021, 96609, 120657, 136521, 141759, 135512, 118638, 93579, 63982, 34107, 8099, -10783, -20868],
    [0, -2820, -9678, -14665, -13724, -4363, 13797, 39082, 68234, 97108, 121443, 137594, 143119, 137158, 120571, 95799, 66489, 36900, 11179, -7417, -17214, -18592],
    [-3900, -10594, -15417, -14313, -4788, 13536, 38984, 68300, 97337, 121836, 138151, 143840, 138042, 121618, 97010, 67863, 38438, 12881, -5552, -15186, -16400, -11686],
];

/// The middle row of N terms over D, and for each end the H rows of up to M terms: M is N - 1, H half of it.
fn with_ends<const N: usize, const D: i64, const M: usize, const H: usize>(row: &[i64; N], ends: &[[i64; M]; H], x: &[i64], out: &mut [i64]) {
    let n = x.len();
    filter::<N, D>(row, x, 1, &mut out[H..n - H]);
    let (first, last) = (&x[..M], &x[n - M..]);
    for (k, row) in ends.iter().enumerate() {
        out[k] = nearest::<1_000_000>((0..M).map(|i| row[i] * first[M - 1 - i]).sum());
        out[n - 1 - k] = nearest::<1_000_000>((0..M).map(|i| row[i] * last[i]).sum());
    }
}

/// Henderson's 9, 13 or 23 terms, with Musgrave's ends.
fn henderson(terms: usize, x: &[i64], out: &mut [i64]) {
    match terms {
        9 => with_ends::<9, 2431, 8, 4>(&HENDERSON_9, &MUSGRAVE_9, x, out),
        13 => with_ends::<13, 16796, 12, 6>(&HENDERSON_13, &MUSGRAVE_13, x, out),
        _ => with_ends::<23, 1_000_000, 22, 11>(&HENDERSON_23, &MUSGRAVE_23, x, out),
    }
}

/// The sum of the sizes of the changes from month to month, but for the six months at each end.
pub fn changes(x: &[i64]) -> i64 {
    x[6..x.len() - 6].windows(2).map(|pair| (pair[1] - pair[0]).abs()).sum()
}

/// The terms of the final trend's filter, by the changes of C13 and of C7.
pub fn terms(i: i64, c: i64) -> usize {
    match (i, c) {
        (0, 0) => 13,
        _ if i < c => 9,
        _ if 2 * i < 7 * c => 13,
        _ => 23,
    }
}

/// The sum of the sizes of the changes over twelve months.
pub fn yearly_changes(x: &[i64]) -> i64 {
    x.iter().zip(&x[12..]).map(|(x, later)| (later - x).abs()).sum()
}

/// The span of the seasonal filter, by the changes over twelve months of C13 and of C10, where they give an answer.
pub fn span(i: i64, s: i64) -> Option<usize> {
    match (i, s) {
        (0, 0) => Some(5),
        _ if 2 * i < 5 * s => Some(3),
        _ if 7 * s < 2 * i && 2 * i < 11 * s => Some(5),
        _ if 2 * i >= 13 * s => Some(9),
        _ => None,
    }
}

/// The span of the seasonal filter of pass D, with the question that gave it, from 1 on (7 where the sixth had no answer either), and the sums
/// of the first question. From one question to the next the changes into the last twelve months leave the sums.
pub fn choose_span(c13: &[i64], c10: &[i64]) -> (usize, usize, [i64; 2]) {
    let first = [yearly_changes(c13), yearly_changes(c10)];
    let ([mut i, mut s], mut kept) = (first, c13.len());
    for question in 1..6 {
        if let Some(span) = span(i, s) {
            return (span, question, first);
        }
        i -= yearly_changes(&c13[kept - 24..kept]);
        s -= yearly_changes(&c10[kept - 24..kept]);
        kept -= 12;
    }
    let (span, question) = span(i, s).map_or((5, 7), |span| (span, 6));
    (span, question, first)
}

fn minus(x: &[i64], y: &[i64], out: &mut [i64]) {
    for ((out, x), y) in out.iter_mut().zip(x).zip(y) {
        *out = x - y;
    }
}

/// r less its 2×12 values m, the nearest of them repeated at both ends.
fn less_level(r: &[i64], m: &[i64], out: &mut [i64]) {
    let n = r.len();
    for t in 0..6 {
        out[t] = r[t] - m[0];
        out[n - 6 + t] = r[n - 6 + t] - m[n - 13];
    }
    minus(&r[6..n - 6], m, &mut out[6..n - 6]);
}

/// The spread of months of these sizes, but for those with twice their size above the limit. Some month is not.
fn second_spread(sizes: &[u64], limit: u64) -> u64 {
    let (mut sum, mut count) = (0, 0);
    for &a in sizes {
        if 2 * a <= limit {
            sum += a * a;
            count += 1;
        }
    }
    (sum / count).isqrt()
}

fn weight(spread: u64, a: u64) -> u16 {
    if spread == 0 {
        return if a == 0 { FULL_WEIGHT } else { 0 };
    }
    if 2 * a > 5 * spread {
        return 0;
    }
    if 2 * a < 3 * spread {
        return FULL_WEIGHT;
    }
    (2500 - (2000 * a + spread) / (2 * spread)) as u16
}

/// The weights of an irregular.
fn weigh(irregular: &[i64], start: u8, weights: &mut [u16]) {
    let n = irregular.len();
    let before = start as usize - 1;
    let years = (before + n - 1) / 12 + 1;
    let first = |year: usize| (12 * year).saturating_sub(before).min(n);
    let (mut sizes, mut squares) = ([0; 600], [0; 51]);
    for (size, &irregular) in sizes.iter_mut().zip(irregular) {
        *size = (irregular.unsigned_abs() + 500) / 1000;
    }
    for (year, sum) in squares[..years].iter_mut().enumerate() {
        *sum = sizes[first(year)..first(year + 1)].iter().map(|a| a * a).sum();
    }
    for centre in 2..years - 2 {
        let group = &sizes[first(centre - 2)..first(centre + 3)];
        let sum: u64 = squares[centre - 2..centre + 3].iter().sum();
        let spread = second_spread(group, 5 * (sum / group.len() as u64).isqrt());
        let lo = if centre == 2 { 0 } else { first(centre) };
        let hi = if centre == years - 3 { n } else { first(centre + 1) };
        for (weight_of, &a) in weights[lo..hi].iter_mut().zip(&sizes[lo..hi]) {
            *weight_of = weight(spread, a);
        }
    }
}

/// Replaces the values of low weight by means over their month's run. The neighbours of a value stand side by side in the list of the run's
/// places of full weight: two on each side of it, or the three nearest. A place of low weight is listed with the number of full ones before.
fn replace(si: &mut [i64], weights: &[u16]) {
    let (mut full, mut low) = ([0; 50], [(0, 0); 50]);
    for month in 0..12 {
        let (mut fulls, mut lows) = (0, 0);
        for t in (month..weights.len()).step_by(12) {
            if weights[t] == FULL_WEIGHT {
                full[fulls] = t;
                fulls += 1;
            } else {
                low[lows] = (t, fulls);
                lows += 1;
            }
        }
        let full = &full[..fulls];
        for &(t, earlier) in &low[..lows] {
            let (mut lo, mut hi) = (earlier, earlier);
            if lo >= 2 && hi + 2 <= fulls {
                (lo, hi) = (lo - 2, hi + 2);
            } else {
                while hi - lo < fulls.min(3) {
                    if hi == fulls || lo > 0 && t - full[lo - 1] <= full[hi] - t {
                        lo -= 1;
                    } else {
                        hi += 1;
                    }
                }
            }
            if lo < hi {
                let neighbours: i64 = full[lo..hi].iter().map(|&t| si[t]).sum();
                let w = weights[t] as i64;
                si[t] = nearest_of(w * si[t] + 1000 * neighbours, w + 1000 * (hi - lo) as i64);
            }
        }
    }
}

/// The seasonal of si: the filter of each month's run, less its level. r and m are work space.
fn seasonal(filter: impl Fn(&[i64], &mut [i64]), si: &[i64], r: &mut [i64], m: &mut [i64], s: &mut [i64]) {
    let n = si.len();
    let (r, m) = (&mut r[..n], &mut m[..n - 12]);
    filter(si, r);
    two_by_twelve(r, m);
    less_level(r, m, s);
}

/// Replaces the extreme values of si, as the weights of what the seasonal s leaves of it tell.
fn replace_extremes(si: &mut [i64], s: &[i64], start: u8, left: &mut [i64], weights: &mut [u16]) {
    minus(si, s, left);
    weigh(left, start, weights);
    replace(si, weights);
}

/// Steps 1 to 7, with the filter of a span in step 6: T2 in t and S2 in s; si, r and m are work space. Extreme values are replaced where a start
/// month is given with room for weights.
fn pass(x: &[i64], span: usize, [si, r, m, t, s]: [&mut [i64]; 5], mut extremes: Option<(u8, &mut [u16])>) {
    let n = x.len();
    let e = n - 12;
    {
        let (si, s) = (&mut si[..e], &mut s[6..n - 6]);
        two_by_twelve(x, &mut r[..e]);
        minus(&x[6..n - 6], r, si);
        seasonal(three_by_three, si, r, m, s);
        if let Some((start, weights)) = &mut extremes {
            replace_extremes(si, s, (*start + 5) % 12 + 1, &mut r[..e], &mut weights[..e]);
            seasonal(three_by_three, si, r, m, s);
        }
    }
    s.copy_within(12..18, 0);
    s.copy_within(n - 18..n - 12, n - 6);
    minus(x, s, r);
    henderson(13, r, t);
    minus(x, t, si);
    seasonal(|si, r| three_by(span, si, r), si, r, m, s);
    if let Some((start, weights)) = extremes {
        replace_extremes(si, s, start, r, weights);
        seasonal(|si, r| three_by(span, si, r), si, r, m, s);
    }
}

/// B1 less the corrections in x, from the irregular that T2 in t and S2 in s leave, which is worked in r; and its weights.
fn revise(figures: &[i32], start: u8, x: &mut [i64], [r, t, s]: [&mut [i64]; 3], weights: &mut [u16]) {
    for (((r, &figure), t), s) in r.iter_mut().zip(figures).zip(&*t).zip(&*s) {
        *r = UNIT * figure as i64 - s - t;
    }
    weigh(r, start, weights);
    for (((x, &figure), &irregular), &weight) in x.iter_mut().zip(figures).zip(&*r).zip(&*weights) {
        *x = UNIT * figure as i64 - nearest::<1000>(irregular * (FULL_WEIGHT - weight) as i64);
    }
}

/// What was chosen on the way. All of it is 0 after a refusal.
#[derive(Clone, Copy, Debug, Default, PartialEq)]
pub struct Told {
    /// The sums I and C that choose the final trend's filter.
    pub trend: [i64; 2],
    /// The span of pass D's seasonal filter, the question that gave it, and the sums I and S of the first.
    pub seasonal: (usize, usize, [i64; 2]),
}

/// The three passes.
pub fn decompose(figures: &[i32], start: u8, lent: &mut Lent) -> Answer {
    decompose_told(figures, start, lent).0
}

/// The three passes; the answer and the sums I and C.
pub fn decompose_telling(figures: &[i32], start: u8, lent: &mut Lent) -> (Answer, [i64; 2]) {
    let (answer, told) = decompose_told(figures, start, lent);
    (answer, told.trend)
}

/// The three passes; the answer and what was chosen.
pub fn decompose_told(figures: &[i32], start: u8, lent: &mut Lent) -> (Answer, Told) {
    let Lent { d10, d11, d12, d13, b17, c17, scratch } = lent;
    let lengths = [d10.len(), d11.len(), d12.len(), d13.len(), b17.len(), c17.len()];
    let answer = check(figures, start, lengths, scratch.len());
    if answer.0 != 0 {
        return (answer, Told::default());
    }
    let n = figures.len();
    let (x, si) = scratch[..2 * n].split_at_mut(n);
    for (x, &figure) in x.iter_mut().zip(figures) {
        *x = UNIT * figure as i64;
    }
    pass(x, 5, [si, d11, d13, d12, d10], Some((start, b17)));
    revise(figures, start, x, [d11, d12, d10], b17);
    pass(x, 5, [si, d11, d13, d12, d10], None);
    revise(figures, start, x, [d11, d12, d10], c17);
    // C13, C7 and C10 stand in d11, d12 and d10.
    let trend = [changes(d11), changes(d12)];
    let seasonal = choose_span(d11, d10);
    pass(x, seasonal.0, [si, d11, d13, d12, d10], None);
    minus(x, d10, d11);
    henderson(terms(trend[0], trend[1]), d11, d12);
    for (((d11, d13), &figure), (d10, d12)) in d11.iter_mut().zip(d13).zip(figures).zip(d10.iter().zip(&*d12)) {
        *d11 = UNIT * figure as i64 - d10;
        *d13 = *d11 - d12;
    }
    scratch[..scratch_for(n)].fill(0);
    (answer, Told { trend, seasonal })
}
