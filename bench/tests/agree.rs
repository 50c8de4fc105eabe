//! The plain program gives what ours gives, to the last entry of every lent slice.

use bench::series::{at_the_limits, flat, flooded, moving, odd, ordinary, raised_ends, random, rough_months, up_and_down, waves, Dice, Series};
use bench::{ours, plain, Answer, Lent};

/// Entries that no program leaves behind by chance.
fn marked(n: usize, tail: usize) -> Lent {
    let mut lent = Lent::new(n, 77, 77);
    lent.scratch.resize(lent.scratch.len() + tail, 78);
    lent
}

/// Works one series with both; the answer.
fn same(name: &str, figures: &[i32], start: u8, lent: &Lent) -> Answer {
    let (mut left, mut right) = (lent.clone(), lent.clone());
    let answer = ours::decompose(figures, start, &mut left);
    assert_eq!(plain::decompose(figures, start, &mut right), answer, "{name}: the answer");
    assert!(left == right, "{name}: a lent slice");
    if answer.0 != 0 {
        assert!(left == *lent, "{name}: a refusal changes nothing");
    } else {
        let (front, tail) = left.scratch.split_at(5 * figures.len());
        assert!(front.iter().all(|&entry| entry == 0), "{name}: the scratch is zeroed");
        assert!(tail == &lent.scratch[front.len()..], "{name}: its tail stays");
    }
    answer
}

/// The scratch is as long as asked, a little longer, or has 8n entries.
fn agree(name: &str, series: &Series) {
    let n = series.figures.len();
    let tail = [0, 1, 2, 3 * n][(n + series.start as usize) % 4];
    assert_eq!(same(name, &series.figures, series.start, &marked(n, tail)), (0, 0), "{name}");
}

#[test]
fn ordinary_series() {
    let mut dice = Dice::new(1);
    for seed in 0..300 {
        let n = dice.between(72, 600) as usize;
        let level = [20, 900, 20_000, 150_000][seed as usize % 4];
        let spread = level / [1, 5, 30, 300][dice.between(0, 3) as usize];
        agree(&format!("ordinary {seed}, {n} months"), &ordinary(seed, n, level, spread));
    }
}

#[test]
fn any_figures_up_to_the_limits() {
    let mut dice = Dice::new(2);
    for seed in 0..240 {
        let n = dice.between(72, 600) as usize;
        let size = [1, 3, 40, 5_000, 200_000][seed as usize % 5];
        agree(&format!("random {seed}, {n} months"), &random(seed, n, size));
        agree(&format!("at the limits {seed}, {n} months"), &at_the_limits(seed, n));
    }
}

#[test]
fn flat_series_with_and_without_spikes() {
    let mut dice = Dice::new(3);
    for seed in 0..120 {
        let n = dice.between(72, 600) as usize;
        let figure = [0, 1, -1, 100, 200_000, -200_000][seed as usize % 6];
        agree(&format!("flat {seed}, {n} months"), &flat(seed, n, figure, dice.between(0, 6) as usize));
    }
    // A spike of one unit at each place.
    for t in 0..72 {
        let mut series = flat(1, 72, 50, 0);
        series.figures[t] += 1;
        agree(&format!("one unit at {t}"), &series);
    }
}

#[test]
fn begun_years_from_every_start_month() {
    for n in (72..=97).chain([114, 121, 240, 355, 588, 589, 599, 600]) {
        for start in 1..=12 {
            let seed = 100 * n as u64 + start as u64;
            let mut series = ordinary(seed, n, 30_000, 400);
            series.start = start;
            agree(&format!("{n} months from {start}"), &series);
            // Extremes in the first and last year.
            let mut dice = Dice::new(seed);
            for _ in 0..4 {
                series.figures[dice.between(0, 11) as usize] = dice.between(-200_000, 200_000) as i32;
                series.figures[n - 1 - dice.between(0, 11) as usize] = dice.between(-200_000, 200_000) as i32;
            }
            agree(&format!("{n} months from {start}, extremes"), &series);
        }
    }
}

#[test]
fn many_extremes_and_floods() {
    let mut dice = Dice::new(4);
    for seed in 0..1200 {
        let n = dice.between(72, if seed % 2 == 0 { 130 } else { 600 }) as usize;
        let (one_in, flood) = ([2, 3, 5, 8, 15, 40][seed as usize % 6], [0, 6, 40][dice.between(0, 2) as usize]);
        agree(&format!("flooded {seed}, {n} months"), &flooded(seed, n, one_in, flood));
    }
}

#[test]
fn runs_with_few_values_of_full_weight() {
    for n in (72..=97).chain([114, 240, 355, 588, 589, 599, 600]) {
        for start in 1..=12 {
            let mut dice = Dice::new(100 * n as u64 + start as u64);
            // Zeros in step.
            for gap in [5, 13, 23, 29, 37, 49] {
                let first = dice.between(0, gap - 1) as usize;
                let series = up_and_down(start, n, 1, |t| t % gap as usize == first);
                agree(&format!("{n} months from {start}, a zero every {gap}"), &series);
            }
            // Zeros by chance, more or fewer, and one in each fourth year.
            for one_in in [2, 3, 5, 9, 20, 60] {
                let units = dice.between(1, 2) as i32;
                let mut series = up_and_down(start, n, units, |t| t % 48 == 30 || dice.between(1, one_in) == 1);
                agree(&format!("{n} months from {start}, {units} or one in {one_in} zero"), &series);
                series.figures.iter_mut().for_each(|figure| *figure += dice.between(-1, 1) as i32 * (dice.between(1, 9) == 1) as i32);
                agree(&format!("{n} months from {start}, {units} or one in {one_in} zero, disturbed"), &series);
            }
        }
    }
}

/// The sums I and C of a series (METHOD 4.5).
fn sums(series: &Series) -> [i64; 2] {
    plain::decompose_telling(&series.figures, series.start, &mut marked(series.figures.len(), 0)).1
}

#[test]
fn final_trends_of_9_13_and_23_terms() {
    let mut counts = [(9, 0), (13, 0), (23, 0)];
    for n in (72..=97).chain([114, 121, 240, 355, 588, 589, 599, 600]) {
        for start in 1..=12 {
            let seed = 100 * n as u64 + start as u64;
            let height = [50, 2_000, 60_000][seed as usize % 3];
            // The same throughout; a smooth one with an extreme; from smooth to rough.
            let mut extreme = waves(seed, n, height, height / 50);
            extreme.figures[Dice::new(seed).between(0, n as i64 - 1) as usize] += height as i32 / 2;
            let wavy = [500, 40, 15, 6, 3, 1].map(|part| waves(seed, n, height, height / part));
            for (k, mut series) in [flat(seed, n, height as i32, 0), extreme].into_iter().chain(wavy).enumerate() {
                series.start = start;
                agree(&format!("{n} months from {start}, wavy {k}"), &series);
                let [i, c] = sums(&series);
                counts.iter_mut().filter(|count| count.0 == plain::terms(i, c)).for_each(|count| count.1 += 1);
            }
        }
    }
    assert!(counts.iter().all(|count| count.1 >= 500), "{counts:?}");
}

/// I is C, then one grain less; 2I is 7C, then one grain less. The seeds were searched for.
#[test]
fn final_trends_where_the_terms_change() {
    for (seed, spread, times, less, terms) in
        [(48_817, 4, [1, 1], 0, 13), (229_987, 4, [1, 1], 1, 9), (436_308, 8, [2, 7], 0, 23), (544_925, 8, [2, 7], 1, 13)]
    {
        let series = waves(seed, 72, 50, spread);
        agree(&format!("waves {seed}"), &series);
        let [i, c] = sums(&series);
        assert_eq!((times[1] * c - times[0] * i, plain::terms(i, c)), (less, terms), "waves {seed}");
    }
}

/// The pencil cases of the sums and of the terms (METHOD 11).
#[test]
fn changes_and_terms() {
    let squares: Vec<i64> = (0..16).map(|t| if t % 2 == 0 { -t * t } else { t * t }).collect();
    assert_eq!([14, 15, 16].map(|n| plain::changes(&squares[..n])), [85, 198, 343]);
    let sums = [(0, 0), (0, 1), (99, 100), (100, 100), (349, 100), (350, 100), (1, 0)];
    assert_eq!(sums.map(|(i, c)| plain::terms(i, c)), [13, 9, 9, 13, 13, 23, 23]);
}

/// The span of pass D's seasonal filter, the question that gave it, and the sums I and S of the first question (METHOD 4.6).
fn seasonal(series: &Series) -> (usize, usize, [i64; 2]) {
    plain::decompose_told(&series.figures, series.start, &mut marked(series.figures.len(), 0)).1.seasonal
}

/// How often each span was given by each question, over so many series with spreads in a range, and up to so many per cent of them in the last years.
fn count_spans(n: usize, times: usize, spreads: [i64; 2], percent: i64, counts: &mut [[usize; 8]; 10]) {
    let mut dice = Dice::new(n as u64);
    for k in 0..times {
        let spread = dice.between(spreads[0], spreads[1]);
        let late = (12 * dice.between(1, 6) as usize, spread * dice.between(0, percent) / 100);
        let series = moving(dice.roll(), n, 100, spread, late);
        agree(&format!("moving {k}, {n} months, spread {spread}"), &series);
        let (span, question, _) = seasonal(&series);
        counts[span][question] += 1;
    }
}

/// Each of the three filters is given by each of the six questions, and 3×5 also where the sixth has no answer (counted as a seventh).
fn assert_all_occur(counts: [[usize; 8]; 10]) {
    for (span, questions) in [(3, 1..=6), (5, 1..=7), (9, 1..=6)] {
        assert!(counts[span][questions].iter().all(|&count| count > 0), "{counts:?}");
    }
}

/// With these lengths a month's run has 6 to 11 values: every row of 3×9.
#[test]
fn seasonal_filters_of_short_series() {
    let mut counts = [[0; 8]; 10];
    for n in 72..=132 {
        count_spans(n, 60, [10, 300], 200, &mut counts);
    }
    assert_all_occur(counts);
}

/// More noise in the last years, or nearly none: else five years of fifty seldom change the answer.
#[test]
fn seasonal_filters_of_600_months() {
    let mut counts = [[0; 8]; 10];
    count_spans(600, 600, [10, 500], 1000, &mut counts);
    count_spans(600, 300, [350, 450], 10, &mut counts);
    assert_all_occur(counts);
}

/// 2I is 5S, 7S, 11S or 13S at the first question, or a grain beside it. The seeds were searched for.
#[test]
fn seasonal_filters_where_the_answer_changes() {
    for (seed, size, spread, times, less, answer) in [
        (748_315, 7, 2, 5, 0, None),
        (433_367, 9, 3, 5, 1, Some(3)),
        (230_831, 6, 3, 7, 0, None),
        (97_909, 6, 3, 7, -1, Some(5)),
        (397_479, 5, 5, 11, 0, None),
        (227_693, 5, 5, 11, 1, Some(5)),
        (88_597, 5, 6, 13, 0, Some(9)),
        (57_249, 5, 6, 13, 1, None),
    ] {
        let series = moving(seed, 72, size, spread, (0, 0));
        agree(&format!("moving {seed}"), &series);
        let (span, question, [i, s]) = seasonal(&series);
        assert_eq!((times * s - 2 * i, plain::span(i, s)), (less, answer), "moving {seed}");
        assert!(if answer.is_some() { question == 1 && answer == Some(span) } else { question > 1 }, "moving {seed}");
    }
}

/// The pencil cases of the sums over twelve months and of the answers (METHOD 11).
#[test]
fn yearly_changes_and_spans() {
    let squares: Vec<i64> = (0..15).map(|t| if t % 2 == 0 { -t * t } else { t * t }).collect();
    assert_eq!([12, 13, 14, 15].map(|n| plain::yearly_changes(&squares[..n])), [0, 144, 312, 504]);
    assert_eq!([(0, 0), (1, 0), (0, 1)].map(|(i, s)| plain::span(i, s)), [Some(5), Some(9), Some(3)]);
    let answers = [3, 0, 0, 5, 5, 0, 0, 9].map(|span| (span > 0).then_some(span));
    assert_eq!([2499, 2500, 3500, 3501, 5499, 5500, 6499, 6500].map(|i| plain::span(i, 1000)), answers);
}

/// The pencil cases of 3×9 (METHOD 11).
#[test]
fn three_by_nine_of_one_value() {
    for (n, t, value, results) in [
        (72, 71, 162_000, &[18_000, 22_000, 27_000, 27_000, 28_000, 30_000][..]),
        (132, 60, 748_440, &[83_160, 91_080, 103_950, 92_400, 85_932, 83_160, 85_932, 92_400, 103_950, 91_080, 83_160]),
    ] {
        let (mut x, mut out) = (vec![0; n], vec![7; n]);
        x[t] = value;
        plain::three_by_nine(&x, &mut out);
        for (place, &got) in out.iter().enumerate() {
            assert_eq!(got, if place % 12 == t % 12 { results[place / 12] } else { 0 }, "{n} months, place {place}");
        }
    }
}

// The next four meet exact halves of a grain (METHOD 1.3) in every rounding that can have them: of both signs, with odd and with even whole parts.

#[test]
fn halves_of_small_odd_figures() {
    let mut dice = Dice::new(5);
    for seed in 0..500 {
        let n = dice.between(72, 600) as usize;
        let size = [1, 3, 7, 15, 31, 63][seed as usize % 6];
        agree(&format!("odd {seed}, {n} months"), &odd(seed, n, size));
    }
}

#[test]
fn halves_at_the_ends() {
    let mut dice = Dice::new(6);
    for seed in 0..300 {
        let n = dice.between(72, 240) as usize;
        let figure = [0, 3, -3, 4_001, -4_001, 100_000, -100_000][seed as usize % 7];
        agree(&format!("raised ends {seed}, {n} months"), &raised_ends(seed, n, figure, dice.between(1, 3) as usize));
    }
}

#[test]
fn halves_of_means() {
    let mut dice = Dice::new(7);
    for seed in 0..500 {
        let n = dice.between(72, if seed % 2 == 0 { 600 } else { 130 }) as usize;
        agree(&format!("rough months {seed}, {n} months"), &rough_months(seed, n));
    }
}

/// D12 of each series has an exact half, at the start, in the middle or at the end; of 9 terms not in the middle, where the divisor is odd.
/// The seeds were searched for, four for each place.
#[test]
fn halves_of_final_trends() {
    for (spread, terms, seeds) in [
        (4, 9, &[329_110, 260_225, 663_792, 564_858, 1_202_621, 579_808, 25_615, 476_104][..]),
        (2_000, 23, &[115_318, 30_585, 90_427, 71_774, 289, 12_007, 117_402, 296_196, 605_422, 119_029, 766_497, 277_241]),
    ] {
        for &seed in seeds {
            let series = waves(seed, 72, 2_000, spread);
            agree(&format!("waves {seed}"), &series);
            let [i, c] = sums(&series);
            assert_eq!(plain::terms(i, c), terms, "waves {seed}");
        }
    }
}

#[test]
fn refusals() {
    for n in [0, 1, 71, 72, 600, 601, 700] {
        for start in [0, 1, 12, 13, 255] {
            let answer = same("length and start", &vec![5; n], start, &marked(n, 0));
            let number = if n < 72 { 1 } else if n > 600 { 2 } else { 3 * u8::from(!(1..=12).contains(&start)) };
            assert_eq!(answer, (number, 0));
        }
    }
    for (figure, place) in [(200_001, 0), (-200_001, 40), (i32::MAX, 71), (i32::MIN, 72)] {
        let mut figures = vec![-200_000; 73];
        figures[place] = figure;
        figures[72] = figure;
        assert_eq!(same("a figure outside", &figures, 3, &marked(73, 1)), (5, place));
    }
}

#[test]
fn wrong_lengths() {
    let n = 80;
    for length in [0, n - 1, n + 1, 5 * n - 1] {
        for k in 0..7 {
            let mut lent = marked(n, 0);
            match k {
                0 => lent.d10.resize(length, 1),
                1 => lent.d11.resize(length, 1),
                2 => lent.d12.resize(length, 1),
                3 => lent.d13.resize(length, 1),
                4 => lent.b17.resize(length, 1),
                5 => lent.c17.resize(length, 1),
                _ => lent.scratch.resize(length, 1),
            }
            // Row 4 comes before row 5, and after row 3.
            assert_eq!(same("a wrong length", &vec![200_001; n], 1, &lent), (4, 0));
            assert_eq!(same("a wrong length", &vec![0; n], 13, &lent), (3, 0));
        }
    }
}
