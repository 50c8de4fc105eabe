//! Every line of the section "Pencil cases" of document 01, as request 2/12
//! of document 02 leaves them, and the example of "Start month 10 with n 114".

use separate::calendar::labels;
use separate::decompose::{decompose_fitting, Refusal};
use separate::fraction::Fraction;
use separate::pass::{henderson, over_runs, two_by_twelve, Placed};
use separate::rounding::{nearest_away, nearest_even};
use separate::rows::{ThreeByFive, ThreeByThree};
use separate::spread::{correction, spreads_by_year, two_spreads, units, weight, weights};
use separate::whole::Whole;

#[test]
fn two_by_twelve_of_one_place() {
    let mut grains = vec![0i64; 60];
    grains[30] = 24_000;
    let trend = two_by_twelve(&Placed::whole_series(grains)).rounded();
    assert_eq!((trend.first, trend.last()), (6, 53));
    for t in 6..=53usize {
        let expected = match t.abs_diff(30) {
            0..=5 => 2_000,
            6 => 1_000,
            _ => 0,
        };
        assert_eq!(trend.at(t), expected, "month {t}");
    }
}

#[test]
fn henderson_of_one_place() {
    // With exactly twelve months on each side, and with more.
    for (n, place) in [(25usize, 12usize), (72, 40), (72, 12), (72, 59), (100, 50)] {
        let mut grains = vec![0i64; n];
        grains[place] = 16_796;
        let trend = henderson(&grains, 13).rounded();
        let outwards = [4_032, 3_600, 2_475, 1_100, 0, -468, -325];
        for t in 0..n {
            let expected = outwards.get(t.abs_diff(place)).copied().unwrap_or(0);
            assert_eq!(trend.at(t), expected, "n {n} month {t}");
        }
    }
}

#[test]
fn three_by_three_of_a_run_ending_in_27_000() {
    for years in 5..=9usize {
        let n = 12 * years;
        for month in 0..12 {
            let mut grains = vec![0i64; n];
            grains[n - 12 + month] = 27_000;
            let result = over_runs(&Placed::whole_series(grains), ThreeByThree).rounded();
            let run: Vec<i64> = (0..years).map(|y| result.at(12 * y + month)).collect();
            assert_eq!(&run[years - 3..], &[3_000, 7_000, 11_000]);
            assert!(run[..years - 3].iter().all(|&v| v == 0));
            let total: i64 = result.values.iter().sum();
            assert_eq!(total, 21_000);
        }
    }
}

#[test]
fn three_by_three_of_a_run_beginning_with_27_000() {
    let mut grains = vec![0i64; 60];
    grains[4] = 27_000;
    let result = over_runs(&Placed::whole_series(grains), ThreeByThree).rounded();
    let run: Vec<i64> = (0..5).map(|y| result.at(12 * y + 4)).collect();
    assert_eq!(run, vec![11_000, 7_000, 3_000, 0, 0]);
}

#[test]
fn three_by_five_of_a_run_ending_in_60_000() {
    for years in 6..=10usize {
        let n = 12 * years;
        for month in 0..12 {
            let mut grains = vec![0i64; n];
            grains[n - 12 + month] = 60_000;
            let result = over_runs(&Placed::whole_series(grains), ThreeByFive).rounded();
            let run: Vec<i64> = (0..years).map(|y| result.at(12 * y + month)).collect();
            assert_eq!(&run[years - 4..], &[4_000, 9_000, 15_000, 17_000]);
            assert!(run[..years - 4].iter().all(|&v| v == 0));
        }
    }
}

#[test]
fn three_by_five_of_a_run_beginning_with_60_000() {
    let mut grains = vec![0i64; 72];
    grains[7] = 60_000;
    let result = over_runs(&Placed::whole_series(grains), ThreeByFive).rounded();
    let run: Vec<i64> = (0..6).map(|y| result.at(12 * y + 7)).collect();
    assert_eq!(run, vec![17_000, 15_000, 9_000, 4_000, 0, 0]);
}

#[test]
fn rounding_of_halves() {
    assert_eq!(nearest_even(1, 2), 0);
    assert_eq!(nearest_even(-1, 2), 0);
    assert_eq!(nearest_even(3, 2), 2);
    assert_eq!(nearest_even(-3, 2), -2);
}

/// Millionths, whole units and the quotient of a weight keep the old rule.
#[test]
fn rounding_of_other_halves() {
    assert_eq!(nearest_away(1, 2), 1);
    assert_eq!(nearest_away(-1, 2), -1);
    assert_eq!(Fraction::new(1, 2).nearest_away(), Whole::from(1));
    assert_eq!(Fraction::new(-1, 2).nearest_away(), Whole::from(-1));
    assert_eq!((units(500), units(-500), units(2_500), units(-2_500)), (1, -1, 3, -3));
    // 1,000 x 27 / 16 is 1,687.5 and 1,000 x 29 / 16 is 1,812.5: both up.
    assert_eq!((weight(27, 16), weight(29, 16)), (812, 687));
}

#[test]
fn weights_with_spread_100() {
    assert_eq!(weight(149, 100), 1000);
    assert_eq!(weight(150, 100), 1000);
    assert_eq!(weight(200, 100), 500);
    assert_eq!(weight(250, 100), 0);
    assert_eq!(weight(251, 100), 0);
}

#[test]
fn weight_with_spread_3() {
    assert_eq!(weight(5, 3), 833);
}

#[test]
fn correction_of_500_grains() {
    // 83.5 lies between 83 and 84; 82.5, at weight 835, between 82 and 83.
    assert_eq!(correction(500, 833), 84);
    assert_eq!(correction(-500, 833), -84);
    assert_eq!(correction(500, 835), 82);
    assert_eq!(correction(-500, 835), -82);
    assert_eq!(correction(500, 1000), 0);
    assert_eq!(correction(500, 0), 500);
}

#[test]
fn group_of_three_zeros_and_a_one() {
    let group = [0u64, 0, 0, 1];
    assert_eq!(two_spreads(&group), (0, 0));
    let list: Vec<u16> = group.iter().map(|&a| weight(a, 0)).collect();
    assert_eq!(list, vec![1000, 1000, 1000, 0]);
}

/// First spread, months kept and second spread, by hand: 25 and 7 over 8 is 4,
/// and twice 5 is not above 10; 36 and 7 over 8 is 5, and twice 6 is; 12 over
/// 4 is 3, then 3 over 3; 11 over 4 is 2, then 2 over 3.
#[test]
fn groups_with_a_month_at_or_above_the_limit() {
    let one_and_ones = |size: u64| [vec![size], vec![1; 7]].concat();
    for (group, first, kept, second) in [
        (one_and_ones(5), 2, 8, 2),
        (one_and_ones(6), 2, 7, 1),
        (vec![1, 1, 1, 3], 1, 3, 1),
        (vec![0, 1, 1, 3], 1, 3, 0),
    ] {
        assert_eq!(two_spreads(&group), (first, second), "{group:?}");
        assert_eq!(group.iter().filter(|&&size| 2 * size <= 5 * first).count(), kept, "{group:?}");
    }
}

#[test]
fn seventy_two_and_six_hundred_months() {
    assert!(decompose_fitting(&[7; 72], 1).is_ok());
    assert!(decompose_fitting(&[7; 600], 12).is_ok());
    assert_eq!(decompose_fitting(&[7; 71], 1), Err(Refusal { number: 1, place: 0 }));
    assert_eq!(decompose_fitting(&[7; 601], 1), Err(Refusal { number: 2, place: 0 }));
}

#[test]
fn the_lower_limit_of_a_figure() {
    let mut figures = vec![0; 72];
    figures[33] = -200_000;
    assert!(decompose_fitting(&figures, 1).is_ok());
    figures[33] = -200_001;
    assert_eq!(decompose_fitting(&figures, 1), Err(Refusal { number: 5, place: 33 }));
    figures[33] = 200_000;
    assert!(decompose_fitting(&figures, 1).is_ok());
    figures[33] = 200_001;
    assert_eq!(decompose_fitting(&figures, 1), Err(Refusal { number: 5, place: 33 }));
}

/// Start month 10 with n 114: eleven years, first and last groups of 51
/// months.  The irregular is 7 units but for the 51st month (the last of
/// the first group) and the 64th (the first of the last group).
#[test]
fn groups_of_51_months() {
    let labels = labels(10, 114);
    let mut irregular = vec![7_000i64; 114];
    irregular[50] = 100_000;
    irregular[63] = -100_000;
    let spreads = spreads_by_year(&irregular, &labels);
    assert_eq!(spreads.len(), 11);
    // 50 months of 49 and one of 10,000: 12,450 over 51 is 244, root 15;
    // 2 x 100 is above 5 x 15, so the month is dropped and 7 is left.
    for year in [0, 1, 2, 8, 9, 10] {
        assert_eq!(spreads[year], (15, 7));
    }
    // 60-month groups: year 3 runs from place 3 to 62, with one large month
    // (12,891 over 60 is 214, root 14); year 4, from 15 to 74, has both.
    assert_eq!(spreads[3], (14, 7));
    assert_eq!(spreads[7], (14, 7));
    for year in [4, 5, 6] {
        // 58 x 49 + 20,000 over 60 is 380, root 19.
        assert_eq!(spreads[year], (19, 7));
    }
    let list = weights(&irregular, &labels);
    for (t, &w) in list.iter().enumerate() {
        assert_eq!(w, if t == 50 || t == 63 { 0 } else { 1000 }, "month {t}");
    }
    // If the spreads took full years only, place 0 would not count in the
    // first group; here it does.
    let mut irregular = vec![7_000i64; 114];
    irregular[0] = 100_000;
    irregular[113] = 100_000;
    let spreads = spreads_by_year(&irregular, &labels);
    assert_eq!(spreads[2], (15, 7));
    assert_eq!(spreads[3], (7, 7));
    assert_eq!(spreads[7], (7, 7));
    assert_eq!(spreads[8], (15, 7));
}

/// 72 figures of 100 from month 1, as the paper describes the printing.
#[test]
fn a_constant_of_100() {
    let tables = decompose_fitting(&[100; 72], 1).unwrap();
    for t in 0..72 {
        assert_eq!(
            (tables.d10[t], tables.d11[t], tables.d12[t], tables.d13[t], tables.b17[t], tables.c17[t]),
            (0, 100_000, 100_000, 0, 1000, 1000)
        );
    }
}

/// D11 is taken from B1, so the parts add back also where a month was
/// corrected.
#[test]
fn the_parts_add_back_where_a_month_is_corrected() {
    let mut figures: Vec<i32> = (0..96).map(|t| 1_000 + 3 * t + [0, 40, -25, 60, -70, 5][t as usize % 6]).collect();
    figures[47] += 900;
    let tables = decompose_fitting(&figures, 4).unwrap();
    assert!(tables.c17[47] < 1000);
    assert_ne!(tables.d1[47], tables.b1[47]);
    for t in 0..96 {
        assert_eq!(tables.d10[t] + tables.d12[t] + tables.d13[t], tables.b1[t]);
        assert_eq!(tables.d11[t], tables.b1[t] - tables.d10[t]);
    }
}
