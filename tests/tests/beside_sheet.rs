//! The proved reader of the members' sheet beside the separately written one: answer, place, count, start month, the bits of the total
//! revision, what is filled and what stays.

mod doubles;
#[path = "proved/sheet/mod.rs"]
mod sheet;

use doubles::{damage, raw, HALF, MINUS_ZERO, ONE, SPECIAL, THREE};
use separate::generators::{cases, Dice};
use separate::sheet::{bytes_of, double_of, Cell, SheetSeries};
use sheet::beside::{answer, read};
use std::collections::BTreeMap;

/// Figures and revisions by chance.
fn random_cells(dice: &mut Dice, n: usize) -> Vec<Cell> {
    let mut figure = || dice.between(-200_000, 200_000);
    (0..n).map(|t| if t % 3 == 1 { Cell::revision(figure(), figure()) } else { Cell::figure(figure()) }).collect()
}

/// Those cells with one put at t, read into some room more than is needed.
fn read_with(name: &str, cells: &[Cell], t: usize, cell: Cell) -> Result<SheetSeries, (u8, usize)> {
    let mut cells = cells.to_vec();
    cells[t] = cell;
    read(name, &bytes_of(7, &cells), cells.len() + 2)
}

/// In each of the three positions, at the first month, in the middle and at the last, of short and long sheets.
#[test]
fn special_doubles() {
    let mut dice = Dice::new(80);
    for n in [72, 73, 600] {
        let cells = random_cells(&mut dice, n);
        for &(name, bits, counts) in SPECIAL {
            for t in [0, 1, n / 2, n - 2, n - 1] {
                for cell in [raw(1, bits, 0), raw(2, bits, THREE), raw(2, THREE, bits)] {
                    let answer = read_with(&format!("{name} at {t}"), &cells, t, cell).err();
                    assert_eq!(answer, if counts.is_some() { None } else { Some((14, t)) }, "{name} at {t}");
                }
                for cell in [raw(1, THREE, bits), raw(0, bits, 0), raw(0, 0, bits)] {
                    let answer = read_with(&format!("{name} unused at {t}"), &cells, t, cell).err();
                    let where_zero = if cell.kind == 0 { Some((13, t)) } else { None };
                    assert_eq!(answer, if bits == 0 { where_zero } else { Some((12, t)) }, "{name} unused at {t}");
                }
            }
        }
    }
}

#[test]
fn special_doubles_in_pairs() {
    let cells = random_cells(&mut Dice::new(81), 72);
    let mut accepted = 0;
    for &(old_name, old, old_counts) in SPECIAL {
        for &(new_name, new, new_counts) in SPECIAL {
            let name = format!("{old_name} revised to {new_name}");
            let both = old_counts.is_some() && new_counts.is_some();
            assert_eq!(read_with(&name, &cells, 40, raw(2, old, new)).is_ok(), both, "{name}");
            accepted += usize::from(both);
        }
    }
    assert!(accepted >= 64);
}

/// Every exponent field with either sign, each with fractions of many sorts: a figure, and in a revision both.
#[test]
fn every_exponent_field() {
    let mut dice = Dice::new(82);
    let cells = random_cells(&mut dice, 72);
    let mut accepted = 0;
    for field in 0..2_048u64 {
        for sign in [0, MINUS_ZERO] {
            let below_a_unit = 1_075u64.saturating_sub(field).min(52);
            let whole = dice.roll() >> 1 >> below_a_unit << below_a_unit;
            for fraction in [0, 1, 1 << 51, 1 << 34, 1 << 35, 0xf_ffff_ffff_ffff, dice.roll() >> 1, whole] {
                let bits = sign | field << 52 | fraction;
                let name = format!("{bits:x}");
                accepted += usize::from(read_with(&name, &cells, 0, raw(1, bits, 0)).is_ok());
                read_with(&name, &cells, 71, raw(2, bits, ONE)).ok();
                read_with(&name, &cells, 3, raw(2, ONE, bits)).ok();
            }
        }
    }
    println!("doubles that count: {accepted}");
    assert!(accepted > 100);
}

/// All 400,001 figures, in sheets of 600, as figures, as old ones and as new ones.
#[test]
fn every_figure() {
    let list: Vec<i64> = (-200_000..=200_000).collect();
    for part in list.chunks(600) {
        let mut padded = part.to_vec();
        padded.resize(part.len().max(72), -200_000);
        let name = format!("figures from {}", part[0]);
        for cell in [Cell::figure, |figure: i64| Cell::revision(figure, 17), |figure: i64| Cell::revision(-17, figure)] {
            let cells: Vec<Cell> = padded.iter().map(|&figure| cell(figure)).collect();
            assert!(read(&name, &bytes_of(1, &cells), 600).is_ok(), "{name}");
        }
    }
}

/// Fractions between figures, and whole numbers beyond the limits, one to a sheet.
#[test]
fn between_and_beyond_the_figures() {
    let mut dice = Dice::new(83);
    let cells = random_cells(&mut dice, 72);
    for round in 0..8_000 {
        let figure = dice.between(-200_000, 199_999) as f64;
        let parts = (1u64 << dice.between(1, 34)) as f64;
        let bits = (figure + 1.0 / parts).to_bits();
        let cell = [raw(1, bits, 0), raw(2, bits, ONE), raw(2, ONE, bits)][round % 3];
        assert_eq!(read_with("between", &cells, round % 72, cell), Err((14, round % 72)), "{bits:x}");
    }
    for round in 0..8_000 {
        let beyond = 200_001 + (dice.roll() >> dice.between(0, 52)) as i64 % (1 << 52);
        let number = if round % 2 == 0 { beyond } else { -beyond };
        let cell = [Cell::figure(number), Cell::revision(number, 5), Cell::revision(5, number)][round % 3];
        assert_eq!(read_with("beyond", &cells, round % 72, cell), Err((14, round % 72)), "{number}");
    }
}

#[test]
fn every_kind_byte() {
    let cells = random_cells(&mut Dice::new(84), 72);
    let mut answers = BTreeMap::new();
    for kind in 0..=255 {
        for t in [0, 36, 71] {
            for (first, second) in [(0, 0), (ONE, 0), (0, ONE), (ONE, THREE), (HALF, 0), (HALF, HALF), (0, MINUS_ZERO), (MINUS_ZERO, 0)] {
                let name = format!("kind {kind} at {t} with {first:x} and {second:x}");
                let number = match read_with(&name, &cells, t, raw(kind, first, second)) {
                    Ok(_) => 0,
                    Err((number, place)) => {
                        assert_eq!(place, t, "{name}");
                        number
                    }
                };
                *answers.entry(number).or_insert(0) += 1;
            }
        }
    }
    // Of the eight pairs: kind 1 is accepted with 3 and gets 14 with 1, kind 2 with 6 and 2; a gap is one with 1, and all else is 12.
    assert_eq!(answers, BTreeMap::from([(0, 3 * 9), (12, 3 * (253 * 8 + 7 + 4)), (13, 3), (14, 3 * 3)]));
}

/// Prefixes and padded forms of good sheets, of 72 and of 73 months; and the longer with the smaller count.
#[test]
fn every_length() {
    let mut dice = Dice::new(85);
    let longest = 3 + 17 * 73;
    let mut padded = bytes_of(12, &random_cells(&mut dice, 72));
    let mut padded_with_zeros = padded.clone();
    padded.resize_with(longest, || dice.between(0, 255) as u8);
    padded_with_zeros.resize(longest, 0);
    let longer = bytes_of(12, &random_cells(&mut dice, 73));
    let mut longer_as_72 = longer.clone();
    longer_as_72[0] = 72;
    for (name, sheet, good) in [("padded", padded, Some(1_227)), ("with zeros", padded_with_zeros, Some(1_227)), ("73", longer, Some(longest))]
    {
        let accepted = (0..=longest).filter(|&length| answer(&format!("{name}: {length}"), &sheet[..length], 73) == (0, 0));
        assert_eq!(accepted.collect::<Vec<usize>>(), Vec::from_iter(good), "{name}");
    }
    for length in 0..=longest {
        let (number, _) = answer(&format!("73 as 72: {length}"), &longer_as_72[..length], 73);
        assert_eq!(number == 7, length < 3);
        assert_eq!(number == 9, length >= 3 && length != 1_227);
    }
}

#[test]
fn every_start_byte() {
    let cells = random_cells(&mut Dice::new(86), 72);
    for start in 0..=255 {
        let due = if (1..=12).contains(&start) { 0 } else { 3 };
        assert_eq!(answer(&format!("month {start}"), &bytes_of(start, &cells), 72), (due, 0), "month {start}");
        let mut with_gap = cells.clone();
        with_gap[71] = Cell::gap();
        let due = if due == 0 { (13, 71) } else { (3, 0) };
        assert_eq!(answer(&format!("month {start}"), &bytes_of(start, &with_gap), 72), due, "month {start}");
    }
}

/// Counts at the limits and where the low byte is full, with the lengths that they ask; into slices of every sort.
#[test]
fn counts_and_rooms() {
    let mut dice = Dice::new(87);
    for n in [0usize, 1, 71, 72, 73, 255, 256, 257, 511, 512, 599, 600, 601, 655, 656, 18_432, 65_535] {
        let sheet = bytes_of(4, &random_cells(&mut dice, n));
        let number = match n {
            0..=71 => 1,
            601.. => 2,
            _ => 0,
        };
        for room in [0, 1, n.saturating_sub(1), n, n + 1, n + 600, 2 * n, 70_000] {
            let due = if number == 0 && room < n { 4 } else { number };
            assert_eq!(answer(&format!("{n} months into {room}"), &sheet, room), (due, 0), "{n} months into {room}");
        }
    }
}

/// Every count that two bytes can state, before nothing and before the cells of 72 months.
#[test]
fn every_count_byte() {
    let mut sheet = bytes_of(4, &random_cells(&mut Dice::new(88), 72));
    for count in 0..=65_535u16 {
        sheet[..2].copy_from_slice(&count.to_le_bytes());
        let number = match count {
            0..=71 => 1,
            601.. => 2,
            _ => 9,
        };
        let name = format!("count {count}");
        assert_eq!(answer(&name, &sheet[..3], 72), (number, 0), "{name}");
        assert_eq!(answer(&name, &sheet, 72), (if count == 72 { 0 } else { number }, 0), "{name}");
    }
}

#[test]
fn damage_by_chance() {
    let mut dice = Dice::new(89);
    let mut answers = BTreeMap::new();
    for round in 0..50_000 {
        let n = [72, 73, 90, 256][round % 4];
        let mut sheet = bytes_of(dice.between(1, 12) as u8, &random_cells(&mut dice, n));
        for _ in 0..dice.between(1, 5) {
            damage(&mut sheet, n, &mut dice);
        }
        let room = if round % 40 == 0 { dice.between(0, 300) as usize } else { 300 };
        let (number, _) = answer(&format!("round {round}"), &sheet, room);
        *answers.entry(number).or_insert(0) += 1;
    }
    println!("sheets by their answer: {answers:?}");
    assert_eq!(answers.keys().copied().collect::<Vec<u8>>(), [0, 1, 2, 3, 4, 9, 12, 13, 14]);
    assert!(answers.values().all(|&sheets| sheets > 100));
}

/// Several bad cells: the answer is that of the lowest t.
#[test]
fn several_bad_cells() {
    let mut dice = Dice::new(90);
    let [unknown, with_more, gap_with_more] = [raw(3, ONE, 0), raw(1, HALF, ONE), raw(0, HALF, 0)];
    let [half, half_new] = [raw(1, HALF, 0), raw(2, ONE, HALF)];
    let bad = [(12, unknown), (12, with_more), (12, gap_with_more), (13, Cell::gap()), (14, half), (14, half_new)];
    for round in 0..10_000 {
        let n = [72, 85, 599][round % 3];
        let mut cells = vec![Cell::figure(round as i64); n];
        let mut first = (usize::MAX, 0);
        for _ in 0..dice.between(2, 6) {
            let t = dice.between(0, n as i64 - 1) as usize;
            let (row, cell) = bad[dice.between(0, bad.len() as i64 - 1) as usize];
            cells[t] = cell;
            first = if t <= first.0 { (t, row) } else { first };
        }
        assert_eq!(answer(&format!("round {round}"), &bytes_of(2, &cells), n), (first.1, first.0), "round {round}");
    }
}

/// The total of these cells, which are read without a refusal.
fn total_of(name: &str, cells: &[Cell]) -> i64 {
    read(name, &bytes_of(9, cells), cells.len()).expect("a series").total
}

#[test]
fn extreme_totals() {
    let (up, down) = (Cell::revision(-200_000, 200_000), Cell::revision(200_000, -200_000));
    let by_turns = |pair: [Cell; 2], n: usize| -> Vec<Cell> { pair.into_iter().cycle().take(n).collect() };
    assert_eq!(total_of("all up", &[up; 600]), 240_000_000);
    assert_eq!(total_of("all down", &[down; 600]), -240_000_000);
    assert_eq!(total_of("by turns", &by_turns([up, down], 600)), 0);
    assert_eq!(total_of("by turns from below", &by_turns([down, up], 600)), 0);
    assert_eq!(total_of("by turns, an odd number", &by_turns([down, up], 599)), -400_000);
    assert_eq!(total_of("up, then down", &[[up; 300], [down; 300]].concat()), 0);
    assert_eq!(total_of("down, then up", &[[down; 300], [up; 300]].concat()), 0);
    for (pair, name) in [
        ([raw(2, MINUS_ZERO, 0), raw(2, MINUS_ZERO, 0)], "from negative zero"),
        ([raw(2, 0, MINUS_ZERO), raw(2, 0, MINUS_ZERO)], "to negative zero"),
        ([raw(2, MINUS_ZERO, MINUS_ZERO), raw(1, MINUS_ZERO, 0)], "negative zero to itself"),
        ([raw(1, MINUS_ZERO, 0), raw(1, MINUS_ZERO, 0)], "negative zeros, nothing revised"),
        ([Cell::figure(-5), Cell::figure(200_000)], "nothing revised"),
        ([Cell::revision(-5, -5), Cell::revision(3, 3)], "revised to the same"),
    ] {
        for n in [72, 599, 600] {
            assert_eq!(total_of(name, &by_turns(pair, n)), 0, "{name}");
        }
    }
    assert_eq!(total_of("a limit and negative zero", &by_turns([raw(2, MINUS_ZERO, THREE), raw(2, THREE, MINUS_ZERO)], 73)), 3);
}

/// Totals made by hand: powers of two and what is next to them, of both signs, spread over the first, the last or all months.
#[test]
fn totals_at_powers_of_two() {
    for k in 0..28 {
        for wanted in [(1 << k) - 1, 1 << k, (1 << k) + 1, -(1 << k) - 1, -(1 << k), 1 - (1 << k)] {
            for backwards in [false, true] {
                let mut cells = vec![Cell::figure(11); 600];
                let mut left: i64 = wanted;
                for cell in &mut cells {
                    let change = left.clamp(-400_000, 400_000);
                    let old = -change / 2;
                    *cell = if change == 0 { *cell } else { Cell::revision(old, old + change) };
                    left -= change;
                }
                if backwards {
                    cells.reverse();
                }
                assert_eq!((left, total_of("a power of two", &cells)), (0, wanted));
            }
        }
    }
}

/// Revisions by chance of every size, so that sums go up and down; and made so that they cancel.
#[test]
fn totals_by_chance() {
    let mut dice = Dice::new(91);
    for round in 0..3_000 {
        let n = [72, 144, 600][round % 3];
        let high = [1, 1_000, 200_000][round / 3 % 3];
        let pairs: Vec<[i64; 2]> = (0..n).map(|_| [dice.between(-high, high), dice.between(-high, high)]).collect();
        let mut cells: Vec<Cell> = pairs.iter().map(|&[old, new]| Cell::revision(old, new)).collect();
        assert_eq!(total_of("by chance", &cells), pairs.iter().map(|[old, new]| new - old).sum::<i64>(), "round {round}");
        for (cell, &[old, new]) in cells[n / 2..].iter_mut().zip(&pairs[..n / 2]) {
            *cell = Cell { kind: 2, first: double_of(new), second: double_of(old) };
        }
        assert_eq!(total_of("cancelled", &cells), 0, "round {round}");
    }
}

/// All made-up series as sheets, some months revised.
#[test]
fn made_up_series() {
    let mut dice = Dice::new(92);
    let list = cases();
    assert!(list.len() > 300);
    for case in list {
        let cells: Vec<Cell> = (case.figures.iter().map(|&figure| i64::from(figure)))
            .map(|figure| match dice.between(0, 3) {
                0 => Cell::revision(dice.between(-200_000, 200_000), figure),
                1 => Cell::revision((figure + dice.between(-9, 9)).clamp(-200_000, 200_000), figure),
                _ => Cell::figure(figure),
            })
            .collect();
        let series = read(&case.name, &bytes_of(case.start, &cells), cells.len() + 1).expect("a series");
        assert_eq!((series.start, series.figures), (case.start, case.figures), "{}", case.name);
    }
}
