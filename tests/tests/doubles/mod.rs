//! Doubles that a sheet may hold, as bit patterns; and what the tests of sheets make with them.

// Each test file takes some of them.
#![allow(dead_code)]

use separate::generators::Dice;
use separate::sheet::Cell;

pub const MINUS_ZERO: u64 = 0x8000_0000_0000_0000;
pub const HALF: u64 = 0x3fe0_0000_0000_0000;
pub const ONE: u64 = 0x3ff0_0000_0000_0000;
pub const THREE: u64 = 0x4008_0000_0000_0000;
pub const NOT_A_NUMBER: u64 = 0x7ff8_0000_0000_0000;

/// A cell by the bits of its doubles.
pub fn raw(kind: u8, first: u64, second: u64) -> Cell {
    Cell { kind, first: first.to_le_bytes(), second: second.to_le_bytes() }
}

/// Puts one fault, or what may be one, into a sheet of n months.
pub fn damage(sheet: &mut [u8], n: usize, dice: &mut Dice) {
    let t = dice.between(0, n as i64 - 1) as usize;
    let cell = 3 + n + 16 * t;
    let double = cell + 8 * dice.between(0, 1) as usize;
    let byte = double + dice.between(0, 7) as usize;
    match dice.between(0, 10) {
        0 => sheet[3 + t] = dice.between(0, 3) as u8,
        1 => sheet[3 + t] = dice.between(0, 255) as u8,
        2 => sheet[cell..cell + 16].fill(0),
        3 => sheet[cell + 8..cell + 16].fill(0),
        4 => {
            sheet[3 + t] = 0;
            sheet[cell..cell + 16].fill(0);
        }
        5 | 6 => {
            let (_, bits, _) = SPECIAL[dice.between(0, SPECIAL.len() as i64 - 1) as usize];
            sheet[double..double + 8].copy_from_slice(&bits.to_le_bytes());
        }
        7 => sheet[byte] = dice.between(0, 255) as u8,
        8 => sheet[byte] ^= 1 << dice.between(0, 7),
        9 => sheet[dice.between(0, 2) as usize] ^= 1 << dice.between(0, 7),
        _ => sheet[dice.between(0, (3 + 17 * n) as i64 - 1) as usize] = dice.between(0, 255) as u8,
    }
}

/// Name, bits (sign, 11 of the exponent field, 52 of the fraction) and the whole number of units that it counts for, if it counts.
///
/// 200,000 is 0x30d40, 18 binary digits, so its field is 1023 + 17 or 0x410 and its fraction begins with the other 17 digits, 0x86a0; a unit
/// is then bit 35 and a half bit 34.
pub const SPECIAL: &[(&str, u64, Option<i32>)] = &[
    ("zero", 0x0000_0000_0000_0000, Some(0)),
    ("negative zero", 0x8000_0000_0000_0000, Some(0)),
    ("the smallest subnormal", 0x0000_0000_0000_0001, None),
    ("the smallest subnormal below zero", 0x8000_0000_0000_0001, None),
    ("the greatest subnormal", 0x000f_ffff_ffff_ffff, None),
    ("the smallest normal", 0x0010_0000_0000_0000, None),
    ("0.1", 0x3fb9_9999_9999_999a, None),
    ("-0.1", 0xbfb9_9999_9999_999a, None),
    ("0.5", 0x3fe0_0000_0000_0000, None),
    ("-0.5", 0xbfe0_0000_0000_0000, None),
    ("just below 1", 0x3fef_ffff_ffff_ffff, None),
    ("1", 0x3ff0_0000_0000_0000, Some(1)),
    ("-1", 0xbff0_0000_0000_0000, Some(-1)),
    ("just above 1", 0x3ff0_0000_0000_0001, None),
    ("1.5", 0x3ff8_0000_0000_0000, None),
    ("3", 0x4008_0000_0000_0000, Some(3)),
    ("-100", 0xc059_0000_0000_0000, Some(-100)),
    ("just below 100", 0x4058_ffff_ffff_ffff, None),
    ("just above 100", 0x4059_0000_0000_0001, None),
    ("65,536", 0x40f0_0000_0000_0000, Some(65_536)),
    ("99,999.25", 0x40f8_69f4_0000_0000, None),
    ("199,999", 0x4108_69f8_0000_0000, Some(199_999)),
    ("199,999.5", 0x4108_69fc_0000_0000, None),
    ("-199,999.5", 0xc108_69fc_0000_0000, None),
    ("just below 200,000", 0x4108_69ff_ffff_ffff, None),
    ("200,000", 0x4108_6a00_0000_0000, Some(200_000)),
    ("-200,000", 0xc108_6a00_0000_0000, Some(-200_000)),
    ("just above 200,000", 0x4108_6a00_0000_0001, None),
    ("just below -200,000", 0xc108_6a00_0000_0001, None),
    ("200,000.5", 0x4108_6a04_0000_0000, None),
    ("-200,000.5", 0xc108_6a04_0000_0000, None),
    ("200,001", 0x4108_6a08_0000_0000, None),
    ("-200,001", 0xc108_6a08_0000_0000, None),
    ("262,144", 0x4110_0000_0000_0000, None),
    ("2^31", 0x41e0_0000_0000_0000, None),
    ("-2^31", 0xc1e0_0000_0000_0000, None),
    ("2^32", 0x41f0_0000_0000_0000, None),
    ("2^32 + 5", 0x41f0_0000_0050_0000, None),
    ("2^51 + 0.5", 0x4320_0000_0000_0001, None),
    ("2^52 + 1", 0x4330_0000_0000_0001, None),
    ("2^53 - 1", 0x433f_ffff_ffff_ffff, None),
    // 2^53 + 1 lies halfway between these two; as a double it is the first, whose fraction is even.
    ("2^53 + 1 as a double, 2^53", 0x4340_0000_0000_0000, None),
    ("2^53 + 2", 0x4340_0000_0000_0001, None),
    ("-2^53", 0xc340_0000_0000_0000, None),
    ("2^63", 0x43e0_0000_0000_0000, None),
    ("-2^63", 0xc3e0_0000_0000_0000, None),
    ("2^64", 0x43f0_0000_0000_0000, None),
    ("2^64 and a bit more", 0x43f0_0000_0000_0001, None),
    ("2^128", 0x47f0_0000_0000_0000, None),
    ("the greatest", 0x7fef_ffff_ffff_ffff, None),
    ("the least", 0xffef_ffff_ffff_ffff, None),
    ("infinity", 0x7ff0_0000_0000_0000, None),
    ("minus infinity", 0xfff0_0000_0000_0000, None),
    ("a quiet NaN", 0x7ff8_0000_0000_0000, None),
    ("a quiet NaN with the sign", 0xfff8_0000_0000_0000, None),
    ("a signalling NaN", 0x7ff0_0000_0000_0001, None),
    ("a signalling NaN with the sign", 0xfff0_0000_0000_0001, None),
    ("a signalling NaN, another", 0x7ff4_0000_0000_0000, None),
    ("all bits", 0xffff_ffff_ffff_ffff, None),
];
