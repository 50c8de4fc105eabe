//! The members' sheet (request 7/12 of document 02), separately written: sheets worked by hand, every row of the refusal sheet that they can
//! meet, doubles of every sort, a second way that works in doubles, other ways to take the rules, and the subcommands. `beside_sheet.rs` and
//! `ladders_sheet.rs` have the proved library beside it.

mod doubles;

use doubles::{damage, raw, HALF, MINUS_ZERO, NOT_A_NUMBER, ONE, SPECIAL, THREE};
use separate::decompose::Refusal;
use separate::generators::{cases, Dice};
use separate::sheet::{bytes_of, double_of, length_of, read_sheet, whole_in, Cell, SheetSeries};
use std::collections::BTreeMap;
use std::io::Write;
use std::ops::Range;
use std::process::{Command, Stdio};

/// Number and place, (0, 0) for success.
fn answer_to(sheet: &[u8], room: usize) -> (u8, usize) {
    read_sheet(sheet, room).map_or_else(|refusal| (refusal.number, refusal.place), |_| (0, 0))
}

/// Figures that tell their month: 1000 + t, below zero at every fifth.
fn figures(n: usize) -> Vec<i64> {
    (0..n as i64).map(|t| if t % 5 == 4 { -1_000 - t } else { 1_000 + t }).collect()
}

/// A sheet of them from March, nothing being revised.
fn plain_sheet(n: usize) -> Vec<u8> {
    bytes_of(3, &figures(n).into_iter().map(Cell::figure).collect::<Vec<Cell>>())
}

/// 72 of them with t 30 revised by 130, from 900 to 1030, and then these cells.
fn sheet_with(changes: &[(usize, Cell)]) -> Vec<u8> {
    let mut cells: Vec<Cell> = figures(72).into_iter().map(Cell::figure).collect();
    cells[30] = Cell::revision(900, 1_030);
    changes.iter().for_each(|&(t, cell)| cells[t] = cell);
    bytes_of(3, &cells)
}

// More doubles by their bits.
const INFINITE: u64 = 0x7ff0_0000_0000_0000;
const ABOVE_100: u64 = 0x4059_0000_0000_0001;
const BELOW_200000_BY_HALF: u64 = 0x4108_69fc_0000_0000;
const GREATEST: u64 = 0x4108_6a00_0000_0000;
const ABOVE_200000_BY_HALF: u64 = 0x4108_6a04_0000_0000;
const GREATEST_AND_ONE: u64 = 0x4108_6a08_0000_0000;
const LEAST_LESS_ONE: u64 = 0xc108_6a08_0000_0000;
const TWO_TO_32_AND_5: u64 = 0x41f0_0000_0050_0000;

/// Doubles by their bytes, low byte first: 100 is 1.5625 times 2^6, so its field is 1029 or 0x405 and its fraction 0x9 and zeros; 200,000 is
/// 2^17 and 0x10d40.
mod bytes {
    pub const ZERO: [u8; 8] = [0, 0, 0, 0, 0, 0, 0, 0];
    pub const MINUS_ZERO: [u8; 8] = [0, 0, 0, 0, 0, 0, 0, 0x80];
    pub const MINUS_TWO: [u8; 8] = [0, 0, 0, 0, 0, 0, 0x00, 0xc0];
    pub const HUNDRED: [u8; 8] = [0, 0, 0, 0, 0, 0, 0x59, 0x40];
    pub const GREATEST: [u8; 8] = [0, 0, 0, 0, 0, 0x6a, 0x08, 0x41];
    pub const LEAST: [u8; 8] = [0, 0, 0, 0, 0, 0x6a, 0x08, 0xc1];
}

/// 72 months from March: 100, then 100 revised to -2, 200,000 to -200,000, negative zero, 67 times -2, and negative zero revised to 100.
fn sheet_by_hand() -> Vec<u8> {
    let mut sheet = vec![72, 0, 3, 1, 2, 2, 1];
    sheet.extend([1; 67]);
    sheet.push(2);
    sheet.extend(bytes::HUNDRED);
    sheet.extend(bytes::ZERO);
    sheet.extend(bytes::HUNDRED);
    sheet.extend(bytes::MINUS_TWO);
    sheet.extend(bytes::GREATEST);
    sheet.extend(bytes::LEAST);
    sheet.extend(bytes::MINUS_ZERO);
    sheet.extend(bytes::ZERO);
    for _ in 4..71 {
        sheet.extend(bytes::MINUS_TWO);
        sheet.extend(bytes::ZERO);
    }
    sheet.extend(bytes::MINUS_ZERO);
    sheet.extend(bytes::HUNDRED);
    sheet
}

#[test]
fn sheets_by_hand() {
    let sheet = sheet_by_hand();
    assert_eq!(sheet.len(), 1_227);
    let mut figures = vec![-2; 72];
    (figures[0], figures[2], figures[3], figures[71]) = (100, -200_000, 0, 100);
    let series = read_sheet(&sheet, 72).expect("a series");
    assert_eq!(series, SheetSeries { start: 3, figures, total: -102 - 400_000 + 100 });
    // 400,002 is 0x61a82, 19 binary digits: the field is 1041 or 0x411, the other 18 digits are 0x86a08 with two zeros after them.
    assert_eq!(series.total_double(), [0, 0, 0, 0, 0x08, 0x6a, 0x18, 0xc1]);
    let mut cells = vec![Cell::figure(-2); 72];
    (cells[0], cells[1], cells[2]) = (Cell::figure(100), Cell::revision(100, -2), Cell::revision(200_000, -200_000));
    cells[3].first = bytes::MINUS_ZERO;
    cells[71] = Cell { first: bytes::MINUS_ZERO, ..Cell::revision(0, 100) };
    assert_eq!(bytes_of(3, &cells), sheet);
}

/// 600 revisions from one limit to the other. 240,000,000 is 0xe4e1c00, 28 binary digits, with the field 1050 or 0x41a.
#[test]
fn the_longest_by_hand() {
    for (old, new, figure, total, sign) in
        [(bytes::LEAST, bytes::GREATEST, 200_000, 240_000_000, 0), (bytes::GREATEST, bytes::LEAST, -200_000, -240_000_000, 0x80)]
    {
        let mut sheet = vec![0x58, 0x02, 12];
        sheet.extend([2; 600]);
        (0..600).for_each(|_| sheet.extend([old, new].concat()));
        let series = read_sheet(&sheet, 600).expect("a series");
        assert_eq!(series, SheetSeries { start: 12, figures: vec![figure; 600], total });
        assert_eq!(series.total_double(), [0, 0, 0, 0, 0x38, 0x9c, 0xac, 0x41 + sign]);
    }
}

/// Of 72 months the kinds stand at 3 to 74; the cells begin at 75, 91 and so on, the last at 1211.
#[test]
fn where_cells_stand() {
    let mut cells = vec![raw(0, 0, 0); 72];
    cells[0] = raw(7, 0x1112_1314_1516_1718, 0x2122_2324_2526_2728);
    cells[71] = raw(9, 0x3132_3334_3536_3738, 0x4142_4344_4546_4748);
    let sheet = bytes_of(255, &cells);
    let mut due = vec![0; 1_227];
    (due[0], due[2], due[3], due[74]) = (72, 255, 7, 9);
    due[75..83].copy_from_slice(&[0x18, 0x17, 0x16, 0x15, 0x14, 0x13, 0x12, 0x11]);
    due[83..91].copy_from_slice(&[0x28, 0x27, 0x26, 0x25, 0x24, 0x23, 0x22, 0x21]);
    due[1_211..1_219].copy_from_slice(&[0x38, 0x37, 0x36, 0x35, 0x34, 0x33, 0x32, 0x31]);
    due[1_219..].copy_from_slice(&[0x48, 0x47, 0x46, 0x45, 0x44, 0x43, 0x42, 0x41]);
    assert_eq!(sheet, due);
    assert_eq!((length_of(72), length_of(600)), (1_227, 10_203));
}

#[test]
fn rows_7_and_9_lengths() {
    for n in [72, 73] {
        let good = plain_sheet(n);
        for length in 0..=good.len() + 20 {
            let mut sheet = good.clone();
            sheet.resize(length, 0);
            let number = match length {
                0..=2 => 7,
                _ if length == 3 + 17 * n => 0,
                _ => 9,
            };
            assert_eq!(answer_to(&sheet, n), (number, 0), "{length} bytes");
        }
    }
    // A count of its own decides, not that of the cells there are.
    let mut other_count = plain_sheet(73);
    other_count[0] = 72;
    assert_eq!(answer_to(&other_count, 73), (9, 0));
}

#[test]
fn rows_1_2_3_and_4() {
    for (n, number) in
        [(0, 1), (1, 1), (71, 1), (72, 0), (73, 0), (255, 0), (256, 0), (257, 0), (599, 0), (600, 0), (601, 2), (65_535, 2)]
    {
        let sheet = bytes_of(3, &vec![Cell::figure(-7); n]);
        assert_eq!(answer_to(&sheet, n), (number, 0), "{n} months");
    }
    for start in 0..=255 {
        let mut sheet = plain_sheet(72);
        sheet[2] = start;
        assert_eq!(answer_to(&sheet, 72), (if (1..=12).contains(&start) { 0 } else { 3 }, 0), "month {start}");
    }
    for (room, number) in [(0, 4), (1, 4), (71, 4), (72, 0), (73, 0), (600, 0), (usize::MAX, 0)] {
        assert_eq!(answer_to(&plain_sheet(72), room), (number, 0), "room for {room}");
    }
}

/// Cells of every sort, with their rows by hand.
#[test]
fn rows_12_13_and_14() {
    let cells = [
        (0, 0, 0, 13), (0, 0, MINUS_ZERO, 12), (0, MINUS_ZERO, 0, 12), (0, ONE, 0, 12), (0, 0, 1, 12), (0, NOT_A_NUMBER, NOT_A_NUMBER, 12),
        (1, 0, 0, 0), (1, ONE, 0, 0), (1, MINUS_ZERO, 0, 0), (1, HALF, 0, 14), (1, GREATEST_AND_ONE, 0, 14), (1, NOT_A_NUMBER, 0, 14),
        (1, ONE, MINUS_ZERO, 12), (1, ONE, ONE, 12), (1, HALF, MINUS_ZERO, 12), (1, NOT_A_NUMBER, NOT_A_NUMBER, 12), (1, 0, ONE, 12),
        (2, 0, 0, 0), (2, ONE, THREE, 0), (2, MINUS_ZERO, MINUS_ZERO, 0), (2, HALF, ONE, 14), (2, ONE, HALF, 14), (2, HALF, HALF, 14),
        (3, 0, 0, 12), (3, ONE, THREE, 12), (3, HALF, 0, 12), (4, ONE, 0, 12), (128, ONE, 0, 12), (129, ONE, 0, 12), (255, 0, 0, 12),
    ];
    for (kind, first, second, number) in cells {
        for t in [0, 1, 36, 70, 71] {
            let place = if number == 0 { 0 } else { t };
            let sheet = sheet_with(&[(t, raw(kind, first, second))]);
            assert_eq!(answer_to(&sheet, 72), (number, place), "kind {kind} with {first:x} and {second:x} at {t}");
        }
    }
}

#[test]
fn every_kind_byte() {
    for kind in 0..=255 {
        let numbers = match kind {
            0 => [13, 12, 12, 12],
            1 => [0, 0, 12, 14],
            2 => [0, 0, 0, 14],
            _ => [12; 4],
        };
        let doubles = [(0, 0), (ONE, 0), (ONE, THREE), (HALF, 0)];
        for ((first, second), number) in doubles.into_iter().zip(numbers) {
            let place = if number == 0 { 0 } else { 8 };
            let sheet = sheet_with(&[(8, raw(kind, first, second))]);
            assert_eq!(answer_to(&sheet, 72), (number, place), "kind {kind} with {first:x} and {second:x}");
        }
    }
}

/// One byte that is not zero, whichever it is, in a double that is not used: the second of a figure, either of a gap.
#[test]
fn every_byte_of_unused_doubles() {
    for (kind, first, unused) in [(1, ONE, 8..16), (1, NOT_A_NUMBER, 8..16), (0, 0, 0..16)] {
        let sheet = sheet_with(&[(70, raw(kind, first, 0))]);
        assert_ne!(answer_to(&sheet, 72).0, 12);
        for k in unused {
            for value in 1..=255 {
                let mut sheet = sheet.clone();
                sheet[75 + 16 * 70 + k] = value;
                assert_eq!(answer_to(&sheet, 72), (12, 70), "byte {k} of kind {kind} is {value}");
            }
        }
    }
}

/// Everything that can be wrong about 72 months from March.
#[derive(Clone, Copy)]
struct Faults {
    cut_to: usize,
    count: usize,
    start: u8,
    longer_by: usize,
    room_short_by: usize,
    earlier: Cell,
    later: Cell,
}

impl Faults {
    fn answer(&self) -> (u8, usize) {
        let mut cells: Vec<Cell> = figures(self.count).into_iter().map(Cell::figure).collect();
        (cells[9], cells[40]) = (self.earlier, self.later);
        let mut sheet = bytes_of(self.start, &cells);
        sheet.resize(sheet.len() + self.longer_by, 0);
        sheet.truncate(self.cut_to);
        answer_to(&sheet, self.count - self.room_short_by)
    }
}

/// How each fault is mended, in the order of the checks, with the answer afterwards.
const MENDS: [(fn(&mut Faults), (u8, usize)); 12] = [
    (|faults| faults.count = 72, (3, 0)),
    (|faults| faults.start = 3, (9, 0)),
    (|faults| faults.longer_by = 0, (4, 0)),
    (|faults| faults.room_short_by = 0, (12, 9)),
    (|faults| faults.earlier.kind = 0, (12, 9)),
    (|faults| faults.earlier.second = [0; 8], (12, 9)),
    (|faults| faults.earlier.first = [0; 8], (13, 9)),
    (|faults| faults.earlier = raw(2, HALF, HALF), (14, 9)),
    (|faults| faults.earlier.first = [0; 8], (14, 9)),
    (|faults| faults.earlier.second = [0; 8], (13, 40)),
    (|faults| faults.later = raw(1, HALF, 0), (14, 40)),
    (|faults| faults.later = raw(1, ONE, 0), (0, 0)),
];

/// All faults at once, then fewer by one each time: every answer is for the first that is left.
#[test]
fn the_order_of_the_checks() {
    for (count, row) in [(71, 1), (601, 2)] {
        let (earlier, later) = (raw(3, HALF, HALF), raw(0, 0, 0));
        let mut faults = Faults { cut_to: 2, count, start: 13, longer_by: 1, room_short_by: 1, earlier, later };
        assert_eq!(faults.answer(), (7, 0));
        faults.cut_to = usize::MAX;
        assert_eq!(faults.answer(), (row, 0));
        for (step, (mend, answer)) in MENDS.into_iter().enumerate() {
            mend(&mut faults);
            assert_eq!(faults.answer(), answer, "mended {step}");
        }
    }
}

/// What a sheet gives at t, with the bits of its total, or number and place.
fn seen_at(sheet: &[u8], t: usize) -> Result<(i32, u64), (u8, usize)> {
    match read_sheet(sheet, 72) {
        Ok(series) => Ok((series.figures[t], u64::from_le_bytes(series.total_double()))),
        Err(Refusal { number, place }) => Err((number, place)),
    }
}

/// Every special double as a figure, as an old figure and as a new one; and where none should be. The total has 130 from elsewhere.
#[test]
fn special_doubles() {
    for &(name, bits, counts) in SPECIAL {
        for t in [0, 36, 71] {
            let seen = |cell: Cell| seen_at(&sheet_with(&[(t, cell)]), t);
            let due = |figure: fn(i32) -> i32, total: fn(i32) -> i32| match counts {
                Some(value) => Ok((figure(value), f64::from(total(value)).to_bits())),
                None => Err((14, t)),
            };
            assert_eq!(seen(raw(1, bits, 0)), due(|value| value, |_| 130), "{name} as a figure");
            assert_eq!(seen(raw(2, bits, THREE)), due(|_| 3, |value| 130 + 3 - value), "{name} as an old figure");
            assert_eq!(seen(raw(2, THREE, bits)), due(|value| value, |value| 130 + value - 3), "{name} as a new figure");
            let unused = if bits == 0 { Ok((3, 130f64.to_bits())) } else { Err((12, t)) };
            assert_eq!(seen(raw(1, THREE, bits)), unused, "{name} where nothing is used");
        }
    }
}

#[test]
fn special_doubles_in_pairs() {
    for &(old_name, old, old_counts) in SPECIAL {
        for &(new_name, new, new_counts) in SPECIAL {
            let due = match (old_counts, new_counts) {
                (Some(old), Some(new)) => Ok((new, f64::from(130 + new - old).to_bits())),
                _ => Err((14, 50)),
            };
            assert_eq!(seen_at(&sheet_with(&[(50, raw(2, old, new))]), 50), due, "{old_name} revised to {new_name}");
        }
    }
}

/// A zero total is positive, however it comes about.
#[test]
fn zero_is_positive() {
    let figure = raw(1, MINUS_ZERO, 0);
    for (name, pair) in [
        ("nothing revised", [figure, figure]),
        ("zero to negative zero", [raw(2, 0, MINUS_ZERO), figure]),
        ("negative zero to zero", [raw(2, MINUS_ZERO, 0), figure]),
        ("negative zero to itself, twice", [raw(2, MINUS_ZERO, MINUS_ZERO); 2]),
        ("a limit to itself", [Cell::revision(-200_000, -200_000), figure]),
        ("up and down", [Cell::revision(-200_000, 200_000), Cell::revision(200_000, -200_000)]),
        ("down and up", [Cell::revision(0, -1), Cell::revision(0, 1)]),
    ] {
        let mut cells = vec![figure; 72];
        cells[10..12].copy_from_slice(&pair);
        let series = read_sheet(&bytes_of(1, &cells), 72).expect("a series");
        assert_eq!((series.total, series.total_double()), (0, [0; 8]), "{name}");
    }
}

/// Whether a double counts, by the machine's own doubles.
fn whole_within(double: f64) -> Option<f64> {
    (double.fract() == 0.0 && double.abs() <= 200_000.0).then_some(double)
}

/// Both ways agree on a double.
fn agree_on(double: f64) {
    let other = whole_within(double).map(|whole| whole as i64);
    assert_eq!(whole_in(double.to_le_bytes()), other, "{double:e}, {:x}", double.to_bits());
}

/// Every exponent field, with each bit of the fraction alone and some others; then every figure with halves, quarters and the doubles next to
/// it; then doubles by chance.
#[test]
fn doubles_beside_those_of_the_machine() {
    let alone: Vec<u64> = (0..52).map(|bit| 1 << bit).chain([0, 0xf_ffff_ffff_ffff, 0xf_0000_0000_0000, 0xf_fff0_0000_0000]).collect();
    for field in 0..2_048 {
        for &fraction in &alone {
            agree_on(f64::from_bits(field << 52 | fraction));
            agree_on(-f64::from_bits(field << 52 | fraction));
        }
    }
    let mut counted = 0;
    for figure in -200_010..=200_010 {
        let double = f64::from(figure);
        for near in [double, double + 0.5, double + 0.25, double.next_up(), double.next_down()] {
            agree_on(near);
            counted += usize::from(whole_in(near.to_le_bytes()).is_some());
        }
    }
    assert_eq!(counted, 400_001);
    let mut dice = Dice::new(70);
    for _ in 0..500_000 {
        let bits = dice.roll() << 32 ^ dice.roll();
        agree_on(f64::from_bits(bits));
        agree_on(f64::from_bits(bits % (1 << 57) | 1 << 62));
    }
}

/// The doubles of whole numbers: all that a total of few revisions can be near zero and near both ends, powers of two and their neighbours.
#[test]
fn doubles_of_whole_numbers() {
    let near = |number: i64| number - 2..=number + 2;
    let powers = (0..=52).flat_map(|k| near(1 << k)).chain(near((1 << 53) - 3));
    let ends = near(240_000_000).chain(0..500_000).chain((0..1_000).map(|k| 239_999 * k));
    for number in powers.chain(ends) {
        for number in [number, -number] {
            assert_eq!(u64::from_le_bytes(double_of(number)), (number as f64).to_bits(), "{number}");
        }
    }
}

/// What comes of a sheet: start month, figures and the bits of the total, or number and place.
type Outcome = Result<(u8, Vec<i32>, u64), (u8, usize)>;

fn outcome_of(sheet: &[u8], room: usize) -> Outcome {
    match read_sheet(sheet, room) {
        Ok(series) => {
            let total = series.total_double();
            Ok((series.start, series.figures, u64::from_le_bytes(total)))
        }
        Err(Refusal { number, place }) => Err((number, place)),
    }
}

/// A good cell: its kind, its old and its new figure, the same where nothing is revised.
type Good = (u8, f64, f64);

/// How the rules might be taken, worked in doubles. `MEANT` is as they are meant.
#[derive(Clone, Copy)]
struct Taken {
    count: fn(usize, usize) -> usize,
    shortest: usize,
    front: &'static [u8],
    fits: fn(usize, usize) -> bool,
    has_room: fn(usize, usize) -> bool,
    /// Where the kind and the two doubles of month t of n stand.
    layout: fn(usize, usize) -> [usize; 3],
    double: fn([u8; 8]) -> f64,
    kind: fn(u8) -> u8,
    counts: fn(f64) -> Option<f64>,
    /// Which doubles must count, of so many that are used.
    checked: fn(usize) -> Range<usize>,
    is_unused: fn([u8; 8]) -> bool,
    gap: Option<f64>,
    rows: [u8; 3],
    not_counting: fn(f64) -> u8,
    /// The bad cell that is answered, of all by their rows and t.
    named: fn(&[(u8, usize)]) -> Option<&(u8, usize)>,
    place: fn(usize, usize) -> usize,
    figure: fn(f64, f64) -> f64,
    total: fn(&[Good]) -> f64,
}

const MEANT: Taken = Taken {
    count: |low, high| low + 256 * high,
    shortest: 3,
    front: &[7, 1, 2, 3, 9, 4],
    fits: |length, asked| length == asked,
    has_room: |room, n| room >= n,
    layout: |n, t| [3 + t, 3 + n + 16 * t, 3 + n + 16 * t + 8],
    double: f64::from_le_bytes,
    kind: |kind| kind,
    counts: whole_within,
    checked: |used| 0..used,
    is_unused: |bytes| bytes == [0; 8],
    gap: None,
    rows: [12, 13, 14],
    not_counting: |_| 14,
    named: |bad| bad.first(),
    place: |_, t| t,
    figure: |_, new| new,
    total: |cells| revised(cells).fold(0.0, |sum, (old, new)| sum + (new - old)),
};

/// Old and new figures of the cells that are revised.
fn revised(cells: &[Good]) -> impl Iterator<Item = (f64, f64)> + '_ {
    cells.iter().filter(|cell| cell.0 == 2).map(|&(_, old, new)| (old, new))
}

impl Taken {
    fn read(&self, sheet: &[u8], room: usize) -> Outcome {
        let byte = |k: usize| sheet.get(k).map_or(0, |&byte| usize::from(byte));
        let (n, start) = ((self.count)(byte(0), byte(1)), byte(2));
        let is_true = |row: u8| match row {
            7 => sheet.len() < self.shortest,
            1 => n < 72,
            2 => n > 600,
            3 => start < 1 || start > 12,
            9 => !(self.fits)(sheet.len(), 3 + 17 * n),
            _ => !(self.has_room)(room, n),
        };
        if let Some(&row) = self.front.iter().find(|&&row| is_true(row)) {
            return Err((row, 0));
        }
        let cells: Vec<Result<Good, u8>> = (0..n).map(|t| self.cell(sheet, n, t)).collect();
        let bad: Vec<(u8, usize)> = cells.iter().enumerate().filter_map(|(t, cell)| cell.err().map(|row| (row, t))).collect();
        if let Some(&(row, t)) = (self.named)(&bad) {
            return Err((row, (self.place)(n, t)));
        }
        let good: Vec<Good> = cells.into_iter().flatten().collect();
        let figures = good.iter().map(|&(_, old, new)| (self.figure)(old, new) as i32).collect();
        Ok((start as u8, figures, (self.total)(&good).to_bits()))
    }

    fn cell(&self, sheet: &[u8], n: usize, t: usize) -> Result<Good, u8> {
        let [kind, first, second] = (self.layout)(n, t);
        let kind = (self.kind)(sheet[kind]);
        let doubles = [first, second].map(|at| <[u8; 8]>::try_from(&sheet[at..at + 8]).expect("eight bytes"));
        let used = [0, 1, 2].get(usize::from(kind)).copied().unwrap_or(0);
        let values = doubles.map(self.double);
        let refused = values[(self.checked)(used)].iter().copied().find(|&value| (self.counts)(value).is_none());
        let is_true = |row: u8| match row {
            12 => kind > 2 || doubles[used..].iter().any(|&bytes| !(self.is_unused)(bytes)),
            13 => kind == 0 && self.gap.is_none(),
            _ => refused.is_some(),
        };
        match (self.rows.into_iter().find(|&row| is_true(row)), refused) {
            (Some(14), Some(value)) => return Err((self.not_counting)(value)),
            (Some(row), _) => return Err(row),
            (None, _) => {}
        }
        let [first, second] = values.map(|value| (self.counts)(value).unwrap_or(value));
        Ok(match kind {
            1 => (1, first, first),
            2 => (2, first, second),
            _ => self.gap.map(|value| (0, value, value)).expect("a gap that counts"),
        })
    }
}

/// A sheet with what it was made from.
struct Made {
    name: String,
    sheet: Vec<u8>,
    start: u8,
    figures: Vec<i32>,
    total: i128,
}

impl Made {
    /// A third of the months is revised, in each sheet from the same, from near or from far; some zeros have a sign.
    fn of(name: String, start: u8, figures: Vec<i32>, dice: &mut Dice) -> Made {
        let far = [0, 1, 500, 400_000][dice.between(0, 3) as usize];
        let mut total = 0;
        let mut cells = Vec::new();
        for &figure in &figures {
            let mut cell = Cell::figure(i64::from(figure));
            if dice.between(0, 2) == 0 {
                let old = (i64::from(figure) + dice.between(-far, far)).clamp(-200_000, 200_000);
                total += i128::from(i64::from(figure) - old);
                cell = Cell::revision(old, i64::from(figure));
            }
            let signed = dice.between(0, 1) == 0;
            if figure == 0 && cell.kind == 1 && signed {
                cell.first[7] = 0x80;
            } else if figure == 0 && cell.kind == 2 && signed {
                cell.second[7] = 0x80;
            }
            cells.push(cell);
        }
        Made { name, sheet: bytes_of(start, &cells), start, figures, total }
    }

    fn of_chance(round: usize, dice: &mut Dice) -> Made {
        let n = (72..=84).chain([599, 600]).nth(round % 15).expect("a count");
        let high = [200_000, 2, 0, 1_000][round / 15 % 4];
        let figures = (0..n).map(|_| dice.between(-high, high) as i32).collect();
        Made::of(format!("round {round}"), (round % 12 + 1) as u8, figures, dice)
    }

    /// Both ways give what it was made from; the total is exact.
    fn is_read_back(&self) {
        let series = read_sheet(&self.sheet, self.figures.len()).expect("a series");
        assert_eq!((series.start, &series.figures, i128::from(series.total)), (self.start, &self.figures, self.total), "{}", self.name);
        let bits = (self.total as f64).to_bits();
        assert_eq!(f64::from_bits(bits) as i128, self.total, "{}", self.name);
        let due = Ok((self.start, self.figures.clone(), bits));
        assert_eq!(outcome_of(&self.sheet, 600), due, "{}", self.name);
        assert_eq!(MEANT.read(&self.sheet, 600), due, "{}", self.name);
    }
}

/// All made-up series with revisions, and sheets by chance.
#[test]
fn good_sheets_in_a_second_way() {
    let mut dice = Dice::new(71);
    let list = cases();
    assert!(list.len() > 300);
    let mut totals = BTreeMap::new();
    for case in list {
        let made = Made::of(case.name, case.start, case.figures, &mut dice);
        made.is_read_back();
        *totals.entry(made.total.signum()).or_insert(0) += 1;
    }
    for round in 0..3_000 {
        let made = Made::of_chance(round, &mut dice);
        made.is_read_back();
        *totals.entry(made.total.signum()).or_insert(0) += 1;
    }
    println!("sheets by the sign of their total: {totals:?}");
    assert!(totals.len() == 3 && totals.values().all(|&sheets| sheets > 100));
}

#[test]
fn bad_sheets_in_a_second_way() {
    let mut dice = Dice::new(72);
    let mut answers = BTreeMap::new();
    for round in 0..20_000 {
        let Made { name, mut sheet, figures, .. } = Made::of_chance(round, &mut dice);
        for _ in 0..dice.between(1, 4) {
            damage(&mut sheet, figures.len(), &mut dice);
        }
        sheet.truncate(sheet.len() - usize::from(round % 25 == 0));
        let room = if round % 20 == 0 { dice.between(60, 90) as usize } else { 600 };
        let outcome = outcome_of(&sheet, room);
        assert_eq!(outcome, MEANT.read(&sheet, room), "{name}");
        *answers.entry(outcome.map_or_else(|(number, _)| number, |_| 0)).or_insert(0) += 1;
    }
    println!("sheets by their answer: {answers:?}");
    assert_eq!(answers.keys().copied().collect::<Vec<u8>>(), [0, 1, 2, 3, 4, 9, 12, 13, 14]);
    assert!(answers.values().all(|&sheets| sheets > 50));
}

/// What is seen of an outcome in the tables below: the figure at t 5 with the bits of the total, or number and place.
type Seen = Result<(i32, u64), (u8, usize)>;

fn seen_of(outcome: Outcome) -> Seen {
    outcome.map(|(_, figures, bits)| (figures[5], bits))
}

/// A figure at t 5, with the total of 130 that `sheet_with` has.
fn accepted(figure: i32) -> Seen {
    with_total(figure, 130.0)
}

fn with_total(figure: i32, total: f64) -> Seen {
    Ok((figure, total.to_bits()))
}

/// A rule with a sheet read into so much room, the outcome by hand and that of the rule.
type Other = (&'static str, Taken, Vec<u8>, usize, Seen, Seen);

fn give_other_outcomes<const N: usize>(rules: [Other; N]) {
    for (name, taken, sheet, room, right, wrong) in rules {
        assert_eq!(seen_of(outcome_of(&sheet, room)), right, "{name}");
        assert_eq!(seen_of(MEANT.read(&sheet, room)), right, "{name}");
        assert_eq!(seen_of(taken.read(&sheet, room)), wrong, "{name}");
        assert_ne!(right, wrong, "{name}");
    }
}

/// Rules about one cell, each with such a cell at t 5.
fn give_others_at_5<const N: usize>(rules: [(&'static str, Taken, Cell, Seen, Seen); N]) {
    give_other_outcomes(rules.map(|(name, taken, cell, right, wrong)| (name, taken, sheet_with(&[(5, cell)]), 72, right, wrong)));
}

fn a_byte_longer(mut sheet: Vec<u8>) -> Vec<u8> {
    sheet.push(0);
    sheet
}

/// The same from a month that is none.
fn from_13(mut sheet: Vec<u8>) -> Vec<u8> {
    sheet[2] = 13;
    sheet
}

#[test]
fn other_sizes_and_orders_of_the_first_checks() {
    let fronts: [&'static [u8]; 5] = [&[1, 7, 2, 3, 9, 4], &[7, 1, 2, 9, 3, 4], &[7, 9, 1, 2, 3, 4], &[7, 1, 2, 3, 4, 9], &[7, 1, 2, 3, 9]];
    let [one_first, length_before_month, length_before_count, room_before_length, without_room] =
        fronts.map(|front| Taken { front, ..MEANT });
    let high_first = Taken { count: |high, low| low + 256 * high, ..MEANT };
    let from_four = Taken { shortest: 4, ..MEANT };
    let at_least = Taken { fits: |length, asked| length >= asked, ..MEANT };
    let just_right = Taken { has_room: |room, n| room == n, ..MEANT };
    let good = || sheet_with(&[]);
    give_other_outcomes([
        ("1 before 7", one_first, vec![71, 0], 72, Err((7, 0)), Err((1, 0))),
        ("7 below 4 bytes", from_four, vec![72, 0, 3], 72, Err((9, 0)), Err((7, 0))),
        ("9 before 3", length_before_month, a_byte_longer(from_13(good())), 72, Err((3, 0)), Err((9, 0))),
        ("9 before 1", length_before_count, a_byte_longer(plain_sheet(71)), 72, Err((1, 0)), Err((9, 0))),
        ("4 before 9", room_before_length, a_byte_longer(good()), 71, Err((9, 0)), Err((4, 0))),
        ("no 4", without_room, sheet_with(&[(5, Cell::gap())]), 71, Err((4, 0)), Err((13, 5))),
        ("the count's high byte first", high_first, good(), 72, accepted(1_005), Err((2, 0))),
        ("longer sheets let through", at_least, a_byte_longer(good()), 72, Err((9, 0)), accepted(1_005)),
        ("longer slices refused", just_right, good(), 73, accepted(1_005), Err((4, 0))),
    ]);
}

/// In these the first cell comes out of other bytes: a gap, an unknown kind or a double so small that it does not count.
#[test]
fn other_layouts() {
    let kinds_last = Taken { layout: |n, t| [3 + 16 * n + t, 3 + 16 * t, 3 + 16 * t + 8], ..MEANT };
    let cell_by_cell = Taken { layout: |_, t| [3 + 17 * t, 4 + 17 * t, 12 + 17 * t], ..MEANT };
    let two_arrays = Taken { layout: |n, t| [3 + t, 3 + n + 8 * t, 3 + 9 * n + 8 * t], ..MEANT };
    let high_first = Taken { double: f64::from_be_bytes, ..MEANT };
    let good = || sheet_with(&[]);
    give_other_outcomes([
        ("kinds after the cells", kinds_last, good(), 72, accepted(1_005), Err((12, 0))),
        ("each kind before its cell", cell_by_cell, good(), 72, accepted(1_005), Err((12, 0))),
        ("all first doubles, then all second ones", two_arrays, good(), 72, accepted(1_005), Err((12, 0))),
        ("high byte first", high_first, good(), 72, accepted(1_005), Err((14, 0))),
    ]);
    // With 72 times the same revision the first doubles have 1 and 3 by turns, and so have the second ones: nothing is revised.
    let same = bytes_of(3, &[Cell::revision(1, 3); 72]);
    assert_eq!(seen_of(MEANT.read(&same, 72)), with_total(3, 144.0));
    assert_eq!(seen_of(two_arrays.read(&same, 72)), with_total(3, 0.0));
}

#[test]
fn other_rules_for_doubles() {
    let counts = |counts: fn(f64) -> Option<f64>| Taken { counts, ..MEANT };
    let no_minus_zero = counts(|double| whole_within(double).filter(|whole| whole.to_bits() != MINUS_ZERO));
    let cast = counts(|double| whole_within(f64::from(double as i32)));
    let to_even = counts(|double| whole_within(double.round_ties_even()));
    let cut_off = counts(|double| whole_within(double.trunc()));
    let away = counts(|double| whole_within(double.round()));
    let nearly = counts(|double| whole_within(double.round()).filter(|whole| (double - whole).abs() < 1e-9));
    let clamped = counts(|double| whole_within(double.clamp(-200_000.0, 200_000.0)));
    let in_32_bits = counts(|double| whole_within(f64::from(double as i64 as i32)));
    let below = counts(|double| whole_within(double).filter(|whole| whole.abs() < 200_000.0));
    let one_more = counts(|double| (double.fract() == 0.0 && double.abs() <= 200_001.0).then_some(double));
    let no_least = counts(|double| (double.fract() == 0.0 && double <= 200_000.0).then_some(double));
    let refused = Err((14, 5));
    give_others_at_5([
        ("negative zero refused as a figure", no_minus_zero, raw(1, MINUS_ZERO, 0), accepted(0), refused),
        ("negative zero refused as an old figure", no_minus_zero, raw(2, MINUS_ZERO, 0), accepted(0), refused),
        ("negative zero refused as a new figure", no_minus_zero, raw(2, 0, MINUS_ZERO), accepted(0), refused),
        ("what is no number is 0", cast, raw(1, NOT_A_NUMBER, 0), refused, accepted(0)),
        ("halves to even", to_even, raw(1, ABOVE_200000_BY_HALF, 0), refused, accepted(200_000)),
        ("fractions cut off", cut_off, raw(1, ABOVE_200000_BY_HALF, 0), refused, accepted(200_000)),
        ("halves away from zero", away, raw(1, BELOW_200000_BY_HALF, 0), refused, accepted(200_000)),
        ("nearly whole", nearly, raw(1, ABOVE_100, 0), refused, accepted(100)),
        ("what is outside moved to the limit", clamped, raw(1, INFINITE, 0), refused, accepted(200_000)),
        ("32 bits of it", in_32_bits, raw(1, TWO_TO_32_AND_5, 0), refused, accepted(5)),
        ("the limit refused", below, raw(1, GREATEST, 0), accepted(200_000), refused),
        ("one more than the limit", one_more, raw(1, GREATEST_AND_ONE, 0), refused, accepted(200_001)),
        ("no limit below", no_least, raw(1, LEAST_LESS_ONE, 0), refused, accepted(-200_001)),
    ]);
}

#[test]
fn other_rules_for_cells() {
    let new_alone = Taken { checked: |used| used.saturating_sub(1)..used, ..MEANT };
    let first_alone = Taken { checked: |used| 0..used.min(1), ..MEANT };
    let unlooked = Taken { is_unused: |_| true, ..MEANT };
    let equal_to_zero = Taken { is_unused: |bytes| f64::from_le_bytes(bytes) == 0.0, ..MEANT };
    let gap_is_zero = Taken { gap: Some(0.0), ..MEANT };
    let thirteen_first = Taken { rows: [13, 12, 14], ..MEANT };
    let fourteen_first = Taken { rows: [14, 12, 13], ..MEANT };
    let low_bits = Taken { kind: |kind| kind % 4, ..MEANT };
    let others_revised = Taken { kind: |kind| kind.min(2), ..MEANT };
    let five = Taken { not_counting: |double| if double.fract() == 0.0 { 5 } else { 14 }, ..MEANT };
    give_others_at_5([
        ("an old figure need not count", new_alone, raw(2, HALF, THREE), Err((14, 5)), with_total(3, 132.5)),
        ("a new figure need not count", first_alone, raw(2, THREE, HALF), Err((14, 5)), with_total(0, 127.5)),
        ("unused doubles not looked at", unlooked, raw(1, ONE, ONE), Err((12, 5)), accepted(1)),
        ("negative zero is unused", equal_to_zero, raw(1, ONE, MINUS_ZERO), Err((12, 5)), accepted(1)),
        ("negative zero is unused in a gap", equal_to_zero, raw(0, MINUS_ZERO, 0), Err((12, 5)), Err((13, 5))),
        ("a gap is 0", gap_is_zero, Cell::gap(), Err((13, 5)), accepted(0)),
        ("13 before 12", thirteen_first, raw(0, ONE, 0), Err((12, 5)), Err((13, 5))),
        ("14 before 12", fourteen_first, raw(1, NOT_A_NUMBER, ONE), Err((12, 5)), Err((14, 5))),
        ("two bits of the kind", low_bits, raw(5, ONE, 0), Err((12, 5)), accepted(1)),
        ("other kinds are revisions", others_revised, raw(3, ONE, THREE), Err((12, 5)), with_total(3, 132.0)),
        ("5 where it is outside", five, raw(1, GREATEST_AND_ONE, 0), Err((14, 5)), Err((5, 5))),
    ]);
}

#[test]
fn other_rules_for_places() {
    let last = Taken { named: |bad| bad.last(), ..MEANT };
    let by_row = Taken { named: |bad| bad.iter().min(), ..MEANT };
    let by_row_from_below = Taken { named: |bad| bad.iter().max_by_key(|(row, _)| *row), ..MEANT };
    let of_the_kind = Taken { place: |_, t| 3 + t, ..MEANT };
    let of_the_cell = Taken { place: |n, t| 3 + n + 16 * t, ..MEANT };
    let from_one = Taken { place: |_, t| t + 1, ..MEANT };
    let none = Taken { place: |_, _| 0, ..MEANT };
    let bad = |list: [(usize, Cell); 2]| sheet_with(&list);
    let (unknown, gap, half) = (raw(3, ONE, 0), Cell::gap(), raw(1, HALF, 0));
    give_other_outcomes([
        ("the last bad cell", last, bad([(5, gap), (9, gap)]), 72, Err((13, 5)), Err((13, 9))),
        ("12 in all cells before 14 in any", by_row, bad([(5, half), (9, unknown)]), 72, Err((14, 5)), Err((12, 9))),
        ("13 in all cells before 14 in any", by_row, bad([(5, half), (9, gap)]), 72, Err((14, 5)), Err((13, 9))),
        ("14 in all cells before 12 in any", by_row_from_below, bad([(5, unknown), (9, half)]), 72, Err((12, 5)), Err((14, 9))),
        ("the place of the kind in the sheet", of_the_kind, bad([(5, gap), (9, gap)]), 72, Err((13, 5)), Err((13, 8))),
        ("the place of the cell in the sheet", of_the_cell, bad([(5, half), (9, gap)]), 72, Err((14, 5)), Err((14, 155))),
        ("months counted from 1", from_one, bad([(5, half), (9, gap)]), 72, Err((14, 5)), Err((14, 6))),
        ("no place", none, bad([(5, half), (9, gap)]), 72, Err((14, 5)), Err((14, 0))),
    ]);
}

/// In single precision 2^24 + 1 is lost: 41 times 400,000, 177,217 and 200,000.
fn sum_of_2_to_24_and_1() -> Vec<u8> {
    let mut cells = vec![Cell::figure(7); 72];
    cells[10..51].fill(Cell::revision(-200_000, 200_000));
    cells[51] = Cell::revision(0, 177_217);
    cells[52] = Cell::revision(0, 200_000);
    bytes_of(3, &cells)
}

#[test]
fn other_rules_for_what_is_given() {
    let old_taken = Taken { figure: |old, _| old, ..MEANT };
    let total = |total: fn(&[Good]) -> f64| Taken { total, ..MEANT };
    let old_less_new = total(|cells| revised(cells).fold(0.0, |sum, (old, new)| sum + (old - new)));
    let turned = total(|cells| -revised(cells).fold(0.0, |sum, (old, new)| sum + (old - new)));
    let sizes = total(|cells| revised(cells).fold(0.0, |sum, (old, new)| sum + (new - old).abs()));
    let new_ones = total(|cells| revised(cells).fold(0.0, |sum, (_, new)| sum + new));
    let from_zero = total(|cells| cells.iter().fold(0.0, |sum, &(kind, old, new)| sum + (new - if kind == 2 { old } else { 0.0 })));
    let from_minus_zero = total(|cells| revised(cells).fold(-0.0, |sum, (old, new)| sum + (new - old)));
    let from_the_first = total(|cells| revised(cells).map(|(old, new)| new - old).reduce(|sum, change| sum + change).unwrap_or(0.0));
    let single = total(|cells| f64::from(revised(cells).fold(0f32, |sum, (old, new)| sum + (new - old) as f32)));
    let revision = |old: i64, new: i64| sheet_with(&[(5, Cell::revision(old, new))]);
    let zeros = |cell: Cell| bytes_of(3, &(0..72).map(|t| if t == 5 { cell } else { Cell::figure(0) }).collect::<Vec<Cell>>());
    give_other_outcomes([
        ("the old figure taken", old_taken, revision(40, 50), 72, with_total(50, 140.0), with_total(40, 140.0)),
        ("old less new", old_less_new, revision(40, 50), 72, with_total(50, 140.0), with_total(50, -140.0)),
        ("sizes summed", sizes, revision(50, 40), 72, with_total(40, 120.0), with_total(40, 140.0)),
        ("new figures summed", new_ones, revision(40, 50), 72, with_total(50, 140.0), with_total(50, 1_080.0)),
        ("figures revised from 0", from_zero, zeros(Cell::figure(7)), 72, with_total(7, 0.0), with_total(7, 7.0)),
        ("old less new, turned round", turned, zeros(Cell::figure(7)), 72, with_total(7, 0.0), with_total(7, -0.0)),
        ("summed from negative zero", from_minus_zero, zeros(Cell::figure(7)), 72, with_total(7, 0.0), with_total(7, -0.0)),
        ("from the first change", from_the_first, zeros(raw(2, 0, MINUS_ZERO)), 72, with_total(0, 0.0), with_total(0, -0.0)),
        ("in single precision", single, sum_of_2_to_24_and_1(), 72, with_total(7, 16_777_217.0), with_total(7, 16_777_216.0)),
    ]);
}

/// Runs a subcommand of the program: what it wrote, what it said, what it ended with.
fn run(arguments: &[&str], input: &[u8]) -> (Vec<u8>, String, Option<i32>) {
    let mut command = Command::new(env!("CARGO_BIN_EXE_separate"));
    command.args(arguments).stdin(Stdio::piped()).stdout(Stdio::piped()).stderr(Stdio::piped());
    let mut child = command.spawn().expect("the program");
    child.stdin.take().expect("its input").write_all(input).expect("input taken");
    let output = child.wait_with_output().expect("a run");
    (output.stdout, String::from_utf8(output.stderr).expect("text"), output.status.code())
}

/// What a subcommand writes where all is well.
fn written(arguments: &[&str], input: &[u8]) -> Vec<u8> {
    let (bytes, said, status) = run(arguments, input);
    assert_eq!((said.as_str(), status), ("", Some(0)), "{arguments:?}");
    bytes
}

/// The sheet by hand as a list, but for its negative zeros, and what is read from it.
#[test]
fn subcommands() {
    let list = format!("100 100>-2\n200000>-200000\t0 {}0>100\n", "-2 ".repeat(67));
    let sheet = written(&["mksheet", "3"], list.as_bytes());
    let mut due = sheet_by_hand();
    (due[75 + 16 * 3 + 7], due[75 + 16 * 71 + 7]) = (0, 0);
    assert_eq!(sheet, due);
    let text = format!("72 3 -400002\n100\n-2\n-200000\n0\n{}100\n", "-2\n".repeat(67));
    assert_eq!(String::from_utf8(written(&["readsheet"], &sheet)), Ok(text.clone()));
    assert_eq!(String::from_utf8(written(&["readsheet"], &sheet_by_hand())), Ok(text));
    // Nothing is checked in making one: readers refuse it.
    assert_eq!(written(&["mksheet", "255"], b"200001"), bytes_of(255, &[Cell::figure(200_001)]));
    assert_eq!(written(&["mksheet", "0"], b""), [0, 0, 0]);
}

#[test]
fn subcommands_refuse() {
    let refused = |sheet: &[u8], text: &str| {
        assert_eq!(String::from_utf8(written(&["readsheet"], sheet)), Ok(format!("{text}\n")));
    };
    refused(&[72, 0], "refused 7 0");
    refused(&plain_sheet(71), "refused 1 0");
    refused(&plain_sheet(601), "refused 2 0");
    refused(&from_13(plain_sheet(72)), "refused 3 0");
    refused(&a_byte_longer(plain_sheet(72)), "refused 9 0");
    refused(&sheet_with(&[(5, raw(3, 0, 0)), (9, Cell::gap())]), "refused 12 5");
    refused(&sheet_with(&[(9, Cell::gap())]), "refused 13 9");
    refused(&sheet_with(&[(71, Cell::revision(200_001, 0))]), "refused 14 71");
    let complaint = |start: &str, list: &str, said: &str| {
        assert_eq!(run(&["mksheet", start], list.as_bytes()), (Vec::new(), format!("{said}\n"), Some(2)), "{list}");
    };
    complaint("3", "1 2.5 3", "no whole number: 2.5");
    complaint("3", "1 >3", "no whole number: ");
    complaint("3", "1>2>3", "no whole number: 2>3");
    complaint("3", "9007199254740992", "not below 2^53 in size: 9007199254740992");
    complaint("3", "0>-9223372036854775808", "not below 2^53 in size: -9223372036854775808");
    complaint("256", "1", "no number from 0 to 255: 256");
    let (written, said, status) = run(&["readsheet", "3"], b"");
    assert!(written.is_empty() && status == Some(2));
    for line in ["separate mksheet START ", "separate readsheet "] {
        assert!(said.lines().any(|shown| shown.starts_with(line)), "{line}");
    }
}
