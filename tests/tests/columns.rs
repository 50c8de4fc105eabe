//! The desk file by calendar month, separately written: files worked by hand, every row of the refusal sheet that it can meet, other ways to
//! take the rules, and the subcommands. `beside_columns.rs` and `ladders_columns.rs` have the proved library beside it.

use separate::columns::{
    by_month, by_time, bytes_of, from_columns, last_year, read_columns, to_columns, write_columns, ColumnsSeries,
};
use separate::decompose::Refusal;
use separate::desk;
use separate::generators::Dice;
use separate::print::printed;
use std::collections::BTreeMap;
use std::io::Write;
use std::process::{Command, Stdio};

fn refusal(number: u8, place: usize) -> Refusal {
    Refusal { number, place }
}

/// The months t of 72 from March of a year, in the order of the file. The first is a March, so t 10 is the first January, t 11 the first
/// February, and every month comes six times.
const FROM_MARCH: [usize; 72] = [
    10, 22, 34, 46, 58, 70, // January
    11, 23, 35, 47, 59, 71, // February
    0, 12, 24, 36, 48, 60, // March
    1, 13, 25, 37, 49, 61, // April
    2, 14, 26, 38, 50, 62, // May
    3, 15, 27, 39, 51, 63, // June
    4, 16, 28, 40, 52, 64, // July
    5, 17, 29, 41, 53, 65, // August
    6, 18, 30, 42, 54, 66, // September
    7, 19, 31, 43, 55, 67, // October
    8, 20, 32, 44, 56, 68, // November
    9, 21, 33, 45, 57, 69, // December
];

/// The same of 77 from November: six years later come November (t 72) and December (t 73), a January, a February and a March.
const FROM_NOVEMBER: [usize; 77] = [
    2, 14, 26, 38, 50, 62, 74, // January
    3, 15, 27, 39, 51, 63, 75, // February
    4, 16, 28, 40, 52, 64, 76, // March
    5, 17, 29, 41, 53, 65, // April
    6, 18, 30, 42, 54, 66, // May
    7, 19, 31, 43, 55, 67, // June
    8, 20, 32, 44, 56, 68, // July
    9, 21, 33, 45, 57, 69, // August
    10, 22, 34, 46, 58, 70, // September
    11, 23, 35, 47, 59, 71, // October
    0, 12, 24, 36, 48, 60, 72, // November
    1, 13, 25, 37, 49, 61, 73, // December
];

/// Figures that tell their month: 1000 + t, below zero at every fifth.
fn figures(n: usize) -> Vec<i32> {
    (0..n as i32).map(|t| if t % 5 == 4 { -1_000 - t } else { 1_000 + t }).collect()
}

/// Weights that tell their month: 900 - t.
fn weights(n: usize) -> Vec<u16> {
    (0..n as u16).map(|t| 900 - t).collect()
}

fn new_file(n: usize, start: u8, year: u16) -> Vec<u8> {
    bytes_of(&figures(n), start, year, &weights(n))
}

fn old_file(n: usize, start: u8) -> Vec<u8> {
    desk::bytes_of(&figures(n), start, 12, &weights(n))
}

/// A file put together from a header and a list of months.
fn file_by_hand(header: [u8; 6], months: &[usize]) -> Vec<u8> {
    let (figures, weights) = (figures(months.len()), weights(months.len()));
    let mut file = header.to_vec();
    file.extend(months.iter().flat_map(|&t| figures[t].to_le_bytes()));
    file.extend(months.iter().flat_map(|&t| weights[t].to_le_bytes()));
    file
}

#[test]
fn files_by_hand() {
    // 2001 is 7 times 256 and 209; 1987 is 7 times 256 and 195.
    let march = file_by_hand([72, 0, 3, 12, 209, 7], &FROM_MARCH);
    let november = file_by_hand([77, 0, 11, 12, 195, 7], &FROM_NOVEMBER);
    for (file, n, start, first_year) in [(march, 72, 3, 2001), (november, 77, 11, 1987)] {
        assert_eq!(file.len(), 6 + 6 * n);
        assert_eq!(write_columns(&figures(n), start, first_year, &weights(n), file.len()), Ok(file.clone()));
        let series = ColumnsSeries { start, first_year, figures: figures(n), weights: weights(n) };
        assert_eq!(read_columns(&file, n, n), Ok(series));
        assert_eq!(to_columns(&old_file(n, start), first_year, file.len()), Ok(file.clone()));
        assert_eq!(from_columns(&file, 4 + 6 * n), Ok((old_file(n, start), first_year)));
    }
}

#[test]
fn bytes_by_hand() {
    // From March. The first January, t 10, stands first; the first March, t 0, after twelve others; the last December, t 69, last. So its
    // figures begin at bytes 6, 54 and 290, its weights, all figures taking 288 bytes, at 294, 318 and 436.
    let (mut figures, mut weights) = (vec![0; 72], vec![0; 72]);
    (figures[10], figures[0], figures[69]) = (-2, 200_000, -200_000);
    (weights[10], weights[0], weights[69]) = (1_000, 833, 256);
    let file = write_columns(&figures, 3, 9_993, &weights, 438).expect("a file");
    assert_eq!(file[..6], [72, 0, 3, 12, 0x09, 0x27]);
    assert_eq!(file[6..10], [0xfe, 0xff, 0xff, 0xff]);
    assert_eq!(file[54..58], [0x40, 0x0d, 0x03, 0x00]);
    assert_eq!(file[290..294], [0xc0, 0xf2, 0xfc, 0xff]);
    assert_eq!((&file[294..296], &file[318..320], &file[436..]), (&[0xe8, 0x03][..], &[0x41, 0x03][..], &[0x00, 0x01][..]));
    assert_eq!(file[6..].iter().filter(|&&byte| byte != 0).count(), 4 + 3 + 4 + 2 + 2 + 1);
}

/// 600 months from December: one December in the first year, then 49 full years and eleven months, so each month comes fifty times.
#[test]
fn the_longest_from_december() {
    let months: Vec<usize> = (0..600).collect();
    let columns = by_month(&months, 12);
    assert_eq!(columns[..3], [1, 13, 25]);
    assert_eq!(columns[49..51], [589, 2]);
    assert_eq!(columns[549..551], [599, 0]); // November, then December
    assert_eq!(columns[598..], [576, 588]);
    assert_eq!(by_time(&columns, 12), months);
    assert_eq!(new_file(600, 12, 1).len(), 3_606);
    assert_eq!(new_file(600, 12, 1)[..6], [0x58, 0x02, 12, 12, 1, 0]);
}

/// First years by hand: the latest that is allowed, whose last month is in 9999. 72 months from January stay in six years, from any other
/// month they reach a seventh; 600 from January stay in fifty.
#[test]
fn row_11_years() {
    let latest = [
        (72, 1, 9_994), (72, 2, 9_993), (72, 12, 9_993), (73, 1, 9_993), (73, 12, 9_993), (74, 11, 9_993), (75, 11, 9_992), (83, 12, 9_992),
        (84, 1, 9_993), (84, 2, 9_992), (85, 1, 9_992), (600, 1, 9_950), (600, 2, 9_949), (600, 12, 9_949), (589, 12, 9_950),
        (590, 12, 9_949),
    ];
    for (n, start, latest) in latest {
        assert_eq!((last_year(start, latest, n), last_year(start, latest + 1, n)), (9_999, 10_000), "{n} from {start}");
        for (year, number) in [(0, 11), (1, 0), (latest, 0), (latest + 1, 11), (9_999, 11), (10_000, 11), (32_768, 11), (65_535, 11)] {
            let answers = [
                number_of(&read_columns(&new_file(n, start, year), n, n)),
                number_of(&write_columns(&figures(n), start, year, &weights(n), 6 + 6 * n)),
                number_of(&to_columns(&old_file(n, start), year, 6 + 6 * n)),
                number_of(&from_columns(&new_file(n, start, year), 4 + 6 * n)),
            ];
            assert_eq!(answers, [number; 4], "{n} months from {start} of {year}");
        }
    }
}

/// The number of an answer, 0 for success.
fn number_of<T>(answer: &Result<T, Refusal>) -> u8 {
    answer.as_ref().map_or_else(|refusal| refusal.number, |_| 0)
}

/// Forward and back, and back and forward, are what they began with; written and moved forward are the same.
#[test]
fn there_and_back() {
    let mut dice = Dice::new(60);
    for n in (72..=84).chain([599, 600]) {
        for start in 1..=12 {
            let figures: Vec<i32> = (0..n).map(|_| dice.between(-200_000, 200_000) as i32).collect();
            let weights: Vec<u16> = (0..n).map(|_| dice.between(0, 1_000) as u16).collect();
            let year = dice.between(1, 9_949) as u16;
            let old = desk::write(&figures, start, &weights, 4 + 6 * n).expect("a file");
            let new = to_columns(&old, year, 6 + 6 * n).expect("a file");
            assert_eq!(from_columns(&new, 4 + 6 * n), Ok((old, year)), "{n} from {start}");
            assert_eq!(write_columns(&figures, start, year, &weights, 6 + 6 * n), Ok(new.clone()), "{n} from {start}");
            assert_eq!(read_columns(&new, n, n), Ok(ColumnsSeries { start, first_year: year, figures, weights }), "{n} from {start}");
        }
    }
}

/// Everything that can be wrong about 72 months from March.
#[derive(Clone, Copy)]
struct Faults {
    cut_to: usize,
    count: usize,
    start: u8,
    period: u8,
    year: u16,
    longer_by: usize,
    room_short_by: usize,
    bad_figures: bool,
    bad_weights: bool,
}

impl Faults {
    /// From March, t 5 is an August and t 22 a January: the lower t stands later in the file. Likewise t 9, a December, and t 11.
    fn figures(&self) -> Vec<i32> {
        let mut figures = figures(self.count);
        if self.bad_figures {
            (figures[5], figures[22]) = (-200_001, 200_001);
        }
        figures
    }

    fn weights(&self) -> Vec<u16> {
        let mut weights = weights(self.count);
        if self.bad_weights {
            (weights[9], weights[11]) = (1_001, 65_535);
        }
        weights
    }

    fn changed(&self, mut file: Vec<u8>) -> Vec<u8> {
        (file[2], file[3]) = (self.start, self.period);
        file.resize(file.len() + self.longer_by, 0);
        file.truncate(self.cut_to);
        file
    }

    fn new_file(&self) -> Vec<u8> {
        self.changed(bytes_of(&self.figures(), 3, self.year, &self.weights()))
    }

    fn old_file(&self) -> Vec<u8> {
        self.changed(desk::bytes_of(&self.figures(), 3, 12, &self.weights()))
    }

    /// What fits the count, less what is missing.
    fn room(&self, fitting: usize) -> usize {
        fitting - self.room_short_by
    }
}

/// How each fault is mended, in the order of the checks.
const MENDS: [fn(&mut Faults); 9] = [
    |faults| faults.cut_to = usize::MAX,
    |faults| faults.count = 72,
    |faults| faults.start = 3,
    |faults| faults.period = 12,
    |faults| faults.year = 9_993,
    |faults| faults.longer_by = 0,
    |faults| faults.room_short_by = 0,
    |faults| faults.bad_figures = false,
    |faults| faults.bad_weights = false,
];

/// All faults at once, then fewer by one each time: the answers, every one for the first fault that is left.
fn answers_while_mended<T>(count: usize, cut_to: usize, work: impl Fn(Faults) -> Result<T, Refusal>) -> Vec<(u8, usize)> {
    let year = 9_994; // its last month is February of 10000
    let mut faults =
        Faults { cut_to, count, start: 13, period: 4, year, longer_by: 1, room_short_by: 1, bad_figures: true, bad_weights: true };
    let answer = |faults| work(faults).err().map_or((0, 0), |refusal| (refusal.number, refusal.place));
    let mut answers = vec![answer(faults)];
    for mend in MENDS {
        mend(&mut faults);
        answers.push(answer(faults));
    }
    answers
}

#[test]
fn the_order_of_the_checks() {
    for (count, row) in [(71, 1), (601, 2)] {
        let reading = [(7, 0), (row, 0), (3, 0), (8, 0), (11, 0), (9, 0), (4, 0), (5, 5), (10, 9), (0, 0)];
        let read = |faults: Faults| read_columns(&faults.new_file(), faults.room(faults.count), faults.count);
        assert_eq!(answers_while_mended(count, 5, read), reading);
        let read = |faults: Faults| read_columns(&faults.new_file(), faults.count, faults.room(faults.count));
        assert_eq!(answers_while_mended(count, 5, read), reading);
        let forward = |faults: Faults| to_columns(&faults.old_file(), faults.year, faults.room(6 + 6 * faults.count));
        assert_eq!(answers_while_mended(count, 3, forward), reading);
        let back = |faults: Faults| from_columns(&faults.new_file(), faults.room(4 + 6 * faults.count));
        assert_eq!(answers_while_mended(count, 5, back), reading);
        // Writing has no bytes to be cut, no period and no length, so its answer stays the same when these are mended.
        let writing = [(row, 0), (row, 0), (3, 0), (11, 0), (11, 0), (4, 0), (4, 0), (5, 5), (10, 9), (0, 0)];
        let write = |faults: Faults| {
            write_columns(&faults.figures(), faults.start, faults.year, &faults.weights(), faults.room(6 + 6 * faults.count))
        };
        assert_eq!(answers_while_mended(count, 0, write), writing);
    }
}

#[test]
fn lengths_and_rooms() {
    let (new, old) = (new_file(72, 3, 2001), old_file(72, 3));
    for length in 0..440 {
        let mut file = new.clone();
        file.resize(length, 0);
        let number = match length {
            0..=5 => 7,
            438 => 0,
            _ => 9,
        };
        assert_eq!((number_of(&read_columns(&file, 72, 72)), number_of(&from_columns(&file, 436))), (number, number), "{length}");
    }
    for (length, number) in [(0, 7), (3, 7), (4, 9), (5, 9), (435, 9), (436, 0), (437, 9), (438, 9)] {
        let mut file = old.clone();
        file.resize(length, 0);
        assert_eq!(number_of(&to_columns(&file, 2001, 438)), number, "{length}");
    }
    for (room, forward, back) in [(0, 4, 4), (435, 4, 4), (436, 4, 0), (437, 4, 0), (438, 0, 0), (9_999, 0, 0)] {
        assert_eq!(number_of(&write_columns(&figures(72), 3, 2001, &weights(72), room)), forward, "{room}");
        assert_eq!(number_of(&to_columns(&old, 2001, room)), forward, "{room}");
        assert_eq!(number_of(&from_columns(&new, room)), back, "{room}");
    }
    for (room, number) in [(0, 4), (71, 4), (72, 0), (73, 0)] {
        assert_eq!((number_of(&read_columns(&new, room, 72)), number_of(&read_columns(&new, 72, room))), (number, number), "{room}");
    }
    for length in [0, 71, 73] {
        assert_eq!(write_columns(&figures(72), 3, 2001, &vec![0; length], 438), Err(refusal(4, 0)));
    }
}

/// A file of either form is refused where the other is asked: two bytes too many, or two too few. In an old file the year is looked for in
/// the first figure: 1000, 131072 (low bytes 0 and 0), 10000.
#[test]
fn each_form_refuses_the_other() {
    assert_eq!(printed(&new_file(72, 3, 2001)), "refused 9 0\n");
    assert_eq!(desk::read(&new_file(72, 3, 2001), 72, 72), Err(refusal(9, 0)));
    assert_eq!(to_columns(&new_file(72, 3, 2001), 2001, 500), Err(refusal(9, 0)));
    for (first_figure, number) in [(1_000, 9), (131_072, 11), (10_000, 11), (0, 11), (-1, 11), (1, 9)] {
        let mut list = figures(72);
        list[0] = first_figure;
        let old = desk::bytes_of(&list, 3, 12, &weights(72));
        assert_eq!(read_columns(&old, 72, 72), Err(refusal(number, 0)), "{first_figure}");
        assert_eq!(from_columns(&old, 500), Err(refusal(number, 0)), "{first_figure}");
    }
}

/// How the rules might be taken, worked with remainders instead of labels. `MEANT` is as they are meant.
#[derive(Clone, Copy)]
struct Taken {
    figures_by: Key,
    weights_by: Key,
    place_of_the_first_in_the_file: bool,
    length_before_years: bool,
    years_spanned: fn(usize, usize) -> usize,
    years: (usize, usize),
}

/// What a month is sorted by, from its t and the start month counted from 0.
type Key = fn(usize, usize) -> (usize, usize);

const MONTH_THEN_YEAR: Key = |t, start| ((start + t) % 12, (start + t) / 12);
const FROM_THE_START_MONTH: Key = |t, _| (t % 12, t / 12);
const NEWEST_FIRST: Key = |t, start| ((start + t) % 12, 100 - (start + t) / 12);
const BY_TIME: Key = |t, _| (t, 0);

const MEANT: Taken = Taken {
    figures_by: MONTH_THEN_YEAR,
    weights_by: MONTH_THEN_YEAR,
    place_of_the_first_in_the_file: false,
    length_before_years: false,
    years_spanned: |n, start| (start + n - 1) / 12,
    years: (1, 9_999),
};

/// The months t in the order of a key.
fn sorted(n: usize, start: u8, key: Key) -> Vec<usize> {
    let mut months: Vec<usize> = (0..n).collect();
    months.sort_by_key(|&t| key(t, usize::from(start) - 1));
    months
}

/// The values of a file at their months.
fn at_their_months<T: Copy + Default>(values: &[T], months: &[usize]) -> Vec<T> {
    let mut list = vec![T::default(); values.len()];
    for (&t, &value) in months.iter().zip(values) {
        list[t] = value;
    }
    list
}

impl Taken {
    fn write(&self, figures: &[i32], start: u8, year: u16, weights: &[u16]) -> Vec<u8> {
        let n = figures.len();
        let mut file = (n as u16).to_le_bytes().to_vec();
        file.extend([start, 12]);
        file.extend(year.to_le_bytes());
        file.extend(sorted(n, start, self.figures_by).into_iter().flat_map(|t| figures[t].to_le_bytes()));
        file.extend(sorted(n, start, self.weights_by).into_iter().flat_map(|t| weights[t].to_le_bytes()));
        file
    }

    /// Reads a file whose count, start month and period are good.
    fn read(&self, file: &[u8]) -> Result<ColumnsSeries, Refusal> {
        let number = |place: usize| u16::from_le_bytes([file[place], file[place + 1]]);
        let (n, start, first_year) = (usize::from(number(0)), file[2], number(4));
        self.check_years_and_length(file.len(), n, start, first_year)?;
        let figures: Vec<i32> =
            (0..n).map(|k| 6 + 4 * k).map(|at| i32::from(number(at)) + 65_536 * i32::from(number(at + 2) as i16)).collect();
        let weights: Vec<u16> = (0..n).map(|k| number(6 + 4 * n + 2 * k)).collect();
        self.check(5, &figures, &sorted(n, start, self.figures_by), |&figure| figure.abs() > 200_000)?;
        self.check(10, &weights, &sorted(n, start, self.weights_by), |&weight| weight > 1_000)?;
        let figures = at_their_months(&figures, &sorted(n, start, self.figures_by));
        let weights = at_their_months(&weights, &sorted(n, start, self.weights_by));
        Ok(ColumnsSeries { start, first_year, figures, weights })
    }

    fn check_years_and_length(&self, length: usize, n: usize, start: u8, first_year: u16) -> Result<(), Refusal> {
        let (earliest, latest) = self.years;
        let year = usize::from(first_year);
        let years_out = year < earliest || year + (self.years_spanned)(n, usize::from(start) - 1) > latest;
        let mut rows = vec![(11, years_out), (9, length != 6 + 6 * n)];
        if self.length_before_years {
            rows.reverse();
        }
        rows.into_iter().find(|row| row.1).map_or(Ok(()), |(number, _)| Err(refusal(number, 0)))
    }

    /// A row with a place, for values that stand in the order of these months.
    fn check<T>(&self, row: u8, values: &[T], months: &[usize], is_bad: impl Fn(&T) -> bool) -> Result<(), Refusal> {
        let mut bad = months.iter().zip(values).filter(|(_, value)| is_bad(value)).map(|(&t, _)| t);
        let place = if self.place_of_the_first_in_the_file { bad.next() } else { bad.min() };
        place.map_or(Ok(()), |t| Err(refusal(row, t)))
    }
}

/// The rules as they are meant, taken in this second way, give the same bytes and answers: good files, and files with faults by chance.
#[test]
fn the_second_way_agrees() {
    let mut dice = Dice::new(61);
    let mut answers = BTreeMap::new();
    for round in 0..6_000 {
        let n = (72..=84).chain([599, 600]).nth(round % 15).expect("a count");
        let start = (round / 15 % 12 + 1) as u8;
        let mut figures: Vec<i32> = (0..n).map(|_| dice.between(-200_000, 200_000) as i32).collect();
        let mut weights: Vec<u16> = (0..n).map(|_| dice.between(0, 1_000) as u16).collect();
        for _ in 0..dice.between(0, 3) {
            let t = dice.between(0, n as i64 - 1) as usize;
            match dice.between(0, 4) {
                0 => figures[t] = [200_001, -200_001, i32::MAX, i32::MIN + 1][dice.between(0, 3) as usize],
                1 => weights[t] = [1_001, 65_535][dice.between(0, 1) as usize],
                _ => {}
            }
        }
        let year = if round % 4 == 0 { dice.between(9_940, 10_010) } else { dice.between(0, 9_000) } as u16;
        let mut file = MEANT.write(&figures, start, year, &weights);
        assert_eq!(bytes_of(&figures, start, year, &weights), file, "round {round}");
        file.resize(file.len() + usize::from(round % 7 == 0), 0);
        let answer = read_columns(&file, n, n);
        assert_eq!(answer, MEANT.read(&file), "round {round}");
        *answers.entry(number_of(&answer)).or_insert(0) += 1;
    }
    println!("files by their answer: {answers:?}");
    assert_eq!(answers.keys().copied().collect::<Vec<u8>>(), [0, 5, 9, 10, 11]);
    assert!(answers.values().all(|&files| files > 300));
}

/// Other orders give other bytes, and a reader that follows them another series; the first figure and the first weight of the file are
/// those of the months t named, by hand for 72 months from March.
#[test]
fn other_orders_give_other_bytes() {
    let right = new_file(72, 3, 2001);
    let orders = [
        ("as meant", MONTH_THEN_YEAR, MONTH_THEN_YEAR, 10, 10),
        ("columns from the start month", FROM_THE_START_MONTH, FROM_THE_START_MONTH, 0, 0),
        ("newest first", NEWEST_FIRST, NEWEST_FIRST, 70, 70),
        ("figures in the order of t, weights by month", BY_TIME, MONTH_THEN_YEAR, 0, 10),
        ("figures by month, weights in the order of t", MONTH_THEN_YEAR, BY_TIME, 10, 0),
    ];
    for (name, figures_by, weights_by, first_figure, first_weight) in orders {
        let taken = Taken { figures_by, weights_by, ..MEANT };
        let file = taken.write(&figures(72), 3, 2001, &weights(72));
        assert_eq!(file[6..10], figures(72)[first_figure].to_le_bytes(), "{name}");
        assert_eq!(file[294..296], weights(72)[first_weight].to_le_bytes(), "{name}");
        assert_eq!(file == right, name == "as meant", "{name}");
        assert_eq!(taken.read(&right) == read_columns(&right, 72, 72), name == "as meant", "{name}");
        assert_eq!(read_columns(&file, 72, 72) == read_columns(&right, 72, 72), name == "as meant", "{name}");
    }
    // From January the start month is the first column either way.
    let taken = Taken { figures_by: FROM_THE_START_MONTH, weights_by: FROM_THE_START_MONTH, ..MEANT };
    assert_eq!(taken.write(&figures(72), 1, 2001, &weights(72)), new_file(72, 1, 2001));
}

/// A file of 72 months from March with these bad figures and weights.
fn with_bad(bad_figures: &[usize], bad_weights: &[usize]) -> Vec<u8> {
    let (mut figures, mut weights) = (figures(72), weights(72));
    bad_figures.iter().for_each(|&t| figures[t] = 200_001);
    bad_weights.iter().for_each(|&t| weights[t] = 1_001);
    bytes_of(&figures, 3, 2001, &weights)
}

fn a_byte_longer(mut file: Vec<u8>) -> Vec<u8> {
    file.push(0);
    file
}

/// Other rules for answers, each with a file, the answer by hand and that of the other rule; (0, 0) is success.
#[test]
fn other_rules_give_other_answers() {
    let in_the_file = Taken { place_of_the_first_in_the_file: true, ..MEANT };
    let length_first = Taken { length_before_years: true, ..MEANT };
    let by_n = Taken { years_spanned: |n, _| n / 12, ..MEANT };
    let first_only = Taken { years_spanned: |_, _| 0, ..MEANT };
    let to_10000 = Taken { years: (1, 10_000), ..MEANT };
    let from_0 = Taken { years: (0, 9_999), ..MEANT };
    let rules = [
        // t 5 is an August, t 22 a January; t 9 a December, t 11 a February.
        ("the first bad figure in the file", in_the_file, with_bad(&[5, 22], &[]), (5, 5), (5, 22)),
        ("the first bad weight in the file", in_the_file, with_bad(&[], &[9, 11]), (10, 9), (10, 11)),
        ("11 after 9", length_first, a_byte_longer(new_file(72, 3, 0)), (11, 0), (9, 0)),
        // From January of 9994 to December of 9999; from December of 9993, 83 months, to October of 10000.
        ("the last year by n / 12", by_n, new_file(72, 1, 9_994), (0, 0), (11, 0)),
        ("the last year by n / 12", by_n, new_file(83, 12, 9_993), (11, 0), (0, 0)),
        ("the first year alone", first_only, new_file(72, 1, 9_995), (11, 0), (0, 0)),
        ("10000 let through", to_10000, new_file(72, 1, 9_995), (11, 0), (0, 0)),
        ("0 let through", from_0, new_file(72, 1, 0), (11, 0), (0, 0)),
    ];
    let pair = |answer: Result<ColumnsSeries, Refusal>| answer.err().map_or((0, 0), |refusal| (refusal.number, refusal.place));
    for (name, taken, file, right, wrong) in rules {
        assert_eq!(pair(read_columns(&file, 600, 600)), right, "{name}");
        assert_eq!(pair(MEANT.read(&file)), right, "{name}");
        assert_eq!(pair(taken.read(&file)), wrong, "{name}");
        assert_ne!(right, wrong, "{name}");
    }
}

/// Runs a subcommand of the program: what it wrote, what it said, what it ended with.
fn outcome(arguments: &[&str], input: &[u8]) -> (Vec<u8>, String, Option<i32>) {
    let mut command = Command::new(env!("CARGO_BIN_EXE_separate"));
    command.args(arguments).stdin(Stdio::piped()).stdout(Stdio::piped()).stderr(Stdio::piped());
    let mut child = command.spawn().expect("the program");
    child.stdin.take().expect("its input").write_all(input).expect("input taken");
    let output = child.wait_with_output().expect("a run");
    (output.stdout, String::from_utf8(output.stderr).expect("text"), output.status.code())
}

fn in_words(figures: &[i32]) -> Vec<u8> {
    figures.iter().map(|figure| format!("{figure}\n")).collect::<String>().into_bytes()
}

#[test]
fn subcommands() {
    let thousand = vec![1_000; 72];
    let (new, old) = (bytes_of(&figures(72), 3, 2001, &thousand), desk::bytes_of(&figures(72), 3, 12, &thousand));
    let nothing = String::new;
    assert_eq!(outcome(&["mkdesk", "3"], &in_words(&figures(72))), (old.clone(), nothing(), Some(0)));
    assert_eq!(outcome(&["mkcolumns", "3", "2001"], &in_words(&figures(72))), (new.clone(), nothing(), Some(0)));
    assert_eq!(outcome(&["tocolumns", "2001"], &old), (new.clone(), nothing(), Some(0)));
    assert_eq!(outcome(&["fromcolumns"], &new), (old, "year 2001\n".to_string(), Some(0)));
    let (new, old) = (new_file(77, 11, 1987), old_file(77, 11));
    assert_eq!(outcome(&["tocolumns", "1987"], &old), (new.clone(), nothing(), Some(0)));
    assert_eq!(outcome(&["fromcolumns"], &new), (old, "year 1987\n".to_string(), Some(0)));
}

#[test]
fn subcommands_refuse() {
    let refused = |arguments: &[&str], input: &[u8], said: &str| {
        assert_eq!(outcome(arguments, input), (Vec::new(), format!("{said}\n"), Some(2)), "{arguments:?}");
    };
    refused(&["mkcolumns", "3", "2001"], &in_words(&figures(71)), "refused 1 0");
    refused(&["mkcolumns", "13", "0"], &in_words(&figures(72)), "refused 3 0");
    refused(&["mkcolumns", "3", "0"], &in_words(&figures(72)), "refused 11 0");
    refused(&["mkcolumns", "3", "9994"], &in_words(&figures(72)), "refused 11 0");
    refused(&["mkcolumns", "3", "2001"], &in_words(&[vec![0; 30], vec![200_001; 50]].concat()), "refused 5 30");
    refused(&["mkcolumns", "3", "65536"], &in_words(&figures(72)), "no number from 0 to 65535: 65536");
    refused(&["tocolumns", "0"], &old_file(72, 3), "refused 11 0");
    refused(&["tocolumns", "2001"], &new_file(72, 3, 2001), "refused 9 0");
    refused(&["tocolumns", "2001"], &[72, 0, 3], "refused 7 0");
    refused(&["tocolumns", "-1"], &old_file(72, 3), "no number from 0 to 65535: -1");
    refused(&["fromcolumns"], &[72, 0, 3, 12, 1], "refused 7 0");
    refused(&["fromcolumns"], &with_bad(&[5, 22], &[9]), "refused 5 5");
    refused(&["fromcolumns"], &with_bad(&[], &[9, 11]), "refused 10 9");
    let (written, said, status) = outcome(&["fromcolumns", "2001"], b"");
    assert!(written.is_empty() && status == Some(2));
    for line in ["separate mkcolumns START YEAR", "separate tocolumns YEAR ", "separate fromcolumns "] {
        assert!(said.lines().any(|shown| shown.starts_with(line)), "{line}");
    }
}
