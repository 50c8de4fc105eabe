//! The proved desk file by calendar month beside the separately written one, read, written and moved in both directions: answers, places,
//! lengths, years, what is filled and what stays.

#[path = "proved/columns/mod.rs"]
mod columns;

use columns::beside;
use separate::columns::{by_month, bytes_of, last_year};
use separate::desk;
use separate::generators::{cases, Dice};

/// A series with its weights, in the order of t.
struct Series {
    start: u8,
    year: u16,
    figures: Vec<i32>,
    weights: Vec<u16>,
}

impl Series {
    fn random(dice: &mut Dice, n: usize) -> Series {
        Series {
            start: dice.between(1, 12) as u8,
            year: dice.between(1, 9_900) as u16,
            figures: (0..n).map(|_| dice.between(-200_000, 200_000) as i32).collect(),
            weights: (0..n).map(|_| dice.between(0, 1_000) as u16).collect(),
        }
    }

    fn new_file(&self) -> Vec<u8> {
        bytes_of(&self.figures, self.start, self.year, &self.weights)
    }

    fn old_file(&self) -> Vec<u8> {
        desk::bytes_of(&self.figures, self.start, 12, &self.weights)
    }

    /// Works the series in all four ways, with outputs a little longer than the files; gives the number that they all answer.
    fn every_way(&self, name: &str) -> u8 {
        let n = self.figures.len();
        let (written, new) = beside::write(name, &self.figures, self.start, self.year, &self.weights, 6 + 6 * n + 3);
        let (moved, forward) = beside::forward(name, &self.old_file(), self.year, 6 + 6 * n + 3);
        let (moved_back, old, year) = beside::back(name, &self.new_file(), 4 + 6 * n + 3);
        let read = beside::read(name, &self.new_file(), n + 2, n + 1);
        assert_eq!((moved, moved_back, read), (written, written, written), "{name}");
        assert_eq!(forward, new, "{name}: written, and moved forward");
        if written.0 == 0 {
            assert_eq!((new, old, year), (self.new_file(), self.old_file(), self.year), "{name}");
        }
        written.0
    }
}

#[test]
fn every_length_of_both_files() {
    let series = Series::random(&mut Dice::new(51), 72);
    let (mut new, mut old) = (series.new_file(), series.old_file());
    new.extend([1, 2, 3, 4, 5, 6, 7, 8]);
    old.extend([1, 2, 3, 4, 5, 6, 7, 8]);
    let mut accepted = Vec::new();
    for length in 0..=446 {
        let name = format!("{length} bytes");
        let read = beside::read(&name, &new[..length], 72, 80);
        assert_eq!(beside::back(&name, &new[..length], 440).0, read, "{name}");
        accepted.push((read.0 == 0).then_some(length));
    }
    assert_eq!(accepted.into_iter().flatten().collect::<Vec<usize>>(), [438]);
    let moves = |length: &usize| beside::forward(&format!("{length} bytes"), &old[..*length], series.year, 440).0 == (0, 0);
    assert_eq!((0..=444).filter(moves).collect::<Vec<usize>>(), [436]);
}

#[test]
fn every_value_of_every_header_byte() {
    let series = Series::random(&mut Dice::new(52), 72);
    let changed = |file: &[u8], place: usize, value: u8| {
        let mut file = file.to_vec();
        file[place] = value;
        file
    };
    for value in 0..=255 {
        for place in 0..6 {
            let name = format!("byte {place} is {value}");
            let new = changed(&series.new_file(), place, value);
            let read = beside::read(&name, &new, 600, 600);
            assert_eq!(beside::back(&name, &new, 3_604).0, read, "{name}");
        }
        for place in 0..4 {
            let old = changed(&series.old_file(), place, value);
            beside::forward(&format!("byte {place} is {value}"), &old, series.year, 3_606);
        }
    }
}

/// Each of the 65,536 years, of a file that is cut after its header: 9 where the years are in order, else 11.
#[test]
fn every_year_in_a_header() {
    for (n, start, latest) in [(72u16, 1, 9_994), (72, 2, 9_993), (600, 1, 9_950), (600, 12, 9_949)] {
        let [low, high] = n.to_le_bytes();
        let mut refused = 0;
        for year in 0..=65_535u16 {
            let [year_low, year_high] = year.to_le_bytes();
            let new = [low, high, start, 12, year_low, year_high];
            let name = format!("{n} months from {start} of {year}");
            let answer = (if (1..=latest).contains(&year) { 9 } else { 11 }, 0);
            assert_eq!(beside::read(&name, &new, 0, 0), answer, "{name}");
            assert_eq!(beside::back(&name, &new, 0).0, answer, "{name}");
            assert_eq!(beside::forward(&name, &new[..4], year, 0).0, answer, "{name}");
            refused += usize::from(answer.0 == 11);
        }
        assert_eq!(refused, 65_536 - usize::from(latest));
    }
}

/// Slices and outputs too short by one or by all, just long enough, and longer; 436 and 438 are the lengths of the two files.
#[test]
fn rooms() {
    let series = Series::random(&mut Dice::new(53), 72);
    let (new, old) = (series.new_file(), series.old_file());
    for (room, number) in [(0, 4), (71, 4), (72, 0), (73, 0), (600, 0)] {
        assert_eq!(beside::read("figures", &new, room, 72), (number, 0), "{room}");
        assert_eq!(beside::read("weights", &new, 72, room), (number, 0), "{room}");
    }
    for (room, number) in [(0, 4), (1, 4), (432, 4), (436, 4), (437, 4), (438, 0), (439, 0), (600, 0)] {
        let written = beside::write("written", &series.figures, series.start, series.year, &series.weights, room).0;
        assert_eq!(written, (number, 0), "{room}");
        assert_eq!(beside::forward("forward", &old, series.year, room).0, (number, 0), "{room}");
    }
    for (room, number) in [(0, 4), (1, 4), (432, 4), (435, 4), (436, 0), (437, 0), (438, 0), (600, 0)] {
        assert_eq!(beside::back("back", &new, room).0, (number, 0), "{room}");
    }
    for (length, number) in [(0, 4), (71, 4), (72, 0), (73, 4), (144, 4)] {
        let weights = vec![9; length];
        assert_eq!(beside::write("weights", &series.figures, 1, 1, &weights, 500).0, (number, 0), "{length}");
    }
}

#[test]
fn bytes_changed_at_random() {
    let mut dice = Dice::new(54);
    for round in 0..4_000 {
        let series = Series::random(&mut dice, [72, 73, 90][round % 3]);
        let (mut new, mut old) = (series.new_file(), series.old_file());
        for _ in 0..dice.between(1, 4) {
            for file in [&mut new, &mut old] {
                let place = dice.between(0, file.len() as i64 - 1) as usize;
                file[place] = dice.between(0, 255) as u8;
            }
        }
        let name = format!("round {round}");
        let read = beside::read(&name, &new, 100, 100);
        assert_eq!(beside::back(&name, &new, 600).0, read, "{name}");
        beside::forward(&name, &old, series.year, 600);
    }
}

/// Some places of a series, each with something put there; those of the lowest t and of the first in the file.
fn put_somewhere<T: Copy>(dice: &mut Dice, list: &mut [T], start: u8, bad: &[T]) -> (usize, usize) {
    let mut is_bad = vec![false; list.len()];
    for _ in 0..dice.between(2, 5) {
        let t = dice.between(0, list.len() as i64 - 1) as usize;
        list[t] = bad[dice.between(0, bad.len() as i64 - 1) as usize];
        is_bad[t] = true;
    }
    let months: Vec<usize> = (0..list.len()).collect();
    let first = by_month(&months, start).into_iter().find(|&t| is_bad[t]).expect("a bad month");
    (is_bad.iter().position(|&bad| bad).expect("a bad month"), first)
}

/// Bad figures in a third of the rounds, bad weights in another, both in the last; the place is the lowest t. It often is not the place of
/// the first that stands in the file.
#[test]
fn several_bad_figures_and_weights() {
    let mut dice = Dice::new(55);
    let mut others = [0, 0];
    for round in 0..3_000 {
        let mut series = Series::random(&mut dice, [72, 79, 96][round / 3 % 3]);
        let mut answer = (0, 0);
        if round % 3 != 0 {
            let (lowest, first) = put_somewhere(&mut dice, &mut series.weights, series.start, &[1_001, 1_024, 32_768, 65_535]);
            answer = (10, lowest);
            others[0] += usize::from(lowest != first);
        }
        if round % 3 != 1 {
            let bad = [200_001, -200_001, i32::MAX, i32::MIN, 16_777_216];
            let (lowest, first) = put_somewhere(&mut dice, &mut series.figures, series.start, &bad);
            answer = (5, lowest);
            others[1] += usize::from(lowest != first);
        }
        let name = format!("round {round}");
        assert_eq!(series.every_way(&name), answer.0, "{name}");
        assert_eq!(beside::read(&name, &series.new_file(), 96, 96), answer, "{name}");
    }
    println!("rounds in which the lowest t is not the first in the file, for weights and for figures: {others:?}");
    assert!(others.iter().all(|&rounds| rounds > 800));
}

/// Every start month with every short count and the longest; a month fewer and a month more than allowed.
#[test]
fn every_start_and_count() {
    let mut dice = Dice::new(56);
    for n in (71..=84).chain([599, 600, 601]) {
        for start in 1..=12 {
            let series = Series { start, ..Series::random(&mut dice, n) };
            let number = match n {
                71 => 1,
                601 => 2,
                _ => 0,
            };
            assert_eq!(series.every_way(&format!("{n} months from {start}")), number, "{n} months from {start}");
        }
    }
}

/// Where every month has a value of its own, each value is found again at its place; -200,000 and 200,000 are among the figures.
#[test]
fn values_that_tell_their_month() {
    for start in 1..=12 {
        for n in (72..=84).chain([114, 599, 600]) {
            let mut figures: Vec<i32> = (0..n as i32).map(|t| [1, -1][t as usize % 2] * (70_000 + 200 * t)).collect();
            figures[n / 2] = 200_000;
            figures[n / 3] = -200_000;
            let weights = (0..n as u16).map(|t| 1_000 - t).collect();
            let series = Series { start, year: 300, figures, weights };
            assert_eq!(series.every_way(&format!("{n} months from {start}")), 0);
        }
    }
}

/// First years about both limits. The latest that is accepted has its last month in 9999, and the next one in 10000.
#[test]
fn years_at_the_limits() {
    let mut dice = Dice::new(57);
    for start in 1..=12 {
        for n in (72..=84).chain([599, 600]) {
            let mut series = Series { start, ..Series::random(&mut dice, n) };
            let mut accepted = Vec::new();
            for year in [0, 1, 2].into_iter().chain(9_945..=10_001).chain([65_485, 65_535]) {
                series.year = year;
                let name = format!("{n} months from {start} of {year}");
                let number = series.every_way(&name);
                assert!(number == 0 || number == 11, "{name}");
                accepted.extend((number == 0).then_some(year));
            }
            let latest = *accepted.last().expect("a year");
            assert_eq!((last_year(start, latest, n), last_year(start, latest + 1, n)), (9_999, 10_000));
            assert_eq!(accepted[..3], [1, 2, 9_945], "{n} months from {start}");
            assert_eq!(accepted.len(), 3 + usize::from(latest - 9_945), "{n} months from {start}");
        }
    }
}

/// Each form given where the other is asked.
#[test]
fn files_of_the_other_form() {
    let mut dice = Dice::new(58);
    for round in 0..200 {
        let mut series = Series::random(&mut dice, 72 + round % 13);
        if round % 2 == 0 {
            series.figures[0] = dice.between(1, 9_000) as i32; // its low bytes stand where the year would
        }
        let name = format!("round {round}");
        let read = beside::read(&name, &series.old_file(), 600, 600);
        assert_eq!(beside::back(&name, &series.old_file(), 600).0, read, "{name}");
        assert!(read == (9, 0) || (read == (11, 0) && round % 2 == 1), "{name}");
        assert_eq!(beside::forward(&name, &series.new_file(), series.year, 600).0, (9, 0), "{name}");
    }
}

/// All made-up series, each with weights and a year of its own.
#[test]
fn made_up_series() {
    let mut dice = Dice::new(59);
    let list = cases();
    assert!(list.len() > 300);
    for case in list {
        let weights = (0..case.figures.len()).map(|_| dice.between(0, 1_000) as u16).collect();
        let series = Series { start: case.start, year: dice.between(1, 9_949) as u16, figures: case.figures, weights };
        assert_eq!(series.every_way(&case.name), 0, "{}", case.name);
    }
}
