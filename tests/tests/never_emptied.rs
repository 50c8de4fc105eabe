//! Dropping never empties a group (request 9/12 of document 02): its smallest month is never above the first spread, so it stays. First
//! spread and months kept are worked here in a second way, in all small groups, in long ones of hard shapes and by chance, and in every group
//! of the four weighings of all made-up series: those of SI1 and SI2 in pass B (the book's B4 and B9), of B13 and of C13. Other rules empty
//! groups in each of these.

mod groups;

use groups::{weights_by_division, years};
use separate::decompose::{decompose_fitting, Tables};
use separate::generators::{cases, Dice};
use separate::pass::Placed;
use separate::spread::two_spreads;
use std::collections::{BTreeMap, BTreeSet};

/// The months of five years, and a size above all that a weighing meets.
const LONGEST: usize = 60;
const LARGEST: u64 = 110_000_000;

/// The whole part of the root of a fraction, in steps of one from a rough one.
fn root_of(upper: u128, lower: u128) -> u64 {
    let is_above = |root: u64| u128::from(root) * u128::from(root) * lower > upper;
    let mut root = (upper as f64 / lower as f64).sqrt() as u64;
    while is_above(root) {
        root -= 1;
    }
    while !is_above(root + 1) {
        root += 1;
    }
    root
}

fn sum_of_squares(sizes: &[u64]) -> u128 {
    sizes.iter().map(|&size| u128::from(size * size)).sum()
}

fn from_zero(sizes: &[u64]) -> u64 {
    root_of(sum_of_squares(sizes), sizes.len() as u128)
}

/// The root of the mean square about the mean.
fn from_the_mean(sizes: &[u64]) -> u64 {
    let (count, sum) = (sizes.len() as u128, u128::from(sizes.iter().sum::<u64>()));
    root_of(count * sum_of_squares(sizes) - sum * sum, count * count)
}

/// How months are dropped: those go whose size, taken twice, is above so many times the first spread; or just that, if at the limit too.
#[derive(Clone, Copy)]
struct Rule {
    spread: fn(&[u64]) -> u64,
    times: u64,
    at_the_limit: bool,
}

const OURS: Rule = Rule { spread: from_zero, times: 5, at_the_limit: false };

// Rules that empty groups.
const ONCE: Rule = Rule { times: 1, ..OURS };
const AT_THE_LIMIT: Rule = Rule { at_the_limit: true, ..OURS };
const ABOUT_THE_MEAN: Rule = Rule { spread: from_the_mean, ..OURS };

impl Rule {
    fn is_dropped(&self, size: u64, first: u64) -> bool {
        2 * size > self.times * first || (self.at_the_limit && 2 * size == self.times * first)
    }

    /// The first spread and the months kept.
    fn worked(&self, sizes: &[u64]) -> (u64, Vec<u64>) {
        let first = (self.spread)(sizes);
        (first, sizes.iter().copied().filter(|&size| !self.is_dropped(size, first)).collect())
    }

    /// What the request says of every group and is not so of this one.
    fn failing(&self, sizes: &[u64]) -> Vec<&'static str> {
        let (first, kept) = self.worked(sizes);
        let smallest = sizes.iter().min().expect("a month");
        let facts = [(NOT_ABOVE, *smallest <= first), (STAYS, !kept.is_empty()), (KEPT, kept.contains(smallest))];
        facts.into_iter().filter(|fact| !fact.1).map(|fact| fact.0).collect()
    }
}

const NOT_ABOVE: &str = "the smallest month is not above the first spread";
const STAYS: &str = "some month stays";
const KEPT: &str = "the smallest month is kept";

/// Both spreads of a group, after what the request says of it; the program has the same.
fn checked(sizes: &[u64]) -> (u64, u64) {
    assert!(OURS.failing(sizes).is_empty(), "{:?} is not so of {sizes:?}", OURS.failing(sizes));
    let (first, kept) = OURS.worked(sizes);
    let spreads = (first, from_zero(&kept));
    assert_eq!(two_spreads(sizes), spreads, "{sizes:?}");
    spreads
}

/// All lists of one to six sizes from 0 to 9.
fn small_groups() -> impl Iterator<Item = Vec<u64>> {
    (1..=6).flat_map(|months| (0..10u64.pow(months)).map(move |digits| (0..months).map(|k| digits / 10u64.pow(k) % 10).collect()))
}

#[test]
fn every_small_group() {
    assert_eq!(small_groups().map(|group| checked(&group)).count(), 1_111_110);
}

/// Some months of one size and some of another, all alike and all but one among them; powers of every base up to ten.
#[test]
fn long_groups_of_hard_shapes() {
    let sizes = [0, 1, 2, 3, 5, 7, 12, 1_000, 65_535, 65_536, 3_000_001, LARGEST - 1, LARGEST];
    for months in 1..=LONGEST {
        for one in sizes {
            for other in sizes {
                for many in 0..=months {
                    checked(&[vec![one; many], vec![other; months - many]].concat());
                }
            }
        }
        for base in 2..=10u64 {
            let powers: Vec<u64> = (0..months as u32).map(|k| base.pow(k % (LARGEST.ilog(base) + 1))).collect();
            checked(&powers);
        }
    }
}

/// 25 months of 9 and one of 25: 2,025 and 625 over 26 is 101, root 10, and twice 25 is five times 10: it stays. One of 26 (103, root 10)
/// does not.
#[test]
fn a_month_at_the_limit_by_hand() {
    let with = |size: u64| [vec![9; 25], vec![size]].concat();
    assert_eq!([checked(&with(25)), checked(&with(26))], [(10, 10), (10, 9)]);
}

/// Months of one size, and one that is taken past the limit: it comes to lie below it, on it and above it by one.
#[test]
fn one_month_around_the_limit() {
    let mut met = BTreeMap::new();
    for months in 2..=LONGEST {
        for size in 1..=40 {
            for other in 0..=4 * size {
                let (first, _) = checked(&[vec![size; months - 1], vec![other]].concat());
                *met.entry(2 * other as i64 - 5 * first as i64).or_insert(0) += 1;
            }
        }
    }
    println!("twice the month less five times the first spread: {:?}", met.range(-1..=1));
    assert!((-1..=1).all(|off| met[&off] > 100));
}

#[test]
fn groups_by_chance() {
    let mut dice = Dice::new(912);
    for _ in 0..60_000 {
        let months = dice.between(1, LONGEST as i64);
        let top = [1, 3, 20, 1_000, 200_000, LARGEST as i64][dice.between(0, 5) as usize];
        // In half of the groups no month is small.
        let least = dice.between(0, 1) * dice.between(0, top);
        let group: Vec<u64> = (0..months).map(|_| dice.between(least, top) as u64).collect();
        checked(&group);
    }
}

/// What is weighed, with the weights that the program gives it.
fn weighings(tables: &Tables) -> [(&'static str, Placed, &[u16]); 4] {
    let whole = |table: &[i64]| Placed::whole_series(table.to_vec());
    [
        ("SI1", tables.b4.irregular.clone(), &tables.b4.weights),
        ("SI2", tables.b9.irregular.clone(), &tables.b9.weights),
        ("B13", whole(&tables.b13), &tables.b17),
        ("C13", whole(&tables.c13), &tables.c17),
    ]
}

/// What the groups of a weighing are like: the start months of their series, their lengths, their largest size, and how many are emptied by
/// each of the other rules.
#[derive(Debug, Default)]
struct Met {
    starts: BTreeSet<u8>,
    lengths: BTreeSet<usize>,
    largest: u64,
    emptied: [usize; 3],
}

impl Met {
    fn add(&mut self, start: u8, group: &[u64]) {
        self.starts.insert(start);
        self.lengths.insert(group.len());
        self.largest = group.iter().copied().fold(self.largest, u64::max);
        for (count, rule) in self.emptied.iter_mut().zip([ONCE, AT_THE_LIMIT, ABOUT_THE_MEAN]) {
            *count += usize::from(rule.failing(group).contains(&STAYS));
        }
    }
}

/// SI1 has n-12 months and begins with the calendar month of t 6. The weights show that the program has the same groups.
#[test]
fn every_group_of_every_made_up_series() {
    let mut met: BTreeMap<&str, Met> = BTreeMap::new();
    for case in cases() {
        let n = case.figures.len();
        let tables = decompose_fitting(&case.figures, case.start).expect("an allowed series");
        for (name, irregular, weights) in weighings(&tables) {
            assert_eq!((irregular.first, irregular.values.len()), if name == "SI1" { (6, n - 12) } else { (0, n) });
            for year in years(&irregular, case.start) {
                checked(&year.group);
                met.entry(name).or_default().add(case.start, &year.group);
            }
            assert_eq!(weights_by_division(&irregular, case.start), weights, "{} {name}", case.name);
        }
    }
    println!("{met:?}");
    assert_eq!(met.len(), 4);
    for (name, met) in met {
        assert_eq!((met.starts, met.lengths), ((1..=12).collect(), (49..=LONGEST).collect()), "{name}");
        assert!(met.largest > 200_000 && met.largest < LARGEST, "{name}");
        assert!(met.emptied.iter().all(|&count| count > 50), "{name}");
    }
}

/// Were twice a size measured by the first spread once, months that are alike would all go, unless they are zero; were months at the limit
/// dropped too, those that are zero; were the spread taken about the mean, those that are not, and it would be below them all.
#[test]
fn other_rules_empty_a_group() {
    let none = Vec::<&str>::new;
    for months in 1..=LONGEST {
        for size in [1, 2, 9, LARGEST] {
            let alike = vec![size; months];
            assert_eq!(ONCE.failing(&alike), [STAYS, KEPT], "{months} of {size}");
            assert_eq!(AT_THE_LIMIT.failing(&alike), none(), "{months} of {size}");
            assert_eq!(ABOUT_THE_MEAN.failing(&alike), [NOT_ABOVE, STAYS, KEPT], "{months} of {size}");
        }
        let zeros = vec![0; months];
        assert_eq!([ONCE, AT_THE_LIMIT, ABOUT_THE_MEAN].map(|rule| rule.failing(&zeros)), [none(), vec![STAYS, KEPT], none()], "{months}");
    }
}
