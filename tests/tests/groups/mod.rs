//! The years of a weighing in a second way: by division instead of labels.

use separate::pass::Placed;
use separate::spread::{two_spreads, units, weight};

/// A calendar year: the sizes, in whole units, of its own months and of those of its group.
pub struct Year {
    own: Vec<u64>,
    pub group: Vec<u64>,
}

/// The years that an irregular touches with its own months.
pub fn years(irregular: &Placed, start: u8) -> Vec<Year> {
    let year_of = |t: usize| (usize::from(start) - 1 + t) / 12;
    let (first_year, last_year) = (year_of(irregular.first), year_of(irregular.last()));
    let sizes = |least: usize, most: usize| -> Vec<u64> {
        let months = (irregular.first..=irregular.last()).filter(|&t| (least..=most).contains(&year_of(t)));
        months.map(|t| units(irregular.at(t)).unsigned_abs()).collect()
    };
    let year = |year: usize| {
        let centre = year.clamp(first_year + 2, last_year - 2);
        Year { own: sizes(year, year), group: sizes(centre - 2, centre + 2) }
    };
    (first_year..=last_year).map(year).collect()
}

/// The weights that these years give.
pub fn weights_by_division(irregular: &Placed, start: u8) -> Vec<u16> {
    let mut list = Vec::new();
    for year in years(irregular, start) {
        let (_, second) = two_spreads(&year.group);
        list.extend(year.own.iter().map(|&size| weight(size, second)));
    }
    list
}
