//! Made-up series, the same at every run.

/// A small generator of numbers with a fixed seed.
pub struct Dice {
    state: u64,
}

impl Dice {
    pub fn new(seed: u64) -> Dice {
        let mut dice = Dice { state: (seed.wrapping_mul(0x9e37_79b9_7f4a_7c15) ^ 0x2545_f491_4f6c_dd1d) | 1 };
        for _ in 0..8 {
            dice.roll();
        }
        dice
    }

    pub fn roll(&mut self) -> u64 {
        self.state ^= self.state >> 12;
        self.state ^= self.state << 25;
        self.state ^= self.state >> 27;
        self.state.wrapping_mul(0x2545_f491_4f6c_dd1d) >> 11
    }

    /// A whole number from low to high, both included.
    pub fn between(&mut self, low: i64, high: i64) -> i64 {
        low + (self.roll() % (high - low + 1) as u64) as i64
    }

    /// A number around 0, near to normal, with the given spread: the sum of twelve even ones.
    pub fn noise(&mut self, spread: i64) -> i64 {
        let sum: i64 = (0..12).map(|_| self.between(-1000, 1000)).sum();
        sum * spread / 2000
    }
}

/// Figures with their start month.
#[derive(Clone, Debug)]
pub struct Series {
    pub start: u8,
    pub figures: Vec<i32>,
}

fn within_limits(figures: impl Iterator<Item = i64>) -> Vec<i32> {
    figures.map(|figure| figure.clamp(-200_000, 200_000) as i32).collect()
}

/// A series as offices have them: a level with a changing slope, a seasonal that moves slowly, noise, and a few extremes.
pub fn ordinary(seed: u64, n: usize, level: i64, spread: i64) -> Series {
    let mut dice = Dice::new(seed);
    let start = dice.between(1, 12) as u8;
    let seasonal: Vec<i64> = (0..12).map(|_| dice.between(-level / 5, level / 5)).collect();
    let moving: Vec<i64> = (0..12).map(|_| dice.between(-level / 500 - 1, level / 500 + 1)).collect();
    let (mut trend, mut slope) = (level * 1000, 0);
    let figures = (0..n).map(|t| {
        slope = slope * 95 / 100 + dice.between(-level, level);
        trend += slope;
        let extreme = if dice.between(0, 39) == 0 { dice.between(3, 9) * spread * (dice.between(0, 1) * 2 - 1) } else { 0 };
        trend / 1000 + seasonal[t % 12] + moving[t % 12] * t as i64 / 12 + dice.noise(spread) + extreme
    });
    Series { start, figures: within_limits(figures) }
}

/// Waves of up to a height, 30 to 120 months long, with a seasonal that stays, and noise. Little noise gives a smooth series, much a rough one.
pub fn waves(seed: u64, n: usize, height: i64, spread: i64) -> Series {
    let mut dice = Dice::new(seed);
    let start = dice.between(1, 12) as u8;
    let seasonal: Vec<i64> = (0..12).map(|_| dice.between(-height, height)).collect();
    let (half, first) = (dice.between(15, 60), dice.between(0, 119));
    let figures = (0..n).map(|t| {
        let (halves, place) = ((first + t as i64) / half, (first + t as i64) % half);
        let arc = 4 * height * place * (half - place) / (half * half);
        (if halves % 2 == 0 { arc } else { -arc }) + seasonal[t % 12] + dice.noise(spread)
    });
    Series { start, figures: within_limits(figures) }
}

/// A level with a seasonal that moves by the same steps from year to year, each up to a size, and noise: of one spread, and of another in the last
/// so many months. The more noise beside the steps, the longer the seasonal filter of pass D; two spreads let years be set aside for the choice.
pub fn moving(seed: u64, n: usize, size: i64, spread: i64, (late, late_spread): (usize, i64)) -> Series {
    let mut dice = Dice::new(seed);
    let start = dice.between(1, 12) as u8;
    let steps: Vec<i64> = (0..12).map(|_| dice.between(-size, size)).collect();
    let figures = (0..n).map(|t| {
        let spread = if t + late < n { spread } else { late_spread };
        50 * size + steps[t % 12] * (t as i64 / 12) + dice.noise(spread)
    });
    Series { start, figures: within_limits(figures) }
}

/// Any figures up to a size.
pub fn random(seed: u64, n: usize, size: i64) -> Series {
    let mut dice = Dice::new(seed);
    let start = dice.between(1, 12) as u8;
    Series { start, figures: within_limits((0..n).map(|_| dice.between(-size, size))) }
}

/// Each figure at one of the limits, by the throw of a coin.
pub fn at_the_limits(seed: u64, n: usize) -> Series {
    let mut dice = Dice::new(seed);
    let start = dice.between(1, 12) as u8;
    Series { start, figures: within_limits((0..n).map(|_| (dice.between(0, 1) * 2 - 1) * 200_000)) }
}

/// The same figure throughout, but for so many spikes.
pub fn flat(seed: u64, n: usize, figure: i32, spikes: usize) -> Series {
    let mut dice = Dice::new(seed);
    let start = dice.between(1, 12) as u8;
    let mut figures = vec![figure; n];
    for _ in 0..spikes {
        figures[dice.between(0, n as i64 - 1) as usize] = dice.between(-200_000, 200_000) as i32;
    }
    Series { start, figures }
}

/// An ordinary series with an extreme in one of so many months and a flood of up to so many months.
pub fn flooded(seed: u64, n: usize, one_in: i64, flood: i64) -> Series {
    let mut dice = Dice::new(seed);
    let mut series = ordinary(seed, n, 20_000, 300);
    for figure in &mut series.figures {
        if dice.between(1, one_in) == 1 {
            *figure = dice.between(-200_000, 200_000) as i32;
        }
    }
    let first = dice.between(0, n as i64 - 1) as usize;
    for figure in series.figures[first..].iter_mut().take(dice.between(0, flood) as usize) {
        *figure = (*figure + dice.between(30_000, 90_000) as i32).min(200_000);
    }
    series
}

/// So many units up or down, turning from month to month and from year to year, but 0 where said. With 1 unit most irregulars have the size 1,
/// and if a group has a 0 its spread is cut to 0: nearly all values of SI1 and SI2 are replaced, with those of the zeros for neighbours.
pub fn up_and_down(start: u8, n: usize, units: i32, mut zero: impl FnMut(usize) -> bool) -> Series {
    let turned = |t: usize| if (t + t / 12) % 2 == 0 { units } else { -units };
    Series { start, figures: (0..n).map(|t| if zero(t) { 0 } else { turned(t) }).collect() }
}

/// Any odd figures up to an odd size. Of small ones the spreads are small too, and many corrections and means come to exact halves of a grain,
/// beside those of 2×12, of the end rows of 3×5 and, more rarely, of Henderson's filter.
pub fn odd(seed: u64, n: usize, size: i64) -> Series {
    let mut dice = Dice::new(seed);
    let start = dice.between(1, 12) as u8;
    Series { start, figures: within_limits((0..n).map(|_| 2 * dice.between(0, size) - size)) }
}

/// The same figure throughout, but for odd multiples of 500 units that are added to some of the first six months and of the last six, so many
/// times at each end. What this moves of SI1 is mostly replaced in pass B. S1 is then 0, and many of Henderson's end rows come to exact halves of
/// a grain.
pub fn raised_ends(seed: u64, n: usize, figure: i32, times: usize) -> Series {
    let mut dice = Dice::new(seed);
    let mut series = flat(seed, n, figure, 0);
    for end in [0, n - 6] {
        for _ in 0..times {
            series.figures[end + dice.between(0, 5) as usize] += 500 * (2 * dice.between(-9, 8) as i32 + 1);
        }
    }
    series
}

/// Up and down by a few units, turning from month to month and from year to year; in three months of each twelve by 19 to 25 or, one time in
/// seven, by nothing. With spreads near 10 values of these three get weights between 0 and 1,000, their neighbours are one to four, and some of
/// the means come to exact halves of a grain.
pub fn rough_months(seed: u64, n: usize) -> Series {
    let mut dice = Dice::new(seed);
    let start = dice.between(1, 12) as u8;
    let figures = (0..n).map(|t| {
        let size = match t % 12 {
            3.. => dice.between(3, 9),
            _ if dice.between(1, 7) == 1 => 0,
            _ => dice.between(19, 25),
        };
        if (t + t / 12) % 2 == 0 { size } else { -size }
    });
    Series { start, figures: within_limits(figures) }
}
