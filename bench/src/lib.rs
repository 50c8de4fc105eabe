//! Two programs for the same rules: the proved one and a plain one, which decomposes in integers.

pub mod checks;
pub mod ours;
pub mod plain;
pub mod plain_sheet;
pub mod series;
pub mod sheets;

/// The slices that are lent to decomposing.
#[derive(Clone, Debug, PartialEq)]
pub struct Lent {
    pub d10: Vec<i64>,
    pub d11: Vec<i64>,
    pub d12: Vec<i64>,
    pub d13: Vec<i64>,
    pub b17: Vec<u16>,
    pub c17: Vec<u16>,
    pub scratch: Vec<i64>,
}

impl Lent {
    /// Slices for n months, every entry as given.
    pub fn new(n: usize, value: i64, weight: u16) -> Lent {
        let table = vec![value; n];
        let weights = vec![weight; n];
        Lent {
            d10: table.clone(),
            d11: table.clone(),
            d12: table.clone(),
            d13: table,
            b17: weights.clone(),
            c17: weights,
            scratch: vec![value; checks::scratch_for(n)],
        }
    }

    /// Every entry as given.
    pub fn fill(&mut self, value: i64, weight: u16) {
        for table in [&mut self.d10, &mut self.d11, &mut self.d12, &mut self.d13, &mut self.scratch] {
            table.fill(value);
        }
        self.b17.fill(weight);
        self.c17.fill(weight);
    }
}

/// What is lent to reading a members' sheet: the slice for the figures, and a place for each number that is told.
#[derive(Clone, Debug)]
pub struct SheetLent {
    pub figures: Vec<i32>,
    pub count: usize,
    pub start: u8,
    pub revision: f64,
}

impl SheetLent {
    /// A slice of so many places, every entry and every number as given.
    pub fn new(room: usize, value: u8) -> SheetLent {
        let mut lent = SheetLent { figures: vec![0; room], count: 0, start: 0, revision: 0.0 };
        lent.fill(value);
        lent
    }

    /// Every entry and every number as given.
    pub fn fill(&mut self, value: u8) {
        self.figures.fill(value.into());
        self.tell(value.into(), value, value.into());
    }

    /// What is told beside the answer.
    pub fn tell(&mut self, count: usize, start: u8, revision: f64) {
        (self.count, self.start, self.revision) = (count, start, revision);
    }
}

/// The same to the bits of the total revision: negative zero is another one than zero.
impl PartialEq for SheetLent {
    fn eq(&self, other: &SheetLent) -> bool {
        let told = |lent: &SheetLent| (lent.count, lent.start, lent.revision.to_bits());
        told(self) == told(other) && self.figures == other.figures
    }
}

/// Number (0 for success, else the refusal's) and place.
pub type Answer = (u8, usize);
