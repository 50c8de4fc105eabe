//! The plain reader of members' sheets gives what ours gives: number, place, count, start month, the bits of the total revision, and the lent
//! slice to its last entry.

use bench::series::{at_the_limits, flat, ordinary, random, Dice};
use bench::sheets::{figure, revised, revision, sheet, Cell};
use bench::{ours, plain_sheet, Answer, SheetLent};

/// No figure.
const MARK: i32 = 777_777;

const MINUS_ZERO: u64 = 1 << 63;

/// Reads one sheet with both, into so much room; the answer and what was lent.
fn same(name: &str, bytes: &[u8], room: usize) -> (Answer, SheetLent) {
    // What no program leaves behind by chance.
    let mut left = SheetLent { figures: vec![MARK; room], count: usize::MAX, start: u8::MAX, revision: f64::NAN };
    let mut right = left.clone();
    let answer = ours::read_sheet(bytes, &mut left);
    assert_eq!(plain_sheet::read_sheet(bytes, &mut right), answer, "{name}: the answer");
    let told = |lent: &SheetLent| (lent.count, lent.start, lent.revision.to_bits());
    assert_eq!(told(&right), told(&left), "{name}: count, start month and total revision");
    assert!(left.figures == right.figures, "{name}: the slice");
    if answer.0 != 0 {
        assert_eq!(told(&left), (0, 0, 0), "{name}: a refusal tells nothing else");
    }
    assert!(left.figures[left.count..].iter().all(|&entry| entry == MARK), "{name}: what is not filled stays");
    (answer, left)
}

fn answer(name: &str, bytes: &[u8], room: usize) -> Answer {
    same(name, bytes, room).0
}

/// A sheet that is accepted, with the figures of its cells and their total in whole numbers.
fn agree(name: &str, start: u8, cells: &[Cell]) {
    let n = cells.len();
    let (answer, lent) = same(name, &sheet(start, cells), n + n % 3);
    assert_eq!((answer, lent.count, lent.start), ((0, 0), n, start), "{name}");
    let whole = |bits: u64| f64::from_bits(bits) as i32;
    let figures = cells.iter().map(|&(kind, first, second)| whole(if kind == 2 { second } else { first }));
    assert!(figures.eq(lent.figures[..n].iter().copied()), "{name}: the figures");
    let total: i32 = cells.iter().filter(|cell| cell.0 == 2).map(|&(_, old, new)| whole(new) - whole(old)).sum();
    assert_eq!(lent.revision.to_bits(), f64::from(total).to_bits(), "{name}: the total revision");
}

#[test]
fn series_with_revisions() {
    let mut dice = Dice::new(1);
    for seed in 0..1_500 {
        let n = if seed % 3 == 0 { dice.between(72, 97) } else { dice.between(72, 600) } as usize;
        let series = match seed % 4 {
            0 => ordinary(seed, n, 20_000, 300),
            1 => random(seed, n, [1, 5_000, 200_000][dice.between(0, 2) as usize]),
            2 => at_the_limits(seed, n),
            _ => flat(seed, n, [0, -1, 200_000, -200_000][dice.between(0, 3) as usize], 3),
        };
        let cells = match seed % 5 {
            0 => revised(seed, &series, |_| false),
            1 => revised(seed, &series, |t| t % 3 == 2),
            2 => revised(seed, &series, |_| true),
            3 => revised(seed, &series, |_| dice.between(1, 2) == 1),
            _ => revised(seed, &series, |_| dice.between(1, 20) == 1),
        };
        agree(&format!("series {seed}, {n} months"), series.start, &cells);
    }
}

#[test]
fn any_revisions_up_to_the_limits() {
    let mut dice = Dice::new(2);
    for round in 0..1_000 {
        let n = [72, 73, 255, 256, 257, 512, 599, 600][round % 8];
        let size = [1, 1_000, 200_000][round % 3];
        let mut any = || dice.between(-size, size) as i32;
        let mut cells: Vec<Cell> = (0..n).map(|_| revision(any(), any())).collect();
        agree(&format!("any {round}, {n} months"), round as u8 % 12 + 1, &cells);
        // The second half takes back the first.
        cells[n / 2] = figure(any());
        for t in 0..n / 2 {
            let (_, old, new) = cells[t];
            cells[n - 1 - t] = (2, new, old);
        }
        agree(&format!("taken back {round}, {n} months"), round as u8 % 12 + 1, &cells);
    }
}

#[test]
fn totals_at_the_limits_and_of_zeros() {
    let (up, down) = (revision(-200_000, 200_000), revision(200_000, -200_000));
    for n in [72, 73, 599, 600] {
        for pair in [
            [up, up],
            [down, down],
            [up, down],
            [down, up],
            [(2, MINUS_ZERO, 0), (2, MINUS_ZERO, 0)],
            [(2, 0, MINUS_ZERO), (2, 0, MINUS_ZERO)],
            [(2, MINUS_ZERO, MINUS_ZERO), (1, MINUS_ZERO, 0)],
            [figure(5), figure(-5)],
        ] {
            let cells: Vec<Cell> = pair.into_iter().cycle().take(n).collect();
            agree(&format!("{pair:?}, {n} months"), 12, &cells);
        }
    }
}

/// Doubles, and whether they count.
const EDGES: [(f64, bool); 32] = [
    (0.0, true),
    (-0.0, true),
    (1.0, true),
    (-1.0, true),
    (65_536.0, true),
    (199_999.0, true),
    (200_000.0, true),
    (-200_000.0, true),
    (f64::from_bits(1), false),
    (f64::from_bits(MINUS_ZERO + 1), false),
    (f64::MIN_POSITIVE, false),
    (0.1, false),
    (-0.5, false),
    (f64::from_bits(0x3fef_ffff_ffff_ffff), false),
    (f64::from_bits(0x3ff0_0000_0000_0001), false),
    (199_999.5, false),
    (f64::from_bits(0x4108_69ff_ffff_ffff), false),
    (f64::from_bits(0x4108_6a00_0000_0001), false),
    (200_000.5, false),
    (200_001.0, false),
    (-200_001.0, false),
    (2_147_483_647.0, false),
    (-2_147_483_648.0, false),
    (4_294_967_301.0, false),
    (18_446_744_073_709_551_616.0, false),
    (f64::MAX, false),
    (f64::INFINITY, false),
    (f64::NEG_INFINITY, false),
    (f64::NAN, false),
    (f64::from_bits(0x7ff0_0000_0000_0001), false),
    (f64::from_bits(0xfff4_0000_0000_0000), false),
    (f64::from_bits(u64::MAX), false),
];

/// Each of them as figure, old, new and unused double.
#[test]
fn doubles_at_the_edges() {
    let three = 3f64.to_bits();
    for n in [72, 600] {
        let cells = revised(3, &ordinary(3, n, 4_000, 100), |t| t % 3 == 2);
        for (k, (x, counts)) in EDGES.into_iter().enumerate() {
            let bits = x.to_bits();
            for t in [0, 1, n / 2, n - 1] {
                let read = |cell: Cell| {
                    let mut cells = cells.clone();
                    cells[t] = cell;
                    answer(&format!("double {k}, {x}, at {t} of {n}: {cell:?}"), &sheet(5, &cells), n)
                };
                let due = if counts { (0, 0) } else { (14, t) };
                assert_eq!([(1, bits, 0), (2, bits, three), (2, three, bits), (2, bits, bits)].map(read), [due; 4]);
                // Row 12 comes before row 14, which applies to some of these too.
                let [of_figure, of_gap] = if bits == 0 { [(0, 0), (13, t)] } else { [(12, t); 2] };
                assert_eq!([(1, three, bits), (1, bits, bits)].map(read), [of_figure; 2]);
                assert_eq!([(0, bits, 0), (0, 0, bits)].map(read), [of_gap; 2]);
            }
        }
    }
}

#[test]
fn every_kind() {
    let [three, half] = [3f64, 0.5].map(f64::to_bits);
    for kind in 0..=255 {
        for (doubles, of_gap, of_figure, of_revision) in
            [([0, 0], 13, 0, 0), ([three, 0], 12, 0, 0), ([0, three], 12, 12, 0), ([half, 0], 12, 14, 14), ([half, half], 12, 12, 14)]
        {
            for t in [0, 40, 71] {
                let mut cells = vec![revision(4, 5); 72];
                cells[t] = (kind, doubles[0], doubles[1]);
                let number = [of_gap, of_figure, of_revision].get(kind as usize).copied().unwrap_or(12);
                let due = (number, if number == 0 { 0 } else { t });
                assert_eq!(answer(&format!("kind {kind} at {t}, {doubles:x?}"), &sheet(1, &cells), 72), due);
            }
        }
    }
}

/// Of several bad cells the one of the lowest t is told, whatever its row.
#[test]
fn first_bad_cell() {
    let mut dice = Dice::new(4);
    let half = 0.5f64.to_bits();
    let bad = [(12, (3, 0, 0)), (12, (1, half, half)), (12, (0, 0, MINUS_ZERO)), (13, (0, 0, 0)), (14, (1, half, 0)), (14, (2, 0, half))];
    for round in 0..1_000 {
        let n = [72, 85, 600][round % 3];
        let (mut cells, mut due) = (vec![figure(round as i32); n], (0, n));
        for _ in 0..dice.between(2, 6) {
            let t = dice.between(0, n as i64 - 1) as usize;
            let (row, cell) = bad[dice.between(0, 5) as usize];
            cells[t] = cell;
            due = if t <= due.1 { (row, t) } else { due };
        }
        assert_eq!(answer(&format!("round {round}"), &sheet(2, &cells), n), due, "round {round}");
    }
}

/// The first of the checks before those of the cells that applies to a sheet of n months in so many bytes, read into so much room.
fn row_of_sizes(n: usize, start: u8, length: usize, room: usize) -> u8 {
    let bad_start = !(1..=12).contains(&start);
    let rows = [(7, length < 3), (1, n < 72), (2, n > 600), (3, bad_start), (9, length != 3 + 17 * n), (4, room < n)];
    rows.into_iter().find(|row| row.1).map_or(0, |row| row.0)
}

/// The same cell in every month, with bytes missing or some more, into slices of several lengths.
fn lengths_and_rooms(n: usize, start: u8, cell: Cell) {
    let mut bytes = sheet(start, &vec![cell; n]);
    let good = bytes.len();
    bytes.resize(good + 17, 0);
    for length in [0, 2, 3, good.saturating_sub(17), good - 1, good, good + 1, good + 17] {
        for room in [0, n.saturating_sub(1), n, n + 7] {
            let name = format!("{n} months from {start}, {length} bytes, room {room}, {cell:?}");
            let row = row_of_sizes(n, start, length, room);
            let due = if row == 0 && cell.0 == 0 { 13 } else { row };
            assert_eq!(answer(&name, &bytes[..length], room), (due, 0), "{name}");
        }
    }
}

#[test]
fn sizes() {
    for n in [0, 1, 71, 72, 73, 256, 599, 600, 601, 656, 65_535] {
        for start in [0, 1, 12, 13, 255] {
            lengths_and_rooms(n, start, figure(8));
            lengths_and_rooms(n, start, (0, 0, 0));
        }
    }
}

#[test]
fn every_length() {
    let mut bytes = sheet(12, &vec![revision(-3, 3); 72]);
    bytes.resize(3 + 17 * 73, 0);
    for length in 0..=bytes.len() {
        let due = match length {
            0..=2 => 7,
            1_227 => 0,
            _ => 9,
        };
        assert_eq!(answer(&format!("{length} bytes"), &bytes[..length], 72), (due, 0));
    }
}

/// Puts one fault, or what may be one, into a sheet of n months.
fn damage(bytes: &mut Vec<u8>, n: usize, dice: &mut Dice) {
    let mut below = |limit: usize| dice.between(0, limit as i64 - 1) as usize;
    let t = below(n);
    let cell = 3 + n + 16 * t;
    let double = cell + 8 * below(2);
    let byte = double + below(8);
    match below(12) {
        0 => bytes[3 + t] = below(4) as u8,
        1 => bytes[3 + t] = below(256) as u8,
        2 => bytes[cell..cell + 16].fill(0),
        3 => bytes[cell + 8..cell + 16].fill(0),
        4 => {
            bytes[3 + t] = 0;
            bytes[cell..cell + 16].fill(0);
        }
        5 | 6 => bytes[double..double + 8].copy_from_slice(&EDGES[below(EDGES.len())].0.to_le_bytes()),
        7 => bytes[byte] = below(256) as u8,
        8 => bytes[byte] ^= 1 << below(8),
        9 => bytes[below(3)] ^= 1 << below(8),
        10 => bytes[below(3 + 17 * n)] = below(256) as u8,
        _ => bytes[2] = below(15) as u8,
    }
}

/// Up to four faults; of twenty sheets one is cut short and one read into any room. Every number that reading can answer comes up.
#[test]
fn damaged_by_chance() {
    let mut dice = Dice::new(5);
    let mut numbers = [0; 15];
    for round in 0..8_000 {
        let n = [72, 73, 90, 256, 300][round % 5];
        let cells = revised(round as u64, &random(round as u64, n, 200_000), |t| t % 3 == 2);
        let mut bytes = sheet(dice.between(1, 12) as u8, &cells);
        for _ in 0..dice.between(0, 4) {
            damage(&mut bytes, n, &mut dice);
        }
        if round % 20 == 7 {
            bytes.truncate(if round % 40 == 7 { dice.between(0, 4) } else { dice.between(0, 6_000) } as usize);
        }
        let room = if round % 20 == 11 { dice.between(0, 300) as usize } else { 300 };
        numbers[answer(&format!("round {round}"), &bytes, room).0 as usize] += 1;
    }
    for number in [0, 1, 2, 3, 4, 7, 9, 12, 13, 14] {
        assert!(numbers[number] >= 40, "{numbers:?}");
    }
    assert_eq!(numbers.iter().sum::<usize>(), 8_000);
}
