//! Every set of faults that can stand together, for the three entry points: the answer is the row of the refusal sheet that comes first in
//! the order of the checks, by the proved library and by the separately written program; and a refusal changes no lent slice.

mod ladder;
mod proved;

use ladder::{every_set, figures, longer, weights, Part, AT_LEAST, COUNT, FIGURES, FITTING, LENGTH, PERIOD, WEIGHTS};
use ladder::{DECOMPOSING, READING, WRITING};
use proved::beside;
use separate::decompose::{scratch_for, Lent};
use separate::desk::bytes_of;

const START: Part = &[(0, 12), (3, 0), (3, 13)];

#[test]
fn decomposing() {
    let parts = [COUNT, START, FIGURES, FITTING, FITTING, FITTING, FITTING, FITTING, FITTING, AT_LEAST];
    every_set(&DECOMPOSING, parts, |name, [count, start, bad, d10, d11, d12, d13, b17, c17, scratch]| {
        let n = count as usize;
        let [d10, d11, d12, d13, b17, c17] = [d10, d11, d12, d13, b17, c17].map(|by| longer(n, by));
        let lent = Lent { d10, d11, d12, d13, b17, c17, scratch: longer(scratch_for(n), scratch) };
        beside::decompose(name, &figures(n, bad), start as u8, &lent).0
    });
}

#[test]
fn reading() {
    // How many bytes are left at most. Of a cut file only some other rows can still be true, and 7 comes before them all.
    let left: Part = &[(0, isize::MAX), (7, 3), (7, 2), (7, 1), (7, 0)];
    let parts = [COUNT, START, PERIOD, LENGTH, FIGURES, WEIGHTS, AT_LEAST, AT_LEAST, left];
    every_set(&READING, parts, |name, [count, start, period, length, bad, above, figures_room, weights_room, left]| {
        let n = count as usize;
        let mut file = bytes_of(&figures(n, bad), start as u8, period as u8, &weights(n, above));
        file.resize(longer(file.len(), length), 0);
        file.truncate(left as usize);
        beside::read(name, &file, longer(n, figures_room), longer(n, weights_room))
    });
}

#[test]
fn writing() {
    let parts = [COUNT, START, FIGURES, WEIGHTS, FITTING, AT_LEAST];
    every_set(&WRITING, parts, |name, [count, start, bad, above, weights_length, room]| {
        let n = count as usize;
        let mut weights = weights(n, above);
        weights.resize(longer(n, weights_length), 0);
        beside::write(name, &figures(n, bad), start as u8, &weights, longer(4 + 6 * n, room))
    });
}
