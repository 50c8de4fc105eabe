//! The proved desk file beside the separately written one: answers, places, lengths, what is filled and what stays.

mod proved;

use proved::beside;
use separate::desk::bytes_of;
use separate::generators::Dice;

fn good_file(dice: &mut Dice, n: usize) -> Vec<u8> {
    let figures: Vec<i32> = (0..n).map(|_| dice.between(-200_000, 200_000) as i32).collect();
    let weights: Vec<u16> = (0..n).map(|_| dice.between(0, 1_000) as u16).collect();
    bytes_of(&figures, dice.between(1, 12) as u8, 12, &weights)
}

#[test]
fn every_length_and_every_header_byte() {
    let mut dice = Dice::new(5);
    let file = good_file(&mut dice, 72);
    let mut longer = file.clone();
    longer.extend([1, 2, 3, 4, 5, 6, 7, 8]);
    for length in 0..=440 {
        beside::read(&format!("{length} bytes"), &longer[..length], 72, 80);
    }
    for place in 0..4 {
        for value in 0..=255 {
            let mut changed = file.clone();
            changed[place] = value;
            beside::read(&format!("byte {place} is {value}"), &changed, 600, 600);
        }
    }
    for room in [0, 71, 72, 73] {
        beside::read("room", &file, room, 72);
        beside::read("room", &file, 72, room);
    }
}

#[test]
fn bytes_changed_at_random() {
    let mut dice = Dice::new(6);
    for round in 0..4_000 {
        let mut file = good_file(&mut dice, [72, 73, 90][round % 3]);
        for _ in 0..dice.between(1, 3) {
            let place = dice.between(0, file.len() as i64 - 1) as usize;
            file[place] = dice.between(0, 255) as u8;
        }
        beside::read(&format!("round {round}"), &file, 100, 100);
    }
}

#[test]
fn written_and_read_again() {
    let mut dice = Dice::new(8);
    for n in [0, 71, 72, 73, 114, 599, 600, 601] {
        for round in 0..40 {
            let mut figures: Vec<i32> = (0..n).map(|_| dice.between(-200_000, 200_000) as i32).collect();
            let mut weights: Vec<u16> = (0..n).map(|_| dice.between(0, 1_000) as u16).collect();
            if n > 0 && round % 4 == 1 {
                figures[dice.between(0, n as i64 - 1) as usize] = [200_001, -200_001][round % 2];
            }
            if n > 0 && round % 4 == 2 {
                weights[dice.between(0, n as i64 - 1) as usize] = 1_001;
            }
            if round % 8 == 3 {
                weights.push(0);
            }
            let start = if round % 10 == 9 { 13 } else { dice.between(1, 12) as u8 };
            let room = (4 + 6 * n + round % 5).saturating_sub(usize::from(round % 7 == 6) * 5);
            beside::write(&format!("{n} months, round {round}"), &figures, start, &weights, room);
        }
    }
}
