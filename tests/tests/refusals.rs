//! The refusal sheet: its small examples and the edges, for decomposing,
//! reading and writing.  The order of the checks is in `ladders.rs`.

use separate::decompose::{decompose, decompose_fitting, Lent, Refusal};
use separate::desk::{bytes_of, read, write, DeskSeries};

fn refusal(number: u8, place: usize) -> Refusal {
    Refusal { number, place }
}

fn figures(n: usize) -> Vec<i32> {
    (0..n as i32).map(|t| 500 + t * 3 + (t % 12) * 7).collect()
}

#[test]
fn row_1_and_2_counts() {
    assert_eq!(decompose_fitting(&figures(71), 1).unwrap_err(), refusal(1, 0));
    assert_eq!(decompose_fitting(&[], 1).unwrap_err(), refusal(1, 0));
    assert_eq!(decompose_fitting(&figures(601), 1).unwrap_err(), refusal(2, 0));
    assert!(decompose_fitting(&figures(72), 1).is_ok());
    assert!(decompose_fitting(&figures(600), 1).is_ok());
}

#[test]
fn row_3_start_month() {
    assert_eq!(decompose_fitting(&figures(72), 13).unwrap_err(), refusal(3, 0));
    assert_eq!(decompose_fitting(&figures(72), 0).unwrap_err(), refusal(3, 0));
    assert_eq!(decompose_fitting(&figures(72), 255).unwrap_err(), refusal(3, 0));
    for start in 1..=12 {
        assert!(decompose_fitting(&figures(72), start).is_ok());
    }
}

#[test]
fn row_4_lent_slices() {
    let n = 72;
    let right = Lent::right_for(n);
    assert_eq!(decompose(&figures(n), 1, &Lent { d10: 71, ..right }).unwrap_err(), refusal(4, 0));
    for length in [0, 71, 73] {
        for wrong in [
            Lent { d10: length, ..right },
            Lent { d11: length, ..right },
            Lent { d12: length, ..right },
            Lent { d13: length, ..right },
            Lent { b17: length, ..right },
            Lent { c17: length, ..right },
        ] {
            assert_eq!(decompose(&figures(n), 1, &wrong).unwrap_err(), refusal(4, 0));
        }
    }
}

#[test]
fn row_4_scratch() {
    let n = 72;
    let with = |scratch| decompose(&figures(n), 1, &Lent { scratch, ..Lent::right_for(n) });
    assert_eq!(with(5 * n - 1), Err(refusal(4, 0)));
    let tables = decompose_fitting(&figures(n), 1);
    assert!(tables.is_ok());
    for scratch in [5 * n, 5 * n + 1000, 8 * n] {
        assert_eq!(with(scratch), tables);
    }
}

#[test]
fn row_5_figures() {
    let mut list = figures(72);
    list[0] = 200_001;
    assert_eq!(decompose_fitting(&list, 1).unwrap_err(), refusal(5, 0));
    list[0] = 200_000;
    assert!(decompose_fitting(&list, 1).is_ok());
    list[40] = -200_001;
    list[60] = i32::MAX;
    assert_eq!(decompose_fitting(&list, 1).unwrap_err(), refusal(5, 40));
    list[40] = -200_000;
    assert_eq!(decompose_fitting(&list, 1).unwrap_err(), refusal(5, 60));
    list[60] = i32::MIN;
    assert_eq!(decompose_fitting(&list, 1).unwrap_err(), refusal(5, 60));
}

fn file(n: usize) -> Vec<u8> {
    bytes_of(&figures(n), 1, 12, &vec![1000; n])
}

#[test]
fn row_7_short_files() {
    assert_eq!(read(&[72, 0, 1], 600, 600).unwrap_err(), refusal(7, 0));
    assert_eq!(read(&[], 600, 600).unwrap_err(), refusal(7, 0));
    assert_eq!(read(&[72], 600, 600).unwrap_err(), refusal(7, 0));
    // Four bytes are enough to look at the count.
    assert_eq!(read(&[72, 0, 1, 12], 600, 600).unwrap_err(), refusal(9, 0));
    assert_eq!(read(&[71, 0, 1, 12], 600, 600).unwrap_err(), refusal(1, 0));
}

#[test]
fn reading_counts_and_start() {
    let mut bytes = file(72);
    bytes[0] = 71;
    assert_eq!(read(&bytes, 600, 600).unwrap_err(), refusal(1, 0));
    bytes[0] = 0x59;
    bytes[1] = 0x02; // 601
    assert_eq!(read(&bytes, 600, 600).unwrap_err(), refusal(2, 0));
    bytes[0] = 0x58; // 600
    assert_eq!(read(&bytes, 600, 600).unwrap_err(), refusal(9, 0));
    bytes[0] = 0xff;
    bytes[1] = 0xff;
    assert_eq!(read(&bytes, 600, 600).unwrap_err(), refusal(2, 0));
    let mut bytes = file(72);
    bytes[2] = 13;
    assert_eq!(read(&bytes, 600, 600).unwrap_err(), refusal(3, 0));
    bytes[2] = 0;
    assert_eq!(read(&bytes, 600, 600).unwrap_err(), refusal(3, 0));
    assert!(read(&file(600), 600, 600).is_ok());
}

#[test]
fn row_8_period() {
    let mut bytes = file(72);
    bytes[3] = 4;
    assert_eq!(read(&bytes, 600, 600).unwrap_err(), refusal(8, 0));
}

#[test]
fn row_9_length() {
    let bytes = file(72);
    assert_eq!(bytes.len(), 436);
    assert_eq!(read(&bytes[..435], 600, 600).unwrap_err(), refusal(9, 0));
    let mut longer = bytes.clone();
    longer.push(0);
    assert_eq!(read(&longer, 600, 600).unwrap_err(), refusal(9, 0));
    assert!(read(&bytes, 600, 600).is_ok());
}

#[test]
fn reading_needs_room() {
    let bytes = file(72);
    assert!(read(&bytes, 72, 72).is_ok());
    assert_eq!(read(&bytes, 71, 72).unwrap_err(), refusal(4, 0));
    assert_eq!(read(&bytes, 72, 71).unwrap_err(), refusal(4, 0));
}

#[test]
fn row_5_and_10_in_a_file() {
    let mut list = figures(72);
    let mut weights = vec![1000u16; 72];
    weights[5] = 1001;
    assert_eq!(read(&bytes_of(&list, 1, 12, &weights), 72, 72).unwrap_err(), refusal(10, 5));
    weights[4] = 65_535;
    assert_eq!(read(&bytes_of(&list, 1, 12, &weights), 72, 72).unwrap_err(), refusal(10, 4));
    list[71] = -200_001;
    assert_eq!(read(&bytes_of(&list, 1, 12, &weights), 72, 72).unwrap_err(), refusal(5, 71));
    list[0] = 200_001;
    assert_eq!(read(&bytes_of(&list, 1, 12, &weights), 72, 72).unwrap_err(), refusal(5, 0));
}

#[test]
fn the_layout_of_the_file() {
    let mut list = vec![0; 72];
    list[0] = -2;
    list[1] = 200_000;
    list[2] = -200_000;
    let mut weights = vec![0u16; 72];
    weights[0] = 1000;
    weights[71] = 833;
    let bytes = write(&list, 10, &weights, 436).unwrap();
    assert_eq!(&bytes[..4], &[72, 0, 10, 12]);
    assert_eq!(&bytes[4..8], &[0xfe, 0xff, 0xff, 0xff]);
    assert_eq!(&bytes[8..12], &[0x40, 0x0d, 0x03, 0x00]);
    assert_eq!(&bytes[12..16], &[0xc0, 0xf2, 0xfc, 0xff]);
    assert_eq!(&bytes[4 + 288..4 + 290], &[0xe8, 0x03]);
    assert_eq!(&bytes[434..], &[0x41, 0x03]);
    assert_eq!(read(&bytes, 72, 72), Ok(DeskSeries { start: 10, figures: list, weights }));
    let long = write(&figures(600), 1, &vec![7; 600], 4 + 3600).unwrap();
    assert_eq!(&long[..4], &[0x58, 0x02, 1, 12]);
    assert_eq!(long.len(), 3604);
}
