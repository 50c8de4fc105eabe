//! The desk file: count (2 bytes, low byte first), start month, period 12,
//! then n figures of 4 bytes and n weights of 2 bytes, low byte first.

use crate::decompose::{check_figures, check_size_and_start, check_weights, refuse, Refusal};

#[derive(Clone, Debug, PartialEq, Eq)]
pub struct DeskSeries {
    pub start: u8,
    pub figures: Vec<i32>,
    pub weights: Vec<u16>,
}

impl DeskSeries {
    pub fn n(&self) -> usize {
        self.figures.len()
    }
}

/// How long the file of n months is.
pub fn length_of(n: usize) -> usize {
    4 + 6 * n
}

/// Count and start month of a file.  Checks 7, 1, 2, 3, 8.
pub fn header(bytes: &[u8]) -> Result<(usize, u8), Refusal> {
    let (Some(&low), Some(&high), Some(&start), Some(&period)) =
        (bytes.first(), bytes.get(1), bytes.get(2), bytes.get(3))
    else {
        return refuse(7, 0);
    };
    let n = usize::from(low) + 256 * usize::from(high);
    check_size_and_start(n, start)?;
    if period != 12 {
        return refuse(8, 0);
    }
    Ok((n, start))
}

/// A file whose slices are long enough for so many months, or not.  Checks
/// as `header` does, then 9, 4, 5, 10.
pub fn series_in(bytes: &[u8], has_room: impl Fn(usize) -> bool) -> Result<DeskSeries, Refusal> {
    let (n, start) = header(bytes)?;
    if bytes.len() != length_of(n) {
        return refuse(9, 0);
    }
    if !has_room(n) {
        return refuse(4, 0);
    }
    let (figures, weights) = two_arrays(&bytes[4..], n);
    check_figures(&figures)?;
    check_weights(&weights)?;
    Ok(DeskSeries { start, figures, weights })
}

/// Reads a desk file into lent slices with room for so many figures and so
/// many weights.  Checks 7, 1, 2, 3, 8, 9, 4, 5, 10.
pub fn read(bytes: &[u8], room_for_figures: usize, room_for_weights: usize) -> Result<DeskSeries, Refusal> {
    series_in(bytes, |n| room_for_figures >= n && room_for_weights >= n)
}

/// The n figures and the n weights of the bytes after a header, as they stand.
pub fn two_arrays(body: &[u8], n: usize) -> (Vec<i32>, Vec<u16>) {
    let mut figures = Vec::new();
    for piece in body[..4 * n].chunks(4) {
        figures.push(figure_from(piece));
    }
    let mut weights = Vec::new();
    for piece in body[4 * n..].chunks(2) {
        weights.push(u16::from(piece[0]) + 256 * u16::from(piece[1]));
    }
    (figures, weights)
}

/// Four bytes, low byte first, as a signed number: the count up to 2^32,
/// less 2^32 in its upper half.
fn figure_from(piece: &[u8]) -> i32 {
    let mut value = 0i64;
    for &byte in piece.iter().rev() {
        value = value * 256 + i64::from(byte);
    }
    if value >= 1 << 31 {
        value -= 1 << 32;
    }
    i32::try_from(value).expect("four bytes")
}

/// The bytes of a desk file, without any check.
pub fn bytes_of(figures: &[i32], start: u8, period: u8, weights: &[u16]) -> Vec<u8> {
    let n = figures.len();
    let mut bytes = vec![(n % 256) as u8, (n / 256 % 256) as u8, start, period];
    for &figure in figures {
        let mut value = i64::from(figure).rem_euclid(1 << 32);
        for _ in 0..4 {
            bytes.push((value % 256) as u8);
            value /= 256;
        }
    }
    for &weight in weights {
        bytes.push((weight % 256) as u8);
        bytes.push((weight / 256) as u8);
    }
    bytes
}

/// Writes a desk file into an output with so much room.  Checks 1, 2, 3, 4,
/// 5, 10; the bytes given back are those that fill the front of the output.
pub fn write(figures: &[i32], start: u8, weights: &[u16], room: usize) -> Result<Vec<u8>, Refusal> {
    let n = figures.len();
    check_size_and_start(n, start)?;
    if weights.len() != n || room < length_of(n) {
        return refuse(4, 0);
    }
    check_figures(figures)?;
    check_weights(weights)?;
    Ok(bytes_of(figures, start, 12, weights))
}
