//! What the printing program writes for a given standard input.

use crate::decompose::decompose_fitting;
use crate::desk::read;

/// The text for a desk file, every line ended by a line feed.
pub fn printed(bytes: &[u8]) -> String {
    // The program's own slices have room for every count the rules allow.
    let series = match read(bytes, usize::MAX, usize::MAX) {
        Ok(series) => series,
        Err(refusal) => return format!("{refusal}\n"),
    };
    let tables = match decompose_fitting(&series.figures, series.start) {
        Ok(tables) => tables,
        Err(refusal) => return format!("{refusal}\n"),
    };
    let mut text = format!("months {} start {}\n", series.n(), series.start);
    for (t, figure) in series.figures.iter().enumerate() {
        text.push_str(&format!(
            "{} {} {} {} {} {} {}\n",
            t, figure, tables.d10[t], tables.d11[t], tables.d12[t], tables.d13[t], tables.c17[t]
        ));
    }
    text
}
