//! The documents and the numbers in them.

// Each test file takes some of them.
#![allow(dead_code)]

use std::fs;
use std::path::{Path, PathBuf};

pub fn root() -> PathBuf {
    Path::new(env!("CARGO_MANIFEST_DIR")).parent().expect("the repository's folder").to_path_buf()
}

pub fn document(name: &str) -> String {
    fs::read_to_string(root().join(name)).expect("a document")
}

/// The text from a mark to the next of another.
pub fn between<'a>(text: &'a str, mark: &str, end: &str) -> &'a str {
    let (_, rest) = text.split_once(mark).unwrap_or_else(|| panic!("{mark}"));
    rest.split_once(end).unwrap_or_else(|| panic!("{end}")).0
}

/// The numbers of a line, whatever stands between.
pub fn numbers(line: &str) -> Vec<i128> {
    line.split(|c: char| !c.is_ascii_digit() && c != '-').filter_map(|word| word.parse().ok()).collect()
}

const COUNTS: [&str; 13] =
    ["one", "two", "three", "four", "five", "six", "seven", "eight", "nine", "ten", "eleven", "twelve", "thirteen"];

/// A text with counts in digits.
pub fn in_digits(text: &str) -> String {
    let digits = |word: &str| {
        let bare = word.trim_end_matches([',', ';', ':']);
        let place = COUNTS.iter().position(|&count| count == bare)?;
        Some(word.replace(bare, &(place + 1).to_string()))
    };
    text.split(' ').map(|word| digits(word).unwrap_or(word.to_string())).collect::<Vec<_>>().join(" ")
}

/// Without the commas inside numbers.
pub fn without_commas(text: &str) -> String {
    let next = text.chars().skip(1).chain([' ']);
    text.chars().zip(next).filter(|(c, next)| *c != ',' || !next.is_ascii_digit()).map(|(c, _)| c).collect()
}

/// Without what stands in round brackets.
pub fn without_brackets(text: &str) -> String {
    let mut depth = 0;
    let mut outside = |c: char| {
        depth += i32::from(c == '(') - i32::from(c == ')');
        depth == 0 && c != ')'
    };
    text.chars().filter(|&c| outside(c)).collect()
}

/// The cells of a row in Markdown.
pub fn cells_of(row: &str) -> Vec<&str> {
    row.trim_matches('|').split('|').map(str::trim).collect()
}

/// The row of a table in Markdown whose first cell begins with a word: its other cells.
pub fn cells<'a>(text: &'a str, word: &str) -> Vec<&'a str> {
    let row = text.lines().find(|line| line.starts_with(&format!("| {word} "))).unwrap_or_else(|| panic!("{word}"));
    cells_of(row)[1..].to_vec()
}

/// The rows below the heading of a table in Markdown, up to an empty line.
pub fn table<'a>(text: &'a str, heading: &str) -> Vec<Vec<&'a str>> {
    let (_, rest) = text.split_once(heading).unwrap_or_else(|| panic!("{heading}"));
    rest.lines().skip(2).take_while(|line| line.starts_with('|')).map(cells_of).collect()
}

/// The parts of METHOD in their order: number and text, without the commas inside numbers.
pub fn parts() -> Vec<(String, String)> {
    let method = without_commas(&document("docs/METHOD.md"));
    let mut parts: Vec<(String, String)> = Vec::new();
    for line in method.lines() {
        let heading = line.strip_prefix("**").or(line.strip_prefix("## ")).unwrap_or("");
        let number: String = heading.chars().take_while(|c| c.is_ascii_digit() || *c == '.').collect();
        if !number.is_empty() {
            parts.push((number, String::new()));
        }
        if let Some((_, text)) = parts.last_mut() {
            text.push_str(line);
            text.push('\n');
        }
    }
    parts
}

/// A part of METHOD.
pub fn part(number: &str) -> String {
    let found = parts().into_iter().find(|(name, _)| name == number);
    found.unwrap_or_else(|| panic!("no part {number}")).1
}

/// The lengths of a text that are so many bytes and so many more for each month, as 4 + 6n.
pub fn lengths(text: &str) -> Vec<[usize; 2]> {
    let text = text.replace(" + ", "+");
    let words = text.split(|c: char| !c.is_ascii_alphanumeric() && c != '+');
    let length = |word: &str| {
        let (first, each) = word.strip_suffix('n')?.split_once('+')?;
        Some([first.parse().ok()?, each.parse().ok()?])
    };
    words.filter_map(length).collect()
}

/// A length by months as such a pair.
pub fn first_and_each(length_of: fn(usize) -> usize) -> [usize; 2] {
    [length_of(0), length_of(1) - length_of(0)]
}

/// The multiples of n in a text, as 5n.
pub fn multiples(text: &str) -> Vec<usize> {
    let words = text.split(|c: char| !c.is_ascii_alphanumeric() && c != '+');
    words.filter_map(|word| word.strip_suffix('n')?.parse().ok()).collect()
}

const MONTHS: [&str; 12] =
    ["January", "February", "March", "April", "May", "June", "July", "August", "September", "October", "November", "December"];

/// The calendar month of a name, 1 to 12.
pub fn month(name: &str) -> u8 {
    let place = MONTHS.iter().position(|&month| month == name);
    place.unwrap_or_else(|| panic!("{name}")) as u8 + 1
}
