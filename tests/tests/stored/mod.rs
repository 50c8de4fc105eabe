//! The stored cases of printing (`crates/cases` at the repository's root): desk files, and one text for them all.

// Not every test file takes both.
#![allow(dead_code)]

use separate::desk;
use separate::generators::Case;
use std::path::Path;

/// What a file of the stored cases holds.
pub fn bytes(file: &str) -> Vec<u8> {
    let folder = Path::new(env!("CARGO_MANIFEST_DIR")).parent().expect("the repository's folder").join("crates/cases");
    std::fs::read(folder.join(file)).unwrap_or_else(|error| panic!("{file}: {error}"))
}

/// The series of a stored case.
pub fn series(name: &str) -> Case {
    let read = desk::read(&bytes(&format!("data/{name}")), usize::MAX, usize::MAX).expect("a good file");
    Case { name: name.to_string(), start: read.start, figures: read.figures }
}
