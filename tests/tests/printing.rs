//! The text of the printing program, separately written; `printer.rs` has the built program beside it.

mod stored;

use separate::decompose::decompose_fitting;
use separate::desk::bytes_of;
use separate::print::printed;

#[test]
fn seventy_two_figures_of_100() {
    let text = printed(&bytes_of(&[100; 72], 1, 12, &[0; 72]));
    let mut expected = String::from("months 72 start 1\n");
    for t in 0..72 {
        expected.push_str(&format!("{t} 100 0 100000 100000 0 1000\n"));
    }
    assert_eq!(text, expected);
}

#[test]
fn the_weights_of_the_file_are_ignored() {
    let figures: Vec<i32> = (0..80).map(|t| 100 + t * t % 37 - 5 * (t % 12)).collect();
    let a = printed(&bytes_of(&figures, 7, 12, &[0; 80]));
    let b = printed(&bytes_of(&figures, 7, 12, &[1000; 80]));
    assert_eq!(a, b);
    let tables = decompose_fitting(&figures, 7).unwrap();
    let lines: Vec<&str> = a.lines().collect();
    assert_eq!(lines.len(), 81);
    assert_eq!(lines[0], "months 80 start 7");
    for t in 0..80 {
        let words: Vec<i64> = lines[t + 1].split(' ').map(|w| w.parse().unwrap()).collect();
        assert_eq!(
            words,
            vec![
                t as i64,
                i64::from(figures[t]),
                tables.d10[t],
                tables.d11[t],
                tables.d12[t],
                tables.d13[t],
                i64::from(tables.c17[t])
            ]
        );
    }
}

#[test]
fn refusals_are_one_line() {
    assert_eq!(printed(&[72, 0, 1]), "refused 7 0\n");
    assert_eq!(printed(&[]), "refused 7 0\n");
    assert_eq!(printed(&[71, 0, 1, 12]), "refused 1 0\n");
    assert_eq!(printed(&[0x59, 2, 1, 12]), "refused 2 0\n");
    let mut list = vec![0; 72];
    list[44] = 200_001;
    assert_eq!(printed(&bytes_of(&list, 1, 12, &[0; 72])), "refused 5 44\n");
    assert_eq!(printed(&bytes_of(&[0; 72], 13, 12, &[0; 72])), "refused 3 0\n");
    assert_eq!(printed(&bytes_of(&[0; 72], 12, 4, &[0; 72])), "refused 8 0\n");
    let mut weights = vec![0; 72];
    weights[5] = 1001;
    assert_eq!(printed(&bytes_of(&[0; 72], 12, 12, &weights)), "refused 10 5\n");
    let whole = bytes_of(&[0; 72], 12, 12, &[0; 72]);
    assert_eq!(printed(&whole[..435]), "refused 9 0\n");
}

/// The text stored for the stored cases, with which `rt ci` compares what the built program prints, is this program's.
#[test]
fn stored_cases_have_this_text() {
    let [names, stored] = ["args", "stdout"].map(|file| String::from_utf8(stored::bytes(file)).expect("text"));
    let mut expected = String::new();
    for name in names.lines() {
        expected.push_str(&format!("{name}\n{}", printed(&stored::bytes(&format!("data/{name}")))));
    }
    // Line by line, so that a failure shows the first line that differs and not both texts.
    for (index, (line, ours)) in stored.lines().zip(expected.lines()).enumerate() {
        assert_eq!(line, ours, "line {}", index + 1);
    }
    assert!(stored == expected, "one text is longer");
}
