//! The built printing program (target/bin/printer at the repository's root) beside the separately written text: good and damaged files,
//! input that comes in pieces, input and output that fail.

use separate::desk::bytes_of;
use separate::generators::{cases, Dice};
use separate::print::printed;
use std::collections::BTreeMap;
use std::fs::{self, File};
use std::io::{ErrorKind, Write};
use std::path::{Path, PathBuf};
use std::process::{Command, Output, Stdio};
use std::thread::sleep;
use std::time::Duration;

/// Bytes of the longest desk file.
const LONGEST: usize = 3_604;

fn program() -> PathBuf {
    let root = Path::new(env!("CARGO_MANIFEST_DIR")).parent().expect("the repository's folder");
    let program = root.join("target/bin/printer");
    assert!(program.exists(), "`tools/build` builds it");
    program
}

fn temporary(name: &str) -> PathBuf {
    Path::new(env!("CARGO_TARGET_TMPDIR")).join(name)
}

/// Runs the program on a file that comes through a pipe, in pieces of so many bytes with a pause after each.
fn by_pipe(file: &[u8], piece: usize, pause: Duration) -> Output {
    let mut command = Command::new(program());
    command.stdin(Stdio::piped()).stdout(Stdio::piped()).stderr(Stdio::piped());
    let mut running = command.spawn().expect("the program");
    let mut input = running.stdin.take().expect("a pipe");
    for part in file.chunks(piece) {
        match input.write_all(part) {
            // What follows the longest desk file need not be read.
            Err(error) if error.kind() == ErrorKind::BrokenPipe && file.len() > LONGEST => break,
            written => written.expect("the program reads its input"),
        }
        sleep(pause);
    }
    drop(input);
    running.wait_with_output().expect("its output")
}

/// Runs the program on a file, which is written to the path first.
fn by_path(path: &Path, file: &[u8]) -> Output {
    fs::write(path, file).expect("a file");
    Command::new(program()).stdin(File::open(path).expect("the file")).output().expect("the program")
}

/// Exit status, standard output, standard error.
fn given(output: Output) -> (Option<i32>, String, String) {
    let [out, err] = [output.stdout, output.stderr].map(|bytes| String::from_utf8(bytes).expect("text"));
    (output.status.code(), out, err)
}

/// Compares with the separately written text; the row of the refusal in it, 0 where there is none.
fn check(name: &str, file: &[u8], output: Output) -> u8 {
    let text = printed(file);
    let row = text.strip_prefix("refused ").map_or(0, |rest| rest.split(' ').next().unwrap().parse().unwrap());
    assert_eq!(given(output), (Some(0), text, String::new()), "{name}");
    row
}

/// Runs the program on each file through a pipe, and on every so many by its path too; how many files have each row, 0 for none.
fn check_all(name: &str, files: &[Vec<u8>], every: usize) -> BTreeMap<u8, usize> {
    let mut rows = BTreeMap::new();
    for (round, file) in files.iter().enumerate() {
        let row = check(&format!("{name} {round}"), file, by_pipe(file, file.len().max(1), Duration::ZERO));
        if round % every == 0 {
            check(&format!("{name} {round} by its path"), file, by_path(&temporary(name), file));
        }
        *rows.entry(row).or_insert(0) += 1;
    }
    println!("{name}: {rows:?}");
    rows
}

/// Figures of one kind: small, any, at the limits, spikes, a plain seasonal series.
fn figures(dice: &mut Dice, n: usize) -> Vec<i32> {
    let kind = dice.between(0, 4);
    let figure = |t: usize| match kind {
        0 => dice.between(-9, 9),
        1 => dice.between(-200_000, 200_000),
        2 => [-200_000, 200_000][dice.between(0, 1) as usize],
        3 if dice.between(0, 19) == 0 => dice.between(-200_000, 200_000),
        3 => 100,
        _ => 30 * t as i64 - 2_500 * (t as i64 * 7 % 12) + dice.between(-300, 300),
    };
    (0..n).map(figure).map(|f| f as i32).collect()
}

fn desk_file(dice: &mut Dice, figures: &[i32], start: u8) -> Vec<u8> {
    let weights: Vec<u16> = figures.iter().map(|_| dice.between(0, 1_000) as u16).collect();
    bytes_of(figures, start, 12, &weights)
}

fn good_file(dice: &mut Dice, n: usize) -> Vec<u8> {
    let (figures, start) = (figures(dice, n), dice.between(1, 12) as u8);
    desk_file(dice, &figures, start)
}

/// A place from `first` to the one before `end`.
fn place(dice: &mut Dice, first: usize, end: usize) -> usize {
    dice.between(first as i64, end as i64 - 1) as usize
}

/// Damages a good file in one of eight ways.
fn damage(dice: &mut Dice, file: &mut Vec<u8>, way: usize) {
    let n = (file.len() - 4) / 6;
    let byte = dice.roll() as u8;
    match way {
        0 => file.truncate(place(dice, 0, 4)),
        1 => file.truncate(place(dice, 4, 4 + 6 * n)),
        2 => file.resize(file.len() + place(dice, 1, 9), byte),
        3 => file[place(dice, 0, 4)] = byte,
        4 => {
            for _ in 0..dice.between(1, 3) {
                let changed = place(dice, 0, file.len());
                file[changed] = dice.roll() as u8;
            }
        }
        5 => {
            let bad = [200_001, -200_001, i32::MAX, i32::MIN][place(dice, 0, 4)];
            let at = 4 + 4 * place(dice, 0, n);
            file[at..at + 4].copy_from_slice(&bad.to_le_bytes());
        }
        6 => {
            let bad = [1_001, 1_024, u16::MAX][place(dice, 0, 3)];
            let at = 4 + 4 * n + 2 * place(dice, 0, n);
            file[at..at + 2].copy_from_slice(&bad.to_le_bytes());
        }
        _ => file[..2].copy_from_slice(&[0u16, 71, 73, 600, 601, u16::MAX][place(dice, 0, 6)].to_le_bytes()),
    }
}

#[test]
fn good_files() {
    let mut dice = Dice::new(31);
    let mut files: Vec<Vec<u8>> = cases().iter().map(|case| desk_file(&mut dice, &case.figures, case.start)).collect();
    for _ in 0..600 {
        // Short ones more often.
        let most = dice.between(72, 600);
        let n = dice.between(72, most) as usize;
        files.push(good_file(&mut dice, n));
    }
    assert_eq!(check_all("good_files", &files, 10), BTreeMap::from([(0, files.len())]));
    assert!(files.len() > 1_200);
}

#[test]
fn damaged_files() {
    let mut dice = Dice::new(32);
    let mut files = Vec::new();
    for round in 0..2_400 {
        let n = 72 + round % 13;
        let mut file = good_file(&mut dice, n);
        damage(&mut dice, &mut file, round % 8);
        files.push(file);
    }
    let rows = check_all("damaged_files", &files, 9);
    for row in [0, 1, 2, 3, 5, 7, 8, 9, 10] {
        assert!(rows[&row] >= 60, "row {row}: {rows:?}");
    }
}

#[test]
fn every_length_of_a_file() {
    let file = good_file(&mut Dice::new(33), 72);
    let files: Vec<Vec<u8>> = (0..=file.len()).map(|length| file[..length].to_vec()).collect();
    assert_eq!(check_all("every_length", &files, 10), BTreeMap::from([(0, 1), (7, 4), (9, 432)]));
}

/// Files with more bytes than the longest desk file has, and a count without its bytes.
#[test]
fn long_files() {
    let mut dice = Dice::new(34);
    let (short, long) = (good_file(&mut dice, 72), good_file(&mut dice, 600));
    assert_eq!(long.len(), LONGEST);
    let grown = |file: &[u8], length: usize| [file, &vec![0; length - file.len()]].concat();
    let files = [
        long.clone(),
        grown(&long, LONGEST + 1),
        grown(&long, LONGEST + 2),
        grown(&long, 1 << 20),
        grown(&short, LONGEST),
        grown(&short, LONGEST + 1),
        grown(&short, 1 << 20),
        good_file(&mut dice, 601),
        good_file(&mut dice, 65_535),
        vec![255, 255, 1, 12],
        vec![255; 1 << 20],
        vec![0; 1 << 20],
    ];
    assert_eq!(check_all("long_files", &files, 1), BTreeMap::from([(0, 1), (1, 1), (2, 4), (9, 6)]));
}

#[test]
fn input_in_pieces() {
    let mut dice = Dice::new(35);
    let (short, long) = (good_file(&mut dice, 72), good_file(&mut dice, 600));
    let too_long = [&long[..], &[0]].concat();
    let pieces: [(&[u8], usize, u64); 9] = [
        (&short, 1, 1),
        (&short, 3, 2),
        (&short, 5, 2),
        (&short, 100, 20),
        (&short, 435, 100),
        (&short[..3], 1, 20),
        (&short[..435], 434, 50),
        (&long, 1_000, 20),
        // The byte too many comes late.
        (&too_long, LONGEST, 100),
    ];
    for (file, piece, pause) in pieces {
        let output = by_pipe(file, piece, Duration::from_millis(pause));
        check(&format!("{} bytes in pieces of {piece}", file.len()), file, output);
    }
}

/// Runs the program by a command of the shell, in which $0 is the program and $1 the path.
fn by_shell(command: &str, path: &Path) -> (Option<i32>, String, String) {
    given(Command::new("sh").arg("-c").arg(command).arg(program()).arg(path).output().expect("a shell"))
}

/// A failure is one line on standard error. The exit status stays 0.
fn failure(of: &str, why: &str) -> (Option<i32>, String, String) {
    (Some(0), String::new(), format!("standard {of}: {why}\n"))
}

#[test]
fn input_that_fails() {
    let (folder, file) = (temporary("."), temporary("write_only"));
    for (command, path, why) in [
        (r#"exec "$0" <&-"#, &folder, "Bad file descriptor"),
        (r#"exec "$0" 0>"$1""#, &file, "Bad file descriptor"),
        (r#"exec "$0" <"$1""#, &folder, "Is a directory"),
    ] {
        assert_eq!(by_shell(command, path), failure("input", why), "{command}");
    }
}

#[test]
fn output_that_fails() {
    let (accepted, refused) = (temporary("accepted.desk"), temporary("refused.desk"));
    let file = good_file(&mut Dice::new(36), 600);
    fs::write(&accepted, &file).expect("a file");
    fs::write(&refused, &file[..LONGEST - 1]).expect("a file");
    for path in [&accepted, &refused] {
        for (command, why) in [
            (r#"exec "$0" <"$1" >/dev/full"#, "No space left on device"),
            (r#"exec "$0" <"$1" >&-"#, "Bad file descriptor"),
        ] {
            assert_eq!(by_shell(command, path), failure("output", why), "{command} {}", path.display());
        }
    }
    // A file that may grow to some thousand bytes only: a first write succeeds in part.
    let command = r#"trap '' XFSZ; ulimit -f 8; exec "$0" <"$1" >"$1.text""#;
    assert_eq!(by_shell(command, &accepted), failure("output", "File too large"));
    let written = fs::read_to_string(temporary("accepted.desk.text")).expect("text");
    let whole = printed(&file);
    assert!(!written.is_empty() && written.len() < whole.len() && whole.starts_with(&written));
}
