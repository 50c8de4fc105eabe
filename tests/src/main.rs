//! The program `separate`: one subcommand for each thing to be compared.  Figures
//! and grains come on standard input, separated by any blanks.

#![forbid(unsafe_code)]

use std::io::{self, Read, Write};
use std::process::ExitCode;
use separate::calendar::labels;
use separate::columns::{from_columns, length_of, to_columns, write_columns};
use separate::decompose::{check_size_and_start, decompose_fitting, Refusal, Tables};
use separate::desk::{bytes_of, write};
use separate::exact::{distance, exact_pass, exact_working, FourDistances, PASS_B_LIMITS, PASS_LIMITS};
use separate::exact_b::{exact_pass_b, DistanceB};
use separate::extremes::Extremes;
use separate::generators::{
    cases, four_at_the_beginning, grain_cases, henderson_halves, moving_for_decades, moving_seasonal, place_by_bounds,
    place_by_questions, small_random, smaller_random, stairs, uneven_edges, wandering, Case,
};
use separate::pass::{pass, Steps};
use separate::print::printed;
use separate::rows::{
    henderson_by_formula, henderson_rows, musgrave_exact, three_by_nine_exact, SeasonalFilter, ThreeByNine, LENGTHS,
    SEASONAL_FILTERS,
};
use separate::seasonality::Question;
use separate::sheet::{self, read_sheet, Cell};
use separate::spread::weights;

const USAGE: &str = "separate tables START      figures: t figure D10 D11 D12 D13 B17 C17
separate steps START       figures: every table of the three passes, as `pass table t value`; the questions about
                           the seasonal filter of pass D and the filter, as `D question NUMBER MONTHS I S ANSWER`
                           and `D filter NAME`; the sums and length of the final trend, as `D sums I C` and
                           `D length TERMS`
separate steps             grains: every table of one pass, as `table t value`
separate pass              grains: t X T2 S2
separate weights START     irregular in grains: t weight
separate exact START       figures: t E10 E11 E12 E13 as fractions
separate distances START   figures: greatest distances of D10 to D13 and whether they are within limits
separate passdistances     grains: greatest distances of T2 and S2
separate passbdistances START
                           figures: the same of pass B, its weights and neighbours held
separate print             a desk file: what the printing program writes
separate mkdesk START      figures: a desk file with all weights 1000
separate mkraw START PER   the same without any check, with a period byte of one's own
separate mkcolumns START YEAR
                           figures: a desk file by calendar month with all weights 1000
separate tocolumns YEAR    a desk file, YEAR being that of its first month: the same by calendar month
separate fromcolumns       a desk file by calendar month: the same in the order of t; `year Y` on standard error
separate mksheet START     figures, or `old>new` for a revision: a members' sheet, without any check
separate readsheet         a members' sheet: `count start total`, then the figures, one a line
separate rows              the filter rows
separate cases             all made-up series, one a line: name start figures
separate case NAME         one of them, figures only
separate graincases        all made-up series of grains, one a line: name grains
separate hunt FROM TO      Henderson sums on a half in the series of these seeds: name pass table t sum
separate bounds FROM TO    series of these seeds near the bounds of the trend's length: name what I C
separate questions FROM TO series of these seeds that try the choice of the seasonal filter: name what
";

fn main() -> ExitCode {
    let arguments: Vec<String> = std::env::args().skip(1).collect();
    let words: Vec<&str> = arguments.iter().map(String::as_str).collect();
    match run(&words) {
        Ok(bytes) => {
            let mut out = io::stdout().lock();
            if out.write_all(&bytes).and_then(|()| out.flush()).is_err() {
                return ExitCode::from(3);
            }
            ExitCode::SUCCESS
        }
        Err(complaint) => {
            eprintln!("{complaint}");
            ExitCode::from(2)
        }
    }
}

fn run(words: &[&str]) -> Result<Vec<u8>, String> {
    match words {
        ["mkdesk", start] => make_desk(&figures()?, month(start)?),
        ["mkraw", start, period] => {
            let figures = figures()?;
            Ok(bytes_of(&figures, month(start)?, month(period)?, &vec![1000; figures.len()]))
        }
        ["mkcolumns", start, year] => make_columns(&figures()?, month(start)?, first_year(year)?),
        ["tocolumns", year] => move_forward(&standard_input()?, first_year(year)?),
        ["fromcolumns"] => move_back(&standard_input()?),
        ["mksheet", start] => {
            let cells = cells()?;
            Ok(sheet::bytes_of(month(start)?, &cells))
        }
        _ => Ok(text(words)?.into_bytes()),
    }
}

/// What the subcommands print that make no file.
fn text(words: &[&str]) -> Result<String, String> {
    let text = match words {
        ["tables", start] => answered(tables(&figures()?, month(start)?)),
        ["steps", start] => answered(all_steps(&figures()?, month(start)?)),
        ["steps"] => answered(one_pass(&numbers()?, print_steps)),
        ["pass"] => answered(one_pass(&numbers()?, print_pass)),
        ["weights", start] => answered(print_weights(&numbers()?, month(start)?)),
        ["exact", start] => answered(print_exact(&figures()?, month(start)?)),
        ["distances", start] => answered(print_distances(&figures()?, month(start)?)),
        ["passdistances"] => answered(print_pass_distances(&numbers()?)),
        ["passbdistances", start] => answered(print_pass_b_distances(&figures()?, month(start)?)),
        ["print"] => printed(&standard_input()?),
        ["readsheet"] => answered(print_sheet(&standard_input()?)),
        ["rows"] => print_rows(),
        ["cases"] => {
            let mut text = String::new();
            for case in cases() {
                text.push_str(&format!("{} {} {}\n", case.name, case.start, joined(&case.figures)));
            }
            text
        }
        ["case", name] => {
            let case = cases().into_iter().find(|c| c.name == *name).ok_or("no case of that name")?;
            format!("{}\n", joined(&case.figures))
        }
        ["graincases"] => {
            let mut text = String::new();
            for case in grain_cases() {
                text.push_str(&format!("{} {}\n", case.name, joined(&case.grains)));
            }
            text
        }
        ["hunt", from, to] => hunt(seed(from)?, seed(to)?),
        ["bounds", from, to] => bounds(seed(from)?, seed(to)?),
        ["questions", from, to] => questions(seed(from)?, seed(to)?),
        _ => return Err(USAGE.to_string()),
    };
    Ok(text)
}

fn joined<T: ToString>(list: &[T]) -> String {
    list.iter().map(T::to_string).collect::<Vec<String>>().join(" ")
}

fn answered(answer: Result<String, Refusal>) -> String {
    match answer {
        Ok(text) => text,
        Err(refusal) => format!("{refusal}\n"),
    }
}

fn standard_input() -> Result<Vec<u8>, String> {
    let mut bytes = Vec::new();
    io::stdin().lock().read_to_end(&mut bytes).map_err(|e| e.to_string())?;
    Ok(bytes)
}

fn numbers() -> Result<Vec<i64>, String> {
    let text = String::from_utf8(standard_input()?).map_err(|e| e.to_string())?;
    text.split_whitespace().map(|word| word.parse().map_err(|_| format!("no whole number: {word}"))).collect()
}

fn figures() -> Result<Vec<i32>, String> {
    numbers()?.into_iter().map(|v| i32::try_from(v).map_err(|_| format!("no room in 4 bytes: {v}"))).collect()
}

/// A whole number that a double can be for sure.
fn whole(word: &str) -> Result<i64, String> {
    let number: i64 = word.parse().map_err(|_| format!("no whole number: {word}"))?;
    if number.unsigned_abs() >> 53 != 0 {
        return Err(format!("not below 2^53 in size: {word}"));
    }
    Ok(number)
}

/// The cells of a list of figures and revisions.
fn cells() -> Result<Vec<Cell>, String> {
    let text = String::from_utf8(standard_input()?).map_err(|e| e.to_string())?;
    let cell = |word: &str| match word.split_once('>') {
        Some((old, new)) => Ok(Cell::revision(whole(old)?, whole(new)?)),
        None => Ok(Cell::figure(whole(word)?)),
    };
    text.split_whitespace().map(cell).collect()
}

fn month(word: &str) -> Result<u8, String> {
    word.parse().map_err(|_| format!("no number from 0 to 255: {word}"))
}

fn first_year(word: &str) -> Result<u16, String> {
    word.parse().map_err(|_| format!("no number from 0 to 65535: {word}"))
}

fn seed(word: &str) -> Result<u64, String> {
    word.parse().map_err(|_| format!("no seed: {word}"))
}

fn tables(figures: &[i32], start: u8) -> Result<String, Refusal> {
    let tables = decompose_fitting(figures, start)?;
    let mut text = String::new();
    for (t, figure) in figures.iter().enumerate() {
        text.push_str(&format!(
            "{} {} {} {} {} {} {} {}\n",
            t, figure, tables.d10[t], tables.d11[t], tables.d12[t], tables.d13[t], tables.b17[t], tables.c17[t]
        ));
    }
    Ok(text)
}

fn table_lines<T: ToString>(front: &str, name: &str, first: usize, values: &[T]) -> String {
    let mut text = String::new();
    for (index, value) in values.iter().enumerate() {
        text.push_str(&format!("{front}{name} {} {}\n", first + index, value.to_string()));
    }
    text
}

fn steps_lines(front: &str, steps: &Steps) -> String {
    let mut text = String::new();
    for (name, table) in steps.by_name() {
        text.push_str(&table_lines(front, name, table.first, &table.values));
    }
    text
}

/// The working of extreme values, each table with the book's letter.
fn extremes_lines(name: &str, extremes: &Extremes) -> String {
    let first = extremes.irregular.first;
    let mut text = String::new();
    for (letter, table) in [
        ("a", &extremes.seasonal.r),
        ("b", &extremes.seasonal.m),
        ("c", &extremes.seasonal.s),
        ("d", &extremes.irregular),
    ] {
        text.push_str(&table_lines("B ", &format!("{name}{letter}"), first, &table.values));
    }
    text.push_str(&table_lines("B ", &format!("{name}f"), first, &extremes.weights));
    text.push_str(&table_lines("B ", &format!("{name}g"), first, &extremes.replaced.values));
    text
}

/// The questions about the seasonal filter of pass D, and the filter chosen.
fn seasonal_choice_lines(tables: &Tables) -> String {
    let mut text = String::new();
    for (index, question) in tables.questions.iter().enumerate() {
        let answer = question.answer().map_or("undecided".to_string(), |filter| filter.to_string());
        let Question { months, i, s } = question;
        text.push_str(&format!("D question {} {months} {i} {s} {answer}\n", index + 1));
    }
    text.push_str(&format!("D filter {}\n", tables.seasonal_filter));
    text
}

fn all_steps(figures: &[i32], start: u8) -> Result<String, Refusal> {
    let tables = decompose_fitting(figures, start)?;
    let mut text = String::new();
    text.push_str(&steps_lines("B ", &tables.b));
    text.push_str(&extremes_lines("B4", &tables.b4));
    text.push_str(&extremes_lines("B9", &tables.b9));
    text.push_str(&table_lines("B ", "B13", 0, &tables.b13));
    text.push_str(&table_lines("B ", "B17", 0, &tables.b17));
    text.push_str(&table_lines("B ", "B20", 0, &tables.b20));
    text.push_str(&steps_lines("C ", &tables.c));
    text.push_str(&table_lines("C ", "C13", 0, &tables.c13));
    text.push_str(&table_lines("C ", "C17", 0, &tables.c17));
    text.push_str(&table_lines("C ", "C20", 0, &tables.c20));
    text.push_str(&steps_lines("D ", &tables.d));
    text.push_str(&seasonal_choice_lines(&tables));
    text.push_str(&format!("D sums {} {}\n", tables.noise.i, tables.noise.c));
    text.push_str(&format!("D length {}\n", tables.trend_terms));
    text.push_str(&table_lines("D ", "D10", 0, &tables.d10));
    text.push_str(&table_lines("D ", "D11", 0, &tables.d11));
    text.push_str(&table_lines("D ", "D12", 0, &tables.d12));
    text.push_str(&table_lines("D ", "D13", 0, &tables.d13));
    Ok(text)
}

fn one_pass(grains: &[i64], show: fn(&Steps) -> String) -> Result<String, Refusal> {
    check_size_and_start(grains.len(), 1)?;
    Ok(show(&pass(grains)))
}

fn print_steps(steps: &Steps) -> String {
    steps_lines("", steps)
}

fn print_pass(steps: &Steps) -> String {
    let mut text = String::new();
    for (t, x) in steps.x.values.iter().enumerate() {
        text.push_str(&format!("{} {} {} {}\n", t, x, steps.t2.at(t), steps.s2.at(t)));
    }
    text
}

fn print_weights(irregular: &[i64], start: u8) -> Result<String, Refusal> {
    check_size_and_start(irregular.len(), start)?;
    let list = weights(irregular, &labels(start, irregular.len()));
    let mut text = String::new();
    for (t, weight) in list.iter().enumerate() {
        text.push_str(&format!("{t} {weight}\n"));
    }
    Ok(text)
}

fn print_exact(figures: &[i32], start: u8) -> Result<String, Refusal> {
    let tables = decompose_fitting(figures, start)?;
    let exact = exact_working(&tables.b1, &tables.d1, tables.seasonal_filter, tables.trend_terms);
    let mut text = String::new();
    for t in 0..figures.len() {
        text.push_str(&format!("{} {} {} {} {}\n", t, exact.e10[t], exact.e11[t], exact.e12[t], exact.e13[t]));
    }
    Ok(text)
}

fn print_distances(figures: &[i32], start: u8) -> Result<String, Refusal> {
    let tables = decompose_fitting(figures, start)?;
    let exact = exact_working(&tables.b1, &tables.d1, tables.seasonal_filter, tables.trend_terms);
    let four = FourDistances::measure(&tables.d10, &tables.d11, &tables.d12, &tables.d13, &exact);
    let mut text = String::new();
    for (name, d, limit) in four.with_limits() {
        let word = if d.is_within(limit) { "within" } else { "beyond" };
        text.push_str(&format!("{name} {} about {:.4} at {} {word} {limit}\n", d.greatest, d.greatest.roughly(), d.place));
    }
    Ok(text)
}

fn print_pass_distances(grains: &[i64]) -> Result<String, Refusal> {
    check_size_and_start(grains.len(), 1)?;
    let steps = pass(grains);
    let exact = exact_pass(grains);
    let mut text = String::new();
    let found = [distance(&steps.t2.values, &exact.t2), distance(&steps.s2.values, &exact.s2)];
    for ((name, limit), d) in PASS_LIMITS.into_iter().zip(found) {
        let word = if d.is_within(limit) { "within" } else { "beyond" };
        text.push_str(&format!("{name} {} about {:.4} at {} {word} {limit}\n", d.greatest, d.greatest.roughly(), d.place));
    }
    Ok(text)
}

fn print_pass_b_distances(figures: &[i32], start: u8) -> Result<String, Refusal> {
    let tables = decompose_fitting(figures, start)?;
    let exact = exact_pass_b(&tables.b1, &tables.b4.held(), &tables.b9.held());
    let mut text = String::new();
    let found = [DistanceB::measure(&tables.b7, &exact.t2), DistanceB::measure(&tables.b10, &exact.s2)];
    for ((name, limit), d) in PASS_B_LIMITS.into_iter().zip(found) {
        let word = if d.is_within(limit) { "within" } else { "beyond" };
        text.push_str(&format!("{name} about {:.4} at {} {word} {limit}\n", d.roughly(), d.place));
    }
    Ok(text)
}

fn make_desk(figures: &[i32], start: u8) -> Result<Vec<u8>, String> {
    let n = figures.len();
    write(figures, start, &vec![1000; n], 4 + 6 * n).map_err(|refusal| refusal.to_string())
}

fn make_columns(figures: &[i32], start: u8, first_year: u16) -> Result<Vec<u8>, String> {
    let n = figures.len();
    write_columns(figures, start, first_year, &vec![1000; n], length_of(n)).map_err(|refusal| refusal.to_string())
}

fn move_forward(old: &[u8], first_year: u16) -> Result<Vec<u8>, String> {
    to_columns(old, first_year, usize::MAX).map_err(|refusal| refusal.to_string())
}

fn move_back(new: &[u8]) -> Result<Vec<u8>, String> {
    let (old, first_year) = from_columns(new, usize::MAX).map_err(|refusal| refusal.to_string())?;
    eprintln!("year {first_year}");
    Ok(old)
}

fn print_sheet(bytes: &[u8]) -> Result<String, Refusal> {
    let series = read_sheet(bytes, usize::MAX)?;
    let mut text = format!("{} {} {}\n", series.n(), series.start, series.total);
    for figure in &series.figures {
        text.push_str(&format!("{figure}\n"));
    }
    Ok(text)
}

fn seasonal_row_lines(filter: SeasonalFilter) -> String {
    let mut text = String::new();
    for (before, after) in filter.counts() {
        let (front, row) = (format!("{filter} {before} before {after} after"), filter.row(before, after));
        text.push_str(&format!("{front}: {} over {}\n", joined(&row.weights), row.divisor));
        if filter == ThreeByNine {
            text.push_str(&format!("{front} exact: {}\n", joined(&three_by_nine_exact(before, after))));
        }
    }
    text
}

fn print_rows() -> String {
    let mut text = String::new();
    for filter in SEASONAL_FILTERS {
        text.push_str(&seasonal_row_lines(filter));
    }
    for terms in LENGTHS {
        let rows = henderson_rows(terms);
        text.push_str(&format!("H{terms} middle: {} over {}\n", joined(&rows.middle), rows.divisor));
        text.push_str(&format!("H{terms} middle exact: {}\n", joined(&henderson_by_formula(terms))));
        for (f, row) in rows.ends.iter().enumerate() {
            text.push_str(&format!("H{terms} {f} after: {} over 1000000\n", joined(row)));
            text.push_str(&format!("H{terms} {f} after exact: {}\n", joined(&musgrave_exact(terms, f))));
        }
    }
    text
}

/// The series of a seed that have allowed figures, with their tables.
fn worked(list: Vec<Case>) -> Vec<(String, Tables)> {
    list.into_iter().filter_map(|c| decompose_fitting(&c.figures, c.start).ok().map(|tables| (c.name, tables))).collect()
}

fn hunt(from: u64, to: u64) -> String {
    let mut text = String::new();
    for seed in from..to {
        for (name, tables) in worked(vec![small_random(seed), smaller_random(seed), wandering(seed)]) {
            for (table, t, sum) in henderson_halves(&tables) {
                text.push_str(&format!("{name} {table} {t} {sum}\n"));
            }
        }
    }
    text
}

fn questions(from: u64, to: u64) -> String {
    let mut text = String::new();
    for seed in from..to {
        let made = [moving_seasonal, moving_for_decades, wandering, stairs, uneven_edges, four_at_the_beginning];
        for (name, tables) in worked(made.iter().map(|made| made(seed)).collect()) {
            for what in place_by_questions(&tables) {
                text.push_str(&format!("{name} {what}\n"));
            }
        }
    }
    text
}

fn bounds(from: u64, to: u64) -> String {
    let mut text = String::new();
    for seed in from..to {
        for (name, tables) in worked(vec![wandering(seed), stairs(seed), uneven_edges(seed), four_at_the_beginning(seed)]) {
            for what in place_by_bounds(&tables) {
                text.push_str(&format!("{name} {what} {} {}\n", tables.noise.i, tables.noise.c));
            }
        }
    }
    text
}
