//! What was measured as a table: plain text, and Markdown.

use crate::measure::{Measured, RUST};

/// 64 cores that report every 500 microseconds make this many calls a second.
pub const NEEDED: f64 = 128_000.0;

const NANOS: f64 = 1e9;

const HEADS: [&str; 9] = [
    "list",
    "contender",
    "calls",
    "best ns",
    "median ns",
    "best/Rust",
    "median/Rust",
    "calls a second",
    "times 128,000",
];

/// The columns that are text; all others are numbers.
const TEXTS: usize = 2;

/// The rows of the table, its head first. Calls a second are from the median.
fn rows(measured: &[Measured]) -> Vec<[String; HEADS.len()]> {
    let mut rows = vec![HEADS.map(String::from)];
    for one in measured {
        let rust = measured.iter().find(|other| other.list == one.list && other.name == RUST);
        let ratio = |of: fn(&Measured) -> f64| rust.map_or("".into(), |rust| format!("{:.2}", of(one) / of(rust)));
        let a_second = NANOS / one.median;
        rows.push([
            one.list.clone(),
            one.name.into(),
            grouped(one.calls),
            format!("{:.1}", one.best),
            format!("{:.1}", one.median),
            ratio(|measured| measured.best),
            ratio(|measured| measured.median),
            grouped(a_second.round() as usize),
            format!("{:.1}", a_second / NEEDED),
        ]);
    }
    rows
}

pub fn plain(measured: &[Measured]) -> String {
    let rows = rows(measured);
    let widths: Vec<usize> =
        (0..HEADS.len()).map(|column| rows.iter().map(|row| row[column].len()).max().unwrap_or(0)).collect();
    let cell = |(column, text): (usize, &String)| match column < TEXTS {
        true => format!("{text:<width$}", width = widths[column]),
        false => format!("{text:>width$}", width = widths[column]),
    };
    let line = |row: &[String; HEADS.len()]| row.iter().enumerate().map(cell).collect::<Vec<_>>().join("  ") + "\n";
    rows.iter().map(line).collect()
}

pub fn markdown(measured: &[Measured]) -> String {
    let mut lines: Vec<String> = rows(measured).iter().map(|row| format!("| {} |\n", row.join(" | "))).collect();
    lines.insert(1, format!("|{}{}\n", "---|".repeat(TEXTS), "---:|".repeat(HEADS.len() - TEXTS)));
    lines.concat()
}

/// A number with a comma before every three digits.
pub fn grouped(number: usize) -> String {
    let digits = number.to_string();
    let is_before_three = |place: usize| place > 0 && (digits.len() - place) % 3 == 0;
    let with_comma = |(place, digit)| if is_before_three(place) { format!(",{digit}") } else { format!("{digit}") };
    digits.chars().enumerate().map(with_comma).collect()
}
