//! What is said about a measurement: printed, and written as a section in Markdown and a picture.

use crate::check::Checked;
use crate::measure::Measured;
use crate::table::{self, grouped};
use crate::{image, lists, picture, Options, Wrong};
use std::path::Path;

pub struct Report {
    date: String,
    /// The machine, the compiler and the rounds.
    conditions: String,
    /// What each list has.
    lists: Vec<String>,
    measured: Vec<Measured>,
}

impl Report {
    pub fn new(options: &Options, lists: Vec<String>, measured: Vec<Measured>) -> Report {
        let conditions = format!("{}; {}; rounds: {}", machine(), options.rustc, options.rounds);
        Report { date: options.date.clone(), conditions, lists, measured }
    }

    pub fn plain(&self) -> String {
        format!("{}, {}\n\n{}", self.date, self.conditions, table::plain(&self.measured))
    }

    /// Writes speed.md and speed.svg.
    pub fn write(&self, folder: &Path) -> Result<(), Wrong> {
        let picture = picture::svg(&self.measured, &format!("{}, {}", self.date, self.conditions));
        for (name, text) in [("speed.md", self.section()), ("speed.svg", picture)] {
            let path = folder.join(name);
            std::fs::write(&path, text).map_err(|error| Wrong::Failed(format!("{}: {error}", path.display())))?;
        }
        Ok(())
    }

    fn section(&self) -> String {
        let lists: String = self.lists.iter().map(|list| format!("- {list}\n")).collect();
        format!(
            "## Measured on {}\n\n{}.\n\n{}\n![The medians as bars](speed.svg)\n\nThe lists:\n\n{lists}",
            self.date,
            self.conditions,
            table::markdown(&self.measured)
        )
    }
}

/// What a list has: its calls by kind, how many were refused, and how many tasks wait where it ends.
pub fn described(checked: &Checked) -> String {
    let kind = |(name, count): &(&str, usize)| format!("{} {name}", grouped(*count));
    let kinds: Vec<String> = lists::kinds(&checked.list.calls).iter().map(kind).collect();
    let [first, second, third] = image::waiting(&checked.end);
    format!(
        "{}: {} calls ({}), {} refused; at the end {first}, {second} and {third} tasks wait in bands 0, 1 and 2",
        checked.list.name,
        grouped(checked.answers.len()),
        kinds.join(", "),
        checked.refused()
    )
}

/// The kind of processor and how many cores there are.
fn machine() -> String {
    let about = std::fs::read_to_string("/proc/cpuinfo").unwrap_or_default();
    let model = about.lines().find(|line| line.starts_with("model name")).and_then(|line| line.split(": ").nth(1));
    let cores = std::thread::available_parallelism().map_or(0, |cores| cores.get());
    format!("{}, {cores} cores", model.unwrap_or("unknown processor"))
}
