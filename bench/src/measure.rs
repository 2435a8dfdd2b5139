//! Rounds in which all contenders take turns, and what came of them.

use crate::Wrong;
use std::time::Duration;

/// What is timed: a list made in one way.
pub struct Contender<'a> {
    pub list: &'a str,
    pub name: &'static str,
    /// How many calls a run makes.
    pub calls: usize,
    run: Box<dyn Fn() -> Result<Duration, Wrong> + 'a>,
    times: Vec<Duration>,
}

/// The name of the contender that others are compared with.
pub const RUST: &str = "Rust";

/// The name of the step that is written in Rust as well.
pub const PLAIN: &str = "plain step";

/// How long a turn takes at least. A run that is shorter is repeated, each time from the set-up: a run of the Rust's
/// takes a millisecond, of which the first part would be spent on filling caches.
const TURN: Duration = Duration::from_millis(50);

/// A contender's nanoseconds a call.
pub struct Measured {
    pub list: String,
    pub name: &'static str,
    pub calls: usize,
    pub best: f64,
    pub median: f64,
}

impl<'a> Contender<'a> {
    pub fn new(
        list: &'a str,
        name: &'static str,
        calls: usize,
        run: impl Fn() -> Result<Duration, Wrong> + 'a,
    ) -> Contender<'a> {
        Contender { list, name, calls, run: Box::new(run), times: Vec::new() }
    }

    /// The mean time of the runs in one turn.
    fn turn(&self) -> Result<Duration, Wrong> {
        let (mut time, mut runs) = (Duration::ZERO, 0);
        while time < TURN {
            time += (self.run)()?;
            runs += 1;
        }
        Ok(time / runs)
    }

    fn measured(mut self) -> Measured {
        self.times.sort();
        let nanos = |time: Duration| time.as_nanos() as f64 / self.calls as f64;
        let (best, median) = (nanos(self.times[0]), nanos(median(&self.times)));
        Measured { list: self.list.into(), name: self.name, calls: self.calls, best, median }
    }
}

/// In every round each contender has its turn, so that a machine that gets slower or faster does so for all of them.
pub fn in_rounds(mut contenders: Vec<Contender>, rounds: usize) -> Result<Vec<Measured>, Wrong> {
    for _ in 0..rounds {
        for contender in &mut contenders {
            let time = contender.turn()?;
            contender.times.push(time);
        }
    }
    Ok(contenders.into_iter().map(Contender::measured).collect())
}

/// The one in the middle; of an even number, the mean of the two there.
fn median(sorted: &[Duration]) -> Duration {
    let middle = sorted.len() / 2;
    if sorted.len() % 2 == 1 {
        sorted[middle]
    } else {
        (sorted[middle - 1] + sorted[middle]) / 2
    }
}
