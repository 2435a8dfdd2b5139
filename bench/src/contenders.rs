//! The lists with all that is laid out before they are timed, and who is timed on each.

use crate::check::Checked;
use crate::frames::Call;
use crate::lists::List;
use crate::measure::{Contender, PLAIN, RUST};
use crate::original::Original;
use crate::ours::{Calls, Ours, Tick};
use crate::program::Program;
use crate::step::{archived, Host, Step};
use crate::{plain, Wrong};
use std::path::Path;

/// A list of calls of all kinds: the Rust, the plain step, `step`, `apply` and the program calls.
pub struct Mixed {
    pub checked: Checked,
    original: Original,
    calls: Calls,
    program: Program,
}

impl Mixed {
    /// Checks that they answer alike. What the program is given is written into the folder.
    pub fn of(list: List, program: &Path, folder: &Path) -> Result<Mixed, Wrong> {
        let original = Original::of(&list);
        let checked = Checked::of(list)?;
        checked.compare_step(PLAIN, plain::step)?;
        let calls = Calls::of(&checked.frames);
        checked.compare("apply", |ours, place| ours.apply(&calls, place))?;
        let program = Program::checked(program, &checked, folder)?;
        Ok(Mixed { checked, original, calls, program })
    }

    pub fn contenders(&self) -> Vec<Contender<'_>> {
        let Checked { list, frames, start, end, .. } = &self.checked;
        let count = frames.len();
        let apply = |ours: &mut Ours, place| ours.apply(&self.calls, place);
        vec![
            Contender::new(&list.name, RUST, count, || self.original.timed(end)),
            stepped(&self.checked, PLAIN, plain::step),
            stepped(&self.checked, "step", archived),
            Contender::new(&list.name, "apply", count, move || Ours::of(start).timed(count, end, apply)),
            Contender::new(&list.name, "calls", self.program.lines, || self.program.timed()),
        ]
    }
}

/// A list that has only ticks: the Rust, the plain step, `step`, and the tick by value and lent.
pub struct Ticks {
    pub checked: Checked,
    original: Original,
    ticks: Vec<Tick>,
}

impl Ticks {
    pub fn of(list: List) -> Result<Ticks, Wrong> {
        let original = Original::of(&list);
        let tick = |call: &Call| Tick { core: call.arguments[0], elapsed: call.arguments[1] as u32 };
        let ticks: Vec<Tick> = list.calls.iter().map(tick).collect();
        let checked = Checked::of(list)?;
        checked.compare_step(PLAIN, plain::step)?;
        checked.compare("tick by value", |ours, place| ours.tick(&ticks[place]))?;
        checked.compare("lent tick", |ours, place| ours.tick_lent(&ticks[place]))?;
        Ok(Ticks { checked, original, ticks })
    }

    pub fn contenders(&self) -> Vec<Contender<'_>> {
        let Checked { list, frames, start, end, .. } = &self.checked;
        let count = frames.len();
        let by_value = |ours: &mut Ours, place: usize| ours.tick(&self.ticks[place]);
        let lent = |ours: &mut Ours, place: usize| ours.tick_lent(&self.ticks[place]);
        vec![
            Contender::new(&list.name, RUST, count, || self.original.timed(end)),
            stepped(&self.checked, PLAIN, plain::step),
            stepped(&self.checked, "step", archived),
            Contender::new(&list.name, "tick by value", count, move || Ours::of(start).timed(count, end, by_value)),
            Contender::new(&list.name, "lent tick", count, move || Ours::of(start).timed(count, end, lent)),
        ]
    }
}

/// A step on a list's frames, ours or the plain one: both are behind the same pointer to a function.
fn stepped<'a>(checked: &'a Checked, name: &'static str, step: Step) -> Contender<'a> {
    let Checked { list, frames, start, end, .. } = checked;
    Contender::new(&list.name, name, frames.len(), move || Host::on(start.clone(), step).timed(frames, end))
}
