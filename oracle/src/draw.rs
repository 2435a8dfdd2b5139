//! Random lists of calls with the Rust's answers. A list is drawn beside the Rust's state and made in one go.

use crate::aim::Aim;
use crate::answers::{Answer, NO_FRAME};
use crate::coverage::Sights;
use crate::dice::Dice;
use crate::driver::{Driver, Outside};
use crate::frames::{self, Call};
use crate::image::{Queues, State};
use crate::moods::MOODS;
use kscheduler::{ThreadState, MAX_CPUS, MAX_TASKS};

/// What lists are to be like, whatever their mood.
pub struct Form {
    /// How many calls are drawn, at least and at most.
    pub shortest: u64,
    pub longest: u64,
    /// Whether lines that are no frame are drawn too.
    pub spoils: bool,
    /// Whether the whole state is asked for again once the queues have been emptied.
    pub last_picture: bool,
}

/// A list of calls from new, and the Rust's answers.
pub struct List {
    pub mood: &'static str,
    pub lines: Vec<Line>,
    /// Whether a call outside the domain was drawn. It is not in the list, and nothing was drawn after it.
    pub stopped: bool,
    /// What the state was like where the drawn calls ended.
    pub sights: Sights,
    /// The Rust's state as an image where the drawn calls ended and behind the last line, each behind the number of lines
    /// before it.
    pub images: [(usize, Vec<u8>); 2],
    /// The list's dice behind its last line, for what else is to be drawn with it.
    pub dice: Dice,
}

pub struct Line {
    pub text: Vec<u8>,
    /// None for a line that is no frame.
    pub call: Option<Call>,
    pub answer: Answer,
}

/// The list of that number: the mood's tasks, drawn calls, a picture of the whole state, then every queue emptied, which
/// shows its order, and the picture again.
pub fn list(seed: u64, number: u64, form: &Form) -> List {
    let mood = &MOODS[(number % MOODS.len() as u64) as usize];
    let mut aim = Aim { dice: Dice::new(seed, number), mood };
    // Short lists are more frequent than long ones: a short one shows a difference best.
    let most = aim.dice.below(form.longest - form.shortest + 1);
    let calls = form.shortest + aim.dice.below(most + 1);

    let mut drawing = Drawing::new();
    drawing.make_tasks(&mut aim);
    let stopped = (0..calls).try_for_each(|_| drawing.draw(&mut aim, form.spoils)).is_err();
    let sights = Sights::of(&drawing.rust);
    let drawn = drawing.lines.len();
    let state = State::of(&drawing.rust);
    drawing.picture();
    let queues = drawing.empty_the_queues();
    if form.last_picture {
        drawing.picture();
    }
    // Nobody waits there.
    let last = State::of(&drawing.rust).image();
    let images = [(drawn, state.with_queues(queues).image()), (drawing.lines.len(), last)];
    List { mood: mood.name, lines: drawing.lines, stopped, sights, images, dice: aim.dice }
}

/// Lines so far, and the Rust's state behind them.
pub struct Drawing {
    rust: Driver,
    pub lines: Vec<Line>,
}

impl Drawing {
    pub fn new() -> Drawing {
        Drawing { rust: Driver::new(), lines: Vec::new() }
    }

    /// The tasks that the mood begins with. Most are enqueued, and some may use a few cores only.
    pub fn make_tasks(&mut self, aim: &mut Aim) {
        for _ in 0..aim.mood.tasks {
            let create = aim.create();
            self.make(create);
        }
        for slot in 0..aim.mood.tasks.min(MAX_TASKS as u64) {
            if aim.dice.percent(aim.mood.narrow) {
                self.make(Call::new(frames::AFFINITY, &[slot, aim.mask()]));
            }
            if aim.dice.percent(75) {
                self.make(Call::new(frames::ENQUEUE, &[slot]));
            }
        }
    }

    /// One more line; none where it would leave the domain.
    pub fn draw(&mut self, aim: &mut Aim, spoils: bool) -> Result<(), Outside> {
        let (text, drawn) = aim.line(&self.rust, spoils);
        let call = Call::read(&text);
        assert_eq!(drawn, call, "what was drawn is what is read");
        self.answer(text, call)
    }

    /// A line that is given; none where it would leave the domain.
    pub fn add(&mut self, text: Vec<u8>) -> Result<(), Outside> {
        let call = Call::read(&text);
        self.answer(text, call)
    }

    fn answer(&mut self, text: Vec<u8>, call: Option<Call>) -> Result<(), Outside> {
        let answer = match &call {
            Some(call) => self.rust.answer(call)?,
            None => Answer::refused(NO_FRAME),
        };
        self.lines.push(Line { text, call, answer });
        Ok(())
    }

    /// Everything that queries show: the records, the cores' holders, the microseconds, and the slots' holders.
    pub fn picture(&mut self) {
        (0..MAX_TASKS as u64).for_each(|slot| self.make(Call::new(frames::TASK, &[slot])));
        (0..MAX_CPUS as u64).for_each(|core| self.make(Call::new(frames::CURRENT_TASK_ON_CPU, &[core])));
        self.make(Call::new(frames::SYSTEM_TICKS_US, &[]));
        (0..MAX_TASKS as u64).for_each(|slot| self.make(Call::new(frames::HOLDER, &[slot])));
    }

    /// Lets every waiting task onto core 0 and has core 0 pick until nobody waits: no query shows a queue's order, and
    /// these picks do. What they show are the queues as they were.
    pub fn empty_the_queues(&mut self) -> Queues {
        let waits = |rust: &Driver, slot| rust.task(slot).is_some_and(|task| task.state == ThreadState::Ready);
        let waiting: Vec<usize> = (0..MAX_TASKS).filter(|&slot| waits(&self.rust, slot)).collect();
        waiting.iter().for_each(|&slot| self.make(Call::new(frames::AFFINITY, &[slot as u64, 0])));
        let first = self.lines.len();
        (0..=waiting.len()).for_each(|_| self.make(Call::new(frames::SCHEDULE, &[0])));
        let mut queues = Queues::default();
        let picks = self.lines[first..].iter().filter_map(|line| line.answer.pick);
        picks.for_each(|pick| queues[usize::from(pick.band)].push(pick.slot));
        queues
    }

    /// A call that charges nobody, so that it is inside the domain.
    pub fn make(&mut self, call: Call) {
        let answer = self.rust.answer(&call).expect("no tick or plan");
        self.lines.push(Line { text: call.line().into_bytes(), call: Some(call), answer });
    }
}
