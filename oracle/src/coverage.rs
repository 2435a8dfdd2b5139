//! What the lists reached, counted, so that one can see that the weights work.

use crate::answers::NO_FRAME;
use crate::draw::{Line, List};
use crate::driver::Driver;
use crate::frames::{CALLS, PLAN};
use kscheduler::{TaskControlBlock, ThreadState, MAX_CPUS, MAX_TASKS};

/// What a state may be like, and the test for it.
type Sight = (&'static str, fn(&Driver) -> bool);

const SIGHTS: [Sight; 8] = [
    ("a full table", |rust| tasks(rust).all(|task| task.in_use)),
    ("a tid that tasks share", |rust| {
        tasks(rust).any(|one| in_use(rust).filter(|task| task.tid == one.tid).count() > 1)
    }),
    ("a queue of 50 and more", |rust| {
        (0..3).any(|band| waiting(rust).filter(|task| task.qos as u8 == band).count() >= 50)
    }),
    ("a waiting task for one or two cores", |rust| waiting(rust).any(|task| task.cpu_affinity.count_ones() <= 2)),
    ("a slot on several cores", |rust| {
        tasks(rust).any(|task| holders(rust).filter(|holder| std::ptr::eq(*holder, task)).count() > 1)
    }),
    ("a Ready holder", |rust| holders(rust).any(|task| task.state == ThreadState::Ready)),
    ("a Blocked holder", |rust| holders(rust).any(|task| task.state == ThreadState::Blocked)),
    ("a slice with 1 microsecond left", |rust| {
        holders(rust).any(|task| task.consumed_slice_us + 1 == task.slice_budget_us)
    }),
];

fn tasks(rust: &Driver) -> impl Iterator<Item = &TaskControlBlock> {
    (0..MAX_TASKS).filter_map(|slot| rust.task(slot))
}

fn in_use(rust: &Driver) -> impl Iterator<Item = &TaskControlBlock> {
    tasks(rust).filter(|task| task.in_use)
}

fn waiting(rust: &Driver) -> impl Iterator<Item = &TaskControlBlock> {
    tasks(rust).filter(|task| task.state == ThreadState::Ready)
}

fn holders(rust: &Driver) -> impl Iterator<Item = &TaskControlBlock> {
    (0..MAX_CPUS).filter_map(|core| rust.current_task(core))
}

/// Which of `SIGHTS` a state has.
pub struct Sights([bool; SIGHTS.len()]);

impl Sights {
    pub fn of(rust: &Driver) -> Sights {
        Sights(SIGHTS.map(|(_, seen)| seen(rust)))
    }
}

/// Which slots and cores are counted.
type Place = (&'static str, fn(u64) -> bool);

const PLACES: [Place; 4] = [
    ("63", |place| place == 63),
    ("64", |place| place == 64),
    ("above 64", |place| place > 64),
    ("the largest", |place| place == u64::MAX),
];

/// The statuses that the Rust and the frames can answer.
const STATUSES: [usize; 8] = [0, 1, 2, 3, 4, 5, 6, NO_FRAME as usize];

/// The row of the lines that are no frame, behind those of the calls.
const NO_CALL: usize = CALLS.len();

#[derive(Default)]
pub struct Coverage {
    rows: [Row; NO_CALL + 1],
    places: [u64; PLACES.len()],
    sights: [u64; SIGHTS.len()],
    lists: u64,
    /// Lists that came to the edge of the domain.
    stopped: u64,
}

#[derive(Default)]
struct Row {
    /// How many answers have each status.
    statuses: [u64; NO_FRAME as usize + 1],
    picks: u64,
}

impl Coverage {
    pub fn count(&mut self, list: &List) {
        self.lists += 1;
        self.stopped += u64::from(list.stopped);
        for (sum, seen) in self.sights.iter_mut().zip(list.sights.0) {
            *sum += u64::from(seen);
        }
        list.lines.iter().for_each(|line| self.count_line(line));
    }

    fn count_line(&mut self, line: &Line) {
        let row = &mut self.rows[line.call.as_ref().map_or(NO_CALL, |call| usize::from(call.number))];
        row.statuses[usize::from(line.answer.status)] += 1;
        row.picks += u64::from(line.answer.pick.is_some());
        // The first argument of each call but create is a slot or a core.
        let Some(call) = line.call.as_ref().filter(|call| (1..=PLAN).contains(&call.number)) else { return };
        for (sum, (_, fits)) in self.places.iter_mut().zip(PLACES) {
            *sum += u64::from(fits(call.arguments[0]));
        }
    }

    pub fn add(&mut self, other: &Coverage) {
        for (row, more) in self.rows.iter_mut().zip(&other.rows) {
            add_each(&mut row.statuses, &more.statuses);
            row.picks += more.picks;
        }
        add_each(&mut self.places, &other.places);
        add_each(&mut self.sights, &other.sights);
        self.lists += other.lists;
        self.stopped += other.stopped;
    }

    pub fn print(&self) {
        let heads = STATUSES.map(|status| if status == 0 { "done".into() } else { status.to_string() });
        println!("{:<22}{}    picks", "call", heads.map(|head| format!("{head:>9}")).concat());
        for (number, row) in self.rows.iter().enumerate() {
            let name = CALLS.get(number).map_or("no frame".into(), |(name, _)| format!("{number:02x} {name}"));
            let sums = STATUSES.map(|status| format!("{:>9}", row.statuses[status])).concat();
            println!("{name:<22}{sums}{:>9}", row.picks);
        }
        let places = PLACES.iter().zip(self.places).map(|((name, _), sum)| format!("{name} {sum} times"));
        println!("slots and cores that calls 01 to 0a name: {}", places.collect::<Vec<_>>().join(", "));
        println!(
            "of {} lists, {} came to the edge of the domain; where the drawn calls ended",
            self.lists, self.stopped
        );
        SIGHTS.iter().zip(self.sights).for_each(|((name, _), sum)| println!("{sum:>8} had {name}"));
    }
}

fn add_each(sums: &mut [u64], more: &[u64]) {
    sums.iter_mut().zip(more).for_each(|(sum, more)| *sum += more);
}
