//! The scheduler's state: records, queues, holders, microseconds.

pub const SLOTS: usize = 64;
pub const CORES: usize = 64;
pub const BANDS: usize = 3;

pub const ALL_CORES: u64 = u64::MAX;

#[derive(Clone, Copy, PartialEq, Eq)]
pub enum Band {
    UserInteractive,
    RealTimeIo,
    Background,
}

impl Band {
    pub fn of(code: u8) -> Option<Band> {
        match code {
            0 => Some(Band::UserInteractive),
            1 => Some(Band::RealTimeIo),
            2 => Some(Band::Background),
            _ => None,
        }
    }

    /// The band's time slice in microseconds.
    pub fn slice(self) -> u32 {
        match self {
            Band::UserInteractive => 2_000,
            Band::RealTimeIo => 5_000,
            Band::Background => 20_000,
        }
    }
}

#[derive(Clone, Copy, PartialEq, Eq)]
pub enum State {
    Ready,
    Running,
    Blocked,
    Terminated,
}

impl State {
    pub fn of(code: u8) -> Option<State> {
        match code {
            0 => Some(State::Ready),
            1 => Some(State::Running),
            2 => Some(State::Blocked),
            3 => Some(State::Terminated),
            _ => None,
        }
    }
}

#[derive(Clone, Copy)]
pub struct Record {
    pub tid: u32,
    pub band: Band,
    pub state: State,
    pub context: u64,
    pub cr3: u64,
    pub rsp0: u64,
    pub mask: u64,
    pub budget: u32,
    pub consumed: u32,
    pub in_use: bool,
}

impl Record {
    pub const EMPTY: Record = Record {
        tid: 0,
        band: Band::Background,
        state: State::Terminated,
        context: 0,
        cr3: 0,
        rsp0: 0,
        mask: ALL_CORES,
        budget: 0,
        consumed: 0,
        in_use: false,
    };

    pub fn may_run_on(&self, core: usize) -> bool {
        self.mask & 1 << (core % CORES) != 0
    }
}

/// The slots that wait in a band, its front at place 0.
#[derive(Clone, Copy)]
pub struct Queue {
    pub slots: [u8; SLOTS],
    pub length: usize,
}

impl Queue {
    pub const EMPTY: Queue = Queue { slots: [0; SLOTS], length: 0 };

    pub fn entries(&self) -> &[u8] {
        &self.slots[..self.length]
    }

    pub fn is_full(&self) -> bool {
        self.length == SLOTS
    }

    /// Puts a slot at the tail. There must be room.
    pub fn push(&mut self, slot: usize) {
        self.slots[self.length] = slot as u8;
        self.length += 1;
    }

    /// Takes a slot out, wherever it stands. The rest keeps its order.
    pub fn remove(&mut self, slot: usize) {
        if let Some(place) = self.entries().iter().position(|&entry| usize::from(entry) == slot) {
            self.slots.copy_within(place + 1..self.length, place);
            self.length -= 1;
        }
    }

    /// Takes the entry at a place out. Those before it go to the tail.
    pub fn take(&mut self, place: usize) -> usize {
        let slot = usize::from(self.slots[place]);
        self.slots[..self.length].rotate_left(place + 1);
        self.length -= 1;
        slot
    }
}

pub struct Scheduler {
    pub records: [Record; SLOTS],
    pub queues: [Queue; BANDS],
    pub holders: [Option<usize>; CORES],
    pub micros: u64,
}
