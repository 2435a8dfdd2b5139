//! What a random list is like: each is drawn in one of these moods.

use std::ops::Range;

pub struct Mood {
    pub name: &'static str,
    /// Creates that the list begins with. The table has 64 slots.
    pub tasks: u64,
    /// How often a task is of band 0, 1 and 2.
    pub bands: [u64; 3],
    /// Tids are drawn from so many.
    pub tids: u64,
    /// Cores that calls name, but for the far ones.
    pub cores: Range<u64>,
    /// Of 100 masks, those with one or two bits.
    pub narrow: u64,
    /// Of 100 slots, those that are looked for among the cores' holders first.
    pub held: u64,
    /// Of 100 slots and cores, those at 63, 64 and beyond.
    pub far: u64,
    pub times: Times,
    /// How often each of the calls 00 to 0a is drawn, then a query, then a line that is no frame.
    pub lines: [u64; 13],
}

/// Places in `lines` that are not a call's number.
pub const QUERY: usize = 11;
pub const NO_FRAME: usize = 12;

/// How often an elapsed time is of each kind.
pub struct Times {
    /// Timer periods, slices and their neighbours.
    pub ordinary: u64,
    /// What the holder's slice has left, one less or one more.
    pub near_the_end: u64,
    /// Up to the largest inside the domain, and seldom beyond it.
    pub largest: u64,
}

/// Some of everything. The other moods say where they are not like this one.
const EVEN: Mood = Mood {
    name: "some of everything",
    tasks: 12,
    bands: [1, 1, 1],
    tids: 1000,
    cores: 0..6,
    narrow: 30,
    held: 25,
    far: 4,
    times: Times { ordinary: 12, near_the_end: 6, largest: 1 },
    //      00 01 02 03 04 05  06 07  08 09 0a query, no frame
    lines: [4, 4, 3, 8, 8, 16, 9, 20, 8, 5, 10, 8, 1],
};

pub const MOODS: [Mood; 12] = [
    EVEN,
    Mood { name: "full table", tasks: 67, cores: 0..16, lines: [8, 4, 3, 8, 8, 24, 9, 20, 8, 5, 10, 8, 1], ..EVEN },
    Mood {
        name: "few tasks, few cores",
        tasks: 3,
        cores: 0..2,
        lines: [2, 3, 1, 8, 8, 16, 9, 20, 8, 5, 10, 6, 1],
        ..EVEN
    },
    Mood { name: "shared tids", tasks: 20, tids: 3, lines: [9, 3, 9, 8, 8, 16, 9, 16, 8, 5, 8, 24, 1], ..EVEN },
    Mood {
        name: "narrow masks",
        tasks: 20,
        cores: 0..4,
        narrow: 90,
        lines: [4, 14, 3, 6, 8, 20, 16, 20, 8, 5, 10, 8, 1],
        ..EVEN
    },
    Mood {
        name: "one slot on several cores",
        tasks: 5,
        cores: 0..8,
        narrow: 15,
        held: 80,
        lines: [3, 3, 2, 5, 6, 34, 28, 16, 6, 6, 10, 8, 1],
        ..EVEN
    },
    Mood {
        name: "blocked holders",
        tasks: 9,
        cores: 0..5,
        held: 85,
        lines: [3, 3, 2, 22, 16, 10, 9, 12, 8, 16, 8, 8, 1],
        ..EVEN
    },
    Mood {
        name: "slices about to end",
        tasks: 8,
        cores: 0..3,
        narrow: 10,
        times: Times { ordinary: 3, near_the_end: 16, largest: 1 },
        lines: [2, 2, 1, 3, 4, 14, 6, 36, 3, 2, 24, 6, 1],
        ..EVEN
    },
    Mood {
        name: "every core",
        tasks: 64,
        cores: 0..64,
        narrow: 50,
        lines: [5, 8, 4, 6, 8, 26, 16, 24, 8, 5, 12, 8, 1],
        ..EVEN
    },
    Mood {
        name: "one band, long queue",
        tasks: 66,
        bands: [0, 1, 0],
        cores: 60..64,
        narrow: 20,
        lines: [6, 3, 2, 6, 10, 40, 5, 9, 5, 3, 5, 6, 1],
        ..EVEN
    },
    Mood { name: "far slots and cores", tasks: 16, cores: 58..64, far: 45, ..EVEN },
    Mood {
        name: "largest times",
        tasks: 5,
        cores: 0..3,
        times: Times { ordinary: 3, near_the_end: 2, largest: 5 },
        lines: [2, 2, 1, 5, 6, 12, 6, 36, 3, 2, 24, 6, 1],
        ..EVEN
    },
];
