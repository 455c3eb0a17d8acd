//! The symbols: what a width at a level means, and how wide each one is sent.

/// The two levels of the line.
#[derive(Clone, Copy, PartialEq, Eq, Debug)]
pub enum Level {
    Passive,
    Active,
}

impl Level {
    /// The level of a place in a recording: even places are passive, odd ones active.
    pub fn of_place(place: usize) -> Level {
        [Level::Passive, Level::Active][place % 2]
    }

    /// The level that isn't this one.
    pub fn other(self) -> Level {
        match self {
            Level::Passive => Level::Active,
            Level::Active => Level::Passive,
        }
    }
}

/// What an interval is, by its width and level.
#[derive(Clone, Copy, PartialEq, Eq, Debug)]
pub enum Class {
    Noise,
    Bit0,
    Bit1,
    Eod,
    Sof,
    Eof,
    Ifs,
    Break,
    Stuck,
}

impl Class {
    /// All nine classes, in the order in which the worked lines name them.
    pub const ALL: [Class; 9] = [
        Class::Noise,
        Class::Bit0,
        Class::Bit1,
        Class::Eod,
        Class::Sof,
        Class::Eof,
        Class::Ifs,
        Class::Break,
        Class::Stuck,
    ];

    /// The class of a data bit of this value.
    pub fn of_bit(bit: bool) -> Class {
        if bit {
            Class::Bit1
        } else {
            Class::Bit0
        }
    }

    /// The value of a data bit; nothing for a class that is no bit.
    pub fn bit(self) -> Option<bool> {
        match self {
            Class::Bit0 => Some(false),
            Class::Bit1 => Some(true),
            _ => None,
        }
    }

    /// An *end*: a passive interval of 240 or more, be it EOF or IFS.
    pub fn is_end(self) -> bool {
        matches!(self, Class::Eof | Class::Ifs)
    }
}

/// One row of the width table: first width, last width, class.
type Row = (u32, u32, Class);

const PASSIVE: [Row; 6] = [
    (0, 34, Class::Noise),
    (35, 96, Class::Bit0),
    (97, 163, Class::Bit1),
    (164, 239, Class::Eod),
    (240, 280, Class::Eof),
    (281, u32::MAX, Class::Ifs),
];

const ACTIVE: [Row; 6] = [
    (0, 34, Class::Noise),
    (35, 96, Class::Bit1),
    (97, 163, Class::Bit0),
    (164, 239, Class::Sof),
    (240, 999_999, Class::Break),
    (1_000_000, u32::MAX, Class::Stuck),
];

/// The class of an interval of this width at this level.
pub fn classify(level: Level, width: u32) -> Class {
    let table = match level {
        Level::Passive => &PASSIVE,
        Level::Active => &ACTIVE,
    };
    let holds = |row: &&Row| (row.0..=row.1).contains(&width);
    table
        .iter()
        .find(holds)
        .expect("the rows hold every width")
        .2
}

/// A station's or writer's clock: the three widths it sends with.
#[derive(Clone, Copy, PartialEq, Eq, Debug)]
pub struct Clock {
    pub short: u32,
    pub long: u32,
    pub sof: u32,
}

/// The nominal clock.
pub const NOMINAL: Clock = Clock {
    short: 64,
    long: 128,
    sof: 200,
};

/// The width of every opening and closing that is sent.
pub const REST: u32 = 300;

/// Whether all three widths lie inside the sending windows.
pub fn good_clock(clock: Clock) -> bool {
    (49..=79).contains(&clock.short)
        && (112..=145).contains(&clock.long)
        && (182..=218).contains(&clock.sof)
}

/// The width with which a symbol is sent at a level; nothing where it is never sent.
pub fn sent(clock: Clock, level: Level, class: Class) -> Option<u32> {
    match (level, class) {
        (Level::Passive, Class::Bit0) | (Level::Active, Class::Bit1) => Some(clock.short),
        (Level::Passive, Class::Bit1) | (Level::Active, Class::Bit0) => Some(clock.long),
        (Level::Passive, Class::Eod) | (Level::Active, Class::Sof) => Some(clock.sof),
        (Level::Passive, Class::Ifs) => Some(REST),
        _ => None,
    }
}
