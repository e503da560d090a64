// What is counted, stored and sent, and the limits, in the words of document 01. Numbers of processes, registers and rows run from 1; 0 is none.

pub const MOST_PROCESSES: usize = 7;
pub const MOST_REGISTERS: usize = 16;
pub const MOST_MESSAGES: usize = 512;
pub const MOST_ROWS: usize = 1024;
pub const MOST_EVENTS: u32 = 12_000;

/// The number of a refusal; what is accepted has none.
pub type Refusal = u8;

/// Compared by time, then by process: the order in which the fields stand.
#[derive(Clone, Copy, Default, PartialEq, Eq, PartialOrd, Ord)]
pub struct Stamp {
    pub time: u32,
    pub process: u8,
}

/// The starting pair is ((0, 0), 0), the default.
#[derive(Clone, Copy, Default, PartialEq)]
pub struct Pair {
    pub stamp: Stamp,
    pub value: i64,
}

#[derive(Clone, Copy, PartialEq)]
pub enum Body {
    Query { register: u8 },
    Response { pair: Pair },
    Update { register: u8, pair: Pair },
    Ack,
}

#[derive(Clone, Copy, PartialEq)]
pub struct Message {
    pub number: u32,
    pub sender: u8,
    pub recipient: u8,
    pub time: u32,
    pub request: u32,
    pub body: Body,
}

pub const EMPTY_MESSAGE: Message = Message { number: 0, sender: 0, recipient: 0, time: 0, request: 0, body: Body::Query { register: 0 } };

#[derive(Clone, Copy, Default, PartialEq)]
pub enum Kind {
    #[default]
    Read,
    Write,
}

#[derive(Clone, Copy, Default, PartialEq)]
pub struct Row {
    pub process: u8,
    pub kind: Kind,
    pub register: u8,
    pub invoked: u32,
    /// 0 while pending.
    pub answered: u32,
    pub pair: Pair,
}

impl Row {
    pub fn is_pending(&self) -> bool {
        self.answered == 0
    }

    pub fn invocation(&self) -> Stamp {
        Stamp { time: self.invoked, process: self.process }
    }
}

/// What a replica waits for; `row` is the place in the table of the operation that it works at.
#[derive(Clone, Copy, PartialEq)]
pub enum Phase {
    Idle,
    Querying { row: usize, greatest: Pair },
    Updating { row: usize, sent: Pair },
}

/// Processes that have replied, one bit each.
#[derive(Clone, Copy, Default, PartialEq)]
pub struct Repliers(pub u8);

impl Repliers {
    pub fn with(self, process: u8) -> Repliers {
        Repliers(self.0 | 1 << (process - 1))
    }

    pub fn count(self) -> u32 {
        self.0.count_ones()
    }
}

#[derive(Clone, Copy, PartialEq)]
pub struct Replica {
    pub is_up: bool,
    pub clock: u32,
    pub request: u32,
    pub repliers: Repliers,
    pub phase: Phase,
    pub pairs: [Pair; MOST_REGISTERS],
}

#[derive(Clone, Copy, PartialEq)]
pub enum Event {
    Read { process: u8, register: u8 },
    Write { process: u8, register: u8, value: i64 },
    Deliver { message: u32 },
    Crash { process: u8 },
    Lose { message: u32 },
}
