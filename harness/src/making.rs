// Schedules at random, one for each seed. Each is made along a bench of its own, so that most events are accepted; some end in an event made to be refused, some files are damaged.
use crate::bench::Bench;
use crate::damage::damage;
use crate::random::Random;
use crate::schedule::{append, begin, seal, LONGEST_FILE};
use crate::words::*;

/// Which message in flight is likely to be delivered next.
#[derive(Clone, Copy)]
enum Mail {
    Any,
    Oldest,
    Newest,
}

/// What one schedule is like. Those that end in `_mille` say how many of a thousand events are of that kind, where one is possible.
struct Habits {
    events: usize,
    mail: Mail,
    invoke_mille: usize,
    write_mille: usize,
    crash_mille: usize,
    /// How many processes crash at most.
    crashes: u8,
    lose_mille: usize,
    /// Processes whose mail mostly stays in flight, one bit each.
    slow: u8,
    /// Registers 1 to this are used.
    busy_registers: usize,
    /// The event at this place is made to be refused.
    wild: Option<usize>,
}

struct Maker {
    random: Random,
    habits: Habits,
    bench: Bench,
    file: Vec<u8>,
}

const LONGEST_EVENT: usize = 11;
const DAMAGED_MILLE: usize = 120;
const WILD_MILLE: usize = 250;
/// Where there is no room for what a broadcast sends, or no row, this many of a thousand events are tried all the same.
const BOLD_MILLE: usize = 10;
/// This many of a thousand events take slow mail like any other.
const CAUGHT_UP_MILLE: usize = 5;
/// How many events a schedule has, at least and at most, and how many of a thousand schedules are drawn from there.
const LENGTHS: [(usize, usize, usize); 6] = [(0, 8, 100), (0, 150, 430), (0, 1_200, 300), (0, 5_000, 110), (5_000, 12_000, 50), (12_001, 12_050, 10)];

/// The schedule file of a seed.
pub fn make(seed: u64) -> Vec<u8> {
    let mut random = Random::new(seed);
    let processes = random.between(1, MOST_PROCESSES) as u8;
    let registers = random.between(1, MOST_REGISTERS) as u8;
    let habits = habits(&mut random, processes, registers);
    let mut maker = Maker { random, habits, bench: Bench::start(processes, registers), file: begin(processes, registers) };
    maker.add_events();
    let Maker { mut random, mut file, .. } = maker;
    seal(&mut file);
    if random.mille(DAMAGED_MILLE) {
        damage(&mut random, &mut file);
    }
    file
}

fn habits(random: &mut Random, processes: u8, registers: u8) -> Habits {
    let events = length(random);
    Habits {
        events,
        mail: random.choose(&[Mail::Any, Mail::Any, Mail::Oldest, Mail::Newest]),
        invoke_mille: random.choose(&[30, 100, 250, 500, 900]),
        write_mille: random.choose(&[0, 100, 500, 500, 1000]),
        crash_mille: random.choose(&[1, 5, 30]),
        crashes: random.choose(&[0, 0, minority(processes), processes]),
        lose_mille: random.choose(&[0, 50, 300]),
        slow: random.choose(&[0, 0, (1 << minority(processes)) - 1]),
        busy_registers: random.choose(&[1, usize::from(registers), usize::from(registers)]),
        wild: if random.mille(WILD_MILLE) { Some(random.below(events + 1)) } else { None },
    }
}

fn length(random: &mut Random) -> usize {
    let mut roll = random.below(1000);
    for (least, most, mille) in LENGTHS {
        if roll < mille {
            return random.between(least, most);
        }
        roll -= mille;
    }
    unreachable!("the shares of LENGTHS add up to a thousand")
}

/// Without so many there is still a majority.
fn minority(processes: u8) -> u8 {
    (processes - 1) / 2
}

impl Maker {
    fn add_events(&mut self) {
        for place in 0..self.habits.events {
            if self.file.len() + LONGEST_EVENT > LONGEST_FILE {
                return;
            }
            let event = if self.habits.wild == Some(place) { Some(self.wild_event()) } else { self.likely_event() };
            match event {
                Some(event) if self.is_accepted(event) => {}
                Some(_) => return self.add_unread_events(),
                None => return,
            }
        }
    }

    /// Appends an event, and says whether the bench accepts it.
    fn is_accepted(&mut self, event: Event) -> bool {
        append(&mut self.file, event);
        self.bench.advance(event).is_ok()
    }

    /// Behind a refused event nothing is read; some files go on all the same.
    fn add_unread_events(&mut self) {
        for _ in 0..self.random.below(4) {
            let event = self.wild_event();
            append(&mut self.file, event);
        }
    }

    fn likely_event(&mut self) -> Option<Event> {
        if self.habits.crashes > 0 && self.random.mille(self.habits.crash_mille) {
            self.habits.crashes -= 1;
            return Some(Event::Crash { process: self.live_process() });
        }
        if self.random.mille(self.habits.lose_mille) {
            if let Some(message) = self.message(Bench::can_be_lost) {
                return Some(Event::Lose { message });
            }
        }
        let has_room = self.has_room();
        let is_invoked = self.random.mille(self.habits.invoke_mille);
        let process = if has_room && self.has_row() { self.idle_process() } else { None };
        let message = self.message(if has_room { Bench::can_be_delivered } else { Bench::can_be_delivered_without_room });
        match (process, message) {
            (Some(process), None) => Some(self.invocation(process)),
            (Some(process), Some(_)) if is_invoked => Some(self.invocation(process)),
            (_, Some(message)) => Some(Event::Deliver { message }),
            (None, None) => self.event_when_all_wait(),
        }
    }

    /// Whether a broadcast finds room; now and then it is said though it is not so.
    fn has_room(&mut self) -> bool {
        self.bench.flight + usize::from(self.bench.processes) <= MOST_MESSAGES || self.random.mille(BOLD_MILLE)
    }

    /// Whether an operation finds a row; now and then it is said though it is not so.
    fn has_row(&mut self) -> bool {
        self.bench.used < MOST_ROWS || self.random.mille(BOLD_MILLE)
    }

    /// Nothing can begin, and nothing can be delivered: a message is lost, or the schedule ends, or an event is refused.
    fn event_when_all_wait(&mut self) -> Option<Event> {
        if let Some(message) = self.message(Bench::can_be_lost) {
            return Some(Event::Lose { message });
        }
        match (self.random.below(3), self.idle_process()) {
            (0, _) => None,
            (1, Some(process)) => Some(self.invocation(process)),
            _ => Some(self.wild_event()),
        }
    }

    fn invocation(&mut self, process: u8) -> Event {
        let register = self.random.between(1, self.habits.busy_registers) as u8;
        if self.random.mille(self.habits.write_mille) {
            return Event::Write { process, register, value: self.value() };
        }
        Event::Read { process, register }
    }

    fn value(&mut self) -> i64 {
        match self.random.below(8) {
            0 => self.random.choose(&[i64::MIN, i64::MAX, -1, 0, 1, 9, 10, -10]),
            1 | 2 => self.random.number() as i64,
            _ => self.random.below(1000) as i64,
        }
    }

    /// An event with its parts at random, in range or a little out of it: likely to be refused, by any number.
    fn wild_event(&mut self) -> Event {
        let process = self.random.between(0, usize::from(self.bench.processes) + 1) as u8;
        let register = self.random.between(0, usize::from(self.bench.registers) + 1) as u8;
        let message = match self.random.below(4) {
            0 => self.random.number() as u32,
            1 => self.random.below(self.bench.sent as usize + 2) as u32,
            _ => self.any_message(),
        };
        match self.random.below(5) {
            0 => Event::Read { process, register },
            1 => Event::Write { process, register, value: self.value() },
            2 => Event::Deliver { message },
            3 => Event::Crash { process },
            _ => Event::Lose { message },
        }
    }

    /// A process that is up, or the one that was looked at last.
    fn live_process(&mut self) -> u8 {
        let first = self.random.below(usize::from(self.bench.processes)) as u8;
        self.from(first).find(|&process| self.bench.replica(process).is_up).unwrap_or(first + 1)
    }

    /// All processes, beginning behind the one given.
    fn from(&self, first: u8) -> impl Iterator<Item = u8> {
        let processes = self.bench.processes;
        (0..processes).map(move |turn| (first + turn) % processes + 1)
    }

    /// The number of a message in flight, 0 where there is none.
    fn any_message(&mut self) -> u32 {
        if self.bench.flight == 0 {
            return 0;
        }
        self.bench.messages[self.random.below(self.bench.flight)].number
    }

    /// A process that is up and idle.
    fn idle_process(&mut self) -> Option<u8> {
        let first = self.random.below(usize::from(self.bench.processes)) as u8;
        self.from(first).find(|&process| self.bench.is_free(process))
    }

    /// A message in flight of which `possible` holds, sought from a place that the habits choose; slow mail only where there is no other.
    fn message(&mut self, possible: fn(&Bench, &Message) -> bool) -> Option<u32> {
        let flight = self.bench.flight;
        if flight == 0 {
            return None;
        }
        let first = match self.habits.mail {
            Mail::Any => self.random.below(flight),
            Mail::Oldest => 0,
            Mail::Newest => flight - 1,
        };
        let slow = if self.random.mille(CAUGHT_UP_MILLE) { 0 } else { self.habits.slow };
        let bench = &self.bench;
        let find = |slow: u8| {
            let mut in_turn = bench.messages[first..flight].iter().chain(&bench.messages[..first]);
            in_turn.find(|message| slow >> (message.recipient - 1) & 1 == 0 && possible(bench, message))
        };
        find(slow).or_else(|| find(0)).map(|message| message.number)
    }
}

impl Bench {
    fn is_free(&self, process: u8) -> bool {
        let replica = self.replica(process);
        replica.is_up && replica.phase == Phase::Idle
    }

    fn can_be_delivered(&self, message: &Message) -> bool {
        self.replica(message.recipient).is_up
    }

    /// A response may decide, and then there is a broadcast.
    fn can_be_delivered_without_room(&self, message: &Message) -> bool {
        self.can_be_delivered(message) && !matches!(message.body, Body::Response { .. })
    }

    fn can_be_lost(&self, message: &Message) -> bool {
        !self.replica(message.sender).is_up || !self.replica(message.recipient).is_up
    }
}
