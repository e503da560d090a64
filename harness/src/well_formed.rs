// The test of well-formedness, clause by clause as document 01 lists them: what the public step does before every event.
use crate::bench::{Bench, FRESH_REPLICA};
use crate::words::*;

impl Bench {
    pub fn is_well_formed(&self) -> bool {
        self.counts_are_well_formed() && self.messages_are_well_formed() && self.rows_are_well_formed() && self.replicas_are_well_formed()
    }

    fn counts_are_well_formed(&self) -> bool {
        (1..=MOST_PROCESSES).contains(&usize::from(self.processes))
            && (1..=MOST_REGISTERS).contains(&usize::from(self.registers))
            && self.accepted <= MOST_EVENTS
            && self.flight <= MOST_MESSAGES
            && self.used <= MOST_ROWS
            && self.sent <= MOST_PROCESSES as u32 * self.accepted
            && self.sent == self.delivered + self.lost + self.flight as u32
    }

    fn messages_are_well_formed(&self) -> bool {
        let (in_flight, unused) = self.messages.split_at(self.flight);
        let mut last = 0;
        for message in in_flight {
            if message.number <= last || !self.is_message(message) {
                return false;
            }
            last = message.number;
        }
        unused.iter().all(|message| *message == EMPTY_MESSAGE)
    }

    fn is_message(&self, message: &Message) -> bool {
        message.number <= self.sent
            && self.is_process(message.sender)
            && self.is_process(message.recipient)
            && message.time <= self.accepted
            && message.request <= 2 * self.accepted
            && match message.body {
                Body::Query { register } => self.is_register(register),
                Body::Response { pair } => self.is_pair(&pair),
                Body::Update { register, pair } => self.is_register(register) && self.is_pair(&pair),
                Body::Ack => true,
            }
    }

    /// Each row by itself; and each process has no pending row but the one that its replica points to.
    fn rows_are_well_formed(&self) -> bool {
        let (used, unused) = self.rows.split_at(self.used);
        used.iter().enumerate().all(|(place, row)| self.is_row(row) && (!row.is_pending() || self.replica(row.process).works_at(place)))
            && unused.iter().all(|row| *row == Row::default())
    }

    fn is_row(&self, row: &Row) -> bool {
        self.is_process(row.process)
            && self.is_register(row.register)
            && row.invoked <= self.accepted
            && row.answered <= self.accepted
            && self.is_pair(&row.pair)
            && (row.kind == Kind::Read || row.pair.stamp.time != 0)
    }

    fn replicas_are_well_formed(&self) -> bool {
        let (present, behind) = self.replicas.split_at(usize::from(self.processes));
        (1..).zip(present).all(|(process, replica)| self.is_replica(process, replica)) && behind.iter().all(|replica| *replica == FRESH_REPLICA)
    }

    fn is_replica(&self, process: u8, replica: &Replica) -> bool {
        let (held, behind) = replica.pairs.split_at(usize::from(self.registers));
        replica.clock <= self.accepted
            && replica.request <= 2 * self.accepted
            && replica.repliers.0 >> self.processes == 0
            && replica.repliers.count() < self.majority()
            && held.iter().all(|pair| self.is_pair(pair))
            && behind.iter().all(|pair| *pair == Pair::default())
            && match replica.phase {
                Phase::Idle => replica.repliers.count() == 0,
                Phase::Querying { row, greatest } => self.is_pair(&greatest) && self.is_pending(row, process) && self.rows[row].kind == Kind::Read,
                Phase::Updating { row, sent } => self.is_pair(&sent) && self.is_pending(row, process),
            }
    }

    fn is_pending(&self, row: usize, process: u8) -> bool {
        row < self.used && self.rows[row].process == process && self.rows[row].is_pending()
    }

    fn is_process(&self, process: u8) -> bool {
        1 <= process && process <= self.processes
    }

    fn is_register(&self, register: u8) -> bool {
        1 <= register && register <= self.registers
    }

    fn is_pair(&self, pair: &Pair) -> bool {
        if pair.stamp.time == 0 {
            return *pair == Pair::default();
        }
        pair.stamp.time <= self.accepted && self.is_process(pair.stamp.process)
    }
}

impl Replica {
    fn works_at(&self, place: usize) -> bool {
        match self.phase {
            Phase::Idle => false,
            Phase::Querying { row, .. } | Phase::Updating { row, .. } => row == place,
        }
    }
}

// rustc --edition 2021 --test harness/src/main.rs -o target/harness/tests && target/harness/tests
#[cfg(test)]
mod tests {
    use super::*;
    use crate::replay::{run, Step};
    use crate::schedule::{append, begin, SHORTEST_FILE};

    /// Process 1 has written 7 to register 1; 3 queries register 1, with one response counted; 4 has crashed with a write begun. N = 4, M = 2.
    fn bench() -> Bench {
        let mut file = begin(4, 2);
        let mut events = vec![Event::Write { process: 1, register: 1, value: 7 }];
        events.extend((1..=8).map(|message| Event::Deliver { message }));
        events.extend([Event::Read { process: 3, register: 1 }, Event::Deliver { message: 9 }, Event::Deliver { message: 13 }]);
        events.extend([Event::Write { process: 4, register: 2, value: -1 }, Event::Crash { process: 4 }]);
        events.into_iter().for_each(|event| append(&mut file, event));
        let mut bench = Bench::start(4, 2);
        assert_eq!(run(&mut bench, &file[SHORTEST_FILE..], Step::Tested), 0);
        bench
    }

    #[test]
    fn a_reached_state_is_well_formed() {
        assert!(bench().is_well_formed());
    }

    #[test]
    fn each_clause_is_tested() {
        let spoils: &[fn(&mut Bench)] = &[
            |b| b.processes = 8,
            |b| b.registers = 0,
            |b| b.accepted = 12_001,
            |b| b.sent += 1,
            |b| b.lost += 1,
            |b| b.replicas[0].clock = b.accepted + 1,
            |b| b.replicas[0].request = 2 * b.accepted + 1,
            |b| b.replicas[0].pairs[0].stamp.time = b.accepted + 1,
            |b| b.replicas[0].pairs[0].stamp.process = 5,
            |b| b.replicas[0].pairs[0].stamp.process = 0,
            |b| b.replicas[0].pairs[1].value = 1,
            |b| b.replicas[0].pairs[2] = b.replicas[0].pairs[0],
            |b| b.replicas[0].repliers = Repliers(1),
            |b| b.replicas[2].repliers = Repliers(0b111),
            |b| b.replicas[2].repliers = Repliers(0b1_0000),
            |b| b.replicas[2].phase = Phase::Idle,
            |b| b.replicas[2].phase = Phase::Querying { row: 0, greatest: Pair::default() },
            |b| b.replicas[3].phase = Phase::Querying { row: 2, greatest: Pair::default() },
            |b| b.replicas[4].clock = 1,
            |b| b.replicas[5].is_up = false,
            |b| b.messages[0].number = b.messages[1].number,
            |b| b.messages[b.flight - 1].number = b.sent + 1,
            |b| b.messages[0].number = 0,
            |b| b.messages[0].sender = 5,
            |b| b.messages[0].recipient = 0,
            |b| b.messages[0].time = b.accepted + 1,
            |b| b.messages[0].request = 2 * b.accepted + 1,
            |b| b.messages[0].body = Body::Query { register: 3 },
            |b| b.messages[0].body = Body::Response { pair: Pair { value: 1, ..Pair::default() } },
            |b| b.messages[511].time = 1,
            |b| b.rows[0].process = 5,
            |b| b.rows[0].register = 0,
            |b| b.rows[0].invoked = b.accepted + 1,
            |b| b.rows[0].answered = b.accepted + 1,
            |b| b.rows[0].answered = 0,
            |b| b.rows[0].pair = Pair::default(),
            |b| b.rows[1].answered = 1,
            |b| b.rows[1].kind = Kind::Write,
            |b| b.rows[1023].kind = Kind::Write,
        ];
        for (number, spoil) in spoils.iter().enumerate() {
            let mut bench = bench();
            spoil(&mut bench);
            assert!(!bench.is_well_formed(), "spoilt by number {number}, and not seen");
        }
    }
}
