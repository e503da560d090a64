// The bench: 1 to 7 replicas, the table of messages and the table of rows, all changed in place. Written from document 01's sections State and Events.
// Each event has one function: it checks, in document 01's order, and where it accepts it changes the bench.
use crate::words::*;

pub struct Bench {
    pub processes: u8,
    pub registers: u8,
    pub accepted: u32,
    pub sent: u32,
    pub delivered: u32,
    pub lost: u32,
    pub flight: usize,
    pub used: usize,
    pub replicas: [Replica; MOST_PROCESSES],
    pub messages: [Message; MOST_MESSAGES],
    pub rows: [Row; MOST_ROWS],
}

pub const FRESH_REPLICA: Replica = Replica {
    is_up: true,
    clock: 0,
    request: 0,
    repliers: Repliers(0),
    phase: Phase::Idle,
    pairs: [Pair { stamp: Stamp { time: 0, process: 0 }, value: 0 }; MOST_REGISTERS],
};

impl Bench {
    /// A fresh bench. The caller has checked that there are 1 to 7 processes and 1 to 16 registers.
    pub fn start(processes: u8, registers: u8) -> Bench {
        Bench {
            processes,
            registers,
            accepted: 0,
            sent: 0,
            delivered: 0,
            lost: 0,
            flight: 0,
            used: 0,
            replicas: [FRESH_REPLICA; MOST_PROCESSES],
            messages: [EMPTY_MESSAGE; MOST_MESSAGES],
            rows: [Row::default(); MOST_ROWS],
        }
    }

    /// One event, on a bench that is known to be well formed.
    pub fn advance(&mut self, event: Event) -> Result<(), Refusal> {
        if self.accepted == MOST_EVENTS {
            return Err(17);
        }
        match event {
            Event::Read { process, register } => self.read(process, register)?,
            Event::Write { process, register, value } => self.write(process, register, value)?,
            Event::Deliver { message } => self.deliver(message)?,
            Event::Crash { process } => self.crash(process)?,
            Event::Lose { message } => self.lose(message)?,
        }
        self.accepted += 1;
        Ok(())
    }

    /// One event, on any bench: the whole state is tested first.
    pub fn step(&mut self, event: Event) -> Result<(), Refusal> {
        if !self.is_well_formed() {
            return Err(18);
        }
        self.advance(event)
    }

    pub fn majority(&self) -> u32 {
        u32::from(self.processes) / 2 + 1
    }

    pub fn replica(&self, process: u8) -> &Replica {
        &self.replicas[usize::from(process) - 1]
    }

    fn replica_mut(&mut self, process: u8) -> &mut Replica {
        &mut self.replicas[usize::from(process) - 1]
    }

    fn check_process(&self, process: u8) -> Result<(), Refusal> {
        if process == 0 || process > self.processes {
            return Err(8);
        }
        Ok(())
    }

    fn check_invocation(&self, process: u8, register: u8) -> Result<(), Refusal> {
        self.check_process(process)?;
        if register == 0 || register > self.registers {
            return Err(9);
        }
        let replica = self.replica(process);
        if !replica.is_up {
            return Err(10);
        }
        if replica.phase != Phase::Idle {
            return Err(11);
        }
        if self.used == MOST_ROWS {
            return Err(16);
        }
        if self.flight + usize::from(self.processes) > MOST_MESSAGES {
            return Err(15);
        }
        Ok(())
    }

    fn read(&mut self, process: u8, register: u8) -> Result<(), Refusal> {
        self.check_invocation(process, register)?;
        let row = self.used;
        let replica = self.replica_mut(process);
        replica.clock += 1;
        replica.request += 1;
        replica.phase = Phase::Querying { row, greatest: Pair::default() };
        let invoked = replica.clock;
        self.add_row(Row { process, kind: Kind::Read, register, invoked, answered: 0, pair: Pair::default() });
        self.broadcast(process, Body::Query { register });
        Ok(())
    }

    fn write(&mut self, process: u8, register: u8, value: i64) -> Result<(), Refusal> {
        self.check_invocation(process, register)?;
        let row = self.used;
        let replica = self.replica_mut(process);
        replica.clock += 1;
        replica.request += 1;
        let invoked = replica.clock;
        let pair = Pair { stamp: Stamp { time: invoked, process }, value };
        replica.phase = Phase::Updating { row, sent: pair };
        self.add_row(Row { process, kind: Kind::Write, register, invoked, answered: 0, pair });
        self.broadcast(process, Body::Update { register, pair });
        Ok(())
    }

    fn deliver(&mut self, number: u32) -> Result<(), Refusal> {
        let place = self.find(number)?;
        let message = self.messages[place];
        if !self.replica(message.recipient).is_up {
            return Err(13);
        }
        match message.body {
            Body::Query { register } => self.take_query(place, &message, register),
            Body::Update { register, pair } => self.take_update(place, &message, register, pair),
            Body::Response { pair } => self.take_response(place, &message, pair)?,
            Body::Ack => self.take_ack(place, &message),
        }
        self.delivered += 1;
        Ok(())
    }

    fn crash(&mut self, process: u8) -> Result<(), Refusal> {
        self.check_process(process)?;
        let replica = self.replica_mut(process);
        if !replica.is_up {
            return Err(10);
        }
        replica.is_up = false;
        Ok(())
    }

    fn lose(&mut self, number: u32) -> Result<(), Refusal> {
        let place = self.find(number)?;
        let Message { sender, recipient, .. } = self.messages[place];
        if self.replica(sender).is_up && self.replica(recipient).is_up {
            return Err(14);
        }
        self.take_off(place);
        self.lost += 1;
        Ok(())
    }

    /// The place of a message in flight: numbers rise along the table.
    fn find(&self, number: u32) -> Result<usize, Refusal> {
        self.messages[..self.flight].binary_search_by_key(&number, |message| message.number).map_err(|_| 12)
    }

    fn take_off(&mut self, place: usize) {
        self.messages.copy_within(place + 1..self.flight, place);
        self.flight -= 1;
        self.messages[self.flight] = EMPTY_MESSAGE;
    }

    fn send(&mut self, sender: u8, recipient: u8, request: u32, body: Body) {
        self.sent += 1;
        let time = self.replica(sender).clock;
        self.messages[self.flight] = Message { number: self.sent, sender, recipient, time, request, body };
        self.flight += 1;
    }

    fn broadcast(&mut self, sender: u8, body: Body) {
        let request = self.replica(sender).request;
        for recipient in 1..=self.processes {
            self.send(sender, recipient, request, body);
        }
    }

    fn add_row(&mut self, row: Row) {
        self.rows[self.used] = row;
        self.used += 1;
    }

    fn take_query(&mut self, place: usize, message: &Message, register: u8) {
        let replica = self.replica_mut(message.recipient);
        receive(&mut replica.clock, message.time);
        let pair = replica.pairs[usize::from(register) - 1];
        self.take_off(place);
        self.send(message.recipient, message.sender, message.request, Body::Response { pair });
    }

    fn take_update(&mut self, place: usize, message: &Message, register: u8, pair: Pair) {
        let replica = self.replica_mut(message.recipient);
        receive(&mut replica.clock, message.time);
        let stored = &mut replica.pairs[usize::from(register) - 1];
        if pair.stamp > stored.stamp {
            *stored = pair;
        }
        self.take_off(place);
        self.send(message.recipient, message.sender, message.request, Body::Ack);
    }

    fn take_response(&mut self, place: usize, message: &Message, pair: Pair) -> Result<(), Refusal> {
        let replica = self.replica(message.recipient);
        match replica.phase {
            Phase::Querying { row, greatest } if replica.request == message.request => {
                let greatest = if pair.stamp > greatest.stamp { pair } else { greatest };
                self.count_response(place, message, row, greatest)
            }
            _ => {
                self.take_off(place);
                Ok(())
            }
        }
    }

    fn count_response(&mut self, place: usize, message: &Message, row: usize, greatest: Pair) -> Result<(), Refusal> {
        let repliers = self.replica(message.recipient).repliers.with(message.sender);
        let decides = repliers.count() == self.majority();
        if decides && self.flight - 1 + usize::from(self.processes) > MOST_MESSAGES {
            return Err(15);
        }
        let replica = self.replica_mut(message.recipient);
        receive(&mut replica.clock, message.time);
        replica.repliers = repliers;
        replica.phase = Phase::Querying { row, greatest };
        self.take_off(place);
        if decides {
            self.choose(message.recipient, row, greatest);
        }
        Ok(())
    }

    /// A majority has responded: the chosen pair is told to all.
    fn choose(&mut self, process: u8, row: usize, chosen: Pair) {
        let replica = self.replica_mut(process);
        replica.repliers = Repliers::default();
        replica.request += 1;
        replica.phase = Phase::Updating { row, sent: chosen };
        let register = self.rows[row].register;
        self.broadcast(process, Body::Update { register, pair: chosen });
    }

    fn take_ack(&mut self, place: usize, message: &Message) {
        self.take_off(place);
        let replica = self.replica(message.recipient);
        match replica.phase {
            Phase::Updating { row, sent } if replica.request == message.request => self.count_ack(message, row, sent),
            _ => {}
        }
    }

    fn count_ack(&mut self, message: &Message, row: usize, sent: Pair) {
        let majority = self.majority();
        let replica = self.replica_mut(message.recipient);
        receive(&mut replica.clock, message.time);
        replica.repliers = replica.repliers.with(message.sender);
        if replica.repliers.count() == majority {
            replica.repliers = Repliers::default();
            replica.request += 1;
            replica.phase = Phase::Idle;
            let answered = replica.clock;
            self.complete(row, answered, sent);
        }
    }

    /// A write's pair stands from its invocation and is the one it sent.
    fn complete(&mut self, row: usize, answered: u32, pair: Pair) {
        self.rows[row].answered = answered;
        self.rows[row].pair = pair;
    }
}

fn receive(clock: &mut u32, time: u32) {
    *clock = (*clock).max(time) + 1;
}
