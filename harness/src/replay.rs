// The replay: the bytes of a schedule in, its text out. Document 01's section Replay output.
use crate::bench::Bench;
use crate::order::order;
use crate::schedule;
use crate::words::*;
use std::fmt::{Result as Written, Write};

/// Which of the two steps takes an event: the one that trusts the state, or the one that tests it before every event.
#[derive(Clone, Copy, PartialEq)]
pub enum Step {
    Plain,
    Tested,
}

/// The text of a replay, in place of what `text` held.
pub fn replay(bytes: &[u8], step: Step, text: &mut String) {
    text.clear();
    let written = match schedule::open(bytes) {
        Err(refusal) => writeln!(text, "refused {refusal}"),
        Ok((processes, registers, events)) => {
            let mut bench = Bench::start(processes, registers);
            let refusal = run(&mut bench, events, step);
            tell(&bench, refusal, text)
        }
    };
    written.expect("a string can be written to");
}

/// Takes the events up to the end or the first refusal, and gives its number, 0 for none.
pub fn run(bench: &mut Bench, mut events: &[u8], step: Step) -> Refusal {
    while !events.is_empty() {
        let taken = schedule::first(events).and_then(|(event, rest)| {
            match step {
                Step::Plain => bench.advance(event)?,
                Step::Tested => bench.step(event)?,
            }
            Ok(rest)
        });
        match taken {
            Ok(rest) => events = rest,
            Err(refusal) => return refusal,
        }
    }
    0
}

fn tell(bench: &Bench, refusal: Refusal, text: &mut String) -> Written {
    writeln!(text, "run {} {} {} {refusal}", bench.processes, bench.registers, bench.accepted)?;
    let rows = &bench.rows[..bench.used];
    for (number, row) in (1..).zip(rows) {
        tell_row(number, row, text)?;
    }
    text.push_str("order");
    for number in order(rows) {
        write!(text, " {number}")?;
    }
    text.push('\n');
    for process in 1..=bench.processes {
        let replica = bench.replica(process);
        writeln!(text, "proc {process} {} {}", replica.clock, if replica.is_up { "up" } else { "down" })?;
    }
    for process in 1..=bench.processes {
        tell_pairs(process, &bench.replica(process).pairs, text)?;
    }
    writeln!(text, "sent {} delivered {} lost {} flight {}", bench.sent, bench.delivered, bench.lost, bench.flight)
}

fn tell_row(number: usize, row: &Row, text: &mut String) -> Written {
    let Row { process, kind, register, invoked, answered, pair } = row;
    let kind = if *kind == Kind::Read { 'r' } else { 'w' };
    write!(text, "op {number} {process} {kind} {register} {invoked} ")?;
    if !row.is_pending() {
        write!(text, "{answered} ")?;
    } else if row.kind == Kind::Write {
        text.push_str("- ");
    } else {
        return writeln!(text, "- - - -");
    }
    writeln!(text, "{} {} {}", pair.stamp.time, pair.stamp.process, pair.value)
}

fn tell_pairs(process: u8, pairs: &[Pair], text: &mut String) -> Written {
    for (register, Pair { stamp, value }) in (1..).zip(pairs) {
        if stamp.time > 0 {
            writeln!(text, "reg {process} {register} {} {} {value}", stamp.time, stamp.process)?;
        }
    }
    Ok(())
}
