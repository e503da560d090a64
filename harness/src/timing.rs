// The time that ours takes over the time of the Rust replay, and each replayed alone for a counter of instructions.
use crate::bench::Bench;
use crate::making::make;
use crate::ours::{Entry, Ours};
use crate::replay::{replay, run, Step};
use crate::schedule;
use std::sync::atomic::{AtomicUsize, Ordering};

const ROUNDS: usize = 5;
const LEAST_NANOSECONDS: u64 = 100_000_000;
const NANOSECONDS: u64 = 1_000_000_000;

/// Files that are timed together.
pub struct Load {
    pub name: String,
    pub files: Vec<Vec<u8>>,
}

pub fn random_load(seed: u64, count: u64) -> Load {
    Load { name: format!("seeds {seed} to {}", seed + count - 1), files: (seed..seed + count).map(make).collect() }
}

/// Prints a line for each load. The columns in brackets are nanoseconds of the Rust replay without its text.
pub fn tell_times(ours: &mut Ours, loads: &[Load]) {
    println!("processor time, the best of {ROUNDS} rounds; ns per accepted event");
    for (title, entry, step) in [("replay", Entry::Replay, Step::Plain), ("tested step", Entry::Tested, Step::Tested)] {
        if !Ours::has(entry) {
            println!("{title}: the library has no such function");
            continue;
        }
        println!("{:<28} {:>9} {:>10} {:>10} {:>12} {:>10}", title, "events", "ours", "rust", "(no text)", "ours/rust");
        for load in loads {
            tell_time(ours, load, entry, step);
        }
    }
}

fn tell_time(ours: &mut Ours, load: &Load, entry: Entry, step: Step) {
    let mut text = String::new();
    let [ours, rust, silent] = best(
        &mut [&mut |file| ours.replay(entry, file).len(), &mut |file| length_of_text(file, step, &mut text), &mut |file| accepted(file, step) as usize],
        &load.files,
    );
    let events = load.files.iter().map(|file| u64::from(accepted(file, Step::Plain))).sum::<u64>();
    let each = |time: f64| time / events.max(1) as f64;
    println!("{:<28} {:>9} {:>10.1} {:>10.1} {:>12} {:>10.2}", load.name, events, each(ours), each(rust), format!("({:.1})", each(silent)), ours / rust);
}

pub fn length_of_text(file: &[u8], step: Step, text: &mut String) -> usize {
    replay(file, step, text);
    text.len()
}

/// The number of accepted events: the run of a file without its text.
fn accepted(file: &[u8], step: Step) -> u32 {
    match schedule::open(file) {
        Err(_) => 0,
        Ok((processes, registers, events)) => {
            let mut bench = Bench::start(processes, registers);
            run(&mut bench, events, step);
            bench.accepted
        }
    }
}

/// What the timed calls gave, added up, so that no compiler leaves the work out.
static GIVEN: AtomicUsize = AtomicUsize::new(0);

/// One way to replay a file.
type Way<'a> = &'a mut dyn FnMut(&[u8]) -> usize;

/// Nanoseconds that each way takes for all files once: the ways take turns, and of each the best round counts.
fn best<const WAYS: usize>(ways: &mut [Way; WAYS], files: &[Vec<u8>]) -> [f64; WAYS] {
    let mut times = [1; WAYS];
    for (way, times) in ways.iter_mut().zip(&mut times) {
        *times = (LEAST_NANOSECONDS / spent(way, files, 1).max(1) + 1) as usize;
    }
    let mut best = [f64::INFINITY; WAYS];
    for _ in 0..ROUNDS {
        for (place, way) in ways.iter_mut().enumerate() {
            let time = spent(way, files, times[place]) as f64 / times[place] as f64;
            best[place] = best[place].min(time);
        }
    }
    best
}

fn spent(way: Way, files: &[Vec<u8>], times: usize) -> u64 {
    let before = processor_time();
    GIVEN.fetch_add(go_through(way, files, times), Ordering::Relaxed);
    processor_time() - before
}

pub fn go_through(way: Way, files: &[Vec<u8>], times: usize) -> usize {
    let mut given = 0;
    for _ in 0..times {
        given += files.iter().map(|file| way(file)).sum::<usize>();
    }
    given
}

#[repr(C)]
struct Timespec {
    seconds: i64,
    nanoseconds: i64,
}

const CLOCK_PROCESS_CPUTIME_ID: i32 = 2;

extern "C" {
    fn clock_gettime(clock: i32, time: *mut Timespec) -> i32;
}

/// Nanoseconds of processor time that this process has taken: other work on the machine does not count. Of Linux on 64 bits.
fn processor_time() -> u64 {
    let mut time = Timespec { seconds: 0, nanoseconds: 0 };
    let status = unsafe { clock_gettime(CLOCK_PROCESS_CPUTIME_ID, &mut time) };
    assert_eq!(status, 0, "the processor time cannot be read");
    time.seconds as u64 * NANOSECONDS + time.nanoseconds as u64
}
