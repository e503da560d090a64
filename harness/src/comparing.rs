// Ours and the Rust replay over many schedules, text against text; and what kinds of schedules those were.
use crate::making::make;
use crate::ours::{Entry, Ours};
use crate::replay::{replay, Step};
use std::collections::BTreeMap;

/// How many differing schedules are named; the rest is counted.
const NAMED: u64 = 10;

#[derive(Default)]
struct Met {
    equal: u64,
    different: u64,
    accepted: u64,
    longest: u64,
    bytes: u64,
    by_refusal: BTreeMap<String, u64>,
    by_processes: BTreeMap<String, u64>,
}

/// Compares the schedules of `count` seeds from `seed` on. True where there was one and all are equal.
pub fn compare(ours: &mut Ours, seed: u64, count: u64) -> bool {
    let mut met = Met::default();
    let mut text = String::new();
    for seed in seed..seed + count {
        let file = make(seed);
        replay(&file, Step::Plain, &mut text);
        met.count(&file, &text);
        if same(ours, Entry::Replay, &file, &text) && (!Ours::has(Entry::Tested) || same(ours, Entry::Tested, &file, &text)) {
            met.equal += 1;
        } else {
            met.different += 1;
            name(seed, met.different);
        }
    }
    met.tell();
    println!("seeds {seed} to {}: {} equal, {} different", seed + count - 1, met.equal, met.different);
    met.equal > 0 && met.different == 0
}

fn same(ours: &mut Ours, entry: Entry, file: &[u8], text: &str) -> bool {
    ours.checked_replay(entry, file) == Some(text.as_bytes())
}

fn name(seed: u64, different: u64) {
    if different <= NAMED {
        println!("seed {seed}: the texts differ (harness write {seed} FOLDER 1 writes the schedule and the text of the Rust replay)");
    }
}

impl Met {
    fn count(&mut self, file: &[u8], text: &str) {
        let words: Vec<&str> = text.lines().next().unwrap_or_default().split(' ').collect();
        let accepted = if words[0] == "run" { words[3].parse().unwrap_or(0) } else { 0 };
        let processes = if words[0] == "run" { words[1] } else { "none" };
        self.accepted += accepted;
        self.longest = self.longest.max(accepted);
        self.bytes += file.len() as u64;
        *self.by_refusal.entry(format!("{:>2}", words[words.len() - 1])).or_default() += 1;
        *self.by_processes.entry(processes.to_string()).or_default() += 1;
    }

    fn tell(&self) {
        println!("accepted events {}, most in one schedule {}; bytes {}", self.accepted, self.longest, self.bytes);
        println!("refusal: schedules  {}", told(&self.by_refusal));
        println!("processes: schedules  {}", told(&self.by_processes));
    }
}

fn told(counts: &BTreeMap<String, u64>) -> String {
    let parts: Vec<String> = counts.iter().map(|(name, count)| format!("{}: {count}", name.trim())).collect();
    parts.join(", ")
}
