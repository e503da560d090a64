// The harness: the proved replay beside the same replay in ordinary Rust. What it can do is in USAGE; README.md says how it is built and run.
mod bench;
mod comparing;
mod damage;
mod making;
mod order;
mod ours;
mod random;
mod replay;
mod schedule;
mod timing;
mod well_formed;
mod words;

use ours::{Entry, Ours};
use replay::Step;
use std::path::Path;
use std::process::ExitCode;
use std::{env, fs};

const USAGE: &str = "usage:
  harness equal SEED COUNT             compare ours with the Rust replay on the random schedules of COUNT seeds from SEED on
  harness time SEED COUNT [FILE..]     the time of ours over that of the Rust replay, on those schedules together and on each FILE
  harness write SEED FOLDER COUNT      write those schedules, SEED.schedule, and the texts of the Rust replay, SEED.expected
  harness replay FILE                  the text of the Rust replay
  harness vectors FILE.schedule..      compare the Rust replay, plain and tested, and ours with FILE.expected
  harness again SIDE TIMES FILE..      replay each FILE so many times and print nothing, for a counter of instructions;
                                       SIDE is ours, rust, ours-tested or rust-tested
exit status: 0 all equal, or done; 1 not; 2 wrong words, or built without our library where that is needed";

fn main() -> ExitCode {
    let words: Vec<String> = env::args().skip(1).collect();
    let words: Vec<&str> = words.iter().map(String::as_str).collect();
    match obey(&words) {
        Ok(true) => ExitCode::SUCCESS,
        Ok(false) => ExitCode::from(1),
        Err(complaint) => {
            eprintln!("{complaint}");
            ExitCode::from(2)
        }
    }
}

/// Whether all was equal, or what is wrong with the words.
fn obey(words: &[&str]) -> Result<bool, String> {
    match words {
        ["equal", seed, count] => Ok(comparing::compare(&mut library()?, number(seed)?, number(count)?)),
        ["time", seed, count, files @ ..] => time(number(seed)?, number(count)?, files),
        ["write", seed, folder, count] => write(number(seed)?, Path::new(folder), number(count)?),
        ["replay", file] => tell(file),
        ["vectors", files @ ..] if !files.is_empty() => vectors(files),
        ["again", side, times, files @ ..] if !files.is_empty() => again(side, number(times)? as usize, files),
        _ => Err(USAGE.to_string()),
    }
}

fn number(word: &str) -> Result<u64, String> {
    word.parse().map_err(|_| format!("{word} is not a number\n{USAGE}"))
}

fn library() -> Result<Ours, String> {
    Ours::new().ok_or_else(|| "this harness was built without our library".to_string())
}

fn read(file: &str) -> Result<Vec<u8>, String> {
    fs::read(file).map_err(|error| format!("{file}: {error}"))
}

fn time(seed: u64, count: u64, files: &[&str]) -> Result<bool, String> {
    let mut loads = vec![timing::random_load(seed, count)];
    for file in files {
        let name = Path::new(file).file_stem().map_or(file.to_string(), |stem| stem.to_string_lossy().to_string());
        loads.push(timing::Load { name, files: vec![read(file)?] });
    }
    timing::tell_times(&mut library()?, &loads);
    Ok(true)
}

fn write(seed: u64, folder: &Path, count: u64) -> Result<bool, String> {
    let mut text = String::new();
    for seed in seed..seed + count {
        let file = making::make(seed);
        replay::replay(&file, Step::Plain, &mut text);
        let path = folder.join(seed.to_string());
        fs::write(path.with_extension("schedule"), &file)
            .and_then(|()| fs::write(path.with_extension("expected"), &text))
            .map_err(|error| format!("{}: {error}", path.display()))?;
    }
    Ok(true)
}

fn tell(file: &str) -> Result<bool, String> {
    let mut text = String::new();
    replay::replay(&read(file)?, Step::Plain, &mut text);
    print!("{text}");
    Ok(true)
}

fn vectors(files: &[&str]) -> Result<bool, String> {
    let mut ours = Ours::new();
    let mut equal = 0;
    for file in files {
        let expected = read(&Path::new(file).with_extension("expected").to_string_lossy())?;
        if is_expected(&mut ours, &read(file)?, &expected) {
            equal += 1;
        } else {
            println!("{file}: not what the file beside it has");
        }
    }
    println!("vectors: {equal} equal, {} different", files.len() - equal);
    Ok(equal == files.len())
}

fn is_expected(ours: &mut Option<Ours>, file: &[u8], expected: &[u8]) -> bool {
    let mut text = String::new();
    let rust = [Step::Plain, Step::Tested].into_iter().all(|step| {
        replay::replay(file, step, &mut text);
        text.as_bytes() == expected
    });
    rust && match ours {
        None => true,
        Some(ours) => [Entry::Replay, Entry::Tested].into_iter().all(|entry| !Ours::has(entry) || ours.checked_replay(entry, file) == Some(expected)),
    }
}

fn again(side: &str, times: usize, files: &[&str]) -> Result<bool, String> {
    let files: Vec<Vec<u8>> = files.iter().map(|file| read(file)).collect::<Result<_, _>>()?;
    match side {
        "ours" => again_ours(Entry::Replay, times, &files),
        "ours-tested" => again_ours(Entry::Tested, times, &files),
        "rust" => Ok(again_rust(Step::Plain, times, &files)),
        "rust-tested" => Ok(again_rust(Step::Tested, times, &files)),
        _ => Err(USAGE.to_string()),
    }
}

fn again_ours(entry: Entry, times: usize, files: &[Vec<u8>]) -> Result<bool, String> {
    let mut ours = library()?;
    if !Ours::has(entry) {
        return Err("the library has no such function".to_string());
    }
    Ok(timing::go_through(&mut |file| ours.replay(entry, file).len(), files, times) > 0)
}

fn again_rust(step: Step, times: usize, files: &[Vec<u8>]) -> bool {
    let mut text = String::new();
    timing::go_through(&mut |file| timing::length_of_text(file, step, &mut text), files, times) > 0
}
