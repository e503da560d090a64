// The writer, `compose` and `show` in plain Rust: the same lent slices in, the same replies out, written as one would without a prover. bench/schedules.sh counts its instructions beside ours.
#![no_std]

const LONGEST: usize = 65536;
const HEAD: usize = 7;
const LONGEST_TEXT: usize = 393216;

#[derive(Clone, Copy)]
pub enum Event {
    Read(u8, u8),
    Write(u8, u8, i64),
    Deliver(u32),
    Crash(u8),
    Lose(u32),
}

#[derive(Clone, Copy)]
pub enum Fault {
    Unknown,
    Missing,
    TooMany,
    NotANumber,
    TooLarge,
    NoBench,
    Processes,
    Registers,
    TooLong,
}

pub enum Composed {
    File(usize),
    Wrong(usize, Fault),
    Short,
}

struct Out<'a> {
    bytes: &'a mut [u8],
    at: usize,
}

impl Out<'_> {
    fn put(&mut self, bytes: &[u8]) {
        self.bytes[self.at..self.at + bytes.len()].copy_from_slice(bytes);
        self.at += bytes.len();
    }

    // A blank and a number.
    fn decimal(&mut self, n: u64, negative: bool) {
        let mut digits = [0u8; 22];
        let mut first = digits.len();
        let mut rest = n;
        loop {
            first -= 1;
            digits[first] = b'0' + (rest % 10) as u8;
            rest /= 10;
            if rest == 0 {
                break;
            }
        }
        if negative {
            first -= 1;
            digits[first] = b'-';
        }
        first -= 1;
        digits[first] = b' ';
        self.put(&digits[first..]);
    }

    fn number(&mut self, n: u64) {
        self.decimal(n, false);
    }
}

// ---- the writer

fn size_of(event: &Event) -> usize {
    match event {
        Event::Read(..) => 3,
        Event::Write(..) => 11,
        Event::Deliver(_) | Event::Lose(_) => 5,
        Event::Crash(_) => 2,
    }
}

fn put_event(out: &mut Out, event: &Event) {
    match *event {
        Event::Read(p, x) => out.put(&[1, p, x]),
        Event::Write(p, x, v) => {
            out.put(&[2, p, x]);
            out.put(&v.to_be_bytes());
        }
        Event::Deliver(k) => {
            out.put(&[3]);
            out.put(&k.to_be_bytes());
        }
        Event::Crash(p) => out.put(&[4, p]),
        Event::Lose(k) => {
            out.put(&[5]);
            out.put(&k.to_be_bytes());
        }
    }
}

fn put_head(out: &mut Out, n: u8, m: u8, size: usize) {
    out.put(&(size as u32 - 4).to_be_bytes());
    out.put(&[1, n, m]);
}

pub fn write(out: &mut [u8], events: &[Event], n: u8, m: u8) -> Result<usize, u8> {
    let size = HEAD + events.iter().map(size_of).sum::<usize>();
    if !(1..=7).contains(&n) {
        return Err(4);
    }
    if !(1..=16).contains(&m) {
        return Err(5);
    }
    if size > LONGEST {
        return Err(1);
    }
    if size > out.len() {
        return Err(19);
    }
    let mut out = Out { bytes: out, at: 0 };
    put_head(&mut out, n, m, size);
    for event in events {
        put_event(&mut out, event);
    }
    Ok(size)
}

// ---- text to file

enum Line {
    Blank,
    Bench(u8, u8),
    Does(Event),
}

fn digits(word: &[u8], most: u64) -> Result<u64, Fault> {
    if word.is_empty() || (word.len() > 1 && word[0] == b'0') || !word.iter().all(u8::is_ascii_digit) {
        return Err(Fault::NotANumber);
    }
    let mut n = 0u64;
    for b in word {
        n = n.saturating_mul(10).saturating_add((b - b'0') as u64);
    }
    if n > most { Err(Fault::TooLarge) } else { Ok(n) }
}

fn number(word: Option<&[u8]>, most: u64) -> Result<u64, Fault> {
    digits(word.ok_or(Fault::Missing)?, most)
}

fn byte(word: Option<&[u8]>) -> Result<u8, Fault> {
    Ok(number(word, u8::MAX as u64)? as u8)
}

fn value(word: Option<&[u8]>) -> Result<i64, Fault> {
    match word.ok_or(Fault::Missing)? {
        [b'-', rest @ ..] => match digits(rest, 1 << 63)? {
            0 => Err(Fault::NotANumber),
            n => Ok((n as i64).wrapping_neg()),
        },
        word => Ok(digits(word, i64::MAX as u64)? as i64),
    }
}

fn line_of(line: &[u8]) -> Result<Line, Fault> {
    let line = line.split(|b| *b == b'#').next().unwrap_or(line);
    let mut words = line.split(|b| *b == b' ' || *b == b'\t').filter(|w| !w.is_empty());
    let Some(head) = words.next() else { return Ok(Line::Blank) };
    let says = match head {
        b"bench" => Line::Bench(byte(words.next())?, byte(words.next())?),
        b"read" => Line::Does(Event::Read(byte(words.next())?, byte(words.next())?)),
        b"write" => Line::Does(Event::Write(byte(words.next())?, byte(words.next())?, value(words.next())?)),
        b"deliver" => Line::Does(Event::Deliver(number(words.next(), u32::MAX as u64)? as u32)),
        b"crash" => Line::Does(Event::Crash(byte(words.next())?)),
        b"lose" => Line::Does(Event::Lose(number(words.next(), u32::MAX as u64)? as u32)),
        _ => return Err(Fault::Unknown),
    };
    if words.next().is_some() { Err(Fault::TooMany) } else { Ok(says) }
}

// One pass: the events go to a buffer of its own first, since nothing is written where a line is wrong.
fn file_of(text: &[u8], file: &mut Out) -> Result<(), (usize, Fault)> {
    let mut bench = None;
    let mut last = 0;
    for line in text.split_inclusive(|b| *b == b'\n') {
        last += 1;
        let line = line.strip_suffix(b"\n").unwrap_or(line);
        match (line_of(line).map_err(|fault| (last, fault))?, bench) {
            (Line::Blank, _) => {}
            (Line::Bench(n, _), None) if !(1..=7).contains(&n) => return Err((last, Fault::Processes)),
            (Line::Bench(_, m), None) if !(1..=16).contains(&m) => return Err((last, Fault::Registers)),
            (Line::Bench(n, m), None) => {
                bench = Some((n, m));
                file.at = HEAD;
            }
            (Line::Does(event), Some(_)) => {
                if file.at + size_of(&event) > LONGEST {
                    return Err((last, Fault::TooLong));
                }
                put_event(file, &event);
            }
            _ => return Err((last, Fault::NoBench)),
        }
    }
    let (n, m) = bench.ok_or((last + 1, Fault::NoBench))?;
    let size = file.at;
    file.at = 0;
    put_head(file, n, m, size);
    file.at = size;
    Ok(())
}

pub fn compose(text: &[u8], out: &mut [u8]) -> Composed {
    let mut bytes = [0u8; LONGEST];
    let mut file = Out { bytes: &mut bytes, at: 0 };
    if let Err((line, fault)) = file_of(text, &mut file) {
        return Composed::Wrong(line, fault);
    }
    let size = file.at;
    if size > out.len() {
        return Composed::Short;
    }
    out[..size].copy_from_slice(&bytes[..size]);
    Composed::File(size)
}

// ---- file to text

fn word_at(bytes: &[u8], at: usize) -> Option<u32> {
    Some(u32::from_be_bytes(bytes.get(at..at + 4)?.try_into().ok()?))
}

fn value_at(bytes: &[u8], at: usize) -> Option<i64> {
    Some(i64::from_be_bytes(bytes.get(at..at + 8)?.try_into().ok()?))
}

fn file_refusal(bytes: &[u8]) -> u8 {
    if bytes.len() < HEAD || bytes.len() > LONGEST {
        return 1;
    }
    if word_at(bytes, 0) != Some(bytes.len() as u32 - 4) {
        return 2;
    }
    if bytes[4] != 1 {
        return 3;
    }
    if !(1..=7).contains(&bytes[5]) {
        return 4;
    }
    if !(1..=16).contains(&bytes[6]) {
        return 5;
    }
    0
}

fn event_in(bytes: &[u8], at: usize) -> Option<Event> {
    Some(match bytes[at] {
        1 => Event::Read(*bytes.get(at + 1)?, *bytes.get(at + 2)?),
        2 => Event::Write(*bytes.get(at + 1)?, *bytes.get(at + 2)?, value_at(bytes, at + 3)?),
        3 => Event::Deliver(word_at(bytes, at + 1)?),
        4 => Event::Crash(*bytes.get(at + 1)?),
        _ => Event::Lose(word_at(bytes, at + 1)?),
    })
}

fn put_line(out: &mut Out, event: &Event) {
    match *event {
        Event::Read(p, x) => {
            out.put(b"read");
            out.number(p as u64);
            out.number(x as u64);
        }
        Event::Write(p, x, v) => {
            out.put(b"write");
            out.number(p as u64);
            out.number(x as u64);
            out.decimal(v.unsigned_abs(), v < 0);
        }
        Event::Deliver(k) => {
            out.put(b"deliver");
            out.number(k as u64);
        }
        Event::Crash(p) => {
            out.put(b"crash");
            out.number(p as u64);
        }
        Event::Lose(k) => {
            out.put(b"lose");
            out.number(k as u64);
        }
    }
    out.put(b"\n");
}

fn put_refusal(out: &mut Out, number: u8) {
    out.put(b"refused");
    out.number(number as u64);
    out.put(b"\n");
}

pub fn show(bytes: &[u8], out: &mut [u8]) -> Result<usize, u8> {
    if out.len() < LONGEST_TEXT {
        return Err(19);
    }
    let mut out = Out { bytes: out, at: 0 };
    let refusal = file_refusal(bytes);
    if refusal != 0 {
        put_refusal(&mut out, refusal);
        return Ok(out.at);
    }
    out.put(b"bench");
    out.number(bytes[5] as u64);
    out.number(bytes[6] as u64);
    out.put(b"\n");
    let mut at = HEAD;
    while at < bytes.len() {
        if !(1..=5).contains(&bytes[at]) {
            put_refusal(&mut out, 6);
            break;
        }
        let Some(event) = event_in(bytes, at) else {
            put_refusal(&mut out, 7);
            break;
        };
        put_line(&mut out, &event);
        at += size_of(&event);
    }
    Ok(out.at)
}

// ---- the program: `c` composes standard input, `s` shows it, `w` writes its events again, as many times as the second argument's digit says

unsafe extern "C" {
    fn read(file: i32, bytes: *mut u8, count: usize) -> isize;
    #[link_name = "write"]
    fn put(file: i32, bytes: *const u8, count: usize) -> isize;
    fn abort() -> !;
}

// What stands for Rust's panics, which nothing here comes to.
#[unsafe(no_mangle)]
pub extern "C" fn stop() -> ! {
    unsafe { abort() }
}

const MOST_EVENTS: usize = 32768;

fn read_all(bytes: &mut [u8]) -> usize {
    let mut at = 0;
    loop {
        let rest = &mut bytes[at..];
        let got = unsafe { read(0, rest.as_mut_ptr(), rest.len()) };
        if got <= 0 {
            return at;
        }
        at += got as usize;
    }
}

fn again(bytes: &[u8], out: &mut [u8], count: u8) -> usize {
    let mut events = [Event::Deliver(0); MOST_EVENTS];
    let (mut used, mut at, mut size) = (0, HEAD, 0);
    while let Some(event) = bytes.get(at).and_then(|_| event_in(bytes, at)) {
        events[used] = event;
        used += 1;
        at += size_of(&event);
    }
    for _ in 0..count {
        size = write(out, &events[..used], bytes[5], bytes[6]).unwrap_or(0);
    }
    size
}

#[unsafe(no_mangle)]
pub extern "C" fn main(_count: i32, words: *const *const u8) -> i32 {
    let (mut bytes, mut out) = ([0u8; LONGEST_TEXT + 1], [0u8; LONGEST_TEXT]);
    let (kind, count) = unsafe { (**words.add(1), **words.add(2) - b'0') };
    let used = read_all(&mut bytes);
    let bytes = &bytes[..used];
    let size = match kind {
        b'c' => match compose(bytes, &mut out[..LONGEST]) {
            Composed::File(size) => size,
            Composed::Wrong(line, fault) => {
                out[0] = line as u8;
                out[1] = fault as u8;
                2
            }
            Composed::Short => 0,
        },
        b's' => show(bytes, &mut out).unwrap_or(0),
        _ => again(bytes, &mut out[..LONGEST], count),
    };
    unsafe { put(1, out.as_ptr(), size) };
    0
}
