// The schedule file, read and written: document 01's sections Schedule file and Numbers of refusal.
use crate::words::*;

pub const SHORTEST_FILE: usize = 7;
pub const LONGEST_FILE: usize = 65_536;
pub const LENGTH_FIELD: usize = 4;
pub const VERSION: u8 = 1;

/// Processes, registers and the bytes of the events, or the refusal of the file, 1 to 5.
pub fn open(bytes: &[u8]) -> Result<(u8, u8, &[u8]), Refusal> {
    if bytes.len() < SHORTEST_FILE || bytes.len() > LONGEST_FILE {
        return Err(1);
    }
    if number(&bytes[..LENGTH_FIELD]) as usize != bytes.len() - LENGTH_FIELD {
        return Err(2);
    }
    let (version, processes, registers) = (bytes[4], bytes[5], bytes[6]);
    if version != VERSION {
        return Err(3);
    }
    if processes == 0 || usize::from(processes) > MOST_PROCESSES {
        return Err(4);
    }
    if registers == 0 || usize::from(registers) > MOST_REGISTERS {
        return Err(5);
    }
    Ok((processes, registers, &bytes[SHORTEST_FILE..]))
}

/// The first event and the bytes behind it, or 6 or 7. There is at least one byte.
pub fn first(bytes: &[u8]) -> Result<(Event, &[u8]), Refusal> {
    let length = match bytes[0] {
        1 => 3,
        2 => 11,
        3 | 5 => 5,
        4 => 2,
        _ => return Err(6),
    };
    if bytes.len() < length {
        return Err(7);
    }
    let (event, rest) = bytes.split_at(length);
    let event = match event[0] {
        1 => Event::Read { process: event[1], register: event[2] },
        2 => Event::Write { process: event[1], register: event[2], value: value(&event[3..]) },
        3 => Event::Deliver { message: number(&event[1..]) },
        4 => Event::Crash { process: event[1] },
        _ => Event::Lose { message: number(&event[1..]) },
    };
    Ok((event, rest))
}

fn number(bytes: &[u8]) -> u32 {
    u32::from_be_bytes([bytes[0], bytes[1], bytes[2], bytes[3]])
}

fn value(bytes: &[u8]) -> i64 {
    i64::from_be_bytes([bytes[0], bytes[1], bytes[2], bytes[3], bytes[4], bytes[5], bytes[6], bytes[7]])
}

/// A file without events; `seal` gives it its length.
pub fn begin(processes: u8, registers: u8) -> Vec<u8> {
    vec![0, 0, 0, 0, VERSION, processes, registers]
}

pub fn append(file: &mut Vec<u8>, event: Event) {
    match event {
        Event::Read { process, register } => file.extend([1, process, register]),
        Event::Write { process, register, value } => {
            file.extend([2, process, register]);
            file.extend(value.to_be_bytes());
        }
        Event::Deliver { message } => {
            file.push(3);
            file.extend(message.to_be_bytes());
        }
        Event::Crash { process } => file.extend([4, process]),
        Event::Lose { message } => {
            file.push(5);
            file.extend(message.to_be_bytes());
        }
    }
}

/// Writes the length field, where there is room for one.
pub fn seal(file: &mut [u8]) {
    if file.len() >= LENGTH_FIELD {
        let length = (file.len() - LENGTH_FIELD) as u32;
        file[..LENGTH_FIELD].copy_from_slice(&length.to_be_bytes());
    }
}
