// Damage to a schedule file: each kind is one of those that readers of files meet, and half of them leave the length field right.
use crate::random::Random;
use crate::schedule::{seal, LONGEST_FILE};

pub fn damage(random: &mut Random, file: &mut Vec<u8>) {
    match random.below(9) {
        0 => file.truncate(random.below(file.len() + 1)),
        1 => {
            file.truncate(random.below(file.len() + 1));
            seal(file);
        }
        2 => change_bytes(random, file),
        3 => file[random.below(4)] = random.byte(),
        4 => file[4] = random.choose(&[0, 2, 255, 1]),
        5 => file[5] = random.choose(&[0, 8, 255, 7, 1]),
        6 => file[6] = random.choose(&[0, 17, 255, 16, 1]),
        7 => add_bytes(random, file),
        _ => *file = noise(random),
    }
}

/// One to four bytes, anywhere behind the length field.
fn change_bytes(random: &mut Random, file: &mut [u8]) {
    for _ in 0..random.between(1, 4) {
        let place = random.between(4, file.len() - 1);
        let any = random.byte();
        file[place] = random.choose(&[0, 1, 2, 3, 4, 5, 6, 255, any]);
    }
}

/// A few bytes more, or so many that the file is as long as it may be, or one longer.
fn add_bytes(random: &mut Random, file: &mut Vec<u8>) {
    let length = random.choose(&[file.len() + 1, file.len() + 5, LONGEST_FILE, LONGEST_FILE + 1]);
    while file.len() < length {
        file.push(random.byte());
    }
    if random.mille(700) {
        seal(file);
    }
}

fn noise(random: &mut Random) -> Vec<u8> {
    let mut file: Vec<u8> = (0..random.below(40)).map(|_| random.byte()).collect();
    if random.mille(500) {
        seal(&mut file);
    }
    file
}
