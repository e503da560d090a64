// The proved replay, called through its C interface (include/wagonmoth.h) in this process. Built without the library (no --cfg ours), there is none.

/// What the bytes of a lent buffer hold before a call, to see that those behind the text are left alone.
const BEFORE: u8 = 0xA5;

#[derive(Clone, Copy, PartialEq)]
pub enum Entry {
    Replay,
    /// Every event taken through the public step, which tests the whole state first; exported for this harness alone.
    Tested,
}

pub struct Ours {
    room: Vec<u8>,
}

impl Ours {
    /// None where the harness was built without the library.
    pub fn new() -> Option<Ours> {
        Some(Ours { room: vec![BEFORE; library::longest_text()?] })
    }

    pub fn has(entry: Entry) -> bool {
        library::has(entry)
    }

    /// The text of a replay.
    pub fn replay(&mut self, entry: Entry, bytes: &[u8]) -> &[u8] {
        let length = library::replay(entry, bytes, &mut self.room);
        &self.room[..length]
    }

    /// The text of a replay, where the call also leaves everything behind its text as it was, and a buffer that is too short altogether.
    pub fn checked_replay(&mut self, entry: Entry, bytes: &[u8]) -> Option<&[u8]> {
        self.room.fill(BEFORE);
        let short = self.room.len() - 1;
        if library::replay(entry, bytes, &mut self.room[..short]) != 0 || !is_untouched(&self.room) {
            return None;
        }
        let length = library::replay(entry, bytes, &mut self.room);
        let (text, behind) = self.room.split_at(length);
        is_untouched(behind).then_some(text)
    }
}

fn is_untouched(bytes: &[u8]) -> bool {
    bytes.iter().all(|&byte| byte == BEFORE)
}

#[cfg(ours)]
mod library {
    use super::Entry;

    extern "C" {
        fn wagonmoth_longest_text() -> usize;
        fn wagonmoth_replay(bytes: *const u8, length: usize, out: *mut u8, room: usize) -> usize;
        #[cfg(tested)]
        fn wagonmoth_replay_tested(bytes: *const u8, length: usize, out: *mut u8, room: usize) -> usize;
    }

    pub fn has(entry: Entry) -> bool {
        entry == Entry::Replay || cfg!(tested)
    }

    pub fn longest_text() -> Option<usize> {
        Some(unsafe { wagonmoth_longest_text() })
    }

    /// The two slices are of this program and do not overlap, as the header asks.
    pub fn replay(entry: Entry, bytes: &[u8], out: &mut [u8]) -> usize {
        let (from, length, to, room) = (bytes.as_ptr(), bytes.len(), out.as_mut_ptr(), out.len());
        match entry {
            Entry::Replay => unsafe { wagonmoth_replay(from, length, to, room) },
            #[cfg(tested)]
            Entry::Tested => unsafe { wagonmoth_replay_tested(from, length, to, room) },
            #[cfg(not(tested))]
            Entry::Tested => unreachable!("the library has no wagonmoth_replay_tested"),
        }
    }
}

#[cfg(not(ours))]
mod library {
    use super::Entry;

    pub fn has(_: Entry) -> bool {
        false
    }

    pub fn longest_text() -> Option<usize> {
        None
    }

    pub fn replay(_: Entry, _: &[u8], _: &mut [u8]) -> usize {
        unreachable!("there is no library to be called")
    }
}
