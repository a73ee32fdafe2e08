//! The answer number that the documents promise, from the lengths and numbers of a call: the first rule that is broken, else 0.

pub const LONGEST: usize = 65_536;
pub const TAG: usize = 24;
pub const CHECKSUM: usize = 8;
pub const HASH: usize = 32;
pub const HEADER: usize = 16;
pub const SCRATCH: usize = 272;

fn first_broken(rules: &[(bool, u8)]) -> u8 {
    rules.iter().find(|(broken, _)| *broken).map_or(0, |(_, number)| *number)
}

fn unknown_key(key: usize) -> bool {
    ![16, 24, 32].contains(&key)
}

pub fn issue(key: usize, site: u16, checkpoint: u16, out: usize) -> u8 {
    first_broken(&[(unknown_key(key), 34), (site == 0 || checkpoint == 0, 36), (out < TAG, 31)])
}

pub fn ecb(key: usize, message: usize, out: usize) -> u8 {
    first_broken(&[(unknown_key(key), 34), (message > LONGEST, 32), (message < 16, 33), (out < message, 31)])
}

pub fn cbc(key: usize, message: usize, out: usize) -> u8 {
    first_broken(&[(unknown_key(key), 34), (message > LONGEST, 32), (message < 16, 33), (out < message, 31)])
}

pub fn cfb(key: usize, message: usize, out: usize) -> u8 {
    first_broken(&[(unknown_key(key), 34), (message > LONGEST, 32), (out < message, 31)])
}

pub fn ctr(key: usize, message: usize, out: usize) -> u8 {
    first_broken(&[(unknown_key(key), 34), (message > LONGEST, 32), (out < message, 31)])
}

pub fn checksum(key: usize, message: usize, out: usize) -> u8 {
    first_broken(&[(unknown_key(key), 34), (message > LONGEST, 32), (out < CHECKSUM, 31)])
}

pub fn hash(message: usize, out: usize) -> u8 {
    first_broken(&[(message > LONGEST, 32), (out < HASH, 31)])
}

pub fn wrap(key: usize, text: usize, out: usize) -> u8 {
    first_broken(&[(unknown_key(key), 34), (!(16..=256).contains(&text), 35), (out < text + HEADER, 31)])
}

/// `genuine` is asked only where every other rule holds.
pub fn unwrap(key: usize, text: usize, scratch: usize, out: usize, genuine: impl FnOnce() -> bool) -> u8 {
    let lengths = first_broken(&[
        (unknown_key(key), 34),
        (!(32..=272).contains(&text), 51),
        (out + HEADER < text || scratch < SCRATCH, 31),
    ]);
    if lengths == 0 && !genuine() {
        return 52;
    }
    lengths
}
