//! Which cases are compared.

use crate::answers::{LONGEST, SCRATCH};
use crate::cases::Call::*;
use crate::cases::{Call, Case, Comparison, CALLS};
use crate::reference::{self, Belt};

const KEYS: [usize; 3] = [16, 24, 32];

/// How much: `quick` takes samples where the full comparison takes all, and goes round once where it goes round several times.
#[derive(Clone, Copy)]
pub struct Scale {
    pub quick: bool,
}

impl Scale {
    fn pick(self, full: usize, quick: usize) -> usize {
        if self.quick { quick } else { full }
    }
}

impl Comparison {
    /// A case with random contents and room to spare; a text to unwrap is a genuine one where its lengths allow it.
    fn case(&mut self, call: Call, key: usize, message: usize) -> Case {
        let numbers = &mut self.numbers;
        let mut case = Case {
            call,
            key: if call == Hash { Vec::new() } else { numbers.content(key) },
            start: numbers.start(),
            message: if call == Issue { Vec::new() } else { numbers.content(message) },
            tag: (numbers.next() as u16, numbers.next() as u16, numbers.next() as u32),
            scratch: if call == Unwrap { SCRATCH + numbers.between(0, 40) } else { 0 },
            out: call.result(message) + numbers.between(1, 40),
        };
        if call == Unwrap && KEYS.contains(&key) && (32..=272).contains(&message) {
            let text = numbers.content(message - 16);
            case.message = reference::wrap(&Belt::new(&case.key), &case.start, &text);
        }
        case
    }

    fn known_key(&mut self) -> usize {
        KEYS[self.numbers.between(0, 2)]
    }

    /// Checks a case, and where it unwraps also the text with one octet changed: short buffers are answered before the header is read.
    fn check_both(&mut self, case: &Case) {
        self.check(case);
        if case.call == Unwrap && !case.message.is_empty() {
            let mut changed = case.clone();
            changed.message[self.numbers.between(0, case.message.len() - 1)] ^= self.numbers.between(1, 255) as u8;
            self.check(&changed);
        }
    }

    /// Every call at every length from 0 to 600 under keys of every known length, and texts to unwrap that nobody wrapped.
    pub fn lengths(&mut self, scale: Scale) {
        for _ in 0..scale.pick(100, 1) {
            for n in 0..=600 {
                for key in KEYS {
                    for call in CALLS {
                        let case = self.case(call, key, n);
                        self.check(&case);
                    }
                    let mut stray = self.case(Unwrap, key, n);
                    stray.message = self.numbers.content(n);
                    self.check(&stray);
                }
            }
        }
    }

    /// Long messages: the edges, and random lengths up to the longest.
    pub fn long(&mut self, scale: Scale) {
        let edges = [65_504, 65_519, 65_520, 65_521, 65_535, LONGEST, LONGEST + 1, LONGEST + 2, LONGEST + 16, 70_000, 131_072];
        for call in CALLS {
            for n in edges {
                for key in KEYS {
                    let case = self.case(call, key, n);
                    self.check(&case);
                }
            }
            for _ in 0..scale.pick(1_000, 4) {
                let n = self.numbers.between(601, LONGEST);
                let key = self.known_key();
                let case = self.case(call, key, n);
                self.check(&case);
            }
        }
    }

    /// Outputs from 0 octets to a little more than is needed: all for small messages, some for longer ones; and every short scratch.
    pub fn short_outputs(&mut self, scale: Scale) {
        for call in CALLS {
            for n in 0..=scale.pick(300, 80) {
                let key = self.known_key();
                let mut case = self.case(call, key, n);
                for out in 0..=call.result(n) + 2 {
                    case.out = out;
                    self.check_both(&case);
                }
            }
            for _ in 0..scale.pick(1_000, 10) {
                let (key, n) = (self.known_key(), self.numbers.between(81, LONGEST));
                let mut case = self.case(call, key, n);
                let most = call.result(case.message.len()) - 1;
                for out in [0, 1, most / 2, most - 1, most, self.numbers.between(0, most), self.numbers.between(0, most)] {
                    case.out = out;
                    self.check(&case);
                }
            }
        }
        for n in (32..=272).step_by(scale.pick(1, 16)) {
            let key = self.known_key();
            let mut case = self.case(Unwrap, key, n);
            for scratch in 0..=SCRATCH + 2 {
                case.scratch = scratch;
                self.check_both(&case);
            }
        }
    }

    /// Every key length from 0 to 40 and some long ones, together with everything else that can be wrong.
    pub fn key_lengths(&mut self, scale: Scale) {
        let messages = [0, 1, 15, 16, 17, 31, 32, 33, 100, 256, 257, 272, 273, LONGEST, LONGEST + 1];
        let others = [48, 64, 255, 256, 272, 280, 288, 65_552, 65_560, 65_568];
        for key in (0..=40).chain(others) {
            for call in CALLS {
                for n in messages {
                    if n == LONGEST && scale.quick && KEYS.contains(&key) {
                        continue;
                    }
                    let mut case = self.case(call, key, n);
                    let result = call.result(case.message.len());
                    for out in [0, result.saturating_sub(1), result, result + 7] {
                        case.out = out;
                        for scratch in if call == Unwrap { &[0, 271, 272, 300][..] } else { &[0][..] } {
                            case.scratch = *scratch;
                            for (site, checkpoint) in if call == Issue { &[(0, 0), (0, 1), (1, 0), (1, 1)][..] } else { &[(1, 1)][..] } {
                                case.tag = (*site, *checkpoint, 1);
                                self.check(&case);
                            }
                        }
                    }
                }
            }
        }
    }

    /// Tags at the edges of their numbers, with short and long outputs.
    pub fn tags(&mut self, scale: Scale) {
        let numbers = [0, 1, 2, 255, 256, 257, 32_767, 32_768, 65_535];
        for _ in 0..scale.pick(4, 1) {
            for site in numbers {
                for checkpoint in numbers {
                    for serial in [0, 1, 255, 256, 65_535, 65_536, 0x8000_0000, u32::MAX] {
                        for out in [0, 16, 23, 24, 25, 60] {
                            let key = self.known_key();
                            let mut case = self.case(Issue, key, 0);
                            case.tag = (site, checkpoint, serial);
                            case.out = out;
                            self.check(&case);
                        }
                    }
                }
            }
        }
    }

    /// Wrapped texts with one octet changed, cut short, made longer, under another header, under another key.
    pub fn damaged(&mut self, scale: Scale) {
        for n in (32..=272).cycle().take(scale.pick(3 * 241, 241)).step_by(scale.pick(1, 12)) {
            for key in KEYS {
                let case = self.case(Unwrap, key, n);
                self.check(&case);
                for i in 0..n {
                    let mut changed = case.clone();
                    changed.message[i] ^= self.numbers.between(1, 255) as u8;
                    self.check(&changed);
                }
                for shorter in [0, 1, 15, 16, 31, 32, n / 2, n - 17, n - 16, n - 2, n - 1] {
                    let mut changed = case.clone();
                    changed.message.truncate(shorter);
                    self.check(&changed);
                }
                for more in [1, 2, 15, 16, 17, 273 - n, 400] {
                    let mut changed = case.clone();
                    changed.message.extend(self.numbers.octets(more));
                    changed.out += more;
                    self.check(&changed);
                }
                for i in 0..16 {
                    let mut changed = case.clone();
                    changed.start[i] ^= 1 << self.numbers.between(0, 7);
                    self.check(&changed);
                }
                let mut changed = case.clone();
                changed.key[self.numbers.between(0, key - 1)] ^= 1 << self.numbers.between(0, 7);
                self.check(&changed);
            }
        }
    }

    /// CTR from starts whose count soon carries into each of its octets, and from the largest number to zero.
    pub fn carries(&mut self, scale: Scale) {
        for _ in 0..scale.pick(100, 1) {
            for octets in 1..=16 {
                for before in 1..=6 {
                    for call in [CtrEncrypt, CtrDecrypt] {
                        let (key, n) = (self.known_key(), self.numbers.between(0, 130));
                        let mut case = self.case(call, key, n);
                        let mut count = self.numbers.octets(16);
                        count[..octets].fill(255);
                        count[0] = 255 - before + 1;
                        case.start = Belt::new(&case.key).backward(&count).try_into().unwrap();
                        self.check(&case);
                    }
                }
            }
        }
    }
}
