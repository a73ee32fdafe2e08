//! One case: a call with its inputs, what is expected of it, and what ours does.

use crate::answers;
use crate::numbers::Numbers;
use crate::ours::Face;
use crate::reference::{self, Belt, Octets};

#[derive(Clone, Copy, PartialEq, Eq)]
pub enum Call {
    Issue,
    EcbEncrypt,
    EcbDecrypt,
    CbcEncrypt,
    CbcDecrypt,
    CfbEncrypt,
    CfbDecrypt,
    CtrEncrypt,
    CtrDecrypt,
    Checksum,
    Hash,
    Wrap,
    Unwrap,
}

use Call::*;

pub const CALLS: [Call; 13] = [
    Issue, EcbEncrypt, EcbDecrypt, CbcEncrypt, CbcDecrypt, CfbEncrypt, CfbDecrypt, CtrEncrypt, CtrDecrypt, Checksum, Hash, Wrap, Unwrap,
];

pub const NAMES: [&str; 13] = [
    "issue", "ECB encrypt", "ECB decrypt", "CBC encrypt", "CBC decrypt", "CFB encrypt", "CFB decrypt", "CTR encrypt", "CTR decrypt",
    "checksum", "hash", "wrap", "unwrap",
];

impl Call {
    pub fn name(self) -> &'static str {
        NAMES[self as usize]
    }

    /// How many octets an accepted call writes about a message (or text) of so many.
    pub fn result(self, message: usize) -> usize {
        match self {
            Issue => answers::TAG,
            Checksum => answers::CHECKSUM,
            Hash => answers::HASH,
            Wrap => message + answers::HEADER,
            Unwrap => message.saturating_sub(answers::HEADER),
            _ => message,
        }
    }
}

#[derive(Clone)]
pub struct Case {
    pub call: Call,
    /// Empty for the hash, which has none.
    pub key: Octets,
    /// The start, or the header of wrapping; unused in ECB, checksum, hash and issuing.
    pub start: [u8; 16],
    /// The message, the key text or the wrapped text; empty in issuing.
    pub message: Octets,
    /// Site, checkpoint and serial of issuing.
    pub tag: (u16, u16, u32),
    /// The length of the scratch; zero but for unwrapping.
    pub scratch: usize,
    /// The length of the output.
    pub out: usize,
}

impl Case {
    /// The answer, and the octets that are written where it is 0.
    pub fn expected(&self) -> (u8, Octets) {
        let (key, message, out) = (self.key.len(), self.message.len(), self.out);
        let (site, checkpoint, serial) = self.tag;
        let f = || Belt::new(&self.key);
        let mut unwrapped = None;
        let answer = match self.call {
            Issue => answers::issue(key, site, checkpoint, out),
            EcbEncrypt | EcbDecrypt => answers::ecb(key, message, out),
            CbcEncrypt | CbcDecrypt => answers::cbc(key, message, out),
            CfbEncrypt | CfbDecrypt => answers::cfb(key, message, out),
            CtrEncrypt | CtrDecrypt => answers::ctr(key, message, out),
            Checksum => answers::checksum(key, message, out),
            Hash => answers::hash(message, out),
            Wrap => answers::wrap(key, message, out),
            Unwrap => answers::unwrap(key, message, self.scratch, out, || {
                unwrapped = reference::unwrap(&f(), &self.start, &self.message);
                unwrapped.is_some()
            }),
        };
        if answer != 0 {
            return (answer, Vec::new());
        }
        let result = match self.call {
            Issue => reference::tag(&f(), site, checkpoint, serial),
            EcbEncrypt => reference::ecb_encrypt(&f(), &self.message),
            EcbDecrypt => reference::ecb_decrypt(&f(), &self.message),
            CbcEncrypt => reference::cbc_encrypt(&f(), &self.start, &self.message),
            CbcDecrypt => reference::cbc_decrypt(&f(), &self.start, &self.message),
            CfbEncrypt => reference::cfb_encrypt(&f(), &self.start, &self.message),
            CfbDecrypt => reference::cfb_decrypt(&f(), &self.start, &self.message),
            CtrEncrypt | CtrDecrypt => reference::ctr(&f(), &self.start, &self.message),
            Checksum => reference::checksum(&f(), &self.message),
            Hash => reference::hash(&self.message),
            Wrap => reference::wrap(&f(), &self.start, &self.message),
            Unwrap => unwrapped.unwrap(),
        };
        (0, result)
    }

    /// Our answer, on these buffers.
    fn ours(&self, face: Face, key: &[u8], message: &[u8], scratch: &mut [u8], out: &mut [u8]) -> u8 {
        let start = &self.start;
        let (site, checkpoint, serial) = self.tag;
        match self.call {
            Issue => face.issue(key, site, checkpoint, serial, out),
            EcbEncrypt => face.ecb_encrypt(key, message, out),
            EcbDecrypt => face.ecb_decrypt(key, message, out),
            CbcEncrypt => face.cbc_encrypt(key, start, message, out),
            CbcDecrypt => face.cbc_decrypt(key, start, message, out),
            CfbEncrypt => face.cfb_encrypt(key, start, message, out),
            CfbDecrypt => face.cfb_decrypt(key, start, message, out),
            CtrEncrypt => face.ctr_encrypt(key, start, message, out),
            CtrDecrypt => face.ctr_decrypt(key, start, message, out),
            Checksum => face.checksum(key, message, out),
            Hash => face.hash(message, out),
            Wrap => face.wrap(key, start, message, out),
            Unwrap => face.unwrap(key, start, message, scratch, out),
        }
    }
}

/// What was compared so far.
pub struct Comparison {
    pub seed: u64,
    pub numbers: Numbers,
    /// How many cases agreed, by call and by answer number.
    pub agreed: [[u64; 64]; 13],
}

impl Comparison {
    pub fn new(seed: u64) -> Comparison {
        Comparison { seed, numbers: Numbers::new(seed), agreed: [[0; 64]; 13] }
    }

    /// Runs one case on both sides and ends the program where they differ.
    /// Key, message, scratch and output lie in one row of random octets with gaps around them, and the whole row is compared afterwards:
    /// the result at the front of the output, the scratch all zero, and every other octet as it was.
    pub fn check(&mut self, case: &Case) {
        let (answer, result) = case.expected();

        let names = ["key", "message", "scratch", "output"];
        let sizes = [case.key.len(), case.message.len(), case.scratch, case.out];
        let gaps: [usize; 5] = std::array::from_fn(|_| self.numbers.between(1, 24));
        let mut places = [0; 4];
        let mut end = gaps[0];
        for i in 0..4 {
            places[i] = end;
            end += sizes[i] + gaps[i + 1];
        }
        let mut row = self.numbers.octets(end);
        row[places[0]..][..sizes[0]].copy_from_slice(&case.key);
        row[places[1]..][..sizes[1]].copy_from_slice(&case.message);

        let mut wanted = row.clone();
        wanted[places[2]..][..sizes[2]].fill(0);
        wanted[places[3]..][..result.len()].copy_from_slice(&result);

        let face = Face { nulls: self.numbers.between(0, 1) == 1 };
        let mut rest = &mut row[..];
        let mut cut = |n: usize| {
            let (front, back) = std::mem::take(&mut rest).split_at_mut(n);
            rest = back;
            front
        };
        let mut buffers = [0, 1, 2, 3].map(|i| {
            cut(gaps[i]);
            cut(sizes[i])
        });
        let [key, message, scratch, out] = &mut buffers;
        let got = case.ours(face, key, message, scratch, out);

        if got == answer && row == wanted {
            self.agreed[case.call as usize][answer as usize] += 1;
            return;
        }
        eprintln!("DIFFERS: {}, seed {}, after {} cases that agreed", case.call.name(), self.seed, self.all());
        eprintln!("  key of {} octets: {}", case.key.len(), shown(&case.key));
        eprintln!("  start or header: {}", shown(&case.start));
        eprintln!("  message of {} octets: {}", case.message.len(), shown(&case.message));
        if case.call == Issue {
            eprintln!("  site {}, checkpoint {}, serial {}", case.tag.0, case.tag.1, case.tag.2);
        }
        eprintln!("  scratch of {} octets, output of {} octets", case.scratch, case.out);
        eprintln!("  answer: ours {got}, expected {answer}");
        match row.iter().zip(&wanted).position(|(a, b)| a != b) {
            None => eprintln!("  no octet differs"),
            Some(at) => {
                let place = (0..4).find(|i| (places[*i]..places[*i] + sizes[*i]).contains(&at));
                let place = place.map_or("outside all buffers".to_string(), |i| format!("octet {} of the {}", at - places[i], names[i]));
                eprintln!("  first octet that differs: {place}: ours {:02X}, expected {:02X}", row[at], wanted[at]);
            }
        }
        std::process::exit(1);
    }

    /// How many cases agreed in all.
    pub fn all(&self) -> u64 {
        self.agreed.iter().flatten().sum()
    }
}

/// Octets as digits, the first 64 of them.
fn shown(x: &[u8]) -> String {
    let digits: String = x.iter().take(64).map(|o| format!("{o:02X}")).collect();
    if x.len() > 64 { digits + "…" } else { digits }
}
