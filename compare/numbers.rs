//! Numbers that look random and come back with the same seed (splitmix, 64 bits).

pub struct Numbers(u64);

impl Numbers {
    pub fn new(seed: u64) -> Numbers {
        Numbers(seed)
    }

    pub fn next(&mut self) -> u64 {
        self.0 = self.0.wrapping_add(0x9E37_79B9_7F4A_7C15);
        let mut x = self.0;
        x = (x ^ (x >> 30)).wrapping_mul(0xBF58_476D_1CE4_E5B9);
        x = (x ^ (x >> 27)).wrapping_mul(0x94D0_49BB_1331_11EB);
        x ^ (x >> 31)
    }

    /// A number from `least` to `most`, both included.
    pub fn between(&mut self, least: usize, most: usize) -> usize {
        least + (self.next() % (most - least + 1) as u64) as usize
    }

    pub fn octets(&mut self, n: usize) -> Vec<u8> {
        let mut out = Vec::with_capacity(n + 8);
        while out.len() < n {
            out.extend(self.next().to_le_bytes());
        }
        out.truncate(n);
        out
    }

    /// Octets of a message, key or start: mostly random, now and then all zero or all 255.
    pub fn content(&mut self, n: usize) -> Vec<u8> {
        match self.between(0, 31) {
            0 => vec![0; n],
            1 => vec![255; n],
            _ => self.octets(n),
        }
    }

    pub fn start(&mut self) -> [u8; 16] {
        self.content(16).try_into().unwrap()
    }
}
