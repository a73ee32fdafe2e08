//! BelT once more, as docs/ALGORITHMS.md says it and with no thought of speed: octet strings in, octet strings out.
//! It shares nothing with the proved crates, so that a mistake in one shows against the other.

pub type Octets = Vec<u8>;

pub const H: [u8; 256] = [
    0xB1, 0x94, 0xBA, 0xC8, 0x0A, 0x08, 0xF5, 0x3B, 0x36, 0x6D, 0x00, 0x8E, 0x58, 0x4A, 0x5D, 0xE4, //
    0x85, 0x04, 0xFA, 0x9D, 0x1B, 0xB6, 0xC7, 0xAC, 0x25, 0x2E, 0x72, 0xC2, 0x02, 0xFD, 0xCE, 0x0D, //
    0x5B, 0xE3, 0xD6, 0x12, 0x17, 0xB9, 0x61, 0x81, 0xFE, 0x67, 0x86, 0xAD, 0x71, 0x6B, 0x89, 0x0B, //
    0x5C, 0xB0, 0xC0, 0xFF, 0x33, 0xC3, 0x56, 0xB8, 0x35, 0xC4, 0x05, 0xAE, 0xD8, 0xE0, 0x7F, 0x99, //
    0xE1, 0x2B, 0xDC, 0x1A, 0xE2, 0x82, 0x57, 0xEC, 0x70, 0x3F, 0xCC, 0xF0, 0x95, 0xEE, 0x8D, 0xF1, //
    0xC1, 0xAB, 0x76, 0x38, 0x9F, 0xE6, 0x78, 0xCA, 0xF7, 0xC6, 0xF8, 0x60, 0xD5, 0xBB, 0x9C, 0x4F, //
    0xF3, 0x3C, 0x65, 0x7B, 0x63, 0x7C, 0x30, 0x6A, 0xDD, 0x4E, 0xA7, 0x79, 0x9E, 0xB2, 0x3D, 0x31, //
    0x3E, 0x98, 0xB5, 0x6E, 0x27, 0xD3, 0xBC, 0xCF, 0x59, 0x1E, 0x18, 0x1F, 0x4C, 0x5A, 0xB7, 0x93, //
    0xE9, 0xDE, 0xE7, 0x2C, 0x8F, 0x0C, 0x0F, 0xA6, 0x2D, 0xDB, 0x49, 0xF4, 0x6F, 0x73, 0x96, 0x47, //
    0x06, 0x07, 0x53, 0x16, 0xED, 0x24, 0x7A, 0x37, 0x39, 0xCB, 0xA3, 0x83, 0x03, 0xA9, 0x8B, 0xF6, //
    0x92, 0xBD, 0x9B, 0x1C, 0xE5, 0xD1, 0x41, 0x01, 0x54, 0x45, 0xFB, 0xC9, 0x5E, 0x4D, 0x0E, 0xF2, //
    0x68, 0x20, 0x80, 0xAA, 0x22, 0x7D, 0x64, 0x2F, 0x26, 0x87, 0xF9, 0x34, 0x90, 0x40, 0x55, 0x11, //
    0xBE, 0x32, 0x97, 0x13, 0x43, 0xFC, 0x9A, 0x48, 0xA0, 0x2A, 0x88, 0x5F, 0x19, 0x4B, 0x09, 0xA1, //
    0x7E, 0xCD, 0xA4, 0xD0, 0x15, 0x44, 0xAF, 0x8C, 0xA5, 0x84, 0x50, 0xBF, 0x66, 0xD2, 0xE8, 0x8A, //
    0xA2, 0xD7, 0x46, 0x52, 0x42, 0xA8, 0xDF, 0xB3, 0x69, 0x74, 0xC5, 0x51, 0xEB, 0x23, 0x29, 0x21, //
    0xD4, 0xEF, 0xD9, 0xB4, 0x3A, 0x62, 0x28, 0x75, 0x91, 0x14, 0x10, 0xEA, 0x77, 0x6C, 0xDA, 0x1D,
];

fn word(x: &[u8]) -> u32 {
    u32::from(x[0]) | u32::from(x[1]) << 8 | u32::from(x[2]) << 16 | u32::from(x[3]) << 24
}

fn words(x: &[u8]) -> Vec<u32> {
    x.chunks(4).map(word).collect()
}

fn octets(words: &[u32]) -> Octets {
    words.iter().flat_map(|w| w.to_le_bytes()).collect()
}

fn xor(x: &[u8], y: &[u8]) -> Octets {
    x.iter().zip(y).map(|(a, b)| a ^ b).collect()
}

fn join(parts: &[&[u8]]) -> Octets {
    parts.concat()
}

/// A number as n octets, the least first.
fn field(mut number: u128, n: usize) -> Octets {
    let mut out = Vec::new();
    for _ in 0..n {
        out.push((number % 256) as u8);
        number /= 256;
    }
    out
}

fn g(r: u32, u: u32) -> u32 {
    word(&u.to_le_bytes().map(|o| H[o as usize])).rotate_left(r)
}

fn expand(key: &[u8]) -> Octets {
    match key.len() {
        16 => join(&[key, key]),
        24 => {
            let t = words(key);
            join(&[key, &octets(&[t[0] ^ t[1] ^ t[2], t[3] ^ t[4] ^ t[5]])])
        }
        _ => key.to_vec(),
    }
}

/// A block cipher under a key of 16, 24 or 32 octets.
pub struct Belt {
    theta: Vec<u32>,
}

impl Belt {
    pub fn new(key: &[u8]) -> Belt {
        Belt { theta: words(&expand(key)) }
    }

    fn round_key(&self, i: usize) -> u32 {
        self.theta[(i - 1) % 8]
    }

    fn steps(&self, i: usize, keys: [usize; 7], x: [u32; 4]) -> [u32; 4] {
        let [mut a, mut b, mut c, mut d] = x;
        let k = |j: usize| self.round_key(keys[j]);
        b ^= g(5, a.wrapping_add(k(0)));
        c ^= g(21, d.wrapping_add(k(1)));
        a = a.wrapping_sub(g(13, b.wrapping_add(k(2))));
        let e = g(21, b.wrapping_add(c).wrapping_add(k(3))) ^ i as u32;
        b = b.wrapping_add(e);
        c = c.wrapping_sub(e);
        d = d.wrapping_add(g(13, c.wrapping_add(k(4))));
        b ^= g(21, a.wrapping_add(k(5)));
        c ^= g(5, d.wrapping_add(k(6)));
        [a, b, c, d]
    }

    pub fn forward(&self, x: &[u8]) -> Octets {
        let w = words(x);
        let mut s = [w[0], w[1], w[2], w[3]];
        for i in 1..=8 {
            let [mut a, mut b, mut c, mut d] =
                self.steps(i, [7 * i - 6, 7 * i - 5, 7 * i - 4, 7 * i - 3, 7 * i - 2, 7 * i - 1, 7 * i], s);
            std::mem::swap(&mut a, &mut b);
            std::mem::swap(&mut c, &mut d);
            std::mem::swap(&mut b, &mut c);
            s = [a, b, c, d];
        }
        octets(&[s[1], s[3], s[0], s[2]])
    }

    pub fn backward(&self, x: &[u8]) -> Octets {
        let w = words(x);
        let mut s = [w[0], w[1], w[2], w[3]];
        for i in (1..=8).rev() {
            let [mut a, mut b, mut c, mut d] =
                self.steps(i, [7 * i, 7 * i - 1, 7 * i - 2, 7 * i - 3, 7 * i - 4, 7 * i - 5, 7 * i - 6], s);
            std::mem::swap(&mut a, &mut b);
            std::mem::swap(&mut c, &mut d);
            std::mem::swap(&mut a, &mut d);
            s = [a, b, c, d];
        }
        octets(&[s[2], s[0], s[3], s[1]])
    }
}

/// ECB with a step: forward to encrypt, backward to decrypt.
fn ecb(step: impl Fn(&[u8]) -> Octets, x: &[u8]) -> Octets {
    let mut y: Vec<Octets> = x.chunks(16).map(<[u8]>::to_vec).collect();
    let n = y.len();
    let k = y[n - 1].len();
    let whole = if k == 16 { n } else { n - 2 };
    for piece in &mut y[..whole] {
        *piece = step(piece);
    }
    if k < 16 {
        let image = step(&y[n - 2]);
        let (last, rest) = image.split_at(k);
        y[n - 2] = step(&join(&[&y[n - 1], rest]));
        y[n - 1] = last.to_vec();
    }
    y.concat()
}

pub fn ecb_encrypt(f: &Belt, x: &[u8]) -> Octets {
    ecb(|p| f.forward(p), x)
}

pub fn ecb_decrypt(f: &Belt, x: &[u8]) -> Octets {
    ecb(|c| f.backward(c), x)
}

pub fn cbc_encrypt(f: &Belt, start: &[u8], x: &[u8]) -> Octets {
    let pieces: Vec<&[u8]> = x.chunks(16).collect();
    let n = pieces.len();
    let k = pieces[n - 1].len();
    let mut before = start.to_vec();
    let mut y: Vec<Octets> = Vec::new();
    for piece in &pieces[..if k == 16 { n } else { n - 2 }] {
        before = f.forward(&xor(piece, &before));
        y.push(before.clone());
    }
    if k < 16 {
        let image = f.forward(&xor(pieces[n - 2], &before));
        let (last, rest) = image.split_at(k);
        y.push(f.forward(&join(&[&xor(pieces[n - 1], last), rest])));
        y.push(last.to_vec());
    }
    y.concat()
}

pub fn cbc_decrypt(f: &Belt, start: &[u8], x: &[u8]) -> Octets {
    let pieces: Vec<&[u8]> = x.chunks(16).collect();
    let n = pieces.len();
    let k = pieces[n - 1].len();
    let mut before = start.to_vec();
    let mut y: Vec<Octets> = Vec::new();
    for piece in &pieces[..if k == 16 { n } else { n - 2 }] {
        y.push(xor(&f.backward(piece), &before));
        before = piece.to_vec();
    }
    if k < 16 {
        let filled = join(&[pieces[n - 1], &vec![0; 16 - k]]);
        let mixed = xor(&f.backward(pieces[n - 2]), &filled);
        let (last, rest) = mixed.split_at(k);
        y.push(xor(&f.backward(&join(&[pieces[n - 1], rest])), &before));
        y.push(last.to_vec());
    }
    y.concat()
}

pub fn cfb_encrypt(f: &Belt, start: &[u8], x: &[u8]) -> Octets {
    let mut before = start.to_vec();
    let mut y = Vec::new();
    for piece in x.chunks(16) {
        before = xor(piece, &f.forward(&before));
        y.extend_from_slice(&before);
    }
    y
}

pub fn cfb_decrypt(f: &Belt, start: &[u8], x: &[u8]) -> Octets {
    let mut before = start.to_vec();
    let mut y = Vec::new();
    for piece in x.chunks(16) {
        y.extend(xor(piece, &f.forward(&before)));
        before = piece.to_vec();
    }
    y
}

pub fn ctr(f: &Belt, start: &[u8], x: &[u8]) -> Octets {
    let mut s = f.forward(start);
    let mut y = Vec::new();
    for piece in x.chunks(16) {
        for octet in &mut s {
            *octet = octet.wrapping_add(1);
            if *octet != 0 {
                break;
            }
        }
        y.extend(xor(piece, &f.forward(&s)));
    }
    y
}

pub fn checksum(f: &Belt, x: &[u8]) -> Octets {
    let mut s = vec![0; 16];
    let r = f.forward(&s);
    let mut pieces: Vec<&[u8]> = x.chunks(16).collect();
    let last = pieces.pop().unwrap_or(&[]);
    for piece in pieces {
        s = f.forward(&xor(&s, piece));
    }
    let u: Vec<&[u8]> = r.chunks(4).collect();
    let (filled, mark) = if last.len() == 16 {
        (last.to_vec(), join(&[u[1], u[2], u[3], &xor(u[0], u[1])]))
    } else {
        (join(&[last, &[0x80], &vec![0; 15 - last.len()]]), join(&[&xor(u[0], u[3]), u[0], u[1], u[2]]))
    };
    f.forward(&xor(&xor(&s, &filled), &mark))[..8].to_vec()
}

/// The exclusive or of all blocks of r but the last.
fn sum_of_blocks(r: &[u8]) -> Octets {
    let n = r.len().div_ceil(16);
    r.chunks(16).take(n - 1).fold(vec![0; 16], |s, piece| xor(&s, piece))
}

pub fn wrap(f: &Belt, header: &[u8], key_text: &[u8]) -> Octets {
    let mut r = join(&[key_text, header]);
    let m = r.len();
    let n = m.div_ceil(16);
    for i in 1..=2 * n {
        let s = sum_of_blocks(&r);
        let mixed = xor(&xor(&r[m - 16..], &f.forward(&s)), &field(i as u128, 16));
        r[m - 16..].copy_from_slice(&mixed);
        r = join(&[&r[16..], &[0; 16]]);
        r[m - 16..].copy_from_slice(&s);
    }
    r
}

/// The key text, or none where the header differs.
pub fn unwrap(f: &Belt, header: &[u8], text: &[u8]) -> Option<Octets> {
    let mut r = text.to_vec();
    let m = r.len();
    let n = m.div_ceil(16);
    for i in (1..=2 * n).rev() {
        let s = r[m - 16..].to_vec();
        r = join(&[&[0; 16], &r[..m - 16]]);
        let mixed = xor(&xor(&r[m - 16..], &f.forward(&s)), &field(i as u128, 16));
        r[m - 16..].copy_from_slice(&mixed);
        let first = xor(&s, &sum_of_blocks(&r));
        r[..16].copy_from_slice(&first);
    }
    if &r[m - 16..] == header { Some(r[..m - 16].to_vec()) } else { None }
}

fn sigma1(u: &[u8]) -> Octets {
    let mixed = xor(&u[32..48], &u[48..64]);
    xor(&Belt::new(&u[..32]).forward(&mixed), &mixed)
}

fn sigma2(u: &[u8]) -> Octets {
    let s = sigma1(u);
    let first = Belt::new(&join(&[&s, &u[48..64]]));
    let second = Belt::new(&join(&[&xor(&s, &[0xFF; 16]), &u[32..48]]));
    join(&[&xor(&first.forward(&u[..16]), &u[..16]), &xor(&second.forward(&u[16..32]), &u[16..32])])
}

pub fn hash(x: &[u8]) -> Octets {
    let mut s = vec![0; 16];
    let mut h = H[..32].to_vec();
    for piece in x.chunks(32) {
        let filled = join(&[piece, &vec![0; 32 - piece.len()]]);
        let u = join(&[&filled, &h]);
        s = xor(&s, &sigma1(&u));
        h = sigma2(&u);
    }
    sigma2(&join(&[&field(8 * x.len() as u128, 16), &s, &h]))
}

/// A tag text: letters, site, checkpoint, serial, zeros, checksum.
pub fn tag(f: &Belt, site: u16, checkpoint: u16, serial: u32) -> Octets {
    let head = join(&[b"BTAG", &site.to_le_bytes(), &checkpoint.to_le_bytes(), &serial.to_le_bytes(), &[0; 4]]);
    join(&[&head, &checksum(f, &head)])
}
