//! BelT once more as one would write it in plain Rust for speed: look-ups in rotated tables, rounds in a row, two pieces at a time where
//! they do not wait for each other. It is only the measure for speed, so messages are whole pairs of pieces here, and nothing is refused.

use crate::reference::H;

const fn rotated(r: u32) -> [u32; 256] {
    let mut table = [0; 256];
    let mut i = 0;
    while i < 256 {
        table[i] = (H[i] as u32).rotate_left(r);
        i += 1;
    }
    table
}

static T5: [u32; 256] = rotated(5);
static T13: [u32; 256] = rotated(13);
static T21: [u32; 256] = rotated(21);
static T29: [u32; 256] = rotated(29);

#[inline(always)]
fn look_up(tables: [&[u32; 256]; 4], u: u32) -> u32 {
    let [a, b, c, d] = u.to_le_bytes();
    tables[0][a as usize] ^ tables[1][b as usize] ^ tables[2][c as usize] ^ tables[3][d as usize]
}

#[inline(always)]
fn g5(u: u32) -> u32 {
    look_up([&T5, &T13, &T21, &T29], u)
}

#[inline(always)]
fn g13(u: u32) -> u32 {
    look_up([&T13, &T21, &T29, &T5], u)
}

#[inline(always)]
fn g21(u: u32) -> u32 {
    look_up([&T21, &T29, &T5, &T13], u)
}

type Quad = [u32; 4];

#[inline(always)]
fn load(x: &[u8]) -> Quad {
    let w = |i: usize| u32::from_le_bytes(x[4 * i..4 * i + 4].try_into().unwrap());
    [w(0), w(1), w(2), w(3)]
}

#[inline(always)]
fn store(q: Quad, out: &mut [u8]) {
    for (w, place) in q.iter().zip(out.chunks_exact_mut(4)) {
        place.copy_from_slice(&w.to_le_bytes());
    }
}

#[inline(always)]
fn xor(p: Quad, q: Quad) -> Quad {
    [p[0] ^ q[0], p[1] ^ q[1], p[2] ^ q[2], p[3] ^ q[3]]
}

#[inline(always)]
fn steps(i: usize, k: [u32; 7], q: Quad) -> Quad {
    let [mut a, mut b, mut c, mut d] = q;
    b ^= g5(a.wrapping_add(k[0]));
    c ^= g21(d.wrapping_add(k[1]));
    a = a.wrapping_sub(g13(b.wrapping_add(k[2])));
    let e = g21(b.wrapping_add(c).wrapping_add(k[3])) ^ i as u32;
    b = b.wrapping_add(e);
    c = c.wrapping_sub(e);
    d = d.wrapping_add(g13(c.wrapping_add(k[4])));
    b ^= g21(a.wrapping_add(k[5]));
    c ^= g5(d.wrapping_add(k[6]));
    [a, b, c, d]
}

#[derive(Clone, Copy)]
pub struct Fast([u32; 8]);

impl Fast {
    /// From a key of 32 octets.
    #[inline(always)]
    pub fn new(key: &[u8]) -> Fast {
        let ([a, b, c, d], [e, f, g, h]) = (load(&key[..16]), load(&key[16..]));
        Fast([a, b, c, d, e, f, g, h])
    }

    #[inline(always)]
    fn round<const I: usize>(&self, q: Quad) -> Quad {
        let k = |j: usize| self.0[(7 * I - 7 + j) % 8];
        let [a, b, c, d] = steps(I, [k(0), k(1), k(2), k(3), k(4), k(5), k(6)], q);
        [b, d, a, c]
    }

    #[inline(always)]
    fn round_back<const I: usize>(&self, q: Quad) -> Quad {
        let k = |j: usize| self.0[(7 * I - 7 + j) % 8];
        let [a, b, c, d] = steps(I, [k(6), k(5), k(4), k(3), k(2), k(1), k(0)], q);
        [c, a, d, b]
    }

    #[inline(always)]
    fn forward(&self, mut q: Quad) -> Quad {
        q = self.round::<2>(self.round::<1>(q));
        q = self.round::<4>(self.round::<3>(q));
        q = self.round::<6>(self.round::<5>(q));
        q = self.round::<8>(self.round::<7>(q));
        [q[1], q[3], q[0], q[2]]
    }

    #[inline(always)]
    fn forward_two(&self, mut p: Quad, mut q: Quad) -> (Quad, Quad) {
        (p, q) = (self.round::<1>(p), self.round::<1>(q));
        (p, q) = (self.round::<2>(p), self.round::<2>(q));
        (p, q) = (self.round::<3>(p), self.round::<3>(q));
        (p, q) = (self.round::<4>(p), self.round::<4>(q));
        (p, q) = (self.round::<5>(p), self.round::<5>(q));
        (p, q) = (self.round::<6>(p), self.round::<6>(q));
        (p, q) = (self.round::<7>(p), self.round::<7>(q));
        (p, q) = (self.round::<8>(p), self.round::<8>(q));
        ([p[1], p[3], p[0], p[2]], [q[1], q[3], q[0], q[2]])
    }

    #[inline(always)]
    fn backward_two(&self, mut p: Quad, mut q: Quad) -> (Quad, Quad) {
        (p, q) = (self.round_back::<8>(p), self.round_back::<8>(q));
        (p, q) = (self.round_back::<7>(p), self.round_back::<7>(q));
        (p, q) = (self.round_back::<6>(p), self.round_back::<6>(q));
        (p, q) = (self.round_back::<5>(p), self.round_back::<5>(q));
        (p, q) = (self.round_back::<4>(p), self.round_back::<4>(q));
        (p, q) = (self.round_back::<3>(p), self.round_back::<3>(q));
        (p, q) = (self.round_back::<2>(p), self.round_back::<2>(q));
        (p, q) = (self.round_back::<1>(p), self.round_back::<1>(q));
        ([p[2], p[0], p[3], p[1]], [q[2], q[0], q[3], q[1]])
    }
}

/// The whole pairs of pieces of a message, each with its place in the output.
fn pairs<'a>(x: &'a [u8], out: &'a mut [u8]) -> impl Iterator<Item = (&'a [u8], &'a mut [u8])> {
    x.chunks_exact(32).zip(out.chunks_exact_mut(32))
}

pub fn ecb_encrypt(f: &Fast, x: &[u8], out: &mut [u8]) {
    for (x, y) in pairs(x, out) {
        let (p, q) = f.forward_two(load(&x[..16]), load(&x[16..]));
        store(p, &mut y[..16]);
        store(q, &mut y[16..]);
    }
}

pub fn ecb_decrypt(f: &Fast, x: &[u8], out: &mut [u8]) {
    for (x, y) in pairs(x, out) {
        let (p, q) = f.backward_two(load(&x[..16]), load(&x[16..]));
        store(p, &mut y[..16]);
        store(q, &mut y[16..]);
    }
}

pub fn cbc_encrypt(f: &Fast, start: &[u8; 16], x: &[u8], out: &mut [u8]) {
    let mut before = load(start);
    for (x, y) in x.chunks_exact(16).zip(out.chunks_exact_mut(16)) {
        before = f.forward(xor(load(x), before));
        store(before, y);
    }
}

pub fn cbc_decrypt(f: &Fast, start: &[u8; 16], x: &[u8], out: &mut [u8]) {
    let mut before = load(start);
    for (x, y) in pairs(x, out) {
        let (first, second) = (load(&x[..16]), load(&x[16..]));
        let (p, q) = f.backward_two(first, second);
        store(xor(p, before), &mut y[..16]);
        store(xor(q, first), &mut y[16..]);
        before = second;
    }
}

pub fn cfb_encrypt(f: &Fast, start: &[u8; 16], x: &[u8], out: &mut [u8]) {
    let mut before = load(start);
    for (x, y) in x.chunks_exact(16).zip(out.chunks_exact_mut(16)) {
        before = xor(load(x), f.forward(before));
        store(before, y);
    }
}

pub fn cfb_decrypt(f: &Fast, start: &[u8; 16], x: &[u8], out: &mut [u8]) {
    let mut before = load(start);
    for (x, y) in pairs(x, out) {
        let (first, second) = (load(&x[..16]), load(&x[16..]));
        let (p, q) = f.forward_two(before, first);
        store(xor(first, p), &mut y[..16]);
        store(xor(second, q), &mut y[16..]);
        before = second;
    }
}

/// A count as its four words.
#[inline(always)]
fn quad(count: u128) -> Quad {
    [count as u32, (count >> 32) as u32, (count >> 64) as u32, (count >> 96) as u32]
}

pub fn ctr(f: &Fast, start: &[u8; 16], x: &[u8], out: &mut [u8]) {
    let s = f.forward(load(start));
    let mut count = u128::from(s[0]) | u128::from(s[1]) << 32 | u128::from(s[2]) << 64 | u128::from(s[3]) << 96;
    for (x, y) in pairs(x, out) {
        let (p, q) = f.forward_two(quad(count.wrapping_add(1)), quad(count.wrapping_add(2)));
        store(xor(load(&x[..16]), p), &mut y[..16]);
        store(xor(load(&x[16..]), q), &mut y[16..]);
        count = count.wrapping_add(2);
    }
}

/// The checksum of one whole piece or more.
pub fn checksum(f: &Fast, x: &[u8], out: &mut [u8]) {
    let [a, b, c, d] = f.forward([0; 4]);
    let (front, last) = x.split_at(x.len() - 16);
    let mut s = [0; 4];
    for piece in front.chunks_exact(16) {
        s = f.forward(xor(s, load(piece)));
    }
    let sum = f.forward(xor(xor(s, load(last)), [b, c, d, a ^ b]));
    out[..4].copy_from_slice(&sum[0].to_le_bytes());
    out[4..8].copy_from_slice(&sum[1].to_le_bytes());
}

#[inline(always)]
fn fed(first: Quad, second: Quad, p: Quad) -> Quad {
    let ([a, b, c, d], [e, f, g, h]) = (first, second);
    xor(Fast([a, b, c, d, e, f, g, h]).forward(p), p)
}

/// Both results of the compression of u ‖ h.
#[inline(always)]
fn compress(u: [Quad; 2], h: [Quad; 2]) -> (Quad, [Quad; 2]) {
    let s = fed(u[0], u[1], xor(h[0], h[1]));
    let turned = xor(s, [u32::MAX; 4]);
    (s, [fed(s, h[1], u[0]), fed(turned, h[0], u[1])])
}

pub fn hash(x: &[u8], out: &mut [u8]) {
    let mut s = [0; 4];
    let mut h = [load(&H[..16]), load(&H[16..32])];
    for u in x.chunks_exact(32) {
        let (mix, next) = compress([load(&u[..16]), load(&u[16..])], h);
        s = xor(s, mix);
        h = next;
    }
    let [a, b] = compress([quad(8 * x.len() as u128), s], h).1;
    store(a, &mut out[..16]);
    store(b, &mut out[16..32]);
}
