//! Ours beside the fast version and the straightforward one: messages of 64 KiB, by turns in one run, the best turn of each.

use crate::fast::{self, Fast};
use crate::numbers::Numbers;
use crate::ours::Face;
use crate::reference::{self, Belt};
use std::hint::black_box;
use std::time::Instant;

const SIZE: usize = 65_536;
const TURNS: usize = 100;
const REFERENCE_TURNS: usize = 10;

/// Octets in a second, over so many messages.
fn timed(messages: usize, mut work: impl FnMut()) -> f64 {
    let begun = Instant::now();
    for _ in 0..messages {
        work();
    }
    (messages * SIZE) as f64 / begun.elapsed().as_secs_f64()
}

/// One line: the three sides must write the same, and are then timed by turns.
fn line(name: &str, size: usize, ours: &dyn Fn(&mut [u8]) -> u8, fast: &dyn Fn(&mut [u8]), reference: &dyn Fn() -> Vec<u8>) {
    let (mut a, mut b) = (vec![0; size], vec![0; size]);
    let answer = ours(&mut a);
    fast(&mut b);
    if answer != 0 || a != b || a != reference() {
        eprintln!("DIFFERS: {name}, 64 KiB, answer {answer}: ours, the fast and the straightforward version do not write the same");
        std::process::exit(1);
    }
    let mut best = [0.0f64; 3];
    for turn in 0..TURNS {
        best[0] = best[0].max(timed(8, || {
            black_box(ours(black_box(&mut a)));
        }));
        best[1] = best[1].max(timed(8, || fast(black_box(&mut b))));
        if turn < REFERENCE_TURNS {
            best[2] = best[2].max(timed(1, || {
                black_box(reference());
            }));
        }
    }
    let [ours, fast, reference] = best;
    println!("{name:12} {ours:14.0} {fast:14.0} {:8.2} {reference:16.0} {:8.2}", ours / fast, ours / reference);
}

pub fn run(seed: u64) {
    let mut numbers = Numbers::new(seed);
    let (key, start, x) = (&numbers.octets(32), &numbers.octets(16).try_into().unwrap(), &numbers.octets(SIZE));
    let (face, q, f) = (Face { nulls: false }, &Fast::new(key), &Belt::new(key));

    println!("octets in a second, messages of 64 KiB, the best of {TURNS} turns (reference: of {REFERENCE_TURNS}); ratio above 1: ours is faster");
    println!("{:12} {:>14} {:>14} {:>8} {:>16} {:>8}", "", "ours", "fast Rust", "ratio", "reference", "ratio");
    line("ECB encrypt", SIZE, &|y| face.ecb_encrypt(key, x, y), &|y| fast::ecb_encrypt(q, x, y), &|| reference::ecb_encrypt(f, x));
    line("ECB decrypt", SIZE, &|y| face.ecb_decrypt(key, x, y), &|y| fast::ecb_decrypt(q, x, y), &|| reference::ecb_decrypt(f, x));
    line("CBC encrypt", SIZE, &|y| face.cbc_encrypt(key, start, x, y), &|y| fast::cbc_encrypt(q, start, x, y), &|| reference::cbc_encrypt(f, start, x));
    line("CBC decrypt", SIZE, &|y| face.cbc_decrypt(key, start, x, y), &|y| fast::cbc_decrypt(q, start, x, y), &|| reference::cbc_decrypt(f, start, x));
    line("CFB encrypt", SIZE, &|y| face.cfb_encrypt(key, start, x, y), &|y| fast::cfb_encrypt(q, start, x, y), &|| reference::cfb_encrypt(f, start, x));
    line("CFB decrypt", SIZE, &|y| face.cfb_decrypt(key, start, x, y), &|y| fast::cfb_decrypt(q, start, x, y), &|| reference::cfb_decrypt(f, start, x));
    line("CTR encrypt", SIZE, &|y| face.ctr_encrypt(key, start, x, y), &|y| fast::ctr(q, start, x, y), &|| reference::ctr(f, start, x));
    line("CTR decrypt", SIZE, &|y| face.ctr_decrypt(key, start, x, y), &|y| fast::ctr(q, start, x, y), &|| reference::ctr(f, start, x));
    line("checksum", 8, &|y| face.checksum(key, x, y), &|y| fast::checksum(q, x, y), &|| reference::checksum(f, x));
    line("hash", 32, &|y| face.hash(x, y), &|y| fast::hash(x, y), &|| reference::hash(x));
}
