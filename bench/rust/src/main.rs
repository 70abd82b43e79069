//! Measures the Rust peer: checksums go to standard output, nanoseconds a cell to standard error.
mod hop;

use aes::{Aes128, Aes256};
use hop::{Cipher, CounterMode, Hop, Lioness, Payload, PAYLOAD};
use sha1::Sha1;
use sha3::digest::Digest;
use sha3::Sha3_256;
use std::time::Instant;

const MAX_COUNT: u32 = 100_000_000;

/// Made-up key material: byte i is 11 i + 5.
fn slip(length: usize) -> Vec<u8> {
    (0..length).map(|i| (i * 11 + 5) as u8).collect()
}

fn start() -> Payload {
    let mut payload = [0; PAYLOAD];
    for (i, byte) in payload.iter_mut().enumerate() {
        *byte = (i * 7 + 3) as u8;
    }
    payload
}

fn hex(bytes: &[u8]) -> String {
    bytes.iter().map(|b| format!("{:02x}", b)).collect()
}

fn passing<C: Cipher, D: Digest + Clone>(suite: u32, mut hop: Hop<C, D>, count: u32) {
    let mut payload = start();
    let clock = Instant::now();
    for _ in 0..count {
        hop.remove(&mut payload);
    }
    let each = clock.elapsed().as_nanos() / u128::from(count);
    println!("suite={} passing {}", suite, hex(&payload[..8]));
    eprintln!("suite={} passing {}", suite, each);
}

fn delivered<C: Cipher, D: Digest + Clone>(suite: u32, mut hop: Hop<C, D>, count: u32) {
    let mut payload = start();
    let mut tag = [0; 4];
    let mut matches = 0;
    let clock = Instant::now();
    for _ in 0..count {
        hop.remove(&mut payload);
        let mut untagged = payload;
        untagged[5..9].fill(0);
        let trial = hop.trial(&untagged);
        tag = trial.tag;
        if tag[..] == payload[5..9] {
            matches += 1;
        }
        hop.digest = trial.taken;
    }
    let each = clock.elapsed().as_nanos() / u128::from(count);
    println!("suite={} delivered {}", suite, hex(&tag));
    eprintln!("suite={} delivered {}", suite, each);
    if matches > 0 {
        eprintln!("{} tags matched", matches);
    }
}

/// The slip is two seeds, then two keys; the forward one is the first of each.
fn measure<C: Cipher, D: Digest + Clone>(suite: u32, seed: usize, key: usize, count: u32) {
    let slip = slip(2 * seed + 2 * key);
    let hop = || Hop::<C, D>::new(&slip[..seed], &slip[2 * seed..2 * seed + key]);
    passing(suite, hop(), count);
    delivered(suite, hop(), count);
}

fn main() {
    let words: Vec<String> = std::env::args().collect();
    let count = match words.get(1).and_then(|word| word.parse().ok()) {
        Some(n) if words.len() == 2 && (1..=MAX_COUNT).contains(&n) => n,
        _ => {
            eprintln!("usage: {} COUNT (cells for each suite, 1 to {})", words[0], MAX_COUNT);
            std::process::exit(2);
        }
    };
    measure::<CounterMode<Aes128>, Sha1>(1, 20, 16, count);
    measure::<CounterMode<Aes256>, Sha3_256>(2, 32, 32, count);
    measure::<Lioness, Sha3_256>(3, 32, 128, count);
}
