//! One way (forward) of one hop: its cipher and its running digest, over the crates aes, sha1 and sha3.
use aes::cipher::consts::{U16, U8};
use aes::cipher::generic_array::GenericArray;
use aes::{Aes256, BlockCipher, NewBlockCipher};
use sha3::digest::Digest;
use sha3::Sha3_256;

pub const PAYLOAD: usize = 509;
pub type Payload = [u8; PAYLOAD];

/// The bytes of key stream that are made at once: eight blocks, as many as the crate enciphers together.
const CHUNK: usize = 128;
const LEFT: usize = 32;

pub trait Cipher {
    fn new(key: &[u8]) -> Self;

    /// Removes the next layer (0, 1, 2, ..).
    fn remove(&mut self, payload: &mut Payload);
}

/// A key stream from block 0 on, and how much of the last chunk is used.
pub struct CounterMode<A> {
    cipher: A,
    next: u64,
    chunk: [u8; CHUNK],
    used: usize,
}

impl<A: NewBlockCipher + BlockCipher<BlockSize = U16, ParBlocks = U8>> CounterMode<A> {
    fn fill(&mut self) {
        let mut blocks = GenericArray::<GenericArray<u8, U16>, U8>::default();
        for block in blocks.iter_mut() {
            block[8..].copy_from_slice(&self.next.to_be_bytes());
            self.next += 1;
        }
        self.cipher.encrypt_blocks(&mut blocks);
        for (place, block) in self.chunk.chunks_exact_mut(16).zip(blocks.iter()) {
            place.copy_from_slice(block);
        }
        self.used = 0;
    }

    fn xor(&mut self, mut data: &mut [u8]) {
        while !data.is_empty() {
            if self.used == CHUNK {
                self.fill();
            }
            let part = data.len().min(CHUNK - self.used);
            let (now, rest) = data.split_at_mut(part);
            for (byte, key) in now.iter_mut().zip(&self.chunk[self.used..]) {
                *byte ^= key;
            }
            self.used += part;
            data = rest;
        }
    }
}

impl<A: NewBlockCipher + BlockCipher<BlockSize = U16, ParBlocks = U8>> Cipher for CounterMode<A> {
    fn new(key: &[u8]) -> Self {
        let cipher = A::new(GenericArray::from_slice(key));
        CounterMode { cipher, next: 0, chunk: [0; CHUNK], used: CHUNK }
    }

    fn remove(&mut self, payload: &mut Payload) {
        self.xor(payload)
    }
}

pub struct Lioness {
    keys: [[u8; 32]; 4],
}

/// The left part is added with the hash of the key and the right part.
fn change_left(payload: &mut Payload, key: &[u8; 32]) {
    let hash = Sha3_256::new().chain_update(key).chain_update(&payload[LEFT..]).finalize();
    for (byte, h) in payload[..LEFT].iter_mut().zip(hash) {
        *byte ^= h;
    }
}

/// The right part is added with the key stream of the left part and the key.
fn change_right(payload: &mut Payload, key: &[u8; 32]) {
    let mut sum = *key;
    for (byte, left) in sum.iter_mut().zip(&payload[..LEFT]) {
        *byte ^= left;
    }
    CounterMode::<Aes256>::new(&sum).xor(&mut payload[LEFT..]);
}

impl Cipher for Lioness {
    fn new(key: &[u8]) -> Self {
        let mut keys = [[0; 32]; 4];
        for (place, part) in keys.iter_mut().zip(key.chunks_exact(32)) {
            place.copy_from_slice(part);
        }
        Lioness { keys }
    }

    fn remove(&mut self, payload: &mut Payload) {
        change_left(payload, &self.keys[3]);
        change_right(payload, &self.keys[2]);
        change_left(payload, &self.keys[1]);
        change_right(payload, &self.keys[0]);
    }
}

pub struct Trial<D> {
    pub tag: [u8; 4],
    pub taken: D,
}

pub struct Hop<C, D> {
    cipher: C,
    pub digest: D,
}

impl<C: Cipher, D: Digest + Clone> Hop<C, D> {
    pub fn new(seed: &[u8], key: &[u8]) -> Self {
        Hop { cipher: C::new(key), digest: D::new().chain_update(seed) }
    }

    pub fn remove(&mut self, payload: &mut Payload) {
        self.cipher.remove(payload)
    }

    /// The tag of the payload after all that the digest took so far, and the digest with this payload taken.
    pub fn trial(&self, payload: &Payload) -> Trial<D> {
        let taken = self.digest.clone().chain_update(payload);
        let hash = taken.clone().finalize();
        let mut tag = [0; 4];
        tag.copy_from_slice(&hash[..4]);
        Trial { tag, taken }
    }
}
