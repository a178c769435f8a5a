//! Bytes lent to a call, between guard bytes that the call must not change.

use std::hint::black_box;

const GUARD: usize = 24;

pub struct Lent {
    buffer: Vec<u8>,
    original: Vec<u8>,
    length: usize,
}

impl Lent {
    pub fn new(bytes: &[u8]) -> Lent {
        Lent::with_rest(bytes, &[])
    }

    /// The first guard bytes after the lent ones are chosen.
    pub fn with_rest(bytes: &[u8], rest: &[u8]) -> Lent {
        let mut buffer = guard(0x5A);
        buffer.extend(bytes);
        buffer.extend(rest);
        buffer.extend(guard(0xC3));
        Lent { original: buffer.clone(), buffer, length: bytes.len() }
    }

    pub fn bytes(&self) -> &[u8] {
        &self.buffer[GUARD..GUARD + self.length]
    }

    pub fn bytes_mut(&mut self) -> &mut [u8] {
        &mut self.buffer[GUARD..GUARD + self.length]
    }

    /// Looked at through a black box, for the other version is not bound by
    /// what the compiler believes of borrowed bytes.
    pub fn guards_are_whole(&self) -> bool {
        let (now, then) = (black_box(&self.buffer), &self.original);
        let after = GUARD + self.length;
        now[..GUARD] == then[..GUARD] && now[after..] == then[after..]
    }

    pub fn is_whole(&self) -> bool {
        *black_box(&self.buffer) == self.original
    }
}

fn guard(first: u8) -> Vec<u8> {
    (0..GUARD).map(|at| first ^ at as u8).collect()
}
