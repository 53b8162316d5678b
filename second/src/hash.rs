//! SHA-1 (FIPS 180-4), the message id, and CRC-16/CCITT-FALSE.

const START: [u32; 5] = [0x67452301, 0xefcdab89, 0x98badcfe, 0x10325476, 0xc3d2e1f0];

fn compress(h: &mut [u32; 5], block: &[u8]) {
    let mut w = [0u32; 80];
    for (i, word) in block.chunks(4).enumerate() {
        w[i] = u32::from_be_bytes(word.try_into().unwrap());
    }
    for t in 16..80 {
        w[t] = (w[t - 3] ^ w[t - 8] ^ w[t - 14] ^ w[t - 16]).rotate_left(1);
    }
    let [mut a, mut b, mut c, mut d, mut e] = *h;
    for (t, word) in w.iter().enumerate() {
        let (f, k) = match t / 20 {
            0 => ((b & c) | (!b & d), 0x5a827999),
            1 => (b ^ c ^ d, 0x6ed9eba1),
            2 => ((b & c) | (b & d) | (c & d), 0x8f1bbcdc),
            _ => (b ^ c ^ d, 0xca62c1d6),
        };
        let next = a.rotate_left(5).wrapping_add(f).wrapping_add(e).wrapping_add(k).wrapping_add(*word);
        (e, d, c, b, a) = (d, c, b.rotate_left(30), a, next);
    }
    for (x, y) in h.iter_mut().zip([a, b, c, d, e]) {
        *x = x.wrapping_add(y);
    }
}

pub fn sha1(message: &[u8]) -> [u32; 5] {
    let mut h = START;
    let mut padded = message.to_vec();
    padded.push(0x80);
    while padded.len() % 64 != 56 {
        padded.push(0);
    }
    padded.extend_from_slice(&(message.len() as u64 * 8).to_be_bytes());
    for block in padded.chunks(64) {
        compress(&mut h, block);
    }
    h
}

/// A hash that is being fed: the bytes that wait are the first of the block.
#[derive(Clone)]
pub struct Sha1 {
    h: [u32; 5],
    block: [u8; 64],
    total: u64,
}

impl Sha1 {
    pub fn new() -> Sha1 {
        Sha1 { h: START, block: [0; 64], total: 0 }
    }
    pub fn update(&mut self, bytes: &[u8]) {
        let waiting = self.total as usize % 64;
        self.total += bytes.len() as u64;
        if waiting + bytes.len() < 64 {
            self.block[waiting..waiting + bytes.len()].copy_from_slice(bytes);
            return;
        }
        let (first, rest) = bytes.split_at(64 - waiting);
        self.block[waiting..].copy_from_slice(first);
        compress(&mut self.h, &self.block);
        let mut blocks = rest.chunks_exact(64);
        for block in &mut blocks {
            compress(&mut self.h, block);
        }
        self.block[..blocks.remainder().len()].copy_from_slice(blocks.remainder());
    }
    pub fn finish(&self) -> [u32; 5] {
        let mut last = self.clone();
        let bits = self.total * 8;
        let zeros = (119 - self.total as usize % 64) % 64;
        last.update(&[0x80]);
        last.update(&[0; 64][..zeros]);
        last.update(&bits.to_be_bytes());
        last.h
    }
}

/// The first seven hexadecimal digits of SHA-1 over the salt, where there is one, and the payload.
pub fn message_id(salt: Option<i64>, payload: &[u8]) -> u32 {
    let mut bytes = salt.map_or(vec![], |s| s.to_le_bytes().to_vec());
    bytes.extend_from_slice(payload);
    sha1(&bytes)[0] >> 4
}

pub fn crc16(s: &[u8]) -> u16 {
    s.iter().fold(0xFFFF, |crc, &b| {
        (0..8).fold(crc ^ (u16::from(b) << 8), |c, _| if c & 0x8000 != 0 { (c << 1) ^ 0x1021 } else { c << 1 })
    })
}
