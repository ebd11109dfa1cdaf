//! SHA-256 in plain Rust, in the style of crates/digest.

const INITIAL: [u32; 8] = [
    0x6a09e667, 0xbb67ae85, 0x3c6ef372, 0xa54ff53a, 0x510e527f, 0x9b05688c, 0x1f83d9ab, 0x5be0cd19,
];

const ROUND: [u32; 64] = [
    0x428a2f98, 0x71374491, 0xb5c0fbcf, 0xe9b5dba5, 0x3956c25b, 0x59f111f1, 0x923f82a4, 0xab1c5ed5,
    0xd807aa98, 0x12835b01, 0x243185be, 0x550c7dc3, 0x72be5d74, 0x80deb1fe, 0x9bdc06a7, 0xc19bf174,
    0xe49b69c1, 0xefbe4786, 0x0fc19dc6, 0x240ca1cc, 0x2de92c6f, 0x4a7484aa, 0x5cb0a9dc, 0x76f988da,
    0x983e5152, 0xa831c66d, 0xb00327c8, 0xbf597fc7, 0xc6e00bf3, 0xd5a79147, 0x06ca6351, 0x14292967,
    0x27b70a85, 0x2e1b2138, 0x4d2c6dfc, 0x53380d13, 0x650a7354, 0x766a0abb, 0x81c2c92e, 0x92722c85,
    0xa2bfe8a1, 0xa81a664b, 0xc24b8b70, 0xc76c51a3, 0xd192e819, 0xd6990624, 0xf40e3585, 0x106aa070,
    0x19a4c116, 0x1e376c08, 0x2748774c, 0x34b0bcb5, 0x391c0cb3, 0x4ed8aa4a, 0x5b9cca4f, 0x682e6ff3,
    0x748f82ee, 0x78a5636f, 0x84c87814, 0x8cc70208, 0x90befffa, 0xa4506ceb, 0xbef9a3f7, 0xc67178f2,
];

fn ch(x: u32, y: u32, z: u32) -> u32 {
    (x & y) ^ (!x & z)
}

fn maj(x: u32, y: u32, z: u32) -> u32 {
    (x & y) ^ (x & z) ^ (y & z)
}

fn big_sigma0(x: u32) -> u32 {
    x.rotate_right(2) ^ x.rotate_right(13) ^ x.rotate_right(22)
}

fn big_sigma1(x: u32) -> u32 {
    x.rotate_right(6) ^ x.rotate_right(11) ^ x.rotate_right(25)
}

fn small_sigma0(x: u32) -> u32 {
    x.rotate_right(7) ^ x.rotate_right(18) ^ (x >> 3)
}

fn small_sigma1(x: u32) -> u32 {
    x.rotate_right(17) ^ x.rotate_right(19) ^ (x >> 10)
}

fn word_at(bytes: &[u8], i: usize) -> u32 {
    u32::from_be_bytes([bytes[i], bytes[i + 1], bytes[i + 2], bytes[i + 3]])
}

fn to_bytes(state: [u32; 8]) -> [u8; 32] {
    let mut out = [0u8; 32];
    for i in 0..8 {
        out[4 * i..4 * i + 4].copy_from_slice(&state[i].to_be_bytes());
    }
    out
}

fn block_words(block: &[u8]) -> [u32; 64] {
    let mut w = [0u32; 64];
    for t in 0..16 {
        w[t] = word_at(block, 4 * t);
    }
    w
}

fn store_next(w: &mut [u32; 64], t: usize) {
    w[t] = small_sigma1(w[t - 2])
        .wrapping_add(w[t - 7])
        .wrapping_add(small_sigma0(w[t - 15]))
        .wrapping_add(w[t - 16]);
}

fn round(state: [u32; 8], k: u32, w: u32) -> [u32; 8] {
    let [a, b, c, d, e, f, g, h] = state;
    let first = h
        .wrapping_add(big_sigma1(e))
        .wrapping_add(ch(e, f, g))
        .wrapping_add(k)
        .wrapping_add(w);
    let second = big_sigma0(a).wrapping_add(maj(a, b, c));
    [first.wrapping_add(second), a, b, c, d.wrapping_add(first), e, f, g]
}

fn four_early(state: [u32; 8], w: &mut [u32; 64], t: usize) -> [u32; 8] {
    let one = round(state, ROUND[t], w[t]);
    store_next(w, t + 16);
    let two = round(one, ROUND[t + 1], w[t + 1]);
    store_next(w, t + 17);
    let three = round(two, ROUND[t + 2], w[t + 2]);
    store_next(w, t + 18);
    let four = round(three, ROUND[t + 3], w[t + 3]);
    store_next(w, t + 19);
    four
}

fn early_rounds(state: [u32; 8], w: &mut [u32; 64]) -> [u32; 8] {
    let mut s = state;
    for i in 0..12 {
        s = four_early(s, w, 4 * i);
    }
    s
}

fn four_late(state: [u32; 8], w: &[u32; 64], t: usize) -> [u32; 8] {
    let one = round(state, ROUND[t], w[t]);
    let two = round(one, ROUND[t + 1], w[t + 1]);
    let three = round(two, ROUND[t + 2], w[t + 2]);
    round(three, ROUND[t + 3], w[t + 3])
}

fn late_rounds(state: [u32; 8], w: &[u32; 64]) -> [u32; 8] {
    let mut s = state;
    for i in 12..16 {
        s = four_late(s, w, 4 * i);
    }
    s
}

fn added(x: [u32; 8], y: [u32; 8]) -> [u32; 8] {
    let mut out = [0u32; 8];
    for i in 0..8 {
        out[i] = x[i].wrapping_add(y[i]);
    }
    out
}

fn compress(state: [u32; 8], block: &[u8]) -> [u32; 8] {
    let mut w = block_words(block);
    let early = early_rounds(state, &mut w);
    added(late_rounds(early, &w), state)
}

fn absorb(state: [u32; 8], bytes: &[u8]) -> ([u32; 8], &[u8]) {
    let mut s = state;
    let mut rest = bytes;
    while rest.len() >= 64 {
        let (block, tail) = rest.split_at(64);
        s = compress(s, block);
        rest = tail;
    }
    (s, rest)
}

fn end_marked(rest: &[u8]) -> [u8; 64] {
    let mut block = [0u8; 64];
    let n = rest.len();
    block[0..n].copy_from_slice(rest);
    block[n] = 0x80;
    block
}

fn with_length(block: [u8; 64], bits: u64) -> [u8; 64] {
    let mut last = block;
    last[56..64].copy_from_slice(&bits.to_be_bytes());
    last
}

fn last_blocks(state: [u32; 8], rest: &[u8], bits: u64) -> [u32; 8] {
    let block = end_marked(rest);
    if rest.len() < 56 {
        compress(state, &with_length(block, bits))
    } else {
        compress(compress(state, &block), &with_length([0; 64], bits))
    }
}

#[inline(never)]
pub fn sha256(message: &[u8]) -> [u8; 32] {
    let (state, rest) = absorb(INITIAL, message);
    to_bytes(last_blocks(state, rest, (message.len() as u64).wrapping_mul(8)))
}
