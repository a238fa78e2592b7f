//! SHA-256, as FIPS 180-4 has it.

/// The bytes of a block.
const BLOCK: usize = 64;

/// The bytes of the message's length, which stands at the end of the last block.
const LENGTH: usize = 8;

/// The state before the first block: the first 32 bits of the fractional parts of the square roots of the
/// first 8 primes.
pub const FIRST_STATE: [u32; 8] = [
    0x6a09e667, 0xbb67ae85, 0x3c6ef372, 0xa54ff53a, 0x510e527f, 0x9b05688c, 0x1f83d9ab, 0x5be0cd19,
];

/// The rounds' constants: the first 32 bits of the fractional parts of the cube roots of the first 64 primes.
pub const ROUNDS: [u32; 64] = [
    0x428a2f98, 0x71374491, 0xb5c0fbcf, 0xe9b5dba5, 0x3956c25b, 0x59f111f1, 0x923f82a4, 0xab1c5ed5,
    0xd807aa98, 0x12835b01, 0x243185be, 0x550c7dc3, 0x72be5d74, 0x80deb1fe, 0x9bdc06a7, 0xc19bf174,
    0xe49b69c1, 0xefbe4786, 0x0fc19dc6, 0x240ca1cc, 0x2de92c6f, 0x4a7484aa, 0x5cb0a9dc, 0x76f988da,
    0x983e5152, 0xa831c66d, 0xb00327c8, 0xbf597fc7, 0xc6e00bf3, 0xd5a79147, 0x06ca6351, 0x14292967,
    0x27b70a85, 0x2e1b2138, 0x4d2c6dfc, 0x53380d13, 0x650a7354, 0x766a0abb, 0x81c2c92e, 0x92722c85,
    0xa2bfe8a1, 0xa81a664b, 0xc24b8b70, 0xc76c51a3, 0xd192e819, 0xd6990624, 0xf40e3585, 0x106aa070,
    0x19a4c116, 0x1e376c08, 0x2748774c, 0x34b0bcb5, 0x391c0cb3, 0x4ed8aa4a, 0x5b9cca4f, 0x682e6ff3,
    0x748f82ee, 0x78a5636f, 0x84c87814, 0x8cc70208, 0x90befffa, 0xa4506ceb, 0xbef9a3f7, 0xc67178f2,
];

/// The digest of a message.
pub fn sha256(message: &[u8]) -> [u8; 32] {
    let (blocks, rest) = message.as_chunks::<BLOCK>();
    let end = end_of(rest, message.len());
    let (last, _) = end.as_chunks();
    let state = blocks.iter().chain(last).fold(FIRST_STATE, compressed);
    let mut digest = [0; 32];
    for (bytes, word) in digest.chunks_exact_mut(4).zip(state) {
        bytes.copy_from_slice(&word.to_be_bytes());
    }
    digest
}

/// A digest in hexadecimal digits, lower case.
pub fn hex(digest: &[u8]) -> String {
    digest.iter().map(|byte| format!("{byte:02x}")).collect()
}

/// What follows the last whole block: the rest of the message, a bit that is set, bits that are not, and the
/// message's length in bits. It fills one block or two.
fn end_of(rest: &[u8], length: usize) -> Vec<u8> {
    let mut end = rest.to_vec();
    end.push(0x80);
    end.resize((end.len() + LENGTH).next_multiple_of(BLOCK) - LENGTH, 0);
    end.extend((8 * length as u64).to_be_bytes());
    end
}

/// The state after a block.
fn compressed(state: [u32; 8], block: &[u8; BLOCK]) -> [u32; 8] {
    let [mut a, mut b, mut c, mut d, mut e, mut f, mut g, mut h] = state;
    for (round, word) in ROUNDS.into_iter().zip(schedule(block)) {
        let choice = (e & f) ^ (!e & g);
        let majority = (a & b) ^ (a & c) ^ (b & c);
        let of_e = e.rotate_right(6) ^ e.rotate_right(11) ^ e.rotate_right(25);
        let of_a = a.rotate_right(2) ^ a.rotate_right(13) ^ a.rotate_right(22);
        let first = sum(&[h, of_e, choice, round, word]);
        let second = sum(&[of_a, majority]);
        [h, g, f, e] = [g, f, e, sum(&[d, first])];
        [d, c, b, a] = [c, b, a, sum(&[first, second])];
    }
    let after = [a, b, c, d, e, f, g, h];
    std::array::from_fn(|place| sum(&[state[place], after[place]]))
}

/// A word for each round: those of the block, and then each made of four before it.
fn schedule(block: &[u8; BLOCK]) -> [u32; ROUNDS.len()] {
    let mut words = [0; ROUNDS.len()];
    let (own, _) = block.as_chunks();
    for (word, &bytes) in words.iter_mut().zip(own) {
        *word = u32::from_be_bytes(bytes);
    }
    for place in own.len()..words.len() {
        let [early, late] = [words[place - 15], words[place - 2]];
        let early = early.rotate_right(7) ^ early.rotate_right(18) ^ (early >> 3);
        let late = late.rotate_right(17) ^ late.rotate_right(19) ^ (late >> 10);
        words[place] = sum(&[words[place - 16], early, words[place - 7], late]);
    }
    words
}

/// The sum modulo 2 to the power of 32.
fn sum(words: &[u32]) -> u32 {
    words
        .iter()
        .fold(0, |sum: u32, &word| sum.wrapping_add(word))
}
