//! The forward cipher of AES-256 (FIPS 197), on bytes.

use crate::refusal::Refusal;

/// The bytes of a block.
pub const BLOCK: usize = 16;
/// The bytes of a key.
pub const KEY: usize = 32;
/// Nk, the words of a key.
const KEY_WORDS: usize = KEY / 4;
/// Nr, the number of rounds.
const ROUNDS: usize = 14;
/// The words of the key schedule: 60.
const SCHEDULE_WORDS: usize = 4 * (ROUNDS + 1);

static S_BOX: [u8; 256] = s_box();

/// The product of `b` and x in GF(2^8), modulo x^8 + x^4 + x^3 + x + 1.
const fn xtime(b: u8) -> u8 {
    (b << 1) ^ (0x1b & (b >> 7).wrapping_neg())
}

/// The product of `a` and `b` in GF(2^8).
const fn multiply(mut a: u8, b: u8) -> u8 {
    let mut product = 0;
    let mut i = 0;
    while i < 8 {
        if (b >> i) & 1 == 1 {
            product ^= a;
        }
        a = xtime(a);
        i += 1;
    }
    product
}

/// The inverse of `b` in GF(2^8), which is b^254, where 254 = 2 + 4 + .. + 128; 0 for 0.
const fn inverse(b: u8) -> u8 {
    let mut square = b;
    let mut product = 1;
    let mut i = 0;
    while i < 7 {
        square = multiply(square, square);
        product = multiply(product, square);
        i += 1;
    }
    product
}

/// The S-box: the inverse, then the affine transformation (section 5.1.1).
const fn s_box() -> [u8; 256] {
    let mut table = [0; 256];
    let mut i = 0;
    while i < 256 {
        let b = inverse(i as u8);
        table[i] =
            b ^ b.rotate_left(1) ^ b.rotate_left(2) ^ b.rotate_left(3) ^ b.rotate_left(4) ^ 0x63;
        i += 1;
    }
    table
}

/// The key schedule of one key.
pub struct RoundKeys([[u8; 4]; SCHEDULE_WORDS]);

impl RoundKeys {
    /// Key expansion (section 5.2).
    pub fn new(key: &[u8; KEY]) -> Self {
        let mut words = [[0; 4]; SCHEDULE_WORDS];
        for (word, bytes) in words.iter_mut().zip(key.chunks_exact(4)) {
            word.copy_from_slice(bytes);
        }
        let mut round_constant = 1;
        for i in KEY_WORDS..SCHEDULE_WORDS {
            let mut word = words[i - 1];
            if i % KEY_WORDS == 0 {
                word.rotate_left(1);
                word = sub_word(word);
                word[0] ^= round_constant;
                round_constant = xtime(round_constant);
            } else if i % KEY_WORDS == 4 {
                word = sub_word(word);
            }
            for (byte, earlier) in word.iter_mut().zip(words[i - KEY_WORDS]) {
                *byte ^= earlier;
            }
            words[i] = word;
        }
        RoundKeys(words)
    }

    /// The words of the schedule, w[0] to w[59].
    pub fn words(&self) -> &[[u8; 4]; SCHEDULE_WORDS] {
        &self.0
    }

    /// The cipher (section 5.1). The state is column by column: byte `r + 4 * c` is in row `r` and
    /// column `c`.
    pub fn encrypt(&self, block: [u8; BLOCK]) -> [u8; BLOCK] {
        let mut state = block;
        self.add_round_key(&mut state, 0);
        for round in 1..ROUNDS {
            sub_bytes(&mut state);
            shift_rows(&mut state);
            mix_columns(&mut state);
            self.add_round_key(&mut state, round);
        }
        sub_bytes(&mut state);
        shift_rows(&mut state);
        self.add_round_key(&mut state, ROUNDS);
        state
    }

    fn add_round_key(&self, state: &mut [u8; BLOCK], round: usize) {
        let key = self.0[4 * round..4 * round + 4].as_flattened();
        for (byte, key_byte) in state.iter_mut().zip(key) {
            *byte ^= key_byte;
        }
    }
}

fn sub_word(word: [u8; 4]) -> [u8; 4] {
    word.map(|byte| S_BOX[usize::from(byte)])
}

fn sub_bytes(state: &mut [u8; BLOCK]) {
    for byte in state {
        *byte = S_BOX[usize::from(*byte)];
    }
}

/// Row `r` moves `r` columns to the left.
fn shift_rows(state: &mut [u8; BLOCK]) {
    let before = *state;
    for c in 0..4 {
        for r in 0..4 {
            state[r + 4 * c] = before[r + 4 * ((c + r) % 4)];
        }
    }
}

/// Each column is multiplied by the matrix whose rows are the rotations of 2, 3, 1, 1. The first
/// row is 2a + 3b + c + d = a + (a + b + c + d) + 2(a + b).
fn mix_columns(state: &mut [u8; BLOCK]) {
    for column in state.chunks_exact_mut(4) {
        let [a, b, c, d] = [column[0], column[1], column[2], column[3]];
        let sum = a ^ b ^ c ^ d;
        column[0] ^= sum ^ xtime(a ^ b);
        column[1] ^= sum ^ xtime(b ^ c);
        column[2] ^= sum ^ xtime(c ^ d);
        column[3] ^= sum ^ xtime(d ^ a);
    }
}

/// Encrypts one block.
pub fn encrypt_block(key: &[u8], block: &[u8], out: &mut [u8]) -> Result<(), Refusal> {
    let key = key.try_into().map_err(|_| Refusal::KeyLength)?;
    let block = block.try_into().map_err(|_| Refusal::WrongLength)?;
    if out.len() != BLOCK {
        return Err(Refusal::WrongLength);
    }
    out.copy_from_slice(&RoundKeys::new(key).encrypt(block));
    Ok(())
}
