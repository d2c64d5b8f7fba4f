//! Galois/Counter Mode (SP 800-38D) with AES-256 and a tag of 16 bytes.

use crate::aes::{RoundKeys, BLOCK, KEY};
use crate::refusal::Refusal;

/// The longest text, in bytes.
const TEXT_LIMIT: usize = 256;
/// The longest associated data, in bytes.
const AAD_LIMIT: usize = 16;
/// The bytes of an IV that is not hashed.
const IV: usize = 12;
/// The bytes of a tag.
pub const TAG: usize = 16;
/// R, the reduction of x^128, with the coefficient of x^0 in the highest bit.
const R: u128 = 0xe1 << 120;

/// The product of two blocks (section 6.3), bit by bit.
pub fn multiply(x: u128, y: u128) -> u128 {
    let mut z = 0;
    let mut v = y;
    for i in (0..128).rev() {
        z ^= v & ((x >> i) & 1).wrapping_neg();
        v = (v >> 1) ^ (R & (v & 1).wrapping_neg());
    }
    z
}

/// GHASH (section 6.4) of `aad` and `cipher`, each padded with zeros to whole blocks, and of a
/// block with their lengths in bits.
fn ghash(h: u128, aad: &[u8], cipher: &[u8]) -> u128 {
    let mut y = 0;
    for bytes in aad.chunks(BLOCK).chain(cipher.chunks(BLOCK)) {
        let mut block = [0; BLOCK];
        block[..bytes.len()].copy_from_slice(bytes);
        y = multiply(y ^ u128::from_be_bytes(block), h);
    }
    let lengths = (aad.len() as u128 * 8) << 64 | (cipher.len() as u128 * 8);
    multiply(y ^ lengths, h)
}

/// Adds one to the low 32 bits of a counter block (section 6.2).
fn inc32(block: u128) -> u128 {
    let low = (block as u32).wrapping_add(1);
    block >> 32 << 32 | u128::from(low)
}

/// One message's keys and counters.
struct Message {
    keys: RoundKeys,
    /// The hash subkey H.
    h: u128,
    /// The pre-counter block J0.
    j0: u128,
}

impl Message {
    fn new(key: &[u8; KEY], iv: &[u8]) -> Self {
        let keys = RoundKeys::new(key);
        let h = u128::from_be_bytes(keys.encrypt([0; BLOCK]));
        let j0 = if iv.len() == IV {
            let mut block = [0; BLOCK];
            block[..IV].copy_from_slice(iv);
            block[BLOCK - 1] = 1;
            u128::from_be_bytes(block)
        } else {
            ghash(h, &[], iv)
        };
        Message { keys, h, j0 }
    }

    /// GCTR (section 6.5) from the counter after J0.
    fn gctr(&self, text: &[u8], out: &mut [u8]) {
        let mut counter = self.j0;
        for (text, out) in text.chunks(BLOCK).zip(out.chunks_mut(BLOCK)) {
            counter = inc32(counter);
            let keystream = self.keys.encrypt(counter.to_be_bytes());
            for (byte, (text_byte, keystream_byte)) in
                out.iter_mut().zip(text.iter().zip(keystream))
            {
                *byte = text_byte ^ keystream_byte;
            }
        }
    }

    fn tag(&self, aad: &[u8], cipher: &[u8]) -> [u8; TAG] {
        let mask = u128::from_be_bytes(self.keys.encrypt(self.j0.to_be_bytes()));
        (ghash(self.h, aad, cipher) ^ mask).to_be_bytes()
    }
}

/// Authenticated encryption (section 7.1), with no limit on the lengths. `out` is as long as
/// `text`. Returns the tag.
pub fn encrypt(key: &[u8; KEY], iv: &[u8], aad: &[u8], text: &[u8], out: &mut [u8]) -> [u8; TAG] {
    let message = Message::new(key, iv);
    message.gctr(text, out);
    message.tag(aad, out)
}

/// Authenticated decryption (section 7.2), with no limit on the lengths. `out` is as long as
/// `cipher`, and is written only where the tag is right. Returns whether it is.
pub fn decrypt(
    key: &[u8; KEY],
    iv: &[u8],
    aad: &[u8],
    cipher: &[u8],
    tag: &[u8; TAG],
    out: &mut [u8],
) -> bool {
    let message = Message::new(key, iv);
    let right = message.tag(aad, cipher) == *tag;
    if right {
        message.gctr(cipher, out);
    }
    right
}

fn lengths_fit(iv: &[u8], aad: &[u8], text: &[u8], out: &[u8]) -> bool {
    iv.len() == IV && aad.len() <= AAD_LIMIT && text.len() <= TEXT_LIMIT && out.len() == text.len()
}

/// `encrypt` within the limits.
pub fn gcm_seal(
    key: &[u8],
    iv: &[u8],
    aad: &[u8],
    text: &[u8],
    out: &mut [u8],
    tag: &mut [u8],
) -> Result<(), Refusal> {
    let key = key.try_into().map_err(|_| Refusal::KeyLength)?;
    if !lengths_fit(iv, aad, text, out) || tag.len() != TAG {
        return Err(Refusal::WrongLength);
    }
    tag.copy_from_slice(&encrypt(key, iv, aad, text, out));
    Ok(())
}

/// `decrypt` within the limits.
pub fn gcm_open(
    key: &[u8],
    iv: &[u8],
    aad: &[u8],
    text: &[u8],
    tag: &[u8],
    out: &mut [u8],
) -> Result<(), Refusal> {
    let key = key.try_into().map_err(|_| Refusal::KeyLength)?;
    let tag = tag.try_into().map_err(|_| Refusal::WrongLength)?;
    if !lengths_fit(iv, aad, text, out) {
        return Err(Refusal::WrongLength);
    }
    match decrypt(key, iv, aad, text, tag, out) {
        true => Ok(()),
        false => Err(Refusal::TagDiffers),
    }
}
