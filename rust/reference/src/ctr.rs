//! Counter mode (SP 800-38A, section 6.5). The IV is the first counter, and the counter adds one
//! over all 128 bits.

use crate::aes::{RoundKeys, BLOCK, KEY};
use crate::refusal::Refusal;

/// The longest text, in bytes.
const TEXT_LIMIT: usize = 4096;
/// The last position from which a keystream can start.
const POSITION_LIMIT: u64 = 1 << 40;

/// Encrypts or decrypts `text`.
pub fn counter_mode(key: &[u8], iv: &[u8], text: &[u8], out: &mut [u8]) -> Result<(), Refusal> {
    keystream_at(key, iv, 0, text, out)
}

/// Encrypts or decrypts a text that begins at byte `position` of a longer one.
pub fn keystream_at(
    key: &[u8],
    iv: &[u8],
    position: u64,
    text: &[u8],
    out: &mut [u8],
) -> Result<(), Refusal> {
    let key = key.try_into().map_err(|_| Refusal::KeyLength)?;
    let iv = iv.try_into().map_err(|_| Refusal::WrongLength)?;
    if text.len() > TEXT_LIMIT || out.len() != text.len() || position > POSITION_LIMIT {
        return Err(Refusal::WrongLength);
    }
    let keys = RoundKeys::new(key);
    let block = BLOCK as u64;
    let mut counter = u128::from_be_bytes(iv).wrapping_add(u128::from(position / block));
    // The bytes of the first keystream block that come before the text.
    let mut skipped = (position % block) as usize;
    let mut start = 0;
    while start < text.len() {
        let keystream = keys.encrypt(counter.to_be_bytes());
        let end = text.len().min(start + BLOCK - skipped);
        let bytes = text[start..end].iter().zip(&keystream[skipped..]);
        for (byte, (text_byte, keystream_byte)) in out[start..end].iter_mut().zip(bytes) {
            *byte = text_byte ^ keystream_byte;
        }
        counter = counter.wrapping_add(1);
        skipped = 0;
        start = end;
    }
    Ok(())
}

/// Encrypts or decrypts `bytes` in place, with no limit on their length.
pub fn apply(key: &[u8; KEY], iv: &[u8; BLOCK], bytes: &mut [u8]) {
    let keys = RoundKeys::new(key);
    let mut counter = u128::from_be_bytes(*iv);
    for chunk in bytes.chunks_mut(BLOCK) {
        let keystream = keys.encrypt(counter.to_be_bytes());
        for (byte, keystream_byte) in chunk.iter_mut().zip(keystream) {
            *byte ^= keystream_byte;
        }
        counter = counter.wrapping_add(1);
    }
}
