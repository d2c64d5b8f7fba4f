//! The ciphers of the engine, as calls of their own.

use crate::refusal::answered;
use crate::{sys, Refusal};

// In each call every pointer and the length after it come from one slice, which is borrowed until
// the call returns, mutably where the call writes: that is all that the C functions ask for.

/// AES-256 in counter mode (SP 800-38A), which enciphers and deciphers. The key has 32 bytes, the IV
/// 16, the text 0 to 4,096, and `out` as many as the text.
///
/// Refused by 3, 13; `out` stays then.
///
/// ```
/// // The first block of SP 800-38A, F.5.5.
/// let key: [u8; 32] = [
///     0x60, 0x3d, 0xeb, 0x10, 0x15, 0xca, 0x71, 0xbe, 0x2b, 0x73, 0xae, 0xf0, 0x85, 0x7d, 0x77, 0x81,
///     0x1f, 0x35, 0x2c, 0x07, 0x3b, 0x61, 0x08, 0xd7, 0x2d, 0x98, 0x10, 0xa3, 0x09, 0x14, 0xdf, 0xf4,
/// ];
/// let iv = 0xf0f1f2f3_f4f5f6f7_f8f9fafb_fcfdfeff_u128.to_be_bytes();
/// let text = 0x6bc1bee2_2e409f96_e93d7e11_7393172a_u128.to_be_bytes();
/// let mut out = [0; 16];
/// hiwalgam::counter_mode(&key, &iv, &text, &mut out)?;
/// assert_eq!(u128::from_be_bytes(out), 0x601ec313_775789a5_b7a7f504_bbf3d228);
/// # Ok::<(), hiwalgam::Refusal>(())
/// ```
pub fn counter_mode(key: &[u8], iv: &[u8], text: &[u8], out: &mut [u8]) -> Result<(), Refusal> {
    // SAFETY: each pointer goes with the length of its slice.
    #[rustfmt::skip]
    let number = unsafe {
        sys::hiwalgam_counter_mode(
            key.as_ptr(), key.len(),
            iv.as_ptr(), iv.len(),
            text.as_ptr(), text.len(),
            out.as_mut_ptr(), out.len(),
        )
    };
    answered(number)
}

/// Counter mode of a text that begins at byte `position` of a longer one, at most
/// [`POSITION_LIMIT`](crate::POSITION_LIMIT).
///
/// Refused by 3, 13; `out` stays then.
pub fn keystream_at(
    key: &[u8],
    iv: &[u8],
    position: u64,
    text: &[u8],
    out: &mut [u8],
) -> Result<(), Refusal> {
    // SAFETY: each pointer goes with the length of its slice.
    #[rustfmt::skip]
    let number = unsafe {
        sys::hiwalgam_keystream_at(
            key.as_ptr(), key.len(),
            iv.as_ptr(), iv.len(),
            position,
            text.as_ptr(), text.len(),
            out.as_mut_ptr(), out.len(),
        )
    };
    answered(number)
}

/// Seals a text with AES-256-GCM (SP 800-38D). The key has 32 bytes, the IV 12, the associated data
/// 0 to 16, the text 0 to 256, `out` as many as the text, and the tag 16.
///
/// Refused by 3, 13; `out` and `tag` stay then.
pub fn gcm_seal(
    key: &[u8],
    iv: &[u8],
    aad: &[u8],
    text: &[u8],
    out: &mut [u8],
    tag: &mut [u8],
) -> Result<(), Refusal> {
    // SAFETY: each pointer goes with the length of its slice.
    #[rustfmt::skip]
    let number = unsafe {
        sys::hiwalgam_gcm_seal(
            key.as_ptr(), key.len(),
            iv.as_ptr(), iv.len(),
            aad.as_ptr(), aad.len(),
            text.as_ptr(), text.len(),
            out.as_mut_ptr(), out.len(),
            tag.as_mut_ptr(), tag.len(),
        )
    };
    answered(number)
}

/// Opens what [`gcm_seal`] sealed, with the same lengths: `text` is the ciphertext.
///
/// Refused by 3, 13, and by 15 where the tag is wrong; `out` stays then.
pub fn gcm_open(
    key: &[u8],
    iv: &[u8],
    aad: &[u8],
    text: &[u8],
    tag: &[u8],
    out: &mut [u8],
) -> Result<(), Refusal> {
    // SAFETY: each pointer goes with the length of its slice.
    #[rustfmt::skip]
    let number = unsafe {
        sys::hiwalgam_gcm_open(
            key.as_ptr(), key.len(),
            iv.as_ptr(), iv.len(),
            aad.as_ptr(), aad.len(),
            text.as_ptr(), text.len(),
            tag.as_ptr(), tag.len(),
            out.as_mut_ptr(), out.len(),
        )
    };
    answered(number)
}
