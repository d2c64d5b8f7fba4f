//! Keys from passphrases, by libargon2.

use std::ffi::{c_int, c_void};

#[link(name = "argon2")]
extern "C" {
    fn argon2id_hash_raw(
        t_cost: u32,
        m_cost: u32,
        parallelism: u32,
        pwd: *const c_void,
        pwdlen: usize,
        salt: *const c_void,
        saltlen: usize,
        hash: *mut c_void,
        hashlen: usize,
    ) -> c_int;
}

/// The key that a passphrase gives with the salt of an image: Argon2id, version 0x13 (the only one that
/// this function has), 3 passes, 64 MiB, 4 lanes, 32 bytes.
pub fn argon2id(passphrase: &[u8], salt: &[u8]) -> Vec<u8> {
    let mut key = vec![0; 32];
    // SAFETY: each pointer goes with the length of what it was taken from.
    let code = unsafe {
        argon2id_hash_raw(
            3,
            65_536,
            4,
            passphrase.as_ptr().cast(),
            passphrase.len(),
            salt.as_ptr().cast(),
            salt.len(),
            key.as_mut_ptr().cast(),
            key.len(),
        )
    };
    assert_eq!(code, 0);
    key
}
