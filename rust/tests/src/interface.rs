//! The calls of the ciphers and of the engine, with one interface for all implementations.
//!
//! Its types are the tests' own. Numbers are of the machine's size, so that tests can compute with
//! them.

use std::fmt::Debug;

use hiwalgam::{Refusal, KEY_BYTES};
pub use hiwalgam::{UNMAPPED, VOLUMES};

/// The bytes of a session's data keys: one key for each volume.
pub const KEYS: usize = KEY_BYTES * VOLUMES;

/// What a call answers.
pub type Answer = Result<(), Refusal>;

/// The answer of a call that is not refused.
pub const SERVED: Answer = Ok(());

/// What an opening hands out and every other call takes. Its fields can hold anything.
#[derive(Clone, PartialEq, Debug)]
pub struct Session {
    /// B, the bytes in a block.
    pub b: usize,
    /// S, the data blocks in a slice.
    pub s: usize,
    /// P, the physical slices.
    pub p: usize,
    /// The highest volume that is open.
    pub k: usize,
    /// 1 for open, anything else for closed.
    pub open: usize,
    /// The place of the permutation at which a claim begins to look.
    pub start_place: usize,
    /// The data keys (VEK) of volumes 0 to 14.
    pub keys: [u8; KEYS],
    /// N, the logical slices of volumes 0 to k; 0 above.
    pub counts: [usize; VOLUMES],
}

impl Session {
    /// The session of a refused opening.
    pub const CLOSED: Session = Session {
        b: 0,
        s: 0,
        p: 0,
        k: 0,
        open: 0,
        start_place: 0,
        keys: [0; KEYS],
        counts: [0; VOLUMES],
    };
}

/// The tables that the caller lends.
pub struct Tables<'a> {
    /// The physical slice of logical slice `l` of volume `i` is at `i * P + l`.
    pub maps: &'a mut [u32],
    /// For each physical slice 0 where it is free, and `i + 1` where volume `i` holds it.
    pub owners: &'a mut [u8],
}

/// Random bytes, and the position of the next one that is not used.
pub struct Tape<'a> {
    pub bytes: &'a [u8],
    pub position: usize,
}

/// A block of a volume.
#[derive(Clone, Copy, PartialEq, Eq, Hash, Debug)]
pub struct Target {
    pub volume: usize,
    pub address: usize,
}

/// The answer to a write, with zeros for what it does not give.
#[derive(Clone, Copy, PartialEq, Debug)]
pub struct Written {
    pub answer: Answer,
    /// 1 where a slice was claimed, 0 where a block was rewritten.
    pub claimed: usize,
    pub slice: usize,
    /// The places of the permutation that were looked at, from the start place on.
    pub probes: usize,
}

impl Written {
    /// An answer without slice and probes.
    pub fn of(answer: Answer) -> Self {
        Written {
            answer,
            claimed: 0,
            slice: 0,
            probes: 0,
        }
    }
}

/// The ciphers of one implementation.
pub trait Ciphers: Debug {
    /// Encrypts one block with AES-256.
    fn encrypt_block(&self, key: &[u8], block: &[u8], out: &mut [u8]) -> Answer;

    /// Encrypts or decrypts in counter mode.
    fn counter_mode(&self, key: &[u8], iv: &[u8], text: &[u8], out: &mut [u8]) -> Answer;

    /// Counter mode of a text that begins at byte `position` of a longer one.
    fn keystream_at(
        &self,
        key: &[u8],
        iv: &[u8],
        position: u64,
        text: &[u8],
        out: &mut [u8],
    ) -> Answer;

    /// Encrypts and authenticates with GCM.
    fn gcm_seal(
        &self,
        key: &[u8],
        iv: &[u8],
        aad: &[u8],
        text: &[u8],
        out: &mut [u8],
        tag: &mut [u8],
    ) -> Answer;

    /// Decrypts with GCM where the tag is right.
    fn gcm_open(
        &self,
        key: &[u8],
        iv: &[u8],
        aad: &[u8],
        text: &[u8],
        tag: &[u8],
        out: &mut [u8],
    ) -> Answer;
}

/// The eight calls of one implementation of the engine.
pub trait Engine: Debug {
    /// `numbers` are B, S and P. For each of the volumes `keys` is to hold a key, end to end, and
    /// `counts` its N.
    fn format(
        &self,
        device: &mut [u8],
        numbers: [usize; 3],
        volumes: usize,
        keys: &[u8],
        counts: &[usize],
        tape: &mut Tape,
    ) -> Answer;

    /// `numbers` are B, S and P. Whatever `permutation` holds is replaced.
    fn shuffle(&self, numbers: [usize; 3], permutation: &mut [u32], tape: &mut Tape) -> Answer;

    /// `numbers` are B, S and P. Whatever `session` holds is replaced.
    fn open(
        &self,
        device: &[u8],
        numbers: [usize; 3],
        key: &[u8],
        tables: &mut Tables,
        permutation: &[u32],
        session: &mut Session,
    ) -> Answer;

    fn read(
        &self,
        device: &[u8],
        tables: &Tables,
        session: &Session,
        target: Target,
        buf: &mut [u8],
    ) -> Answer;

    /// Gives the length of the found part, and copies it to the start of `out` where it fits.
    fn find(
        &self,
        device: &[u8],
        tables: &Tables,
        session: &Session,
        target: Target,
        out: &mut [u8],
    ) -> usize;

    #[allow(clippy::too_many_arguments)]
    fn write(
        &self,
        device: &mut [u8],
        tables: &mut Tables,
        permutation: &[u32],
        tape: &mut Tape,
        session: &mut Session,
        target: Target,
        text: &[u8],
    ) -> Written;

    /// Gives the slice freed. `logical` is a logical slice of the volume.
    #[allow(clippy::too_many_arguments)]
    fn release(
        &self,
        device: &mut [u8],
        tables: &mut Tables,
        permutation: &[u32],
        tape: &mut Tape,
        session: &mut Session,
        volume: usize,
        logical: usize,
    ) -> Result<usize, Refusal>;

    fn close(&self, device: &[u8], tables: &mut Tables, session: &mut Session) -> Answer;
}
