//! What is lent to the calls, and what a write answers.

use std::error::Error;
use std::fmt;

use crate::refusal::answered;
use crate::sys::{self, Geometry, GCM_IV_BYTES, IV_BYTES, KEY_BYTES, UNMAPPED, VOLUMES};
use crate::Refusal;

/// The most slices of a device.
const SLICES_LIMIT: u64 = 4096;

// 0 serves where B, S or P is not allowed: every call refuses such a geometry before it looks at a length.
impl Geometry {
    /// The bytes of a device, B x (1 + 15 x (1 + m) + P x (S + 1)), where m is the number of map
    /// blocks of each volume; 0 where B, S or P is not allowed.
    pub fn device_length(self) -> usize {
        let blocks = |m| 1 + VOLUMES as u64 * (1 + m) + self.slices * (self.slice_blocks + 1);
        let length = self.map_blocks().map(|m| self.block_bytes * blocks(m));
        length.unwrap_or(0) as usize
    }

    /// The bytes of the tape that [`format`](crate::format()) takes for so many volumes, whatever their
    /// counts: the device's, and 88 + 16 x m for each volume; 0 where B, S or P is not allowed.
    pub fn format_tape_length(self, volumes: usize) -> usize {
        // More volumes are refused before the tape is looked at.
        let volumes = volumes.min(VOLUMES);
        let volume = |m| 2 * KEY_BYTES + 2 * GCM_IV_BYTES + IV_BYTES * m as usize;
        let taken = self.map_blocks().map(|m| volumes * volume(m));
        self.device_length() + taken.unwrap_or(0)
    }

    /// m, the map blocks of each volume. None where B, S or P is not allowed.
    fn map_blocks(self) -> Option<u64> {
        let Geometry {
            block_bytes: b,
            slice_blocks: s,
            slices: p,
        } = self;
        let iv = IV_BYTES as u64;
        let allowed = matches!(b, 1024 | 4096)
            && (1..=b / iv).contains(&s)
            && (1..=SLICES_LIMIT).contains(&p);
        // An entry has four bytes.
        allowed.then(|| p.div_ceil((b - iv) / 4))
    }
}

/// A block of a volume.
#[derive(Clone, Copy, PartialEq, Eq, Hash, Debug)]
pub struct Block {
    /// The volume, 0 to 14.
    pub volume: u64,
    /// The number of the block in the volume, from 0 to N x S - 1.
    pub address: u64,
}

/// The tables of an open device, which an opening fills and the other calls take. They are lent:
/// a session does not keep them. As long as it is used, nothing else may alter them.
///
/// They own their memory, or borrow it: `Tables { maps: &mut maps[..], owners: &mut owners[..] }`.
#[derive(Clone, PartialEq, Eq, Debug)]
pub struct Tables<M = Vec<u32>, O = Vec<u8>> {
    /// 15 x P entries. Entry `l` of volume `v` stands at `v * P + l`: a slice, or [`UNMAPPED`]. Those
    /// from the volume's N on are unmapped.
    pub maps: M,
    /// P bytes: 0 for a slice that is free, and `v + 1` for one that volume `v` holds.
    pub owners: O,
}

impl Tables {
    /// Tables of the right lengths for a device of this geometry, with nothing mapped.
    pub fn new(geometry: Geometry) -> Self {
        // An opening refuses more slices before it looks at the tables.
        let slices = geometry.slices.min(SLICES_LIMIT) as usize;
        Tables {
            maps: vec![UNMAPPED; VOLUMES * slices],
            owners: vec![0; slices],
        }
    }
}

/// Random bytes, each of which is used once, and the position of the next one that is unused.
///
/// The bytes become IVs, those of a formatting also the keys of its volumes, and those of a shuffle the
/// order of a permutation. `Debug` does not show them.
pub struct Tape<'a> {
    /// The whole tape, the used bytes included.
    pub bytes: &'a [u8],
    /// The next unused byte. A served formatting, shuffle, write or release moves it on.
    pub position: usize,
}

impl<'a> Tape<'a> {
    /// A tape of which no byte is used.
    pub fn new(bytes: &'a [u8]) -> Self {
        Tape { bytes, position: 0 }
    }
}

impl fmt::Debug for Tape<'_> {
    fn fmt(&self, f: &mut fmt::Formatter<'_>) -> fmt::Result {
        f.debug_struct("Tape")
            .field("length", &self.bytes.len())
            .field("position", &self.position)
            .finish_non_exhaustive()
    }
}

/// What a served write did, with the slice.
#[derive(Clone, Copy, PartialEq, Eq, Hash, Debug)]
pub enum Change {
    /// The block's logical slice had no slice, and got this one.
    Claimed(u64),
    /// The block was written over where it stood, in this slice.
    Rewritten(u64),
}

impl Change {
    /// The slice that was claimed or rewritten.
    pub fn slice(self) -> u64 {
        match self {
            Change::Claimed(slice) | Change::Rewritten(slice) => slice,
        }
    }
}

/// The answer of a served write.
#[derive(Clone, Copy, PartialEq, Eq, Hash, Debug)]
pub struct Written {
    /// What the write did.
    pub change: Change,
    /// The places of the permutation that it looked at: those from the session's start place to the
    /// claimed one, or 0 for a rewrite.
    pub probes: u64,
}

impl Written {
    /// The answer of a write by what the C function answered and left.
    pub(crate) fn answered(number: u8, record: sys::Written) -> Result<Written, WriteRefused> {
        let probes = record.probes;
        answered(number).map_err(|refusal| WriteRefused { refusal, probes })?;
        let change = match record.claimed {
            0 => Change::Rewritten(record.slice),
            _ => Change::Claimed(record.slice),
        };
        Ok(Written { change, probes })
    }
}

/// The answer of a refused write. `?` turns it into its [`Refusal`].
#[derive(Clone, Copy, PartialEq, Eq, Hash, Debug)]
pub struct WriteRefused {
    /// Why the write was refused.
    pub refusal: Refusal,
    /// The places of the permutation that it looked at, from the session's start place on.
    pub probes: u64,
}

impl From<WriteRefused> for Refusal {
    fn from(refused: WriteRefused) -> Refusal {
        refused.refusal
    }
}

impl fmt::Display for WriteRefused {
    fn fmt(&self, f: &mut fmt::Formatter<'_>) -> fmt::Result {
        write!(f, "{}, after {} probes", self.refusal, self.probes)
    }
}

impl Error for WriteRefused {}
