//! What a session holds, what the caller lends, and what a write answers.

use crate::aes::KEY;
use crate::geometry::{Geometry, VOLUMES};
use crate::refusal::Refusal;

/// The bytes of a session's data keys: one key for each volume.
pub const KEYS: usize = KEY * VOLUMES;
/// The map entry of an unmapped slice, which the document calls the mark.
pub const UNMAPPED: u32 = 0xffff_ffff;

/// What an opening hands out and every other call takes. Its fields can hold anything.
#[derive(Clone, PartialEq)]
pub struct Session {
    /// B, the bytes in a block.
    pub b: usize,
    /// S, the data blocks in a slice.
    pub s: usize,
    /// P, the physical slices.
    pub p: usize,
    /// The highest volume that is open.
    pub k: usize,
    /// The place of the permutation at which a claim begins to look. While session, tables and
    /// permutation pass on untouched, no slice at an earlier place is free.
    pub start_place: usize,
    /// The data keys (VEK) of volumes 0 to 14.
    pub keys: [u8; KEYS],
    /// N, the logical slices of volumes 0 to k; 0 above.
    pub counts: [usize; VOLUMES],
    pub opened: bool,
}

impl Session {
    /// The geometry of a session that is open and can serve.
    pub fn geometry(&self) -> Option<Geometry> {
        let geometry = Geometry::new(self.b, self.s, self.p)?;
        let counts = self.counts.get(..=self.k)?;
        let allowed = self.opened
            && self.start_place <= self.p
            && counts.iter().all(|&count| geometry.allows_count(count));
        allowed.then_some(geometry)
    }

    /// The data key of a volume.
    pub fn data_key(&self, volume: usize) -> &[u8; KEY] {
        let key = &self.keys[KEY * volume..KEY * (volume + 1)];
        key.try_into().unwrap()
    }
}

/// The tables that the caller lends to be altered.
pub struct Tables<'a> {
    /// The physical slice of logical slice `l` of volume `i` is at `i * P + l`.
    pub maps: &'a mut [u32],
    /// For each physical slice 0 where it is free, and `i + 1` where volume `i` holds it.
    pub owners: &'a mut [u8],
}

impl Tables<'_> {
    /// Sets all entries to unmapped and all slices to free.
    pub fn clear(&mut self) {
        self.maps.fill(UNMAPPED);
        self.owners.fill(0);
    }
}

/// Whether tables have the lengths of a geometry.
pub fn tables_fit(geometry: Geometry, maps: &[u32], owners: &[u8]) -> bool {
    maps.len() == VOLUMES * geometry.p && owners.len() == geometry.p
}

/// Random bytes, and the position of the next one that is not used, which the document calls the
/// tape mark.
#[derive(Clone)]
pub struct Tape<'a> {
    pub bytes: &'a [u8],
    pub position: usize,
}

impl<'a> Tape<'a> {
    /// Refuses where fewer than `need` bytes are left.
    pub fn check(&self, need: usize) -> Result<(), Refusal> {
        match self.bytes.get(self.position..) {
            Some(rest) if rest.len() >= need => Ok(()),
            _ => Err(Refusal::TapeShort),
        }
    }

    /// The next `len` bytes, of a tape that was checked for them.
    pub fn draw(&mut self, len: usize) -> &'a [u8] {
        let drawn = &self.bytes[self.position..self.position + len];
        self.position += len;
        drawn
    }
}

/// A block of a volume.
#[derive(Clone, Copy)]
pub struct Target {
    pub volume: usize,
    pub address: usize,
}

/// A served write.
pub enum Stored {
    /// `probes` are the places of the permutation that were looked at, from the start place on.
    Claimed {
        slice: usize,
        probes: usize,
    },
    Rewritten {
        slice: usize,
    },
}

/// A refused write.
pub struct Refused {
    pub refusal: Refusal,
    pub probes: usize,
}

/// A refusal before the permutation is looked at.
impl From<Refusal> for Refused {
    fn from(refusal: Refusal) -> Self {
        Refused { refusal, probes: 0 }
    }
}
