//! The C functions themselves, as `include/hiwalgam.h` declares them.
//!
//! The other modules wrap them all. They are public for programs that keep their structs in memory
//! of their own, and for tests that hand in structs of a wrong size.
//!
//! # Safety
//!
//! Every function takes any numbers and any lengths, and tests them itself. What it cannot test is
//! left to the caller:
//!
//! - Each pointer is followed by a length: of a list the number of its elements, of a struct its
//!   size. The pointer is valid for that length, and what is not const may be written.
//! - Lists of `u32` and `u64`, the position of the tape and the slice of a release are aligned. Bytes
//!   and structs may stand anywhere.
//! - Null may be passed with length 0. The position of the tape and the slice of a release, which have
//!   no length, are never null.
//! - The buffers of one call do not overlap, but for those that are const.

use std::fmt;
use std::mem::size_of;

/// The number that a served call answers; any other is that of a refusal.
pub const SERVED: u8 = 0;

/// Volumes of a stick.
pub const VOLUMES: usize = 15;
/// Bytes of a key.
pub const KEY_BYTES: usize = 32;
/// Bytes of an IV of counter mode.
pub const IV_BYTES: usize = 16;
/// Bytes of an IV of GCM.
pub const GCM_IV_BYTES: usize = 12;
/// Bytes of a tag of GCM.
pub const GCM_TAG_BYTES: usize = 16;

/// The map entry of a logical slice that has no slice.
pub const UNMAPPED: u32 = 0xffff_ffff;

/// Bytes of the longest text of counter mode.
pub const TEXT_LIMIT: usize = 4096;
/// Bytes of the longest text of GCM.
pub const GCM_TEXT_LIMIT: usize = 256;
/// Bytes of the longest associated data of GCM.
pub const GCM_AAD_LIMIT: usize = 16;
/// The last byte at which a text can begin.
pub const POSITION_LIMIT: u64 = 1_099_511_627_776;

/// The size of [`Geometry`].
pub const GEOMETRY_BYTES: usize = 24;
/// The size of [`Session`].
pub const SESSION_BYTES: usize = 648;
/// The size of [`Written`].
pub const WRITTEN_BYTES: usize = 24;

const _: () = assert!(size_of::<Geometry>() == GEOMETRY_BYTES);
const _: () = assert!(size_of::<Session>() == SESSION_BYTES);
const _: () = assert!(size_of::<Written>() == WRITTEN_BYTES);

/// How a device is divided: B, S and P.
#[repr(C)]
#[derive(Clone, Copy, PartialEq, Eq, Hash, Debug)]
pub struct Geometry {
    /// B, the bytes in a block: 1,024 or 4,096.
    pub block_bytes: u64,
    /// S, the data blocks in a slice: 1 to B / 16.
    pub slice_blocks: u64,
    /// P, the slices of the device: 1 to 4,096.
    pub slices: u64,
}

/// A session as C has it. It holds keys, which `Debug` does not show.
#[repr(C)]
#[derive(Clone, PartialEq, Eq)]
pub struct Session {
    /// The geometry with which the device was opened.
    pub geometry: Geometry,
    /// The opened volume: it and all below it are open.
    pub volume: u64,
    /// 1 for open, anything else for closed.
    pub open: u64,
    /// The place of the permutation at which a claim begins to look, 0 to P.
    pub start_place: u64,
    /// The data keys of volumes 0 to 14, end to end; zeros above the opened volume.
    pub keys: [u8; VOLUMES * KEY_BYTES],
    /// N, the logical slices, of volumes 0 to 14, each 1 to P; 0 above the opened volume.
    pub counts: [u64; VOLUMES],
}

impl Session {
    /// The session of a refused opening: closed, and all zeros.
    pub const CLOSED: Session = Session {
        geometry: Geometry {
            block_bytes: 0,
            slice_blocks: 0,
            slices: 0,
        },
        volume: 0,
        open: 0,
        start_place: 0,
        keys: [0; VOLUMES * KEY_BYTES],
        counts: [0; VOLUMES],
    };
}

impl fmt::Debug for Session {
    fn fmt(&self, f: &mut fmt::Formatter<'_>) -> fmt::Result {
        f.debug_struct("Session")
            .field("geometry", &self.geometry)
            .field("volume", &self.volume)
            .field("open", &self.open)
            .field("start_place", &self.start_place)
            .field("counts", &self.counts)
            .finish_non_exhaustive()
    }
}

/// What a write did, as C has it.
#[repr(C)]
#[derive(Clone, Copy, PartialEq, Eq, Default, Debug)]
pub struct Written {
    /// 1 where it claimed a slice, 0 where it rewrote a block or was refused.
    pub claimed: u64,
    /// The slice that it claimed or rewrote; 0 where it was refused.
    pub slice: u64,
    /// The places of the permutation that it looked at, from the session's start place on.
    pub probes: u64,
}

#[rustfmt::skip]
extern "C" {
    /// Makes a blank device from a tape, whose volumes 0 to `i` key `i` opens. `keys` has a key of 32
    /// bytes for each of the volumes, end to end, and `counts` the N of each, 1 to P.
    ///
    /// Refused by 13 (geometry of another size), 1 (also for a count, or the number of counts), 2, 23,
    /// 3, 21, 24.
    pub fn hiwalgam_format(
        device: *mut u8, device_length: usize,
        geometry: *const Geometry, geometry_size: usize,
        volumes: usize, keys: *const u8, keys_length: usize,
        counts: *const u64, counts_length: usize,
        tape: *const u8, tape_length: usize, position: *mut usize,
    ) -> u8;

    /// Sets `permutation`, which has P entries, to the slices 0 to P - 1 in an order that is drawn from a
    /// tape. It needs no value before. A draw takes two bytes of the tape, and some are thrown away.
    ///
    /// Refused by 13 (geometry of another size), 1, 4, 21; the list and `*position` stay then.
    pub fn hiwalgam_shuffle(
        geometry: *const Geometry, geometry_size: usize,
        permutation: *mut u32, permutation_length: usize,
        tape: *const u8, tape_length: usize, position: *mut usize,
    ) -> u8;

    /// Opens a device with a key: the lowest volume whose cell the key opens, and all below it. The
    /// session's start place is the first place of the permutation whose slice is free, or P, and its
    /// counts are those of the headers.
    ///
    /// Refused by 13 (geometry or session of another size; everything stays), 1, 2, 3, 4, 5 (the
    /// tables stay), 6, 7, 8, 9, 10 (entries become [`UNMAPPED`], owners 0). A refused opening but
    /// the 13 leaves [`Session::CLOSED`].
    pub fn hiwalgam_open(
        device: *const u8, device_length: usize,
        geometry: *const Geometry, geometry_size: usize,
        key: *const u8, key_length: usize,
        maps: *mut u32, maps_length: usize,
        owners: *mut u8, owners_length: usize,
        permutation: *const u32, permutation_length: usize,
        session: *mut Session, session_size: usize,
    ) -> u8;

    /// Reads a block of an open volume, which has N x S blocks, into `buffer`, which has B bytes.
    ///
    /// Refused by 13 (session of another size), 20, 2, 4, 11, 12, 13 (buffer), 9.
    pub fn hiwalgam_read(
        device: *const u8, device_length: usize,
        maps: *const u32, maps_length: usize,
        owners: *const u8, owners_length: usize,
        session: *const Session, session_size: usize,
        volume: u64, address: u64,
        buffer: *mut u8, buffer_length: usize,
    ) -> u8;

    /// Finds the ciphertext of a block: returns its length, B, or 0 where the block has no slice or
    /// a read of it would be refused. It is copied to the start of `out` where that has room.
    pub fn hiwalgam_find(
        device: *const u8, device_length: usize,
        maps: *const u32, maps_length: usize,
        owners: *const u8, owners_length: usize,
        session: *const Session, session_size: usize,
        volume: u64, address: u64,
        out: *mut u8, out_length: usize,
    ) -> usize;

    /// Writes a block of an open volume: `text` has B bytes. A rewrite takes 16 bytes of the tape, a claim
    /// B + 16: its map block is on the device, with the last 16 for its IV, when the call returns. A claim
    /// looks from the session's start place on, which becomes the claimed place plus one.
    ///
    /// Refused by 13 (session or written of another size), 20, 2, 4, 5 (length), 11, 12, 13 (text),
    /// 9 (a rewrite: the asked entry; a claim: any entry of its map block); a claim by 5 (a place that
    /// names no slice) or 22; both by 21. A 22 sets the start place to P. `written` is set, refused or
    /// not, unless its size is wrong.
    pub fn hiwalgam_write(
        device: *mut u8, device_length: usize,
        maps: *mut u32, maps_length: usize,
        owners: *mut u8, owners_length: usize,
        permutation: *const u32, permutation_length: usize,
        tape: *const u8, tape_length: usize, position: *mut usize,
        session: *mut Session, session_size: usize,
        volume: u64, address: u64,
        text: *const u8, text_length: usize,
        written: *mut Written, written_size: usize,
    ) -> u8;

    /// Releases a logical slice of an open volume: its entry becomes [`UNMAPPED`], its slice free and
    /// `*slice` that slice. The session's start place becomes the slice's place in the permutation where
    /// that is lower. It takes 16 bytes of the tape: the IV of the map block that holds the entry, which is
    /// on the device when the call returns. No other byte of the device changes.
    ///
    /// Refused by 13 (session of another size), 20, 2, 4, 5, 11, 12, 9 (any entry of the map block), 25,
    /// 21; `*slice` stays then.
    pub fn hiwalgam_release(
        device: *mut u8, device_length: usize,
        maps: *mut u32, maps_length: usize,
        owners: *mut u8, owners_length: usize,
        permutation: *const u32, permutation_length: usize,
        tape: *const u8, tape_length: usize, position: *mut usize,
        session: *mut Session, session_size: usize,
        volume: u64, logical_slice: u64, slice: *mut u64,
    ) -> u8;

    /// Closes a session: the tables and the keys are wiped; geometry, volume, start place and counts
    /// stay. The device is lent for its length alone.
    ///
    /// Refused by 13 (session of another size), 20, 2, 4.
    pub fn hiwalgam_close(
        device: *const u8, device_length: usize,
        maps: *mut u32, maps_length: usize,
        owners: *mut u8, owners_length: usize,
        session: *mut Session, session_size: usize,
    ) -> u8;

    /// AES-256 in counter mode (SP 800-38A). Refused by 3, 13.
    pub fn hiwalgam_counter_mode(
        key: *const u8, key_length: usize,
        iv: *const u8, iv_length: usize,
        text: *const u8, text_length: usize,
        out: *mut u8, out_length: usize,
    ) -> u8;

    /// The same for a text that begins at byte `position` of a longer one. Refused by 3, 13.
    pub fn hiwalgam_keystream_at(
        key: *const u8, key_length: usize,
        iv: *const u8, iv_length: usize,
        position: u64,
        text: *const u8, text_length: usize,
        out: *mut u8, out_length: usize,
    ) -> u8;

    /// AES-256-GCM (SP 800-38D). Refused by 3, 13.
    pub fn hiwalgam_gcm_seal(
        key: *const u8, key_length: usize,
        iv: *const u8, iv_length: usize,
        aad: *const u8, aad_length: usize,
        text: *const u8, text_length: usize,
        out: *mut u8, out_length: usize,
        tag: *mut u8, tag_length: usize,
    ) -> u8;

    /// Its opening. Refused by 3, 13, and by 15 where the tag is wrong: `out` stays then.
    pub fn hiwalgam_gcm_open(
        key: *const u8, key_length: usize,
        iv: *const u8, iv_length: usize,
        aad: *const u8, aad_length: usize,
        text: *const u8, text_length: usize,
        tag: *const u8, tag_length: usize,
        out: *mut u8, out_length: usize,
    ) -> u8;
}
