//! Formatting: how a device begins.

use std::mem::size_of;

use crate::refusal::answered;
use crate::sys;
use crate::{Geometry, Refusal, Tape};

/// Makes a blank device with 1 to 15 volumes. `keys` has a key of 32 bytes for each, end to end: key
/// `i` opens the volumes 0 to `i`, and every block of them is zeros. `counts` has for each volume its
/// N, the number of its logical slices, from 1 to P: the volume has N x S blocks, and an open session
/// tells how many ([`Session::blocks`](crate::Session::blocks)).
///
/// A count sets no slice aside. The volumes take the slices of the device as their blocks are written,
/// whatever their counts add up to; a volume that is to be as large as the device has P.
///
/// The device has [`Geometry::device_length`] bytes, and is written whole: what it held is gone. All
/// of it comes from the tape, as do the keys of the volumes and the IVs of what is sealed. The tape
/// has [`Geometry::format_tape_length`] bytes left at least, which are random and unused before, and
/// its position is moved on by so many.
///
/// Refused by 1 (also for a count that is not 1 to P, and where `counts` has not one for each of the
/// volumes), 2, 23, 3 (`keys` is not 32 bytes for each), 21, 24 (a key opens the cell of a lower
/// volume: a key that was given twice does). Device and position stay then.
///
/// ```
/// use hiwalgam::{Block, Geometry, Refusal, Session, Tables, Tape};
///
/// # // No random bytes: the example gives the same at each run.
/// # fn random(length: usize) -> Vec<u8> {
/// #     (0..length).map(|i| (i * i / 7 + i / 251) as u8).collect()
/// # }
/// let geometry = Geometry { block_bytes: 1024, slice_blocks: 4, slices: 4 };
/// // Volume 0 has one logical slice, volume 1 as many as the device has slices.
/// let (keys, counts) = ([[7; 32], [8; 32]], [1, geometry.slices]);
/// let drawn = random(geometry.format_tape_length(keys.len()) + 2048);
/// let mut tape = Tape::new(&drawn);
/// let mut device = vec![0; geometry.device_length()];
/// hiwalgam::format(&mut device, geometry, keys.len(), keys.as_flattened(), &counts, &mut tape)?;
///
/// // Key 1 opens the volumes 0 and 1, which are zeros.
/// let (mut tables, mut permutation) = (Tables::new(geometry), [0; 4]);
/// hiwalgam::shuffle(geometry, &mut permutation, &mut tape)?;
/// let mut session = Session::open(&device, geometry, &keys[1], &mut tables, &permutation)?;
/// assert_eq!(session.volume(), 1);
/// assert_eq!([0, 1, 2].map(|volume| session.blocks(volume)), [Some(4), Some(16), None]);
/// let (block, mut buffer) = (Block { volume: 1, address: 5 }, [0xff; 1024]);
/// session.read(&device, &tables, block, &mut buffer)?;
/// assert_eq!(buffer, [0; 1024]);
///
/// // What is written is there again in the next session.
/// session.write(&mut device, &mut tables, &permutation, &mut tape, block, &[3; 1024])?;
/// session.close(&device, &mut tables)?;
/// let session = Session::open(&device, geometry, &keys[1], &mut tables, &permutation)?;
/// session.read(&device, &tables, block, &mut buffer)?;
/// assert_eq!(buffer, [3; 1024]);
///
/// // Key 0 opens volume 0 alone.
/// let session = Session::open(&device, geometry, &keys[0], &mut tables, &permutation)?;
/// assert_eq!(session.volume(), 0);
/// # Ok::<(), Refusal>(())
/// ```
pub fn format(
    device: &mut [u8],
    geometry: Geometry,
    volumes: usize,
    keys: &[u8],
    counts: &[u64],
    tape: &mut Tape<'_>,
) -> Result<(), Refusal> {
    // SAFETY: each pointer goes with the length of what it was taken from, which is borrowed until
    // the call returns: what it writes mutably, so that it overlaps nothing else.
    #[rustfmt::skip]
    let number = unsafe {
        sys::hiwalgam_format(
            device.as_mut_ptr(), device.len(),
            &geometry, size_of::<sys::Geometry>(),
            volumes, keys.as_ptr(), keys.len(),
            counts.as_ptr(), counts.len(),
            tape.bytes.as_ptr(), tape.bytes.len(), &mut tape.position,
        )
    };
    answered(number)
}
