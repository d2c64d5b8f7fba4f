//! Shuffling: the permutation of a session.

use std::mem::size_of;

use crate::refusal::answered;
use crate::sys;
use crate::{Geometry, Refusal, Tape};

/// Makes a permutation from the tape, for a session to be opened with: sets `permutation`, which has P
/// entries, to the slices 0 to P - 1 in an order that is drawn. What it held has no influence.
///
/// It starts with the slices in order, and exchanges each place from the last down to place 1 with a
/// place drawn evenly from 0 to that place. A draw is two bytes of the tape, most significant first. With
/// n places to draw from, a draw at or above the largest multiple of n that is not above 65,536 is thrown
/// away, and of any other the remainder by n is the place. Each order comes of equally many runs of draws
/// that are not thrown away, so that random bytes favour none.
///
/// The tape's position is moved on past the last byte used. A shuffle takes 2 x (P - 1) bytes, and two
/// more for each draw that it throws away: how many is not known before. Where 2 x P + 512 random bytes
/// are left, a 21 has a chance below 2^-128 at every P.
///
/// Refused by 1, 4 (`permutation` has not P entries), 21 (the tape ends first, or the position is past
/// its end). The list and the position stay then.
///
/// ```
/// use hiwalgam::{shuffle, Geometry, Refusal, Session, Tables, Tape};
///
/// # // No random bytes: the example gives the same at each run.
/// # let random: Vec<u8> = (0..60_000_u64).map(|i| (i * i / 7 + i / 251) as u8).collect();
/// let geometry = Geometry { block_bytes: 1024, slice_blocks: 4, slices: 4 };
/// let (mut tape, mut device) = (Tape::new(&random), vec![0; geometry.device_length()]);
/// hiwalgam::format(&mut device, geometry, 1, &[7; 32], &[4], &mut tape)?;
///
/// let mut permutation = [0; 4];
/// shuffle(geometry, &mut permutation, &mut tape)?;
/// let mut tables = Tables::new(geometry);
/// let session = Session::open(&device, geometry, &[7; 32], &mut tables, &permutation)?;
/// assert_eq!(session.start_place(), 0);
///
/// // Each slice stands in the list once.
/// permutation.sort();
/// assert_eq!(permutation, [0, 1, 2, 3]);
///
/// // A list of another length, and a tape that ends within the third draw.
/// let other = shuffle(geometry, &mut [0; 5], &mut tape);
/// assert_eq!(other, Err(Refusal::TableLength));
/// let short = shuffle(geometry, &mut permutation, &mut Tape::new(&random[..5]));
/// assert_eq!((short, permutation), (Err(Refusal::TapeShort), [0, 1, 2, 3]));
/// # Ok::<(), Refusal>(())
/// ```
pub fn shuffle(
    geometry: Geometry,
    permutation: &mut [u32],
    tape: &mut Tape<'_>,
) -> Result<(), Refusal> {
    // SAFETY: each pointer goes with the length of what it was taken from, which is borrowed until
    // the call returns: what it writes mutably, so that it overlaps nothing else.
    #[rustfmt::skip]
    let number = unsafe {
        sys::hiwalgam_shuffle(
            &geometry, size_of::<sys::Geometry>(),
            permutation.as_mut_ptr(), permutation.len(),
            tape.bytes.as_ptr(), tape.bytes.len(), &mut tape.position,
        )
    };
    answered(number)
}
