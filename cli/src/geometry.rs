//! The geometry of an image, of which the length tells the number of slices.

use hiwalgam::{Geometry, Refusal};

use crate::arguments::Blocks;
use crate::failure::{Failure, Outcome};

/// The most slices of a stick.
const SLICES_LIMIT: u64 = 4096;

/// The geometry of an image of this length, or the refusal that an opening would answer.
pub fn of_length(blocks: Blocks, bytes: u64) -> Outcome<Geometry> {
    judged(blocks, slices_in(blocks, bytes).max(1), bytes)
}

/// A geometry for an image of this length, unless the engine refuses the two.
pub fn judged(blocks: Blocks, slices: u64, bytes: u64) -> Outcome<Geometry> {
    match length(blocks, slices) {
        0 => Err(Refusal::BadGeometry.into()),
        length if length == bytes => Ok(with_slices(blocks, slices)),
        length => Err(wrong_length(blocks, slices, length, bytes)),
    }
}

/// The most slices of a stick that is not longer than so many bytes; 0 where a stick of one is.
pub fn slices_in(blocks: Blocks, bytes: u64) -> u64 {
    let mut slices = (1..=SLICES_LIMIT).rev();
    let most = slices.find(|slices| length(blocks, *slices) <= bytes);
    most.unwrap_or(0)
}

/// The bytes of a stick; 0 where the geometry is not allowed.
pub fn length(blocks: Blocks, slices: u64) -> u64 {
    with_slices(blocks, slices).device_length() as u64
}

fn with_slices(blocks: Blocks, slices: u64) -> Geometry {
    Geometry {
        block_bytes: blocks.block_bytes,
        slice_blocks: blocks.slice_blocks,
        slices,
    }
}

/// Refusal 2, with the lengths that a stick could have.
fn wrong_length(blocks: Blocks, slices: u64, length: u64, bytes: u64) -> Failure {
    let near = match nearest_lengths(blocks, bytes) {
        (Some(below), Some(above)) => format!("s next below and above are {below} and {above}"),
        (Some(below), None) => format!(" next below is {below}"),
        (None, Some(above)) => format!(" next above is {above}"),
        (None, None) => return Refusal::DeviceLength.into(),
    };
    let words = format!(
        "; this has {bytes} bytes, {slices} slices take {length}, and the exact length{near}; \
         a partition can be made exactly so long"
    );
    Failure::Refused(Refusal::DeviceLength, words)
}

/// The lengths of sticks next below and next above a length.
fn nearest_lengths(blocks: Blocks, bytes: u64) -> (Option<u64>, Option<u64>) {
    let below = slices_in(blocks, bytes.saturating_sub(1));
    let above = slices_in(blocks, bytes) + 1;
    // With 0 slices, or more than the limit, a geometry is not allowed.
    let allowed = |slices| Some(length(blocks, slices)).filter(|length| *length > 0);
    (allowed(below), allowed(above))
}

#[cfg(test)]
mod tests {
    use super::*;

    const SMALL: Blocks = Blocks {
        block_bytes: 1024,
        slice_blocks: 4,
    };

    #[test]
    fn slices_follow_from_the_length() {
        assert_eq!(slices_in(SMALL, 52_224), 4);
        assert_eq!(slices_in(SMALL, 52_223), 3);
        assert_eq!(slices_in(SMALL, 0), 0);
        assert_eq!(slices_in(SMALL, u64::MAX), 4096);
        assert_eq!(of_length(SMALL, 52_224).unwrap().slices, 4);
    }

    #[test]
    fn nearest_lengths_lie_around() {
        assert_eq!(nearest_lengths(SMALL, 52_223), (Some(47_104), Some(52_224)));
        assert_eq!(nearest_lengths(SMALL, 52_224), (Some(47_104), Some(57_344)));
        assert_eq!(nearest_lengths(SMALL, 0), (None, Some(36_864)));
        let longest = length(SMALL, 4096);
        assert_eq!(nearest_lengths(SMALL, u64::MAX), (Some(longest), None));
    }

    #[test]
    fn wrong_numbers_are_refused() {
        let refusal = |blocks, bytes| match of_length(blocks, bytes) {
            Err(Failure::Refused(refusal, _)) => refusal,
            other => panic!("{other:?}"),
        };
        let odd = Blocks {
            block_bytes: 2048,
            slice_blocks: u64::MAX,
        };
        assert_eq!(refusal(odd, 52_224), Refusal::BadGeometry);
        assert_eq!(refusal(odd, 0), Refusal::BadGeometry);
        assert_eq!(refusal(SMALL, 52_223), Refusal::DeviceLength);
        assert_eq!(refusal(SMALL, 0), Refusal::DeviceLength);
    }
}
