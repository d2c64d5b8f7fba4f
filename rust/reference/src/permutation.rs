//! The permutation: the order in which claims look for a free slice.

/// Whether a permutation has P entries that name each slice once.
pub fn names_each_slice_once(permutation: &[u32], p: usize) -> bool {
    let mut named = vec![false; p];
    permutation.len() == p
        && permutation
            .iter()
            .all(|&slice| match named.get_mut(slice as usize) {
                Some(seen) => !std::mem::replace(seen, true),
                None => false,
            })
}

/// The place at which a search that begins at place `start` ends: the first whose slice is free, or
/// that names no slice; P where there is none. `start` is at most P.
pub fn search(permutation: &[u32], owners: &[u8], start: usize) -> usize {
    let held = |&&slice: &&u32| matches!(owners.get(slice as usize), Some(1..));
    start + permutation[start..].iter().take_while(held).count()
}
