//! Texts, keys and numbers.

/// Bytes that a seed gives, by the SplitMix64 generator: no block of them is zeros.
pub fn random(seed: u64, length: usize) -> Vec<u8> {
    let mut state = seed.wrapping_mul(0x1234_5678_9abc_def1);
    let words = std::iter::repeat_with(move || {
        state = state.wrapping_add(0x9e37_79b9_7f4a_7c15);
        let z = (state ^ (state >> 30)).wrapping_mul(0xbf58_476d_1ce4_e5b9);
        let z = (z ^ (z >> 27)).wrapping_mul(0x94d0_49bb_1331_11eb);
        z ^ (z >> 31)
    });
    words.flat_map(u64::to_be_bytes).take(length).collect()
}

/// Blocks of 1,024 random bytes.
pub fn blocks(seed: u64, count: usize) -> Vec<u8> {
    random(seed, 1024 * count)
}

/// Blocks of 1,024 zeros.
pub fn zeros(count: usize) -> Vec<u8> {
    vec![0; 1024 * count]
}

/// The key of a volume.
pub fn key(volume: usize) -> Vec<u8> {
    random(1_000_000 + volume as u64, 32)
}

/// A number with a comma after each group of three digits.
pub fn grouped(number: usize) -> String {
    let digits = number.to_string();
    let first = digits.len() % 3;
    let (head, rest) = digits.split_at(first);
    let groups = rest.as_bytes().chunks(3);
    let groups = groups.map(|group| String::from_utf8(group.to_vec()).unwrap());
    let head = Some(head.to_owned()).filter(|head| !head.is_empty());
    head.into_iter().chain(groups).collect::<Vec<_>>().join(",")
}
