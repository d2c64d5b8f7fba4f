//! Random bytes: each is used once.

use std::collections::HashSet;

use crate::support::{geometry, random, Stick};

/// Tests that no 16 bytes of these, which begin at a multiple of 16, come twice: of random bytes they
/// never do.
#[track_caller]
fn expect_no_repetition<'a>(parts: impl IntoIterator<Item = &'a [u8]>) {
    let mut seen = HashSet::new();
    for piece in parts.into_iter().flat_map(|part| part.chunks_exact(16)) {
        assert!(seen.insert(piece), "16 bytes that come twice");
    }
}

#[test]
fn two_formats_differ_in_every_block() {
    let sticks = [(); 2].map(|()| Stick::small(3));
    let images = sticks.each_ref().map(Stick::bytes);
    for (one, other) in images[0].chunks(1024).zip(images[1].chunks(1024)) {
        assert_ne!(one, other);
    }
    expect_no_repetition(images.iter().map(Vec::as_slice));
}

/// Also where the tape is longer than any buffer that a format may fill at once.
#[test]
fn a_long_format() {
    let stick = Stick::new(geometry(4096, 16, 64), &[64]);
    let image = stick.bytes();
    assert!(image.len() > 4_000_000);
    expect_no_repetition([&image[..]]);
}

/// A session that claims more slices than one filling of its tape serves, and another after it: all bytes
/// of all IV blocks are the tape's.
#[test]
fn the_tape_of_a_session() {
    let geometry = geometry(1024, 1, 200);
    let stick = Stick::new(geometry, &[200]);
    // 1,040 bytes for a claim: 63 to a filling.
    stick.put(0, 0, 0, &random(6, 1024 * 150));
    stick.put(0, 0, 150, &random(7, 1024 * 50));
    let image = stick.bytes();
    let slices = (0..200).map(|slice| &image[geometry.slice(slice)][..1024]);
    expect_no_repetition(slices);
}

/// Rewrites take new IVs: what was written twice stands there in other bytes.
#[test]
fn rewritten_blocks() {
    let stick = Stick::small(1);
    let text = random(8, 1024 * 32);
    let mut images = Vec::new();
    for _ in 0..3 {
        stick.put(0, 0, 0, &text);
        images.push(stick.bytes());
    }
    let mut seen = HashSet::new();
    for image in &images {
        for slice in 0..8 {
            for offset in 0..4 {
                assert!(seen.insert(&image[stick.geometry.iv(slice, offset)]));
            }
        }
    }
}

/// The IV of a map block changes with each claim and each release.
#[test]
fn map_blocks() {
    let stick = Stick::small(1);
    let map_block = stick.geometry.map_block(0, 0);
    let mut seen = HashSet::new();
    for round in 0..4 {
        stick.put(0, 0, 4 * round, &random(9, 1024));
        assert!(seen.insert(stick.bytes()[map_block.clone()][..16].to_vec()));
    }
    for round in 0..4 {
        let released =
            crate::support::run(stick.command("release", 0).args(["0", &round.to_string()]));
        released.served();
        assert!(seen.insert(stick.bytes()[map_block.clone()][..16].to_vec()));
    }
}
