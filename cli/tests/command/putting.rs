//! `put`: what is written, claimed and passed over.

use std::fs::{self, File};

use crate::support::{blocks, random, run, run_fed, run_fed_in_pieces, zeros, Stick};

/// What `put` prints.
pub fn put_output(volume: usize, written: usize, claimed: usize, passed: usize) -> String {
    format!(
        "volume {volume}: {written} blocks written, {claimed} slices claimed, \
         {passed} blocks of zeros passed over\n"
    )
}

/// The volume as it is where it was zeros, with bytes put from a block on.
fn volume_with(first: usize, bytes: &[u8]) -> Vec<u8> {
    let mut text = zeros(32);
    text[first * 1024..][..bytes.len()].copy_from_slice(bytes);
    text
}

#[test]
fn from_a_file() {
    let stick = Stick::small(2);
    let text = blocks(1, 10);
    let file = stick.folder.file("text", &text);
    let ended = run(stick.command("put", 0).arg("0").arg(&file));
    assert_eq!(ended.served(), put_output(0, 10, 3, 0));
    let opened = stick.opened(0);
    assert!(opened.texts[0] == volume_with(0, &text));
    assert_eq!(opened.map(0).iter().flatten().count(), 3);
    assert!(opened.map(0)[..3].iter().all(Option::is_some));
    assert!(fs::read(file).unwrap() == text);
}

#[test]
fn from_a_block_on() {
    let stick = Stick::small(1);
    let text = blocks(2, 3);
    let file = stick.folder.file("text", &text);
    let ended = run(stick
        .command("put", 0)
        .arg("0")
        .arg(&file)
        .args(["--first", "6"]));
    assert_eq!(ended.served(), put_output(0, 3, 2, 0));
    let opened = stick.opened(0);
    assert!(opened.texts[0] == volume_with(6, &text));
    let mapped: Vec<bool> = opened.map(0).iter().map(Option::is_some).collect();
    assert_eq!(
        mapped,
        [false, true, true, false, false, false, false, false]
    );
}

#[test]
fn from_standard_input() {
    let stick = Stick::small(1);
    let text = blocks(3, 5);
    assert_eq!(stick.put(0, 0, 0, &text), put_output(0, 5, 2, 0));
    assert!(stick.opened(0).texts[0] == volume_with(0, &text));
    // A file as standard input.
    let text = blocks(4, 7);
    let file = File::open(stick.folder.file("text", &text)).unwrap();
    let ended = run(stick
        .command("put", 0)
        .args(["0", "--first", "25"])
        .stdin(file));
    assert_eq!(ended.served(), put_output(0, 7, 2, 0));
    assert!(stick.opened(0).texts[0][25 * 1024..] == text);
    let text = blocks(5, 1);
    let ended = run_fed(stick.command("put", 0).args(["0", "-"]), &text);
    assert_eq!(ended.served(), put_output(0, 1, 0, 0));
    assert!(stick.opened(0).texts[0][..1024] == text);
}

/// The pieces of a pipe end anywhere.
#[test]
fn from_a_pipe_in_odd_pieces() {
    let stick = Stick::small(1);
    let text = random(5, 20 * 1024 + 123);
    let mut pieces = Vec::new();
    let mut rest = &text[..];
    for length in [1, 1022, 1, 1, 7, 1000, 1025, 3000, 2048, 511, 8191] {
        let (piece, after) = rest.split_at(length);
        pieces.push(piece);
        rest = after;
    }
    pieces.push(rest);
    let ended = run_fed_in_pieces(stick.command("put", 0).args(["0", "--first=2"]), &pieces);
    assert_eq!(ended.served(), put_output(0, 21, 6, 0));
    assert!(stick.opened(0).texts[0] == volume_with(2, &text));
}

#[test]
fn a_file_that_does_not_tell_its_length() {
    let stick = Stick::small(1);
    // Its length is 0 for those who only ask.
    let text = fs::read("/proc/version").unwrap();
    let ended = run(stick.command("put", 0).args(["0", "/proc/version"]));
    assert_eq!(ended.served(), put_output(0, 1, 1, 0));
    assert!(stick.opened(0).texts[0] == volume_with(0, &text));
}

#[test]
fn nothing_at_all() {
    let stick = Stick::small(1);
    let before = stick.bytes();
    assert_eq!(stick.put(0, 0, 0, b""), put_output(0, 0, 0, 0));
    let file = stick.folder.file("text", b"");
    let ended = run(stick.command("put", 0).arg("0").arg(&file));
    assert_eq!(ended.served(), put_output(0, 0, 0, 0));
    assert!(stick.bytes() == before);
}

/// The rest of a last part block stays, from a pipe and from a file.
#[test]
fn a_part_block_keeps_the_rest() {
    let stick = Stick::small(1);
    let (old, new) = (blocks(6, 8), random(7, 2 * 1024 + 100));
    stick.put(0, 0, 0, &old);
    let mut expected = volume_with(0, &old);
    assert_eq!(stick.put(0, 0, 2, &new), put_output(0, 3, 0, 0));
    expected[2 * 1024..][..new.len()].copy_from_slice(&new);
    assert!(stick.opened(0).texts[0] == expected);

    let file = stick.folder.file("text", &new[..1]);
    let ended = run(stick
        .command("put", 0)
        .arg("0")
        .arg(&file)
        .args(["--first", "7"]));
    assert_eq!(ended.served(), put_output(0, 1, 0, 0));
    expected[7 * 1024] = new[0];
    assert!(stick.opened(0).texts[0] == expected);
}

/// In a logical slice without a slice the rest is zeros.
#[test]
fn a_part_block_of_a_new_slice() {
    let stick = Stick::small(1);
    let text = random(8, 1023);
    assert_eq!(stick.put(0, 0, 31, &text), put_output(0, 1, 1, 0));
    assert!(stick.opened(0).texts[0] == volume_with(31, &text));
}

#[test]
fn zeros_claim_nothing() {
    let stick = Stick::small(1);
    let before = stick.bytes();
    assert_eq!(stick.put(0, 0, 0, &zeros(32)), put_output(0, 0, 0, 32));
    // A part block of zeros is one too.
    assert_eq!(stick.put(0, 0, 3, &[0; 100]), put_output(0, 0, 0, 1));
    let file = stick.folder.file("text", &vec![0; 2 * 1024 + 1]);
    let ended = run(stick.command("put", 0).arg("0").arg(&file));
    assert_eq!(ended.served(), put_output(0, 0, 0, 3));
    assert!(stick.bytes() == before);
}

/// Where there is a slice, zeros are written: what was there is gone.
#[test]
fn zeros_over_a_text() {
    let stick = Stick::small(1);
    stick.put(0, 0, 0, &blocks(9, 8));
    assert_eq!(stick.put(0, 0, 2, &zeros(4)), put_output(0, 4, 0, 0));
    let mut expected = volume_with(0, &blocks(9, 8));
    expected[2 * 1024..6 * 1024].fill(0);
    assert!(stick.opened(0).texts[0] == expected);
    assert_eq!(stick.put(0, 0, 7, &[0; 100]), put_output(0, 1, 0, 0));
    expected[7 * 1024..][..100].fill(0);
    assert!(stick.opened(0).texts[0] == expected);
}

/// Zeros before the first text of a logical slice are passed over, those behind it are written.
#[test]
fn zeros_among_texts() {
    let stick = Stick::small(1);
    let one = blocks(10, 1);
    let text = [&one, &zeros(3)[..], &zeros(4), &zeros(3), &one].concat();
    assert_eq!(stick.put(0, 0, 0, &text), put_output(0, 5, 2, 7));
    let opened = stick.opened(0);
    assert!(opened.texts[0] == volume_with(0, &text));
    let mapped: Vec<bool> = opened.map(0).iter().map(Option::is_some).collect();
    assert_eq!(mapped[..4], [true, false, true, false]);
}

/// A block with one byte that is not zero, wherever it stands, is no block of zeros.
#[test]
fn nearly_zeros() {
    let stick = Stick::small(1);
    let mut text = zeros(9);
    text[0] = 1;
    text[4 * 1024 + 511] = 1;
    text[9 * 1024 - 1] = 1;
    assert_eq!(stick.put(0, 0, 0, &text), put_output(0, 9, 3, 0));
    assert!(stick.opened(0).texts[0] == volume_with(0, &text));
}

#[test]
fn get_gives_what_was_put() {
    let stick = Stick::small(3);
    let texts = [11, 12, 13].map(|seed| blocks(seed, 8));
    for (volume, claimed) in [2, 3, 3].into_iter().enumerate() {
        let printed = stick.put(2, volume, 3 * volume, &texts[volume]);
        assert_eq!(printed, put_output(volume, 8, claimed, 0));
    }
    for key in 0..3 {
        for (volume, text) in texts.iter().enumerate().take(key + 1) {
            let ended = run(stick.command("get", key).arg(volume.to_string()));
            assert!(
                ended.served_bytes() == volume_with(3 * volume, text),
                "key {key}"
            );
        }
        // The outside witnesses see the same.
        for (volume, text) in stick.opened(key).texts.iter().enumerate() {
            assert!(*text == volume_with(3 * volume, &texts[volume]));
        }
    }
}

/// What is put with one key can be altered with a higher one.
#[test]
fn puts_with_different_keys() {
    let stick = Stick::small(2);
    let (one, other) = (blocks(14, 4), blocks(15, 2));
    stick.put(0, 0, 0, &one);
    assert_eq!(stick.put(1, 0, 1, &other), put_output(0, 2, 0, 0));
    let expected = [&one[..1024], &other[..], &one[3 * 1024..]].concat();
    assert!(stick.opened(0).texts[0] == volume_with(0, &expected));
    assert!(stick.opened(1).texts[0] == volume_with(0, &expected));
}

/// A put changes the slices and the map blocks of its volume, and no byte else.
#[test]
fn bytes_that_a_put_changes() {
    let stick = Stick::small(3);
    stick.put(2, 2, 0, &blocks(16, 4));
    stick.put(2, 1, 0, &blocks(17, 4));
    let before = stick.bytes();
    stick.put(2, 1, 2, &blocks(18, 4));
    let after = stick.bytes();
    let held = stick.opened(2).map(1);
    let mut allowed = vec![stick.geometry.map_block(1, 0)];
    allowed.extend(
        held.iter()
            .flatten()
            .map(|&slice| stick.geometry.slice(slice as usize)),
    );
    for (at, (old, new)) in before.iter().zip(&after).enumerate() {
        assert!(
            old == new || allowed.iter().any(|range| range.contains(&at)),
            "byte {at}"
        );
    }
}
