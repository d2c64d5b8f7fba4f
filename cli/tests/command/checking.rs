//! `check`.

use hiwalgam::Refusal;

use crate::support::{blocks, geometry, run, zeros, Stick};

#[test]
fn a_good_stick() {
    let stick = Stick::new(geometry(1024, 4, 8), &[6, 8, 1]);
    stick.put(2, 0, 0, &blocks(1, 6));
    stick.put(2, 1, 30, &blocks(2, 2));
    let lines = [
        "volume 0: 24 blocks read, 8 in 2 mapped slices, 16 zeros\n",
        "volume 1: 32 blocks read, 4 in 1 mapped slices, 28 zeros\n",
        "volume 2: 4 blocks read, 0 in 0 mapped slices, 4 zeros\n",
    ];
    for volume in 0..3 {
        let lines = lines[..=volume].concat();
        let expected = format!("{lines}all blocks of volumes 0 to {volume} were read\n");
        assert_eq!(run(&mut stick.command("check", volume)).served(), expected);
    }
}

#[test]
fn a_full_stick_and_one_of_zeros() {
    let stick = Stick::small(1);
    let blank = "volume 0: 32 blocks read, 0 in 0 mapped slices, 32 zeros\n\
                 all blocks of volumes 0 to 0 were read\n";
    assert_eq!(run(&mut stick.command("check", 0)).served(), blank);
    stick.put(0, 0, 0, &blocks(3, 32));
    let full = "volume 0: 32 blocks read, 32 in 8 mapped slices, 0 zeros\n\
                all blocks of volumes 0 to 0 were read\n";
    assert_eq!(run(&mut stick.command("check", 0)).served(), full);
    // Zeros in slices that are mapped count with their slices.
    stick.put(0, 0, 0, &zeros(32));
    assert_eq!(run(&mut stick.command("check", 0)).served(), full);
}

/// The commands that need the maps.
const COMMANDS: [&str; 4] = ["check", "volumes", "map", "shuffle"];

/// An altered entry of a map names no slice: a bit that is turned in four bytes FF.
#[test]
fn an_altered_map_block() {
    let stick = Stick::small(3);
    let map_block = stick.geometry.map_block(1, 0);
    // Entry 3: its highest bit.
    stick.alter(|device| device[map_block.start + 16 + 4 * 3] ^= 0x80);
    for command in COMMANDS {
        run(&mut stick.command(command, 1)).refused(Refusal::BadEntry);
        run(&mut stick.command(command, 2)).refused(Refusal::BadEntry);
        // Volume 0 does not need that map.
        run(&mut stick.command(command, 0)).served();
    }
}

/// A slice that two logical slices have.
#[test]
fn a_slice_that_is_mapped_twice() {
    let stick = Stick::small(1);
    stick.put(0, 0, 0, &blocks(4, 8));
    let map = stick.opened(0).map(0);
    let (one, other) = (map[0].unwrap(), map[1].unwrap());
    let map_block = stick.geometry.map_block(0, 0);
    // In counter mode the difference of the texts is that of the ciphertexts. Numbers are below 256 here.
    stick.alter(|device| device[map_block.start + 16 + 4 + 3] ^= (one ^ other) as u8);
    for command in COMMANDS {
        run(&mut stick.command(command, 0)).refused(Refusal::SliceTwice);
    }
    run(stick.command("get", 0).arg("0")).refused(Refusal::SliceTwice);
    run(stick.command("release", 0).args(["0", "0"])).refused(Refusal::SliceTwice);
}

#[test]
fn an_altered_header() {
    let stick = Stick::small(3);
    let header = stick.geometry.header(1);
    // A byte of the ciphertext, which begins at byte 12.
    stick.alter(|device| device[header.start + 40] ^= 1);
    for command in COMMANDS {
        run(&mut stick.command(command, 1)).refused(Refusal::HeaderTag);
        run(&mut stick.command(command, 2)).refused(Refusal::HeaderTag);
        run(&mut stick.command(command, 0)).served();
    }
}

#[test]
fn an_altered_cell() {
    let stick = Stick::small(2);
    let cell = stick.geometry.cell(1);
    stick.alter(|device| device[cell.end - 1] ^= 1);
    for command in COMMANDS {
        run(&mut stick.command(command, 1)).refused(Refusal::NoCell);
        run(&mut stick.command(command, 0)).served();
    }
}

/// Blocks are not authenticated: what is altered there is read as it is.
#[test]
fn an_altered_block() {
    let stick = Stick::small(1);
    stick.put(0, 0, 0, &blocks(5, 4));
    let slice = stick.opened(0).map(0)[0].unwrap() as usize;
    let data = stick.geometry.data(slice, 2);
    stick.alter(|device| device[data.start + 7] ^= 1);
    run(&mut stick.command("check", 0)).served();
    let ended = run(stick.command("get", 0).args(["0", "--blocks=4"]));
    let mut expected = blocks(5, 4);
    expected[2 * 1024 + 7] ^= 1;
    assert!(ended.served_bytes() == expected);
}
