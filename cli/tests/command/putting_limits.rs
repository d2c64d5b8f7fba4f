//! `put`: where it ends.

use std::fs::File;

use hiwalgam::Refusal;

use crate::putting::put_output;
use crate::support::{blocks, geometry, random, run, run_fed, Stick};

#[test]
fn a_file_as_long_as_the_volume() {
    let stick = Stick::small(1);
    let text = blocks(1, 32);
    let file = stick.folder.file("text", &text);
    let ended = run(stick.command("put", 0).arg("0").arg(&file));
    assert_eq!(ended.served(), put_output(0, 32, 8, 0));
    assert!(stick.opened(0).texts[0] == text);
}

/// A file that is too long is refused before anything is written.
#[test]
fn a_file_that_is_too_long() {
    let stick = Stick::new(geometry(1024, 4, 8), &[5, 8]);
    let before = stick.bytes();
    let cases = [
        (20 * 1024 + 1, 0),
        (21 * 1024, 0),
        (1025, 19),
        (1, 20),
        (1024, 21),
    ];
    for (length, first) in cases {
        let file = stick.folder.file("text", &random(2, length));
        let first = format!("--first={first}");
        let ended = run(stick.command("put", 1).arg("0").arg(&file).arg(&first));
        ended.refused(Refusal::AddressAbove);
        assert!(stick.bytes() == before, "{length} {first}");
        let input = File::open(&file).unwrap();
        let ended = run(stick.command("put", 1).args(["0", &first]).stdin(input));
        ended.refused(Refusal::AddressAbove);
        assert!(stick.bytes() == before, "{length} {first}, standard input");
    }
}

/// Also a file of nothing but zeros, which no block would have to be written for.
#[test]
fn a_file_of_zeros_that_is_too_long() {
    let stick = Stick::small(1);
    let before = stick.bytes();
    let file = stick.folder.file("text", &vec![0; 33 * 1024]);
    run(stick.command("put", 0).arg("0").arg(&file)).refused(Refusal::AddressAbove);
    assert!(stick.bytes() == before);
}

#[test]
fn a_first_block_far_beyond_the_end() {
    let stick = Stick::small(1);
    let before = stick.bytes();
    let file = stick.folder.file("text", &blocks(3, 2));
    for first in [
        "32",
        "18446744073709551615",
        "18446744073709551614",
        "18014398509481984",
    ] {
        let mut command = stick.command("put", 0);
        run(command.arg("0").arg(&file).args(["--first", first])).refused(Refusal::AddressAbove);
        let mut command = stick.command("put", 0);
        let ended = run_fed(command.args(["0", "--first", first]), &blocks(3, 2));
        ended.refused(Refusal::AddressAbove);
    }
    assert!(stick.bytes() == before);
}

/// Of a pipe all that the volume has room for is written.
#[test]
fn a_pipe_that_is_too_long() {
    for surplus in [1, 1024, 100_000] {
        let stick = Stick::small(1);
        let text = random(4, 32 * 1024 + surplus);
        let ended = run_fed(stick.command("put", 0).arg("0"), &text);
        ended.refused(Refusal::AddressAbove);
        assert_eq!(ended.out(), put_output(0, 32, 8, 0));
        assert!(stick.opened(0).texts[0] == text[..32 * 1024]);
    }
}

#[test]
fn a_pipe_as_long_as_the_volume() {
    let stick = Stick::small(1);
    let text = blocks(5, 12);
    assert_eq!(stick.put(0, 0, 20, &text), put_output(0, 12, 3, 0));
    assert!(stick.opened(0).texts[0][20 * 1024..] == text);
}

/// Volume 1 finds three slices free; what was written before the fourth stays.
#[test]
fn a_full_stick() {
    for from_pipe in [true, false] {
        let stick = Stick::small(2);
        let (one, other) = (blocks(6, 20), blocks(7, 32));
        stick.put(1, 0, 0, &one);
        let ended = if from_pipe {
            run_fed(stick.command("put", 1).arg("1"), &other)
        } else {
            let file = stick.folder.file("text", &other);
            run(stick.command("put", 1).arg("1").arg(file))
        };
        ended.refused(Refusal::NoFreeSlice);
        assert_eq!(ended.out(), put_output(1, 12, 3, 0));
        let opened = stick.opened(1);
        assert!(opened.owners.iter().all(|&owner| owner > 0));
        assert!(opened.texts[0][..20 * 1024] == one);
        assert!(opened.texts[1][..12 * 1024] == other[..12 * 1024]);
        assert!(opened.texts[1][12 * 1024..].iter().all(|&byte| byte == 0));
        // Blocks that have a slice can be rewritten still.
        assert_eq!(stick.put(1, 1, 0, &blocks(8, 12)), put_output(1, 12, 0, 0));
        run(&mut stick.command("check", 1)).served();
    }
}

#[test]
fn a_volume_above() {
    let stick = Stick::small(2);
    let before = stick.bytes();
    let file = stick.folder.file("text", &blocks(9, 1));
    for volume in ["1", "14", "15", "18446744073709551615"] {
        run(stick.command("put", 0).arg(volume).arg(&file)).refused(Refusal::VolumeAbove);
        let ended = run_fed(stick.command("put", 0).arg(volume), &blocks(9, 1));
        ended.refused(Refusal::VolumeAbove);
    }
    assert!(stick.bytes() == before);
}

#[test]
fn a_wrong_key() {
    let stick = Stick::small(1);
    let before = stick.bytes();
    let ended = run_fed(stick.command("put", 1).arg("0"), &blocks(10, 1));
    ended.refused(Refusal::NoCell);
    assert_eq!(ended.out(), "");
    assert!(stick.bytes() == before);
}

#[test]
fn a_file_that_cannot_be_read() {
    let stick = Stick::small(1);
    let before = stick.bytes();
    let missing = stick.folder.join("missing");
    let ended = run(stick.command("put", 0).arg("0").arg(&missing));
    ended.failed(&[missing.to_str().unwrap(), "No such file"]);
    let ended = run(stick.command("put", 0).arg("0").arg(stick.folder.path()));
    ended.failed(&[stick.folder.path().to_str().unwrap()]);
    assert!(stick.bytes() == before);
}
