//! Refusals: each with number, name, reason and advice. Those that a caller of the command cannot come to
//! (4, 5, 13, 14, 15, 20, 21) are left out.

use std::collections::BTreeSet;
use std::process::Command;

use hiwalgam::Refusal;

use crate::key_files::OPENING;
use crate::support::{blocks, geometry, grouped, hiwalgam, key, run, run_fed, Stick};

/// A stick with a full volume 0.
fn full_stick() -> Stick {
    let stick = Stick::new(geometry(1024, 4, 8), &[8, 8]);
    stick.put(0, 0, 0, &blocks(1, 32));
    stick
}

/// `format` of another image with keys and counts.
fn format_command(stick: &Stick, keys: &[Vec<u8>], counts: &[&str]) -> Command {
    let mut command = hiwalgam();
    command.arg("format").arg(stick.folder.join("other"));
    command.args(["-B", "1024", "-S", "4", "--slices", "8"]);
    for (i, (key, count)) in keys.iter().zip(counts).enumerate() {
        let file = stick.folder.file(&format!("other{i}"), key);
        command.args(["--volume", count]).arg("-k").arg(file);
    }
    command
}

#[test]
fn every_refusal_has_its_own_advice() {
    let stick = full_stick();
    let mut advice = BTreeSet::new();
    let mut expect = |refusal: Refusal, command: &mut Command| {
        let ended = run_fed(command, &blocks(2, 1));
        assert!(
            advice.insert(ended.refused(refusal).to_owned()),
            "{refusal:?}"
        );
    };
    let zero = format_command(&stick, &[key(0)], &["0"]);
    expect(Refusal::BadGeometry, &mut { zero });
    expect(
        Refusal::KeyLength,
        &mut format_command(&stick, &[vec![7; 31]], &["8"]),
    );
    let keys: Vec<Vec<u8>> = (0..16).map(key).collect();
    expect(
        Refusal::KeyCount,
        &mut format_command(&stick, &keys, &["8"; 16]),
    );
    expect(
        Refusal::LowerCell,
        &mut format_command(&stick, &[key(0), key(0)], &["8"; 2]),
    );
    expect(Refusal::NoCell, &mut stick.command("volumes", 3));
    expect(Refusal::VolumeAbove, stick.command("get", 0).arg("1"));
    expect(
        Refusal::AddressAbove,
        stick.command("get", 0).args(["0", "--first", "40"]),
    );
    expect(Refusal::NoFreeSlice, stick.command("put", 1).arg("1"));
    expect(
        Refusal::SliceUnmapped,
        stick.command("release", 1).args(["1", "0"]),
    );

    let (bytes, map) = (stick.bytes(), stick.opened(0).map(0));
    let entries = stick.geometry.map_block(0, 0).start + 16;
    stick.alter(|device| device[entries] ^= 0x80);
    expect(Refusal::BadEntry, &mut stick.command("check", 0));
    let difference = (map[0].unwrap() ^ map[1].unwrap()) as u8;
    stick.alter(|device| {
        device.copy_from_slice(&bytes);
        device[entries + 3] ^= difference;
    });
    expect(Refusal::SliceTwice, &mut stick.command("check", 0));
    stick.alter(|device| {
        device.copy_from_slice(&bytes);
        device[1024 + 50] ^= 1;
    });
    expect(Refusal::HeaderTag, &mut stick.command("check", 0));
    stick.set_length(72_000);
    expect(Refusal::DeviceLength, &mut stick.command("check", 0));
    assert_eq!(advice.len(), 13);
}

/// 71 blocks are 8 slices of 4 blocks, and 20 of 1: the header tells the right one.
#[test]
fn a_geometry_that_fits_the_length_alone() {
    let stick = full_stick();
    assert_eq!(geometry(1024, 1, 20).device_len(), 72_704);
    for command in ["volumes", "check", "map", "shuffle"] {
        let mut other = hiwalgam();
        other.arg(command).arg(&stick.image);
        other
            .args(["-B", "1024", "-S", "1", "-k"])
            .arg(stick.key_file(0));
        run(&mut other).refused(Refusal::HeaderGeometry);
    }
}

/// With these blocks and slices the length of this image fits no number of slices.
#[test]
fn another_geometry() {
    let stick = full_stick();
    for options in [&[][..], &["-B", "1024", "-S", "64"], &["-S", "4"]] {
        let mut command = hiwalgam();
        command
            .arg("volumes")
            .arg(&stick.image)
            .arg("-k")
            .arg(stick.key_file(0));
        run(command.args(options)).refused(Refusal::DeviceLength);
    }
}

/// The advice for a wrong length names the lengths next to it, whatever the subcommand.
#[test]
fn lengths_next_to_a_wrong_one() {
    let stick = full_stick();
    stick.set_length(72_705);
    for (command, rest) in OPENING {
        let ended = run(stick.command(command, 0).args(rest));
        let advice = ended.refused(Refusal::DeviceLength);
        for length in [72_704, 77_824] {
            let named = advice.contains(&grouped(length)) || advice.contains(&length.to_string());
            assert!(named, "{length} in {advice:?}");
        }
        assert_eq!(ended.out(), "");
    }
    assert_eq!(stick.bytes().len(), 72_705);
}

#[test]
fn geometries_that_are_not_allowed() {
    let stick = full_stick();
    let before = stick.bytes();
    let most = "18446744073709551615";
    for [b, s] in [
        ["2048", "4"],
        ["0", "4"],
        [most, most],
        ["1024", "0"],
        ["1024", "65"],
        ["1024", most],
    ] {
        for (command, rest) in OPENING {
            let mut other = hiwalgam();
            other
                .arg(command)
                .arg(&stick.image)
                .args(["-B", b, "-S", s]);
            other.arg("-k").arg(stick.key_file(0)).args(rest);
            run(&mut other).refused(Refusal::BadGeometry);
        }
    }
    assert!(stick.bytes() == before);
}
