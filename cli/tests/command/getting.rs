//! `get`.

use std::fs::{self, File};
use std::io::{Read, Write};
use std::os::unix::fs::MetadataExt;
use std::process::Stdio;

use hiwalgam::Refusal;

use crate::support::{blocks, geometry, random, run, Running, Stick};

/// A small stick with texts in blocks 0 to 9 and 20 to 22 of volume 0; and the whole volume.
fn written_stick() -> (Stick, Vec<u8>) {
    let stick = Stick::small(2);
    let (one, other) = (blocks(1, 10), blocks(2, 3));
    stick.put(0, 0, 0, &one);
    stick.put(0, 0, 20, &other);
    let mut text = vec![0; 32 * 1024];
    text[..10 * 1024].copy_from_slice(&one);
    text[20 * 1024..23 * 1024].copy_from_slice(&other);
    (stick, text)
}

#[test]
fn to_standard_output() {
    let (stick, text) = written_stick();
    assert!(run(stick.command("get", 0).arg("0")).served_bytes() == text);
    assert!(run(stick.command("get", 0).args(["0", "-"])).served_bytes() == text);
    // Volume 1 is zeros.
    assert!(run(stick.command("get", 1).arg("1")).served_bytes() == vec![0; 32 * 1024]);
    assert_eq!(fs::read_dir(stick.folder.path()).unwrap().count(), 3);
}

#[test]
fn to_a_file() {
    let (stick, text) = written_stick();
    let file = stick.folder.join("text");
    let ended = run(stick.command("get", 0).arg("0").arg(&file));
    assert_eq!(ended.served(), "");
    assert!(fs::read(&file).unwrap() == text);
}

/// What a file held before is gone, also where the volume has no slices.
#[test]
fn to_a_file_that_is_there() {
    let (stick, text) = written_stick();
    for length in [100, 32 * 1024, 100_000] {
        let file = stick.folder.file("text", &random(3, length));
        run(stick.command("get", 0).arg("0").arg(&file)).served();
        assert!(fs::read(&file).unwrap() == text);
    }
}

#[test]
fn a_file_with_holes() {
    let geometry = geometry(4096, 16, 16);
    let stick = Stick::new(geometry, &[16]);
    let text = random(4, 65_536);
    stick.put(0, 0, 5 * 16, &text);
    let file = stick.folder.join("text");
    run(stick.command("get", 0).arg("0").arg(&file)).served();
    let data = fs::metadata(&file).unwrap();
    assert_eq!(data.size(), 16 * 65_536);
    // One slice of 16 is mapped.
    assert!(
        (65_536..3 * 65_536).contains(&(512 * data.blocks())),
        "{} blocks",
        data.blocks()
    );
    let mut whole = vec![0; 16 * 65_536];
    whole[5 * 65_536..][..65_536].copy_from_slice(&text);
    assert!(fs::read(&file).unwrap() == whole);
}

/// A volume without slices is a file that is one hole, as long as the volume.
#[test]
fn a_file_that_is_a_hole() {
    let stick = Stick::new(geometry(4096, 16, 4), &[4]);
    let file = stick.folder.join("text");
    run(stick.command("get", 0).arg("0").arg(&file)).served();
    let data = fs::metadata(&file).unwrap();
    assert_eq!(data.size(), 4 * 65_536);
    assert!(data.blocks() < 16);
    assert!(fs::read(&file).unwrap() == vec![0; 4 * 65_536]);
}

/// Parts, with their ends in the middle of logical slices.
#[test]
fn parts_of_a_volume() {
    let (stick, text) = written_stick();
    for (first, count) in [
        (0, 32),
        (0, 1),
        (31, 1),
        (3, 7),
        (9, 13),
        (22, 4),
        (10, 10),
        (5, 0),
    ] {
        let part = &text[first * 1024..(first + count) * 1024];
        let options = [format!("--first={first}"), format!("--blocks={count}")];
        let ended = run(stick.command("get", 0).arg("0").args(&options));
        assert!(ended.served_bytes() == part, "{options:?}");
        let file = stick.folder.file("text", &random(5, 50_000));
        run(stick.command("get", 0).arg("0").arg(&file).args(&options)).served();
        assert!(fs::read(&file).unwrap() == part, "{options:?} to a file");
    }
    for first in [0, 1, 9, 21, 31] {
        let ended = run(stick
            .command("get", 0)
            .args(["0", &format!("--first={first}")]));
        assert!(ended.served_bytes() == &text[first * 1024..]);
    }
    let ended = run(stick.command("get", 0).args(["0", "--blocks", "11"]));
    assert!(ended.served_bytes() == &text[..11 * 1024]);
}

#[test]
fn past_the_end() {
    let (stick, _) = written_stick();
    let most = "18446744073709551615";
    let cases: &[&[&str]] = &[
        &["--first", "32", "--blocks", "1"],
        &["--first", "33"],
        &["--blocks", "33"],
        &["--first", "31", "--blocks", "2"],
        &["--first", most],
        &["--blocks", most],
        &["--first", most, "--blocks", most],
        &["--first", "1", "--blocks", most],
        // Sums that 64 bits do not hold: what they leave would be blocks 0 and 3.
        &["--first", most, "--blocks", "2"],
        &["--first", "5", "--blocks", most],
    ];
    let before = random(6, 100);
    let file = stick.folder.file("text", &before);
    for options in cases {
        let ended = run(stick.command("get", 0).arg("0").args(*options));
        ended.refused(Refusal::AddressAbove);
        assert_eq!(ended.bytes.len(), 0, "{options:?}");
        // A file that is there is not emptied for nothing.
        let ended = run(stick.command("get", 0).arg("0").arg(&file).args(*options));
        ended.refused(Refusal::AddressAbove);
        assert!(fs::read(&file).unwrap() == before, "{options:?}");
    }
}

#[test]
fn a_volume_above() {
    let (stick, _) = written_stick();
    let before = random(7, 100);
    let file = stick.folder.file("text", &before);
    for volume in ["1", "14", "15", "18446744073709551615"] {
        let ended = run(stick.command("get", 0).arg(volume).arg(&file));
        ended.refused(Refusal::VolumeAbove);
        assert!(fs::read(&file).unwrap() == before);
        assert_eq!(run(stick.command("get", 0).arg(volume)).bytes.len(), 0);
    }
    let ended = run(stick.command("get", 1).arg("2"));
    ended.refused(Refusal::VolumeAbove);
}

#[test]
fn a_wrong_key_leaves_the_file() {
    let (stick, _) = written_stick();
    let before = random(8, 100);
    let file = stick.folder.file("text", &before);
    run(stick.command("get", 7).arg("0").arg(&file)).refused(Refusal::NoCell);
    assert!(fs::read(&file).unwrap() == before);
    let new = stick.folder.join("new");
    run(stick.command("get", 7).arg("0").arg(&new)).refused(Refusal::NoCell);
    assert!(!new.exists());
}

#[test]
fn a_full_disk() {
    let (stick, _) = written_stick();
    let ended = run(stick.command("get", 0).args(["0", "/dev/full"]));
    ended.failed(&["/dev/full", "No space left"]);
    let full = File::options().write(true).open("/dev/full").unwrap();
    let ended = run(stick.command("get", 0).arg("0").stdout(full));
    ended.failed(&["No space left"]);
    // Nothing but zeros, which no hole can stand for there.
    let ended = run(stick.command("get", 1).args(["1", "/dev/full"]));
    ended.failed(&["/dev/full", "No space left"]);
}

#[test]
fn a_file_that_cannot_be_made() {
    let (stick, _) = written_stick();
    let missing = stick.folder.join("missing/text");
    let ended = run(stick.command("get", 0).arg("0").arg(&missing));
    ended.failed(&[missing.to_str().unwrap(), "No such file"]);
    let ended = run(stick.command("get", 0).arg("0").arg(stick.folder.path()));
    ended.failed(&[stick.folder.path().to_str().unwrap()]);
}

/// A reader that goes away is a failure of the system, and no panic.
#[test]
fn a_pipe_that_is_closed() {
    let stick = Stick::new(geometry(1024, 4, 64), &[64]);
    let mut running = Running::start(stick.command("get", 0).arg("0"));
    let mut output = running.child.stdout.take().unwrap();
    let mut begin = [1; 100];
    output.read_exact(&mut begin).unwrap();
    assert_eq!(begin, [0; 100]);
    drop(output);
    running.end().failed(&["Broken pipe"]);
}

/// A standard output that is a file, and stands behind other bytes there.
#[test]
fn a_file_behind_the_standard_output() {
    let (stick, text) = written_stick();
    let path = stick.folder.file("text", &random(9, 50_000));
    let mut file = File::create(&path).unwrap();
    file.write_all(b"before").unwrap();
    let output = file.try_clone().unwrap();
    run(stick.command("get", 0).arg("0").stdout(output)).served();
    file.write_all(b"after").unwrap();
    assert!(fs::read(&path).unwrap() == [b"before", &text[..], b"after"].concat());
}

/// The same where the file was opened to append.
#[test]
fn a_file_that_is_appended_to() {
    let (stick, text) = written_stick();
    let path = stick.folder.file("text", b"before");
    let output = File::options().append(true).open(&path).unwrap();
    run(stick.command("get", 0).arg("0").stdout(output)).served();
    assert!(fs::read(&path).unwrap() == [b"before", &text[..]].concat());
}

/// A pipe that has a name is no regular file.
#[test]
fn a_named_pipe() {
    let (stick, text) = written_stick();
    let path = stick.folder.join("pipe");
    assert!(std::process::Command::new("mkfifo")
        .arg(&path)
        .status()
        .unwrap()
        .success());
    let running = Running::start(stick.command("get", 0).arg("0").arg(&path));
    assert!(fs::read(&path).unwrap() == text);
    running.end().served();
}

/// The image itself is no file to write to.
#[test]
fn the_image_as_the_file() {
    let (stick, _) = written_stick();
    let before = stick.bytes();
    let link = stick.folder.join("link");
    fs::hard_link(&stick.image, &link).unwrap();
    for file in [&stick.image, &link] {
        let ended = run(stick.command("get", 0).arg("0").arg(file));
        assert!(stick.bytes() == before, "the stick is gone: {ended:#?}");
        assert!(matches!(ended.status.code(), Some(2 | 3)), "{ended:#?}");
    }
    let output = File::options().append(true).open(&stick.image).unwrap();
    let ended = run(stick.command("get", 0).arg("0").stdout(Stdio::from(output)));
    assert!(stick.bytes() == before, "the stick is longer: {ended:#?}");
}
