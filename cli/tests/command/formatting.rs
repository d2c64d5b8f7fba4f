//! `format`: what it prints and what it makes.

use std::fs;
use std::process::Command;

use hiwalgam::Refusal;
use hiwalgam_reference::geometry::Geometry;

use crate::support::{geometry, grouped, hiwalgam, key, opened, run, Folder, Stick, SMALL};

/// `format` of an image in a folder, with key files for so many volumes.
pub fn format_command(folder: &Folder, keys: usize) -> Command {
    let mut command = hiwalgam();
    command
        .arg("format")
        .arg(folder.join("image"))
        .args(["-B", "1024", "-S", "4"]);
    for volume in 0..keys {
        let file = folder.file(&format!("key{volume}"), &key(volume));
        command.arg("-k").arg(file);
    }
    command
}

/// What `format` prints.
pub fn format_output(image: &str, geometry: Geometry, counts: &[usize]) -> String {
    let Geometry { b, s, p } = geometry;
    let (b_text, length) = (grouped(b), grouped(geometry.device_len()));
    let mut text = format!("{image}: {p} slices of {s} blocks of {b_text} bytes, {length} bytes\n");
    for (volume, &count) in counts.iter().enumerate() {
        let bytes = grouped(geometry.blocks(count) * b);
        text += &format!("volume {volume}: {count} slices, {bytes} bytes\n");
    }
    text
}

/// Tests that each key opens its volume and all below it, with these counts, and that all is zeros.
#[track_caller]
pub fn expect_blank(device: &[u8], geometry: Geometry, counts: &[usize]) {
    for volume in 0..counts.len() {
        let opened = opened(device, geometry, &key(volume)).unwrap();
        assert_eq!(
            (opened.volume, &opened.counts[..]),
            (volume, &counts[..=volume])
        );
        assert!(opened.owners.iter().all(|&owner| owner == 0));
        assert!(opened.texts.iter().flatten().all(|&byte| byte == 0));
    }
    assert_eq!(opened(device, geometry, &key(counts.len())), Err(6));
}

#[test]
fn one_volume_by_default() {
    let folder = Folder::new();
    let ended = run(format_command(&folder, 1).args(["--slices", "8"]));
    let image = folder.join("image");
    assert_eq!(
        ended.served(),
        format_output(image.to_str().unwrap(), SMALL, &[8])
    );
    let device = fs::read(image).unwrap();
    assert_eq!(device.len(), 72_704);
    expect_blank(&device, SMALL, &[8]);
}

#[test]
fn volumes_of_different_lengths() {
    let folder = Folder::new();
    let mut command = format_command(&folder, 4);
    command.args([
        "--slices", "8", "--volume", "5", "--volume", "all", "--volume", "1",
    ]);
    let ended = run(command.args(["--volume", "8"]));
    let image = folder.join("image");
    let counts = [5, 8, 1, 8];
    assert_eq!(
        ended.served(),
        format_output(image.to_str().unwrap(), SMALL, &counts)
    );
    expect_blank(&fs::read(image).unwrap(), SMALL, &counts);
}

#[test]
fn fifteen_volumes() {
    let counts: Vec<usize> = (1..=15).collect();
    let stick = Stick::new(geometry(1024, 2, 16), &counts);
    expect_blank(&stick.bytes(), stick.geometry, &counts);
}

#[test]
fn default_geometry() {
    let folder = Folder::new();
    let (image, key_file) = (folder.join("image"), folder.file("key", &key(0)));
    let mut command = hiwalgam();
    command.arg("format").arg(&image).arg("-k").arg(key_file);
    let ended = run(command.args(["--slices", "1"]));
    let default = geometry(4096, 256, 1);
    assert_eq!(
        ended.served(),
        format_output(image.to_str().unwrap(), default, &[1])
    );
    let device = fs::read(image).unwrap();
    // B x (31 + 257)
    assert_eq!(device.len(), 1_179_648);
    expect_blank(&device, default, &[1]);
}

#[test]
fn long_names_of_the_options() {
    let folder = Folder::new();
    let key_file = folder.file("key", &key(0));
    let mut command = hiwalgam();
    command
        .arg("format")
        .arg(folder.join("image"))
        .arg("--key")
        .arg(key_file);
    run(command.args([
        "--slices",
        "8",
        "--block-bytes",
        "1024",
        "--slice-blocks",
        "4",
    ]))
    .served();
    expect_blank(&fs::read(folder.join("image")).unwrap(), SMALL, &[8]);
}

/// What a format prints of a stick with more than 999 slices has its numbers grouped.
#[test]
fn most_slices() {
    let folder = Folder::new();
    let key_file = folder.file("key", &key(0));
    let mut command = hiwalgam();
    command
        .arg("format")
        .arg(folder.join("image"))
        .arg("-k")
        .arg(key_file);
    let ended = run(command.args(["-B", "1024", "-S", "1", "--slices", "4096"]));
    let longest = geometry(1024, 1, 4096);
    let device = fs::read(folder.join("image")).unwrap();
    assert_eq!(device.len(), longest.device_len());
    let image = folder.join("image");
    let image = image.to_str().unwrap();
    let printed = format!(
        "{image}: 4,096 slices of 1 blocks of 1,024 bytes, 8,666,112 bytes\n\
         volume 0: 4,096 slices, 4,194,304 bytes\n"
    );
    assert_eq!(ended.served(), printed);
    expect_blank(&device, longest, &[4096]);
}

/// Refused, a format leaves no file.
#[track_caller]
fn expect_refused(folder: &Folder, command: &mut Command, refusal: Refusal) {
    let ended = run(command);
    ended.refused(refusal);
    assert_eq!(ended.out(), "");
    assert!(!folder.join("image").exists());
}

#[test]
fn counts_that_are_not_allowed() {
    let folder = Folder::new();
    for count in ["0", "9", "4294967297", "18446744073709551615"] {
        let mut command = format_command(&folder, 2);
        command.args(["--slices", "8", "--volume", "8", "--volume", count]);
        expect_refused(&folder, &mut command, Refusal::BadGeometry);
    }
}

#[test]
fn geometries_that_are_not_allowed() {
    let folder = Folder::new();
    let key_file = folder.file("key", &key(0));
    let cases = [
        ["2048", "4", "8"],
        ["0", "4", "8"],
        ["18446744073709551615", "4", "8"],
        ["1024", "0", "8"],
        ["1024", "65", "8"],
        ["1024", "18446744073709551615", "8"],
        ["4096", "257", "8"],
        ["1024", "4", "0"],
        ["1024", "4", "4097"],
        ["1024", "4", "18446744073709551615"],
    ];
    for [b, s, p] in cases {
        let mut command = hiwalgam();
        command
            .arg("format")
            .arg(folder.join("image"))
            .arg("-k")
            .arg(&key_file);
        command.args(["-B", b, "-S", s, "--slices", p]);
        expect_refused(&folder, &mut command, Refusal::BadGeometry);
    }
}

#[test]
fn sixteen_volumes() {
    let folder = Folder::new();
    let mut command = format_command(&folder, 16);
    command
        .args(["--slices", "8"])
        .args(["--volume", "1"].repeat(16));
    expect_refused(&folder, &mut command, Refusal::KeyCount);
}

#[test]
fn an_image_of_any_name() {
    use std::ffi::OsStr;
    use std::os::unix::ffi::OsStrExt;

    let folder = Folder::new();
    let key_file = folder.file("key", &key(0));
    let image = folder.path().join(OsStr::from_bytes(b"an image \xff"));
    let mut command = hiwalgam();
    command
        .arg("format")
        .arg(&image)
        .args(["-B", "1024", "-S", "4", "--slices", "8"]);
    run(command.arg("-k").arg(&key_file)).served();
    expect_blank(&fs::read(&image).unwrap(), SMALL, &[8]);
    let mut command = hiwalgam();
    command
        .arg("volumes")
        .arg(&image)
        .args(["-B", "1024", "-S", "4"]);
    run(command.arg("-k").arg(&key_file)).served();
}
