//! `format`: the keys that it takes.

use std::fs;
use std::path::Path;
use std::process::Command;

use hiwalgam::Refusal;

use crate::formatting::{expect_blank, format_command};
use crate::support::{hiwalgam, key, run, run_fed, Folder, SMALL};

/// `format` of a small image with key files.
fn with_key_files(folder: &Folder, files: &[&Path]) -> Command {
    let mut command = hiwalgam();
    command.arg("format").arg(folder.join("image"));
    command.args(["-B", "1024", "-S", "4", "--slices", "8"]);
    for file in files {
        command.args(["--volume", "all"]).arg("-k").arg(file);
    }
    command
}

#[test]
fn key_files_of_a_wrong_length() {
    let folder = Folder::new();
    for length in [0, 1, 31, 33, 64, 100_000] {
        let file = folder.file("key", &vec![7; length]);
        run(&mut with_key_files(&folder, &[&file])).refused(Refusal::KeyLength);
        assert!(!folder.join("image").exists());
    }
}

/// Two wrong lengths that add up to that of two keys.
#[test]
fn key_files_of_31_and_33_bytes() {
    let folder = Folder::new();
    let (short, long) = (
        folder.file("short", &[7; 31]),
        folder.file("long", &[8; 33]),
    );
    for files in [[&*short, &*long], [&*long, &*short]] {
        run(&mut with_key_files(&folder, &files)).refused(Refusal::KeyLength);
        assert!(!folder.join("image").exists());
    }
}

#[test]
fn a_key_file_without_end() {
    let folder = Folder::new();
    run(&mut with_key_files(&folder, &[Path::new("/dev/zero")])).refused(Refusal::KeyLength);
}

#[test]
fn a_key_that_is_given_twice() {
    let folder = Folder::new();
    let (one, other) = (folder.file("one", &key(0)), folder.file("other", &key(1)));
    let copy = folder.file("copy", &key(0));
    for files in [
        &[&*one, &*one][..],
        &[&*one, &*copy],
        &[&*one, &*other, &*copy],
    ] {
        run(&mut with_key_files(&folder, files)).refused(Refusal::LowerCell);
        assert!(!folder.join("image").exists());
    }
}

#[test]
fn not_as_many_key_files_as_volumes() {
    let folder = Folder::new();
    for (keys, volumes) in [(1, 2), (2, 1), (2, 3), (15, 14), (2, 0)] {
        let mut command = format_command(&folder, keys);
        command
            .args(["--slices", "8"])
            .args(["--volume", "all"].repeat(volumes));
        run(&mut command).usage();
        assert!(!folder.join("image").exists());
    }
}

#[test]
fn a_key_file_that_cannot_be_read() {
    let folder = Folder::new();
    let missing = folder.join("missing");
    run(&mut with_key_files(&folder, &[&missing])).failed(&["missing", "No such file"]);
    run(&mut with_key_files(&folder, &[folder.path()])).failed(&[folder.path().to_str().unwrap()]);
    assert!(!folder.join("image").exists());
}

#[test]
fn key_files_and_a_passphrase() {
    let folder = Folder::new();
    let mut command = format_command(&folder, 1);
    let ended = run_fed(
        command.args(["--slices", "8", "--passphrase-fd", "0"]),
        b"open\n",
    );
    ended.usage();
    assert!(!folder.join("image").exists());
}

/// The key files belong to the volumes in their order.
#[test]
fn key_files_in_their_order() {
    let folder = Folder::new();
    let files = [0, 1, 2].map(|volume| folder.file(&format!("key{volume}"), &key(volume)));
    run(&mut with_key_files(
        &folder,
        &[&*files[0], &*files[1], &*files[2]],
    ))
    .served();
    expect_blank(&fs::read(folder.join("image")).unwrap(), SMALL, &[8, 8, 8]);
}
