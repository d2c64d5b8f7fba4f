//! `format`: folders and disks with and without room.

use std::collections::HashSet;
use std::fs::{self, File};
use std::process::Command;

use hiwalgam::Refusal;

use crate::formatting::{expect_blank, format_command};
use crate::support::{
    hiwalgam, in_namespace, is_root, key, random, run, skipped, Ended, Folder, READ_ONLY_FOLDER,
    SMALL, SMALL_TMPFS,
};

/// The program, for scripts.
const PROGRAM: &str = env!("CARGO_BIN_EXE_hiwalgam");

#[test]
fn the_tape_in_a_file() {
    let folder = Folder::new();
    let room = folder.folder("room");
    let mut command = format_command(&folder, 2);
    command.args(["--slices", "8", "--volume", "8", "--volume", "3"]);
    run(command.arg("--temp-dir").arg(&room)).served();
    expect_blank(&fs::read(folder.join("image")).unwrap(), SMALL, &[8, 3]);
    assert_eq!(fs::read_dir(room).unwrap().count(), 0);
}

/// Nothing stays in the folder of the tape after a refusal either.
#[test]
fn the_tape_of_a_refused_format() {
    let folder = Folder::new();
    let room = folder.folder("room");
    let mut command = format_command(&folder, 1);
    command.args(["--slices", "8", "--volume", "9"]);
    run(command.arg("--temp-dir").arg(&room)).refused(Refusal::BadGeometry);
    assert_eq!(fs::read_dir(room).unwrap().count(), 0);
}

/// The tape is the noise of the stick, and the keys of its volumes: no byte of it may stay on the disk. While
/// the command works, all that it has written is stored on the disk again and again.
#[test]
fn a_tape_in_a_file_is_wiped() {
    let folder = Folder::new();
    folder.folder("room");
    let disk = folder.file("disk", b"");
    File::options()
        .write(true)
        .open(&disk)
        .unwrap()
        .set_len(32 << 20)
        .unwrap();
    let made = Command::new("mke2fs")
        .args(["-q", "-t", "ext2"])
        .arg(&disk)
        .status();
    if !is_root() || !made.is_ok_and(|status| status.success()) {
        return skipped("the tape on a disk of its own");
    }
    let lines = [
        "mount -o loop \"${1%room}disk\" \"$1\" || exit 99\n",
        "mkdir \"$1/tape\"; i=0\n",
        "while [ -d \"$1/tape\" ] && [ $i -lt 5000 ]; do i=$((i + 1)); sync -f \"$1\"; done &\n",
        "\"$4\" format \"$2\" -B 1024 -S 16 --slices 1000 -k \"$3\" --temp-dir \"$1/tape\"; code=$?\n",
        "rmdir \"$1/tape\"; wait; umount \"$1\"; exit $code\n",
    ];
    run_script(&folder, "image", &lines).served();
    let (image, disk) = (
        fs::read(folder.join("image")).unwrap(),
        fs::read(disk).unwrap(),
    );
    assert!(image.len() > 16 << 20);
    let noise: HashSet<&[u8]> = image.chunks(1024).map(|block| &block[..16]).collect();
    assert!(!disk.chunks(16).any(|bytes| noise.contains(bytes)));
}

#[test]
fn no_folder_for_the_tape() {
    let folder = Folder::new();
    let missing = folder.join("missing");
    let mut command = format_command(&folder, 1);
    let ended = run(command.args(["--slices", "8", "--temp-dir"]).arg(missing));
    ended.failed(&["missing"]);
    assert!(!folder.join("image").exists());

    let file = folder.file("file", b"");
    let mut command = format_command(&folder, 1);
    run(command.args(["--slices", "8", "--temp-dir"]).arg(file)).failed(&["file"]);
    assert!(!folder.join("image").exists());
}

/// Runs a script in which `$1` is the folder `room`, `$2` the image, `$3` the key file, `$4` the program.
fn run_script(folder: &Folder, image: &str, lines: &[&str]) -> Ended {
    let key_file = folder.file("key", &key(0));
    let mut command = in_namespace(&lines.concat());
    command
        .arg(folder.join("room"))
        .arg(folder.join(image))
        .arg(key_file);
    run(command.arg(PROGRAM))
}

const FORMAT: &str = "\"$4\" format \"$2\" -B 1024 -S 4 --slices 8 -k \"$3\"";

#[test]
fn no_room_for_the_tape() {
    if !is_root() {
        return skipped("a format without room for its tape");
    }
    let folder = Folder::new();
    folder.folder("room");
    let format = format!("{FORMAT} --temp-dir \"$1\"; code=$?\n");
    let lines = [SMALL_TMPFS, &format, "ls -A \"$1\"; exit $code\n"];
    let ended = run_script(&folder, "image", &lines);
    ended.failed(&["room", "No space left"]);
    assert_eq!(ended.out(), "");
    assert!(!folder.join("image").exists());
}

#[test]
fn no_room_for_the_tape_and_a_file_that_is_there() {
    if !is_root() {
        return skipped("a format by force without room for its tape");
    }
    for length in [72_704, 1000, 100_000] {
        let folder = Folder::new();
        folder.folder("room");
        let before = random(5, length);
        let image = folder.file("image", &before);
        let format = format!("{FORMAT} --force --temp-dir \"$1\"\n");
        run_script(&folder, "image", &[SMALL_TMPFS, &format]).failed(&["room"]);
        assert!(fs::read(image).unwrap() == before, "{length} bytes before");
    }
}

#[test]
fn no_room_for_the_image() {
    if !is_root() {
        return skipped("a format on a full disk");
    }
    let folder = Folder::new();
    folder.folder("room");
    let format = format!("{FORMAT}; code=$?\n");
    let lines = [SMALL_TMPFS, &format, "ls -A \"$1\"; exit $code\n"];
    let ended = run_script(&folder, "room/image", &lines);
    ended.failed(&["room/image", "No space left"]);
    // The folder is empty: the list of its files too.
    assert_eq!(ended.out(), "");
}

/// A file that was there before is not removed, and keeps what it held.
#[test]
fn no_room_for_the_image_and_a_file_that_is_there() {
    if !is_root() {
        return skipped("a format by force on a full disk");
    }
    let folder = Folder::new();
    folder.folder("room");
    let format = format!("printf before >\"$2\"; {FORMAT} --force; code=$?\n");
    let lines = [SMALL_TMPFS, &format, "cat \"$2\"; exit $code\n"];
    let ended = run_script(&folder, "room/image", &lines);
    ended.failed(&["room/image", "No space left"]);
    assert_eq!(ended.out(), "before");
}

#[test]
fn a_folder_that_is_read_only() {
    if !is_root() {
        return skipped("a format in a read-only folder");
    }
    let folder = Folder::new();
    folder.folder("room");
    let format = format!("{FORMAT}\n");
    let ended = run_script(&folder, "room/image", &[READ_ONLY_FOLDER, &format]);
    ended.failed(&["room/image", "Read-only file system"]);
}

#[test]
fn an_image_that_cannot_be_made() {
    let folder = Folder::new();
    let key_file = folder.file("key", &key(0));
    for image in [folder.join("missing/image"), folder.folder("folder")] {
        let mut command = hiwalgam();
        command.arg("format").arg(&image).arg("-k").arg(&key_file);
        let ended = run(command.args(["-B", "1024", "-S", "4", "--slices", "8", "--force"]));
        ended.failed(&[image.to_str().unwrap()]);
    }
}
