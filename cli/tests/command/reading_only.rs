//! Subcommands that do not write leave the image as it is.

use std::fs::{self, File};
use std::os::unix::fs::MetadataExt;
use std::time::{Duration, SystemTime};

use crate::support::{blocks, in_namespace, is_root, run, skipped, Stick, READ_ONLY_FOLDER};

const READING: [(&str, &[&str]); 5] = [
    ("volumes", &[]),
    ("get", &["0"]),
    ("check", &[]),
    ("map", &[]),
    ("shuffle", &[]),
];

/// The times of the last change of content and of anything, and the number of the file.
fn times(stick: &Stick) -> [i64; 5] {
    let data = fs::metadata(&stick.image).unwrap();
    let number = data.ino() as i64;
    [
        data.mtime(),
        data.mtime_nsec(),
        data.ctime(),
        data.ctime_nsec(),
        number,
    ]
}

#[test]
fn bytes_and_times_stay() {
    let stick = Stick::small(2);
    stick.put(1, 0, 0, &blocks(1, 8));
    stick.put(1, 1, 0, &blocks(2, 8));
    let long_ago = SystemTime::now() - Duration::from_secs(1_000_000);
    File::open(&stick.image)
        .unwrap()
        .set_modified(long_ago)
        .unwrap();
    let (bytes, before) = (stick.bytes(), times(&stick));
    for (command, rest) in READING {
        run(stick.command(command, 1).args(rest)).served_bytes();
        assert_eq!(times(&stick), before, "{command}");
    }
    run(&mut stick.keyless("info")).served();
    let file = stick.folder.join("file");
    run(stick.command("get", 1).arg("1").arg(&file)).served();
    run(stick.command("map", 1).arg("--svg").arg(&file)).served();
    // Refused ones too.
    for (command, rest) in READING {
        assert_eq!(
            run(stick.command(command, 5).args(rest)).status.code(),
            Some(1)
        );
    }
    assert_eq!(times(&stick), before);
    assert!(stick.bytes() == bytes);
}

/// Runs a subcommand on an image in a folder that is read-only.
fn run_read_only(stick: &Stick, command: std::process::Command) -> crate::support::Ended {
    let mut script = in_namespace(&format!("{READ_ONLY_FOLDER}shift; exec \"$@\"\n"));
    script
        .arg(stick.folder.path())
        .arg(command.get_program())
        .args(command.get_args());
    run(&mut script)
}

#[test]
fn an_image_that_is_read_only() {
    if !is_root() {
        return skipped("subcommands on a read-only image");
    }
    let stick = Stick::small(1);
    let text = blocks(3, 8);
    stick.put(0, 0, 0, &text);
    let (bytes, before) = (stick.bytes(), times(&stick));
    for (command, rest) in READING {
        let mut inner = stick.command(command, 0);
        inner.args(rest);
        let expected = run(&mut inner);
        let ended = run_read_only(&stick, inner);
        let served = ended.served_bytes();
        assert!(
            command == "shuffle" || served == expected.bytes,
            "{command}"
        );
    }
    run_read_only(&stick, stick.keyless("info")).served();
    for arguments in [
        &["put", "0"][..],
        &["release", "0", "0"],
        &["format", "--force", "--slices=8"],
    ] {
        let mut inner = stick.command(arguments[0], 0);
        inner.args(&arguments[1..]);
        let ended = run_read_only(&stick, inner);
        ended.failed(&[stick.name(), "Read-only file system"]);
    }
    assert_eq!(times(&stick), before);
    assert!(stick.bytes() == bytes);
}
