//! Key files of every subcommand but `format`.

use std::path::Path;

use hiwalgam::Refusal;

use crate::support::{key, run, run_fed, run_fed_in_pieces, Stick};

/// The subcommands that open a session, each with the rest of its arguments.
pub const OPENING: [(&str, &[&str]); 7] = [
    ("volumes", &[]),
    ("get", &["0"]),
    ("put", &["0"]),
    ("release", &["0", "0"]),
    ("check", &[]),
    ("map", &[]),
    ("shuffle", &[]),
];

#[test]
fn a_key_of_no_volume() {
    let stick = Stick::small(2);
    let before = stick.bytes();
    for (command, rest) in OPENING {
        let ended = run(stick.command(command, 2).args(rest));
        ended.refused(Refusal::NoCell);
        assert_eq!(ended.out(), "", "{command}");
    }
    assert!(stick.bytes() == before);
}

#[test]
fn key_files_of_a_wrong_length() {
    let stick = Stick::small(1);
    let before = stick.bytes();
    for length in [0, 31, 33, 64, 100_000] {
        // The key, cut or followed by more.
        let mut bytes = key(0);
        bytes.resize(length, 0);
        let file = stick.folder.file("wrong", &bytes);
        for (command, rest) in OPENING {
            let ended = run(stick.keyless(command).arg("-k").arg(&file).args(rest));
            ended.refused(Refusal::KeyLength);
        }
    }
    assert!(stick.bytes() == before);
}

#[test]
fn a_key_file_without_end() {
    let stick = Stick::small(1);
    run(stick.keyless("volumes").args(["-k", "/dev/zero"])).refused(Refusal::KeyLength);
}

#[test]
fn a_key_file_that_cannot_be_read() {
    let stick = Stick::small(1);
    let missing = stick.folder.join("missing");
    for file in [&*missing, stick.folder.path()] {
        for (command, rest) in OPENING {
            let ended = run(stick.keyless(command).arg("-k").arg(file).args(rest));
            ended.failed(&[file.to_str().unwrap()]);
        }
    }
}

/// A key that comes through a pipe, in two pieces.
#[test]
fn a_key_from_a_pipe() {
    let stick = Stick::small(1);
    let key = key(0);
    let mut command = stick.keyless("volumes");
    command.args(["--key", "/dev/stdin"]);
    run_fed_in_pieces(&mut command, &[&key[..5], &key[5..]]).served();
    run_fed_in_pieces(&mut command, &[&key[..5], &key[5..31]]).refused(Refusal::KeyLength);
    run_fed_in_pieces(&mut command, &[&key[..], b"\n"]).refused(Refusal::KeyLength);
}

#[test]
fn more_than_one_key() {
    let stick = Stick::small(2);
    let files = [stick.key_file(0), stick.key_file(1)];
    for (command, rest) in OPENING {
        let mut twice = stick.keyless(command);
        twice.arg("-k").arg(&files[0]).arg("-k").arg(&files[1]);
        run(twice.args(rest)).usage();
        let mut both = stick.command(command, 0);
        run_fed(both.args(["--passphrase-fd", "0"]).args(rest), b"open\n").usage();
    }
}

/// Without key, passphrase and terminal nothing can be asked for.
#[test]
fn no_key_and_no_terminal() {
    let stick = Stick::small(1);
    let before = stick.bytes();
    for (command, rest) in OPENING {
        run(stick.keyless(command).args(rest)).failed(&[]);
    }
    let folder = crate::support::Folder::new();
    let mut format = crate::support::hiwalgam();
    format.arg("format").arg(folder.join("image"));
    run(format.args(["-B", "1024", "-S", "4", "--slices", "8"])).failed(&[]);
    assert!(!folder.join("image").exists());
    assert!(stick.bytes() == before);
}

/// Key files may be named like any file.
#[test]
fn a_key_file_with_a_strange_name() {
    let stick = Stick::small(1);
    for name in ["a key", "-k", "ключ"] {
        let file = stick.folder.file(name, &key(0));
        let file: &Path = &file;
        run(stick.keyless("volumes").arg("-k").arg(file)).served();
    }
}
