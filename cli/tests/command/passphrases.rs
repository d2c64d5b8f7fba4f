//! Passphrases on a descriptor.

use std::fs;
use std::process::Command;

use hiwalgam::Refusal;

use crate::support::{
    argon2id, blocks, hiwalgam, opened, random, run, run_fed, run_fed_in_pieces, Folder, SMALL,
};

/// `format` of a small image in a folder with so many volumes, and passphrases on descriptor 0.
fn format_command(folder: &Folder, volumes: usize) -> Command {
    let mut command = hiwalgam();
    command.arg("format").arg(folder.join("image"));
    command.args([
        "-B",
        "1024",
        "-S",
        "4",
        "--slices",
        "8",
        "--passphrase-fd",
        "0",
    ]);
    command.args(["--volume", "all"].repeat(volumes));
    command
}

/// A subcommand on that image.
fn command(folder: &Folder, subcommand: &str) -> Command {
    let mut command = hiwalgam();
    command
        .arg(subcommand)
        .arg(folder.join("image"))
        .args(["-B", "1024", "-S", "4"]);
    command
}

/// An image with one volume and a passphrase.
fn image_with(passphrase: &[u8]) -> Folder {
    let folder = Folder::new();
    run_fed(
        &mut format_command(&folder, 1),
        &[passphrase, b"\n"].concat(),
    )
    .served();
    folder
}

/// Opens the image with the key that a passphrase gives by the parameters and the salt in the image.
fn volume_of(folder: &Folder, passphrase: &[u8]) -> Result<usize, u8> {
    let device = fs::read(folder.join("image")).unwrap();
    let key = argon2id(passphrase, &device[..16]);
    opened(&device, SMALL, &key).map(|opened| opened.volume)
}

#[test]
fn the_key_of_a_passphrase() {
    let folder = Folder::new();
    let lines = b"correct horse\n  battery staple  \n";
    run_fed(&mut format_command(&folder, 2), lines).served();
    assert_eq!(volume_of(&folder, b"correct horse"), Ok(0));
    assert_eq!(volume_of(&folder, b"  battery staple  "), Ok(1));
    assert_eq!(volume_of(&folder, b"correct horse\n"), Err(6));
}

#[test]
fn a_passphrase_opens() {
    let folder = image_with(b"correct horse");
    let mut volumes = command(&folder, "volumes");
    volumes.args(["--passphrase-fd", "0"]);
    let ended = run_fed(&mut volumes, b"correct horse\n");
    assert!(ended.served().starts_with("opened to volume 0\n"));
    // The last line may have no end, and what follows the line is not looked at.
    run_fed(&mut volumes, b"correct horse").served();
    run_fed(&mut volumes, b"correct horse\nbattery staple\n").served();
    run_fed_in_pieces(&mut volumes, &[b"corr", b"ect hor", b"se\n"]).served();
    for wrong in [
        &b"correct horse \n"[..],
        b"correct hors\n",
        b"Correct horse\n",
        b"correct horse\r\n",
    ] {
        let ended = run_fed(&mut volumes, wrong);
        ended.refused(Refusal::NoCell);
        assert_eq!(ended.out(), "");
    }
}

/// A passphrase is bytes: no text, and as long as it likes to be.
#[test]
fn passphrases_of_any_bytes() {
    let long: Vec<u8> = random(1, 10_000)
        .into_iter()
        .filter(|&byte| byte != b'\n' && byte != 0)
        .collect();
    for passphrase in [&b"\xff\xfe\x01 \t\r"[..], &long] {
        let folder = image_with(passphrase);
        assert_eq!(volume_of(&folder, passphrase), Ok(0));
        let mut volumes = command(&folder, "volumes");
        let line = [passphrase, b"\n"].concat();
        run_fed(volumes.args(["--passphrase-fd", "0"]), &line).served();
    }
}

/// Another descriptor than the standard input, which is left to the text.
#[test]
fn another_descriptor() {
    let folder = image_with(b"correct horse");
    let line = folder.file("line", b"correct horse\n");
    let script = "exec \"$@\" 7<\"$LINE\"";
    let text = blocks(2, 3);
    let through_shell = |subcommand: &str| {
        let inner = command(&folder, subcommand);
        let mut shell = hiwalgam_shell(script);
        shell
            .env("LINE", &line)
            .arg(inner.get_program())
            .args(inner.get_args());
        shell.args(["0", "--passphrase-fd", "7"]);
        shell
    };
    run_fed(&mut through_shell("put"), &text).served();
    let ended = run(&mut through_shell("get"));
    assert!(ended.served_bytes()[..3 * 1024] == text);
}

fn hiwalgam_shell(script: &str) -> Command {
    let mut shell = Command::new("sh");
    shell.args(["-c", script, "sh"]);
    shell.stdin(std::process::Stdio::null());
    shell.stdout(std::process::Stdio::piped());
    shell.stderr(std::process::Stdio::piped());
    shell
}

/// Line and text on one descriptor, a pipe or a file: the text is what follows the line, as long as the
/// volume here.
#[test]
fn a_passphrase_and_a_text_on_one_descriptor() {
    let text = blocks(3, 32);
    let both = [b"correct horse\n", &text[..]].concat();
    for is_file in [false, true] {
        let folder = image_with(b"correct horse");
        let mut put = command(&folder, "put");
        put.args(["0", "--passphrase-fd", "0"]);
        let ended = match is_file {
            true => run(put.stdin(fs::File::open(folder.file("both", &both)).unwrap())),
            false => run_fed(&mut put, &both),
        };
        ended.served();
        let device = fs::read(folder.join("image")).unwrap();
        let key = argon2id(b"correct horse", &device[..16]);
        assert!(opened(&device, SMALL, &key).unwrap().texts[0] == text);
    }
}

#[test]
fn empty_passphrases() {
    let folder = image_with(b"correct horse");
    for line in [&b"\n"[..], b"", b"\nmore\n"] {
        run_fed(
            command(&folder, "volumes").args(["--passphrase-fd", "0"]),
            line,
        )
        .usage();
        let new = Folder::new();
        run_fed(&mut format_command(&new, 1), line).usage();
        assert!(!new.join("image").exists());
    }
}

/// To a program in C a byte 0 would be the end of the passphrase.
#[test]
fn a_passphrase_with_a_byte_0() {
    let folder = image_with(b"correct");
    let line = b"correct\0 horse\n";
    run_fed(
        command(&folder, "volumes").args(["--passphrase-fd", "0"]),
        line,
    )
    .usage();
    let new = Folder::new();
    run_fed(&mut format_command(&new, 1), line).usage();
    assert!(!new.join("image").exists());
}

#[test]
fn fewer_lines_than_volumes() {
    for lines in [&b"one\n"[..], b"one\n\n", b"\none\n"] {
        let folder = Folder::new();
        run_fed(&mut format_command(&folder, 2), lines).usage();
        assert!(!folder.join("image").exists());
    }
}

#[test]
fn a_passphrase_that_is_given_twice() {
    let folder = Folder::new();
    run_fed(&mut format_command(&folder, 2), b"one\none\n").refused(Refusal::LowerCell);
    assert!(!folder.join("image").exists());
}

/// The same passphrase gives another key on each stick.
#[test]
fn the_salt_of_an_image() {
    let images = [(); 2].map(|()| image_with(b"correct horse"));
    let salts = images
        .each_ref()
        .map(|folder| fs::read(folder.join("image")).unwrap()[..16].to_vec());
    assert_ne!(salts[0], salts[1]);
    // A byte of the salt that is altered is another key.
    let path = images[0].join("image");
    let mut device = fs::read(&path).unwrap();
    device[15] ^= 1;
    fs::write(&path, device).unwrap();
    let mut volumes = command(&images[0], "volumes");
    let ended = run_fed(volumes.args(["--passphrase-fd", "0"]), b"correct horse\n");
    ended.refused(Refusal::NoCell);
}

/// A tape in a file makes the same use of its first bytes.
#[test]
fn a_salt_from_a_tape_in_a_file() {
    let folder = Folder::new();
    let room = folder.folder("room");
    run_fed(
        format_command(&folder, 1).arg("--temp-dir").arg(room),
        b"correct horse\n",
    )
    .served();
    assert_eq!(volume_of(&folder, b"correct horse"), Ok(0));
}

#[test]
fn descriptors_that_cannot_be_read() {
    let folder = image_with(b"correct horse");
    run(command(&folder, "volumes").args(["--passphrase-fd", "99"]))
        .failed(&["Bad file descriptor"]);
    for wrong in ["-1", "x", "", "4294967296", "18446744073709551616"] {
        run(command(&folder, "volumes").arg(format!("--passphrase-fd={wrong}"))).usage();
    }
}

/// An image that is too short for a salt is refused as any of a wrong length.
#[test]
fn an_image_without_a_salt() {
    for length in [0, 15, 16, 100] {
        let folder = Folder::new();
        folder.file("image", &vec![7; length]);
        let mut volumes = command(&folder, "volumes");
        let ended = run_fed(volumes.args(["--passphrase-fd", "0"]), b"correct horse\n");
        ended.refused(Refusal::DeviceLength);
    }
}
