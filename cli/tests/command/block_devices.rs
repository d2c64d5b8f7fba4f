//! Block devices, by loop devices.

use std::fs::{self, File};
use std::os::unix::fs::OpenOptionsExt;
use std::path::Path;
use std::process::Command;

use hiwalgam::Refusal;

use crate::formatting::{expect_blank, format_output};
use crate::support::{
    blocks, eventually, grouped, hiwalgam, is_root, key, opened, random, run, run_fed, skipped,
    Folder, LoopDevice, SMALL,
};

/// A loop device over a file of these bytes.
fn device_over(folder: &Folder, bytes: &[u8]) -> Option<LoopDevice> {
    let device = is_root()
        .then(|| LoopDevice::over(&folder.file("disk", bytes)))
        .flatten();
    if device.is_none() {
        skipped("block devices");
    }
    device
}

fn command(folder: &Folder, subcommand: &str, device: &Path) -> Command {
    let key_file = folder.file("key", &key(0));
    let mut command = hiwalgam();
    command
        .arg(subcommand)
        .arg(device)
        .args(["-B", "1024", "-S", "4"]);
    command.arg("-k").arg(key_file);
    command
}

#[test]
fn a_device_of_the_exact_length() {
    let folder = Folder::new();
    let Some(device) = device_over(&folder, &random(1, 72_704)) else {
        return;
    };
    for slices in [&["--slices", "8"][..], &[]] {
        let before = fs::read(device.path()).unwrap();
        let ended = run(command(&folder, "format", device.path()).args(slices));
        ended.usage();
        assert!(fs::read(device.path()).unwrap() == before);
        let ended = run(command(&folder, "format", device.path())
            .args(slices)
            .arg("--force"));
        let name = device.path().to_str().unwrap();
        assert_eq!(ended.served(), format_output(name, SMALL, &[8]));
    }
    expect_blank(&fs::read(device.path()).unwrap(), SMALL, &[8]);

    let text = blocks(2, 7);
    run_fed(command(&folder, "put", device.path()).arg("0"), &text).served();
    let read = fs::read(device.path()).unwrap();
    assert!(opened(&read, SMALL, &key(0)).unwrap().texts[0][..7 * 1024] == text);
    let ended = run(command(&folder, "get", device.path()).arg("0"));
    assert!(ended.served_bytes()[..7 * 1024] == text);
    run(&mut command(&folder, "check", device.path())).served();
}

#[test]
fn a_device_of_another_length() {
    let folder = Folder::new();
    let bytes = random(3, 75_776);
    let Some(device) = device_over(&folder, &bytes) else {
        return;
    };
    for slices in [
        &["--slices", "8"][..],
        &["--slices", "9"],
        &["--size", "71K"],
        &[],
    ] {
        let mut format = command(&folder, "format", device.path());
        let ended = run(format.arg("--force").args(slices));
        ended.refused(Refusal::DeviceLength);
        for length in [72_704, 77_824] {
            let named =
                ended.err.contains(&grouped(length)) || ended.err.contains(&length.to_string());
            assert!(named, "{length}: {slices:?} {ended:#?}");
        }
        assert!(ended.err.contains("partition"), "{slices:?} {ended:#?}");
        assert!(fs::read(device.path()).unwrap() == bytes);
    }
}

/// Another number of slices than the device has room for: the advice tells what they take.
#[test]
fn other_slices_than_those_of_a_device() {
    let folder = Folder::new();
    let bytes = random(5, 72_704);
    let Some(device) = device_over(&folder, &bytes) else {
        return;
    };
    for (slices, length) in [("7", "67584"), ("9", "77824"), ("20", "134144")] {
        let mut format = command(&folder, "format", device.path());
        let ended = run(format.args(["--force", "--slices", slices]));
        let advice = ended.refused(Refusal::DeviceLength);
        assert!(advice.replace(',', "").contains(length), "{advice}");
        assert!(fs::read(device.path()).unwrap() == bytes);
    }
}

/// A device that takes no writes, as a card behind its switch.
#[test]
fn a_device_that_is_read_only() {
    let folder = Folder::new();
    let Some(device) = device_over(&folder, &random(6, 72_704)) else {
        return;
    };
    run(command(&folder, "format", device.path()).arg("--force")).served();
    let before = fs::read(device.path()).unwrap();
    let mut switch = Command::new("blockdev");
    let switched = switch.arg("--setro").arg(device.path()).status();
    assert!(switched.unwrap().success());

    run(&mut command(&folder, "check", device.path())).served();
    let writing = [
        ("put", &["0"][..]),
        ("release", &["0", "0"]),
        ("format", &["--force"]),
    ];
    for (subcommand, arguments) in writing {
        let mut command = command(&folder, subcommand, device.path());
        let ended = run_fed(command.args(arguments), b"text");
        ended.failed(&[device.path().to_str().unwrap(), "Read-only"]);
    }
    assert!(fs::read(device.path()).unwrap() == before);
}

/// The device is no file to write to, by whichever node it is named.
#[test]
fn the_device_as_the_file() {
    let folder = Folder::new();
    let Some(device) = device_over(&folder, &random(7, 72_704)) else {
        return;
    };
    run(command(&folder, "format", device.path()).arg("--force")).served();
    let before = fs::read(device.path()).unwrap();
    let node = folder.join("node");
    let made = Command::new("cp")
        .arg("-a")
        .arg(device.path())
        .arg(&node)
        .status();
    assert!(made.unwrap().success());
    for file in [device.path(), &node] {
        let ended = run(command(&folder, "get", device.path()).arg("0").arg(file));
        assert!(matches!(ended.status.code(), Some(2 | 3)), "{ended:#?}");
        let mut map = command(&folder, "map", device.path());
        let ended = run(map.arg("--svg").arg(file));
        assert!(matches!(ended.status.code(), Some(2 | 3)), "{ended:#?}");
        assert!(fs::read(device.path()).unwrap() == before);
    }
}

/// A device that is mounted, or that another session has, is kept from being opened by the system itself.
#[test]
fn a_device_that_is_in_use() {
    let folder = Folder::new();
    let bytes = random(4, 72_704);
    let Some(device) = device_over(&folder, &bytes) else {
        return;
    };
    let mut options = File::options();
    let held = options
        .read(true)
        .custom_flags(libc::O_EXCL)
        .open(device.path())
        .unwrap();
    let name = device.path().to_str().unwrap();
    for subcommand in ["volumes", "check"] {
        let ended = run(&mut command(&folder, subcommand, device.path()));
        ended.failed(&[name, "is in use by another session"]);
    }
    let ended = run(command(&folder, "format", device.path()).arg("--force"));
    ended.failed(&[name, "is in use by another session"]);
    drop(held);
    assert!(fs::read(device.path()).unwrap() == bytes);
    // A process that another test just started may have a copy of the descriptor still.
    eventually("the device is free", || {
        let ended = run(&mut command(&folder, "volumes", device.path()));
        ended.status.code() == Some(1)
    });
    run(command(&folder, "format", device.path()).arg("--force")).served();
}
