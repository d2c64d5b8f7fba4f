//! `format`: how many slices an image gets.

use std::fs;

use hiwalgam::Refusal;

use crate::formatting::{expect_blank, format_command, format_output};
use crate::support::{geometry, hiwalgam, key, random, run, Folder, SMALL};

/// Formats with a size, and gives the length of the image.
#[track_caller]
fn length_by_size(slice_blocks: &str, size: &str) -> usize {
    let folder = Folder::new();
    let (image, key_file) = (folder.join("image"), folder.file("key", &key(0)));
    let mut command = hiwalgam();
    command.arg("format").arg(&image).arg("-k").arg(key_file);
    run(command.args(["-B", "1024", "-S", slice_blocks, "--size", size])).served();
    fs::metadata(image).unwrap().len() as usize
}

#[test]
fn the_most_slices_that_fit_into_a_size() {
    // 31 blocks and 5 for each slice; 15 more from slice 253 on.
    for (size, slices) in [
        ("36864", 1),
        ("41983", 1),
        ("41984", 2),
        ("72703", 7),
        ("72704", 8),
        ("72705", 8),
        ("1321984", 252),
        ("1342463", 252),
        ("1342464", 253),
    ] {
        let length = geometry(1024, 4, slices).device_len();
        assert_eq!(length_by_size("4", size), length, "--size {size}");
    }
}

#[test]
fn sizes_with_a_suffix() {
    assert_eq!(
        length_by_size("4", "71K"),
        geometry(1024, 4, 8).device_len()
    );
    assert_eq!(
        length_by_size("4", "70K"),
        geometry(1024, 4, 7).device_len()
    );
    // 1,024 blocks: 31 + 5 x 198 = 1,021.
    assert_eq!(length_by_size("4", "1M"), 1021 * 1024);
}

/// A size beyond the longest image gives the longest.
#[test]
fn sizes_beyond_the_longest_image() {
    let longest = geometry(1024, 1, 4096).device_len();
    for size in [
        "8666112",
        "8666113",
        "1G",
        "17179869183G",
        "18446744073709551615",
    ] {
        assert_eq!(length_by_size("1", size), longest, "--size {size}");
    }
}

#[test]
fn a_size_for_no_slice() {
    let folder = Folder::new();
    for size in ["0", "1", "36863", "35K"] {
        let ended = run(format_command(&folder, 1).args(["--size", size]));
        ended.refused(Refusal::DeviceLength);
        assert!(!folder.join("image").exists());
    }
}

/// Without a size the file that is there tells it.
#[test]
fn the_size_of_the_file_that_is_there() {
    let cases = [(36_864, 1), (41_983, 1), (72_704, 8), (80_000, 9)];
    for (length, slices) in cases {
        let folder = Folder::new();
        let image = folder.file("image", &random(1, length));
        let ended = run(format_command(&folder, 1).arg("--force"));
        let made = geometry(1024, 4, slices);
        assert_eq!(
            ended.served(),
            format_output(image.to_str().unwrap(), made, &[slices])
        );
        expect_blank(&fs::read(image).unwrap(), made, &[slices]);
    }
}

#[test]
fn a_file_that_is_there_with_no_room_for_a_slice() {
    for length in [0, 1, 36_863] {
        let folder = Folder::new();
        let before = random(1, length);
        let image = folder.file("image", &before);
        run(format_command(&folder, 1).arg("--force")).refused(Refusal::DeviceLength);
        assert!(fs::read(image).unwrap() == before);
    }
}

#[test]
fn no_size_and_no_file() {
    let folder = Folder::new();
    for force in [false, true] {
        let mut command = format_command(&folder, 1);
        if force {
            command.arg("--force");
        }
        let ended = run(&mut command);
        ended.failed(&["image"]);
        assert!(!folder.join("image").exists());
    }
}

#[test]
fn a_file_that_is_there_stays_without_force() {
    for length in [1, 72_704, 80_000] {
        let folder = Folder::new();
        let before = random(2, length);
        let image = folder.file("image", &before);
        for size in [&["--slices", "8"][..], &["--size", "71K"], &[]] {
            let ended = run(format_command(&folder, 1).args(size));
            ended.usage();
            assert!(ended.err.contains("--force"), "{ended:#?}");
            assert!(fs::read(&image).unwrap() == before);
        }
    }
}

#[test]
fn an_empty_file_needs_no_force() {
    let folder = Folder::new();
    let image = folder.file("image", b"");
    run(format_command(&folder, 1).args(["--slices", "8"])).served();
    expect_blank(&fs::read(image).unwrap(), SMALL, &[8]);
}

/// By force a shorter or a longer file becomes an image of the exact length.
#[test]
fn files_cut_and_extended() {
    for length in [1, 72_704, 200_000] {
        let folder = Folder::new();
        let image = folder.file("image", &random(3, length));
        run(format_command(&folder, 1).args(["--slices", "8", "--force"])).served();
        let device = fs::read(image).unwrap();
        assert_eq!(device.len(), 72_704);
        expect_blank(&device, SMALL, &[8]);
    }
}

/// A refused format leaves the file that it was to overwrite by force.
#[test]
fn a_refusal_keeps_the_file_that_is_there() {
    for length in [72_704, 50_000, 100_000] {
        let folder = Folder::new();
        let before = random(4, length);
        let image = folder.file("image", &before);
        for count in ["0", "9"] {
            let mut command = format_command(&folder, 1);
            command.args(["--slices", "8", "--force", "--volume", count]);
            run(&mut command).refused(Refusal::BadGeometry);
            assert!(fs::read(&image).unwrap() == before, "{length} bytes before");
        }
    }
}

#[test]
fn malformed_sizes() {
    let folder = Folder::new();
    for size in [
        "",
        "K",
        "x",
        "12X",
        "1KB",
        "-1",
        "1.5M",
        "0x10",
        " 8",
        "18446744073709551616",
    ] {
        run(format_command(&folder, 1).arg(format!("--size={size}"))).usage();
    }
    // 2^64 bytes and more.
    for size in ["18014398509481984K", "17592186044416M", "17179869184G"] {
        run(format_command(&folder, 1).arg(format!("--size={size}"))).usage();
    }
    for slices in ["", "x", "-1", "1K", "18446744073709551616"] {
        run(format_command(&folder, 1).arg(format!("--slices={slices}"))).usage();
    }
    for count in ["", "x", "-1", "al", "ALL!", "18446744073709551616"] {
        let mut command = format_command(&folder, 1);
        run(command.args(["--slices=8", &format!("--volume={count}")])).usage();
    }
    run(format_command(&folder, 1).args(["--slices", "8", "--size", "71K"])).usage();
    assert!(!folder.join("image").exists());
}
