//! `info`.

use hiwalgam::Refusal;

use crate::support::{geometry, grouped, hiwalgam, run, run_fed, Folder, Stick};

fn info_output(image: &str, numbers: [usize; 6]) -> String {
    let [bytes, b, s, p, m, h] = numbers;
    format!(
        "image: {image}\n\
         bytes: {bytes}\n\
         block bytes (B): {b}\n\
         blocks in a slice (S): {s}\n\
         slices (P): {p}\n\
         map blocks for a volume (m): {m}\n\
         header blocks (H): {h}\n\
         Whether it is a stick, and what volumes it has, only a key can tell.\n"
    )
}

#[test]
fn a_stick() {
    let stick = Stick::small(2);
    let ended = run(&mut stick.keyless("info"));
    assert_eq!(
        ended.served(),
        info_output(stick.name(), [72_704, 1024, 4, 8, 1, 31])
    );
}

/// Any file of a right length is as good: no key is asked for.
#[test]
fn lengths_and_the_numbers_that_they_tell() {
    let folder = Folder::new();
    let cases = [
        ([1024, 4, 1], [36_864, 1024, 4, 1, 1, 31]),
        ([1024, 4, 252], [1_321_984, 1024, 4, 252, 1, 31]),
        ([1024, 4, 253], [1_342_464, 1024, 4, 253, 2, 46]),
        ([1024, 1, 4096], [8_666_112, 1024, 1, 4096, 17, 271]),
        ([1024, 64, 100], [6_687_744, 1024, 64, 100, 1, 31]),
        ([4096, 1, 1021], [8_552_448, 4096, 1, 1021, 2, 46]),
    ];
    for ([b, s, p], numbers) in cases {
        assert_eq!(geometry(b, s, p).device_len(), numbers[0]);
        let image = folder.file("image", b"");
        let file = std::fs::File::options().write(true).open(&image).unwrap();
        file.set_len(numbers[0] as u64).unwrap();
        let mut command = hiwalgam();
        command
            .arg("info")
            .arg(&image)
            .args(["-B", &b.to_string(), "-S", &s.to_string()]);
        assert_eq!(
            run(&mut command).served(),
            info_output(image.to_str().unwrap(), numbers)
        );
    }
}

/// The defaults, and the longest image, which is not stored but as a length.
#[test]
fn default_geometry() {
    let folder = Folder::new();
    let image = folder.file("image", b"");
    let file = std::fs::File::options().write(true).open(&image).unwrap();
    for (length, p, m, h) in [(1_179_648, 1, 1, 31), (4_312_117_248, 4096, 5, 91)] {
        file.set_len(length as u64).unwrap();
        let ended = run(hiwalgam().arg("info").arg(&image));
        let numbers = [length, 4096, 256, p, m, h];
        assert_eq!(
            ended.served(),
            info_output(image.to_str().unwrap(), numbers)
        );
    }
}

/// Tests that a length is refused by 2, with advice that names these lengths.
#[track_caller]
fn expect_wrong_length(stick: &Stick, length: usize, neighbours: &[usize]) {
    stick.set_length(length);
    let ended = run(&mut stick.keyless("info"));
    let advice = ended.refused(Refusal::DeviceLength);
    assert_eq!(ended.out(), "");
    for &neighbour in neighbours {
        let named = advice.contains(&grouped(neighbour)) || advice.contains(&neighbour.to_string());
        assert!(named, "{neighbour} in {advice:?}");
    }
}

#[test]
fn wrong_lengths() {
    let stick = Stick::small(1);
    expect_wrong_length(&stick, 72_703, &[67_584, 72_704]);
    expect_wrong_length(&stick, 72_705, &[72_704, 77_824]);
    expect_wrong_length(&stick, 77_823, &[72_704, 77_824]);
    // No slice fits: there is none below.
    expect_wrong_length(&stick, 0, &[36_864]);
    expect_wrong_length(&stick, 36_863, &[36_864]);
    // Between 252 and 253 slices, where a map block is added to each header.
    expect_wrong_length(&stick, 1_342_463, &[1_321_984, 1_342_464]);
    // Above the longest, of 4,096 slices: there is none above.
    let longest = geometry(1024, 4, 4096).device_len();
    expect_wrong_length(&stick, longest + 1, &[longest]);
    expect_wrong_length(&stick, 3 * longest, &[longest]);
}

#[test]
fn geometries_that_are_not_allowed() {
    let stick = Stick::small(1);
    let most = "18446744073709551615";
    for [b, s] in [
        ["2048", "4"],
        ["0", "4"],
        [most, "4"],
        ["1024", "0"],
        ["1024", "65"],
        ["1024", most],
    ] {
        let mut command = hiwalgam();
        command.arg("info").arg(&stick.image);
        run(command.args(["-B", b, "-S", s])).refused(Refusal::BadGeometry);
    }
}

#[test]
fn no_key_is_taken() {
    let stick = Stick::small(1);
    run(&mut stick.command("info", 0)).usage();
    let mut command = stick.keyless("info");
    run_fed(command.args(["--passphrase-fd", "0"]), b"open\n").usage();
}
