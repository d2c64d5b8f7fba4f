//! `release`.

use hiwalgam::Refusal;

use crate::support::{blocks, geometry, run, Opened, Stick};

/// A stick with 6 logical slices of volume 0, all mapped, and 2 of volume 1.
fn written_stick() -> (Stick, Opened) {
    let stick = Stick::new(geometry(1024, 4, 8), &[6, 8]);
    stick.put(1, 0, 0, &blocks(1, 24));
    stick.put(1, 1, 0, &blocks(2, 8));
    let opened = stick.opened(1);
    (stick, opened)
}

/// What `release` prints for logical slices of volume 0.
fn release_output(before: &Opened, logical_slices: &[usize]) -> String {
    let map = before.map(0);
    let line = |&logical: &usize| {
        let slice = map[logical].unwrap();
        format!("volume 0: logical slice {logical} released, slice {slice} is free\n")
    };
    logical_slices.iter().map(line).collect()
}

/// Tests that these logical slices of volume 0 are zeros without a slice, and all else is as before.
#[track_caller]
fn expect_released(stick: &Stick, before: &Opened, logical_slices: &[usize]) {
    let after = stick.opened(1);
    let (mut map, mut text) = (before.map(0), before.texts[0].clone());
    let mut owners = before.owners.clone();
    for &logical in logical_slices {
        owners[map[logical].take().unwrap() as usize] = 0;
        text[4096 * logical..][..4096].fill(0);
    }
    assert_eq!((after.map(0), after.map(1)), (map, before.map(1)));
    assert_eq!(after.owners, owners);
    assert!(after.texts[0] == text && after.texts[1] == before.texts[1]);
}

#[test]
fn numbers_and_ranges() {
    let cases: [(&[&str], &[usize]); 7] = [
        (&["0"], &[0]),
        (&["5"], &[5]),
        (&["4", "1"], &[4, 1]),
        (&["1-3"], &[1, 2, 3]),
        (&["2-2"], &[2]),
        (&["0-1", "5", "3-4"], &[0, 1, 5, 3, 4]),
        (&["0-5"], &[0, 1, 2, 3, 4, 5]),
    ];
    for (arguments, logical_slices) in cases {
        let (stick, before) = written_stick();
        let ended = run(stick.command("release", 1).arg("0").args(arguments));
        assert_eq!(ended.served(), release_output(&before, logical_slices));
        expect_released(&stick, &before, logical_slices);
    }
}

#[test]
fn slices_are_free_again() {
    let (stick, before) = written_stick();
    let last = |stick: &Stick| {
        let ended = run(&mut stick.command("volumes", 1));
        ended.served().lines().last().unwrap().to_owned()
    };
    assert_eq!(
        last(&stick),
        "slices: 8, 8 held by these volumes, 0 free or held by volumes above"
    );
    run(stick.command("release", 1).args(["0", "1-2"])).served();
    assert_eq!(
        last(&stick),
        "slices: 8, 6 held by these volumes, 2 free or held by volumes above"
    );
    let ended = run(stick
        .command("get", 0)
        .args(["0", "--first=4", "--blocks=8"]));
    assert!(ended.served_bytes() == vec![0; 8 * 1024]);
    // Another volume takes them.
    stick.put(1, 1, 8, &blocks(3, 8));
    let after = stick.opened(1);
    let mut freed = [1, 2].map(|logical| before.map(0)[logical].unwrap());
    let mut taken = [2, 3].map(|logical| after.map(1)[logical].unwrap());
    freed.sort();
    taken.sort();
    assert_eq!(freed, taken);
}

/// A release ends at the first refusal: what was released before it stays so.
#[test]
fn unmapped_slices() {
    let (stick, before) = written_stick();
    run(stick.command("release", 1).args(["0", "2"])).served();
    let ended = run(stick.command("release", 1).args(["0", "0", "2", "4"]));
    ended.refused(Refusal::SliceUnmapped);
    assert_eq!(ended.out(), release_output(&before, &[0]));
    expect_released(&stick, &before, &[0, 2]);

    let bytes = stick.bytes();
    let ended = run(stick.command("release", 1).args(["0", "2"]));
    ended.refused(Refusal::SliceUnmapped);
    assert_eq!(ended.out(), "");
    assert!(stick.bytes() == bytes);
    // Twice in one run.
    let ended = run(stick.command("release", 1).args(["0", "5", "5"]));
    ended.refused(Refusal::SliceUnmapped);
    assert_eq!(ended.out(), release_output(&before, &[5]));
}

#[test]
fn past_the_end() {
    let (stick, before) = written_stick();
    let bytes = stick.bytes();
    for logical in ["6", "7", "18446744073709551615", "6-18446744073709551615"] {
        let ended = run(stick.command("release", 1).args(["0", logical]));
        ended.refused(Refusal::AddressAbove);
        assert_eq!(ended.out(), "");
    }
    assert!(stick.bytes() == bytes);
    // A range that begins in the volume.
    let ended = run(stick
        .command("release", 1)
        .args(["0", "4-18446744073709551615"]));
    ended.refused(Refusal::AddressAbove);
    assert_eq!(ended.out(), release_output(&before, &[4, 5]));
    expect_released(&stick, &before, &[4, 5]);
}

#[test]
fn a_volume_above() {
    let (stick, _) = written_stick();
    let bytes = stick.bytes();
    for volume in ["1", "15", "18446744073709551615"] {
        run(stick.command("release", 0).args([volume, "0"])).refused(Refusal::VolumeAbove);
    }
    assert!(stick.bytes() == bytes);
}

#[test]
fn malformed_ranges() {
    let (stick, _) = written_stick();
    let bytes = stick.bytes();
    let wrong = [
        "", "a", "1-", "3-2", "1-2-3", "1..2", "1,2", "+1", "0x1", " 1", "1 -2", "1-+2",
    ];
    for range in wrong {
        run(stick.command("release", 1).args(["0", range])).usage();
        // Not even those before it are released.
        run(stick.command("release", 1).args(["0", "0", range])).usage();
    }
    for range in ["-1", "18446744073709551616", "0-18446744073709551616"] {
        run(stick.command("release", 1).args(["0", range])).usage();
    }
    run(stick.command("release", 1).arg("0")).usage();
    assert!(stick.bytes() == bytes);
}
