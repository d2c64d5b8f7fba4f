//! `volumes`.

use hiwalgam::Refusal;

use crate::support::{blocks, geometry, run, Stick};

#[test]
fn every_key_shows_its_volumes() {
    let stick = Stick::new(geometry(1024, 4, 8), &[3, 8, 5]);
    stick.put(2, 0, 0, &blocks(1, 5));
    stick.put(2, 1, 16, &blocks(2, 1));
    stick.put(2, 2, 0, &blocks(3, 9));
    let lines = [
        "volume 0: 3 slices, 12 blocks, 12,288 bytes, 2 slices mapped\n",
        "volume 1: 8 slices, 32 blocks, 32,768 bytes, 1 slices mapped\n",
        "volume 2: 5 slices, 20 blocks, 20,480 bytes, 3 slices mapped\n",
    ];
    for (volume, held) in [2, 3, 6].into_iter().enumerate() {
        let (lines, free) = (lines[..=volume].concat(), 8 - held);
        let expected = format!(
            "opened to volume {volume}\n{lines}\
             slices: 8, {held} held by these volumes, {free} free or held by volumes above\n"
        );
        assert_eq!(
            run(&mut stick.command("volumes", volume)).served(),
            expected
        );
    }
}

#[test]
fn a_blank_stick() {
    let stick = Stick::small(1);
    let expected = "opened to volume 0\n\
        volume 0: 8 slices, 32 blocks, 32,768 bytes, 0 slices mapped\n\
        slices: 8, 0 held by these volumes, 8 free or held by volumes above\n";
    assert_eq!(run(&mut stick.command("volumes", 0)).served(), expected);
}

#[test]
fn fifteen_volumes() {
    let counts: Vec<usize> = (1..=15).collect();
    let stick = Stick::new(geometry(1024, 1, 16), &counts);
    for volume in 0..15 {
        stick.put(14, volume, volume, &blocks(volume as u64, 1));
    }
    for volume in [0, 9, 14] {
        let ended = run(&mut stick.command("volumes", volume));
        let lines: Vec<&str> = ended.served().lines().collect();
        assert_eq!(lines.len(), volume + 3);
        assert_eq!(lines[0], format!("opened to volume {volume}"));
        for (i, line) in lines[1..volume + 2].iter().enumerate() {
            assert!(
                line.starts_with(&format!("volume {i}: {} slices, ", i + 1)),
                "{line}"
            );
            assert!(line.ends_with(" bytes, 1 slices mapped"), "{line}");
        }
    }
}

#[test]
fn a_key_of_no_volume() {
    let stick = Stick::small(2);
    let ended = run(&mut stick.command("volumes", 2));
    ended.refused(Refusal::NoCell);
    assert_eq!(ended.out(), "");
}

#[test]
fn large_numbers() {
    let stick = Stick::new(geometry(1024, 2, 4096), &[4096]);
    stick.put(0, 0, 5000, &blocks(4, 2200));
    let expected = "opened to volume 0\n\
        volume 0: 4,096 slices, 8,192 blocks, 8,388,608 bytes, 1,100 slices mapped\n\
        slices: 4,096, 1,100 held by these volumes, 2,996 free or held by volumes above\n";
    assert_eq!(run(&mut stick.command("volumes", 0)).served(), expected);
    let expected = "volume 0: 8,192 blocks read, 2,200 in 1,100 mapped slices, 5,992 zeros\n\
        all blocks of volumes 0 to 0 were read\n";
    assert_eq!(run(&mut stick.command("check", 0)).served(), expected);
}
