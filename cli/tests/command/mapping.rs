//! `map`.

use std::collections::HashSet;
use std::fs;

use hiwalgam::Refusal;

use crate::support::{blocks, geometry, parse, run, squares, Opened, Stick};

/// A stick with 15 volumes: volume `v` holds 1 + v mod 4 slices of 70.
fn written_stick() -> Stick {
    let stick = Stick::new(geometry(1024, 1, 70), &[20; 15]);
    for volume in 0..15 {
        stick.put(
            14,
            volume,
            2 * volume % 7,
            &blocks(volume as u64, 1 + volume % 4),
        );
    }
    stick
}

/// The letter of a slice by its owner.
fn letter(owner: u8) -> char {
    b".0123456789ABCDE"[usize::from(owner)].into()
}

/// The rows of a map, by the number of their first slice, and the lines after them.
fn rows(text: &str) -> (Vec<(usize, &str)>, Vec<&str>) {
    let row = |line: &'_ str| -> Option<usize> { line.split_whitespace().next()?.parse().ok() };
    let lines: Vec<&str> = text.lines().collect();
    let end = lines
        .iter()
        .position(|line| row(line).is_none())
        .unwrap_or(lines.len());
    let rows = lines[..end].iter().map(|line| {
        let (number, letters) = line.trim_start().split_once(' ').unwrap();
        (number.parse().unwrap(), letters.trim_start())
    });
    (rows.collect(), lines[end..].to_vec())
}

#[track_caller]
fn expect_map(text: &str, opened: &Opened) {
    let (rows, legend) = rows(text);
    let owners: Vec<char> = opened.owners.iter().map(|&owner| letter(owner)).collect();
    let expected: Vec<(usize, String)> = owners
        .chunks(64)
        .enumerate()
        .map(|(i, row)| (64 * i, row.iter().collect()))
        .collect();
    let found: Vec<(usize, String)> = rows
        .iter()
        .map(|&(first, row)| (first, row.to_owned()))
        .collect();
    assert_eq!(found, expected);

    // The legend has each volume's letter and its count of slices, and the free ones.
    let legend = legend.join("\n");
    let free = opened.owners.iter().filter(|&&owner| owner == 0).count();
    let mut lines = legend.lines().filter(|line| !line.is_empty());
    let counts = std::iter::once(('.', free));
    let volumes = (0..=opened.volume).map(|volume| (letter(volume as u8 + 1), opened.held(volume)));
    for (letter, count) in counts.chain(volumes) {
        let line = lines
            .next()
            .unwrap_or_else(|| panic!("no line for {letter}: {legend}"));
        assert!(line.trim_start().starts_with(letter), "{letter}: {line:?}");
        let numbers = line
            .split(|c: char| !c.is_ascii_digit())
            .filter(|part| !part.is_empty());
        let numbers: Vec<usize> = numbers.map(|part| part.parse().unwrap()).collect();
        assert!(numbers.contains(&count), "{count}: {line:?}");
    }
    assert_eq!(lines.next(), None);
}

#[test]
fn the_text_is_that_of_the_tables() {
    let stick = written_stick();
    for key in [14, 9, 3, 0] {
        let ended = run(&mut stick.command("map", key));
        expect_map(ended.served(), &stick.opened(key));
    }
}

#[test]
fn rows_of_64() {
    for slices in [1, 63, 64, 65, 128] {
        let stick = Stick::new(geometry(1024, 1, slices), &[slices]);
        stick.put(0, 0, 0, &blocks(1, slices.div_ceil(2)));
        let ended = run(&mut stick.command("map", 0));
        expect_map(ended.served(), &stick.opened(0));
    }
}

/// Tests a picture against the tables: a square for each slice, each in a place of its own, with a colour
/// for each owner.
#[track_caller]
fn expect_picture(document: &str, opened: &Opened) {
    let picture = parse(document);
    assert_eq!(picture.name, "svg");
    assert_eq!(
        picture.attribute("xmlns"),
        Some("http://www.w3.org/2000/svg")
    );
    let squares = squares(&picture);
    assert_eq!(squares.len(), opened.owners.len());
    let mut colours: Vec<Option<&str>> = vec![None; 16];
    let mut corners = HashSet::new();
    for (slice, square) in squares.iter().enumerate() {
        assert_eq!(square.slice, slice);
        let owner = opened.owners[slice];
        let logical = |volume: usize| {
            let map = opened.map(volume);
            map.iter()
                .position(|&entry| entry == Some(slice as u32))
                .unwrap()
        };
        let volume = usize::from(owner).checked_sub(1);
        assert_eq!(
            square.held,
            volume.map(|volume| (volume, logical(volume))),
            "slice {slice}"
        );
        let colour = colours[usize::from(owner)].get_or_insert(&square.colour);
        assert_eq!(*colour, square.colour, "slice {slice}");
        assert!(corners.insert(&square.corner), "slice {slice}");
    }
    let known: Vec<&str> = colours.into_iter().flatten().collect();
    let different: HashSet<&&str> = known.iter().collect();
    assert_eq!(different.len(), known.len(), "two owners of one colour");
}

#[test]
fn the_picture_is_that_of_the_tables() {
    let stick = written_stick();
    let file = stick.folder.file("map.svg", &[b'x'; 100_000]);
    for key in [14, 3, 0] {
        let ended = run(stick.command("map", key).arg("--svg").arg(&file));
        assert_eq!(ended.served(), "");
        let document = fs::read_to_string(&file).unwrap();
        expect_picture(&document, &stick.opened(key));
    }
}

/// The letters of the volumes stand in the picture, and a legend has each volume.
#[test]
fn the_words_of_a_picture() {
    let stick = written_stick();
    let file = stick.folder.join("map.svg");
    run(stick.command("map", 14).arg("--svg").arg(&file)).served();
    let picture = parse(&fs::read_to_string(&file).unwrap());
    let all = picture.all();
    let texts: Vec<&str> = all
        .iter()
        .filter(|e| e.name == "text")
        .map(|e| e.text.trim())
        .collect();
    let opened = stick.opened(14);
    for volume in 0..15 {
        let letter = letter(volume as u8 + 1).to_string();
        let squares = texts.iter().filter(|&&text| text == letter).count();
        assert!(
            squares >= opened.held(volume),
            "{letter} in {squares} squares"
        );
        let of_legend = |text: &&&str| {
            let rest = text.split_once(&format!("volume {volume}"));
            rest.is_some_and(|(_, rest)| !rest.starts_with(|c: char| c.is_ascii_digit()))
        };
        assert!(
            texts.iter().any(|text| of_legend(&text)),
            "volume {volume} in {texts:?}"
        );
    }
}

/// The largest picture, and a name that has to be escaped where it is shown.
#[test]
fn pictures_of_other_sticks() {
    let stick = Stick::new(geometry(1024, 1, 4096), &[4096]);
    stick.put(0, 0, 1000, &blocks(2, 40));
    let file = stick.folder.join("map.svg");
    run(stick.command("map", 0).arg("--svg").arg(&file)).served();
    expect_picture(&fs::read_to_string(&file).unwrap(), &stick.opened(0));

    let mut stick = Stick::new(geometry(1024, 1, 1), &[1]);
    let strange = stick.folder.join("a<b>&\"c'");
    fs::rename(&stick.image, &strange).unwrap();
    stick.image = strange;
    let file = stick.folder.join("map.svg");
    run(stick.command("map", 0).arg("--svg").arg(&file)).served();
    expect_picture(&fs::read_to_string(&file).unwrap(), &stick.opened(0));
}

#[test]
fn a_picture_that_cannot_be_written() {
    let stick = Stick::small(1);
    let missing = stick.folder.join("missing/map.svg");
    let ended = run(stick.command("map", 0).arg("--svg").arg(&missing));
    ended.failed(&[missing.to_str().unwrap(), "No such file"]);
    let ended = run(stick.command("map", 0).args(["--svg", "/dev/full"]));
    ended.failed(&["/dev/full", "No space left"]);
}

/// A wrong key leaves the file of the picture; and the image itself is no file for it.
#[test]
fn files_that_stay() {
    let stick = Stick::small(1);
    let file = stick.folder.file("map.svg", b"before");
    run(stick.command("map", 1).arg("--svg").arg(&file)).refused(Refusal::NoCell);
    assert_eq!(fs::read(&file).unwrap(), b"before");
    let before = stick.bytes();
    let ended = run(stick.command("map", 0).arg("--svg").arg(&stick.image));
    assert!(stick.bytes() == before, "the stick is gone: {ended:#?}");
    assert!(matches!(ended.status.code(), Some(2 | 3)), "{ended:#?}");
}
