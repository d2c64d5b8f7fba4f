//! `map`: shows which volume holds which slice, as text or as a picture.

use std::path::Path;

use hiwalgam::UNMAPPED;
use memmap2::Mmap;

use crate::arguments::Map;
use crate::failure::Outcome;
use crate::session::Stick;
use crate::streams::{self, say};

/// Slices in a row.
const COLUMNS: usize = 64;
/// The side of a square, and the room around all of them, in the picture's units.
const SIDE: usize = 16;
const MARGIN: usize = 8;
/// The width of a line of the legend.
const LEGEND_WIDTH: usize = 280;

const LETTERS: &[u8; 15] = b"0123456789ABCDE";
const FREE: (&str, &str) = ("#eeeeee", "#888888");
/// The colour of each volume's squares, and that of the letter in them.
const COLOURS: [(&str, &str); 15] = [
    ("#4363d8", "#ffffff"),
    ("#f58231", "#000000"),
    ("#3cb44b", "#000000"),
    ("#e6194b", "#ffffff"),
    ("#ffe119", "#000000"),
    ("#911eb4", "#ffffff"),
    ("#42d4f4", "#000000"),
    ("#9a6324", "#ffffff"),
    ("#f032e6", "#000000"),
    ("#bfef45", "#000000"),
    ("#469990", "#000000"),
    ("#fabed4", "#000000"),
    ("#800000", "#ffffff"),
    ("#dcbeff", "#000000"),
    ("#000075", "#ffffff"),
];

pub fn map(options: &Map) -> Outcome {
    let stick = Stick::open_to_read(&options.stick)?;
    match &options.svg {
        Some(path) => write_picture(&stick, path),
        None => tell(&stick),
    }
}

fn tell(stick: &Stick<Mmap>) -> Outcome {
    for (row, owners) in stick.owners().chunks(COLUMNS).enumerate() {
        let row_letters: String = owners.iter().map(|owner| letter(*owner)).collect();
        say(format_args!("{:4} {row_letters}", row * COLUMNS))?;
    }
    for (letter, words) in legend(stick) {
        say(format_args!("{letter} {words}"))?;
    }
    Ok(())
}

fn write_picture(stick: &Stick<Mmap>, path: &Path) -> Outcome {
    let (file, name) = (streams::create(path, stick.identity()?)?, path.display());
    streams::write_all(&file, picture(stick).as_bytes(), &name.to_string())
}

/// The letter of an owner: 0 for free, and otherwise one more than the volume.
fn letter(owner: u8) -> char {
    match owner {
        0 => '.',
        _ => LETTERS[usize::from(owner) - 1].into(),
    }
}

/// A letter and its meaning, with the count of slices, for what is free and for each open volume.
fn legend(stick: &Stick<Mmap>) -> Vec<(char, String)> {
    let slices = stick.owners().len() as u64;
    let held: u64 = stick.volumes().map(|volume| stick.mapped(volume)).sum();
    let free = (
        letter(0),
        format!("free, or held by volumes above: {} slices", slices - held),
    );
    let volumes = stick.volumes().map(|volume| {
        let words = format!("volume {volume}: {} slices", stick.mapped(volume));
        (letter(volume as u8 + 1), words)
    });
    [free].into_iter().chain(volumes).collect()
}

fn picture(stick: &Stick<Mmap>) -> String {
    let (owners, legend) = (stick.owners(), legend(stick));
    let columns = owners.len().min(COLUMNS);
    let rows = owners.len().div_ceil(COLUMNS);
    let width = (columns * SIDE).max(LEGEND_WIDTH) + 2 * MARGIN;
    let height = (rows + 1 + legend.len()) * SIDE + 2 * MARGIN;

    let mut out = format!(
        r#"<svg xmlns="http://www.w3.org/2000/svg" viewBox="0 0 {width} {height}" width="{width}" height="{height}">
<style>text {{ font: 11px monospace; pointer-events: none }} rect {{ stroke: white }}</style>
"#
    );
    for (slice, words) in tooltips(stick).iter().enumerate() {
        let tooltip = format!("<title>{words}</title>");
        out += &square(owners[slice], slice % COLUMNS, slice / COLUMNS, &tooltip);
    }
    for (owner, (_, words)) in legend.iter().enumerate() {
        let row = rows + 1 + owner;
        out += &square(owner as u8, 0, row, "");
        let (x, y) = (MARGIN + 2 * SIDE, baseline(row));
        out += &format!("<text x=\"{x}\" y=\"{y}\">{words}</text>\n");
    }
    out + "</svg>\n"
}

/// What each slice is, in words.
fn tooltips(stick: &Stick<Mmap>) -> Vec<String> {
    let slices = 0..stick.owners().len();
    let free = slices.map(|slice| format!("slice {slice}: free, or held by a volume above"));
    let mut words: Vec<String> = free.collect();
    for volume in stick.volumes() {
        for (logical, slice) in stick.map(volume).iter().enumerate() {
            if *slice != UNMAPPED {
                let text = format!("slice {slice}: volume {volume}, logical slice {logical}");
                words[*slice as usize] = text;
            }
        }
    }
    words
}

/// A square with its owner's colour and letter. The tooltip is an element, or nothing.
fn square(owner: u8, column: usize, row: usize, tooltip: &str) -> String {
    let (fill, ink) = match owner {
        0 => FREE,
        _ => COLOURS[usize::from(owner) - 1],
    };
    let (x, y, letter) = (MARGIN + column * SIDE, MARGIN + row * SIDE, letter(owner));
    let (middle, baseline) = (x + SIDE / 2, baseline(row));
    format!(
        r#"<rect x="{x}" y="{y}" width="{SIDE}" height="{SIDE}" fill="{fill}">{tooltip}</rect>
<text x="{middle}" y="{baseline}" text-anchor="middle" fill="{ink}">{letter}</text>
"#
    )
}

/// The height on which the letters of a row stand.
fn baseline(row: usize) -> usize {
    MARGIN + row * SIDE + SIDE - 4
}
