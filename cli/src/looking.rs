//! `info`, `volumes`, `check`, `shuffle`: tell what a stick has, and write nothing to it.

use hiwalgam::{Geometry, Refusal, IV_BYTES, VOLUMES};
use memmap2::Mmap;

use crate::arguments;
use crate::failure::{complain, named, Failure, Outcome};
use crate::geometry;
use crate::image::Locked;
use crate::numbers::grouped;
use crate::progress::Progress;
use crate::session::Stick;
use crate::signals;
use crate::streams::say;

/// The bytes of a map entry.
const ENTRY_BYTES: u64 = 4;
/// How many places `shuffle` shows.
const PLACES_SHOWN: usize = 32;

pub fn info(options: &arguments::Info) -> Outcome {
    let locked = Locked::open(&options.image, false)?;
    let geometry = geometry::of_length(options.blocks, locked.length)?;
    let Geometry {
        block_bytes,
        slice_blocks,
        slices,
    } = geometry;
    let map_blocks = slices.div_ceil((block_bytes - IV_BYTES as u64) / ENTRY_BYTES);
    let header_blocks = 1 + VOLUMES as u64 * (1 + map_blocks);

    say(format_args!("image: {}", options.image.display()))?;
    say(format_args!("bytes: {}", locked.length))?;
    say(format_args!("block bytes (B): {block_bytes}"))?;
    say(format_args!("blocks in a slice (S): {slice_blocks}"))?;
    say(format_args!("slices (P): {slices}"))?;
    say(format_args!("map blocks for a volume (m): {map_blocks}"))?;
    say(format_args!("header blocks (H): {header_blocks}"))?;
    say("Whether it is a stick, and what volumes it has, only a key can tell.")
}

pub fn volumes(options: &arguments::Stick) -> Outcome {
    let stick = Stick::open_to_read(options)?;
    let Geometry {
        block_bytes,
        slices,
        ..
    } = stick.geometry();
    say(format_args!("opened to volume {}", stick.volumes().end()))?;
    for volume in stick.volumes() {
        let blocks = stick.blocks(volume);
        say(format_args!(
            "volume {volume}: {} slices, {} blocks, {} bytes, {} slices mapped",
            grouped(stick.slices(volume)),
            grouped(blocks),
            grouped(blocks * block_bytes),
            grouped(stick.mapped(volume)),
        ))?;
    }
    let held = stick.owners().iter().filter(|owner| **owner != 0).count() as u64;
    say(format_args!(
        "slices: {}, {} held by these volumes, {} free or held by volumes above",
        grouped(slices),
        grouped(held),
        grouped(slices - held),
    ))
}

pub fn check(options: &arguments::Stick) -> Outcome {
    let stick = Stick::open_to_read(options)?;
    let block_bytes = stick.geometry().block_bytes;
    let blocks: u64 = stick.volumes().map(|volume| stick.blocks(volume)).sum();
    let progress = Progress::new("checking", Some(blocks * block_bytes));
    let mut refused = Vec::new();
    for volume in stick.volumes() {
        check_volume(&stick, volume, &progress, &mut refused)?;
    }
    drop(progress);
    match refused.first() {
        Some(refusal) => {
            let words = format!("; {} blocks were refused", grouped(refused.len() as u64));
            Err(Failure::Refused(*refusal, words))
        }
        None => say(format_args!(
            "all blocks of volumes 0 to {} were read",
            stick.volumes().end()
        )),
    }
}

/// Reads every block, and notes what the engine refused.
fn check_volume(
    stick: &Stick<Mmap>,
    volume: u64,
    progress: &Progress,
    refused: &mut Vec<Refusal>,
) -> Outcome {
    let mut buffer = stick.buffer();
    let mut read = 0;
    for address in 0..stick.blocks(volume) {
        signals::check().map_err(|_| {
            let words = format!("volume {volume}: {} blocks read", grouped(read));
            Failure::Interrupted(words)
        })?;
        match stick.read(volume, address, &mut buffer) {
            Ok(()) => read += 1,
            Err(refusal) => {
                refused.push(refusal);
                let words = format!("volume {volume}, block {address}: {}", named(refusal));
                progress.aside(|| complain(words));
            }
        }
        progress.add(buffer.len() as u64);
    }
    let mapped = stick.mapped(volume);
    let in_slices = mapped * stick.geometry().slice_blocks;
    let words = format!(
        "volume {volume}: {} blocks read, {} in {} mapped slices, {} zeros",
        grouped(read),
        grouped(in_slices),
        grouped(mapped),
        grouped(stick.blocks(volume) - in_slices),
    );
    progress.aside(|| say(words))
}

pub fn shuffle(options: &arguments::Stick) -> Outcome {
    let stick = Stick::open_to_read(options)?;
    let places = stick.permutation();
    let (drawn, slices) = (stick.drawn(), places.len());
    say(format_args!(
        "drew {drawn} bytes of the tape for the order of {slices} slices"
    ))?;
    let shown = places.iter().take(PLACES_SHOWN).map(u32::to_string);
    let mut shown: Vec<_> = shown.collect();
    if slices > PLACES_SHOWN {
        shown.push("..".into());
    }
    say(format_args!("claims go: {}", shown.join(" ")))?;
    let start = stick.start_place();
    match places.get(start as usize) {
        Some(slice) => say(format_args!(
            "start place: {start}, the first whose slice is free: {slice}"
        )),
        None => say("no slice is free"),
    }
}
