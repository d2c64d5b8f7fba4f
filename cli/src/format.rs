//! `format`: makes a blank stick.

use std::fs::{self, OpenOptions};
use std::io;
use std::path::Path;

use hiwalgam::{Geometry, Refusal, Tape, KEY_BYTES};
use zeroize::Zeroizing;

use crate::arguments::{Count, Format};
use crate::failure::{Failure, Outcome};
use crate::geometry;
use crate::image::Locked;
use crate::keys::{Material, Secret, Source};
use crate::numbers::grouped;
use crate::progress::Progress;
use crate::signals;
use crate::streams::say;
use crate::tape::FormatTape;

pub fn run(options: &Format) -> Outcome {
    let source = Source::new(&options.keys, options.passphrase_fd)?;
    let there = there(options)?;
    let geometry = chosen(options, there.as_ref())?;
    let counts = counts(options, geometry);
    let materials = source.materials(counts.len())?;

    let taken = geometry.format_tape_length(counts.len());
    let progress = Progress::new("drawing random bytes", Some(taken as u64));
    let tape = FormatTape::draw(taken, options.temp_dir.as_deref(), &progress)?;
    let keys = keys(materials, &tape)?;
    signals::check()?;

    let plan = Plan {
        geometry,
        keys: &keys,
        counts: &counts,
        tape: Tape::new(&tape.bytes),
    };
    store(&options.image, there, plan, &progress)?;
    progress.now("wiping");
    drop((tape, progress));
    tell(&options.image, geometry, &counts)?;
    signals::check()
}

/// The image that is there already. None where there is none.
fn there(options: &Format) -> Outcome<Option<Locked>> {
    let path = &options.image;
    let exists = path.try_exists();
    if !exists.map_err(|error| Failure::system(path.display(), "looking for it", error))? {
        return Ok(None);
    }
    let locked = Locked::open(path, true)?;
    if locked.length > 0 && !options.force {
        let words = "is there and not empty: --force overwrites it";
        return Err(Failure::Usage(format!("{}: {words}", path.display())));
    }
    Ok(Some(locked))
}

/// The geometry that is asked for: with the slices that are told, or as many as fit.
fn chosen(options: &Format, there: Option<&Locked>) -> Outcome<Geometry> {
    let room = match options.slices {
        Some(_) => None,
        None => options.size.or(there.map(|locked| locked.length)),
    };
    let slices = match (options.slices, room) {
        (Some(slices), _) => slices,
        (None, Some(room)) => geometry::slices_in(options.blocks, room).max(1),
        (None, None) => {
            let failed = "opening (--slices or --size makes it)";
            let error = io::Error::from_raw_os_error(libc::ENOENT);
            return Err(Failure::system(options.image.display(), failed, error));
        }
    };
    let length = geometry::length(options.blocks, slices);
    let bytes = match there {
        Some(locked) if !locked.is_file()? => locked.length,
        // A file gets the length, unless there is not the room for one slice.
        _ => room.map_or(length, |room| room.min(length)),
    };
    geometry::judged(options.blocks, slices, bytes)
}

/// N of each volume, which the engine judges.
fn counts(options: &Format, geometry: Geometry) -> Vec<u64> {
    let count = |count: &Count| match count {
        Count::All => geometry.slices,
        Count::Slices(slices) => *slices,
    };
    let volumes = match &options.volumes[..] {
        [] => &[Count::All],
        volumes => volumes,
    };
    volumes.iter().map(count).collect()
}

/// The keys end to end. The first bytes of the tape become those of the stick, and so its salt.
fn keys(materials: Vec<Material>, tape: &FormatTape) -> Outcome<Secret> {
    let salt = tape.bytes.first_chunk().copied().unwrap_or_default();
    let mut keys = Zeroizing::new(Vec::with_capacity(materials.len() * KEY_BYTES));
    for material in materials {
        signals::check()?;
        keys.extend_from_slice(&material.into_key(&salt)?);
    }
    Ok(keys)
}

/// What the engine's call is handed beside the device.
struct Plan<'a> {
    geometry: Geometry,
    keys: &'a [u8],
    counts: &'a [u64],
    tape: Tape<'a>,
}

impl Plan<'_> {
    fn format(&mut self, device: &mut [u8]) -> Result<(), Refusal> {
        let (volumes, tape) = (self.counts.len(), &mut self.tape);
        hiwalgam::format(device, self.geometry, volumes, self.keys, self.counts, tape)
    }
}

/// Formats the image, which is made where there is none. Where that fails, a file that was made is gone,
/// and any other as long as it was.
fn store(path: &Path, there: Option<Locked>, plan: Plan, progress: &Progress) -> Outcome {
    let failed = |error| Failure::system(path.display(), "opening", error);
    let Some(locked) = there else {
        let mut options = OpenOptions::new();
        let made = options.read(true).write(true).create_new(true).open(path);
        let made = made.map_err(failed)?;
        // Holds the lock until the file is gone: nobody else can have begun to use it.
        let _holding = made.try_clone().map_err(failed)?;
        let locked = Locked::lock(path, made)?;
        return fill(locked, plan, progress).inspect_err(|_| drop(fs::remove_file(path)));
    };
    let (file, before) = (locked.file.try_clone().map_err(failed)?, locked.length);
    // On a block device the length stays, and setting it fails.
    fill(locked, plan, progress).inspect_err(|_| drop(file.set_len(before)))
}

/// A longer file is cut at the end alone, so that a refused formatting leaves all of it.
fn fill(mut locked: Locked, mut plan: Plan, progress: &Progress) -> Outcome {
    progress.now("formatting");
    let length = plan.geometry.device_length();
    let is_file = locked.is_file()?;
    if is_file {
        locked.reserve(length as u64)?;
    }
    signals::check()?;
    let mut image = locked.map_mut()?;
    plan.format(&mut image.bytes[..length])?;
    progress.now("storing");
    image.sync()?;
    match is_file {
        true => image.locked.set_length(length as u64),
        false => Ok(()),
    }
}

fn tell(path: &Path, geometry: Geometry, counts: &[u64]) -> Outcome {
    let Geometry {
        block_bytes,
        slice_blocks,
        slices,
    } = geometry;
    say(format_args!(
        "{}: {} slices of {} blocks of {} bytes, {} bytes",
        path.display(),
        grouped(slices),
        grouped(slice_blocks),
        grouped(block_bytes),
        grouped(geometry.device_length() as u64),
    ))?;
    for (volume, count) in counts.iter().enumerate() {
        let bytes = grouped(count * slice_blocks * block_bytes);
        say(format_args!(
            "volume {volume}: {} slices, {bytes} bytes",
            grouped(*count)
        ))?;
    }
    Ok(())
}
