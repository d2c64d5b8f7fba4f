//! `get` and `put`: copy blocks out of a volume and into it.

use std::ops::Range;

use hiwalgam::Change;
use memmap2::{Mmap, MmapMut};

use crate::arguments::{Get, Put};
use crate::failure::{Failure, Outcome};
use crate::keys::Source;
use crate::progress::Progress;
use crate::session::Stick;
use crate::signals;
use crate::streams::{say, Input, Output};

pub fn get(options: &Get) -> Outcome {
    let stick = Stick::open_to_read(&options.stick)?;
    let (volume, first) = (options.volume, options.first);
    let rest = stick.blocks(volume).saturating_sub(first);
    let count = options.blocks.unwrap_or(rest);
    // The last block is asked for first: nothing is written where the engine refuses it. A sum that 64 bits
    // do not hold is past every volume, as their highest number is.
    let last = first.saturating_add(count.max(1) - 1);
    stick.read(volume, last, &mut stick.buffer())?;

    let mut output = Output::open(options.file.as_ref(), stick.identity()?)?;
    let mut done = 0;
    let copied = copy_out(&stick, volume, first..first + count, &mut output, &mut done);
    copied.map_err(|failure| match failure {
        Failure::Interrupted(_) => {
            Failure::Interrupted(format!("volume {volume}: {done} of {count} blocks copied"))
        }
        other => other,
    })?;
    output.finish(count * stick.geometry().block_bytes)
}

fn copy_out(
    stick: &Stick<Mmap>,
    volume: u64,
    addresses: Range<u64>,
    output: &mut Output,
    done: &mut u64,
) -> Outcome {
    let mut buffer = stick.buffer();
    let bytes = stick.geometry().block_bytes;
    let progress = Progress::new("reading", Some((addresses.end - addresses.start) * bytes));
    for address in addresses {
        signals::check()?;
        if output.has_holes() && stick.is_unmapped(volume, address) {
            output.skip(bytes)?;
        } else {
            stick.read(volume, address, &mut buffer)?;
            output.write(&buffer)?;
        }
        *done += 1;
        progress.add(bytes);
    }
    Ok(())
}

pub fn put(options: &Put) -> Outcome {
    let source = Source::of(&options.stick.access)?;
    let mut input = Input::open(options.file.as_ref())?;
    let mut stick = Stick::open_to_write(&options.stick, source)?;
    // A passphrase may have stood before it, in the same file.
    let length = input.length()?;
    let block_bytes = stick.geometry().block_bytes;
    let blocks = length.map_or(1, |length| length.div_ceil(block_bytes).max(1));
    // The last block of a regular file, and the first of anything else, is asked for first: nothing is
    // written where the engine refuses it.
    let last = options.first.saturating_add(blocks - 1);
    stick.read(options.volume, last, &mut stick.buffer())?;

    let mut counts = Counts::default();
    let progress = Progress::new("writing", length);
    let copied = copy_in(&mut stick, options, &mut input, &mut counts, &progress);
    progress.now("storing");
    let stored = stick.sync();
    drop((progress, stick));
    let told = say(format_args!(
        "volume {}: {} blocks written, {} slices claimed, {} blocks of zeros passed over",
        options.volume, counts.written, counts.claimed, counts.zeros,
    ));
    copied.and(stored).and(told)
}

/// What a `put` did.
#[derive(Default)]
struct Counts {
    written: u64,
    claimed: u64,
    zeros: u64,
}

fn copy_in(
    stick: &mut Stick<MmapMut>,
    options: &Put,
    input: &mut Input,
    counts: &mut Counts,
    progress: &Progress,
) -> Outcome {
    let (mut buffer, mut rest) = (stick.buffer(), stick.buffer());
    let volume = options.volume;
    for address in options.first.. {
        let filled = input.fill(&mut buffer)?;
        if filled == 0 {
            break;
        }
        let is_last = filled < buffer.len();
        if is_last {
            // A part block keeps the rest of the block.
            stick.read(volume, address, &mut rest)?;
            buffer[filled..].copy_from_slice(&rest[filled..]);
        }
        if stick.is_unmapped(volume, address) && buffer.iter().all(|byte| *byte == 0) {
            counts.zeros += 1;
        } else {
            let change = stick.write(volume, address, &buffer)?;
            counts.written += 1;
            counts.claimed += u64::from(matches!(change, Change::Claimed(_)));
        }
        progress.add(filled as u64);
        if is_last {
            break;
        }
    }
    Ok(())
}
