//! `release`: gives slices of a volume back.

use memmap2::MmapMut;

use crate::arguments::Release;
use crate::failure::Outcome;
use crate::keys::Source;
use crate::session::Stick;
use crate::signals;
use crate::streams::say;

pub fn run(options: &Release) -> Outcome {
    let source = Source::of(&options.stick.access)?;
    let mut stick = Stick::open_to_write(&options.stick, source)?;
    let released = release(&mut stick, options);
    released.and(stick.sync())
}

/// Stops at the first refusal. What was released before stays so, and is told.
fn release(stick: &mut Stick<MmapMut>, options: &Release) -> Outcome {
    let volume = options.volume;
    for logical in options.slices.iter().cloned().flatten() {
        signals::check()?;
        let slice = stick.release(volume, logical)?;
        say(format_args!(
            "volume {volume}: logical slice {logical} released, slice {slice} is free"
        ))?;
    }
    Ok(())
}
