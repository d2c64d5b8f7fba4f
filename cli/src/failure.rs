//! What ends the command early, how it is told, and the exit status.

use std::fmt;
use std::io;

use hiwalgam::Refusal;

pub type Outcome<T = ()> = Result<T, Failure>;

/// Why the command ends early.
#[derive(Debug)]
pub enum Failure {
    /// The engine refused a call. The words come after the advice, and may be none.
    Refused(Refusal, String),
    /// What was asked cannot be meant.
    Usage(String),
    /// The operating system, with what failed and, where it has some, its words.
    System(String, Option<io::Error>),
    /// A signal, with what was done before; nothing where that is told already.
    Interrupted(String),
}

impl Failure {
    /// What failed on a file or a device, and the system's words.
    pub fn system(subject: impl fmt::Display, failed: &str, error: io::Error) -> Failure {
        Failure::System(format!("{subject}: {failed}"), Some(error))
    }

    pub fn exit_status(&self) -> u8 {
        match self {
            Failure::Refused(..) => 1,
            Failure::Usage(_) => 2,
            Failure::System(..) | Failure::Interrupted(_) => 3,
        }
    }

    /// Tells it on standard error. Where that cannot be written, the exit status alone tells it.
    pub fn tell(&self) {
        match self {
            Failure::Refused(refusal, words) => {
                complain(named(*refusal));
                tell_line(&format!("what to do: {}{words}", advice(*refusal)));
            }
            Failure::Usage(words) => complain(words),
            Failure::System(what, None) => complain(what),
            Failure::System(what, Some(error)) => complain(format!("{what}: {error}")),
            Failure::Interrupted(done) => {
                complain("interrupted");
                if !done.is_empty() {
                    tell_line(&format!("what was done: {done}"));
                }
            }
        }
    }
}

impl From<Refusal> for Failure {
    fn from(refusal: Refusal) -> Failure {
        Failure::Refused(refusal, String::new())
    }
}

/// Tells on standard error what went wrong.
pub fn complain(words: impl fmt::Display) {
    tell_line(&format!("hiwalgam: {words}"));
}

fn tell_line(line: &str) {
    use io::Write;
    // Unlike eprintln!, no panic where standard error is closed or full.
    let _ = writeln!(io::stderr(), "{line}");
}

/// A refusal with its number, its name and the engine's words.
pub fn named(refusal: Refusal) -> String {
    let (number, words) = (refusal.number(), refusal.to_string());
    let suffix = format!(" (refusal {number})");
    let reason = words.strip_suffix(&suffix).unwrap_or(&words);
    format!("refused by {number}, {refusal:?}: {reason}")
}

/// What somebody can do who sees a refusal.
fn advice(refusal: Refusal) -> &'static str {
    match refusal {
        Refusal::BadGeometry => {
            "give -B 1024 or 4096, -S from 1 to B / 16, from 1 to 4096 slices, \
             and each volume from 1 to all of them"
        }
        Refusal::DeviceLength => {
            "give the -B and -S with which the stick was formatted, or an exact length"
        }
        Refusal::KeyLength => "give a key file of exactly 32 bytes",
        Refusal::NoCell => {
            "give the right key or passphrase, and the -B and -S with which the stick was formatted; \
             nothing but a key tells whether this is a stick"
        }
        Refusal::HeaderTag => {
            "the image was altered or damaged: take a copy of it, or the key of a lower volume"
        }
        Refusal::HeaderGeometry => {
            "give the -B and -S with which the stick was formatted; with these, the image was cut, \
             extended or altered: take a copy of it"
        }
        Refusal::BadEntry => {
            "the map of a volume was altered or damaged: take a copy of the image, \
             or the key of a lower volume"
        }
        Refusal::SliceTwice => {
            "a session under a lower key took a slice of a volume above it, or a map was altered: \
             take a copy of the image, or the key of a lower volume"
        }
        Refusal::VolumeAbove => {
            "give the key of this volume or of one above; `hiwalgam volumes` lists what a key opens"
        }
        Refusal::AddressAbove => {
            "`hiwalgam volumes` tells how many slices and blocks the volume has"
        }
        Refusal::NoFreeSlice => "release slices that are not needed, or take a larger stick",
        Refusal::KeyCount => "give 1 to 15 volumes, with a key for each",
        Refusal::LowerCell => "give each volume a key or passphrase of its own",
        Refusal::SliceUnmapped => {
            "nothing: the logical slice has no slice, and its blocks are zeros"
        }
        Refusal::TapeShort => "try again: more random bytes were needed than were drawn",
        Refusal::TableLength
        | Refusal::BadPermutation
        | Refusal::WrongLength
        | Refusal::MalformedLine
        | Refusal::TagDiffers
        | Refusal::NotOpen => "report it: this command should never make such a call",
    }
}
