//! Tapes: random bytes, each used once, which are wiped afterwards.

use std::env;
use std::fs::{self, File, OpenOptions};
use std::io;
use std::os::unix::fs::OpenOptionsExt;
use std::path::{Path, PathBuf};

use hiwalgam::{Geometry, Refusal, Tape};
use memmap2::{MmapMut, MmapOptions};
use zeroize::{Zeroize, Zeroizing};

use crate::failure::{Failure, Outcome};
use crate::image::reserve;
use crate::progress::Progress;
use crate::signals;

/// The bytes of a session's tape.
const SESSION_BYTES: usize = 65_536;
/// How many bytes are drawn between two looks at the signals.
const CHUNK: usize = 1 << 20;

/// The tape of a session. It is drawn when it is needed first, and anew when too few bytes are left.
pub struct SessionTape {
    bytes: Zeroizing<Vec<u8>>,
    position: usize,
}

impl SessionTape {
    /// A tape of which nothing is drawn yet, as if it were used up.
    pub fn new() -> SessionTape {
        let bytes = Zeroizing::new(vec![0; SESSION_BYTES]);
        SessionTape {
            bytes,
            position: SESSION_BYTES,
        }
    }

    /// Lends the tape, with so many bytes left at least, to a call.
    pub fn lend<T>(&mut self, need: usize, call: impl FnOnce(&mut Tape) -> T) -> Outcome<T> {
        if self.bytes.len() - self.position < need {
            draw(&mut self.bytes)?;
            self.position = 0;
        }
        let mut tape = Tape {
            bytes: &self.bytes,
            position: self.position,
        };
        let answer = call(&mut tape);
        self.position = tape.position;
        Ok(answer)
    }
}

/// The order of a session's claims, and the bytes that were drawn for it.
pub fn shuffled(geometry: Geometry) -> Outcome<(Vec<u32>, usize)> {
    let places = geometry.slices as usize;
    let mut permutation = vec![0; places];
    let mut bytes = Zeroizing::new(vec![0; 2 * places + 512]);
    loop {
        draw(&mut bytes)?;
        let mut tape = Tape::new(&bytes);
        match hiwalgam::shuffle(geometry, &mut permutation, &mut tape) {
            Ok(()) => return Ok((permutation, tape.position)),
            // Too many draws were thrown away, at a chance below 2^-128.
            Err(Refusal::TapeShort) => {}
            Err(refusal) => return Err(refusal.into()),
        }
    }
}

/// The tape of a formatting, in memory or in a nameless file.
pub struct FormatTape {
    pub bytes: MmapMut,
    is_file: bool,
}

impl FormatTape {
    /// Takes the room, and draws the bytes.
    pub fn draw(length: usize, folder: Option<&Path>, progress: &Progress) -> Outcome<FormatTape> {
        let mut tape = FormatTape::room(length, folder)?;
        for chunk in tape.bytes.chunks_mut(CHUNK) {
            signals::check()?;
            draw(chunk)?;
            progress.add(chunk.len() as u64);
        }
        Ok(tape)
    }

    /// In memory where that takes at most half of what is available, unless a folder is named.
    fn room(length: usize, folder: Option<&Path>) -> Outcome<FormatTape> {
        if folder.is_none() && length as u64 <= available_memory() / 2 {
            if let Ok(bytes) = MmapMut::map_anon(length) {
                return Ok(FormatTape {
                    bytes,
                    is_file: false,
                });
            }
        }
        let folder = folder.map_or_else(default_folder, Path::to_path_buf);
        let bytes = in_file(length, &folder).map_err(|error| {
            let failed =
                format!("reserving {length} bytes for the tape (--temp-dir names another folder)");
            Failure::system(folder.display(), &failed, error)
        })?;
        Ok(FormatTape {
            bytes,
            is_file: true,
        })
    }
}

impl Drop for FormatTape {
    fn drop(&mut self) {
        self.bytes.zeroize();
        if self.is_file {
            // Where the zeros cannot be stored, nothing is left to try.
            let _ = self.bytes.flush();
        }
    }
}

fn in_file(length: usize, folder: &Path) -> io::Result<MmapMut> {
    let file = nameless(folder)?;
    reserve(&file, length as u64)?;
    // SAFETY: no other process can open a file without a name.
    unsafe { MmapOptions::new().len(length).map_mut(&file) }
}

/// A file that no folder names, or that is taken out of its folder at once.
fn nameless(folder: &Path) -> io::Result<File> {
    let mut options = OpenOptions::new();
    options.read(true).write(true).mode(0o600);
    let made = options.clone().custom_flags(libc::O_TMPFILE).open(folder);
    match made {
        Err(error) if is_unknown(&error) => {}
        made => return made,
    }
    let mut name = [0; 8];
    getrandom::getrandom(&mut name)?;
    let path = folder.join(format!(".hiwalgam-{:016x}", u64::from_ne_bytes(name)));
    let file = options.create_new(true).open(&path)?;
    fs::remove_file(&path)?;
    Ok(file)
}

/// Whether a file system has no files without a name; a kernel that has none says that it is a folder.
fn is_unknown(error: &io::Error) -> bool {
    matches!(error.raw_os_error(), Some(libc::EOPNOTSUPP | libc::EISDIR))
}

fn default_folder() -> PathBuf {
    let named = env::var_os("TMPDIR").filter(|folder| !folder.is_empty());
    named.map_or_else(|| "/var/tmp".into(), PathBuf::from)
}

/// The bytes that programs can take without swapping; 0 where the kernel does not tell.
fn available_memory() -> u64 {
    let table = fs::read_to_string("/proc/meminfo").unwrap_or_default();
    let line = table
        .lines()
        .find_map(|line| line.strip_prefix("MemAvailable:"));
    let kibibytes = line.and_then(|line| line.trim().strip_suffix(" kB")?.parse().ok());
    kibibytes.unwrap_or(0_u64).saturating_mul(1024)
}

fn draw(bytes: &mut [u8]) -> Outcome {
    let drawn = getrandom::getrandom(bytes);
    drawn.map_err(|error| Failure::system("getrandom", "drawing random bytes", error.into()))
}
