//! Files and pipes that are read and written so that a signal ends the wait for them.

use std::fmt::Display;
use std::fs::{File, Metadata, OpenOptions};
use std::io::{self, ErrorKind, Read, Seek, Write};
use std::os::fd::{AsFd, BorrowedFd};
use std::os::unix::fs::{FileTypeExt, OpenOptionsExt};
use std::path::{Path, PathBuf};

use crate::failure::{Failure, Outcome};
use crate::image::Identity;
use crate::signals;

/// What a volume's blocks are copied to.
pub struct Output {
    file: File,
    name: String,
    /// A file of its own, in which unwritten places read as zeros.
    has_holes: bool,
}

impl Output {
    /// Makes or empties a file, or takes standard output. The stick itself is no output.
    pub fn open(path: Option<&PathBuf>, image: Identity) -> Outcome<Output> {
        if let Some(path) = named(path) {
            let (file, name) = (create(path, image)?, path.display().to_string());
            let has_holes = look(&file, &name, image)?.is_file();
            return Ok(Output {
                file,
                name,
                has_holes,
            });
        }
        let name = "standard output".to_string();
        let file = duplicate(io::stdout().as_fd(), &name)?;
        look(&file, &name, image)?;
        // It may be a file that is appended to: then a hole would be none.
        let has_holes = false;
        Ok(Output {
            file,
            name,
            has_holes,
        })
    }

    pub fn has_holes(&self) -> bool {
        self.has_holes
    }

    pub fn write(&mut self, bytes: &[u8]) -> Outcome {
        write_all(&self.file, bytes, &self.name)
    }

    /// Leaves a hole of so many bytes.
    pub fn skip(&mut self, bytes: u64) -> Outcome {
        let moved = self.file.seek_relative(bytes as i64);
        moved.map_err(|error| Failure::system(&self.name, "seeking", error))
    }

    /// Gives a file with holes its length, which a hole at the end does not.
    pub fn finish(self, length: u64) -> Outcome {
        if !self.has_holes {
            return Ok(());
        }
        let set = self.file.set_len(length);
        set.map_err(|error| Failure::system(&self.name, "setting the length", error))
    }
}

/// What is copied to a volume.
pub struct Input {
    file: File,
    name: String,
}

impl Input {
    /// A file, or standard input.
    pub fn open(path: Option<&PathBuf>) -> Outcome<Input> {
        if let Some(path) = named(path) {
            return Input::file(path);
        }
        let name = "standard input".to_string();
        let file = duplicate(io::stdin().as_fd(), &name)?;
        Ok(Input { file, name })
    }

    pub fn file(path: &Path) -> Outcome<Input> {
        let name = path.display().to_string();
        let mut options = OpenOptions::new();
        // Otherwise the opening of a pipe would wait, whatever signals come. Now each read does.
        let opened = options.read(true).custom_flags(libc::O_NONBLOCK).open(path);
        let file = opened.map_err(|error| Failure::system(&name, "opening", error))?;
        Ok(Input { file, name })
    }

    /// The bytes that are left of a regular file. None of anything else.
    pub fn length(&mut self) -> Outcome<Option<u64>> {
        let failed = |error| Failure::system(&self.name, "looking at it", error);
        let metadata = self.file.metadata().map_err(failed)?;
        if !metadata.is_file() {
            return Ok(None);
        }
        let position = self.file.stream_position().map_err(failed)?;
        Ok(Some(metadata.len().saturating_sub(position)))
    }

    /// Fills the buffer, and gives fewer bytes than it has at the end of the input alone.
    pub fn fill(&mut self, buffer: &mut [u8]) -> Outcome<usize> {
        let mut filled = 0;
        while filled < buffer.len() {
            match read(&self.file, &mut buffer[filled..], &self.name)? {
                0 => break,
                bytes => filled += bytes,
            }
        }
        Ok(filled)
    }
}

/// Writes a line to standard output, also after a signal: it can tell what was done before.
pub fn say(line: impl Display) -> Outcome {
    let said = writeln!(io::stdout(), "{line}");
    said.map_err(|error| Failure::system("standard output", "writing", error))
}

/// Opens a file for writing, made or emptied, unless it is the stick.
pub fn create(path: &Path, image: Identity) -> Outcome<File> {
    let failed = |error| Failure::system(path.display(), "opening", error);
    let mut options = OpenOptions::new();
    // Emptied after the look at what it is. A pipe that nobody reads is an error so, and not a wait that no
    // signal ends.
    options.write(true).create(true).truncate(false);
    options.custom_flags(libc::O_NONBLOCK);
    let file = loop {
        match options.open(path) {
            Err(error) if error.raw_os_error() == Some(libc::ENXIO) && is_pipe(path) => {
                signals::pause()?
            }
            opened => break opened.map_err(failed)?,
        }
    };
    if look(&file, &path.display().to_string(), image)?.is_file() {
        file.set_len(0).map_err(failed)?;
    }
    Ok(file)
}

/// What a file is that is to be written to. The stick itself is refused.
fn look(file: &File, name: &str, image: Identity) -> Outcome<Metadata> {
    let metadata = file.metadata();
    let metadata = metadata.map_err(|error| Failure::system(name, "looking at it", error))?;
    match Identity::of(&metadata) == image {
        true => Err(Failure::Usage(format!("{name} is the stick itself"))),
        false => Ok(metadata),
    }
}

/// Reads some bytes, at least one unless the input is at its end.
pub fn read(mut file: &File, buffer: &mut [u8], name: &str) -> Outcome<usize> {
    loop {
        signals::wait(file, libc::POLLIN)?;
        match file.read(buffer) {
            Err(error) if is_passing(&error) => {}
            result => return result.map_err(|error| Failure::system(name, "reading", error)),
        }
    }
}

/// Writes all bytes. At most 4,096 at once never wait on a pipe that is ready.
pub fn write_all(mut file: &File, mut bytes: &[u8], name: &str) -> Outcome {
    let failed = |error| Failure::system(name, "writing", error);
    while !bytes.is_empty() {
        signals::wait(file, libc::POLLOUT)?;
        match file.write(&bytes[..bytes.len().min(libc::PIPE_BUF)]) {
            Ok(written) if written > 0 => bytes = &bytes[written..],
            Ok(_) => return Err(failed(ErrorKind::WriteZero.into())),
            Err(error) if is_passing(&error) => {}
            Err(error) => return Err(failed(error)),
        }
    }
    Ok(())
}

/// A signal came, or a pipe that does not wait is not ready.
fn is_passing(error: &io::Error) -> bool {
    matches!(error.kind(), ErrorKind::Interrupted | ErrorKind::WouldBlock)
}

/// None for the standard stream, which `-` stands for too.
fn named(path: Option<&PathBuf>) -> Option<&Path> {
    path.map(PathBuf::as_path)
        .filter(|path| *path != Path::new("-"))
}

fn is_pipe(path: &Path) -> bool {
    path.metadata()
        .is_ok_and(|metadata| metadata.file_type().is_fifo())
}

fn duplicate(descriptor: BorrowedFd, name: &str) -> Outcome<File> {
    let owned = descriptor.try_clone_to_owned();
    owned
        .map(File::from)
        .map_err(|error| Failure::system(name, "opening", error))
}
