//! The stick as a file: opened once, locked, and mapped into memory.

use std::fs::{File, Metadata, OpenOptions, TryLockError};
use std::io::{self, ErrorKind, Seek, SeekFrom};
use std::ops::Deref;
use std::os::fd::AsRawFd;
use std::os::unix::fs::{FileTypeExt, MetadataExt, OpenOptionsExt};
use std::path::{Path, PathBuf};

use memmap2::{Mmap, MmapMut, MmapOptions};

use crate::failure::{Failure, Outcome};

const IN_USE: &str = "is in use by another session";
/// The kernel's number, linux/fs.h, for the question whether a block device takes no writes.
const BLKROGET: libc::c_ulong = 0x125e;

/// What tells files apart: of a block device its number, whichever node names it.
#[derive(Clone, Copy, PartialEq)]
pub enum Identity {
    Device(u64),
    Inode { device: u64, number: u64 },
}

impl Identity {
    pub fn of(metadata: &Metadata) -> Identity {
        match metadata.file_type().is_block_device() {
            true => Identity::Device(metadata.rdev()),
            false => Identity::Inode {
                device: metadata.dev(),
                number: metadata.ino(),
            },
        }
    }
}

/// An image that is open and locked: no other session has it until this is dropped.
pub struct Locked {
    pub path: PathBuf,
    pub file: File,
    pub length: u64,
}

impl Locked {
    pub fn open(path: &Path, writes: bool) -> Outcome<Locked> {
        let failed = |error| Failure::system(path.display(), "opening", error);
        // Looked at before it is opened: the opening of a pipe would wait.
        let kind = path.metadata().map_err(failed)?.file_type();
        if !kind.is_file() && !kind.is_block_device() {
            return Err(wrong(path, "is neither a regular file nor a block device"));
        }
        let mut options = OpenOptions::new();
        options.read(true).write(writes);
        if kind.is_block_device() {
            // Refused by the system while the device is mounted or opened so by another process.
            options.custom_flags(libc::O_EXCL);
        }
        match options.open(path) {
            Err(error) if error.kind() == ErrorKind::ResourceBusy => {
                Err(wrong(path, &format!("{IN_USE}, or mounted")))
            }
            Ok(file) if writes && is_read_only(&file) => {
                Err(failed(io::Error::from_raw_os_error(libc::EROFS)))
            }
            opened => Locked::lock(path, opened.map_err(failed)?),
        }
    }

    /// Locks a file that was just opened.
    pub fn lock(path: &Path, mut file: File) -> Outcome<Locked> {
        let failed = |failed, error| Failure::system(path.display(), failed, error);
        match file.try_lock() {
            Ok(()) => {}
            Err(TryLockError::WouldBlock) => return Err(wrong(path, IN_USE)),
            Err(TryLockError::Error(error)) => return Err(failed("locking", error)),
        }
        // A block device tells its length in no other way.
        let length = file.seek(SeekFrom::End(0));
        let length = length.map_err(|error| failed("seeking", error))?;
        let path = path.to_path_buf();
        Ok(Locked { path, file, length })
    }

    pub fn map(self) -> Outcome<Image<Mmap>> {
        // SAFETY: the lock keeps other sessions out. That no other program alters or cuts the file is for
        // its owner to see to: altered bytes are other bytes to the engine, and a cut file is a SIGBUS.
        let bytes = unsafe { self.all().map(&self.file) };
        self.mapped(bytes)
    }

    pub fn map_mut(self) -> Outcome<Image<MmapMut>> {
        // SAFETY: as above.
        let bytes = unsafe { self.all().map_mut(&self.file) };
        self.mapped(bytes)
    }

    /// The whole length. Of a block device the mapping does not find it by itself.
    fn all(&self) -> MmapOptions {
        let mut options = MmapOptions::new();
        options.len(self.length as usize);
        options
    }

    fn mapped<M>(self, bytes: io::Result<M>) -> Outcome<Image<M>> {
        let bytes =
            bytes.map_err(|error| Failure::system(self.path.display(), "mapping", error))?;
        Ok(Image {
            bytes,
            locked: self,
        })
    }

    /// Makes the file longer where it is shorter, and reserves its room: otherwise a full disk would be
    /// a SIGBUS later.
    pub fn reserve(&mut self, length: u64) -> Outcome {
        reserve(&self.file, length).map_err(|error| {
            let failed = format!("reserving {length} bytes");
            Failure::system(self.path.display(), &failed, error)
        })?;
        self.length = self.length.max(length);
        Ok(())
    }

    /// Makes the file shorter or longer.
    pub fn set_length(&mut self, length: u64) -> Outcome {
        let set = self.file.set_len(length);
        set.map_err(|error| Failure::system(self.path.display(), "setting the length", error))?;
        self.length = length;
        Ok(())
    }

    /// Whether it is a regular file, and no block device.
    pub fn is_file(&self) -> Outcome<bool> {
        Ok(self.metadata()?.is_file())
    }

    pub fn identity(&self) -> Outcome<Identity> {
        Ok(Identity::of(&self.metadata()?))
    }

    fn metadata(&self) -> Outcome<Metadata> {
        let metadata = self.file.metadata();
        metadata.map_err(|error| Failure::system(self.path.display(), "looking at it", error))
    }
}

/// A mapped image. It is read-only unless it is an `Image<MmapMut>`.
pub struct Image<M> {
    pub bytes: M,
    pub locked: Locked,
}

impl<M: Deref<Target = [u8]>> Image<M> {
    /// The salt of passphrases. An image that is too short for it is refused by 2, whatever the key.
    pub fn salt(&self) -> [u8; 16] {
        self.bytes.first_chunk().copied().unwrap_or_default()
    }
}

impl Image<MmapMut> {
    /// Stores what was written, on the stick itself.
    pub fn sync(&self) -> Outcome {
        let stored = self.bytes.flush();
        stored.map_err(|error| Failure::system(self.locked.path.display(), "storing", error))
    }
}

/// Whether it is a block device that takes no writes. Linux can let one be opened for writing all the same.
fn is_read_only(file: &File) -> bool {
    let mut read_only: libc::c_int = 0;
    // SAFETY: the descriptor is open, and the pointer valid for the number that the kernel sets.
    let answered = unsafe { libc::ioctl(file.as_raw_fd(), BLKROGET, &mut read_only) };
    answered == 0 && read_only != 0
}

/// Reserves room on the disk for the first bytes of a file, which is as long at least afterwards.
pub fn reserve(file: &File, length: u64) -> io::Result<()> {
    let length = libc::off_t::try_from(length).map_err(|_| ErrorKind::FileTooLarge)?;
    loop {
        // SAFETY: the descriptor is open.
        match unsafe { libc::posix_fallocate(file.as_raw_fd(), 0, length) } {
            0 => return Ok(()),
            // A signal came, which is looked at afterwards.
            libc::EINTR => {}
            // The number is returned; errno stays.
            number => return Err(io::Error::from_raw_os_error(number)),
        }
    }
}

fn wrong(path: &Path, words: &str) -> Failure {
    Failure::System(format!("{}: {words}", path.display()), None)
}
