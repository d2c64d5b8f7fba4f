//! Keys: files of 32 bytes, or passphrases through Argon2id.

use std::ffi::{c_char, c_int, c_void, CStr};
use std::fs::File;
use std::io;
use std::os::fd::FromRawFd;
use std::path::{Path, PathBuf};

use hiwalgam::{Refusal, KEY_BYTES};
use zeroize::Zeroizing;

use crate::arguments::Access;
use crate::failure::{Failure, Outcome};
use crate::signals;
use crate::streams::{self, Input};

/// Bytes that are wiped when they are dropped.
pub type Secret = Zeroizing<Vec<u8>>;

/// RFC 9106, section 4, the second recommended option: passes, KiB of memory, lanes.
const PASSES: u32 = 3;
const MEMORY: u32 = 65_536;
const LANES: u32 = 4;

/// The longest passphrase. Its room is taken at once: a list that grows leaves copies behind.
const PASSPHRASE_LIMIT: usize = 65_536;

/// Where keys come from.
pub enum Source {
    /// A file for each key.
    Files(Vec<PathBuf>),
    /// A line for each passphrase.
    Lines(File),
    Terminal,
}

/// What a key is made of.
pub enum Material {
    Key(Secret),
    Passphrase(Secret),
}

impl Source {
    /// Made before any file is opened: a descriptor that is not there could become that of the file.
    pub fn new(files: &[PathBuf], descriptor: Option<c_int>) -> Outcome<Source> {
        match descriptor {
            Some(number) => Ok(Source::Lines(duplicate(number)?)),
            None if files.is_empty() => Ok(Source::Terminal),
            None => Ok(Source::Files(files.to_vec())),
        }
    }

    pub fn of(access: &Access) -> Outcome<Source> {
        Source::new(access.key.as_slice(), access.passphrase_fd)
    }

    /// What the key of a session is made of.
    pub fn material(&self) -> Outcome<Material> {
        match self {
            Source::Files(files) => key_file(&files[0]).map(Material::Key),
            Source::Lines(file) => line(file).map(Material::Passphrase),
            Source::Terminal => ask("Passphrase: ").map(Material::Passphrase),
        }
    }

    /// What the keys of the volumes of a new stick are made of.
    pub fn materials(&self, volumes: usize) -> Outcome<Vec<Material>> {
        match self {
            Source::Files(files) if files.len() != volumes => Err(Failure::Usage(format!(
                "there are {} key files for {volumes} volumes: give -k once for each",
                files.len()
            ))),
            Source::Files(files) => {
                let key = |file: &PathBuf| exact_key_file(file).map(Material::Key);
                files.iter().map(key).collect()
            }
            Source::Lines(file) => {
                let next = |_| line(file).map(Material::Passphrase);
                (0..volumes).map(next).collect()
            }
            Source::Terminal => {
                let answer = |volume| ask_twice(volume).map(Material::Passphrase);
                (0..volumes).map(answer).collect()
            }
        }
    }
}

impl Material {
    pub fn into_key(self, salt: &[u8; 16]) -> Outcome<Secret> {
        match self {
            Material::Key(key) => Ok(key),
            Material::Passphrase(passphrase) => derive(&passphrase, salt),
        }
    }
}

/// The bytes of a key file, one too many at most: the engine refuses a key of another length by 3.
fn key_file(path: &Path) -> Outcome<Secret> {
    let mut key = Zeroizing::new(vec![0; KEY_BYTES + 1]);
    let length = Input::file(path)?.fill(&mut key)?;
    key.truncate(length);
    Ok(key)
}

/// A key file of 32 bytes. A formatting is handed the keys end to end: two wrong lengths could add up to a
/// right one.
fn exact_key_file(path: &Path) -> Outcome<Secret> {
    let key = key_file(path)?;
    match key.len() {
        KEY_BYTES => Ok(key),
        _ => Err(Failure::Refused(
            Refusal::KeyLength,
            format!("; {} is none", path.display()),
        )),
    }
}

/// A line, without its end. Byte by byte: what follows may be the input of `put`.
fn line(file: &File) -> Outcome<Secret> {
    let mut line = Zeroizing::new(Vec::with_capacity(PASSPHRASE_LIMIT));
    let mut byte = Zeroizing::new([0]);
    while streams::read(file, &mut *byte, "the passphrase")? > 0 && byte[0] != b'\n' {
        if line.len() == PASSPHRASE_LIMIT {
            let words = format!("the passphrase is longer than {PASSPHRASE_LIMIT} bytes");
            return Err(Failure::Usage(words));
        }
        line.push(byte[0]);
    }
    allowed(line)
}

fn ask(prompt: &str) -> Outcome<Secret> {
    let answer = signals::while_asking(|| rpassword::prompt_password(prompt))?;
    let answer = answer
        .map_err(|error| Failure::system("the terminal", "asking for a passphrase", error))?;
    allowed(Zeroizing::new(answer.into_bytes()))
}

fn ask_twice(volume: usize) -> Outcome<Secret> {
    let passphrase = ask(&format!("Passphrase for volume {volume}: "))?;
    if *passphrase != *ask("Again: ")? {
        return Err(Failure::Usage("the passphrases differ".into()));
    }
    Ok(passphrase)
}

/// A passphrase that every program over the engine can take: to one in C a byte 0 would be its end.
fn allowed(passphrase: Secret) -> Outcome<Secret> {
    if passphrase.is_empty() {
        return Err(Failure::Usage("the passphrase is empty".into()));
    }
    if passphrase.contains(&0) {
        return Err(Failure::Usage("the passphrase has a byte 0".into()));
    }
    Ok(passphrase)
}

fn duplicate(number: c_int) -> Outcome<File> {
    // SAFETY: the call touches no memory.
    let copy = unsafe { libc::fcntl(number, libc::F_DUPFD_CLOEXEC, 0) };
    if copy < 0 {
        let (name, error) = (format!("descriptor {number}"), io::Error::last_os_error());
        return Err(Failure::system(name, "opening", error));
    }
    // SAFETY: the descriptor was made just now, and nothing else owns it.
    Ok(unsafe { File::from_raw_fd(copy) })
}

// libargon2, as argon2.h declares it. The version is 0x13.
#[rustfmt::skip]
extern "C" {
    fn argon2id_hash_raw(
        passes: u32, memory: u32, lanes: u32,
        passphrase: *const c_void, passphrase_length: usize,
        salt: *const c_void, salt_length: usize,
        out: *mut c_void, out_length: usize,
    ) -> c_int;
    fn argon2_error_message(number: c_int) -> *const c_char;
}

fn derive(passphrase: &[u8], salt: &[u8; 16]) -> Outcome<Secret> {
    let mut key = Zeroizing::new(vec![0; KEY_BYTES]);
    // SAFETY: each pointer goes with the length of what it was taken from.
    #[rustfmt::skip]
    let number = unsafe {
        argon2id_hash_raw(
            PASSES, MEMORY, LANES,
            passphrase.as_ptr().cast(), passphrase.len(),
            salt.as_ptr().cast(), salt.len(),
            key.as_mut_ptr().cast(), key.len(),
        )
    };
    if number == 0 {
        return Ok(key);
    }
    // SAFETY: the function gives a string of its own for every number.
    let words = unsafe { CStr::from_ptr(argon2_error_message(number)) };
    let what = format!("Argon2id: making a key: {}", words.to_string_lossy());
    Err(Failure::System(what, None))
}
