//! Sticks that the command formats.

use std::fs::{self, File};
use std::path::{Path, PathBuf};
use std::process::Command;

use hiwalgam_reference::geometry::Geometry;

use super::process::{hiwalgam, run, run_fed};
use super::texts::key;
use super::witness::{opened, Opened};
use super::Folder;

/// 8 slices of 4 blocks of 1,024 bytes: an image of 72,704 bytes, volumes of up to 32 blocks.
pub const SMALL: Geometry = Geometry {
    b: 1024,
    s: 4,
    p: 8,
};

pub fn geometry(b: usize, s: usize, p: usize) -> Geometry {
    Geometry::new(b, s, p).unwrap()
}

/// An image with its key files, in a folder of its own.
pub struct Stick {
    pub folder: Folder,
    pub image: PathBuf,
    pub geometry: Geometry,
}

impl Stick {
    /// A stick with a volume for each count of logical slices.
    #[track_caller]
    pub fn new(geometry: Geometry, counts: &[usize]) -> Self {
        let folder = Folder::new();
        let image = folder.join("image");
        let stick = Stick {
            folder,
            image,
            geometry,
        };
        let mut command = hiwalgam();
        command.arg("format").arg(&stick.image);
        command.args(["--slices", &geometry.p.to_string()]);
        stick.with_geometry(&mut command);
        for (volume, count) in counts.iter().enumerate() {
            command.args(["--volume", &count.to_string()]);
            command.arg("--key").arg(stick.key_file(volume));
        }
        run(&mut command).served();
        stick
    }

    /// A small stick with so many volumes, each as large as the stick.
    #[track_caller]
    pub fn small(volumes: usize) -> Self {
        Stick::new(SMALL, &vec![SMALL.p; volumes])
    }

    /// Adds the options that tell the geometry.
    pub fn with_geometry<'a>(&self, command: &'a mut Command) -> &'a mut Command {
        let Geometry { b, s, .. } = self.geometry;
        command.args(["-B", &b.to_string(), "-S", &s.to_string()])
    }

    /// The file with the key of a volume.
    pub fn key_file(&self, volume: usize) -> PathBuf {
        self.folder.file(&format!("key{volume}"), &key(volume))
    }

    /// The command with a subcommand, the geometry, the key of a volume and the image: what else the
    /// subcommand takes is to be added.
    pub fn command(&self, subcommand: &str, key: usize) -> Command {
        let mut command = self.keyless(subcommand);
        command.arg("-k").arg(self.key_file(key));
        command
    }

    /// The same without a key.
    pub fn keyless(&self, subcommand: &str) -> Command {
        let mut command = hiwalgam();
        self.with_geometry(command.arg(subcommand)).arg(&self.image);
        command
    }

    /// Puts bytes into a volume, from a pipe, and gives what the command prints.
    #[track_caller]
    pub fn put(&self, key: usize, volume: usize, first: usize, bytes: &[u8]) -> String {
        let mut command = self.command("put", key);
        command.args([volume.to_string(), format!("--first={first}")]);
        run_fed(&mut command, bytes).served().to_owned()
    }

    /// The bytes of the image.
    pub fn bytes(&self) -> Vec<u8> {
        fs::read(&self.image).unwrap()
    }

    /// What the key of a volume opens, looked at without the command.
    #[track_caller]
    pub fn opened(&self, volume: usize) -> Opened {
        self.opened_by(&key(volume)).unwrap()
    }

    /// What a key opens, looked at without the command, or the number of the refusal.
    #[track_caller]
    pub fn opened_by(&self, key: &[u8]) -> Result<Opened, u8> {
        opened(&self.bytes(), self.geometry, key)
    }

    /// Changes bytes of the image.
    pub fn alter(&self, change: impl FnOnce(&mut [u8])) {
        let mut bytes = self.bytes();
        change(&mut bytes);
        fs::write(&self.image, &bytes).unwrap();
    }

    /// Makes the image longer or shorter.
    pub fn set_length(&self, length: usize) {
        let file = File::options().write(true).open(&self.image).unwrap();
        file.set_len(length as u64).unwrap();
    }

    /// The image as an argument.
    pub fn name(&self) -> &str {
        text(&self.image)
    }
}

fn text(path: &Path) -> &str {
    path.to_str().unwrap()
}
