//! File systems that a test mounts for itself, and loop devices.

use std::io::{self, Write};
use std::path::{Path, PathBuf};
use std::process::Command;

use super::process::detached;

/// A script for [`in_namespace`]: its first argument becomes a file system of 64 KiB in memory.
pub const SMALL_TMPFS: &str = "mount -t tmpfs -o size=64k none \"$1\" || exit 99\n";
/// A script for [`in_namespace`]: its first argument becomes a folder in which nothing can be written.
pub const READ_ONLY_FOLDER: &str =
    "mount --bind \"$1\" \"$1\" && mount -o remount,ro,bind \"$1\" || exit 99\n";

/// A shell script that may mount file systems: they are seen by nobody else, and go when it ends. The
/// exit status 99 is for mounts that fail.
pub fn in_namespace(script: &str) -> Command {
    let mut command = detached("unshare");
    command.args(["--mount", "sh", "-c", script, "sh"]);
    command
}

pub fn is_root() -> bool {
    // SAFETY: no memory is lent.
    unsafe { libc::geteuid() == 0 }
}

/// Says, past the test harness, which holds back what `println` prints, that a test did not run.
pub fn skipped(test: &str) {
    let line = format!("not run, since this machine does not allow it: {test}\n");
    io::stderr().write_all(line.as_bytes()).unwrap();
}

/// A block device over a file, taken down when this is dropped.
pub struct LoopDevice(PathBuf);

impl LoopDevice {
    /// None where the system gives no loop device.
    pub fn over(file: &Path) -> Option<Self> {
        let mut losetup = Command::new("losetup");
        let made = losetup.args(["--find", "--show"]).arg(file).output().ok()?;
        let name = String::from_utf8(made.stdout).ok()?;
        let device = made
            .status
            .success()
            .then(|| LoopDevice(name.trim().into()))?;
        device.told("blockdev", "--setrw").then_some(device)
    }

    pub fn path(&self) -> &Path {
        &self.0
    }

    /// Runs a program with an option and the device, and tells whether it was served.
    fn told(&self, program: &str, option: &str) -> bool {
        let status = Command::new(program).arg(option).arg(&self.0).status();
        status.is_ok_and(|status| status.success())
    }
}

impl Drop for LoopDevice {
    fn drop(&mut self) {
        // A device that is read-only would stay so for the next file behind it.
        let writable = self.told("blockdev", "--setrw");
        if !self.told("losetup", "--detach") || !writable {
            eprintln!("{} is left behind", self.0.display());
        }
    }
}
