//! Signals while a subcommand works.

use std::ffi::c_int;
use std::fs::{self, File};
use std::os::fd::{AsRawFd, RawFd};
use std::process::{Command, Stdio};
use std::thread;
use std::time::Duration;

use crate::putting::put_output;
use crate::support::{
    blocks, eventually, geometry, hiwalgam, key, random, run, Ended, Folder, Running, Stick,
};

const SIGNALS: [c_int; 3] = [libc::SIGINT, libc::SIGTERM, libc::SIGHUP];

/// Starts `put` with a pipe, feeds blocks, and waits until they are on the stick.
fn put_so_far(stick: &Stick, text: &[u8]) -> Running {
    let mut running = Running::start(stick.command("put", 0).arg("0").stdin(Stdio::piped()));
    for block in text.chunks(1024) {
        running.feed(block);
    }
    let whole = text.len() / 1024 * 1024;
    eventually("the blocks are put", || {
        stick.opened(0).texts[0][..whole] == text[..whole]
    });
    running
}

#[test]
fn a_put_that_is_interrupted() {
    for signal in SIGNALS {
        let stick = Stick::small(2);
        let text = blocks(1, 6);
        let running = put_so_far(&stick, &text);
        running.signal(signal);
        // The pipe stays open: the signal alone ends the run.
        let ended = running.wait();
        ended.failed(&["hiwalgam: interrupted"]);
        assert_eq!(ended.out(), put_output(0, 6, 2, 0));
        let opened = stick.opened(1);
        assert!(opened.texts[0][..6 * 1024] == text);
        assert!(opened.texts[0][6 * 1024..].iter().all(|&byte| byte == 0));
        run(&mut stick.command("check", 1)).served();
        assert_eq!(stick.put(0, 0, 6, &blocks(2, 2)), put_output(0, 2, 0, 0));
    }
}

/// Part of a block was read: it is there whole or not at all, and the blocks before it are.
#[test]
fn a_put_that_is_interrupted_in_a_block() {
    let stick = Stick::small(1);
    let text = random(3, 2 * 1024 + 500);
    let running = put_so_far(&stick, &text);
    thread::sleep(Duration::from_millis(50));
    running.signal(libc::SIGTERM);
    running.wait().failed(&["hiwalgam: interrupted"]);
    let after = &stick.opened(0).texts[0];
    assert!(after[..2048] == text[..2048]);
    assert!(after[2048..2548].iter().all(|&byte| byte == 0) || after[2048..2548] == text[2048..]);
    assert!(after[2548..].iter().all(|&byte| byte == 0));
    run(&mut stick.command("check", 0)).served();
}

/// Before the first byte of the pipe.
#[test]
fn a_put_that_is_interrupted_at_once() {
    let stick = Stick::small(1);
    let before = stick.bytes();
    let running = Running::start(stick.command("put", 0).arg("0").stdin(Stdio::piped()));
    running.wait_until_locked();
    running.signal(libc::SIGINT);
    let ended = running.wait();
    ended.failed(&["hiwalgam: interrupted"]);
    assert!(stick.bytes() == before);
}

/// All blocks that were put are there after a kill, which no program can answer.
#[test]
fn a_put_that_is_killed() {
    let stick = Stick::new(geometry(1024, 1, 16), &[16, 16]);
    let text = blocks(4, 11);
    let running = put_so_far(&stick, &text);
    running.signal(libc::SIGKILL);
    assert_eq!(running.wait().killed_by(), Some(libc::SIGKILL));
    let opened = stick.opened(1);
    assert!(opened.texts[0][..11 * 1024] == text);
    assert_eq!((opened.held(0), opened.held(1)), (11, 0));
    run(&mut stick.command("check", 1)).served();
    assert_eq!(stick.put(1, 0, 11, &blocks(5, 5)), put_output(0, 5, 5, 0));
}

/// The image is cut under a session: the next access is an error of the system, and no crash.
#[test]
fn an_image_that_goes_away() {
    let stick = Stick::small(1);
    let mut running = put_so_far(&stick, &blocks(6, 1));
    stick.set_length(0);
    running.feed(&blocks(7, 1));
    let ended = running.end();
    ended.failed(&[]);
}

/// The bytes that a pipe holds.
fn bytes_in(pipe: RawFd) -> c_int {
    let mut held = 0;
    // SAFETY: the call sets the number.
    assert_eq!(unsafe { libc::ioctl(pipe, libc::FIONREAD, &mut held) }, 0);
    held
}

/// Waits until a pipe that nobody reads takes no more.
fn wait_until_full(running: &Running) {
    let output = running.child.stdout.as_ref().unwrap().as_raw_fd();
    let mut before = 0;
    eventually("the pipe is full", || {
        thread::sleep(Duration::from_millis(30));
        let held = bytes_in(output);
        let full = held > 0 && held == before;
        before = held;
        full
    });
}

#[test]
fn a_get_that_is_interrupted() {
    let stick = Stick::new(geometry(1024, 4, 100), &[100]);
    let text = blocks(8, 100);
    stick.put(0, 0, 0, &text);
    for signal in SIGNALS {
        let mut running = Running::start(stick.command("get", 0).arg("0"));
        wait_until_full(&running);
        running.signal(signal);
        // The run has to end although nobody reads: its output is collected after that alone.
        eventually("the run ends", || {
            running.child.try_wait().unwrap().is_some()
        });
        let ended = running.wait();
        ended.failed(&["hiwalgam: interrupted"]);
        // What came is the volume's begin.
        let length = ended.bytes.len().min(text.len());
        assert!(length > 0 && ended.bytes[..length] == text[..length]);
    }
}

/// A passphrase that does not come.
#[test]
fn a_format_that_is_interrupted() {
    let folder = Folder::new();
    let image = folder.file("image", b"");
    let format = || -> Command {
        let mut command = hiwalgam();
        command
            .arg("format")
            .arg(&image)
            .args(["-B", "1024", "-S", "4", "--slices", "8"]);
        command.args(["--passphrase-fd", "0", "--volume", "1", "--volume", "1"]);
        command.stdin(Stdio::piped());
        command
    };
    for exists in [true, false] {
        if !exists {
            fs::remove_file(&image).unwrap();
        }
        for signal in SIGNALS {
            let mut running = Running::start(&mut format());
            running.feed(b"words\n");
            let input = running.child.stdin.as_ref().unwrap().as_raw_fd();
            eventually("the line is read", || bytes_in(input) == 0);
            running.signal(signal);
            running.wait().failed(&["hiwalgam: interrupted"]);
            assert_eq!(image.exists(), exists);
            assert!(!exists || fs::read(&image).unwrap().is_empty());
        }
    }
}

/// Sends a signal as soon as a run holds its image, until one comes before the run's end.
fn interrupted_at_work(mut start: impl FnMut() -> Running) -> Ended {
    for _ in 0..20 {
        let running = start();
        running.wait_until_locked();
        running.signal(libc::SIGINT);
        let ended = running.wait();
        if !ended.status.success() {
            return ended;
        }
    }
    panic!("all runs were served before the signal came");
}

#[test]
fn a_check_that_is_interrupted() {
    // Half a million blocks to read.
    let stick = Stick::new(geometry(1024, 8, 4096), &[4096; 15]);
    let ended = interrupted_at_work(|| Running::start(&mut stick.command("check", 14)));
    ended.failed(&["hiwalgam: interrupted"]);
    assert!(!ended.out().contains("were read"), "{ended:#?}");
}

/// A format that is interrupted at work leaves what was there, or a whole stick.
#[test]
fn a_format_that_is_interrupted_at_work() {
    let geometry = geometry(1024, 8, 4096);
    let folder = Folder::new();
    let (image, key_file) = (folder.file("image", b"before"), folder.file("key", &key(0)));
    let length = geometry.device_len();
    let ended = interrupted_at_work(|| {
        fs::write(&image, b"before").unwrap();
        let file = File::options().write(true).open(&image).unwrap();
        file.set_len(length as u64).unwrap();
        let mut command = hiwalgam();
        command.arg("format").arg(&image).arg("-k").arg(&key_file);
        Running::start(command.args(["-B", "1024", "-S", "8", "--force"]))
    });
    ended.failed(&["hiwalgam: interrupted"]);
    let device = fs::read(&image).unwrap();
    assert_eq!(device.len(), length);
    if device.starts_with(b"before") {
        assert!(device[6..].iter().all(|&byte| byte == 0));
    } else {
        run(hiwalgam()
            .arg("volumes")
            .arg(&image)
            .args(["-B1024", "-S8", "-k"])
            .arg(&key_file))
        .served();
    }
}

/// Named pipes whose other end nobody has.
#[test]
fn pipes_without_another_end() {
    let stick = Stick::small(1);
    let before = stick.bytes();
    let pipe = stick.folder.join("pipe");
    assert!(Command::new("mkfifo")
        .arg(&pipe)
        .status()
        .unwrap()
        .success());
    for subcommand in ["get", "put"] {
        let running = Running::start(stick.command(subcommand, 0).arg("0").arg(&pipe));
        running.wait_until_locked();
        thread::sleep(Duration::from_millis(30));
        running.signal(libc::SIGINT);
        running.wait().failed(&["hiwalgam: interrupted"]);
    }
    assert!(stick.bytes() == before);
}
