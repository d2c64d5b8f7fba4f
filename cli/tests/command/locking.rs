//! Sessions that another session keeps out.

use std::fs::{self, File};
use std::os::fd::AsRawFd;
use std::process::Stdio;

use crate::key_files::OPENING;
use crate::putting::put_output;
use crate::support::{blocks, eventually, run, Ended, Running, Stick};

/// The words of a run that is kept out.
#[track_caller]
fn expect_kept_out(stick: &Stick, ended: &Ended) {
    ended.failed(&[stick.name(), "is in use by another session"]);
    assert_eq!(ended.bytes.len(), 0);
}

#[test]
fn a_lock_that_is_held() {
    let stick = Stick::small(1);
    let before = stick.bytes();
    let file = File::open(&stick.image).unwrap();
    // SAFETY: no memory is lent, and the descriptor is open.
    let lock = |operation| unsafe { libc::flock(file.as_raw_fd(), operation) };
    for held in [libc::LOCK_EX, libc::LOCK_SH] {
        assert_eq!(lock(held | libc::LOCK_NB), 0);
        for (command, rest) in OPENING {
            expect_kept_out(&stick, &run(stick.command(command, 0).args(rest)));
        }
        let mut format = stick.command("format", 0);
        expect_kept_out(&stick, &run(format.args(["--slices", "8", "--force"])));
        assert!(stick.bytes() == before);
        assert_eq!(lock(libc::LOCK_UN), 0);
    }
    for (command, rest) in OPENING {
        let ended = run(stick.command(command, 0).args(rest));
        // Nothing is mapped that could be released.
        let expected = i32::from(command == "release");
        assert_eq!(ended.status.code(), Some(expected), "{ended:#?}");
    }
}

/// A `put` that waits for its pipe holds the image.
#[test]
fn a_put_under_way() {
    let stick = Stick::small(2);
    let (one, other) = (blocks(1, 1), blocks(2, 1));
    let mut running = Running::start(stick.command("put", 1).arg("0").stdin(Stdio::piped()));
    running.feed(&one);
    eventually("a block is put", || stick.opened(1).texts[0][..1024] == one);
    for (command, rest) in OPENING {
        expect_kept_out(&stick, &run(stick.command(command, 0).args(rest)));
    }
    running.feed(&other);
    assert_eq!(running.end().served(), put_output(0, 2, 1, 0));
    assert!(stick.opened(0).texts[0][..2048] == [one, other].concat());
    run(&mut stick.command("check", 1)).served();
}

/// The lock ends with the session, also with one that was killed.
#[test]
fn a_session_that_was_killed() {
    let stick = Stick::small(1);
    let running = Running::start(stick.command("put", 0).arg("0").stdin(Stdio::piped()));
    running.wait_until_locked();
    running.signal(libc::SIGKILL);
    assert_eq!(running.end().killed_by(), Some(libc::SIGKILL));
    run(&mut stick.command("volumes", 0)).served();
    assert!(fs::metadata(&stick.image).unwrap().len() == 72_704);
}
