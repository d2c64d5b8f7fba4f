//! Runs of the command, and how they end.

use std::io::{Read, Write};
use std::os::unix::process::{CommandExt, ExitStatusExt};
use std::process::{Child, Command, ExitStatus, Stdio};
use std::time::{Duration, Instant};
use std::{fs, thread};

use hiwalgam::Refusal;

/// Seconds after which a run is ended, so that one that hangs fails its test.
const LIMIT: u32 = 50;

/// The command. It has no terminal, also where the tests run on one, and gets nothing on its input.
pub fn hiwalgam() -> Command {
    detached(env!("CARGO_BIN_EXE_hiwalgam"))
}

/// A program in a session of its own, which is without a terminal.
pub fn detached(program: &str) -> Command {
    let mut command = Command::new(program);
    command.stdin(Stdio::null());
    command.stdout(Stdio::piped());
    command.stderr(Stdio::piped());
    // SAFETY: these calls are allowed between fork and exec. An alarm outlives the exec, as does a signal that is
    // ignored: the tests may run under nohup(1), or behind a shell's `&`.
    unsafe {
        command.pre_exec(|| {
            for number in [libc::SIGINT, libc::SIGTERM, libc::SIGHUP] {
                libc::signal(number, libc::SIG_DFL);
            }
            libc::setsid();
            libc::alarm(LIMIT);
            Ok(())
        });
    }
    command
}

/// Sends a signal to a process that a test started.
pub fn signal(child: &Child, number: libc::c_int) {
    // SAFETY: no memory is lent. The child was not waited for, so that its number is still its own.
    let code = unsafe { libc::kill(child.id() as libc::pid_t, number) };
    assert_eq!(code, 0);
}

/// Waits until something is so, and panics where it does not come.
#[track_caller]
pub fn eventually(what: &str, mut is_so: impl FnMut() -> bool) {
    let begin = Instant::now();
    while !is_so() {
        assert!(begin.elapsed() < Duration::from_secs(20), "not so: {what}");
        thread::sleep(Duration::from_millis(2));
    }
}

/// Runs to the end.
pub fn run(command: &mut Command) -> Ended {
    Running::start(command).end()
}

/// Runs to the end, with these bytes on the standard input, a pipe.
pub fn run_fed(command: &mut Command, bytes: &[u8]) -> Ended {
    run_fed_in_pieces(command, &[bytes])
}

/// The same with bytes that come in pieces, with a pause after each.
pub fn run_fed_in_pieces(command: &mut Command, pieces: &[&[u8]]) -> Ended {
    let mut running = Running::start(command.stdin(Stdio::piped()));
    let mut input = running.child.stdin.take().unwrap();
    thread::scope(|scope| {
        scope.spawn(move || {
            for (i, piece) in pieces.iter().enumerate() {
                if i > 0 {
                    thread::sleep(Duration::from_millis(10));
                }
                // A run that ends before its input does closes the pipe.
                if input.write_all(piece).is_err() {
                    return;
                }
            }
        });
        running.end()
    })
}

/// A run that has not ended yet. What it writes is collected; a run whose test panics is ended.
pub struct Running {
    pub child: Child,
}

impl Running {
    pub fn start(command: &mut Command) -> Self {
        let child = command.spawn().unwrap();
        Running { child }
    }

    /// Writes to the standard input, which stays open.
    pub fn feed(&mut self, bytes: &[u8]) {
        let input = self.child.stdin.as_mut().unwrap();
        input.write_all(bytes).unwrap();
        input.flush().unwrap();
    }

    /// Waits until the run holds a lock, or has ended. To try the lock would keep the run itself out.
    #[track_caller]
    pub fn wait_until_locked(&self) {
        let process = self.child.id().to_string();
        let has_ended = || {
            let state = fs::read_to_string(format!("/proc/{process}/stat"));
            state.is_ok_and(|state| state.contains(") Z "))
        };
        eventually("a lock is held", || {
            let locks = fs::read_to_string("/proc/locks").unwrap();
            let words = |line: &str| {
                line.split_whitespace()
                    .map(str::to_owned)
                    .collect::<Vec<_>>()
            };
            let mut locks = locks.lines().map(words);
            locks.any(|words| words[1] == "FLOCK" && words.contains(&process)) || has_ended()
        });
    }

    /// Sends a signal.
    pub fn signal(&self, number: libc::c_int) {
        signal(&self.child, number);
    }

    /// Closes the standard input, where it is still open, and waits for the end.
    pub fn end(mut self) -> Ended {
        drop(self.child.stdin.take());
        self.wait()
    }

    /// Waits for the end; the standard input stays open.
    pub fn wait(mut self) -> Ended {
        let input = self.child.stdin.take();
        let (out, err) = (self.child.stdout.take(), self.child.stderr.take());
        let collected = thread::spawn(move || out.map(collect).unwrap_or_default());
        let err = err.map(collect).unwrap_or_default();
        let out = collected.join().unwrap();
        let status = self.child.wait().unwrap();
        drop(input);
        Ended::new(status, out, err)
    }
}

impl Drop for Running {
    fn drop(&mut self) {
        // Both fail where the child was waited for, which is what is meant.
        let _ = self.child.kill();
        let _ = self.child.wait();
    }
}

fn collect(mut from: impl Read) -> Vec<u8> {
    let mut bytes = Vec::new();
    from.read_to_end(&mut bytes).unwrap();
    bytes
}

/// How a run ended, and what it wrote.
#[derive(Debug)]
pub struct Ended {
    pub status: ExitStatus,
    pub bytes: Vec<u8>,
    pub err: String,
}

impl Ended {
    fn new(status: ExitStatus, bytes: Vec<u8>, err: Vec<u8>) -> Self {
        let err = String::from_utf8(err).expect("errors are text");
        Ended { status, bytes, err }
    }

    /// What was written on the standard output, as text.
    pub fn out(&self) -> &str {
        std::str::from_utf8(&self.bytes).expect("the output is text")
    }

    /// Tests the exit status, and that the errors are nothing but lines of text: the standard error of
    /// these runs is a pipe, so that no bar may be drawn.
    #[track_caller]
    fn exited(&self, code: i32) {
        let all = format!("{self:#?}");
        assert_eq!(self.status.code(), Some(code), "{all}");
        assert!(!self.err.contains("panicked"), "{all}");
        let drawn = |c: char| c.is_control() && c != '\n';
        assert!(!self.err.contains(drawn), "{all}");
    }

    /// The output of a run that was served: exit status 0, and no word of error.
    #[track_caller]
    pub fn served(&self) -> &str {
        self.exited(0);
        assert_eq!(self.err, "");
        self.out()
    }

    /// The bytes of a run that was served.
    #[track_caller]
    pub fn served_bytes(&self) -> &[u8] {
        self.exited(0);
        assert_eq!(self.err, "");
        &self.bytes
    }

    /// Tests that the run was refused: exit status 1, a line with number, name and reason, and a line
    /// with advice. Gives the advice.
    #[track_caller]
    pub fn refused(&self, refusal: Refusal) -> &str {
        self.exited(1);
        let (number, name) = (refusal.number(), format!("{refusal:?}"));
        let reason = refusal.to_string();
        let reason = reason
            .strip_suffix(&format!(" (refusal {number})"))
            .unwrap();
        let line = format!("hiwalgam: refused by {number}, {name}: {reason}\n");
        let Some(advice) = self.err.strip_prefix(&line) else {
            panic!("no line {line:?} in {self:#?}");
        };
        let advice = advice
            .strip_suffix('\n')
            .and_then(|line| line.strip_prefix("what to do: "));
        let advice = advice.unwrap_or_else(|| panic!("no advice in {self:#?}"));
        assert!(advice.len() > 10 && !advice.contains('\n'), "{self:#?}");
        advice
    }

    /// Tests that the arguments were no right ones: exit status 2, a message, and nothing else.
    #[track_caller]
    pub fn usage(&self) {
        self.exited(2);
        assert_eq!(self.out(), "");
        assert!(self.err.trim().len() > 10, "{self:#?}");
    }

    /// Tests that the system failed: exit status 3, and a message that has all these words.
    #[track_caller]
    pub fn failed(&self, words: &[&str]) {
        self.exited(3);
        assert!(self.err.starts_with("hiwalgam: "), "{self:#?}");
        for word in words {
            assert!(self.err.contains(word), "no {word:?} in {self:#?}");
        }
    }

    /// Whether the run was ended by a signal.
    pub fn killed_by(&self) -> Option<i32> {
        self.status.signal()
    }
}
