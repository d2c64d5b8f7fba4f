//! Signals: a flag that is looked at between calls, and the end where a mapped image is gone.

use std::fs::{File, OpenOptions};
use std::io;
use std::mem::{self, MaybeUninit};
use std::os::fd::{AsFd, AsRawFd};
use std::ptr;
use std::sync::atomic::{AtomicBool, Ordering};
use std::sync::OnceLock;
use std::thread;
use std::time::Duration;

use libc::{c_int, c_short, termios};

use crate::failure::{Failure, Outcome};

/// How long a signal can stay unseen that came just before a wait, in milliseconds.
const WAIT: u16 = 200;

const EXIT_STATUS: c_int = 3;
const INTERRUPTED: &str = "hiwalgam: interrupted\n";
const GONE: &str = "hiwalgam: the image can no longer be read or written: \
                    the stick is gone, or the disk under the image is full\n";

static CAME: AtomicBool = AtomicBool::new(false);
static ASKING: AtomicBool = AtomicBool::new(false);
/// The terminal, as it is outside of a question.
static TERMINAL: OnceLock<(File, termios)> = OnceLock::new();

/// Sets the handlers. A signal that is ignored, as by nohup(1), stays ignored.
pub fn install() {
    for signal in [libc::SIGINT, libc::SIGTERM, libc::SIGHUP] {
        if !is_ignored(signal) {
            handle(signal, came);
        }
    }
    handle(libc::SIGBUS, gone);
}

/// Fails where a signal came.
pub fn check() -> Outcome {
    match CAME.load(Ordering::SeqCst) {
        true => Err(Failure::Interrupted(String::new())),
        false => Ok(()),
    }
}

/// Waits until a file is ready for reading or writing (POLLIN or POLLOUT), and fails where a signal came.
pub fn wait(file: impl AsFd, events: c_short) -> Outcome {
    let fd = file.as_fd().as_raw_fd();
    loop {
        check()?;
        let mut entry = libc::pollfd {
            fd,
            events,
            revents: 0,
        };
        // SAFETY: the pointer goes with a count of one entry.
        let ready = unsafe { libc::poll(&mut entry, 1, WAIT.into()) };
        let interrupted = || io::Error::last_os_error().kind() == io::ErrorKind::Interrupted;
        // What else went wrong, the read or write that follows will tell.
        if ready > 0 || ready < 0 && !interrupted() {
            return Ok(());
        }
    }
}

/// Waits a little, and fails where a signal came.
pub fn pause() -> Outcome {
    thread::sleep(Duration::from_millis(WAIT.into()));
    check()
}

/// Asks on the terminal, which shows nothing of what is typed from before the question on. The read there
/// begins again after a signal, so that a signal that comes meanwhile ends the process at once, with the
/// terminal as it was.
pub fn while_asking<T>(ask: impl FnOnce() -> T) -> Outcome<T> {
    if TERMINAL.get().is_none() {
        if let Ok(terminal) = terminal() {
            let _ = TERMINAL.set(terminal);
        }
    }
    ASKING.store(true, Ordering::SeqCst);
    // One that came before has ended nothing.
    let answer = check().map(|()| {
        set_terminal(|state| state.c_lflag &= !libc::ECHO);
        let answer = ask();
        set_terminal(|_| {});
        answer
    });
    ASKING.store(false, Ordering::SeqCst);
    answer
}

/// Makes the terminal what it was at first, but for a change.
fn set_terminal(change: impl FnOnce(&mut termios)) {
    if let Some((file, state)) = TERMINAL.get() {
        let mut state = *state;
        change(&mut state);
        // SAFETY: the descriptor is open, and the pointer valid. Where it fails, rpassword tells.
        unsafe { libc::tcsetattr(file.as_raw_fd(), libc::TCSANOW, &state) };
    }
}

fn terminal() -> io::Result<(File, termios)> {
    let file = OpenOptions::new().read(true).write(true).open("/dev/tty")?;
    let mut state = MaybeUninit::<termios>::uninit();
    // SAFETY: the descriptor is open, and the pointer valid for a termios.
    match unsafe { libc::tcgetattr(file.as_raw_fd(), state.as_mut_ptr()) } {
        // SAFETY: tcgetattr has set it.
        0 => Ok((file, unsafe { state.assume_init() })),
        _ => Err(io::Error::last_os_error()),
    }
}

fn is_ignored(signal: c_int) -> bool {
    // SAFETY: a sigaction of zeros is one.
    let mut action: libc::sigaction = unsafe { mem::zeroed() };
    // SAFETY: the pointers are null or valid.
    unsafe { libc::sigaction(signal, ptr::null(), &mut action) };
    action.sa_sigaction == libc::SIG_IGN
}

/// Without SA_RESTART, so that a signal ends a wait.
fn handle(signal: c_int, handler: extern "C" fn(c_int)) {
    // SAFETY: a sigaction of zeros is one, with no flags and an empty mask.
    let mut action: libc::sigaction = unsafe { mem::zeroed() };
    action.sa_sigaction = handler as *const () as usize;
    // SAFETY: the handlers call functions that are safe in a handler alone.
    unsafe { libc::sigaction(signal, &action, ptr::null_mut()) };
}

extern "C" fn came(_: c_int) {
    CAME.store(true, Ordering::SeqCst);
    if ASKING.load(Ordering::SeqCst) {
        if let Some((file, state)) = TERMINAL.get() {
            // What was typed of a passphrase is not left to the next program.
            // SAFETY: the descriptor is open, and the pointer valid.
            unsafe { libc::tcsetattr(file.as_raw_fd(), libc::TCSAFLUSH, state) };
            // Ends the line of the question.
            write(file.as_raw_fd(), "\n");
        }
        end(INTERRUPTED);
    }
}

/// SIGBUS: a page of the mapped image cannot be read or stored.
extern "C" fn gone(_: c_int) {
    end(GONE);
}

fn end(words: &str) -> ! {
    write(libc::STDERR_FILENO, words);
    // SAFETY: the call touches no memory.
    unsafe { libc::_exit(EXIT_STATUS) }
}

/// Unlike the writing of the standard library, it takes no lock that the interrupted code may hold.
fn write(descriptor: c_int, words: &str) {
    // SAFETY: the pointer goes with its length.
    unsafe { libc::write(descriptor, words.as_ptr().cast(), words.len()) };
}
