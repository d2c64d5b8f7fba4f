//! A terminal for the command.

use std::fs::File;
use std::io::{ErrorKind, Read, Write};
use std::os::fd::{AsRawFd, FromRawFd};
use std::os::unix::process::CommandExt;
use std::process::{Command, Stdio};
use std::{mem, ptr, thread, time::Duration};

use super::process::{eventually, Running};

/// A pseudo-terminal: the test has the side of the keyboard and the screen.
pub struct Terminal {
    master: File,
    slave: File,
    /// What was shown so far.
    shown: Vec<u8>,
}

impl Terminal {
    pub fn new() -> Self {
        let (mut master, mut slave) = (-1, -1);
        let null = ptr::null_mut();
        // SAFETY: the two numbers are written; name, settings and size are left out. The descriptors are
        // new and handed to nobody else.
        let (master, slave) = unsafe {
            let code = libc::openpty(
                &mut master,
                &mut slave,
                null,
                ptr::null_mut(),
                ptr::null_mut(),
            );
            assert_eq!(code, 0);
            for fd in [master, slave] {
                libc::fcntl(fd, libc::F_SETFD, libc::FD_CLOEXEC);
            }
            libc::fcntl(master, libc::F_SETFL, libc::O_NONBLOCK);
            (File::from_raw_fd(master), File::from_raw_fd(slave))
        };
        Terminal {
            master,
            slave,
            shown: Vec::new(),
        }
    }

    /// The side of the command, for its input, output or errors.
    pub fn side(&self) -> Stdio {
        self.slave.try_clone().unwrap().into()
    }

    /// Starts the command on this terminal.
    pub fn start(&self, command: &mut Command) -> Running {
        command.stdin(self.side()).stdout(self.side());
        self.start_in_session(command)
    }

    /// Starts the command on this terminal, with pipes for its input and output.
    pub fn start_with_pipes(&self, command: &mut Command) -> Running {
        self.start_in_session(command.stdin(Stdio::piped()))
    }

    /// The terminal becomes that of the command's session.
    fn start_in_session(&self, command: &mut Command) -> Running {
        command.stderr(self.side());
        // SAFETY: the call is allowed between fork and exec. The process has a session of its own already, and
        // descriptor 2 is the terminal.
        unsafe {
            command.pre_exec(|| match libc::ioctl(2, libc::TIOCSCTTY, 0) {
                0 => Ok(()),
                _ => Err(std::io::Error::last_os_error()),
            });
        }
        Running::start(command)
    }

    /// The settings of the terminal, as `stty -g` shows them.
    pub fn settings(&self) -> [Vec<u32>; 2] {
        // SAFETY: a termios is numbers, and the call sets it.
        let settings = unsafe {
            let mut settings: libc::termios = mem::zeroed();
            assert_eq!(libc::tcgetattr(self.slave.as_raw_fd(), &mut settings), 0);
            settings
        };
        let libc::termios {
            c_iflag,
            c_oflag,
            c_cflag,
            c_lflag,
            c_cc,
            ..
        } = settings;
        let characters = c_cc.iter().map(|&c| c.into()).collect();
        [vec![c_iflag, c_oflag, c_cflag, c_lflag], characters]
    }

    /// Whether what is typed is shown.
    pub fn echoes(&self) -> bool {
        self.settings()[0][3] & libc::ECHO != 0
    }

    /// What was shown so far.
    pub fn screen(&mut self) -> String {
        let mut buffer = [0; 4096];
        loop {
            match self.master.read(&mut buffer) {
                Ok(0) => break,
                Ok(length) => self.shown.extend(&buffer[..length]),
                Err(error) if error.kind() == ErrorKind::WouldBlock => break,
                // The other side was closed by all.
                Err(_) => break,
            }
        }
        String::from_utf8_lossy(&self.shown).into_owned()
    }

    /// Waits for a prompt, the screen's last words. What is typed from then on is not shown.
    #[track_caller]
    pub fn wait_for_prompt(&mut self, prompt: &str) {
        eventually(prompt, || self.screen().ends_with(prompt));
        assert!(!self.echoes(), "echo at the prompt {prompt:?}");
    }

    /// Types a line.
    pub fn type_line(&mut self, line: &str) {
        self.type_keys(format!("{line}\n").as_bytes());
    }

    pub fn type_keys(&mut self, keys: &[u8]) {
        self.master.write_all(keys).unwrap();
    }

    /// Waits for the end of a run on this terminal. Gives the exit status, and all that was shown.
    #[track_caller]
    pub fn wait(&mut self, mut running: Running) -> (Option<i32>, String) {
        let status = loop {
            self.screen();
            if let Some(status) = running.child.try_wait().unwrap() {
                break status;
            }
            thread::sleep(Duration::from_millis(2));
        };
        (status.code(), self.screen())
    }
}
