//! A progress bar on standard error, which is not drawn where that is no terminal.

use indicatif::{ProgressBar, ProgressStyle};

/// It is cleared when it is dropped: what is told afterwards begins on a line of its own.
pub struct Progress(ProgressBar);

impl Progress {
    /// A bar for so many bytes, or where that is not known a count of bytes alone.
    pub fn new(doing: &'static str, bytes: Option<u64>) -> Progress {
        let (bar, template) = match bytes {
            Some(bytes) => (
                ProgressBar::new(bytes),
                "{msg} [{bar:40}] {bytes} of {total_bytes}, {eta} left",
            ),
            None => (ProgressBar::new_spinner(), "{msg} {bytes}"),
        };
        let progress = Progress(bar);
        progress.show(doing, template);
        progress
    }

    pub fn add(&self, bytes: u64) {
        self.0.inc(bytes);
    }

    /// Tells what is done after the last byte, of which no bar can be drawn.
    pub fn now(&self, doing: &'static str) {
        self.show(doing, "{msg}");
        // Draws it at once: the bar itself is drawn some times a second alone.
        self.aside(|| ());
    }

    /// Writes lines to the terminal while the bar is cleared.
    pub fn aside<T>(&self, write: impl FnOnce() -> T) -> T {
        self.0.suspend(write)
    }

    fn show(&self, doing: &'static str, template: &str) {
        // A template that is misspelt leaves the style that it has.
        if let Ok(style) = ProgressStyle::with_template(template) {
            self.0.set_style(style);
        }
        self.0.set_message(doing);
    }
}
