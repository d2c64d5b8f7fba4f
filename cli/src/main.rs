//! The command `hiwalgam`: makes, reads and writes encrypted memory sticks through the proved engine.
//!
//! Whatever touches the content of a stick is a call of the crate `hiwalgam`. Here is what such a call
//! leaves to its caller: files, keys and passphrases, random bytes, and what is told.

#![deny(unsafe_op_in_unsafe_fn)]

mod arguments;
mod copying;
mod failure;
mod format;
mod geometry;
mod image;
mod keys;
mod looking;
mod numbers;
mod picture;
mod progress;
mod releasing;
mod session;
mod signals;
mod streams;
mod tape;

use std::process::ExitCode;

use arguments::{Arguments, Command};
use clap::Parser;
use failure::{Failure, Outcome};

fn main() -> ExitCode {
    signals::install();
    let arguments = match Arguments::try_parse() {
        Ok(arguments) => arguments,
        Err(words) => return told(&words),
    };
    match run(&arguments.command) {
        Ok(()) => ExitCode::SUCCESS,
        Err(failure) => {
            failure.tell();
            failure.exit_status().into()
        }
    }
}

fn run(command: &Command) -> Outcome {
    match command {
        Command::Format(options) => format::run(options),
        Command::Info(options) => looking::info(options),
        Command::Volumes(options) => looking::volumes(options),
        Command::Get(options) => copying::get(options),
        Command::Put(options) => copying::put(options),
        Command::Release(options) => releasing::run(options),
        Command::Check(options) => looking::check(options),
        Command::Map(options) => picture::map(options),
        Command::Shuffle(options) => looking::shuffle(options),
    }
}

/// Help and the version, which were asked for, or what is wrong with the arguments.
fn told(words: &clap::Error) -> ExitCode {
    match words.print() {
        Ok(()) if !words.use_stderr() => ExitCode::SUCCESS,
        Err(error) if !words.use_stderr() => {
            let failure = Failure::system("standard output", "writing", error);
            failure.tell();
            failure.exit_status().into()
        }
        _ => Failure::Usage(String::new()).exit_status().into(),
    }
}
