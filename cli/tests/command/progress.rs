//! Progress bars: on a terminal alone. That none is drawn into a pipe is tested by every run.

use std::process::Command;

use crate::support::{geometry, key, random, run, Folder, Running, Stick, Terminal};

/// Runs with a terminal for the errors alone, and gives what was shown there and what was put out.
fn run_with_terminal(command: &mut Command) -> (String, Vec<u8>) {
    let mut terminal = Terminal::new();
    command.env("TERM", "xterm").stderr(terminal.side());
    let mut running = Running::start(command);
    let output = running.child.stdout.take().unwrap();
    let collected = std::thread::spawn(move || {
        let mut bytes = Vec::new();
        std::io::Read::read_to_end(&mut { output }, &mut bytes).unwrap();
        bytes
    });
    let (code, screen) = terminal.wait(running);
    assert_eq!(code, Some(0), "{screen}");
    (screen, collected.join().unwrap())
}

/// 4 MiB: enough for a bar to be drawn.
fn written_stick() -> (Stick, Vec<u8>) {
    let stick = Stick::new(geometry(4096, 16, 64), &[64]);
    let text = random(1, 3_000_000);
    stick.put(0, 0, 0, &text);
    (stick, text)
}

#[test]
fn bars_on_a_terminal() {
    let (stick, text) = written_stick();
    let file = stick.folder.file("text", &text);
    let (screen, out) = run_with_terminal(stick.command("put", 0).arg("0").arg(&file));
    assert!(screen.contains('\x1b'), "put: {screen:?}");
    assert!(out.starts_with(b"volume 0: "));
    let (screen, out) = run_with_terminal(stick.command("get", 0).arg("0"));
    assert!(screen.contains('\x1b'), "get: {screen:?}");
    assert!(out[..text.len()] == text && out.len() == 64 * 16 * 4096);
    let (screen, out) = run_with_terminal(&mut stick.command("check", 0));
    assert!(screen.contains('\x1b'), "check: {screen:?}");
    assert!(out.ends_with(b"all blocks of volumes 0 to 0 were read\n"));
    let mut format = stick.command("format", 0);
    let (screen, out) = run_with_terminal(format.args(["--slices", "64", "--force"]));
    assert!(screen.contains('\x1b'), "format: {screen:?}");
    assert!(out.starts_with(stick.name().as_bytes()));
}

/// The subcommands without a bar write nothing there.
#[test]
fn no_bars() {
    let (stick, _) = written_stick();
    for command in ["volumes", "map", "shuffle"] {
        let (screen, _) = run_with_terminal(&mut stick.command(command, 0));
        assert_eq!(screen, "", "{command}");
    }
    let (screen, _) = run_with_terminal(&mut stick.keyless("info"));
    assert_eq!(screen, "");
}

/// Into a pipe nothing is drawn, also where the standard output is a terminal.
#[test]
fn a_terminal_for_the_output_alone() {
    let (stick, _) = written_stick();
    let terminal = Terminal::new();
    let ended = run(stick.command("check", 0).stdout(terminal.side()));
    ended.served();
    let folder = Folder::new();
    let key_file = folder.file("key", &key(0));
    let mut format = crate::support::hiwalgam();
    format
        .arg("format")
        .arg(folder.join("image"))
        .arg("-k")
        .arg(key_file);
    run(format.args(["--slices", "2"]).stdout(terminal.side())).served();
}
