//! Passphrases that are asked for on a terminal.

use std::fs;
use std::process::Command;

use crate::support::{argon2id, blocks, hiwalgam, opened, run_fed, Folder, Terminal, SMALL};

/// A subcommand on an image in a folder.
fn command(folder: &Folder, subcommand: &str) -> Command {
    let mut command = hiwalgam();
    command
        .arg(subcommand)
        .arg(folder.join("image"))
        .args(["-B", "1024", "-S", "4"]);
    command
}

/// An image with one volume and the passphrase `correct horse`.
fn image() -> Folder {
    let folder = Folder::new();
    let mut format = command(&folder, "format");
    run_fed(
        format.args(["--slices", "8", "--passphrase-fd", "0"]),
        b"correct horse\n",
    )
    .served();
    folder
}

#[test]
fn a_passphrase_is_asked_for_without_echo() {
    let folder = image();
    let mut terminal = Terminal::new();
    let before = terminal.settings();
    let running = terminal.start(&mut command(&folder, "volumes"));
    terminal.wait_for_prompt("Passphrase: ");
    terminal.type_line("correct horse");
    let (code, screen) = terminal.wait(running);
    assert_eq!(code, Some(0), "{screen}");
    assert!(screen.contains("opened to volume 0\r\n"), "{screen}");
    assert!(!screen.contains("horse"), "{screen}");
    assert_eq!(terminal.settings(), before);
}

/// The standard input is left to the text.
#[test]
fn a_passphrase_beside_a_pipe() {
    let folder = image();
    let text = blocks(1, 3);
    let mut terminal = Terminal::new();
    let mut running = terminal.start_with_pipes(command(&folder, "put").arg("0"));
    terminal.wait_for_prompt("Passphrase: ");
    running.feed(&text);
    terminal.type_line("correct horse");
    drop(running.child.stdin.take());
    let (code, screen) = terminal.wait(running);
    assert_eq!(code, Some(0), "{screen}");
    let device = fs::read(folder.join("image")).unwrap();
    let key = argon2id(b"correct horse", &device[..16]);
    assert!(opened(&device, SMALL, &key).unwrap().texts[0][..3 * 1024] == text);
}

#[test]
fn a_wrong_and_an_empty_passphrase() {
    let folder = image();
    for (line, expected) in [("correct hors", 1), ("", 2)] {
        let mut terminal = Terminal::new();
        let before = terminal.settings();
        let running = terminal.start(&mut command(&folder, "volumes"));
        terminal.wait_for_prompt("Passphrase: ");
        terminal.type_line(line);
        let (code, screen) = terminal.wait(running);
        assert_eq!(code, Some(expected), "{screen}");
        assert_eq!(terminal.settings(), before);
    }
}

/// The end of input (Ctrl-D) is no passphrase.
#[test]
fn the_end_of_input_at_a_prompt() {
    let folder = image();
    let mut terminal = Terminal::new();
    let before = terminal.settings();
    let running = terminal.start(&mut command(&folder, "volumes"));
    terminal.wait_for_prompt("Passphrase: ");
    terminal.type_keys(&[4]);
    let (code, screen) = terminal.wait(running);
    assert!(matches!(code, Some(2 | 3)), "{code:?} {screen}");
    assert!(!screen.contains("panicked"), "{screen}");
    assert_eq!(terminal.settings(), before);
}

#[test]
fn format_asks_twice_for_each_volume() {
    let folder = Folder::new();
    let mut terminal = Terminal::new();
    let before = terminal.settings();
    let mut format = command(&folder, "format");
    format.args(["--slices", "8", "--volume", "all", "--volume", "3"]);
    let running = terminal.start(&mut format);
    for (volume, passphrase) in ["first words", "second words"].iter().enumerate() {
        terminal.wait_for_prompt(&format!("Passphrase for volume {volume}: "));
        terminal.type_line(passphrase);
        terminal.wait_for_prompt("Again: ");
        terminal.type_line(passphrase);
    }
    let (code, screen) = terminal.wait(running);
    assert_eq!(code, Some(0), "{screen}");
    assert!(!screen.contains("words"), "{screen}");
    assert_eq!(terminal.settings(), before);
    let device = fs::read(folder.join("image")).unwrap();
    for (volume, passphrase) in ["first words", "second words"].iter().enumerate() {
        let key = argon2id(passphrase.as_bytes(), &device[..16]);
        assert_eq!(opened(&device, SMALL, &key).unwrap().volume, volume);
    }
}

#[test]
fn a_different_second_passphrase() {
    for (volumes, differs_at) in [(1, 0), (2, 1)] {
        let folder = Folder::new();
        let mut terminal = Terminal::new();
        let mut format = command(&folder, "format");
        format
            .args(["--slices", "8"])
            .args(["--volume", "all"].repeat(volumes));
        let running = terminal.start(&mut format);
        for volume in 0..volumes {
            terminal.wait_for_prompt(&format!("Passphrase for volume {volume}: "));
            terminal.type_line(&format!("words {volume}"));
            terminal.wait_for_prompt("Again: ");
            let end = if volume == differs_at { "!" } else { "" };
            terminal.type_line(&format!("words {volume}{end}"));
        }
        let (code, screen) = terminal.wait(running);
        assert_eq!(code, Some(2), "{screen}");
        assert!(!folder.join("image").exists());
    }
}

#[test]
fn an_empty_passphrase_at_format() {
    let folder = Folder::new();
    let mut terminal = Terminal::new();
    let running = terminal.start(command(&folder, "format").args(["--slices", "8"]));
    terminal.wait_for_prompt("Passphrase for volume 0: ");
    // It is refused at once, or after the second.
    terminal.type_keys(b"\n\n");
    let (code, screen) = terminal.wait(running);
    assert_eq!(code, Some(2), "{screen}");
    assert!(!folder.join("image").exists());
}

/// Tests that a run that is interrupted at a prompt ends with 3 and leaves the terminal as it was.
#[track_caller]
fn expect_interrupted(
    terminal: &mut Terminal,
    command: &mut Command,
    prompt: &str,
    interrupt: impl Fn(&mut Terminal, u32),
) -> String {
    let before = terminal.settings();
    let running = terminal.start(command);
    terminal.wait_for_prompt(prompt);
    // What was typed already is part of no line.
    terminal.type_keys(b"corr");
    interrupt(terminal, running.child.id());
    let (code, screen) = terminal.wait(running);
    assert_eq!(code, Some(3), "{screen}");
    assert_eq!(terminal.settings(), before);
    assert!(!screen.contains("corr"), "{screen}");
    screen
}

#[test]
fn interrupts_at_a_prompt() {
    let folder = image();
    let before = fs::read(folder.join("image")).unwrap();
    let screen = expect_interrupted(
        &mut Terminal::new(),
        &mut command(&folder, "volumes"),
        "Passphrase: ",
        |terminal, _| terminal.type_keys(&[3]),
    );
    assert!(screen.contains("hiwalgam: interrupted"), "{screen}");
    for signal in [libc::SIGINT, libc::SIGTERM, libc::SIGHUP] {
        expect_interrupted(
            &mut Terminal::new(),
            &mut command(&folder, "volumes"),
            "Passphrase: ",
            |_, process| {
                // SAFETY: no memory is lent. The process was not waited for.
                assert_eq!(unsafe { libc::kill(process as libc::pid_t, signal) }, 0);
            },
        );
    }
    assert!(fs::read(folder.join("image")).unwrap() == before);
}

#[test]
fn interrupts_at_the_prompts_of_format() {
    let folder = Folder::new();
    for typed in [&[][..], &["words"], &["words", "words"]] {
        let mut terminal = Terminal::new();
        let before = terminal.settings();
        let mut format = command(&folder, "format");
        format.args(["--slices", "8", "--volume", "1", "--volume", "1"]);
        let running = terminal.start(&mut format);
        let prompts = [
            "Passphrase for volume 0: ",
            "Again: ",
            "Passphrase for volume 1: ",
        ];
        for (prompt, line) in prompts.iter().zip(typed) {
            terminal.wait_for_prompt(prompt);
            terminal.type_line(line);
        }
        terminal.wait_for_prompt(prompts[typed.len()]);
        terminal.type_keys(&[3]);
        let (code, screen) = terminal.wait(running);
        assert_eq!(code, Some(3), "{screen}");
        assert_eq!(terminal.settings(), before);
        assert!(!folder.join("image").exists());
    }
}

/// A file that `format` is to overwrite by force stays where the passphrase does not come.
#[test]
fn an_interrupt_of_a_format_by_force() {
    for length in [72_704, 1000, 100_000] {
        let folder = Folder::new();
        let image = folder.file("image", &vec![7; length]);
        let mut format = command(&folder, "format");
        format.args(["--slices", "8", "--force"]);
        expect_interrupted(
            &mut Terminal::new(),
            &mut format,
            "Passphrase for volume 0: ",
            |terminal, _| terminal.type_keys(&[3]),
        );
        assert!(fs::read(image).unwrap() == vec![7; length]);
    }
}
