//! A standard output that takes nothing.

use std::fs::{self, File};

use crate::formatting::{expect_blank, format_command};
use crate::support::{blocks, run, Folder, Stick, SMALL};

fn full() -> File {
    File::options().write(true).open("/dev/full").unwrap()
}

#[test]
fn words_that_cannot_be_written() {
    let stick = Stick::small(1);
    for subcommand in ["volumes", "check", "map", "shuffle"] {
        let ended = run(stick.command(subcommand, 0).stdout(full()));
        ended.failed(&["standard output", "No space left"]);
    }
    run(stick.keyless("info").stdout(full())).failed(&["standard output", "No space left"]);
}

/// What was done is done, although it cannot be told.
#[test]
fn work_that_cannot_be_told() {
    let folder = Folder::new();
    let ended = run(format_command(&folder, 1)
        .args(["--slices", "8"])
        .stdout(full()));
    ended.failed(&["standard output", "No space left"]);
    expect_blank(&fs::read(folder.join("image")).unwrap(), SMALL, &[8]);

    let stick = Stick::small(1);
    let text = blocks(1, 8);
    let file = stick.folder.file("text", &text);
    let ended = run(stick.command("put", 0).arg("0").arg(&file).stdout(full()));
    ended.failed(&["standard output", "No space left"]);
    assert!(stick.opened(0).texts[0][..8 * 1024] == text);
    let ended = run(stick.command("release", 0).args(["0", "0"]).stdout(full()));
    ended.failed(&["standard output", "No space left"]);
    let opened = stick.opened(0);
    assert_eq!(opened.held(0), 1);
    assert!(opened.texts[0][4096..8192] == text[4096..]);
}
