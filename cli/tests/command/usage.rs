//! Arguments that are no right ones, and help.

use crate::support::{hiwalgam, run, Stick};

const SUBCOMMANDS: [&str; 9] = [
    "format", "info", "volumes", "get", "put", "release", "check", "map", "shuffle",
];

#[test]
fn no_and_unknown_subcommands() {
    run(&mut hiwalgam()).usage();
    run(hiwalgam().arg("open")).usage();
    run(hiwalgam().arg("")).usage();
    run(hiwalgam().arg("--unknown")).usage();
}

#[test]
fn missing_arguments() {
    for subcommand in SUBCOMMANDS {
        run(hiwalgam().arg(subcommand)).usage();
    }
    let stick = Stick::small(1);
    for subcommand in ["get", "put", "release"] {
        run(&mut stick.command(subcommand, 0)).usage();
    }
    run(stick.command("release", 0).arg("0")).usage();
    for option in ["-B", "-S", "-k", "--key", "--passphrase-fd"] {
        run(stick.keyless("volumes").arg(option)).usage();
    }
}

#[test]
fn unknown_options() {
    let stick = Stick::small(1);
    let before = stick.bytes();
    for subcommand in SUBCOMMANDS {
        let rest: &[&str] = match subcommand {
            "get" | "put" => &["0"],
            "release" => &["0", "0"],
            "format" => &["--slices", "8", "--force"],
            _ => &[],
        };
        for option in ["--unknown", "-x", "--bloks=3"] {
            let mut command = match subcommand {
                "info" => stick.keyless(subcommand),
                _ => stick.command(subcommand, 0),
            };
            run(command.args(rest).arg(option)).usage();
        }
    }
    // Options of other subcommands.
    run(stick.command("volumes", 0).args(["--first", "1"])).usage();
    run(stick.command("put", 0).args(["0", "--blocks", "1"])).usage();
    run(stick.command("get", 0).args(["0", "--force"])).usage();
    run(stick.command("check", 0).args(["--svg", "file"])).usage();
    assert!(stick.bytes() == before);
}

#[test]
fn too_many_arguments() {
    let stick = Stick::small(1);
    for subcommand in ["volumes", "check", "map", "shuffle"] {
        run(stick.command(subcommand, 0).arg("more")).usage();
    }
    run(stick.keyless("info").arg("more")).usage();
    for subcommand in ["get", "put"] {
        let file = stick.folder.join("file");
        run(stick.command(subcommand, 0).arg("0").arg(&file).arg("more")).usage();
        assert!(!file.exists());
    }
}

#[test]
fn numbers_that_are_none() {
    let stick = Stick::small(1);
    let before = stick.bytes();
    for wrong in [
        "18446744073709551616",
        "-1",
        "x",
        "",
        "1.0",
        "0x1",
        "99999999999999999999999",
    ] {
        for subcommand in ["get", "put"] {
            let mut command = stick.command(subcommand, 0);
            run(command.args(["0", &format!("--first={wrong}")])).usage();
            run(stick.command(subcommand, 0).arg(wrong)).usage();
        }
        run(stick
            .command("get", 0)
            .args(["0", &format!("--blocks={wrong}")]))
        .usage();
        run(stick.command("release", 0).args([wrong, "0"])).usage();
        for option in ["-B", "-S"] {
            let mut command = hiwalgam();
            command.arg("info").arg(&stick.image);
            run(command.arg(format!("{option}{wrong}"))).usage();
        }
    }
    assert!(stick.bytes() == before);
}

/// An option that is given twice is one too many.
#[test]
fn options_given_twice() {
    let stick = Stick::small(1);
    run(stick
        .command("get", 0)
        .args(["0", "--first=1", "--first=2"]))
    .usage();
    run(stick
        .command("get", 0)
        .args(["0", "--blocks=1", "--blocks=2"]))
    .usage();
    run(stick.command("volumes", 0).args(["-S", "4"])).usage();
}

#[test]
fn help() {
    let ended = run(hiwalgam().arg("--help"));
    for subcommand in SUBCOMMANDS {
        assert!(ended.served().contains(subcommand), "{subcommand}");
        let ended = run(hiwalgam().args([subcommand, "--help"]));
        let text = ended.served();
        for option in ["--block-bytes", "--slice-blocks", "4096", "256"] {
            assert!(text.contains(option), "{option} of {subcommand}");
        }
        assert_eq!(
            text.contains("--passphrase-fd"),
            subcommand != "info",
            "{subcommand}"
        );
    }
}
