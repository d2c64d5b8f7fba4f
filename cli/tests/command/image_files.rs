//! Images that cannot be opened.

use std::fs;

use crate::key_files::OPENING;
use crate::support::{run, Stick};

#[test]
fn no_image() {
    let mut stick = Stick::small(1);
    fs::remove_file(&stick.image).unwrap();
    stick.image = stick.folder.join("missing");
    for (command, rest) in OPENING {
        let ended = run(stick.command(command, 0).args(rest));
        ended.failed(&[stick.name(), "No such file"]);
        assert!(!stick.image.exists(), "{command}");
    }
    run(&mut stick.keyless("info")).failed(&[stick.name(), "No such file"]);
}

#[test]
fn a_folder() {
    let mut stick = Stick::small(1);
    stick.image = stick.folder.folder("folder");
    for (command, rest) in OPENING {
        run(stick.command(command, 0).args(rest)).failed(&[stick.name()]);
    }
    run(&mut stick.keyless("info")).failed(&[stick.name()]);
}

/// A device that is no disk has no length.
#[test]
fn a_device_without_a_length() {
    let mut stick = Stick::small(1);
    for device in ["/dev/null", "/dev/zero"] {
        stick.image = device.into();
        for (command, rest) in OPENING {
            let ended = run(stick.command(command, 0).args(rest));
            assert!(
                matches!(ended.status.code(), Some(1 | 3)),
                "{command}: {ended:#?}"
            );
            assert!(!ended.err.contains("panicked"), "{command}: {ended:#?}");
        }
    }
}

/// Through a symbolic link the image is the file that it leads to.
#[test]
fn a_link() {
    let mut stick = Stick::small(1);
    let link = stick.folder.join("link");
    std::os::unix::fs::symlink(&stick.image, &link).unwrap();
    stick.image = link;
    stick.put(0, 0, 0, &crate::support::blocks(1, 2));
    assert!(stick.opened(0).texts[0][..2048] == crate::support::blocks(1, 2));
    assert!(fs::symlink_metadata(&stick.image).unwrap().is_symlink());
}
