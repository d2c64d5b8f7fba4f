//! What the tests share.

mod argon2;
mod folder;
mod mounts;
mod picture;
mod process;
mod stick;
mod terminal;
mod texts;
mod witness;
mod xml;

pub use argon2::argon2id;
pub use folder::Folder;
pub use mounts::{in_namespace, is_root, skipped, LoopDevice, READ_ONLY_FOLDER, SMALL_TMPFS};
pub use picture::squares;
pub use process::{eventually, hiwalgam, run, run_fed, run_fed_in_pieces, Ended, Running};
pub use stick::{geometry, Stick, SMALL};
pub use terminal::Terminal;
pub use texts::{blocks, grouped, key, random, zeros};
pub use witness::{opened, Opened};
pub use xml::{parse, Element};
