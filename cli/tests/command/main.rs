//! The command `hiwalgam` from outside: what it prints, how it ends, and what it leaves on the stick image.
//!
//! Images that the command made are opened by the crate `hiwalgam` and by the reference, which is
//! separately written and shares nothing with the proved engine: both have to agree on tables and texts.
//!
//! Tests that mount file systems or set up loop devices need root. Where they cannot run, they print a
//! line that says so.

mod block_devices;
mod checking;
mod counting;
mod formatting;
mod formatting_keys;
mod formatting_room;
mod formatting_sizes;
mod full_output;
mod getting;
mod image_files;
mod information;
mod interrupts;
mod key_files;
mod locking;
mod mapping;
mod passphrases;
mod progress;
mod putting;
mod putting_limits;
mod random_bytes;
mod reading_only;
mod refusals;
mod releasing;
mod shuffling;
mod support;
mod terminals;
mod usage;
