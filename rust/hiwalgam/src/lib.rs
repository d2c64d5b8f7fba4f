//! The proved engine of an encrypted memory stick with up to 15 nested volumes.
//!
//! A device is the image of a stick, held in memory. A key opens a volume and all volumes below it;
//! what lies above is noise. `docs/FORMAT.md` describes the device, the calls and their refusals.
//!
//! This crate is a thin wrapper of the C functions in `include/hiwalgam.h` ([`sys`]), which
//! `libhiwalgam.a` holds. The engine tests whatever it is handed, and a call is served or gets the
//! first [`Refusal`] that applies; the wrapper adds no test of its own. Everything is lent: no call
//! keeps anything between two calls.
//!
//! [`format()`] makes a device whose volumes have the lengths that it is told, [`shuffle`] makes a
//! permutation for a session, [`Session::open`] opens the device with a key, and the session tells how
//! long each volume is, reads, writes, releases slices and closes. What a call has written is on the device
//! when it returns, the maps included: a session that is dropped between two calls loses nothing, and the
//! same key opens the device again. Reading the image from a stick and storing it there is the caller's
//! work.
//!
//! ```
//! use hiwalgam::{shuffle, Block, Change, Geometry, Refusal, Session, Tables, Tape};
//!
//! /// Writes a block of volume 0, closes, and reads the block in a second session, which is dropped.
//! fn keep(device: &mut [u8], key: &[u8], random: &[u8], text: &[u8]) -> Result<(), Refusal> {
//!     let geometry = Geometry { block_bytes: 1024, slice_blocks: 4, slices: 4 };
//!     let block = Block { volume: 0, address: 5 };
//!     let (mut tables, mut permutation) = (Tables::new(geometry), [0; 4]);
//!     let mut tape = Tape::new(random);
//!
//!     shuffle(geometry, &mut permutation, &mut tape)?;
//!     let mut session = Session::open(device, geometry, key, &mut tables, &permutation)?;
//!     let written = session.write(device, &mut tables, &permutation, &mut tape, block, text)?;
//!     // Nothing was mapped: the claim takes the slice at the first place.
//!     assert_eq!(written.change, Change::Claimed(permutation[0].into()));
//!     // The block is on the device: a close wipes the keys and the tables.
//!     session.close(device, &mut tables)?;
//!
//!     // Each session has an order of its own.
//!     shuffle(geometry, &mut permutation, &mut tape)?;
//!     let session = Session::open(device, geometry, key, &mut tables, &permutation)?;
//!     let mut buffer = [0; 1024];
//!     session.read(device, &tables, block, &mut buffer)?;
//!     assert_eq!(buffer, text);
//!     Ok(())
//! }
//! # fn main() -> Result<(), Refusal> {
//! #     let geometry = Geometry { block_bytes: 1024, slice_blocks: 4, slices: 4 };
//! #     let (mut device, key, text) = (vec![0; geometry.device_length()], [7; 32], [3; 1024]);
//! #     let random = vec![0x5a; geometry.format_tape_length(1)];
//! #     hiwalgam::format(&mut device, geometry, 1, &key, &[4], &mut Tape::new(&random))?;
//! #     assert_eq!(keep(&mut device, &[8; 32], &random, &text), Err(Refusal::NoCell));
//! #     keep(&mut device, &key, &random, &text)
//! # }
//! ```
//!
//! # What is not promised
//!
//! - **Time.** Nothing is proved of it. Counter mode of 192 bytes and more, and so every read, write and
//!   release, has no look-up and no branch that depends on key or text, which is tested on the compiled
//!   code. GCM, and so an opening and a formatting, and counter mode of shorter texts look into a table:
//!   how long they take, and which cache lines they touch, depends on key and data. With a
//!   shuffle both depend on what is drawn.
//! - **Authentic blocks.** Key cells and headers carry tags. Maps and data blocks do not: whoever
//!   alters the device alters what is read from them.
//! - **Random bytes.** The caller draws them, and uses none for two calls: two texts under one key
//!   and IV betray each other, the tape of a formatting holds the keys of its volumes, and that of a
//!   shuffle its permutation.
//! - **Two sessions at once.** What is proved holds where, from an opening to its close or to the next
//!   opening, nothing but these calls alters device, tables, tape position and session.
//! - **Erased bytes.** A release leaves the bytes of its slice on the device, and whoever has the
//!   volume's data key can still decipher them.
//! - **Torn writes.** What is promised is about calls that returned. A stick that is pulled out inside a
//!   call, or before the caller has stored there what the call changed, holds what no statement covers.
//! - **Wiped memory.** A close sets the keys of its session to zeros. Copies that were made by moving
//!   the session, and what a call leaves on the stack, stay.
//!
//! The platform is x86-64 Linux, and a call takes up to 32 KiB of stack.

#![deny(missing_docs)]
#![deny(unsafe_op_in_unsafe_fn)]

#[cfg(not(all(target_arch = "x86_64", target_os = "linux")))]
compile_error!("libhiwalgam.a is built for x86-64 Linux");

mod ciphers;
mod formatting;
mod refusal;
mod session;
mod shuffling;
pub mod sys;
mod types;

pub use ciphers::{counter_mode, gcm_open, gcm_seal, keystream_at};
pub use formatting::format;
pub use refusal::Refusal;
pub use session::Session;
pub use shuffling::shuffle;
pub use sys::Geometry;
pub use sys::{GCM_AAD_LIMIT, GCM_TEXT_LIMIT, POSITION_LIMIT, TEXT_LIMIT};
pub use sys::{GCM_IV_BYTES, GCM_TAG_BYTES, IV_BYTES, KEY_BYTES, UNMAPPED, VOLUMES};
pub use types::{Block, Change, Tables, Tape, WriteRefused, Written};
