//! A reference for the ciphers, the engine and the walk of Hiwalgam.
//!
//! It is written from the documents alone: AES-256 from FIPS 197, counter mode from SP 800-38A, GCM
//! from SP 800-38D, the engine and the walk from document 01, the paper on format and requests, and
//! formatting, the start place of a session, the length of each volume, the release of slices, the
//! shuffle and the storing of each claim and release from document 02, the paper with the requests that
//! followed. It shares nothing with the
//! proved engine or with the crate `hiwalgam`, and depends on neither: types, refusals and limits are
//! its own. So where both give the same answer, no mistake of the one has made the other agree.

pub mod aes;
pub mod ctr;
pub mod formatting;
pub mod gcm;
pub mod geometry;
pub mod opening;
pub mod permutation;
pub mod refusal;
pub mod requests;
pub mod session;
pub mod shuffling;
pub mod walk;
