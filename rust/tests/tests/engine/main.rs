//! The proved engine against the reference, on sticks and requests from a seeded generator.
//! `HIWALGAM_SEED` sets another seed. The C functions, the crate `hiwalgam` and the reference serve
//! every call, and each call is judged by its answer and by the whole of what was lent: device,
//! tables, permutation, tape position, session and buffers, with the guards around them.

mod cases;
mod counts;
mod faults;
mod finding;
mod formatting;
mod map_blocks;
mod opening;
mod records;
mod refusals;
mod releases;
mod requests;
mod scenarios;
mod shuffles;
mod start_places;
mod state;
mod two_sticks;
