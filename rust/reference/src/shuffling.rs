//! The shuffle: a permutation for a session, made from the tape.

use crate::geometry::Geometry;
use crate::refusal::Refusal;
use crate::session::Tape;

/// The bytes of a draw, most significant first.
const DRAW: usize = 2;
/// The values that a draw can have.
const VALUES: usize = 65_536;

/// Sets the list to the numbers from 0 to P - 1, in an order that is drawn from the tape, whatever the
/// list held. A refusal leaves the list, and the tape's position.
pub fn shuffle(
    [b, s, p]: [usize; 3],
    permutation: &mut [u32],
    tape: &mut Tape,
) -> Result<(), Refusal> {
    let geometry = Geometry::new(b, s, p).ok_or(Refusal::BadGeometry)?;
    if permutation.len() != geometry.p {
        return Err(Refusal::TableLength);
    }
    // A position past the end, also where nothing is drawn.
    tape.check(0)?;

    // The list and the tape itself stay until nothing can be refused any more.
    let mut order: Vec<u32> = (0..p as u32).collect();
    let mut draws = tape.clone();
    for place in (1..p).rev() {
        let other = draw_below(place + 1, &mut draws)?;
        order.swap(place, other);
    }
    permutation.copy_from_slice(&order);
    *tape = draws;
    Ok(())
}

/// A number below `choices`, drawn evenly. The limit is the largest multiple of `choices` that is not
/// above 65,536: each number is the remainder of equally many values below it, and draws at or above it
/// are thrown away.
fn draw_below(choices: usize, tape: &mut Tape) -> Result<usize, Refusal> {
    let limit = VALUES / choices * choices;
    loop {
        tape.check(DRAW)?;
        let drawn = tape.draw(DRAW).try_into().unwrap();
        let value = usize::from(u16::from_be_bytes(drawn));
        if value < limit {
            return Ok(value % choices);
        }
    }
}
