//! Opening: every volume, damaged sticks, and what volumes above lose.

use std::ops::Range;

use hiwalgam::Refusal::{HeaderTag, NoCell, NoFreeSlice, SliceTwice};
use hiwalgam_tests::inputs::{Guarded, Random};
use hiwalgam_tests::interface::{Answer, SERVED, VOLUMES};
use hiwalgam_tests::stick::{Stick, Volume};

use crate::scenarios::Model;
use crate::start_places::write_text;
use crate::state::Call::*;
use crate::state::{at, geometry, open_and_check, run, stick_a, State};

#[test]
fn opens_at_every_volume() {
    let mut random = Random::seeded();
    for p in [4, 17, 253] {
        let counts = random.counts(p, VOLUMES);
        let stick = Stick::random_with(&mut random, geometry(1024, 1, p), &counts, p / 2);
        for k in 0..VOLUMES {
            let mut state = State::new(&mut random, &stick, k);
            open_and_check(&mut state, &stick, k);
            Model::new(&stick).check_all(&mut state);
        }
    }
}

/// One byte damaged at a time, in each part of the master block, the headers and the slices.
#[test]
fn damaged_sticks() {
    let mut random = Random::seeded();
    let (count, k) = (4, 2);
    let stick = stick_a(&mut random, count);
    let layout = stick.geometry;
    let mut state = State::new(&mut random, &stick, k);
    let damage = |place: Range<usize>, expected: Option<Answer>, step: usize| {
        for i in place.step_by(step) {
            let mut damaged = state.clone();
            damaged.device[i] ^= 1 << (i % 8);
            let answer = run(Open, &mut damaged);
            assert!(
                expected.is_none_or(|expected| expected == answer),
                "byte {i}"
            );
        }
    };
    damage(0..16, Some(SERVED), 1);
    for i in 0..VOLUMES {
        let answer = if i == k { Err(NoCell) } else { SERVED };
        damage(layout.cell(i), Some(answer), if i == k { 1 } else { 7 });
        let answer = if i <= k { Err(HeaderTag) } else { SERVED };
        let start = layout.header(i).start;
        damage(start..start + 100, Some(answer), if i <= k { 1 } else { 9 });
        damage(start + 100..start + 1024, Some(SERVED), 97);
        // The IV and the entries of a map decide together; the rest of its block is ignored.
        let map = layout.maps(i).start;
        let answer = if i <= k { None } else { Some(SERVED) };
        damage(map..map + 32, answer, 1);
        damage(map + 32..map + 1024, Some(SERVED), 97);
    }
    damage(layout.cell(14).end..1024, Some(SERVED), 9);
    damage(layout.slice(0).start..stick.device.len(), Some(SERVED), 997);
    open_and_check(&mut state, &stick, k);
}

/// Claims take slices from a volume that is not open; its map then names a slice twice.
#[test]
fn volumes_above_lose_slices() {
    let mut random = Random::seeded();
    let layout = geometry(1024, 3, 17);
    let mut volumes = [(); 3].map(|()| Volume::new(&mut random, layout));
    volumes[2].map[5] = 11;
    let stick = Stick::new(&mut random, layout, volumes.to_vec());
    let mut state = State::new(&mut random, &stick, 1);
    open_and_check(&mut state, &stick, 1);
    for claim in 0..18 {
        state.target = at(claim % 2, claim / 2 * 3 + claim % 3);
        let answer = write_text(&mut random, &mut state);
        // Each claim takes the place behind that of the claim before, and at last there is none.
        let expected = match claim {
            0..17 => (SERVED, 1),
            _ => (Err(NoFreeSlice), 0),
        };
        assert_eq!((answer.answer, answer.probes), expected);
    }
    assert_eq!(run(Close, &mut state), SERVED);
    for (volume, answer) in [(2, Err(SliceTwice)), (1, SERVED), (0, SERVED)] {
        state.key = Guarded::new(&stick.volumes[volume].key);
        assert_eq!(run(Open, &mut state), answer);
    }
}
