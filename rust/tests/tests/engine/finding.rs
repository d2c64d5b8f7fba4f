//! The part that a find hands back, by its place on the device.

use hiwalgam_reference::geometry::Geometry;
use hiwalgam_tests::adapters::{CFunctions, Wrapper};
use hiwalgam_tests::inputs::{Guarded, Random};
use hiwalgam_tests::interface::{Engine, Target, VOLUMES};
use hiwalgam_tests::stick::Stick;

use crate::state::Call::Find;
use crate::state::{geometry, open_and_check, State};

/// The place of a block is known by the reference's layout and by the map that the stick was built
/// from. A byte that changes there changes in the part at its index, and alone; bytes that change
/// anywhere else do not show.
#[test]
fn parts_by_their_place() {
    let mut random = Random::seeded();
    for (b, s, p) in [(1024, 4, 4), (1024, 1, 1), (1024, 3, 253), (4096, 2, 5)] {
        let counts = random.counts(p, VOLUMES);
        let stick = Stick::random_with(&mut random, geometry(b, s, p), &counts, p);
        let mut state = State::new(&mut random, &stick, VOLUMES - 1);
        open_and_check(&mut state, &stick, VOLUMES - 1);
        let mut targets: Vec<Target> = stick.texts.keys().copied().collect();
        targets.sort_by_key(|target| (target.volume, target.address));
        for _ in 0..4 {
            state.target = random.pick(&targets);
            for engine in [&CFunctions as &dyn Engine, &Wrapper] {
                check_place(&mut random, &stick, &mut state, engine);
            }
        }
    }
}

fn check_place(random: &mut Random, stick: &Stick, state: &mut State, engine: &dyn Engine) {
    let Geometry { b, s, .. } = stick.geometry;
    let Target { volume, address } = state.target;
    let slice = stick.volumes[volume].map[address / s] as usize;
    let place = stick.geometry.data(slice, address % s);
    let part = found(state, engine);
    assert!(part == stick.device[place.clone()], "{:?}", state.target);

    // Each byte inside, and the part must follow.
    for i in 0..b {
        let change = 1 << random.below(8);
        state.device[place.start + i] ^= change;
        let mut expected = part.clone();
        expected[i] ^= change;
        assert!(found(state, engine) == expected, "byte {i} of {place:?}");
        state.device[place.start + i] ^= change;
    }
    // The neighbours and bytes anywhere else, alone and then all at once.
    let near = [place.start - 1, place.end];
    let anywhere = (0..200).map(|_| random.below(stick.device.len()));
    let outside = near.into_iter().chain(anywhere);
    for i in outside.filter(|i| !place.contains(i) && *i < stick.device.len()) {
        state.device[i] ^= 0xff;
        assert!(
            found(state, engine) == part,
            "byte {i} outside of {place:?}"
        );
        state.device[i] ^= 0xff;
    }
    random.fill(&mut state.device);
    state.device[place].copy_from_slice(&part);
    assert!(found(state, engine) == part, "all bytes outside");
    state.device = Guarded::new(&stick.device);
}

/// The part that a find copies, which must be a whole block.
fn found(state: &mut State, engine: &dyn Engine) -> Vec<u8> {
    state.buf = Guarded::blank(state.session.b);
    state.call(Find, engine);
    assert_eq!(state.found, state.session.b);
    state.buf.to_vec()
}
