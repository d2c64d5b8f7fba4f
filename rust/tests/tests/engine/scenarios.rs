//! Random lists of requests on random sticks, judged by what an array of blocks would answer.

use std::collections::HashMap;

use hiwalgam::Refusal::NotOpen;
use hiwalgam_reference::geometry::Geometry;
use hiwalgam_tests::inputs::{Guarded, Random};
use hiwalgam_tests::interface::{Engine, Session, Target, Written, SERVED, UNMAPPED, VOLUMES};
use hiwalgam_tests::stick::Stick;

use crate::requests::{request, spoil};
use crate::state::Call::{self, *};
use crate::state::{at, geometry, open_and_check, run, run_places, State, CALLS, ENGINES};

/// The open volumes as arrays of blocks (a block that is missing is zeros), and the slices that
/// they hold.
pub struct Model {
    texts: HashMap<Target, Vec<u8>>,
    slices: HashMap<(usize, usize), usize>,
}

impl Model {
    pub fn new(stick: &Stick) -> Self {
        let mut slices = HashMap::new();
        for (i, volume) in stick.volumes.iter().enumerate() {
            for (logical, &entry) in volume.map.iter().enumerate() {
                if entry != UNMAPPED {
                    slices.insert((i, logical), entry as usize);
                }
            }
        }
        Model {
            texts: stick.texts.clone(),
            slices,
        }
    }

    /// Forgets the volumes above k, which can lose slices to claims.
    fn opened(&mut self, k: usize) {
        self.texts.retain(|target, _| target.volume <= k);
        self.slices.retain(|&(volume, _), _| volume <= k);
    }

    fn text(&self, target: Target, b: usize) -> Vec<u8> {
        self.texts.get(&target).cloned().unwrap_or(vec![0; b])
    }

    /// Follows a call that was served.
    pub fn served(&mut self, call: Call, state: &State, answer: Written) {
        let Session { b, s, .. } = state.session;
        let place = (state.target.volume, state.target.address / s);
        let held = self.slices.get(&place);
        match call {
            Read => assert!(state.buf[..] == self.text(state.target, b), "read"),
            Write if answer.claimed == 1 => {
                assert_eq!(held, None, "claimed");
                let held: Vec<usize> = self.slices.values().copied().collect();
                let order = state.permutation.iter().map(|&slice| slice as usize);
                // The claim has moved the start place by as many places as it looked at.
                let start = state.session.start_place - answer.probes;
                let first = order.skip(start).position(|slice| !held.contains(&slice));
                assert_eq!(first, Some(answer.probes - 1), "first free place");
                self.slices.insert(place, answer.slice);
            }
            Write => assert_eq!(held, Some(&answer.slice), "rewritten"),
            Release => {
                let (volume, logical) = (state.target.volume, state.logical);
                let held = self.slices.remove(&(volume, logical));
                assert_eq!(held, Some(answer.slice), "released");
                for address in logical * s..(logical + 1) * s {
                    self.texts.remove(&at(volume, address));
                }
            }
            Format | Shuffle | Open | Find | Close => {}
        }
        if call == Write {
            self.texts.insert(state.target, state.text.to_vec());
        }
    }

    /// Reads every block of the open volumes with every implementation.
    pub fn check_all(&self, state: &mut State) {
        for engine in ENGINES {
            self.check_by(state, engine);
        }
    }

    /// Reads every block of the open volumes.
    fn check_by(&self, state: &mut State, engine: &dyn Engine) {
        let Session {
            b, s, k, counts, ..
        } = state.session;
        let zeros = vec![0; b];
        for (volume, &count) in counts[..=k].iter().enumerate() {
            for address in 0..count * s {
                state.target = at(volume, address);
                let text = self.texts.get(&state.target).unwrap_or(&zeros);
                state.buf = Guarded::blank(b);
                assert_eq!(state.call(Read, engine).answer, SERVED);
                assert!(state.buf[..] == **text, "{engine:?}, {:?}", state.target);
            }
        }
    }

    /// A session that is dropped here loses nothing. A copy of the device opens again with the same key
    /// and some permutation, to the tables that are held, and the volumes are the arrays of the model.
    pub fn check_dropped(&self, random: &mut Random, held: &State) {
        let mut state = held.clone();
        state.forget(random);
        state.permutation = Guarded::new(&random.permutation(held.session.p));
        assert_eq!(run(Open, &mut state), SERVED, "an opening after a drop");
        let (start_place, session) = (state.session.start_place, held.session.clone());
        let session = Session {
            start_place,
            ..session
        };
        assert_eq!(state.session, session, "the session after a drop");
        assert!(state.maps == held.maps, "the maps after a drop");
        assert!(state.owners == held.owners, "the owners after a drop");
        self.check_by(&mut state, random.pick(&ENGINES));
    }
}

/// A stick with up to 15 volumes of any lengths, which is opened at volume `k`.
fn random_stick(random: &mut Random, geometry: Geometry) -> (Stick, usize) {
    let volumes = 1 + random.below(VOLUMES);
    let counts = random.counts(geometry.p, volumes);
    let mapped = random.below(geometry.p + 1).min(100);
    let mut stick = match mapped {
        0 => Stick::blank_with(random, geometry, &counts),
        _ => Stick::random_with(random, geometry, &counts, mapped),
    };
    let k = random.below(volumes);
    let key = stick.volumes[k].key;
    // The same key for a cell above must not matter.
    for i in k + 1..volumes {
        if random.once_in(4) {
            stick.seal_cell(random, i, &key);
        }
    }
    (stick, k)
}

/// Runs a request and, on a copy, sometimes a call with something wrong.
fn play(random: &mut Random, state: &mut State, model: &mut Model, order: &[u32]) {
    let call = request(random, state, order);
    let (answer, places) = run_places(call, state);
    if answer.answer == SERVED {
        model.served(call, state, answer);
    }
    // Where the call has written nothing, the device is the one that was checked before.
    if !places.is_empty() {
        model.check_dropped(random, state);
    }
    if random.once_in(3) {
        let mut spoiled = state.clone();
        for _ in 0..1 + random.below(3) {
            spoil(random, &mut spoiled);
        }
        run_places(random.pick(&CALLS), &mut spoiled);
    }
}

/// Closes, and tries what is refused then. The device still opens to what was held.
fn close(random: &mut Random, state: &mut State, model: &mut Model, order: &[u32]) {
    let mut held = state.clone();
    assert_eq!(run(Close, state), SERVED);
    for _ in 0..3 {
        let call = request(random, state, order);
        let answer = if call == Find { SERVED } else { Err(NotOpen) };
        assert_eq!(run(call, state), answer);
        assert!(call != Find || state.found == 0);
    }
    assert_eq!(run(Close, state), Err(NotOpen));
    held.device = state.device.clone();
    model.check_dropped(random, &held);
}

/// Opens a random stick, plays requests, closes or not, and opens again with another permutation.
fn scenario(random: &mut Random, geometry: Geometry, requests: usize) {
    let (stick, mut k) = random_stick(random, geometry);
    let mut state = State::new(random, &stick, k);
    let mut model = Model::new(&stick);
    open_and_check(&mut state, &stick, k);
    model.opened(k);
    loop {
        let order = state.permutation.to_vec();
        for _ in 0..requests {
            play(random, &mut state, &mut model, &order);
        }
        if random.once_in(2) {
            close(random, &mut state, &mut model, &order);
        }
        // The stick opens again, with the same volumes or fewer.
        if random.once_in(2) {
            k = random.below(k + 1);
        }
        state.key = Guarded::new(&stick.volumes[k].key);
        state.permutation = Guarded::new(&random.permutation(geometry.p));
        assert_eq!(run(Open, &mut state), SERVED);
        assert_eq!(state.session.k, k);
        assert_eq!(state.session.counts[..=k], stick.counts()[..=k]);
        model.opened(k);
        model.check_all(&mut state);
        if random.once_in(2) {
            return;
        }
    }
}

#[test]
fn scenarios_on_small_sticks() {
    let mut random = Random::seeded();
    for _ in 0..2000 {
        let (s, p) = (random.pick(&[1, 3, 4]), random.pick(&[1, 2, 4, 4, 17]));
        scenario(&mut random, geometry(1024, s, p), 12);
    }
}

#[test]
fn scenarios_on_larger_sticks() {
    let mut random = Random::seeded();
    for p in [252, 253, 300] {
        for s in [1, 3, 4] {
            for _ in 0..3 {
                scenario(&mut random, geometry(1024, s, p), 25);
            }
        }
    }
    for p in [1, 2, 4, 17] {
        for _ in 0..4 {
            scenario(&mut random, geometry(1024, 64, p), 15);
            scenario(&mut random, geometry(4096, 3, p), 15);
        }
    }
    scenario(&mut random, geometry(1024, 64, 253), 15);
    scenario(&mut random, geometry(4096, 1, 1021), 15);
    scenario(&mut random, geometry(4096, 256, 2), 12);
    scenario(&mut random, geometry(4096, 256, 4), 8);
}
