//! Releases: slices that are given back, what is claimed of them, and what stays on the device.

use hiwalgam::Refusal::{
    AddressAbove, BadEntry, BadPermutation, NoFreeSlice, SliceUnmapped, TapeShort,
};
use hiwalgam_reference::ctr;
use hiwalgam_reference::geometry::{Geometry, IV};
use hiwalgam_tests::inputs::{Guarded, Random};
use hiwalgam_tests::interface::{Session, Written, SERVED, UNMAPPED};
use hiwalgam_tests::stick::Stick;

use crate::scenarios::Model;
use crate::start_places::{
    aim, aim_at, any_write, claim, claimed, freed, opened, opened_with_free, refused, release,
    release_slice, stick_with_free, targets, write, write_text, Reached, COUNT,
};
use crate::state::Call::*;
use crate::state::{at, geometry, open_and_check, run, run_places, State};

// ---- sticks and requests

/// A permutation with a slice at a place.
fn with_slice_at(random: &mut Random, p: usize, slice: u32, place: usize) -> Vec<u32> {
    let mut order = random.permutation(p);
    let from = order.iter().position(|&named| named == slice).unwrap();
    order.swap(from, place);
    order
}

/// A session that its model follows.
struct Followed {
    state: State,
    model: Model,
}

impl Followed {
    fn new(random: &mut Random, stick: &Stick) -> Self {
        let order = random.permutation(stick.geometry.p);
        Followed {
            state: opened(random, stick, &order),
            model: Model::new(stick),
        }
    }

    /// Writes some block of the logical slice with the entry at an index.
    fn write_at(&mut self, random: &mut Random, index: usize) -> Written {
        aim_at(random, &mut self.state, index);
        let written = write_text(random, &mut self.state);
        if written.answer == SERVED {
            self.model.served(Write, &self.state, written);
            self.model.check_dropped(random, &self.state);
        }
        written
    }

    /// Releases the logical slice with the entry at an index.
    fn release_at(&mut self, random: &mut Random, index: usize) -> Written {
        aim_at(random, &mut self.state, index);
        let released = release_slice(random, &mut self.state);
        assert_eq!(released.answer, SERVED);
        self.model.served(Release, &self.state, released);
        self.model.check_dropped(random, &self.state);
        released
    }

    /// Closes, opens again with another permutation, and reads everything. The tables are the same.
    fn close_and_open(&mut self, random: &mut Random) {
        let state = &mut self.state;
        let (maps, owners) = (state.maps.clone(), state.owners.clone());
        assert_eq!(run(Close, state), SERVED);
        state.permutation = Guarded::new(&random.permutation(state.session.p));
        assert_eq!(run(Open, state), SERVED);
        assert!(state.maps == maps && state.owners == owners, "tables");
        self.model.check_all(state);
    }

    /// The bytes of all slices, which stand behind the headers.
    fn slices(&self) -> &[u8] {
        let Session { b, s, p, .. } = self.state.session;
        &self.state.device[geometry(b, s, p).slice(0).start..]
    }
}

/// The indices of the entries of open volumes that stand before their volume's end and are unmapped.
fn unmapped(state: &State) -> Vec<usize> {
    let Session { p, k, counts, .. } = state.session;
    let entries = (0..=k).flat_map(|i| (0..counts[i]).map(move |logical| i * p + logical));
    let unmapped = entries.filter(|&index| state.maps[index] == UNMAPPED);
    unmapped.collect()
}

/// The index of the entry that holds a slice.
fn entry_of(state: &State, slice: u32) -> usize {
    let mut entries = state.maps.iter();
    let index = entries.position(|&entry| entry == slice);
    index.unwrap()
}

// ---- full sticks

/// Claims of any logical slices, until one finds no slice. `places` are those whose slices are free, in
/// the order of the permutation; the start place is at most the first. Gives the probes in all.
fn fill(random: &mut Random, followed: &mut Followed, places: &[usize]) -> usize {
    let p = followed.state.session.p;
    let order = followed.state.permutation.clone();
    let mut looked = 0;
    for &place in places {
        let start = followed.state.session.start_place;
        let index = random.pick(&unmapped(&followed.state));
        let written = followed.write_at(random, index);
        assert_eq!(written, claimed(order[place], place + 1 - start));
        assert_eq!(followed.state.session.start_place, place + 1);
        looked += written.probes;
        // A second block of the slice, or the same again.
        if random.once_in(2) {
            let Written { claimed, slice, .. } = followed.write_at(random, index);
            assert_eq!((claimed, slice), (0, order[place] as usize), "rewritten");
        }
    }
    let rest = p - followed.state.session.start_place;
    let index = random.pick(&unmapped(&followed.state));
    let written = followed.write_at(random, index);
    assert_eq!(written, refused(NoFreeSlice, rest));
    looked + rest
}

/// A blank stick is filled to the last slice, every second slice is released, and it is filled again.
#[test]
fn filled_released_and_filled_again() {
    let mut random = Random::seeded();
    for (b, s, p, counts) in [
        (1024, 4, 4, vec![4, 4, 4]),
        (1024, 3, 17, vec![11, 17, 2]),
        (1024, 1, 253, vec![252, 1, 253]),
        (1024, 2, 16, vec![2; 15]),
        (4096, 2, 5, vec![3, 5, 1]),
    ] {
        let stick = Stick::blank_with(&mut random, geometry(b, s, p), &counts);
        let mut followed = Followed::new(&mut random, &stick);
        let order = followed.state.permutation.clone();
        let places: Vec<usize> = (0..p).collect();
        let mut looked = fill(&mut random, &mut followed, &places);
        assert_eq!(looked, p);
        followed.model.check_all(&mut followed.state);

        // The slices at the places 0, 2, .. in some order.
        let slices = followed.slices().to_vec();
        let places: Vec<usize> = (0..p).step_by(2).collect();
        let mut lowest = p;
        for i in random.permutation(places.len()) {
            let place = places[i as usize];
            let index = entry_of(&followed.state, order[place]);
            let released = followed.release_at(&mut random, index);
            assert_eq!(released, freed(order[place]));
            lowest = lowest.min(place);
            assert_eq!(followed.state.session.start_place, lowest);
        }
        assert!(followed.slices() == slices, "a byte of a slice");
        followed.model.check_all(&mut followed.state);

        looked += fill(&mut random, &mut followed, &places);
        assert_eq!(looked, 2 * p);
        followed.model.check_all(&mut followed.state);
        followed.close_and_open(&mut random);
    }
}

/// On a full stick each release makes room for one claim, which takes the slice at the first look,
/// whichever volumes the two are for.
#[test]
fn release_and_claim_by_turns() {
    let mut random = Random::seeded();
    for (s, p) in [(4, 1), (4, 4), (3, 17), (1, 40)] {
        let stick = stick_with_free(&mut random, geometry(1024, s, p), &[]);
        let mut followed = Followed::new(&mut random, &stick);
        assert_eq!(followed.state.session.start_place, p);
        for _ in 0..30 {
            let rest = p - followed.state.session.start_place;
            let index = random.pick(&unmapped(&followed.state));
            let written = followed.write_at(&mut random, index);
            assert_eq!(written, refused(NoFreeSlice, rest));

            let index = random.pick(&targets(&followed.state, true));
            let slice = followed.state.maps[index];
            let place = followed.state.place_of(slice as usize);
            assert_eq!(followed.release_at(&mut random, index), freed(slice));
            assert_eq!(followed.state.session.start_place, place);
            followed.model.check_all(&mut followed.state);

            let index = random.pick(&unmapped(&followed.state));
            let written = followed.write_at(&mut random, index);
            assert_eq!(written, claimed(slice, 1));
            assert_eq!(followed.state.session.start_place, place + 1);
            followed.model.check_all(&mut followed.state);
        }
        followed.close_and_open(&mut random);
    }
}

/// Every logical slice of every volume is released, and the stick closed and opened again is empty.
#[test]
fn all_slices_released() {
    let mut random = Random::seeded();
    for (s, p) in [(4, 4), (1, 253), (3, 17)] {
        let stick = stick_with_free(&mut random, geometry(1024, s, p), &[]);
        let mut followed = Followed::new(&mut random, &stick);
        for slice in random.permutation(p) {
            let index = entry_of(&followed.state, slice);
            assert_eq!(followed.release_at(&mut random, index), freed(slice));
        }
        assert!(followed.state.maps.iter().all(|&entry| entry == UNMAPPED));
        assert!(followed.state.owners.iter().all(|&owner| owner == 0));
        assert_eq!(followed.state.session.start_place, 0);
        assert!(stick.device.ends_with(followed.slices()), "the slices");
        followed.close_and_open(&mut random);
        assert_eq!(followed.state.session.start_place, 0);
        let index = random.pick(&unmapped(&followed.state));
        let first = followed.state.permutation[0];
        assert_eq!(
            followed.write_at(&mut random, index),
            claimed(first, 1),
            "P {p}"
        );
    }
}

// ---- the bytes of a slice

/// A release leaves the bytes of its slice: with the map block that was there before it, the device opens
/// again with the slices and the texts that it had.
#[test]
fn bytes_stay_on_the_device() {
    let mut random = Random::seeded();
    for (b, s, p) in [(1024, 4, 4), (1024, 3, 17), (4096, 2, 5)] {
        let stick = stick_with_free(&mut random, geometry(b, s, p), &[]);
        let mut followed = Followed::new(&mut random, &stick);
        for _ in 0..1 + random.below(p) {
            let index = random.pick(&targets(&followed.state, true));
            followed.release_at(&mut random, index);
            assert!(stick.device.ends_with(followed.slices()), "the slices");
        }
        followed.model.check_all(&mut followed.state);

        let mut state = followed.state;
        for i in 0..COUNT {
            let maps = stick.geometry.maps(i);
            state.device[maps.clone()].copy_from_slice(&stick.device[maps]);
        }
        assert!(state.device[..] == stick.device, "the device");
        state.permutation = Guarded::new(&random.permutation(p));
        open_and_check(&mut state, &stick, COUNT - 1);
        Model::new(&stick).check_all(&mut state);
    }
}

/// What a claim stores in a slice: the IV block from the tape, and all blocks under the volume's key,
/// zeros but for the one that was asked for.
fn stored(stick: &Stick, state: &State, volume: usize, offset: usize) -> Vec<u8> {
    let Geometry { b, s, .. } = stick.geometry;
    let mut bytes = state.tape[..b].to_vec();
    for j in 0..s {
        let mut block = vec![0; b];
        if j == offset {
            block.copy_from_slice(&state.text);
        }
        let iv = state.tape[IV * j..IV * (j + 1)].try_into().unwrap();
        ctr::apply(&stick.volumes[volume].vek, iv, &mut block);
        bytes.extend(block);
    }
    bytes
}

/// A slice that another volume claims after its release has none of the bytes that it had, on the device
/// or in a read, and the volume that released it has zeros there and nothing to find.
#[test]
fn old_bytes_do_not_show() {
    let mut random = Random::seeded();
    for (b, s, p) in [(1024, 4, 4), (1024, 3, 17), (1024, 1, 5), (4096, 3, 4)] {
        let stick = stick_with_free(&mut random, geometry(b, s, p), &[]);
        let order = random.permutation(p);
        let mut state = opened(&mut random, &stick, &order);
        for _ in 0..p {
            let slice = release(&mut random, &mut state).slice;
            let probes = state.place_of(slice) + 1 - state.session.start_place;
            let (loser, lost) = (state.target.volume, state.logical);
            let volume = (loser + 1 + random.below(COUNT - 1)) % COUNT;
            let rows = unmapped(&state).into_iter();
            let rows: Vec<usize> = rows.filter(|index| index / p == volume).collect();
            let index = random.pick(&rows);
            aim_at(&mut random, &mut state, index);
            let written = write_text(&mut random, &mut state);
            assert_eq!(written, claimed(slice as u32, probes));
            let (text, offset) = (state.text.clone(), state.target.address % s);
            let bytes = stored(&stick, &state, volume, offset);
            let place = stick.geometry.slice(slice);
            assert!(state.device[place] == bytes, "the bytes of slice {slice}");

            for j in 0..s {
                state.target = at(volume, state.logical * s + j);
                assert_eq!(run(Read, &mut state), SERVED);
                let expected = if j == offset { &text[..] } else { &vec![0; b] };
                assert!(state.buf[..] == *expected, "block {j} of the claim");
                state.target = at(loser, lost * s + j);
                assert_eq!(run(Read, &mut state), SERVED);
                assert!(state.buf[..] == vec![0; b], "block {j} of the released");
                assert_eq!(run(Find, &mut state), SERVED);
                assert_eq!(state.found, 0, "block {j} of the released");
            }
        }
    }
}

// ---- the start place

/// With each slice of a full stick and each start place: the start place becomes the lower of itself and
/// the slice's place in the permutation of the call, whatever that of the opening was.
#[test]
fn each_slice_and_start_place() {
    let mut random = Random::seeded();
    for p in [1, 2, 4, 5, 17] {
        let order = random.permutation(p);
        let base = opened_with_free(&mut random, p, &[], &order);
        for slice in 0..p as u32 {
            for start in 0..=p {
                let other = random.permutation(p);
                for order in [&order, &other] {
                    let mut state = base.clone();
                    state.permutation = Guarded::new(order);
                    state.session.start_place = start;
                    let index = entry_of(&state, slice);
                    aim_at(&mut random, &mut state, index);
                    let place = order.iter().position(|&named| named == slice).unwrap();
                    assert_eq!(release_slice(&mut random, &mut state), freed(slice));
                    assert_eq!(state.session.start_place, start.min(place));
                }
            }
        }
    }
}

/// The place is that of the call's permutation: claims with the permutation of the opening then look at
/// places more than once, or do not see the slice.
#[test]
fn another_permutation() {
    let mut random = Random::seeded();
    let order = [0, 2, 1, 3, 4];
    let base = opened_with_free(&mut random, 5, &[], &order);
    assert_eq!(base.session.start_place, 5);
    for (other, start, answer) in [
        (order, 3, claimed(3, 1)),
        ([3, 0, 1, 2, 4], 0, claimed(3, 4)),
        ([0, 1, 3, 4, 2], 2, claimed(3, 2)),
        ([4, 2, 1, 0, 3], 4, refused(NoFreeSlice, 1)),
    ] {
        let mut state = base.clone();
        state.permutation = Guarded::new(&other);
        let index = entry_of(&state, 3);
        aim_at(&mut random, &mut state, index);
        assert_eq!(
            release_slice(&mut random, &mut state),
            freed(3),
            "{other:?}"
        );
        assert_eq!(state.session.start_place, start, "{other:?}");
        state.permutation = Guarded::new(&order);
        assert_eq!(claim(&mut random, &mut state), answer, "{other:?}");
    }
}

// ---- the counts of a session

/// The counts of a session add up to P times one more than its releases where each claim finds the one
/// free slice at the last place, and each release has that slice at the first.
#[test]
fn the_bound_on_the_counts_is_reached() {
    let mut random = Random::seeded();
    for p in [1, 2, 4, 17, 40, 253] {
        let mut slice = random.below(p) as u32;
        let order = with_slice_at(&mut random, p, slice, 0);
        let mut state = opened_with_free(&mut random, p, &[slice], &order);
        let mut probes = 0;
        for releases in 0..10 {
            assert_eq!(state.session.start_place, 0);
            state.permutation = Guarded::new(&with_slice_at(&mut random, p, slice, p - 1));
            let written = claim(&mut random, &mut state);
            assert_eq!(written, claimed(slice, p));
            probes += written.probes;
            assert_eq!(probes, p * (1 + releases));

            // Another slice is the next to be free.
            slice = random.below(p) as u32;
            state.permutation = Guarded::new(&with_slice_at(&mut random, p, slice, 0));
            let index = entry_of(&state, slice);
            aim_at(&mut random, &mut state, index);
            assert_eq!(release_slice(&mut random, &mut state), freed(slice));
        }
    }
}

/// A release with some permutation, of some logical slice. Some permutations are wrong, some slices are
/// unmapped, some are past the end, and some tapes are too short.
fn any_release(random: &mut Random, state: &mut State) -> Written {
    let p = state.session.p;
    state.permutation = Guarded::new(&random.permutation(p));
    if random.once_in(8) {
        let place = random.below(p);
        state.permutation[place] = random.pick(&[p as u32, UNMAPPED]);
    }
    let mapped = !random.once_in(8) && !targets(state, true).is_empty();
    aim(random, state, mapped);
    if random.once_in(8) {
        state.logical += p;
    }
    let len = random.pick(&[IV, IV, IV, IV, IV, IV, IV - 1]);
    state.new_tape(random, len);
    run_places(Release, state).0
}

/// Whatever permutation each call is handed, the counts of a session add up to at most P times one more
/// than its served releases.
#[test]
fn counts_of_a_session() {
    let mut random = Random::seeded();
    let mut reached = Reached::default();
    let (mut served, mut refusals) = (0, [0; 4]);
    for p in [1, 2, 4, 17, 40] {
        for _ in 0..25 {
            let count = random.below(p + 1);
            let (free, order) = (random.permutation(p), random.permutation(p));
            let mut state = opened_with_free(&mut random, p, &free[..count], &order);
            let (mut probes, mut releases) = (0, 0);
            let mut start = state.session.start_place;
            for _ in 0..2 * p + 10 {
                if random.once_in(4) {
                    let released = any_release(&mut random, &mut state);
                    match released.answer {
                        Ok(()) => {
                            releases += 1;
                            start = start.min(state.place_of(released.slice));
                        }
                        Err(BadPermutation) => refusals[0] += 1,
                        Err(AddressAbove) => refusals[1] += 1,
                        Err(SliceUnmapped) => refusals[2] += 1,
                        Err(TapeShort) => refusals[3] += 1,
                        Err(refusal) => panic!("{refusal:?}"),
                    }
                } else {
                    let looked = reached.add(any_write(&mut random, &mut state));
                    probes += looked;
                    start += looked;
                }
                assert!(probes <= p * (1 + releases), "{probes}, {releases}, P {p}");
                assert_eq!(state.session.start_place, start);
            }
            served += releases;
        }
    }
    let Reached { claims, full, .. } = reached;
    let times = [&[claims, full, served], &refusals[..]].concat();
    assert!(times.iter().all(|&times| times >= 20), "{times:?}");
}

// ---- tables that no opening gave

/// The owner becomes 0 whatever it was, and no other owner changes.
#[test]
fn any_owner() {
    let mut random = Random::seeded();
    for p in [1, 4, 17] {
        let order = random.permutation(p);
        let base = opened_with_free(&mut random, p, &[], &order);
        for slice in 0..p {
            for owner in [0, 1, 2, 3, 4, 15, 16, 128, 255] {
                let mut state = base.clone();
                random.fill(&mut state.owners);
                state.owners[slice] = owner;
                let mut owners = state.owners.to_vec();
                owners[slice] = 0;
                let index = entry_of(&state, slice as u32);
                aim_at(&mut random, &mut state, index);
                let released = release_slice(&mut random, &mut state);
                assert_eq!(released, freed(slice as u32), "owner {owner}");
                assert!(state.owners[..] == owners, "owner {owner}");
            }
        }
    }
}

/// The same slice in other entries, and entries of other volumes that are no slice, stay. A slice that
/// stands in two entries is released twice. Once an entry of the volume is no slice, each release of the
/// volume is refused, also that of an unmapped slice.
#[test]
fn other_entries() {
    let mut random = Random::seeded();
    let order = random.permutation(17);
    let base = opened_with_free(&mut random, 17, &[], &order);
    for _ in 0..200 {
        let mut state = base.clone();
        let (slice, volume) = (random.below(17) as u32, random.below(COUNT));
        let [first, second, third] = [0, 1, 2].map(|i| volume * 17 + random.below(5) * 3 + i);
        for (index, entry) in state.maps.iter_mut().enumerate() {
            let any = random.word() as u32;
            let others = [17, slice, UNMAPPED, UNMAPPED - 1, any];
            let own = &[slice, UNMAPPED, random.below(17) as u32];
            *entry = random.pick(if index / 17 == volume { own } else { &others });
        }
        (state.maps[first], state.maps[second]) = (slice, slice);
        state.maps[third] = random.pick(&[slice, UNMAPPED]);
        let (gone, bad) = (Written::of(Err(SliceUnmapped)), Written::of(Err(BadEntry)));
        let mut release_at = |state: &mut State, index: usize| {
            aim_at(&mut random, state, index);
            release_slice(&mut random, state)
        };
        assert_eq!(release_at(&mut state, first), freed(slice));
        assert_eq!(release_at(&mut state, first), gone);
        let entry = std::mem::replace(&mut state.maps[third], 17);
        for index in [first, second, third] {
            assert_eq!(release_at(&mut state, index), bad);
        }
        state.maps[third] = entry;
        assert_eq!(release_at(&mut state, second), freed(slice));
        assert_eq!(release_at(&mut state, second), gone);
    }
}

/// A logical slice past its volume's end is 12, also where its entry is a slice; that entry is bad for the
/// logical slices before the end.
#[test]
fn entries_past_the_end() {
    let mut random = Random::seeded();
    let counts = [1, 3, 4];
    let stick = Stick::blank_with(&mut random, geometry(1024, 4, 4), &counts);
    let order = random.permutation(4);
    let mut base = opened(&mut random, &stick, &order);
    for index in 0..4 * counts.len() {
        base.maps[index] = random.below(4) as u32;
    }
    for (volume, &count) in counts.iter().enumerate() {
        for logical in 0..4 * counts.len() {
            let mut state = base.clone();
            (state.target.volume, state.logical) = (volume, logical);
            let mut answer = release_slice(&mut random, &mut state);
            if logical >= count {
                assert_eq!(answer, Written::of(Err(AddressAbove)));
                continue;
            }
            if count < 4 {
                assert_eq!(answer, Written::of(Err(BadEntry)));
                state.maps[4 * volume + count..4 * (volume + 1)].fill(UNMAPPED);
                answer = release_slice(&mut random, &mut state);
            }
            assert_eq!(answer, freed(base.maps[4 * volume + logical]));
        }
    }
}

// ---- wrong permutations

/// Permutations that are right up to the last place: it names a slice a second time or a number that is
/// no slice, is missing, or is followed by another. The slice to release stands there, or before.
#[test]
fn wrong_at_the_last_place() {
    let mut random = Random::seeded();
    for p in [1, 2, 4, 17, 253, 4096] {
        let order = random.permutation(p);
        let (last, rest) = order.split_last().unwrap();
        let base = opened_with_free(&mut random, p, &[], &order);
        let mut wrong = Vec::new();
        for &slice in [rest.first(), rest.last()].into_iter().flatten() {
            wrong.push([rest, &[slice]].concat());
        }
        let numbers = [p as u32, last + (1 << 16), last + (1 << 31), UNMAPPED];
        wrong.extend(numbers.map(|number| [rest, &[number]].concat()));
        wrong.push(rest.to_vec());
        wrong.extend([*last, p as u32, order[0]].map(|number| [&order[..], &[number]].concat()));

        let slices = [*last, random.pick(&order)];
        for slice in slices {
            let mut state = base.clone();
            let index = entry_of(&state, slice);
            aim_at(&mut random, &mut state, index);
            for permutation in &wrong {
                state.permutation = Guarded::new(permutation);
                let answer = release_slice(&mut random, &mut state);
                assert_eq!(answer, Written::of(Err(BadPermutation)), "P {p}");
            }
            state.permutation = Guarded::new(&order);
            let answer = release_slice(&mut random, &mut state);
            assert_eq!(answer, freed(slice), "P {p}");
        }
    }
}

/// A claim is served with a permutation that a release refuses: it looks only as far as it has to.
#[test]
fn a_claim_tests_less() {
    let mut random = Random::seeded();
    for p in [2, 4, 17] {
        let order = random.permutation(p);
        let mut state = opened_with_free(&mut random, p, &order[..1], &order);
        state.permutation[p - 1] = order[0];
        let mut other = state.clone();
        assert_eq!(
            release(&mut random, &mut other),
            Written::of(Err(BadPermutation))
        );
        assert_eq!(write(&mut random, &mut state, false), claimed(order[0], 1));
    }
}
