//! The map block that a claim and a release store: its place and its bytes, the tape that it takes, the
//! entries that are judged for it, and that it is on the device when the call returns.

use std::collections::BTreeSet;

use hiwalgam::Refusal::{BadEntry, NoFreeSlice, SliceUnmapped, TapeShort};
use hiwalgam_reference::geometry::{Geometry, IV};
use hiwalgam_tests::inputs::{Guarded, Random};
use hiwalgam_tests::interface::{Written, SERVED, UNMAPPED, VOLUMES};
use hiwalgam_tests::stick::{Stick, Volume};

use crate::requests::MAX;
use crate::scenarios::Model;
use crate::start_places::{aim_at, claimed, freed, refused, release_slice, write_text};
use crate::state::Call::*;
use crate::state::{geometry, open_and_check, run, run_places, State};

// ---- sticks

/// Geometries of two map blocks for each volume, with 5 entries and with one in the second.
fn layouts() -> [Geometry; 2] {
    [geometry(1024, 1, 257), geometry(4096, 1, 1021)]
}

/// Slices of these sticks: one that is free, and one that is held.
const FREE: u32 = 200;
const HELD: u32 = 0;

/// Three volumes with these counts, of which two are opened. Volume `i` maps as many as it has of the
/// logical slices that `asked` gives: the `j`-th to slice 5 i + j.
fn opened(random: &mut Random, layout: Geometry, counts: [usize; 3]) -> (Stick, State) {
    let mut volumes = counts.map(|count| Volume::new(random, layout).with_count(count));
    for (i, volume) in volumes.iter_mut().enumerate() {
        for (j, logical) in (0..).zip(asked(layout)) {
            if logical < volume.count() {
                volume.map[logical] = 5 * i as u32 + j;
            }
        }
    }
    let stick = Stick::new(random, layout, volumes.to_vec());
    let mut state = State::new(random, &stick, 1);
    // Claims take the highest slice first.
    let order: Vec<u32> = (0..layout.p as u32).rev().collect();
    state.permutation = Guarded::new(&order);
    open_and_check(&mut state, &stick, 1);
    (stick, state)
}

/// Logical slices at both ends of the two map blocks.
fn asked(layout: Geometry) -> BTreeSet<usize> {
    let (first, p) = (layout.entries_in_block(), layout.p);
    BTreeSet::from([0, 1, first - 1, first, p - 1])
}

/// The indices of the entries of open volumes that `opened` maps.
fn mapped(layout: Geometry, counts: [usize; 3]) -> Vec<usize> {
    let entries = (0..2).flat_map(|volume| asked(layout).into_iter().map(move |at| (volume, at)));
    let entries = entries.filter(|&(volume, logical)| logical < counts[volume]);
    entries
        .map(|(volume, logical)| volume * layout.p + logical)
        .collect()
}

/// The volume of the entry at an index, and the number of its map block among the volume's.
fn block_of(layout: Geometry, index: usize) -> (usize, usize) {
    let (volume, logical) = (index / layout.p, index % layout.p);
    (volume, logical / layout.entries_in_block())
}

// ---- tapes

/// A claim takes B + 16 bytes, a release and a rewrite 16, wherever the tape begins: one byte fewer is 21,
/// and so is a position past the end, with no byte and no position changed. A close takes none.
#[test]
fn exact_tapes() {
    let mut random = Random::seeded();
    for (b, s, p) in [(1024, 4, 17), (1024, 1, 257), (4096, 2, 17)] {
        let layout = geometry(b, s, p);
        let (_, base) = opened(&mut random, layout, [p; 3]);
        let highest = p as u32 - 1;
        for (call, index, need, answer) in [
            (Write, p + 2, b + IV, claimed(highest, 1)),
            (Write, p, IV, freed(5)),
            (Release, p, IV, freed(5)),
        ] {
            let mut state = base.clone();
            aim_at(&mut random, &mut state, index);
            let short = refused(TapeShort, answer.probes);
            for used in [0, 1, IV, b, 3 * b] {
                for fewer in [1, 2, IV, need] {
                    state.new_tape(&mut random, used + need - fewer);
                    state.position = used;
                    assert_eq!(run_places(call, &mut state.clone()).0, short, "{call:?}");
                }
                let len = state.tape.len();
                for position in [
                    len + 1,
                    len + need,
                    MAX - need,
                    MAX - need + 1,
                    MAX - IV,
                    MAX,
                ] {
                    state.position = position;
                    assert_eq!(run_places(call, &mut state.clone()).0, short, "{call:?}");
                }
                state.new_tape(&mut random, used + need);
                state.position = used;
                let mut served = state.clone();
                assert_eq!(run_places(call, &mut served).0, answer, "{call:?}");
                assert_eq!(served.position, served.tape.len(), "{call:?}");
            }
        }
        for (len, position) in [
            (0, 0),
            (0, 1),
            (15, 0),
            (31, 0),
            (31, 31),
            (64, 65),
            (9, MAX),
        ] {
            let mut state = base.clone();
            state.new_tape(&mut random, len);
            state.position = position;
            assert_eq!(run(Close, &mut state), SERVED);
            assert_eq!(state.position, position);
            assert!(state.device == base.device, "the device of a close");
        }
    }
}

// ---- bad entries

/// Indices of entries of all three volumes, each with a value that is bad there: no slice, and at and past
/// the volume's end also a slice. They stand at both ends of the map blocks and of the volume.
fn bad_entries(random: &mut Random, layout: Geometry, counts: [usize; 3]) -> Vec<(usize, u32)> {
    let (p, first) = (layout.p, layout.entries_in_block());
    let no_slice = random.pick(&[4096, 1 << 31, UNMAPPED - 1]);
    let mut entries = Vec::new();
    for (volume, n) in counts.into_iter().enumerate() {
        for logical in BTreeSet::from([0, 2, first - 1, first, p - 1, n - 1, n.min(p - 1)]) {
            let values = [p as u32, no_slice, FREE, HELD];
            let bad = values
                .iter()
                .filter(|&&value| value as usize >= p || logical >= n);
            entries.extend(bad.map(|&value| (volume * p + logical, value)));
        }
    }
    entries
}

/// One entry of the table that is bad, and a claim, a release and a rewrite of each logical slice at an end
/// of a map block: 9 for a claim and a release where both are in one map block of one volume, and for a
/// rewrite where they are one entry.
#[test]
fn one_bad_entry() {
    let mut random = Random::seeded();
    let mut reached = [0; 2];
    for layout in layouts() {
        let (p, first) = (layout.p, layout.entries_in_block());
        for counts in [
            [p; 3],
            [p, p - 1, p],
            [p, first, p],
            [p, 2, p],
            [first - 1, p, 1],
        ] {
            let (_, base) = opened(&mut random, layout, counts);
            for (index, entry) in bad_entries(&mut random, layout, counts) {
                // The longer device takes its time.
                if layout.b == 4096 && !random.once_in(8) {
                    continue;
                }
                let mut state = base.clone();
                state.maps[index] = entry;
                for asked in mapped(layout, counts) {
                    let same = block_of(layout, index) == block_of(layout, asked);
                    reached[usize::from(same)] += 1;
                    aim_at(&mut random, &mut state, asked);
                    check_calls(&mut random, &state, same, index == asked);
                }
            }
        }
    }
    assert!(reached.iter().all(|&times| times >= 200), "{reached:?}");
}

/// A rewrite, a release and a claim of the target, which is mapped, where an entry of its map block is bad,
/// or its own, or none.
fn check_calls(random: &mut Random, base: &State, same: bool, it: bool) {
    let index = base.released_entry();
    let bad = Written::of(Err(BadEntry));
    let slice = base.maps[index];
    let mut state = base.clone();
    let written = write_text(random, &mut state);
    assert_eq!(written, if it { bad } else { freed(slice) }, "rewrite");
    let mut state = base.clone();
    let released = release_slice(random, &mut state);
    assert_eq!(released, if same { bad } else { freed(slice) }, "release");

    // The entry of a claim is the mark, so that another one is bad.
    if !it {
        let mut state = base.clone();
        state.maps[index] = UNMAPPED;
        let due = |answer| if same { bad } else { answer };
        let released = release_slice(random, &mut state);
        assert_eq!(released, due(Written::of(Err(SliceUnmapped))), "unmapped");
        let mut full = state.clone();
        full.owners.fill(1);
        let probes = full.session.p - full.session.start_place;
        let written = write_text(random, &mut full);
        assert_eq!(written, due(refused(NoFreeSlice, probes)), "a full stick");
        let highest = state.session.p as u32 - 1;
        let written = write_text(random, &mut state);
        assert_eq!(written, due(claimed(highest, 1)), "claim");
    }
}

/// Bad entries everywhere but in one map block: a claim and a release there are served and store it, and
/// all other places stay as they were.
#[test]
fn bad_entries_everywhere_else() {
    let mut random = Random::seeded();
    for layout in layouts() {
        let p = layout.p;
        let (stick, base) = opened(&mut random, layout, [p; 3]);
        for index in mapped(layout, [p; 3]) {
            let mut state = base.clone();
            let block = block_of(layout, index);
            for (other, entry) in state.maps.iter_mut().enumerate() {
                if block_of(layout, other) != block {
                    *entry = random.pick(&[p as u32, UNMAPPED - 1, 1 << 31]);
                }
            }
            aim_at(&mut random, &mut state, index);
            let slice = state.maps[index];
            assert_eq!(release_slice(&mut random, &mut state), freed(slice));
            let highest = p as u32 - 1;
            assert_eq!(write_text(&mut random, &mut state), claimed(highest, 1));

            let mut device = stick.device.clone();
            for place in [layout.map_block(block.0, block.1), layout.slice(p - 1)] {
                device[place.clone()].copy_from_slice(&state.device[place]);
            }
            assert!(state.device[..] == device, "another place");
        }
    }
}

// ---- the lent table

/// What is stored is the lent table, whatever the device held: entries of the same map block that the caller
/// changed are on the device after a claim or a release, and those of the other ones are not.
#[test]
fn the_lent_table_is_stored() {
    let mut random = Random::seeded();
    for layout in layouts() {
        let (p, first) = (layout.p, layout.entries_in_block());
        let (_, base) = opened(&mut random, layout, [p; 3]);
        for call in [Write, Release] {
            for index in mapped(layout, [p; 3]) {
                let mut state = base.clone();
                // In each map block one entry more, and one that is another.
                for volume in 0..2 {
                    for (j, logical) in [0, 2, first - 2, first].into_iter().enumerate() {
                        state.maps[volume * p + logical] = FREE - (4 * volume + j) as u32;
                    }
                }
                let lent = state.maps.clone();
                aim_at(&mut random, &mut state, index);
                let entry = if call == Release {
                    assert_eq!(release_slice(&mut random, &mut state).answer, SERVED);
                    UNMAPPED
                } else {
                    state.maps[index] = UNMAPPED;
                    let written = write_text(&mut random, &mut state);
                    assert_eq!((written.answer, written.claimed), (SERVED, 1));
                    written.slice as u32
                };
                let stored = (0..VOLUMES * p).map(|other| match block_of(layout, other) {
                    _ if other == index => entry,
                    block if block == block_of(layout, index) => lent[other],
                    _ => base.maps[other],
                });
                let stored: Vec<u32> = stored.collect();
                state.forget(&mut random);
                assert_eq!(run(Open, &mut state), SERVED, "{call:?} at {index}");
                assert!(state.maps[..] == stored, "{call:?} at {index}");
            }
        }
    }
}

// ---- sessions that are dropped

/// Writes and releases at the ends of all map blocks of all volumes; after each the device opens again to
/// what is held, and at the end also with the key of the lowest volume.
#[test]
fn dropped_after_each_call() {
    let mut random = Random::seeded();
    for (layout, volumes) in [
        (geometry(1024, 1, 257), 2),
        (geometry(1024, 1, 600), 3),
        (geometry(1024, 2, 5), VOLUMES),
        (geometry(4096, 1, 1021), 2),
    ] {
        let stick = Stick::blank(&mut random, layout, volumes);
        let mut model = Model::new(&stick);
        let mut state = State::new(&mut random, &stick, volumes - 1);
        open_and_check(&mut state, &stick, volumes - 1);
        let ends = (0..layout.p).step_by(layout.entries_in_block());
        let logical: Vec<usize> = ends.chain([layout.p - 1]).collect();
        for turn in 0..30 {
            let volume = random.below(volumes);
            let index = volume * layout.p + random.pick(&logical);
            aim_at(&mut random, &mut state, index);
            let mapped = state.maps[index] != UNMAPPED;
            let call = if mapped && turn % 3 > 0 {
                Release
            } else {
                Write
            };
            let answer = match call {
                Release => release_slice(&mut random, &mut state),
                _ => write_text(&mut random, &mut state),
            };
            if answer.answer == SERVED {
                model.served(call, &state, answer);
            }
            model.check_dropped(&mut random, &state);
        }
        state.key = Guarded::new(&stick.volumes[0].key);
        let row = state.maps[..layout.p].to_vec();
        state.forget(&mut random);
        assert_eq!(run(Open, &mut state), SERVED);
        assert!(state.maps[..layout.p] == row, "the maps of volume 0");
        model.check_all(&mut state);
    }
}
