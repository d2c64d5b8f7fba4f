//! Volumes of their own length: the count of logical slices (N) at a formatting, in the headers, in the
//! session, and what ends there.

use std::collections::{BTreeMap, BTreeSet};
use std::fmt::Debug;

use hiwalgam::Refusal::{
    self, AddressAbove, BadEntry, BadGeometry, HeaderGeometry, KeyCount, KeyLength, NotOpen,
    SliceTwice,
};
use hiwalgam_reference::geometry::Geometry;
use hiwalgam_tests::inputs::{Guarded, Random};
use hiwalgam_tests::interface::{Answer, Session, Written, SERVED, UNMAPPED, VOLUMES};
use hiwalgam_tests::stick::{format_need, Stick, Volume};

use crate::faults::wrong_counts;
use crate::formatting::{arguments_with, format, open};
use crate::requests::MAX;
use crate::scenarios::Model;
use crate::start_places::{release_slice, write_text};
use crate::state::Call::*;
use crate::state::{at, geometry, open_and_check, run, run_places, State};

// ---- sticks

/// Geometries with the counts of their volumes: 1, P, and odd and even numbers between, also at the
/// end of a map block.
fn layouts() -> Vec<(Geometry, Vec<usize>)> {
    let fifteen = [17, 1, 5, 16, 11, 2, 17, 9, 1, 3, 15, 7, 8, 13, 17];
    vec![
        (geometry(1024, 1, 1), vec![1, 1]),
        (geometry(1024, 4, 4), vec![1, 4, 3]),
        (geometry(1024, 3, 17), fifteen.to_vec()),
        (geometry(1024, 1, 253), vec![252, 253, 1, 251]),
        (geometry(4096, 2, 5), vec![5, 3, 1]),
        (geometry(4096, 1, 1021), vec![1020, 1021, 1]),
    ]
}

/// A stick of 17 slices with 15 volumes of random counts, opened at volume `k`. Volume `i` maps its
/// logical slice 0 to slice `i`, and the slices 15 and 16 are free.
fn opened_at(random: &mut Random, s: usize, k: usize) -> (Stick, State) {
    let layout = geometry(1024, s, 17);
    let counts = random.counts(layout.p, VOLUMES);
    let volumes = counts.iter().enumerate().map(|(i, &count)| {
        let mut volume = Volume::new(random, layout).with_count(count);
        volume.map[0] = i as u32;
        volume
    });
    let volumes: Vec<Volume> = volumes.collect();
    let stick = Stick::new(random, layout, volumes);
    let mut state = State::new(random, &stick, k);
    open_and_check(&mut state, &stick, k);
    (stick, state)
}

// ---- formatting

/// The devices are compared byte for byte with those of the reference, and the headers hold the counts;
/// each key then opens volumes of those lengths.
#[test]
fn formatted_counts() {
    let mut random = Random::seeded();
    for (layout, counts) in layouts() {
        let backwards: Vec<usize> = counts.iter().rev().copied().collect();
        for counts in [counts, backwards] {
            let mut state = arguments_with(&mut random, layout, &counts, 3);
            let stick = format(&mut state);
            assert_eq!(stick.counts(), counts);
            for k in 0..counts.len() {
                open(&mut state, &stick, k);
                assert_eq!(state.session.counts[..=k], counts[..=k]);
                assert_eq!(state.session.counts[k + 1..], [0; VOLUMES][k + 1..]);
            }
        }
    }
}

/// A count is in the header and nowhere else: formattings that differ in one count alone leave devices
/// that differ in that header's ciphertext and tag alone.
#[test]
fn a_count_is_in_its_header_alone() {
    let mut random = Random::seeded();
    for (layout, counts) in layouts() {
        let mut base = arguments_with(&mut random, layout, &counts, 0);
        let before = base.clone();
        format(&mut base);
        for (i, &count) in counts.iter().enumerate().filter(|_| layout.p > 1) {
            let mut other = before.clone();
            other.counts[i] = count % layout.p + 1;
            format(&mut other);
            let start = layout.header(i).start + 12;
            let sealed = start..start + 72 + 16;
            assert!(other.device != base.device, "count {i}");
            other.device[sealed.clone()].copy_from_slice(&base.device[sealed]);
            assert!(other.device == base.device, "count {i}");
        }
    }
}

/// Each count of each number of volumes: 1 and P are served, and nothing below or above.
#[test]
fn each_count_of_a_formatting() {
    let mut random = Random::seeded();
    let layout = geometry(1024, 1, 2);
    for volumes in 1..=VOLUMES {
        let base = arguments_with(&mut random, layout, &vec![1; volumes], 0);
        for i in 0..volumes {
            let mut state = base.clone();
            state.counts[i] = layout.p;
            format(&mut state);
            for count in wrong_counts(layout.p) {
                let mut state = base.clone();
                state.counts[i] = count;
                let answer = run(Format, &mut state);
                assert_eq!(answer, Err(BadGeometry), "count {i} is {count}");
            }
        }
    }
}

/// Every number of volumes with every number of counts and of keys: 1 where volumes and counts differ,
/// then 23, then 3.
#[test]
fn numbers_of_volumes_counts_and_keys() {
    let mut random = Random::seeded();
    let layout = geometry(1024, 1, 1);
    let mut base = arguments_with(&mut random, layout, &[1], 0);
    base.new_tape(&mut random, format_need(layout, VOLUMES));
    let keys = random.bytes(32 * 17);
    for volumes in 0..=17 {
        for counts in 0..=17 {
            for key in 0..=17 {
                let mut state = base.clone();
                state.volumes = volumes;
                state.counts = Guarded::new(&vec![1; counts]);
                state.keys = Guarded::new(&keys[..32 * key]);
                let answer = match volumes {
                    _ if counts != volumes => Err(BadGeometry),
                    0 | 16 | 17 => Err(KeyCount),
                    _ if key != volumes => Err(KeyLength),
                    _ => SERVED,
                };
                let numbers = [volumes, counts, key];
                assert_eq!(run(Format, &mut state), answer, "{numbers:?}");
            }
        }
    }
}

// ---- headers

/// Every count in a header: one that is 0 or above P is 8 where the header is needed, and any other is
/// the volume's.
#[test]
fn counts_in_headers() {
    let mut random = Random::seeded();
    let (k, far) = (
        1,
        [255, 256, 4096, 4097, 1 << 16, 1 << 24, 1 << 31, u32::MAX],
    );
    for (s, p) in [(4, 4), (3, 17), (1, 1)] {
        let stick = Stick::blank(&mut random, geometry(1024, s, p), 3);
        for volume in 0..3 {
            for count in (0..=p as u32 + 2).chain(far) {
                let mut other = stick.clone();
                other.volumes[volume].numbers[0] = count;
                other.seal_header(&mut random, volume);
                let mut state = State::new(&mut random, &other, k);
                if volume <= k && !(1..=p).contains(&(count as usize)) {
                    let answer = run(Open, &mut state);
                    assert_eq!(answer, Err(HeaderGeometry), "volume {volume}, N {count}");
                    continue;
                }
                open_and_check(&mut state, &other, k);
                if volume <= k {
                    check_end(&mut state, volume, count as usize * s);
                }
            }
        }
    }
}

/// Block `end` is the first that the volume does not have.
fn check_end(state: &mut State, volume: usize, end: usize) {
    for (address, answer) in [(end - 1, SERVED), (end, Err(AddressAbove))] {
        state.target = at(volume, address);
        assert_eq!(run(Read, state), answer, "block {address} of {volume}");
    }
}

// ---- addresses

/// The addresses around the end of a volume, around that of one with P logical slices, and far ones.
fn addresses(layout: Geometry, count: usize) -> BTreeSet<usize> {
    let (s, p) = (layout.s, layout.p);
    let around = |end: usize| end.saturating_sub(s + 1)..=end + s + 1;
    let far = [1 << 31, 1 << 32, (1 << 32) + count * s - 1, 1 << 63, MAX];
    let near = around(count * s).chain(around(p * s));
    near.chain(far).chain([0]).collect()
}

/// Reads, finds and writes at each of these addresses of each volume: those below N x S are served, and
/// the others are 12, whatever other volumes have there.
#[test]
fn addresses_around_the_end() {
    let mut random = Random::seeded();
    for (layout, counts) in layouts() {
        let stick = Stick::random_with(&mut random, layout, &counts, layout.p / 2);
        let k = counts.len() - 1;
        let mut base = State::new(&mut random, &stick, k);
        open_and_check(&mut base, &stick, k);
        for (volume, &count) in counts.iter().enumerate() {
            for address in addresses(layout, count) {
                let inside = address < count * layout.s;
                check_address(&base, &stick, volume, address, inside);
            }
        }
    }
}

fn check_address(base: &State, stick: &Stick, volume: usize, address: usize, inside: bool) {
    let target = at(volume, address);
    let answer = if inside { SERVED } else { Err(AddressAbove) };
    let text = stick.texts.get(&target);
    let mut state = base.clone();
    state.target = target;
    assert_eq!(run(Read, &mut state), answer, "{target:?}");
    if inside {
        let zeros = vec![0; base.session.b];
        assert!(state.buf[..] == **text.unwrap_or(&zeros), "{target:?}");
    }
    assert_eq!(run(Find, &mut state), SERVED);
    let found = if text.is_some() { base.session.b } else { 0 };
    assert_eq!(state.found, found, "{target:?}");

    let (written, _) = run_places(Write, &mut state);
    assert_eq!(written.answer, answer, "{target:?}");
    if inside {
        assert_eq!(written.claimed, usize::from(text.is_none()), "{target:?}");
        state.buf = Guarded::blank(base.session.b);
        assert_eq!(run(Read, &mut state), SERVED);
        assert!(state.buf == state.text, "{target:?}");
    } else {
        assert_eq!(written, Written::of(answer), "{target:?}");
    }
}

// ---- entries at and past N

/// What is put at an entry: nothing, a slice that no volume maps, one that a volume maps, or none.
const ENTRIES: [u32; 5] = [UNMAPPED, FREE, HELD, 17, UNMAPPED - 1];
/// Slices of the sticks that `opened_at` makes.
const FREE: u32 = 16;
const HELD: u32 = 0;

/// The logical slices around the end of a volume: 0 aside, which is mapped.
fn logical_slices(count: usize, p: usize) -> BTreeSet<usize> {
    let places = [count - 1, count, count + 1, p - 1];
    let places = places
        .into_iter()
        .filter(|logical| (1..p).contains(logical));
    places.collect()
}

/// Entries of maps on the device, at N - 1, N and P - 1: before N as ever, and from N on 9 for
/// everything but the mark, also where it is a slice that another entry holds. Volumes that are not
/// opened are not judged.
#[test]
fn entries_on_the_device() {
    let mut random = Random::seeded();
    let mut answers = BTreeMap::new();
    for k in [0, 1, 7, VOLUMES - 1] {
        let (stick, state) = opened_at(&mut random, 1, k);
        for volume in 0..VOLUMES {
            let count = stick.volumes[volume].count();
            for logical in logical_slices(count, 17) {
                for entry in ENTRIES {
                    let mut other = stick.clone();
                    other.volumes[volume].map[logical] = entry;
                    other.write_map(&mut random, volume);
                    let mut state = state.clone();
                    state.device = Guarded::new(&other.device);
                    let expected = match entry {
                        _ if volume > k || entry == UNMAPPED => SERVED,
                        _ if logical >= count => Err(BadEntry),
                        FREE => SERVED,
                        HELD => Err(SliceTwice),
                        _ => Err(BadEntry),
                    };
                    let place = (k, volume, count, logical, entry);
                    match expected {
                        Ok(()) => open_and_check(&mut state, &other, k),
                        refused => assert_eq!(run(Open, &mut state), refused, "{place:?}"),
                    }
                    *answers.entry(kind(expected, logical < count)).or_insert(0) += 1;
                }
            }
        }
    }
    assert_eq!(answers.len(), 5, "{answers:?}");
}

/// An answer, by its number, and whether the entry is before the end.
fn kind(answer: Answer, before: bool) -> (u8, bool) {
    (answer.map_or_else(Refusal::number, |()| 0), before)
}

/// The answer of an opening at volume `k` by the maps that the stick was made with.
fn due(stick: &Stick, k: usize) -> Answer {
    let mut held = BTreeSet::new();
    for volume in &stick.volumes[..=k] {
        let entries = volume.map.iter().enumerate();
        for (logical, &entry) in entries.filter(|(_, &entry)| entry != UNMAPPED) {
            if logical >= volume.count() || entry as usize >= stick.geometry.p {
                return Err(BadEntry);
            }
            if !held.insert(entry) {
                return Err(SliceTwice);
            }
        }
    }
    SERVED
}

/// Several entries anywhere: the first that is bad, in the order of reading, decides between 9 and 10.
#[test]
fn several_entries_on_the_device() {
    let mut random = Random::seeded();
    let mut answers = BTreeMap::new();
    for _ in 0..40 {
        let k = random.below(VOLUMES);
        let (stick, state) = opened_at(&mut random, 1, k);
        for _ in 0..10 {
            let mut other = stick.clone();
            for _ in 0..1 + random.below(3) {
                let volume = random.below(k + 1);
                let count = other.volumes[volume].count();
                let places = [random.below(17), count - 1, count.min(16), 16];
                let (logical, entry) = (random.pick(&places), random.pick(&ENTRIES));
                other.volumes[volume].map[logical] = entry;
                other.write_map(&mut random, volume);
            }
            let mut state = state.clone();
            state.device = Guarded::new(&other.device);
            let expected = due(&other, k);
            match expected {
                Ok(()) => open_and_check(&mut state, &other, k),
                refused => assert_eq!(run(Open, &mut state), refused),
            }
            *answers.entry(kind(expected, true)).or_insert(0) += 1;
        }
    }
    assert!(
        answers.len() == 3 && answers.values().all(|&times| times >= 20),
        "{answers:?}"
    );
}

/// The same entries in the lent table, at claims and releases in the same volume and in another, which do
/// not look for a slice that is held twice. A read and a write of their own blocks come to 12 before they
/// come to the entry, and a close looks at no entry.
#[test]
fn entries_in_the_lent_table() {
    let mut random = Random::seeded();
    let mut answers = BTreeMap::new();
    for k in [0, 1, 7, VOLUMES - 1] {
        let (stick, base) = opened_at(&mut random, 3, k);
        for volume in 0..VOLUMES {
            let count = stick.volumes[volume].count();
            for logical in logical_slices(count, 17) {
                for entry in ENTRIES {
                    let mut state = base.clone();
                    state.maps[volume * 17 + logical] = entry;
                    check_past_the_end(&state, volume, logical);
                    assert_eq!(run(Close, &mut state.clone()), SERVED);
                    let bad = match entry {
                        UNMAPPED => false,
                        FREE | HELD => logical >= count,
                        _ => true,
                    };
                    for asked in 0..=k {
                        let expected = match bad && asked == volume {
                            true => Err(BadEntry),
                            false => SERVED,
                        };
                        let place = (k, volume, count, logical, entry, asked);
                        check_map_calls(&mut random, &state, asked, expected, &place);
                        let kind = kind(expected, logical < count);
                        *answers.entry(kind).or_insert(0) += 1;
                    }
                }
            }
        }
    }
    assert_eq!(answers.len(), 4, "{answers:?}");
}

/// A claim and a release of logical slice 0 of a volume.
fn check_map_calls(
    random: &mut Random,
    base: &State,
    volume: usize,
    expected: Answer,
    what: &dyn Debug,
) {
    let mut state = base.clone();
    (state.target, state.logical) = (at(volume, 0), 0);
    let released = release_slice(random, &mut state);
    assert_eq!(released.answer, expected, "{what:?}");
    let mut state = base.clone();
    (state.target, state.maps[17 * volume]) = (at(volume, 0), UNMAPPED);
    let written = write_text(random, &mut state);
    assert_eq!(written.answer, expected, "{what:?}");
    assert!(written.probes > 0 || expected != SERVED, "{what:?}");
}

/// A read, a find, a write and a release of a logical slice at or past the end of an open volume.
fn check_past_the_end(state: &State, volume: usize, logical: usize) {
    let Session { s, k, counts, .. } = state.session;
    if volume > k || logical < counts[volume] {
        return;
    }
    for call in [Read, Write, Release] {
        let mut state = state.clone();
        state.target = at(volume, logical * s);
        state.logical = logical;
        let (answer, _) = run_places(call, &mut state);
        assert_eq!(answer, Written::of(Err(AddressAbove)));
        assert_eq!(run(Find, &mut state), SERVED);
        assert_eq!(state.found, 0);
    }
}

// ---- sessions

/// Makes every call on a mapped slice, of the lowest and the highest open volume and one between.
fn check_calls(base: &State, expected: Answer, what: &str) {
    let volumes = [0, base.session.k / 2, base.session.k];
    for call in [Read, Find, Write, Release, Close] {
        for volume in volumes {
            let mut state = base.clone();
            state.target = at(volume, 0);
            let (answer, _) = run_places(call, &mut state);
            if call == Find {
                let found = if expected == SERVED { 1024 } else { 0 };
                assert_eq!(state.found, found, "{what}");
            } else {
                assert_eq!(
                    (answer.answer, answer.probes),
                    (expected, 0),
                    "{call:?}, {what}"
                );
            }
        }
    }
}

/// A count that is not allowed is 20 in every call where its volume is open, whichever volume the call
/// is for, and is not looked at above.
#[test]
fn counts_that_are_not_allowed() {
    let mut random = Random::seeded();
    for k in [0, 1, 7, VOLUMES - 1] {
        let (_, mut base) = opened_at(&mut random, 3, k);
        base.new_tape(&mut random, 1024);
        check_calls(&base, SERVED, "all allowed");
        for row in 0..VOLUMES {
            for count in wrong_counts(17) {
                let mut state = base.clone();
                state.session.counts[row] = count;
                let expected = if row <= k { Err(NotOpen) } else { SERVED };
                check_calls(&state, expected, &format!("k {k}, count {row} is {count}"));
            }
        }
        // All of those above at once.
        let mut state = base.clone();
        state.session.counts[k + 1..].fill(MAX);
        check_calls(&state, SERVED, "all above");
    }
}

/// The count in the session decides where a volume ends, whatever its header says; a claim and a release
/// judge the entries by it. A close leaves it, and the next opening has the header's.
#[test]
fn other_counts_in_the_session() {
    let mut random = Random::seeded();
    let (mut served, mut refused) = (0, 0);
    for k in [0, 3] {
        let (stick, base) = opened_at(&mut random, 3, k);
        for volume in 0..=k {
            // A claim in the volume's last logical slice.
            let mut claimed = base.clone();
            claimed.target = at(volume, stick.volumes[volume].count() * 3 - 1);
            assert_eq!(write_text(&mut random, &mut claimed).answer, SERVED);
            let last = claimed.target.address / 3;
            for count in 1..=17 {
                let mut state = claimed.clone();
                state.session.counts[volume] = count;
                check_end(&mut state, volume, count * 3);
                let expected = if last < count { SERVED } else { Err(BadEntry) };
                check_map_calls(&mut random, &state, volume, expected, &count);
                served += usize::from(expected == SERVED);
                refused += usize::from(expected != SERVED);

                assert_eq!(run(Close, &mut state), SERVED, "N {count}");
                assert_eq!(state.session.counts[volume], count);
                assert_eq!(run(Open, &mut state), SERVED);
                assert_eq!(state.session.counts[..=k], stick.counts()[..=k]);
            }
        }
    }
    assert!(
        served >= 10 && refused >= 10,
        "{served} served, {refused} refused"
    );
}

// ---- whole volumes

/// Writes every block of the open volumes, in some order; the block after the last is 12.
fn write_all(random: &mut Random, state: &mut State, model: &mut Model) {
    let Session { s, k, counts, .. } = state.session;
    let volumes = counts[..=k].iter().enumerate();
    let blocks =
        volumes.flat_map(|(volume, &n)| (0..n * s).map(move |address| at(volume, address)));
    let blocks: Vec<_> = blocks.collect();
    for i in random.permutation(blocks.len()) {
        state.target = blocks[i as usize];
        let answer = write_text(random, state);
        assert_eq!(answer.answer, SERVED, "{:?}", state.target);
        model.served(Write, state, answer);
    }
    for (volume, &n) in counts[..=k].iter().enumerate() {
        check_end(state, volume, n * s);
    }
}

/// Volumes whose counts add up to P fill the stick to the last slice, each to its own end; closed and
/// opened again, they hold what was written and have the lengths that they were formatted with.
#[test]
fn volumes_that_fill_the_stick() {
    let mut random = Random::seeded();
    for (b, s, p, counts) in [
        (1024, 3, 17, vec![5, 1, 11]),
        (1024, 1, 253, vec![252, 1]),
        (1024, 4, 15, vec![1; 15]),
        (4096, 2, 5, vec![1, 3, 1]),
    ] {
        let (layout, k) = (geometry(b, s, p), counts.len() - 1);
        let mut state = arguments_with(&mut random, layout, &counts, 0);
        let stick = format(&mut state);
        let mut model = Model::new(&stick);
        open(&mut state, &stick, k);
        write_all(&mut random, &mut state, &mut model);
        assert!(state.owners.iter().all(|&owner| owner > 0), "free slices");

        for keys in [k, k, 0] {
            let held = state.session.counts;
            assert_eq!(run(Close, &mut state), SERVED);
            assert_eq!((state.session.open, state.session.counts), (0, held));
            state.key = Guarded::new(&stick.volumes[keys].key);
            state.permutation = Guarded::new(&random.permutation(p));
            assert_eq!(run(Open, &mut state), SERVED);
            assert_eq!(state.session.counts[..=keys], counts[..=keys]);
            assert_eq!(state.session.counts[keys + 1..], [0; VOLUMES][keys + 1..]);
            model.check_all(&mut state);
        }
    }
}

/// Volumes whose counts add up to more than P take slices as long as there are any: a claim is then
/// refused by 22 before its volume's end, and blocks past the end are still 12.
#[test]
fn volumes_that_are_larger_than_the_stick() {
    let mut random = Random::seeded();
    for (s, p, counts) in [(4, 4, [3, 2, 4]), (1, 17, [16, 17, 1]), (2, 1, [1, 1, 1])] {
        let layout = geometry(1024, s, p);
        let stick = Stick::blank_with(&mut random, layout, &counts);
        let mut state = State::new(&mut random, &stick, 2);
        open_and_check(&mut state, &stick, 2);
        let mut claims = 0;
        for (volume, &count) in counts.iter().enumerate() {
            for logical in 0..count + 1 {
                state.target = at(volume, logical * s);
                let expected = match logical {
                    _ if logical == count => Err(AddressAbove),
                    _ if claims == p => Err(Refusal::NoFreeSlice),
                    _ => SERVED,
                };
                let answer = write_text(&mut random, &mut state).answer;
                assert_eq!(answer, expected, "{:?}", state.target);
                claims += usize::from(expected == SERVED);
            }
        }
        assert_eq!(claims, p);
    }
}
