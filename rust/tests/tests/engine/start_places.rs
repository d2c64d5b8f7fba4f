//! The start place of a session: where claims begin to look, and what it adds up to.

use hiwalgam::Refusal::{self, BadPermutation, NoFreeSlice, NotOpen, TapeShort};
use hiwalgam_reference::geometry::{Geometry, IV};
use hiwalgam_tests::inputs::{Guarded, Random};
use hiwalgam_tests::interface::{Answer, Written, SERVED, UNMAPPED};
use hiwalgam_tests::stick::{Stick, Volume};

use crate::requests::{EDGES, MAX};
use crate::state::Call::*;
use crate::state::{at, geometry, open_and_check, run, run_places, State};

/// The volumes of these sticks. All are opened.
pub const COUNT: usize = 3;

// ---- sticks and requests

/// A stick of which all slices but the named ones are held, each by some volume.
pub fn stick_with_free(random: &mut Random, layout: Geometry, free: &[u32]) -> Stick {
    let mut volumes: Vec<Volume> = (0..COUNT).map(|_| Volume::new(random, layout)).collect();
    for slice in (0..layout.p as u32).filter(|slice| !free.contains(slice)) {
        let mut entries = volumes[random.below(COUNT)].map.iter_mut();
        let unmapped = entries.find(|entry| **entry == UNMAPPED);
        *unmapped.unwrap() = slice;
    }
    Stick::new(random, layout, volumes)
}

/// All volumes of a stick, opened with a permutation.
pub fn opened(random: &mut Random, stick: &Stick, order: &[u32]) -> State {
    let k = stick.volumes.len() - 1;
    let mut state = State::new(random, stick, k);
    state.permutation = Guarded::new(order);
    open_and_check(&mut state, stick, k);
    state
}

/// A stick with slices of one block of which all but the named ones are held, opened with a permutation.
pub fn opened_with_free(random: &mut Random, p: usize, free: &[u32], order: &[u32]) -> State {
    let stick = stick_with_free(random, geometry(1024, 1, p), free);
    opened(random, &stick, order)
}

/// The indices of the entries of open volumes that are mapped, or of those that are not. Each volume is
/// as large as the stick.
pub fn targets(state: &State, mapped: bool) -> Vec<usize> {
    let rows = state.session.k + 1;
    let entries = state.maps[..rows * state.session.p].iter().enumerate();
    let entries = entries.filter(|(_, &entry)| (entry != UNMAPPED) == mapped);
    entries.map(|(index, _)| index).collect()
}

/// Makes a logical slice that is mapped, or one that is not, and some block of it the target. There must
/// be one.
pub fn aim(random: &mut Random, state: &mut State, mapped: bool) {
    let index = random.pick(&targets(state, mapped));
    aim_at(random, state, index);
}

/// Makes the logical slice with the entry at an index and some block of it the target.
pub fn aim_at(random: &mut Random, state: &mut State, index: usize) {
    let (s, p) = (state.session.s, state.session.p);
    state.logical = index % p;
    state.target = at(index / p, state.logical * s + random.below(s));
}

/// A write of some text with a tape that is long enough.
pub fn write(random: &mut Random, state: &mut State, mapped: bool) -> Written {
    aim(random, state, mapped);
    write_text(random, state)
}

/// A write of some text to the target, with as many tape bytes as a claim takes.
pub fn write_text(random: &mut Random, state: &mut State) -> Written {
    state.text = random.bytes(state.session.b);
    state.new_tape(random, state.session.b + IV);
    run_places(Write, state).0
}

pub fn claim(random: &mut Random, state: &mut State) -> Written {
    write(random, state, false)
}

/// Releases some logical slice that is mapped.
pub fn release(random: &mut Random, state: &mut State) -> Written {
    aim(random, state, true);
    release_slice(random, state)
}

/// A release of the target's logical slice, with as many tape bytes as it takes.
pub fn release_slice(random: &mut Random, state: &mut State) -> Written {
    state.new_tape(random, IV);
    run_places(Release, state).0
}

/// The answer of a release that is served.
pub fn freed(slice: u32) -> Written {
    Written {
        slice: slice as usize,
        ..Written::of(SERVED)
    }
}

pub fn claimed(slice: u32, probes: usize) -> Written {
    Written {
        claimed: 1,
        slice: slice as usize,
        probes,
        ..Written::of(SERVED)
    }
}

pub fn refused(refusal: Refusal, probes: usize) -> Written {
    Written {
        probes,
        ..Written::of(Err(refusal))
    }
}

// ---- document 02

/// Four slices in the order 2 0 3 1: none of them held, then 2, 0 and 3 held, then all.
#[test]
fn cases_of_the_document() {
    let mut random = Random::seeded();
    let order = [2, 0, 3, 1];
    for (free, start, answer, after) in [
        (&[0, 1, 2, 3][..], 0, claimed(2, 1), 1),
        (&[1], 3, claimed(1, 1), 4),
        (&[], 4, refused(NoFreeSlice, 0), 4),
    ] {
        let mut state = opened_with_free(&mut random, 4, free, &order);
        assert_eq!(state.session.start_place, start, "{free:?}");
        assert_eq!(claim(&mut random, &mut state), answer, "{free:?}");
        assert_eq!(state.session.start_place, after, "{free:?}");
    }
}

// ---- nearly full sticks

/// After a claim that found no slice: each further one looks at none, and whatever needs none is
/// served.
fn check_full(random: &mut Random, state: &mut State) {
    let p = state.session.p;
    for _ in 0..3 {
        assert_eq!(claim(random, state), refused(NoFreeSlice, 0));
        let written = write(random, state, true);
        assert_eq!(
            (written.answer, written.claimed, written.probes),
            (SERVED, 0, 0)
        );
        let text = state.text.clone();
        assert_eq!(run(Read, state), SERVED);
        assert!(state.buf == text, "what was rewritten");
        assert_eq!(run(Find, state), SERVED);
        assert_eq!(state.found, state.session.b);
        assert_eq!(state.session.start_place, p);
    }
    aim(random, state, false);
    assert_eq!(run(Read, state), SERVED);
    assert!(state.buf.iter().all(|&byte| byte == 0), "what was refused");
}

/// Sticks with few free slices are filled to the last, with one permutation. The claim after that looks
/// at what is left of it, and those after look at nothing.
#[test]
fn nearly_full_sticks() {
    let mut random = Random::seeded();
    let (mut claims, mut far) = (0, 0);
    for p in [1, 2, 4, 17, 40, 253] {
        for count in 0..=p.min(5) {
            let free = &random.permutation(p)[..count];
            let order = random.permutation(p);
            let mut state = opened_with_free(&mut random, p, free, &order);
            for _ in 0..count {
                let (start, place) = (state.session.start_place, state.first_free(0));
                let written = claim(&mut random, &mut state);
                assert_eq!(written, claimed(order[place], place + 1 - start));
                assert_eq!(state.session.start_place, place + 1);
                claims += 1;
                far += usize::from(written.probes > 1);
            }
            let rest = p - state.session.start_place;
            assert_eq!(claim(&mut random, &mut state), refused(NoFreeSlice, rest));
            check_full(&mut random, &mut state);

            // A close leaves the start place, and the stick opens again as full as it is.
            assert_eq!(run(Close, &mut state), SERVED);
            assert_eq!(state.session.start_place, p);
            state.permutation = Guarded::new(&random.permutation(p));
            assert_eq!(run(Open, &mut state), SERVED);
            assert_eq!(state.session.start_place, p);
            assert_eq!(claim(&mut random, &mut state), refused(NoFreeSlice, 0));
        }
    }
    assert!(claims >= 50 && far >= 20, "{claims} claims, {far} far");
}

// ---- any start place

/// What a claim answers from a start place, by the owners in the order of the permutation.
fn due(state: &State, start: usize) -> Written {
    let mut probes = 0;
    for &slice in &state.permutation[start..] {
        probes += 1;
        match state.owners.get(slice as usize) {
            None => return refused(BadPermutation, probes),
            Some(0) => return claimed(slice, probes),
            Some(_) => {}
        }
    }
    refused(NoFreeSlice, probes)
}

/// A session with any start place up to P is served, and looks from there on.
#[test]
fn any_allowed_start_place() {
    let mut random = Random::seeded();
    let (mut claims, mut full, mut bad) = (0, 0, 0);
    for p in [1, 2, 4, 17, 40] {
        for _ in 0..10 {
            let count = random.below(p + 1);
            let (free, order) = (random.permutation(p), random.permutation(p));
            let mut base = opened_with_free(&mut random, p, &free[..count], &order);
            for _ in 0..random.below(3) {
                base.permutation[random.below(p)] = random.pick(&[p as u32, UNMAPPED]);
            }
            for start in 0..=p {
                let mut state = base.clone();
                state.session.start_place = start;
                let expected = due(&state, start);
                assert_eq!(claim(&mut random, &mut state), expected);
                match expected.answer {
                    Ok(()) => claims += 1,
                    Err(NoFreeSlice) => full += 1,
                    Err(_) => bad += 1,
                }
                check_other_calls(&mut random, &base, start);
            }
        }
    }
    let reached = [claims, full, bad];
    assert!(reached.iter().all(|&times| times >= 20), "{reached:?}");
}

/// All calls but a claim and a release leave the start place: a claim that lacks tape, a rewrite, a read, a find and a
/// close.
fn check_other_calls(random: &mut Random, base: &State, start: usize) {
    let mut state = base.clone();
    state.session.start_place = start;
    let expected = due(&state, start);
    if expected.answer == SERVED {
        aim(random, &mut state, false);
        state.new_tape(random, state.session.b + IV - 1);
        let written = run_places(Write, &mut state).0;
        assert_eq!(written, refused(TapeShort, expected.probes));
    }
    if !targets(&state, true).is_empty() {
        assert_eq!(write(random, &mut state, true).answer, SERVED);
        assert_eq!(run(Read, &mut state), SERVED);
        assert_eq!(run(Find, &mut state), SERVED);
        assert_eq!(state.found, state.session.b);
    }
    assert_eq!(state.session.start_place, start);
    assert_eq!(run(Close, &mut state), SERVED);
    assert_eq!((state.session.start_place, state.session.open), (start, 0));
}

/// A start place above P is 20 in every request, whatever there is to look at, and stays.
#[test]
fn start_places_above_p() {
    let mut random = Random::seeded();
    for p in [1, 4, 17] {
        for count in [0, 1, p] {
            let free = &random.permutation(p)[..count];
            let order = random.permutation(p);
            let base = opened_with_free(&mut random, p, free, &order);
            let edges = EDGES.into_iter().filter(|&edge| edge > p);
            for start in [p + 1, p + 2, 2 * p + 1, MAX - 1].into_iter().chain(edges) {
                let mut state = base.clone();
                state.session.start_place = start;
                for mapped in [false, true] {
                    if targets(&state, mapped).is_empty() {
                        continue;
                    }
                    let written = write(&mut random, &mut state, mapped);
                    assert_eq!(written, refused(NotOpen, 0), "P {p}, {start}");
                    assert_eq!(run(Read, &mut state), Err(NotOpen), "P {p}, {start}");
                    assert_eq!(run(Find, &mut state), SERVED);
                    assert_eq!(state.found, 0, "P {p}, {start}");
                    assert_eq!(run(Release, &mut state), Err(NotOpen), "P {p}, {start}");
                }
                assert_eq!(run(Close, &mut state), Err(NotOpen), "P {p}, {start}");
                assert_eq!(state.session.start_place, start);
            }
        }
    }
}

// ---- another permutation

/// With another permutation than before, a free slice at an earlier place is not seen, and neither is an
/// entry there that names no slice.
#[test]
fn another_permutation() {
    let mut random = Random::seeded();
    // Slices 1 and 4 are free, at the places 2 and 4: the claim takes 1, and the start place is 3.
    let mut state = opened_with_free(&mut random, 5, &[1, 4], &[0, 2, 1, 3, 4]);
    assert_eq!(claim(&mut random, &mut state), claimed(1, 1));
    assert_eq!(state.session.start_place, 3);

    // The free slice 4 stands at place 0, before the start place; places 3 and 4 are held: 22.
    let mut other = state.clone();
    other.permutation = Guarded::new(&[4, 0, 1, 2, 3]);
    assert_eq!(claim(&mut random, &mut other), refused(NoFreeSlice, 2));
    assert_eq!((other.session.start_place, other.owners[4]), (5, 0));
    // The first permutation does not help any more.
    other.permutation = state.permutation.clone();
    assert_eq!(claim(&mut random, &mut other), refused(NoFreeSlice, 0));

    for no_slice in [5, 1 << 31, UNMAPPED] {
        // Entries that name no slice before the start place, at it and behind it.
        for (order, answer) in [
            ([no_slice, no_slice, no_slice, 3, 4], claimed(4, 2)),
            ([no_slice, 0, 1, 4, no_slice], claimed(4, 1)),
            ([4, 0, 1, no_slice, 4], refused(BadPermutation, 1)),
            ([4, 0, 1, 2, no_slice], refused(BadPermutation, 2)),
        ] {
            let mut other = state.clone();
            other.permutation = Guarded::new(&order);
            assert_eq!(claim(&mut random, &mut other), answer, "{order:?}");
            let moved = if answer.answer == SERVED {
                answer.probes
            } else {
                0
            };
            assert_eq!(other.session.start_place, 3 + moved, "{order:?}");
        }
    }
}

// ---- the counts of a session

/// How often each kind of answer came up.
#[derive(Default, Debug)]
pub struct Reached {
    pub claims: usize,
    rewrites: usize,
    pub full: usize,
    bad_places: usize,
    short_tapes: usize,
    others: usize,
    /// Sessions whose counts, with the start place of the opening, add up to P.
    whole: usize,
}

impl Reached {
    /// Counts an answer, and gives the probes that are to be added up.
    pub fn add(&mut self, written: Written) -> usize {
        let Written {
            answer,
            claimed,
            probes,
            ..
        } = written;
        let field = match answer {
            Ok(()) if claimed == 1 => &mut self.claims,
            Ok(()) => &mut self.rewrites,
            Err(NoFreeSlice) => &mut self.full,
            Err(BadPermutation) if probes > 0 => &mut self.bad_places,
            Err(TapeShort) => &mut self.short_tapes,
            Err(_) => &mut self.others,
        };
        *field += 1;
        match answer {
            Err(BadPermutation | TapeShort) => 0,
            _ => probes,
        }
    }
}

/// A write with some permutation, to some entry. Some permutations name no slice at some places, some
/// tapes are too short, and some addresses are past the end.
pub fn any_write(random: &mut Random, state: &mut State) -> Written {
    let (b, p) = (state.session.b, state.session.p);
    let mut order = random.permutation(p);
    for _ in 0..random.below(3) {
        order[random.below(p)] = random.pick(&[p as u32, UNMAPPED]);
    }
    state.permutation = Guarded::new(&order);
    let mapped = random.once_in(4) && !targets(state, true).is_empty();
    aim(random, state, mapped);
    if random.once_in(10) {
        state.target.address += p;
    }
    let claim = b + IV;
    let len = random.pick(&[claim, claim, claim, claim, claim - 1, b, IV - 1]);
    state.new_tape(random, len);
    state.text = random.bytes(b);
    run_places(Write, state).0
}

/// Over one session without releases the counts add up to at most P, whatever permutation each call is
/// handed, and the start place is always that of the opening plus the counts so far.
#[test]
fn counts_of_a_session() {
    let mut random = Random::seeded();
    let mut reached = Reached::default();
    for p in [1, 2, 4, 17, 40] {
        for _ in 0..25 {
            let count = random.below(p + 1);
            let (free, order) = (random.permutation(p), random.permutation(p));
            let mut state = opened_with_free(&mut random, p, &free[..count], &order);
            let start = state.session.start_place;
            let mut probes = 0;
            for _ in 0..p + 10 {
                let call = random.pick(&[Write, Write, Write, Read, Find]);
                if call == Write {
                    probes += reached.add(any_write(&mut random, &mut state));
                } else {
                    let answer: Answer = run(call, &mut state);
                    reached.others += usize::from(answer != SERVED);
                }
                assert!(probes <= p, "{probes} of {p}");
                assert_eq!(state.session.start_place, start + probes);
            }
            assert_eq!(run(Close, &mut state), SERVED);
            assert_eq!(state.session.start_place, start + probes);
            reached.whole += usize::from(start + probes == p);
        }
    }
    let Reached {
        claims,
        rewrites,
        full,
        bad_places,
        short_tapes,
        others,
        whole,
    } = reached;
    let times = [
        claims,
        rewrites,
        full,
        bad_places,
        short_tapes,
        others,
        whole,
    ];
    assert!(times.iter().all(|&times| times >= 20), "{reached:?}");
}

/// While session, tables and permutation pass on untouched, no slice at a place before the start is
/// free: a claim takes the slice that a search from place 0 takes, and is refused by 22 where no slice
/// at all is free. A release with that permutation keeps to it.
#[test]
fn the_slice_that_a_search_from_0_takes() {
    let mut random = Random::seeded();
    let (mut reached, mut releases) = (Reached::default(), 0);
    for p in [1, 2, 4, 17, 40] {
        for _ in 0..25 {
            let count = random.below(p + 1);
            let (free, order) = (random.permutation(p), random.permutation(p));
            let mut state = opened_with_free(&mut random, p, &free[..count], &order);
            for _ in 0..2 * count + 5 {
                if random.once_in(3) && !targets(&state, true).is_empty() {
                    assert_eq!(release(&mut random, &mut state).answer, SERVED);
                    releases += 1;
                }
                let from_0 = state.first_free(0);
                assert!(state.session.start_place <= from_0);
                let mapped = random.once_in(5) && !targets(&state, true).is_empty();
                let written = write(&mut random, &mut state, mapped);
                reached.add(written);
                if !mapped {
                    let slice = order.get(from_0).map(|&slice| slice as usize);
                    let answer = if slice.is_some() {
                        SERVED
                    } else {
                        Err(NoFreeSlice)
                    };
                    assert_eq!(
                        (written.answer, written.slice),
                        (answer, slice.unwrap_or(0))
                    );
                }
            }
        }
    }
    let Reached {
        claims,
        rewrites,
        full,
        ..
    } = reached;
    let times = [claims, rewrites, full, releases];
    assert!(times.iter().all(|&times| times >= 50), "{times:?}");
}
