//! Each refusal, and the order of any two.

use hiwalgam::Refusal::BadPermutation;
use hiwalgam_reference::geometry::Geometry;
use hiwalgam_tests::interface::{Written, SERVED, UNMAPPED};

use crate::faults::{held_first, with_faults, with_sticks};
use crate::requests::MAX;
use crate::state::Call::{self, *};
use crate::state::{at, open_and_check, run, run_places, State};

/// Tests each fault of a call alone, and every two together.
fn refuses(call: Call) {
    with_faults(call, |_, base, faults| {
        assert_eq!(run(call, &mut base.clone()), SERVED);
        for (i, first) in faults.0.iter().enumerate() {
            for (j, second) in faults.0.iter().enumerate().skip(i) {
                let mut state = base.clone();
                if i != j {
                    second.put(&mut state);
                }
                first.put(&mut state);
                let (answer, _) = run_places(call, &mut state);
                let mut expected = Written::of(SERVED);
                if call == Find {
                    assert_eq!(state.found, 0);
                } else {
                    expected.answer = Err(first.refusal);
                    expected.probes = first.probes;
                }
                let first = (first.name, first.value);
                let second = (second.name, second.value);
                assert_eq!(answer, expected, "{call:?}, {first:?}, {second:?}");
            }
        }
    });
}

#[test]
fn refusals_of_format() {
    refuses(Format);
}

#[test]
fn refusals_of_shuffle() {
    refuses(Shuffle);
}

#[test]
fn refusals_of_open() {
    refuses(Open);
}

#[test]
fn refusals_of_read() {
    refuses(Read);
}

#[test]
fn refusals_of_find() {
    refuses(Find);
}

#[test]
fn refusals_of_write() {
    refuses(Write);
}

#[test]
fn refusals_of_release() {
    refuses(Release);
}

#[test]
fn refusals_of_close() {
    refuses(Close);
}

/// What a call does not look at does not refuse it. Of these calls a release alone looks at the whole
/// permutation.
#[test]
fn no_refusal() {
    with_sticks(|_, stick, mut base| {
        let Geometry { s, p, .. } = stick.geometry;
        base.permutation = held_first(p);
        open_and_check(&mut base, stick, 1);
        let changes: [fn(&mut State); 6] = [
            // Keys, counts and rows above k, owners above 15.
            |state| state.session.keys[64..].fill(1),
            |state| state.session.counts[2..].fill(MAX),
            |state| state.maps[2 * state.session.p..].fill(UNMAPPED - 1),
            |state| state.owners[2..4].fill(255),
            // A start place before the held places.
            |state| state.session.start_place = 0,
            // Other counts than those of the headers, all allowed.
            |state| state.session.counts[..2].fill(state.session.p),
        ];
        let orders: [fn(&mut State); 3] = [
            // Places after the free one and before the start place, and duplicates.
            |state| state.permutation[3..].fill(UNMAPPED),
            |state| state.permutation[..2].fill(UNMAPPED),
            |state| {
                state.permutation[1] = state.permutation[0];
                state.session.start_place = 0;
            },
        ];
        let changes = changes.map(|change| (change, SERVED));
        let orders = orders.map(|change| (change, Err(BadPermutation)));
        for (change, released) in changes.into_iter().chain(orders) {
            for (call, address, expected) in [
                (Read, 0, SERVED),
                (Find, 0, SERVED),
                (Write, 0, SERVED),
                (Write, s, SERVED),
                (Release, 0, released),
                (Close, 0, SERVED),
            ] {
                let mut state = base.clone();
                state.target = at(1, address);
                change(&mut state);
                assert_eq!(run(call, &mut state), expected, "{call:?}");
                assert!(call != Find || state.found == state.session.b);
            }
        }
        // Read and rewrite look at the asked entry alone, a claim and a release at no entry outside of its
        // map block, a release and a rewrite at no owner, a rewrite at no place, and a close at nothing.
        base.target = at(1, 0);
        base.owners.fill(0);
        let mut other = base.clone();
        other.maps[..p].fill(p as u32);
        other.maps[2 * p..].fill(p as u32);
        assert_eq!(run(Release, &mut other.clone()), SERVED);
        other.target = at(1, s);
        assert_eq!(run(Write, &mut other), SERVED);

        base.maps.fill(p as u32);
        base.maps[p] = 3;
        base.permutation.fill(UNMAPPED);
        for call in [Read, Find, Write, Close] {
            assert_eq!(run(call, &mut base), SERVED);
        }
    });
}
