//! Shuffles: the orders that draws give, the draws that are thrown away, tapes that end, and how often
//! each order comes up.

use std::collections::{BTreeMap, BTreeSet};

use hiwalgam::Refusal::{BadGeometry, TableLength, TapeShort};
use hiwalgam_tests::adapters::c_functions::{self, Record};
use hiwalgam_tests::inputs::{Guarded, Random};
use hiwalgam_tests::interface::{Answer, Session, Tape, SERVED};

use crate::formatting::{arguments_with, format, open};
use crate::requests::{spoil, EDGES, MAX};
use crate::start_places::{aim_at, claimed, freed, release_slice, write_text};
use crate::state::Call::*;
use crate::state::{at, geometry, run, State, ENGINES};

/// Numbers of slices: few, around those at which a volume has one map block more, around a power of two,
/// and the most.
const SIZES: [usize; 12] = [1, 2, 3, 4, 5, 252, 253, 256, 257, 1000, 4095, 4096];

/// The values that a draw can have.
const VALUES: usize = 65_536;

/// The lowest draw that is thrown away where there are so many choices; 65,536 where none is.
fn limit(choices: usize) -> usize {
    VALUES - VALUES % choices
}

// ---- arguments

/// Arguments for a shuffle of P slices, without a device or tables.
fn arguments(p: usize, tape: &[u8], position: usize) -> State {
    State {
        device: Guarded::blank(0),
        maps: Guarded::blank(0),
        owners: Guarded::blank(0),
        session: Session::CLOSED,
        tape: Guarded::new(tape),
        position,
        numbers: [1024, 1, p],
        keys: Guarded::blank(0),
        counts: Guarded::blank(0),
        volumes: 0,
        key: Guarded::blank(0),
        permutation: Guarded::blank(p),
        target: at(0, 0),
        logical: 0,
        text: Guarded::blank(0),
        buf: Guarded::blank(0),
        found: 0,
    }
}

/// Shuffles P slices with a tape from its first byte on: the answer, and the list and the position left.
fn shuffle(p: usize, tape: &[u8]) -> (Answer, Vec<u32>, usize) {
    let mut state = arguments(p, tape, 0);
    let answer = run(Shuffle, &mut state);
    (answer, state.permutation.to_vec(), state.position)
}

/// What a shuffle leaves that used up its tape.
fn whole(list: &[u32], tape: &[u8]) -> (Answer, Vec<u32>, usize) {
    (SERVED, list.to_vec(), tape.len())
}

/// The bytes of draws.
fn bytes(draws: &[usize]) -> Vec<u8> {
    let bytes = draws.iter().map(|&draw| u16::try_from(draw).unwrap());
    bytes.flat_map(u16::to_be_bytes).collect()
}

/// A tape for a shuffle of P slices, and the order that it gives. For each number of choices, from P down
/// to 2, `draws` gives those at its place, of which the last alone is not thrown away.
fn tape_of(p: usize, mut draws: impl FnMut(usize) -> Vec<usize>) -> (Vec<u8>, Vec<u32>) {
    let mut order: Vec<u32> = (0..p as u32).collect();
    let mut tape = Vec::new();
    for choices in (2..=p).rev() {
        let draws = draws(choices);
        let (&last, thrown) = draws.split_last().unwrap();
        assert!(last < limit(choices) && thrown.iter().all(|&draw| draw >= limit(choices)));
        order.swap(choices - 1, last % choices);
        tape.extend(bytes(&draws));
    }
    (tape, order)
}

/// Up to so many draws that are thrown away, where there are any, and one that is not: any draws, and
/// those next to the limit and at the ends.
fn some_draws(random: &mut Random, choices: usize, thrown: usize) -> Vec<usize> {
    let limit = limit(choices);
    let mut draws = Vec::new();
    if limit < VALUES {
        for _ in 0..random.below(thrown + 1) {
            let any = limit + random.below(VALUES - limit);
            draws.push(random.pick(&[limit, VALUES - 1, any]));
        }
    }
    let any = random.below(limit);
    draws.push(random.pick(&[0, choices - 1, choices, limit - 1, any, any]));
    draws
}

// ---- orders

/// Draws and the orders that they give, exchanged by hand. Bytes before the position and behind the draws
/// have no influence.
#[test]
fn orders_by_hand() {
    for (p, draws, order) in [
        (1, &[][..], &[0][..]),
        // Most significant byte first: 1 leaves place 1, 256 does not.
        (2, &[0], &[1, 0]),
        (2, &[1], &[0, 1]),
        (2, &[256], &[1, 0]),
        (2, &[65_535], &[0, 1]),
        // Thrown away by three choices: 65,535 alone.
        (3, &[65_535, 65_534, 0], &[1, 0, 2]),
        (3, &[65_535, 65_535, 1, 1], &[0, 2, 1]),
        (4, &[0, 0, 0], &[1, 2, 3, 0]),
        (4, &[65_535, 65_535, 2, 1], &[0, 1, 2, 3]),
        (5, &[7, 6, 5, 4], &[1, 0, 3, 4, 2]),
        // By six: 65,532 and more.
        (6, &[65_532, 65_531, 0, 0, 1, 0], &[2, 3, 1, 4, 0, 5]),
    ] {
        let draws = bytes(draws);
        for before in 0..4 {
            for behind in 0..4 {
                let tape = [&[0xff, 0, 0xff][..before], &draws, &[0, 0xff, 0][..behind]];
                let mut state = arguments(p, &tape.concat(), before);
                assert_eq!(run(Shuffle, &mut state), SERVED, "P {p}, {draws:?}");
                assert_eq!(state.permutation[..], *order, "P {p}, {draws:?}");
                assert_eq!(state.position, before + draws.len(), "P {p}, {draws:?}");
            }
        }
    }
}

/// Draws of 0 put each slice one place lower, and the first at the end.
#[test]
fn tapes_of_00() {
    for p in (1..=100).chain(SIZES) {
        let tape = vec![0; 2 * (p - 1)];
        let mut order: Vec<u32> = (0..p as u32).collect();
        order.rotate_left(1);
        assert_eq!(shuffle(p, &tape), whole(&order, &tape), "P {p}");
    }
}

/// With three choices FF FF is thrown away for ever.
#[test]
fn tapes_of_ff() {
    for p in (1..=100).chain(SIZES) {
        for len in [2 * (p - 1), 4 * p, VALUES] {
            let tape = vec![0xff; len];
            let left = match p {
                1 => (SERVED, vec![0], 0),
                2 => (SERVED, vec![0, 1], 2),
                _ => (Err(TapeShort), Guarded::blank(p).to_vec(), 0),
            };
            assert_eq!(shuffle(p, &tape), left, "P {p}, {len} bytes");
        }
    }
}

/// Every size of block and slice that is allowed, and no other influence of it.
#[test]
fn blocks_have_no_influence() {
    let mut random = Random::seeded();
    for p in [1, 4, 253, 4096] {
        let tape = random.bytes(4 * p);
        let (_, order, _) = shuffle(p, &tape);
        for (b, s) in [(1024, 1), (1024, 64), (4096, 1), (4096, 64), (4096, 256)] {
            let mut state = arguments(p, &tape, 0);
            state.numbers = [b, s, p];
            assert_eq!(run(Shuffle, &mut state), SERVED, "{b}, {s}, {p}");
            assert_eq!(state.permutation[..], order, "{b}, {s}, {p}");
        }
    }
}

/// Random tapes, from any position on, every second with many draws that are thrown away. A second shuffle
/// takes the bytes behind those of the first.
#[test]
fn random_tapes() {
    let mut random = Random::seeded();
    for p in SIZES {
        for round in 0..20 {
            let used = random.below(10);
            let mut state = arguments(p, &[], 0);
            state.new_tape(&mut random, used + 12 * p);
            state.position = used;
            if round % 2 == 0 {
                random.fill(&mut state.tape);
            }
            let first = run(Shuffle, &mut state);
            assert!(first == SERVED || round % 2 == 1, "P {p}");
            let rest = &state.tape[state.position..];
            let (answer, order, taken) = shuffle(p, rest);
            let end = state.position + taken;
            assert_eq!(run(Shuffle, &mut state), answer, "P {p}");
            if answer == SERVED {
                assert_eq!(state.permutation[..], order, "P {p}");
                assert_eq!(state.position, end, "P {p}");
            }
        }
    }
}

/// What a call only reads may be the same memory: here the tape is the geometry.
#[test]
fn geometry_and_tape_may_overlap() {
    for p in [4, 5, 12] {
        let (geometry, mut list) = (Record::geometry([1024, 4, p]), Guarded::blank(p));
        let (_, order, taken) = shuffle(p, geometry.bytes());
        let mut tape = Tape {
            bytes: geometry.bytes(),
            position: 0,
        };
        assert_eq!(
            c_functions::shuffle(&geometry, &mut list, &mut tape),
            SERVED
        );
        assert_eq!(tape.position, taken);
        assert!(list == Guarded::new(&order) && geometry == Record::geometry([1024, 4, p]));
    }
}

// ---- draws that are thrown away

/// At each place the lowest draw that is thrown away, the highest, and then the highest that is not, which
/// leaves the place.
#[test]
fn draws_at_the_limits() {
    for p in (2..=100).chain(SIZES) {
        let (tape, order) = tape_of(p, |choices| match limit(choices) {
            VALUES => vec![VALUES - 1],
            limit => vec![limit, VALUES - 1, limit, limit - 1],
        });
        assert!(order.is_sorted());
        assert_eq!(shuffle(p, &tape), whole(&order, &tape), "P {p}");
    }
}

/// Up to five draws that are thrown away at each place. With a byte or a draw fewer the tape is too short.
#[test]
fn draws_thrown_away() {
    let mut random = Random::seeded();
    for p in (2..=40).chain(SIZES) {
        for _ in 0..10 {
            let (tape, order) = tape_of(p, |choices| some_draws(&mut random, choices, 5));
            assert_eq!(shuffle(p, &tape), whole(&order, &tape), "P {p}");
            let cuts = [1, 2, 3, 4, random.below(tape.len() + 1)];
            for cut in cuts
                .into_iter()
                .filter(|cut| (1..=tape.len()).contains(cut))
            {
                let (answer, list, position) = shuffle(p, &tape[..tape.len() - cut]);
                assert_eq!((answer, position), (Err(TapeShort), 0), "P {p}, {cut}");
                assert_eq!(list[..], Guarded::blank(p)[..], "P {p}, {cut}");
            }
        }
    }
}

/// With every number of choices that there can be: the highest draw that is not thrown away, the lowest and
/// the highest that are. The draws behind are 0.
#[test]
fn limits_of_all_numbers_of_choices() {
    for p in 2..=4096 {
        let zeros = |choices: usize, first: Vec<usize>| match choices {
            _ if choices == p => first,
            _ => vec![0],
        };
        let limit = limit(p);
        let (tape, order) = tape_of(p, |choices| zeros(choices, vec![limit - 1]));
        assert_eq!(shuffle(p, &tape), whole(&order, &tape), "P {p}");
        if limit < VALUES {
            let (tape, order) = tape_of(p, |choices| zeros(choices, vec![limit, VALUES - 1, 0]));
            assert_eq!(shuffle(p, &tape), whole(&order, &tape), "P {p}");
        }
    }
}

// ---- tapes that end

/// Every length of a tape up to a few bytes more than a shuffle takes, and every position up to a few past
/// its end. What follows a shuffle's bytes is not used, one byte is no draw, and a position past the end is
/// refused also where nothing is drawn.
#[test]
fn every_length_and_position() {
    let mut random = Random::seeded();
    for p in 1..=7 {
        for thrown in [0, 0, 1, 2] {
            let (tape, _) = tape_of(p, |choices| some_draws(&mut random, choices, thrown));
            let need = tape.len();
            let tape = [&tape[..], &[0; 5]].concat();
            for len in 0..=tape.len() {
                for position in (0..=len + 4).chain(EDGES.map(|edge| len.wrapping_add(edge))) {
                    let answer = run(Shuffle, &mut arguments(p, &tape[..len], position));
                    let served = match len.checked_sub(position) {
                        Some(left) if left >= 2 * (p - 1) => match position {
                            0 => len >= need,
                            // What is due follows from the draws there: `run` judges it.
                            _ => answer == SERVED,
                        },
                        _ => false,
                    };
                    let expected = if served { SERVED } else { Err(TapeShort) };
                    assert_eq!(answer, expected, "P {p}, {len} bytes, from {position}");
                }
            }
        }
    }
}

/// Tapes of zeros, of which no draw is thrown away: served where two bytes are left for each place but the
/// first, wherever the position is.
#[test]
fn bytes_that_a_shuffle_takes() {
    for p in (1_usize..=9).chain([252, 253, 4096]) {
        let need = 2 * (p - 1);
        for position in [0, 1, 2, 3, 100, 101] {
            for left in need.saturating_sub(3)..need + 4 {
                let mut state = arguments(p, &vec![0; position + left], position);
                let (answer, taken) = match left < need {
                    true => (Err(TapeShort), 0),
                    false => (SERVED, need),
                };
                assert_eq!(run(Shuffle, &mut state), answer, "P {p}, {left} left");
                assert_eq!(state.position, position + taken, "P {p}, {left} left");
            }
            // A tape that ends one or more bytes before the position.
            for len in 0..position {
                let mut state = arguments(p, &vec![0; len], position);
                assert_eq!(run(Shuffle, &mut state), Err(TapeShort), "P {p}, {len}");
                assert_eq!(state.position, position, "P {p}, {len}");
            }
        }
    }
}

// ---- the list

/// A list that is not P long is refused, whatever the tape, also one that is as long as another table.
#[test]
fn lengths_of_the_list() {
    let mut random = Random::seeded();
    for p in (1_usize..=9).chain([252, 253, 4096]) {
        let lengths = (0..12).chain(p.saturating_sub(3)..p + 4);
        let lengths = lengths.chain([2 * p, 4 * p, 15 * p, 4096, 4097, 65_536 + p]);
        for len in lengths.collect::<BTreeSet<usize>>() {
            let long = random.bytes(4 * p + 4);
            for (tape, position) in [(&long[..], 0), (&long, 1), (&[], 0), (&[], 1)] {
                let mut state = arguments(p, tape, position);
                state.permutation = Guarded::blank(len);
                let answer = match tape.len() {
                    _ if len != p => Err(TableLength),
                    0 if p > 1 || position > 0 => Err(TapeShort),
                    _ => SERVED,
                };
                assert_eq!(run(Shuffle, &mut state), answer, "P {p}, {len} entries");
            }
        }
    }
}

/// What the list held before has no influence: not the numbers in order, and not those of another shuffle.
#[test]
fn old_numbers_have_no_influence() {
    let mut random = Random::seeded();
    for p in SIZES {
        let tape = random.bytes(4 * p);
        let (_, order, position) = shuffle(p, &tape);
        let any: Vec<u32> = (0..p).map(|_| random.word() as u32).collect();
        let mut lists = vec![vec![0; p], vec![u32::MAX; p], any, random.permutation(p)];
        lists.extend([(0..p as u32).collect(), order.clone()]);
        for list in lists {
            let mut state = arguments(p, &tape, 0);
            state.permutation = Guarded::new(&list);
            assert_eq!(run(Shuffle, &mut state), SERVED, "P {p}");
            assert_eq!(state.permutation[..], order, "P {p}");
            assert_eq!(state.position, position, "P {p}");
        }
    }
}

// ---- refusals

/// A geometry, a list and a tape, each right or wrong in every way: the first that is wrong decides, and
/// whatever is refused leaves the list and the position.
#[test]
fn every_combination() {
    let mut random = Random::seeded();
    for p in [3, 4, 17, 253] {
        let geometries = [
            [1024, 1, p],
            [4096, 256, p],
            [1024, 0, p],
            [1024, 65, p],
            [2048, 1, p],
            [1024, 1, 0],
            [1024, 1, 4097],
            [MAX, MAX, MAX],
        ];
        let need = 2 * (p - 1);
        let (zeros, ones) = (vec![0; need + 1], vec![0xff; 4 * need]);
        let tapes = [
            (&zeros[..need], 0, SERVED),
            (&zeros, 1, SERVED),
            (&zeros[..need - 1], 0, Err(TapeShort)),
            (&zeros[..need], 1, Err(TapeShort)),
            (&zeros, need + 2, Err(TapeShort)),
            (&zeros, MAX, Err(TapeShort)),
            (&[], 0, Err(TapeShort)),
            (&ones, 0, Err(TapeShort)),
        ];
        for numbers in geometries {
            for len in [p, p - 1, p + 1, 0, 15 * p] {
                for (tape, position, last) in tapes {
                    let mut state = arguments(p, tape, position);
                    state.numbers = numbers;
                    let list: Vec<u32> = (0..len).map(|_| random.word() as u32).collect();
                    state.permutation = Guarded::new(&list);
                    let answer = match numbers {
                        _ if !geometries[..2].contains(&numbers) => Err(BadGeometry),
                        _ if len != p => Err(TableLength),
                        _ => last,
                    };
                    assert_eq!(run(Shuffle, &mut state), answer, "{numbers:?}, {len}");
                    if answer != SERVED {
                        assert_eq!(state.permutation[..], list, "{numbers:?}, {len}");
                        assert_eq!(state.position, position, "{numbers:?}, {len}");
                    }
                }
            }
        }
    }
}

/// Arguments with up to three things wrong. Every answer comes up.
#[test]
fn any_shuffle() {
    let mut random = Random::seeded();
    let mut answers = BTreeMap::new();
    for _ in 0..5000 {
        let p = random.pick(&[1, 2, 4, 17, 253]);
        let mut state = arguments(p, &[], 0);
        let (len, used) = (4 * p + random.below(20), random.below(10));
        state.new_tape(&mut random, len);
        state.position = used;
        for _ in 0..random.below(4) {
            spoil(&mut random, &mut state);
        }
        let answer = run(Shuffle, &mut state);
        let number = answer.map_or_else(|refusal| refusal.number(), |()| 0);
        *answers.entry(number).or_insert(0) += 1;
    }
    assert!(answers.keys().eq(&[0, 1, 4, 21]), "{answers:?}");
    assert!(answers.values().all(|&times| times >= 50), "{answers:?}");
}

// ---- sessions

/// A stick is formatted and its permutation made from one tape: every key opens it, claims take the slices
/// in the order of the permutation, and a release finds each at its place.
#[test]
fn sessions_with_a_shuffled_permutation() {
    let mut random = Random::seeded();
    for (b, s, p) in [
        (1024, 4, 1),
        (1024, 4, 2),
        (1024, 1, 3),
        (1024, 4, 4),
        (4096, 2, 5),
        (1024, 3, 17),
        (1024, 1, 253),
        (1024, 1, 4096),
    ] {
        let layout = geometry(b, s, p);
        let mut state = arguments_with(&mut random, layout, &[p, p], 0);
        let stick = format(&mut state);
        // The tape goes on behind the bytes of the formatting.
        let more = random.bytes(4 * p);
        state.tape = Guarded::new(&[&state.tape[..], &more].concat());
        assert_eq!(run(Shuffle, &mut state), SERVED, "P {p}");
        let order = state.permutation.to_vec();
        for k in [0, 1] {
            open(&mut state, &stick, k);
            assert_eq!(state.session.start_place, 0, "P {p}");
        }
        for (place, &slice) in order.iter().enumerate().take(20) {
            let index = random.below(2) * p + place;
            aim_at(&mut random, &mut state, index);
            let written = write_text(&mut random, &mut state);
            assert_eq!(written, claimed(slice, 1), "P {p}");
        }
        let index = state.released_entry();
        let slice = state.maps[index];
        let released = release_slice(&mut random, &mut state);
        assert_eq!(released, freed(slice), "P {p}");
        assert_eq!(state.session.start_place, p.min(20) - 1, "P {p}");

        // The next session has an order of its own.
        assert_eq!(run(Close, &mut state), SERVED, "P {p}");
        state.tape = random.bytes(4 * p);
        state.position = 0;
        assert_eq!(run(Shuffle, &mut state), SERVED, "P {p}");
        assert_eq!(run(Open, &mut state), SERVED, "P {p}");
    }
}

/// Every order of up to five slices, each by its own draws, opens a formatted stick.
#[test]
fn every_order_opens() {
    let mut random = Random::seeded();
    for p in 1..=5 {
        let mut state = arguments_with(&mut random, geometry(1024, 1, p), &[p], 0);
        let stick = format(&mut state);
        let (orders, mut opened) = ((1..=p).product(), BTreeSet::new());
        for index in 0..orders {
            let mut rest: usize = index;
            let (tape, order) = tape_of(p, |choices| {
                let draw = rest % choices;
                rest /= choices;
                vec![draw]
            });
            state.tape = Guarded::new(&tape);
            state.position = 0;
            assert_eq!(run(Shuffle, &mut state), SERVED, "P {p}");
            assert_eq!(state.permutation[..], order, "P {p}");
            open(&mut state, &stick, 0);
            opened.insert(order);
        }
        assert_eq!(opened.len(), orders, "P {p}");
    }
}

// ---- how often each order comes up

/// Every run of draws below 12, of which none is thrown away with 2, 3 or 4 choices and which 2, 3 and 4
/// divide evenly, is put to each implementation by itself: every order comes up equally often.
#[test]
fn each_order_from_equally_many_runs() {
    for (p, orders) in [(2, 2), (3, 6), (4, 24)] {
        let runs = 12_usize.pow(p as u32 - 1);
        for engine in ENGINES {
            let mut times = BTreeMap::new();
            for run in 0..runs {
                let digits = (0..p as u32 - 1).map(|digit| run / 12_usize.pow(digit) % 12);
                let tape = bytes(&digits.collect::<Vec<usize>>());
                let mut state = arguments(p, &tape, 0);
                assert_eq!(state.call(Shuffle, engine).answer, SERVED);
                assert_eq!(state.position, tape.len(), "{engine:?}");
                *times.entry(state.permutation.to_vec()).or_insert(0) += 1;
            }
            assert_eq!(times.len(), orders, "{engine:?}, P {p}");
            for order in times.keys() {
                let numbers: BTreeSet<u32> = order.iter().copied().collect();
                assert!(numbers.into_iter().eq(0..p as u32), "{engine:?}, {order:?}");
            }
            let even = times.values().all(|&times| times * orders == runs);
            assert!(even, "{engine:?}, P {p}: {times:?}");
        }
    }
}

/// All 65,536 draws at the last place, on each implementation by itself: exactly those at or above the
/// limit are thrown away, as the position tells, and of the others equally many exchange it with each
/// place.
#[test]
fn each_place_from_equally_many_draws() {
    for p in [2, 3, 5, 6, 7, 12, 100] {
        // The last place gets the number of the place that it is exchanged with, and no later draw
        // changes it. Where the first draw is thrown away, those behind leave every place.
        let behind: Vec<usize> = (1..p).rev().collect();
        let tape = [vec![0; 2], bytes(&behind)].concat();
        for engine in ENGINES {
            let (mut times, mut state) = (vec![0; p], arguments(p, &tape, 0));
            for draw in 0..VALUES {
                state.tape[..2].copy_from_slice(&bytes(&[draw]));
                state.position = 0;
                assert_eq!(state.call(Shuffle, engine).answer, SERVED);
                let thrown = state.position == tape.len();
                assert_eq!(thrown, draw >= limit(p), "{engine:?}, P {p}, {draw}");
                assert_eq!(state.position, tape.len() - 2 * usize::from(!thrown));
                match thrown {
                    true => assert!(state.permutation.is_sorted(), "{engine:?}, P {p}"),
                    false => times[state.permutation[p - 1] as usize] += 1,
                }
            }
            let each = limit(p) / p;
            assert_eq!(times, vec![each; p], "{engine:?}, P {p}");
        }
    }
}
