//! Cases of document 01, and numbers of any size.

use std::thread;

use hiwalgam::Refusal::{BadGeometry, DeviceLength, NotOpen, TableLength};
use hiwalgam_tests::adapters::CFunctions;
use hiwalgam_tests::inputs::{Guarded, Random};
use hiwalgam_tests::interface::{Engine, Tables, Tape, SERVED, UNMAPPED, VOLUMES};
use hiwalgam_tests::stick::{format_need, Stick};

use crate::requests::EDGES;
use crate::state::Call::*;
use crate::state::{geometry, open_and_check, run, State, CALLS};

/// The reference's layout, by which the other tests find their places.
#[test]
fn layout() {
    let a = geometry(1024, 4, 4);
    assert_eq!((a.map_blocks(), a.header_blocks()), (1, 31));
    assert_eq!(a.device_len(), 52_224);
    assert_eq!(a.cell(14), 856..916);
    assert_eq!(a.data(2, 3).start, 46_080);
    assert_eq!(geometry(1024, 4, 252).map_blocks(), 1);
    let two = geometry(1024, 4, 253);
    assert_eq!((two.map_blocks(), two.header_blocks()), (2, 46));
    let largest = geometry(4096, 256, 4096);
    assert_eq!((largest.map_blocks(), largest.header_blocks()), (5, 91));
    assert_eq!(largest.device_len(), 4_312_117_248);
}

#[test]
fn limits_of_the_geometry() {
    let mut random = Random::seeded();
    let refused = Err(BadGeometry);
    for (s, p, answer) in [
        (64, 4, SERVED),
        (65, 4, refused),
        (4, 0, refused),
        (4, 4097, refused),
    ] {
        let stick = Stick::blank(&mut random, geometry(1024, s.min(64), 4), 2);
        let mut state = State::new(&mut random, &stick, 1);
        state.numbers = [1024, s, p];
        assert_eq!(run(Open, &mut state), answer, "S {s}, P {p}");
    }
    let stick = Stick::random(&mut random, geometry(1024, 1, 4096), 1, 50);
    let mut state = State::new(&mut random, &stick, 0);
    open_and_check(&mut state, &stick, 0);
}

#[test]
fn any_geometry() {
    let mut random = Random::seeded();
    // Counts and a start place that every P allows.
    let stick = Stick::random_with(&mut random, geometry(1024, 4, 4), &[1, 1], 2);
    let mut base = State::new(&mut random, &stick, 1);
    open_and_check(&mut base, &stick, 1);
    let mut maps = stick.volumes.iter().map(|volume| volume.map[0]);
    base.target.volume = maps.position(|entry| entry != UNMAPPED).unwrap();
    base.session.start_place = 0;
    base.new_tape(&mut random, format_need(stick.geometry, 2));
    let triples = EDGES.map(|b| EDGES.map(|s| EDGES.map(|p| [b, s, p])));
    for numbers in triples.as_flattened().as_flattened() {
        let [b, s, p] = *numbers;
        let allowed = matches!(b, 1024 | 4096) && s > 0 && s <= b / 16 && p > 0 && p <= 4096;
        let mut state = base.clone();
        state.numbers = [b, s, p];
        (state.session.b, state.session.s, state.session.p) = (b, s, p);
        for call in CALLS {
            let expected = match call {
                _ if [b, s, p] == [1024, 4, 4] => SERVED,
                Find => SERVED,
                // The list has four entries, and no device is lent.
                Shuffle if allowed && p == 4 => SERVED,
                Shuffle if allowed => Err(TableLength),
                _ if allowed => Err(DeviceLength),
                Format | Shuffle | Open => Err(BadGeometry),
                _ => Err(NotOpen),
            };
            let answer = run(call, &mut state.clone());
            assert_eq!(answer, expected, "{call:?}, {b}, {s}, {p}");
        }
    }
}

/// The longest stick has 4,312,117,248 bytes. One of so many bytes modulo 2^32 is no stick.
#[test]
fn length_in_64_bits() {
    let mut random = Random::seeded();
    let stick = Stick::blank(&mut random, geometry(1024, 4, 4), 1);
    let mut state = State::new(&mut random, &stick, 0);
    state.numbers = [4096, 256, 4096];
    state.device = Guarded::new(&vec![0; 4_312_117_248 % (1 << 32)]);
    (state.session.b, state.session.s, state.session.p) = (4096, 256, 4096);
    (state.session.k, state.session.open) = (0, 1);
    state.session.start_place = 4096;
    state.session.counts[0] = 4096;
    for call in [Format, Read, Write, Release, Close, Open] {
        assert_eq!(run(call, &mut state), Err(DeviceLength));
    }
}

/// A thread with a small stack has room for every call: the header promises that 32 KiB are enough.
#[test]
fn stack_of_a_call() {
    let mut random = Random::seeded();
    let layout = geometry(1024, 1, 4096);
    let stick = Stick::blank(&mut random, layout, VOLUMES);
    let mut state = State::new(&mut random, &stick, VOLUMES - 1);
    // The first call formats anew, and the others take the rest of the tape.
    state.new_tape(&mut random, format_need(layout, VOLUMES) + 65_536);
    let calls = [
        Format, Shuffle, Open, Read, Write, Write, Read, Find, Release, Close,
    ];
    let thread = thread::Builder::new().name("calls on 64 KiB of stack".into());
    // The answers are judged outside: a panic needs more stack.
    let answers = thread::scope(|scope| {
        let answers = || calls.map(|call| state.call(call, &CFunctions).answer);
        let running = thread.stack_size(64 * 1024).spawn_scoped(scope, answers);
        running.unwrap().join().unwrap()
    });
    for (call, answer) in calls.iter().zip(answers) {
        assert_eq!(answer, SERVED, "{call:?}");
    }
}

/// What a call only reads may be the same memory: here the text of a write is the end of its tape.
#[test]
fn tape_and_text_may_overlap() {
    let mut random = Random::seeded();
    let stick = Stick::blank(&mut random, geometry(1024, 4, 4), 1);
    let mut state = State::new(&mut random, &stick, 0);
    open_and_check(&mut state, &stick, 0);
    state.new_tape(&mut random, 1024 + 16);
    let mut apart = state.clone();
    apart.text = Guarded::new(&apart.tape[16..]);
    let written = apart.call(Write, &CFunctions);
    assert_eq!(written.answer, SERVED);

    let mut tables = Tables {
        maps: &mut state.maps,
        owners: &mut state.owners,
    };
    let mut tape = Tape {
        bytes: &state.tape,
        position: 0,
    };
    let (device, order, session) = (&mut state.device, &state.permutation, &mut state.session);
    let (target, text) = (state.target, &state.tape[16..]);
    let together = CFunctions.write(device, &mut tables, order, &mut tape, session, target, text);
    assert_eq!((together, tape.position), (written, apart.position));
    assert!(state.device == apart.device, "device");
}
