//! The structs as bytes: wrong sizes, and what a call leaves of a session.

use hiwalgam::sys::{SESSION_BYTES, WRITTEN_BYTES};
use hiwalgam::Refusal::{NoFreeSlice, NotOpen, WrongLength};
use hiwalgam_tests::adapters::c_functions::{self, Record, COUNTS_START, KEYS_START};
use hiwalgam_tests::inputs::{Element, Guarded, Random};
use hiwalgam_tests::interface::{Answer, Tables, Tape, KEYS, SERVED, VOLUMES};

use crate::faults::with_faults;
use crate::requests::{spoil, CLOSED};
use crate::state::Call::{self, *};
use crate::state::{any_session, State, CALLS};

/// Where the start place of a session begins in its bytes.
const START_PLACE: usize = 40;

/// The structs of a call, and the number that a release sets. A call uses only those that it has.
#[derive(Clone, PartialEq)]
struct Records {
    geometry: Record,
    session: Record,
    written: Record,
    slice: usize,
}

impl Records {
    fn of(state: &State) -> Self {
        Records {
            geometry: Record::geometry(state.numbers),
            session: Record::session(&state.session),
            written: Record::blank(WRITTEN_BYTES),
            slice: usize::pattern(0),
        }
    }

    /// Makes the call with these structs instead of what `state` has.
    fn call(&mut self, call: Call, state: &mut State) -> Answer {
        let (device, session) = (&mut state.device, &mut self.session);
        let mut tables = Tables {
            maps: &mut state.maps,
            owners: &mut state.owners,
        };
        let mut tape = Tape {
            bytes: &state.tape,
            position: state.position,
        };
        let (tables, tape) = (&mut tables, &mut tape);
        let (order, target, buf) = (&mut state.permutation, state.target, &mut state.buf);
        let answer = match call {
            Format => {
                let (volumes, keys, counts) = (state.volumes, &state.keys, &state.counts);
                c_functions::format(device, &self.geometry, volumes, keys, counts, tape)
            }
            Shuffle => c_functions::shuffle(&self.geometry, order, tape),
            Open => c_functions::open(device, &self.geometry, &state.key, tables, order, session),
            Read => c_functions::read(device, tables, session, target, buf),
            Find => {
                state.found = c_functions::find(device, tables, session, target, buf);
                SERVED
            }
            Write => {
                let (text, written) = (&state.text, &mut self.written);
                c_functions::write(device, tables, order, tape, session, target, text, written)
            }
            Release => {
                let (volume, logical, slice) = (target.volume, state.logical, &mut self.slice);
                c_functions::release(device, tables, order, tape, session, volume, logical, slice)
            }
            Close => c_functions::close(device, tables, session),
        };
        state.position = tape.position;
        answer
    }
}

// ---- wrong sizes

type Field = fn(&mut Records) -> &mut Record;

/// The structs that a call has.
fn fields(call: Call) -> Vec<Field> {
    let session: Field = |records| &mut records.session;
    let geometry: Field = |records| &mut records.geometry;
    match call {
        Format | Shuffle => vec![geometry],
        Open => vec![session, geometry],
        Write => vec![session, |records| &mut records.written],
        Read | Find | Release | Close => vec![session],
    }
}

/// A struct with every wrong size that is tried: cut in the same memory, cut together with its
/// memory, so that size 0 goes with null, and continued.
fn wrong_sizes(record: &Record) -> Vec<Record> {
    let bytes = record.bytes();
    let right = bytes.len();
    // A session is also cut to what it has before its counts.
    let shorter = [
        0,
        1,
        8,
        right / 2,
        COUNTS_START.min(right - 8),
        right - 8,
        right - 1,
    ];
    let longer = [1, 8, 232, 256, right, 65_536].map(|more| right + more);
    let cut = shorter.iter().map(|&size| record.cut(size));
    let short = shorter.iter().map(|&size| Record::new(&bytes[..size]));
    let long = longer
        .iter()
        .map(|&size| Record::new(&Guarded::new(bytes).resized(size)));
    cut.chain(short).chain(long).collect()
}

/// Makes a call with structs of which one or more have a wrong size: 13, whatever else is wrong, and
/// everything stays. A write says that it did nothing, where there is room to say it.
fn check_wrong(call: Call, state: &State, records: &Records) {
    let (mut left, mut records_left) = (state.clone(), records.clone());
    let (mut state, mut records) = (state.clone(), records.clone());
    let answer = records.call(call, &mut state);
    if call == Find {
        left.found = 0;
    } else {
        assert_eq!(answer, Err(WrongLength), "{call:?}");
    }
    if call == Write && records.written.size() == WRITTEN_BYTES {
        records_left.written = Record::new(&[0; WRITTEN_BYTES]);
    }
    state.assert_same(&left, &format!("{call:?} with a wrong size"));
    assert!(records == records_left, "{call:?}: a struct changed");
}

/// Tries each wrong size of each struct of a call.
fn try_each_size(call: Call, state: &State) {
    for field in fields(call) {
        for wrong in wrong_sizes(field(&mut Records::of(state))) {
            let mut records = Records::of(state);
            *field(&mut records) = wrong;
            check_wrong(call, state, &records);
        }
    }
}

/// Tries a wrong size of some of the structs of a call, at least of one.
fn try_some_size(random: &mut Random, call: Call, state: &State) {
    let mut records = Records::of(state);
    let fields = fields(call);
    let wrong = 1 + random.below((1 << fields.len()) - 1);
    for (i, field) in fields.iter().enumerate() {
        if wrong >> i & 1 == 1 {
            let record = field(&mut records);
            *record = random.pick(&wrong_sizes(record));
        }
    }
    check_wrong(call, state, &records);
}

#[test]
fn wrong_sizes_before_all_refusals() {
    for call in CALLS {
        with_faults(call, |random, base, faults| {
            // Owners that a call which clears them would change.
            let mut base = base.clone();
            random.fill(&mut base.owners);
            base.found = usize::MAX;
            try_each_size(call, &base);
            for fault in &faults.0 {
                let mut state = base.clone();
                fault.put(&mut state);
                for _ in 0..4 {
                    try_some_size(random, call, &state);
                }
            }
        });
    }
}

// ---- the bytes of a session

/// Makes a call and tests what it leaves of the session. `counts` are those of the stick's volumes.
fn check_session(call: Call, state: &mut State, counts: &[usize]) -> Answer {
    let mut records = Records::of(state);
    let (before, blank) = (records.session.clone(), records.slice);
    let answer = records.call(call, state);
    let left = match (call, answer) {
        (Open, Err(_)) => Record::new(&[0; SESSION_BYTES]),
        (Open, Ok(())) => opened_at_1(state, &records.session, counts),
        (Write, Ok(()) | Err(NoFreeSlice)) => moved(&before, &records.written),
        (Release, Ok(())) => lowered(&before, state.place_of(records.slice)),
        (Close, Ok(())) => closed(&before),
        (Format | Shuffle | Read | Find | Write | Release | Close, _) => before,
    };
    let set = call == Release && answer == SERVED;
    assert!(set || records.slice == blank, "slice of {call:?}");
    assert!(
        records.session == left,
        "session after {call:?}, {answer:?}"
    );
    answer
}

/// The session of an opening at volume 1: geometry, volume, 1 for open, the start place, the keys of
/// the volumes 0 and 1, which follow from the device, and zeros; then their counts, and zeros.
fn opened_at_1(state: &State, session: &Record, counts: &[usize]) -> Record {
    let [b, s, p] = state.numbers;
    let numbers = [b, s, p, 1, 1, state.first_free(0)].map(usize::to_le_bytes);
    let mut keys = [0; KEYS];
    keys[..64].copy_from_slice(&session.bytes()[KEYS_START..KEYS_START + 64]);
    let mut held = [0; VOLUMES];
    held[..2].copy_from_slice(&counts[..2]);
    let held = held.map(usize::to_le_bytes);
    Record::new(&[numbers.as_flattened(), &keys, held.as_flattened()].concat())
}

fn number(bytes: &[u8]) -> u64 {
    u64::from_le_bytes(bytes.try_into().unwrap())
}

fn start_place(session: &Record) -> u64 {
    number(&session.bytes()[START_PLACE..KEYS_START])
}

/// A session with another start place.
fn with_start_place(session: &Record, place: u64) -> Record {
    let bytes = session.bytes();
    let (first, rest) = (&bytes[..START_PLACE], &bytes[KEYS_START..]);
    Record::new(&[first, &place.to_le_bytes(), rest].concat())
}

/// A session with the start place moved by as many places as a write looked at.
fn moved(before: &Record, written: &Record) -> Record {
    let probes = number(&written.bytes()[16..24]);
    with_start_place(before, start_place(before) + probes)
}

/// A session whose start place is at most the place of a slice that was freed.
fn lowered(before: &Record, place: usize) -> Record {
    with_start_place(before, start_place(before).min(place as u64))
}

/// A session after its close: geometry, volume, start place and counts stay.
fn closed(before: &Record) -> Record {
    let bytes = before.bytes();
    let (first, place) = (&bytes[..32], &bytes[START_PLACE..KEYS_START]);
    let counts = &bytes[COUNTS_START..];
    Record::new(&[first, &[0; 8], place, &[0; KEYS], counts].concat())
}

#[test]
fn sessions_after_each_call() {
    for call in CALLS {
        with_faults(call, |random, base, faults| {
            let counts = &base.counts;
            assert_eq!(check_session(call, &mut base.clone(), counts), SERVED);
            for fault in &faults.0 {
                let mut state = base.clone();
                fault.put(&mut state);
                let answer = check_session(call, &mut state, counts);
                assert!(call == Find || answer == Err(fault.refusal), "{call:?}");
            }
            // Several faults of any kind.
            for _ in 0..200 {
                let mut state = base.clone();
                for _ in 0..1 + random.below(3) {
                    spoil(random, &mut state);
                }
                let _answer = check_session(call, &mut state, counts);
            }
        });
    }
}

/// A session whose bytes are random is handed back as it is, under every number for closed.
#[test]
fn any_session_stays() {
    for call in [Read, Find, Write, Release, Close] {
        with_faults(call, |random, base, _| {
            for open in CLOSED {
                let mut state = base.clone();
                state.session = any_session(random);
                state.session.open = open;
                let answer = check_session(call, &mut state, &base.counts);
                assert!(answer == Err(NotOpen) || call == Find && state.found == 0);
            }
        });
    }
}
