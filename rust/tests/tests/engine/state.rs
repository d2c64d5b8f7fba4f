//! What is lent to the calls, and how a call is run and judged.

use std::iter;
use std::ops::Range;

use hiwalgam::Refusal;
use hiwalgam_reference::ctr;
use hiwalgam_reference::geometry::{Geometry, IV};
use hiwalgam_tests::adapters::{CFunctions, Reference, Wrapper};
use hiwalgam_tests::inputs::{Guarded, Random};
use hiwalgam_tests::interface::{
    Answer, Engine, Session, Tables, Tape, Target, Written, KEYS, SERVED, UNMAPPED, VOLUMES,
};
use hiwalgam_tests::stick::Stick;

#[derive(Clone, Copy, PartialEq, Debug)]
pub enum Call {
    Format,
    Shuffle,
    Open,
    Read,
    Find,
    Write,
    Release,
    Close,
}
use Call::*;

pub const CALLS: [Call; 8] = [Format, Shuffle, Open, Read, Find, Write, Release, Close];

pub const ENGINES: [&dyn Engine; 3] = [&CFunctions, &Wrapper, &Reference];

/// What is lent to the calls, and their arguments. A call uses only those that it has.
#[derive(Clone, PartialEq)]
pub struct State {
    pub device: Guarded,
    pub maps: Guarded<u32>,
    pub owners: Guarded,
    pub session: Session,
    pub tape: Guarded,
    pub position: usize,
    /// B, S and P for a formatting, a shuffle and an opening.
    pub numbers: [usize; 3],
    /// The keys for a formatting, end to end, the counts of logical slices, and the number of volumes.
    pub keys: Guarded,
    pub counts: Guarded<usize>,
    pub volumes: usize,
    pub key: Guarded,
    /// The list that a shuffle sets, and the permutation of the other calls.
    pub permutation: Guarded<u32>,
    pub target: Target,
    /// The logical slice of the target's volume that a release is for.
    pub logical: usize,
    pub text: Guarded,
    pub buf: Guarded,
    /// The length that the last find gave.
    pub found: usize,
}

impl State {
    /// Arguments that open a stick with the key of volume `k`, or format it anew with the keys and counts
    /// of all its volumes, where the tape is long enough. The tables and the session hold anything.
    pub fn new(random: &mut Random, stick: &Stick, k: usize) -> Self {
        let Geometry { b, s, p } = stick.geometry;
        let mut state = State {
            device: Guarded::new(&stick.device),
            maps: Guarded::blank(VOLUMES * p),
            owners: Guarded::blank(p),
            session: Session::CLOSED,
            tape: Guarded::blank(0),
            position: 0,
            numbers: [b, s, p],
            keys: Guarded::new(&stick.keys()),
            counts: Guarded::new(&stick.counts()),
            volumes: stick.volumes.len(),
            key: Guarded::new(&stick.volumes[k].key),
            permutation: Guarded::new(&random.permutation(p)),
            target: at(0, 0),
            logical: 0,
            text: random.bytes(b),
            buf: Guarded::blank(b),
            found: 0,
        };
        state.forget(random);
        state.new_tape(random, 3 * b);
        state
    }

    pub fn new_tape(&mut self, random: &mut Random, len: usize) {
        self.tape = Guarded::blank(len);
        random.fill_ivs(&mut self.tape);
        self.position = 0;
    }

    /// The session's geometry, for a session that was open.
    fn geometry(&self) -> Geometry {
        geometry(self.session.b, self.session.s, self.session.p)
    }

    /// The index of the target's map entry.
    pub fn entry(&self) -> usize {
        self.target.volume * self.session.p + self.target.address / self.session.s
    }

    /// The index of the map entry that a release is for.
    pub fn released_entry(&self) -> usize {
        self.target.volume * self.session.p + self.logical
    }

    /// Makes the tables and the session hold anything: an opening must replace it.
    pub fn forget(&mut self, random: &mut Random) {
        for entry in self.maps.iter_mut() {
            *entry = random.word() as u32;
        }
        random.fill(&mut self.owners);
        self.session = any_session(random);
    }

    /// The offset of the target's block in its slice.
    fn offset(&self) -> usize {
        self.target.address % self.session.s
    }

    /// The first place from `start` on whose slice is free, or the number of places where there is
    /// none.
    pub fn first_free(&self, start: usize) -> usize {
        let owner = |slice: u32| self.owners.get(slice as usize);
        let places = start..self.permutation.len();
        let mut free = places.filter(|&place| owner(self.permutation[place]) == Some(&0));
        free.next().unwrap_or(self.permutation.len())
    }

    /// The place of a slice in the permutation, which must name it.
    pub fn place_of(&self, slice: usize) -> usize {
        let mut places = self.permutation.iter();
        let place = places.position(|&named| named as usize == slice);
        place.unwrap()
    }

    /// Makes the call. The answer has zeros for what the call does not give.
    pub fn call(&mut self, call: Call, engine: &dyn Engine) -> Written {
        let (device, session) = (&mut self.device, &mut self.session);
        let mut tables = Tables {
            maps: &mut self.maps,
            owners: &mut self.owners,
        };
        let mut tape = Tape {
            bytes: &self.tape,
            position: self.position,
        };
        let (tables, tape) = (&mut tables, &mut tape);
        let (order, target) = (&mut self.permutation, self.target);
        let written = match call {
            Format => {
                let (numbers, volumes) = (self.numbers, self.volumes);
                let (keys, counts) = (&self.keys, &self.counts);
                Written::of(engine.format(device, numbers, volumes, keys, counts, tape))
            }
            Shuffle => Written::of(engine.shuffle(self.numbers, order, tape)),
            Open => {
                let (numbers, key) = (self.numbers, &self.key);
                Written::of(engine.open(device, numbers, key, tables, order, session))
            }
            Read => Written::of(engine.read(device, tables, session, target, &mut self.buf)),
            Find => {
                self.found = engine.find(device, tables, session, target, &mut self.buf);
                Written::of(SERVED)
            }
            Write => engine.write(device, tables, order, tape, session, target, &self.text),
            Release => {
                let (volume, logical) = (target.volume, self.logical);
                match engine.release(device, tables, order, tape, session, volume, logical) {
                    Ok(slice) => Written {
                        slice,
                        ..Written::of(SERVED)
                    },
                    Err(refusal) => Written::of(Err(refusal)),
                }
            }
            Close => Written::of(engine.close(device, tables, session)),
        };
        self.position = tape.position;
        written
    }

    /// Fails with the names of the fields that differ.
    pub fn assert_same(&self, other: &State, what: &str) {
        let same = [
            ("device", self.device == other.device),
            ("maps", self.maps == other.maps),
            ("owners", self.owners == other.owners),
            ("session", self.session == other.session),
            ("permutation", self.permutation == other.permutation),
            ("position", self.position == other.position),
            ("buffer", self.buf == other.buf),
            ("found", self.found == other.found),
        ];
        let names = same.iter().filter(|field| !field.1).map(|field| field.0);
        let names: Vec<&str> = names.collect();
        assert!(names.is_empty(), "{what}: {names:?}");
        assert!(self == other, "{what}: an argument");
    }
}

/// A session of random numbers and keys.
pub fn any_session(random: &mut Random) -> Session {
    let [b, s, p, k, open, start_place] = [(); 6].map(|()| random.word() as usize);
    Session {
        b,
        s,
        p,
        k,
        open,
        start_place,
        keys: random.array(),
        counts: [(); VOLUMES].map(|()| random.word() as usize),
    }
}

pub fn at(volume: usize, address: usize) -> Target {
    Target { volume, address }
}

pub fn geometry(b: usize, s: usize, p: usize) -> Geometry {
    Geometry::new(b, s, p).unwrap()
}

/// Stick A of document 01: B 1,024, S 4, P 4.
pub fn stick_a(random: &mut Random, count: usize) -> Stick {
    Stick::random(random, geometry(1024, 4, 4), count, 2)
}

/// Runs a call on all implementations, which must agree on everything. What may change, and to
/// what, is tested beside that. Returns the answer and the places of the device that the call
/// writes.
pub fn run_places(call: Call, state: &mut State) -> (Written, Vec<Range<usize>>) {
    let before = state.clone();
    let answer = state.call(call, &CFunctions);
    for engine in &ENGINES[1..] {
        let mut other = before.clone();
        let other_answer = other.call(call, *engine);
        assert_eq!(answer, other_answer, "answer of {call:?} by {engine:?}");
        state.assert_same(&other, &format!("{call:?} by {engine:?}, {answer:?}"));
    }
    let (left, places) = effect(before, call, answer, state);
    state.assert_same(&left, &format!("change by {call:?}, {answer:?}"));
    (answer, places)
}

pub fn run(call: Call, state: &mut State) -> Answer {
    run_places(call, state).0.answer
}

/// What a call with this answer leaves of `state`: by the rules, and only for ciphertexts, tags, read
/// texts, a served opening and the list of a shuffle from `after`. Also the places of the device that it
/// writes.
fn effect(
    mut state: State,
    call: Call,
    answer: Written,
    after: &State,
) -> (State, Vec<Range<usize>>) {
    let places = match (call, answer.answer) {
        (Format, Ok(())) => after_format(&mut state, after),
        (Shuffle, Ok(())) => after_shuffle(&mut state, after),
        (Shuffle, Err(Refusal::TapeShort)) => after_short_tape(&state),
        (Open, Ok(())) => after_opening(&mut state, after),
        (Open, Err(refusal)) => after_refused_opening(&mut state, refusal),
        (Read, Ok(())) => {
            state.buf = Guarded::new(&after.buf);
            Vec::new()
        }
        (Find, _) => after_find(&mut state, after.found),
        (Write, Ok(())) => after_write(&mut state, answer, after),
        (Write, Err(Refusal::NoFreeSlice)) => after_search(&mut state, answer),
        (Release, Ok(())) => after_release(&mut state, answer, after),
        (Close, Ok(())) => after_close(&mut state),
        (Format | Shuffle | Read | Write | Release | Close, Err(_)) => Vec::new(),
    };
    for place in &places {
        state.device[place.clone()].copy_from_slice(&after.device[place.clone()]);
    }
    (state, places)
}

/// The device is of tape bytes but for what is sealed, and each IV is the next of the tape. Returns
/// the whole device.
fn after_format(state: &mut State, after: &State) -> Vec<Range<usize>> {
    let [b, s, p] = state.numbers;
    let geometry = geometry(b, s, p);
    let mut draw = |len: usize| {
        state.position += len;
        state.position - len..state.position
    };
    let mut device = state.tape[draw(state.device.len())].to_vec();
    // VMK and VEK of each volume.
    draw(64 * state.volumes);
    let mut put = |start: usize, iv: usize, sealed: usize| {
        let end = start + iv;
        device[start..end].copy_from_slice(&state.tape[draw(iv)]);
        device[end..end + sealed].copy_from_slice(&after.device[end..end + sealed]);
    };
    for i in 0..state.volumes {
        put(geometry.cell(i).start, 12, 32 + 16);
    }
    for i in 0..state.volumes {
        put(geometry.header(i).start, 12, 72 + 16);
        for map in geometry.maps(i).step_by(b) {
            put(map, IV, b - IV);
        }
    }
    assert!(after.device[..] == device, "tape bytes on the device");
    let whole = 0..device.len();
    vec![whole]
}

/// The places that a shuffle of P numbers draws for its places from the last down, and the position after
/// it. None where the tape ends first.
fn places_drawn(p: usize, tape: &[u8], position: usize) -> Option<(Vec<usize>, usize)> {
    let (draws, _) = tape.get(position..)?.as_chunks();
    let (mut draws, mut used) = (draws.iter(), 0);
    let places = (2..=p).rev().map(|choices| loop {
        let draw = usize::from(u16::from_be_bytes(*draws.next()?));
        used += 2;
        if draw + 65_536 % choices < 65_536 {
            return Some(draw % choices);
        }
    });
    let places: Option<Vec<usize>> = places.collect();
    Some((places?, position + used))
}

/// The position is after the last byte used, and in the list all exchanges with the places drawn, undone
/// from the last on, leave the numbers in order.
fn after_shuffle(state: &mut State, after: &State) -> Vec<Range<usize>> {
    let p = state.numbers[2];
    let drawn = places_drawn(p, &state.tape, state.position);
    let (places, position) = drawn.expect("a tape that is long enough");
    let mut undone = after.permutation.to_vec();
    for (place, &other) in (1..p).zip(places.iter().rev()) {
        undone.swap(place, other);
    }
    assert!(undone.iter().copied().eq(0..p as u32), "a shuffle, P {p}");
    state.permutation = Guarded::new(&after.permutation);
    state.position = position;
    Vec::new()
}

/// A shuffle is refused by 21 only where the tape ends first.
fn after_short_tape(state: &State) -> Vec<Range<usize>> {
    let drawn = places_drawn(state.numbers[2], &state.tape, state.position);
    assert_eq!(drawn, None, "a tape that is too short");
    Vec::new()
}

fn after_opening(state: &mut State, after: &State) -> Vec<Range<usize>> {
    state.session = after.session.clone();
    state.maps = Guarded::new(&after.maps);
    state.owners = Guarded::new(&after.owners);
    state.session.start_place = state.first_free(0);
    let Session { p, k, counts, .. } = after.session;
    let (open, above) = counts.split_at(k + 1);
    assert!(open.iter().all(|count| (1..=p).contains(count)), "counts");
    assert!(above.iter().all(|&count| count == 0), "counts above");
    Vec::new()
}

fn after_refused_opening(state: &mut State, refusal: Refusal) -> Vec<Range<usize>> {
    state.session = Session::CLOSED;
    if refusal.number() > Refusal::BadPermutation.number() {
        state.maps.fill(UNMAPPED);
        state.owners.fill(0);
    }
    Vec::new()
}

fn after_find(state: &mut State, found: usize) -> Vec<Range<usize>> {
    state.found = found;
    if found > 0 {
        let slice = state.maps[state.entry()] as usize;
        let part = &state.device[state.geometry().data(slice, state.offset())];
        assert_eq!(found, part.len());
        if let Some(start) = state.buf.get_mut(..part.len()) {
            start.copy_from_slice(part);
        }
    }
    Vec::new()
}

fn after_write(state: &mut State, answer: Written, after: &State) -> Vec<Range<usize>> {
    let geometry = state.geometry();
    let (entry, slice, offset) = (state.entry(), answer.slice, state.offset());
    if answer.claimed == 0 {
        assert_eq!(answer.probes, 0, "probes");
        assert_eq!(state.maps[entry], slice as u32);
        draw_to(state, after, geometry.iv(slice, offset));
        return vec![geometry.iv(slice, offset), geometry.data(slice, offset)];
    }
    assert_eq!((answer.claimed, state.maps[entry]), (1, UNMAPPED));
    let start = state.session.start_place;
    let place = state.first_free(start);
    assert_eq!(answer.probes, place + 1 - start, "probes");
    assert_eq!(state.permutation[place], slice as u32);
    state.session.start_place = place + 1;
    state.maps[entry] = slice as u32;
    state.owners[slice] = state.target.volume as u8 + 1;
    let first = geometry.slice(slice).start;
    draw_to(state, after, first..first + geometry.b);
    let map_block = stored_map_block(state, after, entry);
    vec![geometry.slice(slice), map_block]
}

/// The bytes at a place of the device are the next of the tape.
fn draw_to(state: &mut State, after: &State, place: Range<usize>) {
    let drawn = &state.tape[state.position..][..place.len()];
    assert_eq!(after.device[place.clone()], *drawn, "bytes of the tape");
    state.position += place.len();
}

/// The map block that holds an entry has the next bytes of the tape for its IV, then the entries of the
/// table, in which the entry is changed already, and behind the last of P the mark. Returns its place.
fn stored_map_block(state: &mut State, after: &State, entry: usize) -> Range<usize> {
    let Geometry { b, p, .. } = state.geometry();
    let (volume, in_block) = (entry / p, (b - IV) / 4);
    let first = entry % p / in_block * in_block;
    let start = b * (1 + volume * (1 + p.div_ceil(in_block))) + b + b * (first / in_block);
    draw_to(state, after, start..start + IV);

    let mut text = after.device[start + IV..start + b].to_vec();
    let key = &state.session.keys[32 * volume..32 * (volume + 1)];
    let iv = &after.device[start..start + IV];
    ctr::apply(key.try_into().unwrap(), iv.try_into().unwrap(), &mut text);
    let row = &state.maps[volume * p..(volume + 1) * p];
    let entries = row[first..].iter().copied().chain(iter::repeat(UNMAPPED));
    let entries = entries.take(in_block).map(u32::to_be_bytes);
    assert!(text.chunks(4).eq(entries), "entries of a map block");
    start..start + b
}

/// A claim that found no free slice changes the start place alone.
fn after_search(state: &mut State, answer: Written) -> Vec<Range<usize>> {
    let Session { p, start_place, .. } = state.session;
    assert_eq!(state.first_free(start_place), p, "no free slice");
    assert_eq!(answer.probes, p - start_place, "probes");
    state.session.start_place = p;
    Vec::new()
}

/// A release changes the asked entry, the owner of its slice and the start place, and stores the map
/// block that holds the entry.
fn after_release(state: &mut State, answer: Written, after: &State) -> Vec<Range<usize>> {
    let (entry, slice) = (state.released_entry(), answer.slice);
    assert_eq!((answer.claimed, answer.probes), (0, 0));
    assert_eq!(state.maps[entry], slice as u32, "slice freed");
    state.maps[entry] = UNMAPPED;
    state.owners[slice] = 0;
    state.session.start_place = state.session.start_place.min(state.place_of(slice));
    vec![stored_map_block(state, after, entry)]
}

/// A close wipes, and writes no byte of the device.
fn after_close(state: &mut State) -> Vec<Range<usize>> {
    state.maps.fill(UNMAPPED);
    state.owners.fill(0);
    state.session.keys = [0; KEYS];
    state.session.open = 0;
    Vec::new()
}

/// Opens, which must be served, and tests the session and the tables by what the stick was built
/// from.
pub fn open_and_check(state: &mut State, stick: &Stick, k: usize) {
    assert_eq!(run(Open, state), SERVED);
    let Geometry { b, s, p } = stick.geometry;
    let mut maps = vec![UNMAPPED; VOLUMES * p];
    let mut owners = vec![0; p];
    let mut session = Session {
        b,
        s,
        p,
        k,
        open: 1,
        ..Session::CLOSED
    };
    for (i, volume) in stick.volumes[..=k].iter().enumerate() {
        maps[i * p..(i + 1) * p].copy_from_slice(&volume.map);
        for &slice in volume.map.iter().filter(|&&entry| entry != UNMAPPED) {
            owners[slice as usize] = i as u8 + 1;
        }
        session.keys[32 * i..32 * (i + 1)].copy_from_slice(&volume.vek);
        session.counts[i] = volume.count();
    }
    let mut places = state.permutation.iter();
    let first = places.position(|&slice| owners[slice as usize] == 0);
    session.start_place = first.unwrap_or(p);
    assert_eq!(state.session, session);
    assert!(state.maps[..] == maps && state.owners[..] == owners);
}
