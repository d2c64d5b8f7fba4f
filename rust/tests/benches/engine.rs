//! The speed of the proved engine beside that of the reference, of its reads, writes and releases beside
//! its own counter mode alone, of its formatting beside a plain copy, and of claims that fill a stick
//! beside the same slices and map blocks stored without a claim. Nothing here asserts a time.
//!
//! Each implementation is called in its own form, without the tests' interface, whose adapters copy
//! the session.

use std::hint::black_box;
use std::rc::Rc;
use std::time::Instant;

use hiwalgam::{Block, Tables, Tape};
use hiwalgam_reference::geometry::{Geometry, IV};
use hiwalgam_reference::session::{self, Stored};
use hiwalgam_reference::{formatting, opening, requests, shuffling};
use hiwalgam_tests::inputs::Random;
use hiwalgam_tests::interface::{Target, UNMAPPED, VOLUMES};
use hiwalgam_tests::stick::Stick;

const B: usize = 4096;
/// The other size of a block, for calls beside counter mode alone.
const SMALL_B: usize = 1024;
/// B and P of the stick that is filled; S is 1.
const FILL_B: usize = 1024;
const FILL_P: usize = 4096;
/// The places that claims look at to fill the stick, where each begins at place 0.
const LOOKS_FROM_0: usize = FILL_P * (FILL_P + 1) / 2;
/// Block 0 of volume 0.
const FIRST: Target = Target {
    volume: 0,
    address: 0,
};
/// Rounds, in each of which every measurement has a turn.
const ROUNDS: usize = 101;
/// Rounds of filling a stick, which takes longer than a turn of anything else.
const FILL_ROUNDS: usize = 21;
/// About how long a turn lasts, in seconds.
const TURN_SECONDS: f64 = 0.001;

/// Rows that stand in two tables, or whose ratios to one another are printed.
const CLAIM: &str = "claim, S 4";
const RELEASE: &str = "release, P 256";
const LARGE_RELEASE: &str = "release, P 4096";
const SHUFFLE: &str = "shuffle, P 256";
const LARGE_SHUFFLE: &str = "shuffle, P 4096";
const OPEN: &str = "open, P 256";
const LARGE_OPEN: &str = "open, P 4096";

/// What is lent to the calls on a stick.
#[derive(Clone)]
struct Bench {
    layout: Geometry,
    geometry: hiwalgam::Geometry,
    device: Vec<u8>,
    /// The key that opens all 15 volumes.
    key: [u8; 32],
    permutation: Vec<u32>,
    tables: Tables,
    tape: Vec<u8>,
    /// A tape for shuffles, and the list that they set.
    draws: Vec<u8>,
    shuffled: Vec<u32>,
    buf: Vec<u8>,
    /// A block whose logical slice is mapped, unless the stick is blank, and one whose is not.
    mapped: Target,
    unmapped: Target,
    /// The volume and the logical slice that hold the last slice of the permutation that is held; zeros
    /// where the stick is blank.
    last: (usize, usize),
}

impl Bench {
    /// A stick with half of its slices mapped.
    fn new(random: &mut Random, b: usize, s: usize, p: usize) -> Self {
        let stick = Stick::random(random, Geometry::new(b, s, p).unwrap(), VOLUMES, p / 2);
        let mapped = stick.texts.keys().copied();
        let mapped = mapped.min_by_key(|target| (target.volume, target.address));
        let mut entries = stick.volumes[0].map.iter();
        let logical = entries.position(|&entry| entry == UNMAPPED);
        let unmapped = Target {
            volume: 0,
            address: logical.unwrap() * s,
        };
        Bench::on(random, stick, mapped.unwrap(), unmapped)
    }

    /// A blank stick, to be filled.
    fn blank(random: &mut Random) -> Self {
        let layout = Geometry::new(FILL_B, 1, FILL_P).unwrap();
        let stick = Stick::blank(random, layout, VOLUMES);
        Bench::on(random, stick, FIRST, FIRST)
    }

    fn on(random: &mut Random, stick: Stick, mapped: Target, unmapped: Target) -> Self {
        let layout = stick.geometry;
        let geometry = hiwalgam::Geometry {
            block_bytes: layout.b as u64,
            slice_blocks: layout.s as u64,
            slices: layout.p as u64,
        };
        let permutation = random.permutation(layout.p);
        let mut holders = vec![None; layout.p];
        for (volume, held) in stick.volumes.iter().enumerate() {
            for (logical, &entry) in held.map.iter().enumerate() {
                if let Some(holder) = holders.get_mut(entry as usize) {
                    *holder = Some((volume, logical));
                }
            }
        }
        let mut backwards = permutation.iter().rev();
        let last = backwards.find_map(|&slice| holders[slice as usize]);
        Bench {
            layout,
            geometry,
            device: stick.device,
            key: stick.volumes[VOLUMES - 1].key,
            permutation,
            tables: Tables::new(geometry),
            // As many as a claim takes.
            tape: random.bytes(layout.b + IV).to_vec(),
            // Twice as many as where no draw is thrown away.
            draws: random.bytes(4 * layout.p).to_vec(),
            shuffled: vec![0; layout.p],
            buf: vec![0; layout.b],
            mapped,
            unmapped,
            last: last.unwrap_or_default(),
        }
    }
}

/// An open session of one implementation. Each call tests that it is served.
trait Session: Sized {
    /// Opens all volumes.
    fn opened(bench: &mut Bench) -> Self;

    /// Reads the mapped block.
    fn read(&mut self, bench: &mut Bench);

    /// Finds the mapped block, which is not copied.
    fn find(&mut self, bench: &mut Bench);

    /// Writes a block with the first bytes of the tape, and gives the slice and the probes.
    fn write(&mut self, bench: &mut Bench, target: Target) -> (usize, usize);

    /// Releases a logical slice of a volume with the first bytes of the tape, and gives the slice freed.
    fn release(&mut self, bench: &mut Bench, place: (usize, usize)) -> usize;

    /// Makes a permutation from the tape for shuffles, and gives the bytes used.
    fn shuffle(bench: &mut Bench) -> usize;

    /// Gives the start place.
    fn start_place(&self) -> usize;

    /// Sets the start place.
    fn start_at(&mut self, place: usize);

    /// Closes a copy of the session, which wipes the tables whatever they hold.
    fn close(&mut self, bench: &mut Bench);
}

fn open<S: Session>(session: &mut S, bench: &mut Bench) {
    *session = S::opened(bench);
}

fn rewrite<S: Session>(session: &mut S, bench: &mut Bench) {
    session.write(bench, bench.mapped);
}

/// A claim, which is then taken back in the tables and the session.
fn claim<S: Session>(session: &mut S, bench: &mut Bench) {
    let start = session.start_place();
    let (slice, _) = session.write(bench, bench.unmapped);
    let entry = bench.unmapped.address / bench.geometry.slice_blocks as usize;
    assert_eq!(bench.tables.maps[entry], slice as u32);
    bench.tables.maps[entry] = UNMAPPED;
    bench.tables.owners[slice] = 0;
    session.start_at(start);
}

/// A release of the last slice that is held, which is then taken back in the tables. Its place is found
/// last, and is behind the start place, which stays.
fn release<S: Session>(session: &mut S, bench: &mut Bench) {
    let start = session.start_place();
    let (volume, logical) = bench.last;
    let slice = session.release(bench, bench.last);
    assert_eq!(session.start_place(), start);
    bench.tables.maps[volume * bench.layout.p + logical] = slice as u32;
    bench.tables.owners[slice] = volume as u8 + 1;
}

/// A shuffle, which takes no session.
fn shuffle<S: Session>(_: &mut S, bench: &mut Bench) {
    S::shuffle(bench);
}

struct Library(hiwalgam::Session);

fn block(target: Target) -> Block {
    Block {
        volume: target.volume as u64,
        address: target.address as u64,
    }
}

impl Session for Library {
    fn opened(bench: &mut Bench) -> Self {
        let (device, geometry, order) = (&bench.device, bench.geometry, &bench.permutation);
        let tables = &mut bench.tables;
        let session = hiwalgam::Session::open(device, geometry, &bench.key, tables, order);
        let session = session.unwrap();
        assert_eq!(session.volume(), VOLUMES as u64 - 1);
        Library(session)
    }

    fn read(&mut self, bench: &mut Bench) {
        let (device, tables, buf) = (&bench.device, &bench.tables, &mut bench.buf);
        let answer = self.0.read(device, tables, block(bench.mapped), buf);
        answer.unwrap();
    }

    fn find(&mut self, bench: &mut Bench) {
        let (device, tables) = (&bench.device, &bench.tables);
        let found = self.0.find(device, tables, block(bench.mapped), &mut []);
        assert_eq!(found, Some(bench.layout.b));
    }

    fn write(&mut self, bench: &mut Bench, target: Target) -> (usize, usize) {
        let (device, tables, order) = (&mut bench.device, &mut bench.tables, &bench.permutation);
        let (tape, text) = (&mut Tape::new(&bench.tape), &bench.buf);
        let written = self
            .0
            .write(device, tables, order, tape, block(target), text);
        let written = written.unwrap();
        (written.change.slice() as usize, written.probes as usize)
    }

    fn release(&mut self, bench: &mut Bench, (volume, logical): (usize, usize)) -> usize {
        let (device, tables, order) = (&mut bench.device, &mut bench.tables, &bench.permutation);
        let (tape, volume, logical) = (&mut Tape::new(&bench.tape), volume as u64, logical as u64);
        let slice = self.0.release(device, tables, order, tape, volume, logical);
        slice.unwrap() as usize
    }

    fn shuffle(bench: &mut Bench) -> usize {
        let mut tape = Tape::new(&bench.draws);
        hiwalgam::shuffle(bench.geometry, &mut bench.shuffled, &mut tape).unwrap();
        tape.position
    }

    fn start_place(&self) -> usize {
        self.0.start_place() as usize
    }

    fn start_at(&mut self, place: usize) {
        let mut record = self.0.record().clone();
        record.start_place = place as u64;
        self.0 = hiwalgam::Session::from_record(record);
    }

    fn close(&mut self, bench: &mut Bench) {
        let mut session = hiwalgam::Session::from_record(self.0.record().clone());
        session.close(&bench.device, &mut bench.tables).unwrap();
    }
}

struct Reference(session::Session);

fn reference_tables(tables: &mut Tables) -> session::Tables<'_> {
    session::Tables {
        maps: &mut tables.maps,
        owners: &mut tables.owners,
    }
}

fn reference_numbers(geometry: hiwalgam::Geometry) -> [usize; 3] {
    let numbers = [geometry.block_bytes, geometry.slice_blocks, geometry.slices];
    numbers.map(|number| number as usize)
}

fn reference_tape(bytes: &[u8]) -> session::Tape<'_> {
    session::Tape { bytes, position: 0 }
}

fn reference_target(target: Target) -> session::Target {
    let Target { volume, address } = target;
    session::Target { volume, address }
}

impl Session for Reference {
    fn opened(bench: &mut Bench) -> Self {
        let (device, geometry, order) = (&bench.device, bench.geometry, &bench.permutation);
        let numbers = reference_numbers(geometry);
        let tables = &mut reference_tables(&mut bench.tables);
        let session = opening::open(device, numbers, &bench.key, tables, order).unwrap();
        assert_eq!(session.k, VOLUMES - 1);
        Reference(session)
    }

    fn read(&mut self, bench: &mut Bench) {
        let Tables { maps, owners } = &bench.tables;
        let (device, target) = (&bench.device, reference_target(bench.mapped));
        let answer = requests::read(device, maps, owners, &self.0, target, &mut bench.buf);
        answer.unwrap();
    }

    fn find(&mut self, bench: &mut Bench) {
        let Tables { maps, owners } = &bench.tables;
        let (device, target) = (&bench.device, reference_target(bench.mapped));
        let found = requests::find(device, maps, owners, &self.0, target);
        assert_eq!(found.len(), bench.layout.b);
    }

    fn write(&mut self, bench: &mut Bench, target: Target) -> (usize, usize) {
        let (device, order, text) = (&mut bench.device, &bench.permutation, &bench.buf);
        let tables = &mut reference_tables(&mut bench.tables);
        let (tape, target) = (&mut reference_tape(&bench.tape), reference_target(target));
        match requests::write(device, tables, order, tape, &mut self.0, target, text) {
            Ok(Stored::Claimed { slice, probes }) => (slice, probes),
            Ok(Stored::Rewritten { slice }) => (slice, 0),
            Err(refused) => panic!("{:?}", refused.refusal),
        }
    }

    fn release(&mut self, bench: &mut Bench, (volume, logical): (usize, usize)) -> usize {
        let (device, order, tape) = (
            &mut bench.device,
            &bench.permutation,
            &mut reference_tape(&bench.tape),
        );
        let tables = &mut reference_tables(&mut bench.tables);
        let slice = requests::release(device, tables, order, tape, &mut self.0, volume, logical);
        slice.unwrap()
    }

    fn shuffle(bench: &mut Bench) -> usize {
        let mut tape = reference_tape(&bench.draws);
        let numbers = reference_numbers(bench.geometry);
        shuffling::shuffle(numbers, &mut bench.shuffled, &mut tape).unwrap();
        tape.position
    }

    fn start_place(&self) -> usize {
        self.0.start_place
    }

    fn start_at(&mut self, place: usize) {
        self.0.start_place = place;
    }

    fn close(&mut self, bench: &mut Bench) {
        let mut session = self.0.clone();
        let tables = &mut reference_tables(&mut bench.tables);
        requests::close(&bench.device, tables, &mut session).unwrap();
    }
}

/// Empties the tables and fills the stick to the last slice by claims of volume 0. `restart` puts the
/// start place back to 0 before each claim. Gives the places looked at in all.
fn fill_with<S: Session>(session: &mut S, bench: &mut Bench, restart: bool) -> usize {
    bench.tables.maps.fill(UNMAPPED);
    bench.tables.owners.fill(0);
    session.start_at(0);
    let mut looks = 0;
    for address in 0..FILL_P {
        if restart {
            session.start_at(0);
        }
        let (_, probes) = session.write(bench, Target { address, ..FIRST });
        looks += probes;
    }
    looks
}

fn fill<S: Session>(session: &mut S, bench: &mut Bench) {
    let looks = fill_with(session, bench, false);
    assert!(looks <= FILL_P, "{looks} places");
}

fn fill_from_0<S: Session>(session: &mut S, bench: &mut Bench) {
    let looks = fill_with(session, bench, true);
    assert_eq!(looks, LOOKS_FROM_0);
}

/// Stores what the claims of a filling store, without a claim: for each slice in the same order the IV
/// block from the tape, and in the library's counter mode the text and the map block with one entry more.
fn store_alone(session: &mut Library, bench: &mut Bench) {
    let key = &session.0.record().keys[..32];
    let (iv_bytes, map_iv) = bench.tape.split_at(FILL_B);
    let mut map = Vec::new();
    for (logical, &slice) in bench.permutation.iter().enumerate() {
        let place = bench.layout.slice(slice as usize);
        let (iv_block, data) = bench.device[place].split_at_mut(FILL_B);
        iv_block.copy_from_slice(iv_bytes);
        hiwalgam::counter_mode(key, &iv_block[..IV], &bench.buf, data).unwrap();

        let t = bench.layout.map_block_of(logical);
        let entry = 4 * (logical - bench.layout.map_block_slices(t).start);
        if entry == 0 {
            map = vec![0xff; FILL_B - IV];
        }
        map[entry..entry + 4].copy_from_slice(&slice.to_be_bytes());
        let (iv, entries) = bench.device[bench.layout.map_block(0, t)].split_at_mut(IV);
        iv.copy_from_slice(map_iv);
        hiwalgam::counter_mode(key, map_iv, &map, entries).unwrap();
    }
}

/// The device that a filling leaves.
fn filled<S: Session>(bench: &Bench, call: fn(&mut S, &mut Bench)) -> Vec<u8> {
    let mut bench = bench.clone();
    let mut session = S::opened(&mut bench);
    call(&mut session, &mut bench);
    bench.device
}

/// The places that the library's claims look at in all. What is measured beside them must leave the
/// same device.
fn looks_to_fill(bench: &Bench) -> usize {
    let device = filled(bench, fill::<Library>);
    assert!(device == filled(bench, fill::<Reference>), "reference");
    assert!(device == filled(bench, fill_from_0::<Library>), "from 0");
    assert!(device == filled(bench, store_alone), "without a claim");
    let mut bench = bench.clone();
    let mut session = Library::opened(&mut bench);
    fill_with(&mut session, &mut bench, false)
}

/// The draws that a shuffle throws away. Both implementations must make the same permutation.
fn thrown_away(bench: &Bench) -> usize {
    let (mut bench, mut other) = (bench.clone(), bench.clone());
    let used = Library::shuffle(&mut bench);
    assert_eq!(used, Reference::shuffle(&mut other));
    assert!(bench.shuffled == other.shuffled, "reference");
    used / 2 - (bench.layout.p - 1)
}

/// What is lent to a formatting: a device of 64 MiB, and 15 keys.
#[derive(Clone)]
struct Blank {
    geometry: hiwalgam::Geometry,
    device: Vec<u8>,
    keys: Vec<u8>,
    tape: Rc<[u8]>,
}

impl Blank {
    fn new(random: &mut Random) -> Self {
        // 31 blocks before the first slice, and 256 slices of 64 blocks.
        let geometry = hiwalgam::Geometry {
            block_bytes: B as u64,
            slice_blocks: 63,
            slices: 256,
        };
        let tape = random.bytes(geometry.format_tape_length(VOLUMES));
        Blank {
            geometry,
            device: vec![0; geometry.device_length()],
            keys: random.bytes(32 * VOLUMES).to_vec(),
            tape: Rc::from(&tape[..]),
        }
    }

    fn format(&mut self) {
        let (device, tape) = (&mut self.device, &mut Tape::new(&self.tape));
        let counts = &[self.geometry.slices; VOLUMES];
        hiwalgam::format(device, self.geometry, VOLUMES, &self.keys, counts, tape).unwrap();
    }

    fn format_by_reference(&mut self) {
        let (device, tape) = (&mut self.device, &mut reference_tape(&self.tape));
        let numbers = reference_numbers(self.geometry);
        let counts = &[self.geometry.slices as usize; VOLUMES];
        formatting::format(device, numbers, VOLUMES, &self.keys, counts, tape).unwrap();
    }

    /// Copies as many bytes as the device has.
    fn copy(&mut self) {
        let len = self.device.len();
        self.device.copy_from_slice(&self.tape[..len]);
    }

    /// A call on a device of its own.
    fn measured(&self, name: &'static str, call: fn(&mut Blank)) -> Measured {
        let mut blank = self.clone();
        Measured::new(name, move || call(black_box(&mut blank)))
    }
}

/// Something that is measured, with the seconds of one call in each round.
struct Measured {
    name: &'static str,
    call: Box<dyn FnMut()>,
    calls: u32,
    seconds: Vec<f64>,
}

impl Measured {
    fn new(name: &'static str, call: impl FnMut() + 'static) -> Self {
        let mut measured = Measured {
            name,
            call: Box::new(call),
            calls: 20,
            seconds: Vec::new(),
        };
        measured.turn();
        let warm = measured.seconds.pop().unwrap();
        measured.calls = (TURN_SECONDS / warm).ceil() as u32;
        measured
    }

    /// A call of one implementation, on a bench of its own.
    fn on<S: Session + 'static>(
        bench: &Bench,
        name: &'static str,
        call: fn(&mut S, &mut Bench),
    ) -> Self {
        let mut bench = bench.clone();
        let mut session = S::opened(&mut bench);
        Measured::new(name, move || {
            call(black_box(&mut session), black_box(&mut bench))
        })
    }

    fn turn(&mut self) {
        let start = Instant::now();
        for _ in 0..self.calls {
            (self.call)();
        }
        let seconds = start.elapsed().as_secs_f64();
        self.seconds.push(seconds / f64::from(self.calls));
    }

    fn microseconds(&self) -> f64 {
        1e6 * median(self.seconds.clone())
    }

    /// The median of how many times as long as `other` it took in a round.
    fn ratio(&self, other: &Measured) -> f64 {
        let rounds = self.seconds.iter().zip(&other.seconds);
        median(rounds.map(|(seconds, other)| seconds / other).collect())
    }
}

fn median(mut values: Vec<f64>) -> f64 {
    values.sort_by(f64::total_cmp);
    values[values.len() / 2]
}

/// How many times as long as the row `other` the row `name` took.
fn ratio_of(rows: &[Measured], name: &str, other: &str) -> f64 {
    let row = |name| rows.iter().find(|row| row.name == name).unwrap();
    row(name).ratio(row(other))
}

/// Every call of one implementation, in the order of the table.
fn all_calls<S: Session + 'static>(small: &Bench, large: &Bench) -> Vec<Measured> {
    vec![
        Measured::on(small, "read, mapped", S::read),
        Measured::on(small, "rewrite", rewrite::<S>),
        Measured::on(small, CLAIM, claim::<S>),
        Measured::on(small, "find", S::find),
        Measured::on(small, RELEASE, release::<S>),
        Measured::on(large, LARGE_RELEASE, release::<S>),
        Measured::on(small, "close, P 256", S::close),
        Measured::on(small, OPEN, open::<S>),
        Measured::on(large, LARGE_OPEN, open::<S>),
        Measured::on(small, SHUFFLE, shuffle::<S>),
        Measured::on(large, LARGE_SHUFFLE, shuffle::<S>),
    ]
}

/// Calls of the library's counter mode, each over a text of so many bytes, of which the first is the longest.
fn counter_mode(lengths: &[usize]) -> Measured {
    let (text, mut out) = (vec![0x5c; lengths[0]], vec![0; lengths[0]]);
    let lengths = lengths.to_vec();
    Measured::new("counter mode", move || {
        for &length in &lengths {
            let (text, out) = (black_box(&text[..length]), black_box(&mut out[..length]));
            hiwalgam::counter_mode(&[0x42; 32], &[0x17; 16], text, out).unwrap();
        }
    })
}

/// The calls of the library that encipher or decipher, each with counter mode alone over the same
/// numbers of bytes.
fn with_counter_mode(bench: &Bench) -> Vec<[Measured; 2]> {
    let (b, s) = (bench.layout.b, bench.layout.s);
    // A map block is enciphered less its IV.
    let map_block = b - IV;
    let claimed = [&vec![b; s][..], &[map_block]].concat();
    vec![
        [
            Measured::on(bench, "read", Library::read),
            counter_mode(&[b]),
        ],
        [
            Measured::on(bench, "rewrite", rewrite::<Library>),
            counter_mode(&[b]),
        ],
        // Every block of the slice, and the map block.
        [
            Measured::on(bench, CLAIM, claim::<Library>),
            counter_mode(&claimed),
        ],
        [
            Measured::on(bench, RELEASE, release::<Library>),
            counter_mode(&[map_block]),
        ],
    ]
}

fn main() {
    let mut random = Random::seeded();
    let small = Bench::new(&mut random, B, 4, 256);
    let large = Bench::new(&mut random, B, 1, 4096);
    let thrown = thrown_away(&large);
    let mut library = all_calls::<Library>(&small, &large);
    let mut reference = all_calls::<Reference>(&small, &large);
    for _ in 0..ROUNDS {
        for (library, reference) in library.iter_mut().zip(&mut reference) {
            library.turn();
            reference.turn();
        }
    }

    let small_blocks = Bench::new(&mut random, SMALL_B, 4, 256);
    let mut multiples = [&small, &small_blocks].map(with_counter_mode);
    for _ in 0..ROUNDS {
        for [call, alone] in multiples.iter_mut().flatten() {
            call.turn();
            alone.turn();
        }
    }

    // In rounds of its own, since a formatting leaves nothing else in the caches.
    let blank = Blank::new(&mut random);
    let mut format = blank.measured("format, 64 MiB", Blank::format);
    let mut format_by_reference = blank.measured("format, 64 MiB", Blank::format_by_reference);
    let mut copy = blank.measured("copy", Blank::copy);
    for _ in 0..ROUNDS {
        for measured in [&mut format, &mut format_by_reference, &mut copy] {
            measured.turn();
        }
    }
    let format_to_copy = format.ratio(&copy);
    library.push(format);
    reference.push(format_by_reference);

    let stick = Bench::blank(&mut random);
    let looks = looks_to_fill(&stick);
    let mut filling = Measured::on(&stick, "fill, P 4096", fill::<Library>);
    let mut filling_by_reference = Measured::on(&stick, "fill, P 4096", fill::<Reference>);
    let mut fill_from_0 = Measured::on(&stick, "fill from 0", fill_from_0::<Library>);
    let mut store_alone = Measured::on(&stick, "store alone", store_alone);
    for _ in 0..FILL_ROUNDS {
        filling.turn();
        filling_by_reference.turn();
        fill_from_0.turn();
        store_alone.turn();
    }
    let fill_to_store = filling.ratio(&store_alone);
    let from_0_to_fill = fill_from_0.ratio(&filling);
    library.push(filling);
    reference.push(filling_by_reference);

    println!("B {B}, 15 volumes open, half of the slices mapped; medians of {ROUNDS} rounds.");
    println!(
        "A formatting is of {} bytes with 15 keys.",
        blank.device.len()
    );
    println!(
        "A filling is of {FILL_P} claims on a blank stick, B {FILL_B}, S 1; medians of {FILL_ROUNDS} rounds."
    );
    println!("A release is of the last slice of the permutation that is held. A close only wipes.");
    println!("A shuffle is from random bytes, and at P 4096 throws {thrown} draws away.");
    println!("Times of one call in microseconds; ratios are of times in the same round.\n");
    println!("call              library    reference  library/reference");
    for (library, reference) in library.iter().zip(&reference) {
        let (name, ratio) = (library.name, library.ratio(reference));
        let (library, reference) = (library.microseconds(), reference.microseconds());
        println!("{name:<15} {library:>9.3} {reference:>12.3} {ratio:>18.3}");
    }

    println!(
        "\nThe library's calls beside its counter mode alone, over as many bytes in as many texts."
    );
    println!("                        B {B}                              B {SMALL_B}");
    println!("call                 call        alone   ratio         call        alone   ratio");
    let [large_blocks, small_blocks] = &multiples;
    for rows in large_blocks.iter().zip(small_blocks) {
        let columns = [rows.0, rows.1].map(|[call, alone]| {
            let (times, ratio) = ([call, alone].map(Measured::microseconds), call.ratio(alone));
            format!("{:>12.3} {:>12.3} {ratio:>7.3}", times[0], times[1])
        });
        println!("{:<14} {}", rows.0[0].name, columns.join(" "));
    }

    println!("\nA filling looks at {looks} places; each claim from place 0, at {LOOKS_FROM_0}.");
    for (name, ratio) in [
        ("format / copy of as many bytes", format_to_copy),
        // The same slices in the same order: IV blocks copied, texts and map blocks in counter mode.
        ("fill / stored by counter mode alone", fill_to_store),
        ("fill, each claim from place 0 / fill", from_0_to_fill),
        (
            "open P 4096 / P 256, library",
            ratio_of(&library, LARGE_OPEN, OPEN),
        ),
        (
            "open P 4096 / P 256, reference",
            ratio_of(&reference, LARGE_OPEN, OPEN),
        ),
        (
            "release P 4096 / P 256, library",
            ratio_of(&library, LARGE_RELEASE, RELEASE),
        ),
        (
            "release P 4096 / P 256, reference",
            ratio_of(&reference, LARGE_RELEASE, RELEASE),
        ),
        (
            "shuffle P 4096 / P 256, library",
            ratio_of(&library, LARGE_SHUFFLE, SHUFFLE),
        ),
        (
            "shuffle P 4096 / P 256, reference",
            ratio_of(&reference, LARGE_SHUFFLE, SHUFFLE),
        ),
    ] {
        println!("{name:<36} {ratio:.3}");
    }
}
