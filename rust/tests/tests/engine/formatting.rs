//! Formatting: the devices that it makes, what opens on them, and keys that open a cell of another
//! volume.

use std::collections::{BTreeSet, HashMap};
use std::ops::Range;

use hiwalgam::Refusal::{BadGeometry, HeaderTag, KeyCount, LowerCell, TapeShort};
use hiwalgam_reference::aes::RoundKeys;
use hiwalgam_reference::geometry::{Geometry, IV};
use hiwalgam_reference::{ctr, gcm};
use hiwalgam_tests::adapters::CFunctions;
use hiwalgam_tests::inputs::{Guarded, Random};
use hiwalgam_tests::interface::{Engine, Tape, SERVED, VOLUMES};
use hiwalgam_tests::stick::{format_need, Stick, Volume};

use crate::requests::spoil;
use crate::scenarios::Model;
use crate::start_places::write_text;
use crate::state::Call::*;
use crate::state::{at, geometry, open_and_check, run, State};

// ---- places on the tape

/// The tape bytes that become VMK `i` of a formatting with these arguments. VEK `i` follows.
pub fn vmk_place(state: &State, i: usize) -> Range<usize> {
    let start = state.position + state.device.len() + 64 * i;
    start..start + 32
}

/// The tape bytes that become the IV of cell `i`.
fn cell_iv_place(state: &State, i: usize) -> Range<usize> {
    let start = state.position + state.device.len() + 64 * state.volumes + 12 * i;
    start..start + 12
}

// ---- arguments

/// Arguments that format a device of random bytes with so many random keys and counts. The tape is as
/// long as the formatting needs, behind `used` bytes.
fn arguments(random: &mut Random, layout: Geometry, volumes: usize, used: usize) -> State {
    let counts = random.counts(layout.p, volumes);
    arguments_with(random, layout, &counts, used)
}

/// The same with these counts.
pub fn arguments_with(
    random: &mut Random,
    layout: Geometry,
    counts: &[usize],
    used: usize,
) -> State {
    let volumes = counts.iter();
    let volumes = volumes.map(|&count| Volume::new(random, layout).with_count(count));
    let stick = Stick {
        geometry: layout,
        volumes: volumes.collect(),
        device: random.bytes(layout.device_len()).to_vec(),
        texts: HashMap::new(),
    };
    let mut state = State::new(random, &stick, 0);
    state.new_tape(random, used + format_need(layout, counts.len()));
    state.position = used;
    state
}

/// Formats, which must be served and use the whole tape, and tests what is sealed.
pub fn format(state: &mut State) -> Stick {
    let ([b, s, p], start) = (state.numbers, state.position);
    assert_eq!(run(Format, state), SERVED);
    assert_eq!(state.position, state.tape.len());
    let (layout, tape) = (geometry(b, s, p), &state.tape[start..]);
    let stick = Stick::formatted(layout, &state.keys, &state.counts, tape, &state.device);
    for i in 0..state.volumes {
        check_sealed(&stick, i);
    }
    stick
}

/// Tests the texts in the cell, the header and the map of volume `i` by the keys on the tape.
fn check_sealed(stick: &Stick, i: usize) {
    let layout = stick.geometry;
    let volume = &stick.volumes[i];
    let open = |key, aad: usize, start: usize, len: usize| {
        let (iv, rest) = stick.device[start..].split_at(12);
        let (cipher, rest) = rest.split_at(len);
        let (mut text, tag) = (vec![0; len], rest[..16].try_into().unwrap());
        assert!(gcm::decrypt(key, iv, &[aad as u8], cipher, tag, &mut text));
        text
    };
    let vmk = open(&volume.key, i, layout.cell(i).start, 32);
    assert!(vmk == volume.vmk, "cell {i}");
    let header = open(&volume.vmk, 16 + i, layout.header(i).start, 72);
    let below = match i {
        0 => [0; 32],
        _ => stick.volumes[i - 1].vmk,
    };
    let numbers = volume.numbers.map(u32::to_be_bytes);
    let text = [&volume.vek[..], &below, numbers.as_flattened()].concat();
    assert!(header == text, "header {i}");
    for block in stick.device[layout.maps(i)].chunks(layout.b) {
        let (iv, cipher) = block.split_at(IV);
        let mut entries = cipher.to_vec();
        ctr::apply(&volume.vek, iv.try_into().unwrap(), &mut entries);
        assert!(entries.iter().all(|&byte| byte == 0xff), "map {i}");
    }
}

/// Opens with the key of volume `k`, which must open that volume, and all of it empty.
pub fn open(state: &mut State, stick: &Stick, k: usize) {
    state.key = Guarded::new(&stick.volumes[k].key);
    open_and_check(state, stick, k);
}

// ---- devices

/// Formats with one byte of the tape too few, and then with enough; then opens with each key, but of
/// a long device, which takes its time, with the first and the last alone.
fn check_device(random: &mut Random, layout: Geometry, count: usize) {
    let used = random.pick(&[0, 1, 7, 16]);
    let mut state = arguments(random, layout, count, used);
    let mut short = state.clone();
    short.tape = short.tape.resized(state.tape.len() - 1);
    assert_eq!(run(Format, &mut short), Err(TapeShort));
    short = state.clone();
    short.position += 1;
    assert_eq!(run(Format, &mut short), Err(TapeShort));

    let stick = format(&mut state);
    state.new_tape(random, 0);
    let step = match state.device.len() {
        0..1_000_000 => 1,
        _ => count.max(2) - 1,
    };
    for k in (0..count).step_by(step) {
        open(&mut state, &stick, k);
    }
}

#[test]
fn devices_of_small_geometries() {
    let mut random = Random::seeded();
    for b in [1024, 4096] {
        for s in [1, b / 16] {
            for p in 1..=4 {
                for count in 1..=VOLUMES {
                    check_device(&mut random, geometry(b, s, p), count);
                }
            }
        }
    }
}

/// One map block, filled, and one entry more; several map blocks.
#[test]
fn devices_of_larger_geometries() {
    let mut random = Random::seeded();
    for (b, p) in [(1024, 252), (1024, 253), (4096, 1020), (4096, 1021)] {
        for count in [1, 2, 3, 8, VOLUMES] {
            check_device(&mut random, geometry(b, 1, p), count);
        }
    }
    for (b, s, p) in [(1024, 64, 252), (1024, 64, 253), (1024, 1, 4096)] {
        check_device(&mut random, geometry(b, s, p), VOLUMES);
    }
    check_device(&mut random, geometry(4096, 1, 4096), 2);
}

/// As many volumes as keys and counts, and numbers of volumes whose keys take no byte more in 64 bits.
#[test]
fn numbers_of_volumes() {
    let mut random = Random::seeded();
    let layout = geometry(1024, 4, 4);
    for keys in 0..=17 {
        for volumes in [keys, keys + (1 << 59), keys + (1 << 61), keys + (1 << 63)] {
            let mut state = arguments(&mut random, layout, 15, 0);
            state.new_tape(&mut random, format_need(layout, 17));
            state.keys = random.bytes(32 * keys);
            state.counts = Guarded::new(&random.counts(layout.p, keys));
            state.volumes = volumes;
            let answer = match volumes {
                1..=15 => SERVED,
                0 | 16 | 17 => Err(KeyCount),
                _ => Err(BadGeometry),
            };
            assert_eq!(
                run(Format, &mut state),
                answer,
                "{keys} keys, {volumes} volumes"
            );
        }
    }
}

#[test]
fn old_bytes_have_no_influence() {
    let mut random = Random::seeded();
    for (b, s, p) in [(1024, 4, 4), (1024, 1, 253), (4096, 2, 5)] {
        let mut state = arguments(&mut random, geometry(b, s, p), 5, 3);
        let before = state.clone();
        let stick = format(&mut state);
        let blank = Guarded::new(&vec![0; before.device.len()]);
        for device in [blank, random.bytes(before.device.len()), state.device] {
            let mut other = State {
                device,
                ..before.clone()
            };
            assert_eq!(run(Format, &mut other), SERVED);
            assert!(other.device[..] == stick.device, "device");
        }
    }
}

/// What a call only reads may be the same memory: here the keys are bytes of the tape.
#[test]
fn keys_and_tape_may_overlap() {
    let mut random = Random::seeded();
    let mut apart = arguments(&mut random, geometry(1024, 4, 4), 2, 0);
    apart.keys = Guarded::new(&apart.tape[100..164]);
    let mut device = apart.device.clone();
    format(&mut apart);

    let mut tape = Tape {
        bytes: &apart.tape,
        position: 0,
    };
    let (numbers, keys) = (apart.numbers, &tape.bytes[100..164]);
    let counts = &apart.counts;
    let together = CFunctions.format(&mut device, numbers, 2, keys, counts, &mut tape);
    assert_eq!((together, tape.position), (SERVED, apart.position));
    assert!(device == apart.device, "device");
}

// ---- sessions afterwards

/// Each key in turn opens its volume and those below, which hold what was written under the keys
/// before it and else zeros, and writes there.
#[test]
fn sessions_on_a_blank_stick() {
    let mut random = Random::seeded();
    for (b, s, p) in [(1024, 3, 17), (1024, 1, 253), (4096, 2, 16)] {
        let mut state = arguments(&mut random, geometry(b, s, p), VOLUMES, 0);
        let stick = format(&mut state);
        let mut model = Model::new(&stick);
        for k in 0..VOLUMES {
            state.key = Guarded::new(&stick.volumes[k].key);
            assert_eq!(run(Open, &mut state), SERVED);
            assert_eq!(state.session.k, k);
            if p < 100 || k % 7 == 0 {
                model.check_all(&mut state);
            }
            // A claim in volume k, and a second write, which may be to a lower volume.
            for volume in [k, random.below(k + 1)] {
                state.target = at(volume, 5 % (s * state.session.counts[volume]));
                let answer = write_text(&mut random, &mut state);
                assert_eq!(answer.answer, SERVED);
                model.served(Write, &state, answer);
            }
            // The next key opens the stick, whether this session was closed or not.
            if random.once_in(2) {
                assert_eq!(run(Close, &mut state), SERVED);
            }
        }
        for k in [0, 7, VOLUMES - 1] {
            state.key = Guarded::new(&stick.volumes[k].key);
            assert_eq!(run(Open, &mut state), SERVED);
            model.check_all(&mut state);
        }
    }
}

// ---- keys that open the cell of another volume

/// One key's part in a cell: the hash subkey, the block that masks the tag, and the keystream.
struct CellKey {
    h: u128,
    mask: u128,
    keystream: [u128; 2],
}

impl CellKey {
    /// Key `i`, with the IV of cell `j`.
    fn new(state: &State, i: usize, j: usize) -> Self {
        let keys = RoundKeys::new(state.keys[32 * i..32 * (i + 1)].try_into().unwrap());
        let encrypt = |block: u128| u128::from_be_bytes(keys.encrypt(block.to_be_bytes()));
        let mut iv = [0; 16];
        iv[..12].copy_from_slice(&state.tape[cell_iv_place(state, j)]);
        let iv = u128::from_be_bytes(iv);
        CellKey {
            h: encrypt(0),
            mask: encrypt(iv + 1),
            keystream: [encrypt(iv + 2), encrypt(iv + 3)],
        }
    }
}

fn power(x: u128, exponent: u32) -> u128 {
    (1..exponent).fold(x, |product, _| gcm::multiply(product, x))
}

/// 1 / x in GF(2^128), which is x^(2^128 - 2), where 2^128 - 2 = 2 + 4 + .. + 2^127.
fn inverse(x: u128) -> u128 {
    let squares = (1..128).scan(x, |square, _| {
        *square = gcm::multiply(*square, *square);
        Some(*square)
    });
    squares.reduce(gcm::multiply).unwrap()
}

/// A VMK that makes cell `j`, sealed under its own key, open under key `i` too, which differs.
///
/// GCM does not commit to its key. The tag of a cell with ciphertext blocks C1 and C2 is
/// A H^4 + C1 H^3 + C2 H^2 + L H + mask, where A is the associated data and L the lengths in bits.
/// For any C1 there is one C2 for which the tags under both keys are equal.
pub fn vmk_of_two_keys(state: &State, j: usize, i: usize) -> [u8; 32] {
    let (own, other) = (CellKey::new(state, j, j), CellKey::new(state, i, j));
    let sum = |exponent| power(own.h, exponent) ^ power(other.h, exponent);
    let (a, lengths, c1) = ((j as u128) << 120, (8 << 64) | 256, 0x0123_4567_89ab_cdef);
    let products = [(a, 4), (c1, 3), (lengths, 1)].map(|(x, n)| gcm::multiply(x, sum(n)));
    let rest = products.iter().fold(own.mask ^ other.mask, |x, y| x ^ y);
    let c2 = gcm::multiply(rest, inverse(sum(2)));
    let [first, second] = own.keystream;
    let vmk = [c1 ^ first, c2 ^ second].map(u128::to_be_bytes);
    vmk.as_flattened().try_into().unwrap()
}

/// Arguments with 15 keys in which key `i` opens cell `j` beside key `j`.
fn two_keys(random: &mut Random, j: usize, i: usize) -> State {
    let mut state = arguments(random, geometry(1024, 1, 2), VOLUMES, 5);
    let vmk = vmk_of_two_keys(&state, j, i);
    let place = vmk_place(&state, j);
    state.tape[place].copy_from_slice(&vmk);
    state
}

/// Every key that opens the cell of a lower volume is refused: one that is that volume's own, and
/// one that is not, since a cell can be made to open under two keys.
#[test]
fn keys_that_open_a_lower_cell() {
    let mut random = Random::seeded();
    for i in 0..VOLUMES {
        for j in 0..i {
            let mut same = arguments(&mut random, geometry(1024, 1, 2), VOLUMES, 5);
            same.keys.copy_within(32 * j..32 * (j + 1), 32 * i);
            assert_eq!(run(Format, &mut same), Err(LowerCell), "keys {i} and {j}");

            let mut other = two_keys(&mut random, j, i);
            assert_eq!(run(Format, &mut other), Err(LowerCell), "{i} opens {j}");
            // Another VMK, and nothing is wrong.
            let place = vmk_place(&other, j);
            other.tape[place.start] ^= 1;
            format(&mut other);
        }
    }
}

/// A key that opens the cell of a higher volume too is served, and opens its own.
#[test]
fn keys_that_open_a_higher_cell() {
    let mut random = Random::seeded();
    for j in 0..VOLUMES {
        for i in 0..j {
            let mut state = two_keys(&mut random, j, i);
            let stick = format(&mut state);
            open(&mut state, &stick, i);
            open(&mut state, &stick, j);
            // Without its own cell, key i opens the other one.
            state.device[stick.geometry.cell(i)].fill(0);
            state.key = Guarded::new(&stick.volumes[i].key);
            assert_eq!(run(Open, &mut state), Err(HeaderTag), "{i} opens {j}");
        }
    }
}

// ---- any arguments

/// Arguments with up to three things wrong. Every answer comes up.
#[test]
fn any_formatting() {
    let mut random = Random::seeded();
    let mut answers = BTreeSet::new();
    for _ in 0..2000 {
        let layout = random.pick(&[(1024, 1, 1), (1024, 4, 4), (1024, 1, 17), (4096, 1, 2)]);
        let layout = geometry(layout.0, layout.1, layout.2);
        let (count, used) = (1 + random.below(VOLUMES), random.below(20));
        let mut state = arguments(&mut random, layout, count, used);
        for _ in 0..random.below(4) {
            spoil(&mut random, &mut state);
        }
        let answer = run(Format, &mut state);
        answers.insert(answer.map_or_else(|refusal| refusal.number(), |()| 0));
    }
    assert_eq!(answers, BTreeSet::from([0, 1, 2, 3, 21, 23, 24]));
}
