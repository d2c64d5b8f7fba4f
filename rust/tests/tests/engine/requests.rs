//! Requests from the generator.

use hiwalgam_reference::geometry::{Geometry, IV};
use hiwalgam_tests::inputs::{Guarded, Random};
use hiwalgam_tests::interface::{Session, KEYS, UNMAPPED, VOLUMES};
use hiwalgam_tests::stick::format_need;

use crate::state::Call::{self, *};
use crate::state::{at, State};

/// A number that is 1,024 in 32 bits.
pub const WRAPS: usize = (1 << 32) + 1024;
pub const MAX: usize = usize::MAX;

/// Numbers at the edges of what is allowed, and of 32 and 64 bits.
#[rustfmt::skip]
pub const EDGES: [usize; 16] = [
    0, 1, 2, 4, 64, 65, 1023, 1024, 4096, 4097, 1 << 31, 1 << 32, WRAPS, 1 << 63, MAX - 15, MAX,
];

/// Numbers for a session that is closed: any but 1.
pub const CLOSED: [usize; 7] = [0, 2, 7, 255, 257, (1 << 32) + 1, MAX];

/// Sets the arguments of a request, some of them wrong, and returns its call. `order` is the
/// permutation of the opening, which most requests have too.
pub fn request(random: &mut Random, state: &mut State, order: &[u32]) -> Call {
    let Session { b, s, p, k, .. } = state.session;
    let wrong = |random: &mut Random| random.once_in(25);
    let volume = random.below(k + 1);
    let end = state.session.counts[volume] * s;
    // Half of the addresses are in the first slices, where requests meet.
    let bound = random.pick(&[end, end.min(2 * s + 2)]);
    state.target = at(volume, random.below(bound));
    if wrong(random) {
        state.target.volume = random.pick(&[k + 1, 14, 15, 1 << 32, MAX]);
    }
    if wrong(random) {
        let addresses = [end, end + 1, p * s - 1, p * s, p * s + 1, 1 << 32, MAX];
        state.target.address = random.pick(&addresses);
    }
    state.logical = logical_slice(random, state, volume);
    let len = |random: &mut Random| match random.once_in(25) {
        true => random.pick(&[0, 1, b - 1, b + 1, 5120 - b]),
        false => b,
    };
    let text_len = len(random);
    state.text = random.bytes(text_len);
    state.buf = Guarded::blank(len(random));

    state.permutation = match random.once_in(4) {
        true => permutation(random, p),
        false => Guarded::new(order),
    };
    if wrong(random) {
        state.permutation = state.permutation.resized(random.pick(&[0, p - 1, p + 1]));
    }
    let claim = b + IV;
    if state.position > state.tape.len() || state.tape.len() - state.position < claim {
        let len = 3 * b + random.below(40);
        state.new_tape(random, len);
        state.position = random.pick(&[0, 0, 7]);
    }
    if random.once_in(15) {
        let len = state.tape.len();
        let needs = [claim, claim - 1, b, b - 1, IV, IV - 1, 0].map(|need| len - need);
        let positions = needs.into_iter().chain([len + 1, MAX]);
        state.position = random.pick(&positions.collect::<Vec<usize>>());
    }
    random.pick(&[
        Write, Write, Write, Write, Write, Read, Read, Read, Find, Release, Release,
    ])
}

/// A logical slice of a volume to release: at least half of them are mapped, where the volume has any.
fn logical_slice(random: &mut Random, state: &State, volume: usize) -> usize {
    let (p, count) = (state.session.p, state.session.counts[volume]);
    if random.once_in(25) {
        return random.pick(&[count, count + 1, p - 1, p, p + 1, 1 << 32, MAX]);
    }
    let row = state.maps[volume * p..(volume + 1) * p].iter();
    let mapped = row.enumerate().filter(|(_, &entry)| entry != UNMAPPED);
    let mapped: Vec<usize> = mapped.map(|(logical, _)| logical).collect();
    match mapped.is_empty() || random.once_in(2) {
        true => random.below(count),
        false => random.pick(&mapped),
    }
}

/// A permutation, sometimes with an entry that is another's duplicate or no slice.
fn permutation(random: &mut Random, p: usize) -> Guarded<u32> {
    let mut permutation = random.permutation(p);
    if random.once_in(5) {
        let entry = random.below(p + 2) as u32;
        permutation[random.below(p)] = random.pick(&[entry, UNMAPPED, 1 << 31]);
    }
    Guarded::new(&permutation)
}

/// Makes one thing wrong, of whatever kind.
pub fn spoil(random: &mut Random, state: &mut State) {
    let edge = random.pick(&EDGES);
    let near = |random: &mut Random, len: usize| random.pick(&[0, len / 2, len + 1, 2 * len]);
    match random.below(33) {
        0 => state.session.b = edge,
        1 => state.session.s = edge,
        2 => state.session.p = edge,
        3 => state.session.k = random.pick(&[edge, 14, 15]),
        4 => state.session.open = random.pick(&CLOSED),
        5 => state.session.keys[random.below(KEYS)] ^= 1,
        6 => state.device = state.device.resized(near(random, state.device.len())),
        7 => state.maps = state.maps.resized(near(random, state.maps.len())),
        8 => state.owners = state.owners.resized(near(random, state.owners.len())),
        9 => state.permutation = state.permutation.resized(random.below(20)),
        10 => state.key = state.key.resized(near(random, state.key.len())),
        11 => state.text = state.text.resized(near(random, state.text.len())),
        12 => state.buf = state.buf.resized(near(random, state.buf.len())),
        13 => state.tape = state.tape.resized(near(random, state.tape.len())),
        14 => state.position = edge,
        15 => state.numbers[random.below(3)] = edge,
        16 => state.target.volume = edge,
        17 => state.target.address = edge,
        18 => random.fill(&mut state.owners),
        19 if !state.maps.is_empty() => {
            for _ in 0..4 {
                let entry = random.below(state.maps.len());
                state.maps[entry] = random.pick(&[0, 1, 4, 300, 4096, 1 << 31, UNMAPPED - 1]);
            }
        }
        20 => state.volumes = random.pick(&[edge, state.volumes.wrapping_add(1), 15, 16]),
        21 => state.keys = state.keys.resized(near(random, state.keys.len())),
        22 if state.keys.len() >= 64 => state.keys.copy_within(..32, 32),
        23 => {
            // A tape for a formatting, or one that is a byte too short for it.
            let [b, s, p] = state.numbers;
            let geometry = Geometry::new(b, s, p);
            let len = state.device.len();
            if let Some(geometry) = geometry.filter(|geometry| geometry.device_len() == len) {
                let need = format_need(geometry, state.volumes.min(VOLUMES));
                let short = random.below(2);
                state.new_tape(random, need - short);
            }
        }
        24 => {
            let p = state.session.p;
            let places = [0, 1, p / 2, p, p.wrapping_add(1), edge];
            state.session.start_place = random.pick(&places);
        }
        25 => {
            let p = state.session.p;
            let counts = [0, 1, p / 2, p, p.wrapping_add(1), edge];
            state.session.counts[random.below(VOLUMES)] = random.pick(&counts);
        }
        26 if !state.counts.is_empty() => {
            let p = state.numbers[2];
            let counts = [0, 1, p / 2, p, p.wrapping_add(1), edge];
            let volume = random.below(state.counts.len());
            state.counts[volume] = random.pick(&counts);
        }
        27 => state.counts = state.counts.resized(near(random, state.counts.len())),
        28 => {
            // Another number of volumes, with a count for each.
            state.volumes = random.pick(&[0, 1, 2, 15, 16, 17]);
            state.counts = Guarded::new(&vec![1; state.volumes]);
        }
        29 => {
            let p = state.session.p;
            state.logical = random.pick(&[edge, p.wrapping_sub(1), p, p.wrapping_add(1)]);
        }
        30 => {
            // FF FF is thrown away for every number of choices but the powers of two, 00 00 for none.
            let byte = random.pick(&[0, 0xff]);
            state.tape.fill(byte);
        }
        _ => {
            // Mostly in the master block and the headers.
            for _ in 0..4 {
                let bound = random.pick(&[1024, 9000, state.device.len()]);
                let bound = bound.min(state.device.len());
                if bound > 0 {
                    state.device[random.below(bound)] ^= 1 << random.below(8);
                }
            }
        }
    }
}
