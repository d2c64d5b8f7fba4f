//! Two sticks compared: what lies above the opened volume has no influence.

use std::ops::Range;

use hiwalgam_reference::geometry::Geometry;
use hiwalgam_tests::inputs::{Guarded, Random};
use hiwalgam_tests::interface::{SERVED, UNMAPPED, VOLUMES};
use hiwalgam_tests::stick::Stick;

use crate::requests::request;
use crate::state::Call::{self, *};
use crate::state::{geometry, open_and_check, run_places, State};

/// A second stick that agrees with the first on the cells and headers 0 to k and on the slices that
/// those headers map, and on nothing else.
fn twin(random: &mut Random, stick: &Stick, k: usize) -> Stick {
    let geometry = stick.geometry;
    let counts = random.counts(geometry.p, VOLUMES);
    let mut other = Stick::random_with(random, geometry, &counts, geometry.p);
    for i in k + 1..VOLUMES {
        if random.once_in(2) {
            other.seal_cell(random, i, &stick.volumes[k].key);
        }
    }
    for (i, volume) in stick.volumes[..=k].iter().enumerate() {
        let slices = volume.map.iter().filter(|&&entry| entry != UNMAPPED);
        let slices = slices.map(|&slice| geometry.slice(slice as usize));
        for agreed in slices.chain([geometry.cell(i), geometry.header(i)]) {
            other.device[agreed.clone()].copy_from_slice(&stick.device[agreed]);
        }
    }
    other
}

/// Opens both sticks with the same arguments. The tables may hold different things before.
fn open_both(random: &mut Random, stick: &Stick, other: &Stick, k: usize) -> [State; 2] {
    let mut one = State::new(random, stick, k);
    let mut two = State {
        device: Guarded::new(&other.device),
        ..one.clone()
    };
    random.fill(&mut two.owners);
    two.maps.fill(random.word() as u32);
    open_and_check(&mut one, stick, k);
    open_and_check(&mut two, stick, k);
    [one, two]
}

/// Puts the call with the arguments in `one` to both, which must give the same. Returns the places
/// that it writes.
fn run_both(
    random: &mut Random,
    call: Call,
    one: &mut State,
    two: &mut State,
) -> Vec<Range<usize>> {
    two.tape = one.tape.clone();
    two.position = one.position;
    two.permutation = one.permutation.clone();
    two.target = one.target;
    two.logical = one.logical;
    two.text = one.text.clone();
    // A buffer to fill is alike in length only.
    two.buf = random.bytes(one.buf.len());
    let (answer, places) = run_places(call, one);
    assert_eq!(run_places(call, two), (answer, places.clone()));
    assert_eq!((one.position, one.found), (two.position, two.found));
    if call == Read && answer.answer == SERVED {
        assert!(one.buf == two.buf, "read data");
    }
    if call == Find && one.buf.len() >= one.found {
        assert!(one.buf[..one.found] == two.buf[..one.found], "found part");
    }
    places
}

/// Two sticks that agree as far as the key opens them give equal answers to one list of requests,
/// and hold equal bytes wherever it wrote.
fn compare_two_sticks(random: &mut Random, geometry: Geometry) {
    let volumes = 1 + random.below(VOLUMES);
    let k = random.below(volumes);
    let (counts, mapped) = (
        random.counts(geometry.p, volumes),
        random.below(geometry.p + 1),
    );
    let stick = Stick::random_with(random, geometry, &counts, mapped);
    let other = twin(random, &stick, k);
    let [mut one, mut two] = open_both(random, &stick, &other, k);
    let order = one.permutation.to_vec();

    let mut written = vec![false; stick.device.len()];
    for i in 0..30 {
        let mut call = request(random, &mut one, &order);
        if i > 20 && random.once_in(5) {
            call = Close;
        }
        for place in run_both(random, call, &mut one, &mut two) {
            written[place].fill(true);
        }
    }
    assert!(one.maps == two.maps && one.owners == two.owners);
    assert_eq!(one.session, two.session);
    for (i, &written) in written.iter().enumerate() {
        let held = (stick.device[i], other.device[i]);
        let holds = (one.device[i], two.device[i]);
        assert!(written || holds == held, "byte {i} is not written");
        assert!(!written || holds.0 == holds.1, "byte {i} is written");
    }
}

#[test]
fn two_sticks() {
    let mut random = Random::seeded();
    for _ in 0..250 {
        let (s, p) = (random.pick(&[1, 3, 4]), random.pick(&[1, 2, 4, 17]));
        compare_two_sticks(&mut random, geometry(1024, s, p));
    }
    compare_two_sticks(&mut random, geometry(1024, 3, 253));
    compare_two_sticks(&mut random, geometry(4096, 4, 17));
}
