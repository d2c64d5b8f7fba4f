//! Everything that can be wrong with a call, in the order in which it is to be refused.

use std::rc::Rc;

use hiwalgam::Refusal::{self, *};
use hiwalgam_reference::geometry::{Geometry, IV};
use hiwalgam_tests::inputs::{Guarded, Random};
use hiwalgam_tests::interface::{Session, UNMAPPED};
use hiwalgam_tests::stick::{format_need, Stick, Volume};

use crate::formatting::{vmk_of_two_keys, vmk_place};
use crate::requests::{CLOSED, MAX, WRAPS};
use crate::state::Call::{self, *};
use crate::state::{at, geometry, open_and_check, State};

/// Puts a fault with a value into the arguments of a call.
type Put = Rc<dyn Fn(&mut State, usize)>;

/// Something wrong with a call, and the refusal and the probes that it gives alone.
pub struct Fault {
    pub name: &'static str,
    pub value: usize,
    pub refusal: Refusal,
    pub probes: usize,
    put: Put,
}

impl Fault {
    pub fn put(&self, state: &mut State) {
        (self.put)(state, self.value);
    }
}

/// The faults of a call in the order in which they are to be tested. Where two set the same thing,
/// the earlier one is put last and stays.
#[derive(Default)]
pub struct Faults(pub Vec<Fault>);

impl Faults {
    /// Adds a fault for each value, without probes. `put` must not mind what another fault did.
    fn add<F>(&mut self, refusal: Refusal, name: &'static str, values: &[usize], put: F)
    where
        F: Fn(&mut State, usize) + 'static,
    {
        let put = Rc::new(put);
        self.0.extend(values.iter().map(|&value| Fault {
            name,
            value,
            refusal,
            probes: 0,
            put: put.clone(),
        }));
    }

    fn device(&mut self, len: usize) {
        let lengths = [len - 1, len + 1, 0];
        self.add(DeviceLength, "device", &lengths, |state, len| {
            state.device = state.device.resized(len);
        });
    }

    fn tables(&mut self, p: usize) {
        let lengths = [15 * p - 1, 15 * p + 1, p, 0];
        self.add(TableLength, "maps", &lengths, |state, len| {
            state.maps = state.maps.resized(len);
        });
        let lengths = [p - 1, p + 1, 15 * p, 0];
        self.add(TableLength, "owners", &lengths, |state, len| {
            state.owners = state.owners.resized(len);
        });
    }

    fn permutation(&mut self, p: usize) {
        let lengths = [p - 1, p + 1, 0];
        self.add(BadPermutation, "permutation", &lengths, |state, len| {
            state.permutation = state.permutation.resized(len);
        });
    }

    /// 5 for the permutation as a whole: another length, a slice twice, or a number that is no slice.
    fn whole_permutation(&mut self, base: &State, p: usize) {
        self.permutation(p);
        let first = base.permutation[0];
        let places = [1, p - 1];
        self.add(BadPermutation, "duplicate", &places, move |state, place| {
            set(&mut state.permutation, place, first);
        });
        let places = [0, p - 1];
        self.add(BadPermutation, "no slice", &places, move |state, place| {
            set(&mut state.permutation, place, p as u32);
        });
    }

    /// 20, 2 and 4, with which every request begins.
    fn lent(&mut self, base: &State) {
        let [b, s, p] = wrong_numbers(base.session.b);
        self.add(NotOpen, "open", &CLOSED, |state, n| state.session.open = n);
        self.add(NotOpen, "B", &b, |state, b| state.session.b = b);
        self.add(NotOpen, "S", &s, |state, s| state.session.s = s);
        self.add(NotOpen, "P", &p, |state, p| state.session.p = p);
        let k = [15, 256, 1 << 32, MAX];
        self.add(NotOpen, "k", &k, |state, k| state.session.k = k);
        let p = base.session.p;
        let places = [p + 1, 4097, 1 << 32, MAX];
        self.add(NotOpen, "start place", &places, |state, place| {
            state.session.start_place = place;
        });
        for volume in 0..=base.session.k {
            self.add(NotOpen, "count", &wrong_counts(p), move |state, count| {
                state.session.counts[volume] = count;
            });
        }
        // An allowed geometry, but of another stick.
        let s = base.session.s % 2 + 1;
        self.add(DeviceLength, "other S", &[s], |state, s| {
            state.session.s = s
        });
        self.device(base.device.len());
        self.tables(p);
    }

    /// 11.
    fn volume(&mut self, base: &State) {
        let volumes = [base.session.k + 1, 15, 256, 1 << 32, MAX];
        self.add(VolumeAbove, "volume", &volumes, |state, volume| {
            state.target.volume = volume;
        });
    }

    /// 11 and 12 for a block.
    fn target(&mut self, base: &State) {
        self.volume(base);
        let Session { s, p, counts, .. } = base.session;
        let end = counts[base.target.volume] * s;
        // Also the last address of a volume of P logical slices, where this one is shorter.
        let addresses = [end, end.max(p * s - 1), p * s, 1 << 32, MAX];
        self.add(AddressAbove, "address", &addresses, |state, address| {
            state.target.address = address;
        });
    }

    /// 11 and 12 for a logical slice.
    fn logical_slice(&mut self, base: &State) {
        self.volume(base);
        let Session { s, p, counts, .. } = base.session;
        let (volume, count) = (base.target.volume, counts[base.target.volume]);
        // The fifth is 0 in 32 bits, S times the sixth is below S in 64 bits, where S is not 1, and the
        // seventh of this volume is entry 0 in 64 bits.
        let block = MAX / s.max(2) + 1;
        let row = (volume * p).wrapping_neg();
        let numbers = [count, count.max(p - 1), p, 15 * p, 1 << 32, block, row, MAX];
        self.add(AddressAbove, "logical slice", &numbers, |state, logical| {
            state.logical = logical;
        });
    }

    /// 9 for the map entry at an index.
    fn entry(&mut self, base: &State, index: usize) {
        let entries = [base.session.p, 1 << 31, UNMAPPED as usize - 1];
        self.add(BadEntry, "entry", &entries, move |state, entry| {
            set(&mut state.maps, index, entry as u32);
        });
    }

    /// 9 for the map block that holds the entry at an index, which is in the volume's first: no slice at
    /// the entry, and at the first and the last of the block; at and past N a slice too.
    fn map_block(&mut self, base: &State, index: usize) {
        let Session { b, p, counts, .. } = base.session;
        let (row, n) = (index / p * p, counts[index / p]);
        let end = p.min((b - IV) / 4);
        assert!(index - row < end);
        for index in [index, row, row + end - 1] {
            self.entry(base, index);
        }
        for logical in [n, end - 1].into_iter().filter(|at| (n..end).contains(at)) {
            self.add(BadEntry, "slice", &[0, 2], move |state, slice| {
                set(&mut state.maps, row + logical, slice as u32);
            });
        }
    }

    /// 21.
    fn tape(&mut self, base: &State, need: usize) {
        let len = base.tape.len();
        let positions = [len - need + 1, len, len + 1, MAX - need + 1, MAX];
        self.add(TapeShort, "position", &positions, |state, position| {
            state.position = position;
        });
        self.add(TapeShort, "tape", &[need - 1, 0], |state, len| {
            state.tape = state.tape.resized(len);
        });
    }

    /// 1 for the geometry, with which a formatting, a shuffle and an opening begin.
    fn geometry(&mut self, base: &State) {
        for (field, numbers) in wrong_numbers(base.numbers[0]).iter().enumerate() {
            self.add(BadGeometry, "geometry", numbers, move |state, number| {
                state.numbers[field] = number;
            });
        }
    }

    /// 2 at a formatting and an opening.
    fn length(&mut self, base: &State) {
        // An allowed geometry, but of another stick.
        let s = base.numbers[1] % 2 + 1;
        self.add(DeviceLength, "other S", &[s], |state, s| {
            state.numbers[1] = s;
        });
        self.device(base.device.len());
    }

    /// 4 at a shuffle: a list of another length, and an allowed geometry of another number of slices.
    fn list(&mut self, p: usize) {
        // Each sets both, so that no two of them make up for each other.
        let lengths = [0, 1, p - 1, p + 1, 2 * p, 15 * p, 4097];
        self.add(TableLength, "list", &lengths, move |state, len| {
            state.numbers[2] = p;
            state.permutation = state.permutation.resized(len);
        });
        let others = [1, p - 1, p + 1, 4096];
        self.add(TableLength, "other P", &others, move |state, other| {
            state.numbers[2] = other;
            state.permutation = state.permutation.resized(p);
        });
    }

    /// 1 for the counts of a formatting of 3 volumes: each of them not allowed, or another number of
    /// them than of volumes.
    fn counts(&mut self, base: &State) {
        let (n, right) = (base.volumes, base.counts.to_vec());
        assert_eq!(n, 3);
        let mut cases = Vec::new();
        for (i, count) in wrong_counts(base.numbers[2]).into_iter().enumerate() {
            let mut counts = right.clone();
            counts[i % n] = count;
            cases.push((n, counts));
        }
        // The first and the last of the counts for more volumes than there can be.
        for i in [0, 15] {
            let mut counts = vec![1; 16];
            counts[i] = 0;
            cases.push((16, counts));
        }
        for (volumes, counts) in [(n, 0), (n, n - 1), (n, n + 1), (n, 16), (16, 0), (16, 15)] {
            cases.push((volumes, vec![1; counts]));
        }
        // The fourth is n in 32 bits, and 32 times the fifth is 32 n in 64 bits.
        for volumes in [0, n - 1, n + 1, n + (1 << 32), n + (1 << 59), 1 << 63, MAX] {
            cases.push((volumes, right.clone()));
        }
        // Each sets both, so that no two of them make up for each other.
        for (i, (volumes, counts)) in cases.into_iter().enumerate() {
            self.add(BadGeometry, "counts", &[i], move |state, _| {
                state.volumes = volumes;
                state.counts = Guarded::new(&counts);
            });
        }
    }

    /// 23 and 3 at a formatting of 3 volumes.
    fn keys(&mut self, base: &State) {
        let n = base.volumes;
        assert_eq!(n, 3);
        // With a count for each volume.
        let put = |state: &mut State, volumes: usize| {
            state.volumes = volumes;
            state.counts = Guarded::new(&vec![1; volumes]);
        };
        self.add(KeyCount, "volumes", &[0, 16, 17, 256 + n], put);
        let lengths = [0, 1, 32, 32 * n - 1, 32 * n + 1, 32 * (n + 2)];
        self.add(KeyLength, "keys", &lengths, |state, len| {
            state.keys = state.keys.resized(len);
        });
        self.add(KeyLength, "other volumes", &[n - 1, n + 1, 15], put);
    }

    /// 24: of each two keys the higher is that of the lower volume, or opens its cell although it is
    /// another.
    fn lower_cells(&mut self, base: &State) {
        for (i, j) in [(1, 0), (2, 0), (2, 1)] {
            let lower = base.keys[32 * j..32 * (j + 1)].to_vec();
            self.add(LowerCell, "same key", &[32 * i], move |state, start| {
                put(&mut state.keys, start, &lower);
            });
            let vmk = vmk_of_two_keys(base, j, i);
            let place = vmk_place(base, j).start;
            self.add(LowerCell, "two keys", &[place], move |state, place| {
                put(&mut state.tape, place, &vmk);
            });
        }
    }

    /// 1 to 5 at an opening.
    fn arguments_of_open(&mut self, base: &State) {
        let p = base.numbers[2];
        self.geometry(base);
        self.length(base);
        self.add(KeyLength, "key", &[0, 31, 33, 64], |state, len| {
            state.key = state.key.resized(len);
        });
        self.tables(p);
        self.whole_permutation(base, p);
    }

    /// 6: another key, or a cell that is damaged.
    fn cell(&mut self, base: &State, stick: &Stick) {
        let key = base.key.clone();
        self.add(NoCell, "other key", &[0, 31], move |state, i| {
            set(&mut state.key, i, key[i] ^ 1);
        });
        let start = stick.geometry.cell(1).start;
        let places = [start, start + 12, start + 59];
        self.add(NoCell, "cell", &places, damage);
    }

    /// 7 and 8 for header `i`.
    fn header(&mut self, random: &mut Random, stick: &Stick, i: usize) {
        let (Geometry { s, p, .. }, n) = (stick.geometry, stick.volumes[i].count());
        let start = stick.geometry.header(i).start;
        let places = [0, 12, 83, 99].map(|i| start + i);
        self.add(HeaderTag, "header", &places, damage);
        // The fourth is n in 24 bits.
        for numbers in [
            [0, s],
            [p + 1, s],
            [p + 256, s],
            [n + (1 << 24), s],
            [n, s + 1],
            [n, 0],
        ] {
            let mut other = stick.clone();
            other.volumes[i].numbers = numbers.map(|number| number as u32);
            other.seal_header(random, i);
            let header = other.device[start..start + 100].to_vec();
            self.add(
                HeaderGeometry,
                "numbers in header",
                &[i],
                move |state, _| put(&mut state.device, start, &header),
            );
        }
    }

    /// 9 and 10 for entries of a volume that are unmapped, in the order of reading: they become
    /// slice 2, which is held, or no slice; at and past N also a slice that is free.
    fn map(&mut self, stick: &Stick, volume: usize) {
        let (Geometry { b, p, .. }, n) = (stick.geometry, stick.volumes[volume].count());
        let mut entries = vec![(1, p as u32, BadEntry), (n - 1, 2, SliceTwice)];
        if n < p {
            entries.extend([(n, 2, BadEntry), (n, 0, BadEntry), (p - 1, 1, BadEntry)]);
        }
        entries.push((p - 1, UNMAPPED - 1, BadEntry));
        for (logical, entry, refusal) in entries {
            let in_block = stick.geometry.entries_in_block();
            let block = stick.geometry.maps(volume).start + b * (logical / in_block);
            let start = block + IV + 4 * (logical % in_block);
            let cipher = stick.device[start..start + 4].to_vec();
            let change = (entry ^ UNMAPPED).to_be_bytes();
            self.add(refusal, "entry", &[logical], move |state, _| {
                for i in 0..4 {
                    set(&mut state.device, start + i, cipher[i] ^ change[i]);
                }
            });
        }
    }

    fn of_format(base: &State, layout: Geometry) -> Self {
        let mut faults = Faults::default();
        faults.geometry(base);
        faults.counts(base);
        faults.length(base);
        faults.keys(base);
        faults.tape(base, format_need(layout, base.volumes));
        faults.lower_cells(base);
        faults
    }

    fn of_shuffle(base: &State) -> Self {
        let p = base.numbers[2];
        let mut faults = Faults::default();
        faults.geometry(base);
        faults.list(p);
        // Two bytes for each place but the first: with fewer it is short, whatever they are.
        faults.tape(base, 2 * (p - 1));
        // A draw of FF FF is thrown away where the number of choices is 3.
        faults.add(TapeShort, "all thrown away", &[0xff], |state, byte| {
            state.tape.fill(byte as u8);
        });
        faults
    }

    fn of_open(random: &mut Random, stick: &Stick, base: &State) -> Self {
        let mut faults = Faults::default();
        faults.arguments_of_open(base);
        faults.cell(base, stick);
        for i in [1, 0] {
            faults.header(random, stick, i);
        }
        for volume in 0..2 {
            faults.map(stick, volume);
        }
        faults
    }

    fn of_find(base: &State) -> Self {
        let mut faults = Faults::default();
        faults.lent(base);
        faults.target(base);
        faults.entry(base, base.entry());
        faults
    }

    fn of_read(base: &State) -> Self {
        let mut faults = Faults::default();
        faults.lent(base);
        faults.target(base);
        let lengths = wrong_lengths(base.session.b);
        faults.add(WrongLength, "buffer", &lengths, |state, len| {
            state.buf = state.buf.resized(len);
        });
        faults.entry(base, base.entry());
        faults
    }

    fn of_write(base: &State) -> Self {
        let (b, p, start) = (base.session.b, base.session.p, base.session.start_place);
        let claim = base.maps[base.entry()] == UNMAPPED;
        let mut faults = Faults::default();
        faults.lent(base);
        faults.permutation(p);
        faults.target(base);
        faults.add(WrongLength, "text", &wrong_lengths(b), |state, len| {
            state.text = state.text.resized(len);
        });
        if claim {
            faults.map_block(base, base.entry());
            // A place before the start is not looked at.
            let places = &[0, 1, 2][start..];
            faults.add(BadPermutation, "place", places, move |state, place| {
                let no_slice = [p as u32, UNMAPPED, 1 << 31][place];
                set(&mut state.permutation, place, no_slice);
            });
            let owners = [1, 15, 16, 255];
            faults.add(NoFreeSlice, "all held", &owners, |state, owner| {
                state.owners.fill(owner as u8);
            });
            faults.tape(base, b + IV);
        } else {
            faults.entry(base, base.entry());
            faults.tape(base, IV);
        }
        for fault in &mut faults.0 {
            fault.probes = match fault.name {
                "place" => fault.value + 1 - start,
                "all held" => p - start,
                "position" | "tape" if claim => 3 - start,
                _ => 0,
            };
        }
        faults
    }

    fn of_release(base: &State) -> Self {
        let (p, index) = (base.session.p, base.released_entry());
        let mut faults = Faults::default();
        faults.lent(base);
        faults.whole_permutation(base, p);
        faults.logical_slice(base);
        faults.map_block(base, index);
        faults.add(SliceUnmapped, "unmapped", &[index], |state, index| {
            set(&mut state.maps, index, UNMAPPED);
        });
        faults.tape(base, IV);
        faults
    }

    fn of_close(base: &State) -> Self {
        let mut faults = Faults::default();
        faults.lent(base);
        faults
    }
}

/// Makes a byte of the device, where there is one, another than it is.
fn damage(state: &mut State, i: usize) {
    if let Some(byte) = state.device.get_mut(i) {
        *byte ^= 0x10;
    }
}

/// Sets an element, where there is one.
fn set<T>(elements: &mut [T], index: usize, value: T) {
    if let Some(element) = elements.get_mut(index) {
        *element = value;
    }
}

/// Sets elements from `start` on, where there are any.
fn put<T: Copy>(elements: &mut [T], start: usize, values: &[T]) {
    for (i, &value) in values.iter().enumerate() {
        set(elements, start + i, value);
    }
}

/// Values of B, S and P that are not allowed.
fn wrong_numbers(b: usize) -> [Vec<usize>; 3] {
    [
        vec![0, 1, b - 1, b + 1, 2048, WRAPS, MAX],
        vec![0, b / 16 + 1, WRAPS, MAX],
        vec![0, 4097, WRAPS, MAX],
    ]
}

/// Counts of logical slices that are not allowed. The last but one is 1 in 32 bits.
pub fn wrong_counts(p: usize) -> [usize; 6] {
    [0, p + 1, 4097, 1 << 32, (1 << 32) + 1, MAX]
}

/// Lengths that a buffer for a block must not have.
fn wrong_lengths(b: usize) -> [usize; 4] {
    [0, b - 1, b + 1, 5120 - b]
}

/// Runs a test on sticks of several geometries and counts, which `state` opens at volume 1 of 3. Volume
/// 0 maps its logical slice 0 to slice 2, volume 1 to slice 3, and no other.
pub fn with_sticks(mut test: impl FnMut(&mut Random, &Stick, State)) {
    let mut random = Random::seeded();
    for (b, s, p, counts) in [
        (1024, 4, 4, [4, 4, 4]),
        (1024, 3, 17, [2, 11, 1]),
        (1024, 1, 253, [253, 252, 253]),
        (4096, 2, 5, [4, 3, 5]),
    ] {
        let layout = geometry(b, s, p);
        let mut volumes = counts.map(|n| Volume::new(&mut random, layout).with_count(n));
        volumes[0].map[0] = 2;
        volumes[1].map[0] = 3;
        let stick = Stick::new(&mut random, layout, volumes.to_vec());
        let state = State::new(&mut random, &stick, 1);
        test(&mut random, &stick, state);
    }
}

/// The slices in order, but 2 and 3 first, which are held: a claim takes the third place, and an
/// opening sets the start place to 2.
pub fn held_first(p: usize) -> Guarded<u32> {
    let mut slices: Vec<u32> = (0..p as u32).collect();
    slices.rotate_left(2);
    Guarded::new(&slices)
}

/// Runs a test on these sticks, with arguments for which the call is served, and with its faults.
pub fn with_faults(call: Call, mut test: impl FnMut(&mut Random, &State, &Faults)) {
    with_sticks(|random, stick, mut base| {
        let Geometry { s, p, .. } = stick.geometry;
        if call == Format {
            // Some bytes of the tape are used, and some are left over.
            base.new_tape(random, format_need(stick.geometry, base.volumes) + 24);
            base.position = 17;
            let faults = Faults::of_format(&base, stick.geometry);
            return test(random, &base, &faults);
        }
        if call == Shuffle {
            // Some bytes of the tape are used, and as many again are left as where no draw is thrown away.
            base.tape = random.bytes(17 + 4 * (p - 1));
            base.position = 17;
            let faults = Faults::of_shuffle(&base);
            return test(random, &base, &faults);
        }
        if call == Open {
            let faults = Faults::of_open(random, stick, &base);
            return test(random, &base, &faults);
        }
        base.permutation = held_first(p);
        open_and_check(&mut base, stick, 1);
        assert_eq!(base.session.start_place, 2);
        if call == Close {
            let faults = Faults::of_close(&base);
            return test(random, &base, &faults);
        }
        if call == Release {
            // The slice stands at place 1: before the start place, at it and behind it.
            base.target.volume = 1;
            for start in [2, 1, 0] {
                base.session.start_place = start;
                let faults = Faults::of_release(&base);
                test(random, &base, &faults);
            }
            return;
        }
        // A mapped block and an unmapped one; a claim also from the places before.
        for (address, start) in [(s - 1, 2), (s, 2), (s, 1), (s, 0)] {
            base.target = at(1, address);
            base.session.start_place = start;
            let faults = match call {
                Read => Faults::of_read(&base),
                Find => Faults::of_find(&base),
                _ => Faults::of_write(&base),
            };
            if start == 2 || call == Write {
                test(random, &base, &faults);
            }
        }
    });
}
