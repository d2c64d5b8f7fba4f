//! The C functions, with every struct as bytes between guards.
//!
//! A struct is laid out here by its bytes, as the header describes it, so that the layout is tested
//! too. An empty list is handed over as null.

use std::ptr;

use hiwalgam::sys::{self, SESSION_BYTES, WRITTEN_BYTES};
use hiwalgam::Refusal;

use crate::inputs::{Element, Guarded};
use crate::interface::{
    Answer, Ciphers, Engine, Session, Tables, Tape, Target, Written, KEYS, SERVED, VOLUMES,
};

#[derive(Debug)]
pub struct CFunctions;

/// Where the keys and the counts of a session begin in its bytes.
pub const KEYS_START: usize = 48;
pub const COUNTS_START: usize = KEYS_START + KEYS;
const _: () = assert!(COUNTS_START + 8 * VOLUMES == SESSION_BYTES);

/// The memory of a struct, and the size that is handed over with its address. The address is null
/// where there is no memory.
#[derive(Clone, PartialEq)]
pub struct Record {
    bytes: Guarded,
    size: usize,
}

impl Record {
    /// A struct of all these bytes.
    pub fn new(bytes: &[u8]) -> Self {
        Record {
            bytes: Guarded::new(bytes),
            size: bytes.len(),
        }
    }

    /// A struct that is to be written.
    pub fn blank(size: usize) -> Self {
        Record::new(&Guarded::blank(size))
    }

    /// The same memory under a smaller size.
    pub fn cut(&self, size: usize) -> Self {
        assert!(size <= self.bytes.len());
        let bytes = self.bytes.clone();
        Record { bytes, size }
    }

    pub fn geometry(numbers: [usize; 3]) -> Self {
        Record::new(numbers.map(usize::to_le_bytes).as_flattened())
    }

    pub fn session(session: &Session) -> Self {
        let &Session {
            b,
            s,
            p,
            k,
            open,
            start_place,
            ..
        } = session;
        let numbers = [b, s, p, k, open, start_place].map(usize::to_le_bytes);
        let counts = session.counts.map(usize::to_le_bytes);
        let parts = [numbers.as_flattened(), &session.keys, counts.as_flattened()];
        Record::new(&parts.concat())
    }

    pub fn bytes(&self) -> &[u8] {
        &self.bytes
    }

    pub fn size(&self) -> usize {
        self.size
    }

    /// The numbers that stand from a byte on.
    fn numbers<const N: usize>(&self, start: usize) -> [usize; N] {
        assert!(self.bytes.is_intact(), "the guards of a struct");
        let (numbers, _) = self.bytes[start..].as_chunks();
        std::array::from_fn(|i| usize::from_le_bytes(numbers[i]))
    }

    fn to_session(&self) -> Session {
        let [b, s, p, k, open, start_place] = self.numbers(0);
        Session {
            b,
            s,
            p,
            k,
            open,
            start_place,
            keys: self.bytes[KEYS_START..COUNTS_START].try_into().unwrap(),
            counts: self.numbers(COUNTS_START),
        }
    }

    fn to_written(&self, answer: Answer) -> Written {
        let [claimed, slice, probes] = self.numbers(0);
        Written {
            answer,
            claimed,
            slice,
            probes,
        }
    }

    fn start<T>(&self) -> *const T {
        start(&self.bytes).cast()
    }

    fn start_mut<T>(&mut self) -> *mut T {
        start_mut(&mut self.bytes).cast()
    }
}

fn start<T>(elements: &[T]) -> *const T {
    match elements {
        [] => ptr::null(),
        _ => elements.as_ptr(),
    }
}

fn start_mut<T>(elements: &mut [T]) -> *mut T {
    match elements {
        [] => ptr::null_mut(),
        _ => elements.as_mut_ptr(),
    }
}

/// What a C function answered by its number.
pub fn answer(number: u8) -> Answer {
    match number {
        0 => SERVED,
        _ => Err(Refusal::from_number(number).unwrap_or_else(|| panic!("answer {number}"))),
    }
}

// In each call every pointer and the length after it come from one list or struct, which is borrowed
// until the call returns, mutably where the call writes. A record's size is at most its memory's.

/// `hiwalgam_format`.
#[rustfmt::skip]
pub fn format(
    device: &mut [u8],
    geometry: &Record,
    volumes: usize,
    keys: &[u8],
    counts: &[usize],
    tape: &mut Tape,
) -> Answer {
    let mut position = Guarded::new(&[tape.position]);
    // SAFETY: each pointer goes with a length for which it is valid.
    let number = unsafe {
        sys::hiwalgam_format(
            start_mut(device), device.len(),
            geometry.start(), geometry.size,
            volumes, start(keys), keys.len(),
            start(counts).cast(), counts.len(),
            start(tape.bytes), tape.bytes.len(), start_mut(&mut position),
        )
    };
    assert!(position.is_intact(), "the guards of the position");
    tape.position = position[0];
    answer(number)
}

/// `hiwalgam_shuffle`.
#[rustfmt::skip]
pub fn shuffle(geometry: &Record, permutation: &mut [u32], tape: &mut Tape) -> Answer {
    let mut position = Guarded::new(&[tape.position]);
    // SAFETY: each pointer goes with a length for which it is valid.
    let number = unsafe {
        sys::hiwalgam_shuffle(
            geometry.start(), geometry.size,
            start_mut(permutation), permutation.len(),
            start(tape.bytes), tape.bytes.len(), start_mut(&mut position),
        )
    };
    assert!(position.is_intact(), "the guards of the position");
    tape.position = position[0];
    answer(number)
}

/// `hiwalgam_open`.
#[rustfmt::skip]
pub fn open(
    device: &[u8],
    geometry: &Record,
    key: &[u8],
    tables: &mut Tables,
    permutation: &[u32],
    session: &mut Record,
) -> Answer {
    // SAFETY: each pointer goes with a length for which it is valid.
    answer(unsafe {
        sys::hiwalgam_open(
            start(device), device.len(),
            geometry.start(), geometry.size,
            start(key), key.len(),
            start_mut(tables.maps), tables.maps.len(),
            start_mut(tables.owners), tables.owners.len(),
            start(permutation), permutation.len(),
            session.start_mut(), session.size,
        )
    })
}

/// `hiwalgam_read`.
#[rustfmt::skip]
pub fn read(
    device: &[u8],
    tables: &Tables,
    session: &Record,
    target: Target,
    buf: &mut [u8],
) -> Answer {
    // SAFETY: each pointer goes with a length for which it is valid.
    answer(unsafe {
        sys::hiwalgam_read(
            start(device), device.len(),
            start(tables.maps), tables.maps.len(),
            start(tables.owners), tables.owners.len(),
            session.start(), session.size,
            target.volume as u64, target.address as u64,
            start_mut(buf), buf.len(),
        )
    })
}

/// `hiwalgam_find`.
#[rustfmt::skip]
pub fn find(
    device: &[u8],
    tables: &Tables,
    session: &Record,
    target: Target,
    out: &mut [u8],
) -> usize {
    // SAFETY: each pointer goes with a length for which it is valid.
    unsafe {
        sys::hiwalgam_find(
            start(device), device.len(),
            start(tables.maps), tables.maps.len(),
            start(tables.owners), tables.owners.len(),
            session.start(), session.size,
            target.volume as u64, target.address as u64,
            start_mut(out), out.len(),
        )
    }
}

/// `hiwalgam_write`.
#[rustfmt::skip]
#[allow(clippy::too_many_arguments)]
pub fn write(
    device: &mut [u8],
    tables: &mut Tables,
    permutation: &[u32],
    tape: &mut Tape,
    session: &mut Record,
    target: Target,
    text: &[u8],
    written: &mut Record,
) -> Answer {
    let mut position = Guarded::new(&[tape.position]);
    // SAFETY: each pointer goes with a length for which it is valid.
    let number = unsafe {
        sys::hiwalgam_write(
            start_mut(device), device.len(),
            start_mut(tables.maps), tables.maps.len(),
            start_mut(tables.owners), tables.owners.len(),
            start(permutation), permutation.len(),
            start(tape.bytes), tape.bytes.len(), start_mut(&mut position),
            session.start_mut(), session.size,
            target.volume as u64, target.address as u64,
            start(text), text.len(),
            written.start_mut(), written.size,
        )
    };
    assert!(position.is_intact(), "the guards of the position");
    tape.position = position[0];
    answer(number)
}

/// `hiwalgam_release`.
#[rustfmt::skip]
#[allow(clippy::too_many_arguments)]
pub fn release(
    device: &mut [u8],
    tables: &mut Tables,
    permutation: &[u32],
    tape: &mut Tape,
    session: &mut Record,
    volume: usize,
    logical: usize,
    slice: &mut usize,
) -> Answer {
    let mut position = Guarded::new(&[tape.position]);
    let mut freed = Guarded::new(&[*slice]);
    // SAFETY: each pointer goes with a length for which it is valid.
    let number = unsafe {
        sys::hiwalgam_release(
            start_mut(device), device.len(),
            start_mut(tables.maps), tables.maps.len(),
            start_mut(tables.owners), tables.owners.len(),
            start(permutation), permutation.len(),
            start(tape.bytes), tape.bytes.len(), start_mut(&mut position),
            session.start_mut(), session.size,
            volume as u64, logical as u64, start_mut(&mut freed).cast(),
        )
    };
    assert!(position.is_intact(), "the guards of the position");
    assert!(freed.is_intact(), "the guards of the slice");
    tape.position = position[0];
    *slice = freed[0];
    answer(number)
}

/// `hiwalgam_close`.
#[rustfmt::skip]
pub fn close(device: &[u8], tables: &mut Tables, session: &mut Record) -> Answer {
    // SAFETY: each pointer goes with a length for which it is valid.
    answer(unsafe {
        sys::hiwalgam_close(
            start(device), device.len(),
            start_mut(tables.maps), tables.maps.len(),
            start_mut(tables.owners), tables.owners.len(),
            session.start_mut(), session.size,
        )
    })
}

impl Engine for CFunctions {
    fn format(
        &self,
        device: &mut [u8],
        numbers: [usize; 3],
        volumes: usize,
        keys: &[u8],
        counts: &[usize],
        tape: &mut Tape,
    ) -> Answer {
        let geometry = Record::geometry(numbers);
        let answer = format(device, &geometry, volumes, keys, counts, tape);
        assert!(
            geometry == Record::geometry(numbers),
            "the geometry of a formatting"
        );
        answer
    }

    fn shuffle(&self, numbers: [usize; 3], permutation: &mut [u32], tape: &mut Tape) -> Answer {
        let geometry = Record::geometry(numbers);
        let answer = shuffle(&geometry, permutation, tape);
        assert!(
            geometry == Record::geometry(numbers),
            "the geometry of a shuffle"
        );
        answer
    }

    fn open(
        &self,
        device: &[u8],
        numbers: [usize; 3],
        key: &[u8],
        tables: &mut Tables,
        permutation: &[u32],
        session: &mut Session,
    ) -> Answer {
        let (geometry, mut record) = (Record::geometry(numbers), Record::session(session));
        let answer = open(device, &geometry, key, tables, permutation, &mut record);
        assert!(
            geometry == Record::geometry(numbers),
            "the geometry of an opening"
        );
        *session = record.to_session();
        answer
    }

    fn read(
        &self,
        device: &[u8],
        tables: &Tables,
        session: &Session,
        target: Target,
        buf: &mut [u8],
    ) -> Answer {
        let record = Record::session(session);
        let answer = read(device, tables, &record, target, buf);
        assert!(record == Record::session(session), "the session of a read");
        answer
    }

    fn find(
        &self,
        device: &[u8],
        tables: &Tables,
        session: &Session,
        target: Target,
        out: &mut [u8],
    ) -> usize {
        let record = Record::session(session);
        let found = find(device, tables, &record, target, out);
        assert!(record == Record::session(session), "the session of a find");
        found
    }

    fn write(
        &self,
        device: &mut [u8],
        tables: &mut Tables,
        permutation: &[u32],
        tape: &mut Tape,
        session: &mut Session,
        target: Target,
        text: &[u8],
    ) -> Written {
        // What is not written shows.
        let (mut record, mut written) = (Record::session(session), Record::blank(WRITTEN_BYTES));
        let answer = write(
            device,
            tables,
            permutation,
            tape,
            &mut record,
            target,
            text,
            &mut written,
        );
        *session = record.to_session();
        written.to_written(answer)
    }

    fn release(
        &self,
        device: &mut [u8],
        tables: &mut Tables,
        permutation: &[u32],
        tape: &mut Tape,
        session: &mut Session,
        volume: usize,
        logical: usize,
    ) -> Result<usize, Refusal> {
        // No slice has so high a number.
        let blank = usize::pattern(0);
        let (mut record, mut slice) = (Record::session(session), blank);
        let answer = release(
            device,
            tables,
            permutation,
            tape,
            &mut record,
            volume,
            logical,
            &mut slice,
        );
        *session = record.to_session();
        assert!(
            answer.is_ok() || slice == blank,
            "the slice of a refused release"
        );
        answer.map(|()| slice)
    }

    fn close(&self, device: &[u8], tables: &mut Tables, session: &mut Session) -> Answer {
        let mut record = Record::session(session);
        let answer = close(device, tables, &mut record);
        *session = record.to_session();
        answer
    }
}

#[rustfmt::skip]
impl Ciphers for CFunctions {
    /// The library has no call for one block alone: counter mode of a block of zeros is the
    /// encrypted IV, with the same refusals.
    fn encrypt_block(&self, key: &[u8], block: &[u8], out: &mut [u8]) -> Answer {
        self.counter_mode(key, block, &[0; 16], out)
    }

    fn counter_mode(&self, key: &[u8], iv: &[u8], text: &[u8], out: &mut [u8]) -> Answer {
        // SAFETY: each pointer goes with a length for which it is valid.
        answer(unsafe {
            sys::hiwalgam_counter_mode(
                start(key), key.len(),
                start(iv), iv.len(),
                start(text), text.len(),
                start_mut(out), out.len(),
            )
        })
    }

    fn keystream_at(
        &self,
        key: &[u8],
        iv: &[u8],
        position: u64,
        text: &[u8],
        out: &mut [u8],
    ) -> Answer {
        // SAFETY: each pointer goes with a length for which it is valid.
        answer(unsafe {
            sys::hiwalgam_keystream_at(
                start(key), key.len(),
                start(iv), iv.len(),
                position,
                start(text), text.len(),
                start_mut(out), out.len(),
            )
        })
    }

    fn gcm_seal(
        &self,
        key: &[u8],
        iv: &[u8],
        aad: &[u8],
        text: &[u8],
        out: &mut [u8],
        tag: &mut [u8],
    ) -> Answer {
        // SAFETY: each pointer goes with a length for which it is valid.
        answer(unsafe {
            sys::hiwalgam_gcm_seal(
                start(key), key.len(),
                start(iv), iv.len(),
                start(aad), aad.len(),
                start(text), text.len(),
                start_mut(out), out.len(),
                start_mut(tag), tag.len(),
            )
        })
    }

    fn gcm_open(
        &self,
        key: &[u8],
        iv: &[u8],
        aad: &[u8],
        text: &[u8],
        tag: &[u8],
        out: &mut [u8],
    ) -> Answer {
        // SAFETY: each pointer goes with a length for which it is valid.
        answer(unsafe {
            sys::hiwalgam_gcm_open(
                start(key), key.len(),
                start(iv), iv.len(),
                start(aad), aad.len(),
                start(text), text.len(),
                start(tag), tag.len(),
                start_mut(out), out.len(),
            )
        })
    }
}
