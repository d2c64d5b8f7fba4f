//! The crate `hiwalgam`.

use hiwalgam::{sys, Block, Change, Geometry, Refusal, WriteRefused};

use crate::interface::{Answer, Ciphers, Engine, Session, Tables, Tape, Target, Written, SERVED};

#[derive(Debug)]
pub struct Wrapper;

fn geometry_of([b, s, p]: [usize; 3]) -> Geometry {
    Geometry {
        block_bytes: b as u64,
        slice_blocks: s as u64,
        slices: p as u64,
    }
}

fn session_of(session: &Session) -> hiwalgam::Session {
    hiwalgam::Session::from_record(sys::Session {
        geometry: geometry_of([session.b, session.s, session.p]),
        volume: session.k as u64,
        open: session.open as u64,
        start_place: session.start_place as u64,
        keys: session.keys,
        counts: session.counts.map(|count| count as u64),
    })
}

/// Hands back what a call left of a session.
fn hand_back(after: &hiwalgam::Session, session: &mut Session) {
    let record = after.record();
    *session = Session {
        b: record.geometry.block_bytes as usize,
        s: record.geometry.slice_blocks as usize,
        p: record.geometry.slices as usize,
        k: record.volume as usize,
        open: record.open as usize,
        start_place: record.start_place as usize,
        keys: record.keys,
        counts: record.counts.map(|count| count as usize),
    };
}

fn tables_of<'a>(tables: &'a mut Tables) -> hiwalgam::Tables<&'a mut [u32], &'a mut [u8]> {
    hiwalgam::Tables {
        maps: tables.maps,
        owners: tables.owners,
    }
}

fn shared<'a>(tables: &'a Tables) -> hiwalgam::Tables<&'a [u32], &'a [u8]> {
    hiwalgam::Tables {
        maps: tables.maps,
        owners: tables.owners,
    }
}

fn block_of(target: Target) -> Block {
    Block {
        volume: target.volume as u64,
        address: target.address as u64,
    }
}

/// Makes a call with the tape, whose position it moves.
fn with_tape<T>(tape: &mut Tape, call: impl FnOnce(&mut hiwalgam::Tape) -> T) -> T {
    let mut lent = hiwalgam::Tape {
        position: tape.position,
        ..hiwalgam::Tape::new(tape.bytes)
    };
    let answer = call(&mut lent);
    tape.position = lent.position;
    answer
}

impl Ciphers for Wrapper {
    /// The library has no call for one block alone: counter mode of a block of zeros is the
    /// encrypted IV, with the same refusals.
    fn encrypt_block(&self, key: &[u8], block: &[u8], out: &mut [u8]) -> Answer {
        hiwalgam::counter_mode(key, block, &[0; 16], out)
    }

    fn counter_mode(&self, key: &[u8], iv: &[u8], text: &[u8], out: &mut [u8]) -> Answer {
        hiwalgam::counter_mode(key, iv, text, out)
    }

    fn keystream_at(
        &self,
        key: &[u8],
        iv: &[u8],
        position: u64,
        text: &[u8],
        out: &mut [u8],
    ) -> Answer {
        hiwalgam::keystream_at(key, iv, position, text, out)
    }

    fn gcm_seal(
        &self,
        key: &[u8],
        iv: &[u8],
        aad: &[u8],
        text: &[u8],
        out: &mut [u8],
        tag: &mut [u8],
    ) -> Answer {
        hiwalgam::gcm_seal(key, iv, aad, text, out, tag)
    }

    fn gcm_open(
        &self,
        key: &[u8],
        iv: &[u8],
        aad: &[u8],
        text: &[u8],
        tag: &[u8],
        out: &mut [u8],
    ) -> Answer {
        hiwalgam::gcm_open(key, iv, aad, text, tag, out)
    }
}

impl Engine for Wrapper {
    fn format(
        &self,
        device: &mut [u8],
        numbers: [usize; 3],
        volumes: usize,
        keys: &[u8],
        counts: &[usize],
        tape: &mut Tape,
    ) -> Answer {
        let geometry = geometry_of(numbers);
        let counts: Vec<u64> = counts.iter().map(|&count| count as u64).collect();
        with_tape(tape, |tape| {
            hiwalgam::format(device, geometry, volumes, keys, &counts, tape)
        })
    }

    fn shuffle(&self, numbers: [usize; 3], permutation: &mut [u32], tape: &mut Tape) -> Answer {
        let geometry = geometry_of(numbers);
        with_tape(tape, |tape| hiwalgam::shuffle(geometry, permutation, tape))
    }

    fn open(
        &self,
        device: &[u8],
        numbers: [usize; 3],
        key: &[u8],
        tables: &mut Tables,
        permutation: &[u32],
        session: &mut Session,
    ) -> Answer {
        *session = Session::CLOSED;
        let (geometry, tables) = (geometry_of(numbers), &mut tables_of(tables));
        let opened = hiwalgam::Session::open(device, geometry, key, tables, permutation)?;
        hand_back(&opened, session);
        SERVED
    }

    fn read(
        &self,
        device: &[u8],
        tables: &Tables,
        session: &Session,
        target: Target,
        buf: &mut [u8],
    ) -> Answer {
        session_of(session).read(device, &shared(tables), block_of(target), buf)
    }

    fn find(
        &self,
        device: &[u8],
        tables: &Tables,
        session: &Session,
        target: Target,
        out: &mut [u8],
    ) -> usize {
        let found = session_of(session).find(device, &shared(tables), block_of(target), out);
        found.unwrap_or(0)
    }

    fn write(
        &self,
        device: &mut [u8],
        tables: &mut Tables,
        permutation: &[u32],
        tape: &mut Tape,
        session: &mut Session,
        target: Target,
        text: &[u8],
    ) -> Written {
        let (mut lent, tables, block) = (
            session_of(session),
            &mut tables_of(tables),
            block_of(target),
        );
        let written = with_tape(tape, |tape| {
            lent.write(device, tables, permutation, tape, block, text)
        });
        hand_back(&lent, session);
        match written {
            Ok(written) => Written {
                answer: SERVED,
                claimed: usize::from(matches!(written.change, Change::Claimed(_))),
                slice: written.change.slice() as usize,
                probes: written.probes as usize,
            },
            Err(WriteRefused { refusal, probes }) => Written {
                probes: probes as usize,
                ..Written::of(Err(refusal))
            },
        }
    }

    fn release(
        &self,
        device: &mut [u8],
        tables: &mut Tables,
        permutation: &[u32],
        tape: &mut Tape,
        session: &mut Session,
        volume: usize,
        logical: usize,
    ) -> Result<usize, Refusal> {
        let (mut lent, tables) = (session_of(session), &mut tables_of(tables));
        let (volume, logical) = (volume as u64, logical as u64);
        let freed = with_tape(tape, |tape| {
            lent.release(device, tables, permutation, tape, volume, logical)
        });
        hand_back(&lent, session);
        freed.map(|slice| slice as usize)
    }

    fn close(&self, device: &[u8], tables: &mut Tables, session: &mut Session) -> Answer {
        let (mut lent, tables) = (session_of(session), &mut tables_of(tables));
        let answer = lent.close(device, tables);
        hand_back(&lent, session);
        answer
    }
}
