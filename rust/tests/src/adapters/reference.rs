//! The reference.

use hiwalgam::Refusal;
use hiwalgam_reference::session::{self, Refused, Stored};
use hiwalgam_reference::{aes, ctr, formatting, gcm, opening, refusal, requests, shuffling};

use crate::interface::{Answer, Ciphers, Engine, Session, Tables, Tape, Target, Written, SERVED};

#[derive(Debug)]
pub struct Reference;

/// The refusal with the same number.
fn same(refusal: refusal::Refusal) -> Refusal {
    Refusal::from_number(refusal.number()).unwrap()
}

fn session_of(session: &Session) -> session::Session {
    let &Session {
        b,
        s,
        p,
        k,
        start_place,
        ..
    } = session;
    session::Session {
        b,
        s,
        p,
        k,
        start_place,
        keys: session.keys,
        counts: session.counts,
        opened: session.open == 1,
    }
}

/// Hands back what a call left of a session. The number for a session that was closed and still is
/// stays, also where it is not 0.
fn hand_back(after: &session::Session, session: &mut Session) {
    let open = match after.opened == (session.open == 1) {
        true => session.open,
        false => usize::from(after.opened),
    };
    *session = Session {
        b: after.b,
        s: after.s,
        p: after.p,
        k: after.k,
        open,
        start_place: after.start_place,
        keys: after.keys,
        counts: after.counts,
    };
}

fn tables_of<'a>(tables: &'a mut Tables) -> session::Tables<'a> {
    session::Tables {
        maps: tables.maps,
        owners: tables.owners,
    }
}

fn target_of(target: Target) -> session::Target {
    let Target { volume, address } = target;
    session::Target { volume, address }
}

/// Makes a call with the tape, whose position it moves.
fn with_tape<T>(tape: &mut Tape, call: impl FnOnce(&mut session::Tape) -> T) -> T {
    let mut lent = session::Tape {
        bytes: tape.bytes,
        position: tape.position,
    };
    let answer = call(&mut lent);
    tape.position = lent.position;
    answer
}

impl Ciphers for Reference {
    fn encrypt_block(&self, key: &[u8], block: &[u8], out: &mut [u8]) -> Answer {
        aes::encrypt_block(key, block, out).map_err(same)
    }

    fn counter_mode(&self, key: &[u8], iv: &[u8], text: &[u8], out: &mut [u8]) -> Answer {
        ctr::counter_mode(key, iv, text, out).map_err(same)
    }

    fn keystream_at(
        &self,
        key: &[u8],
        iv: &[u8],
        position: u64,
        text: &[u8],
        out: &mut [u8],
    ) -> Answer {
        ctr::keystream_at(key, iv, position, text, out).map_err(same)
    }

    fn gcm_seal(
        &self,
        key: &[u8],
        iv: &[u8],
        aad: &[u8],
        text: &[u8],
        out: &mut [u8],
        tag: &mut [u8],
    ) -> Answer {
        gcm::gcm_seal(key, iv, aad, text, out, tag).map_err(same)
    }

    fn gcm_open(
        &self,
        key: &[u8],
        iv: &[u8],
        aad: &[u8],
        text: &[u8],
        tag: &[u8],
        out: &mut [u8],
    ) -> Answer {
        gcm::gcm_open(key, iv, aad, text, tag, out).map_err(same)
    }
}

impl Engine for Reference {
    fn format(
        &self,
        device: &mut [u8],
        numbers: [usize; 3],
        volumes: usize,
        keys: &[u8],
        counts: &[usize],
        tape: &mut Tape,
    ) -> Answer {
        let answer = with_tape(tape, |tape| {
            formatting::format(device, numbers, volumes, keys, counts, tape)
        });
        answer.map_err(same)
    }

    fn shuffle(&self, numbers: [usize; 3], permutation: &mut [u32], tape: &mut Tape) -> Answer {
        let answer = with_tape(tape, |tape| shuffling::shuffle(numbers, permutation, tape));
        answer.map_err(same)
    }

    fn open(
        &self,
        device: &[u8],
        numbers: [usize; 3],
        key: &[u8],
        tables: &mut Tables,
        permutation: &[u32],
        session: &mut Session,
    ) -> Answer {
        *session = Session::CLOSED;
        let tables = &mut tables_of(tables);
        let opened = opening::open(device, numbers, key, tables, permutation).map_err(same)?;
        hand_back(&opened, session);
        SERVED
    }

    fn read(
        &self,
        device: &[u8],
        tables: &Tables,
        session: &Session,
        target: Target,
        buf: &mut [u8],
    ) -> Answer {
        let (session, target) = (session_of(session), target_of(target));
        requests::read(device, tables.maps, tables.owners, &session, target, buf).map_err(same)
    }

    fn find(
        &self,
        device: &[u8],
        tables: &Tables,
        session: &Session,
        target: Target,
        out: &mut [u8],
    ) -> usize {
        let (session, target) = (session_of(session), target_of(target));
        let found = requests::find(device, tables.maps, tables.owners, &session, target);
        if let Some(out) = out.get_mut(..found.len()) {
            out.copy_from_slice(found);
        }
        found.len()
    }

    fn write(
        &self,
        device: &mut [u8],
        tables: &mut Tables,
        permutation: &[u32],
        tape: &mut Tape,
        session: &mut Session,
        target: Target,
        text: &[u8],
    ) -> Written {
        let (mut lent, tables, target) = (
            session_of(session),
            &mut tables_of(tables),
            target_of(target),
        );
        let stored = with_tape(tape, |tape| {
            requests::write(device, tables, permutation, tape, &mut lent, target, text)
        });
        hand_back(&lent, session);
        match stored {
            Ok(Stored::Claimed { slice, probes }) => Written {
                answer: SERVED,
                claimed: 1,
                slice,
                probes,
            },
            Ok(Stored::Rewritten { slice }) => Written {
                slice,
                ..Written::of(SERVED)
            },
            Err(Refused { refusal, probes }) => Written {
                probes,
                ..Written::of(Err(same(refusal)))
            },
        }
    }

    fn release(
        &self,
        device: &mut [u8],
        tables: &mut Tables,
        permutation: &[u32],
        tape: &mut Tape,
        session: &mut Session,
        volume: usize,
        logical: usize,
    ) -> Result<usize, Refusal> {
        let (mut lent, tables) = (session_of(session), &mut tables_of(tables));
        let freed = with_tape(tape, |tape| {
            requests::release(
                device,
                tables,
                permutation,
                tape,
                &mut lent,
                volume,
                logical,
            )
        });
        hand_back(&lent, session);
        freed.map_err(same)
    }

    fn close(&self, device: &[u8], tables: &mut Tables, session: &mut Session) -> Answer {
        let (mut lent, tables) = (session_of(session), &mut tables_of(tables));
        let answer = requests::close(device, tables, &mut lent);
        hand_back(&lent, session);
        answer.map_err(same)
    }
}
