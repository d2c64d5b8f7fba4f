//! What the crate `hiwalgam` adds to the C functions: its types, and how they are printed and turned
//! into one another.

use std::error::Error;

use hiwalgam::{sys, Block, Geometry, Refusal, Session, Tables, Tape, WriteRefused};
use hiwalgam_reference::geometry::Geometry as Layout;
use hiwalgam_tests::inputs::Random;
use hiwalgam_tests::stick::format_need;

const GEOMETRY: Geometry = Geometry {
    block_bytes: 1024,
    slice_blocks: 4,
    slices: 4,
};

/// An open session on no device that ever was, with keys of bytes 171 and volumes of 3 and 4 logical
/// slices.
fn session() -> Session {
    Session::from_record(sys::Session {
        geometry: GEOMETRY,
        volume: 1,
        open: 1,
        start_place: 3,
        keys: [171; 480],
        counts: [3, 4, 0, 0, 0, 0, 0, 0, 0, 0, 0, 0, 0, 0, 0],
    })
}

#[test]
fn numbers_of_refusals() {
    for number in 0..=255 {
        match Refusal::from_number(number) {
            Some(refusal) => assert_eq!(refusal.number(), number),
            None => assert!(![1..=15, 20..=25].iter().any(|some| some.contains(&number))),
        }
    }
    for refusal in Refusal::ALL {
        assert_eq!(Refusal::from_number(refusal.number()), Some(refusal));
        let text = refusal.to_string();
        assert!(
            text.ends_with(&format!(" (refusal {})", refusal.number())),
            "{text}"
        );
    }
}

#[test]
fn debug_shows_no_keys() {
    let session = session();
    let tape = [171; 100];
    let tape = Tape::new(&tape);
    for text in [
        format!("{session:?}"),
        format!("{session:#?}"),
        format!("{:?}", session.record()),
        format!("{:#?}", session.record()),
        format!("{tape:?}"),
    ] {
        assert!(!text.contains("171") && !text.contains("ab"), "{text}");
        assert!(
            text.contains("Session") || text.contains("length: 100"),
            "{text}"
        );
    }
}

#[test]
fn a_record_passes_through() {
    let session = session();
    assert_eq!(session.record().keys, [171; 480]);
    assert_eq!((session.geometry(), session.volume()), (GEOMETRY, 1));
    assert_eq!(session.start_place(), 3);
    assert!(session.is_open());
    for open in [0, 2, u64::MAX] {
        let record = sys::Session {
            open,
            ..session.record().clone()
        };
        let session = Session::from_record(record.clone());
        assert!(!session.is_open() && *session.record() == record);
    }
}

/// The length of each volume up to the opened one, open or closed, and of none above it, whatever the
/// record holds there.
#[test]
fn lengths_of_volumes() {
    let mut record = session().record().clone();
    record.counts[2..].fill(7);
    for open in [1, 0] {
        record.open = open;
        let session = Session::from_record(record.clone());
        assert_eq!((session.slices(0), session.blocks(0)), (Some(3), Some(12)));
        assert_eq!((session.slices(1), session.blocks(1)), (Some(4), Some(16)));
        for volume in [2, 3, 14, 15, 16, 1 << 32, u64::MAX] {
            assert_eq!(
                (session.slices(volume), session.blocks(volume)),
                (None, None)
            );
        }
    }
    // All volumes open, and then a volume that there is not.
    for opened in [14, 15, u64::MAX] {
        record.volume = opened;
        let session = Session::from_record(record.clone());
        assert_eq!(
            (session.slices(14), session.blocks(14)),
            (Some(7), Some(28))
        );
        for volume in [15, 16, 1 << 32, u64::MAX] {
            assert_eq!(
                (session.slices(volume), session.blocks(volume)),
                (None, None)
            );
        }
    }
    // A product that 64 bits do not hold.
    record.counts[0] = 1 << 62;
    let session = Session::from_record(record);
    assert_eq!(
        (session.slices(0), session.blocks(0)),
        (Some(1 << 62), None)
    );
}

/// Tables of the lengths that the engine asks for, and some for every other geometry.
#[test]
fn tables_for_any_geometry() {
    for slices in [0, 1, 4, 253, 4096, 4097, 1 << 32, u64::MAX] {
        let geometry = Geometry { slices, ..GEOMETRY };
        let mut tables = Tables::new(geometry);
        assert_eq!(tables.maps.len(), 15 * tables.owners.len());
        let device = vec![0; geometry.device_length()];
        let permutation: Vec<u32> = (0..slices.min(4096) as u32).collect();
        let opened = Session::open(&device, geometry, &[0; 32], &mut tables, &permutation);
        let refusal = match slices {
            1..=4096 => Refusal::NoCell,
            _ => Refusal::BadGeometry,
        };
        assert_eq!(opened, Err(refusal), "P {slices}");
    }
}

/// A permutation made from 4 x P bytes of a tape, with which an opening gets as far as the key; for numbers
/// of slices that are not allowed there is none.
#[test]
fn permutations_for_any_geometry() {
    let mut random = Random::seeded();
    for slices in [0, 1, 2, 3, 4, 253, 4096, 4097, 1 << 32, u64::MAX] {
        let geometry = Geometry { slices, ..GEOMETRY };
        let length = slices.min(4097) as usize;
        let (mut permutation, bytes) = (vec![0; length], random.bytes(4 * length));
        let mut tape = Tape::new(&bytes);
        let shuffled = hiwalgam::shuffle(geometry, &mut permutation, &mut tape);
        if !(1..=4096).contains(&slices) {
            assert_eq!(shuffled, Err(Refusal::BadGeometry), "P {slices}");
            continue;
        }
        assert_eq!(shuffled, Ok(()), "P {slices}");
        assert!(tape.position >= 2 * (length - 1), "P {slices}");
        let device = vec![0; geometry.device_length()];
        let mut tables = Tables::new(geometry);
        let opened = Session::open(&device, geometry, &[0; 32], &mut tables, &permutation);
        assert_eq!(opened, Err(Refusal::NoCell), "P {slices}");
    }
}

/// The lengths of device and tape are the reference's, and 0 where that allows no geometry.
#[test]
fn lengths_for_any_geometry() {
    let numbers = [
        vec![0, 1, 15, 16, 19, 1023, 1024, 1025, 4096, 1 << 32, u64::MAX],
        vec![0, 1, 3, 63, 64, 65, 255, 256, 257, 1 << 32, u64::MAX],
        vec![0, 1, 252, 253, 1020, 1021, 4096, 4097, 1 << 32, u64::MAX],
    ];
    for &b in &numbers[0] {
        for &s in &numbers[1] {
            for &p in &numbers[2] {
                let geometry = Geometry {
                    block_bytes: b,
                    slice_blocks: s,
                    slices: p,
                };
                let layout = Layout::new(b as usize, s as usize, p as usize);
                let length = layout.map_or(0, Layout::device_len);
                assert_eq!(geometry.device_length(), length, "{geometry:?}");
                for count in [0, 1, 2, 15, 16, usize::MAX] {
                    let need = layout.map_or(0, |layout| format_need(layout, count.min(15)));
                    assert_eq!(geometry.format_tape_length(count), need, "{geometry:?}");
                }
            }
        }
    }
}

/// A refused write as either kind of error that a program may use.
#[test]
fn refusals_are_errors() {
    fn write(session: &mut Session) -> Result<(), WriteRefused> {
        let (mut tables, block) = (
            Tables::new(GEOMETRY),
            Block {
                volume: 0,
                address: 0,
            },
        );
        session.write(&mut [], &mut tables, &[], &mut Tape::new(&[]), block, &[])?;
        Ok(())
    }
    fn by_refusal() -> Result<(), Refusal> {
        Ok(write(&mut session())?)
    }
    fn by_any() -> Result<(), Box<dyn Error>> {
        Ok(write(&mut session())?)
    }
    let (refusal, probes) = (Refusal::DeviceLength, 0);
    assert_eq!(write(&mut session()), Err(WriteRefused { refusal, probes }));
    assert_eq!(by_refusal(), Err(refusal));
    let text = by_any().unwrap_err().to_string();
    assert_eq!(text, format!("{refusal}, after 0 probes"));
}
