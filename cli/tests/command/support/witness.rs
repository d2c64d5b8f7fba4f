//! Looks into an image without the command: by the crate `hiwalgam`, and by the reference.

use hiwalgam::{Block, Session, Tables};
use hiwalgam_reference::geometry::{Geometry, VOLUMES};
use hiwalgam_reference::session::{self, Target};
use hiwalgam_reference::{opening, requests};

/// What a key opens.
#[derive(PartialEq, Debug)]
pub struct Opened {
    /// The opened volume: it and all below it are open.
    pub volume: usize,
    /// N, the logical slices, of each open volume.
    pub counts: Vec<usize>,
    /// Entry `l` of volume `v` stands at `v * P + l`.
    pub maps: Vec<u32>,
    /// 0 for a slice that is free, and `v + 1` for one that volume `v` holds.
    pub owners: Vec<u8>,
    /// All blocks of each open volume, end to end.
    pub texts: Vec<Vec<u8>>,
}

impl Opened {
    /// The map of a volume: for each of its logical slices the slice, or none.
    pub fn map(&self, volume: usize) -> Vec<Option<u32>> {
        let slices = self.owners.len();
        let row = &self.maps[volume * slices..][..self.counts[volume]];
        let mapped = |&entry: &u32| Some(entry).filter(|&entry| entry != session::UNMAPPED);
        row.iter().map(mapped).collect()
    }

    /// How many slices a volume holds.
    pub fn held(&self, volume: usize) -> usize {
        let owner = volume as u8 + 1;
        self.owners.iter().filter(|&&of| of == owner).count()
    }
}

/// What the key opens, or the number of the refusal. The two openings have to agree.
#[track_caller]
pub fn opened(device: &[u8], geometry: Geometry, key: &[u8]) -> Result<Opened, u8> {
    let (proved, plain) = (
        by_crate(device, geometry, key),
        by_reference(device, geometry, key),
    );
    assert!(proved == plain, "the crate and the reference differ");
    proved
}

fn by_crate(device: &[u8], geometry: Geometry, key: &[u8]) -> Result<Opened, u8> {
    let numbers = hiwalgam::Geometry {
        block_bytes: geometry.b as u64,
        slice_blocks: geometry.s as u64,
        slices: geometry.p as u64,
    };
    let permutation: Vec<u32> = (0..geometry.p as u32).collect();
    let mut tables = Tables::new(numbers);
    let session = Session::open(device, numbers, key, &mut tables, &permutation);
    let session = session.map_err(|refusal| refusal.number())?;
    let counts = (0..=session.volume()).map(|volume| session.slices(volume).unwrap() as usize);
    let counts: Vec<usize> = counts.collect();
    let texts = read_all(geometry, &counts, |volume, address, buffer| {
        let (volume, address) = (volume as u64, address as u64);
        let answer = session.read(device, &tables, Block { volume, address }, buffer);
        answer.unwrap();
    });
    Ok(Opened {
        volume: session.volume() as usize,
        counts,
        maps: tables.maps,
        owners: tables.owners,
        texts,
    })
}

fn by_reference(device: &[u8], geometry: Geometry, key: &[u8]) -> Result<Opened, u8> {
    let numbers = [geometry.b, geometry.s, geometry.p];
    let permutation: Vec<u32> = (0..geometry.p as u32).collect();
    let (mut maps, mut owners) = (vec![0; VOLUMES * geometry.p], vec![0; geometry.p]);
    let mut lent = session::Tables {
        maps: &mut maps,
        owners: &mut owners,
    };
    let session = opening::open(device, numbers, key, &mut lent, &permutation);
    let session = session.map_err(|refusal| refusal.number())?;
    let counts = session.counts[..=session.k].to_vec();
    let texts = read_all(geometry, &counts, |volume, address, buffer| {
        let target = Target { volume, address };
        let answer = requests::read(device, &maps, &owners, &session, target, buffer);
        assert!(answer.is_ok());
    });
    Ok(Opened {
        volume: session.k,
        counts,
        maps,
        owners,
        texts,
    })
}

/// All blocks of volumes with these counts of logical slices.
fn read_all(
    geometry: Geometry,
    counts: &[usize],
    read: impl Fn(usize, usize, &mut [u8]),
) -> Vec<Vec<u8>> {
    let volume = |(volume, &count): (usize, &usize)| {
        let mut text = vec![0xaa; geometry.b * geometry.blocks(count)];
        for (address, block) in text.chunks_mut(geometry.b).enumerate() {
            read(volume, address, block);
        }
        text
    };
    counts.iter().enumerate().map(volume).collect()
}
