//! The open stick: a session of the engine, with all that it is lent.

use std::ops::{Deref, RangeInclusive};

use hiwalgam::{Block, Change, Geometry, Refusal, Session, Tables, IV_BYTES, UNMAPPED};
use memmap2::{Mmap, MmapMut};
use zeroize::Zeroize;

use crate::arguments::{self, Blocks};
use crate::failure::Outcome;
use crate::geometry;
use crate::image::{Identity, Image, Locked};
use crate::keys::Source;
use crate::signals;
use crate::tape::{self, SessionTape};

/// An open stick. It is read-only unless it is a `Stick<MmapMut>`. When it is dropped, the session is
/// closed, and keys, tables, permutation and tape are wiped.
pub struct Stick<M: Deref<Target = [u8]>> {
    session: Session,
    tables: Tables,
    permutation: Vec<u32>,
    /// The bytes that were drawn for the permutation.
    drawn: usize,
    tape: SessionTape,
    image: Image<M>,
}

impl Stick<Mmap> {
    pub fn open_to_read(options: &arguments::Stick) -> Outcome<Stick<Mmap>> {
        let source = Source::of(&options.access)?;
        let locked = Locked::open(&options.image, false)?;
        Stick::open(locked.map()?, options.access.blocks, source)
    }
}

impl Stick<MmapMut> {
    pub fn open_to_write(options: &arguments::Stick, source: Source) -> Outcome<Stick<MmapMut>> {
        let locked = Locked::open(&options.image, true)?;
        Stick::open(locked.map_mut()?, options.access.blocks, source)
    }
}

impl<M: Deref<Target = [u8]>> Stick<M> {
    fn open(image: Image<M>, blocks: Blocks, source: Source) -> Outcome<Stick<M>> {
        // Before a passphrase is asked for in vain.
        let geometry = geometry::of_length(blocks, image.locked.length)?;
        let key = source.material()?.into_key(&image.salt())?;

        let (permutation, drawn) = tape::shuffled(geometry)?;
        let mut tables = Tables::new(geometry);
        signals::check()?;
        let session = Session::open(&image.bytes, geometry, &key, &mut tables, &permutation)?;
        let tape = SessionTape::new();
        Ok(Stick {
            session,
            tables,
            permutation,
            drawn,
            tape,
            image,
        })
    }

    pub fn geometry(&self) -> Geometry {
        self.session.geometry()
    }

    /// The open volumes.
    pub fn volumes(&self) -> RangeInclusive<u64> {
        0..=self.session.volume()
    }

    /// N of an open volume; 0 of one above.
    pub fn slices(&self, volume: u64) -> u64 {
        self.session.slices(volume).unwrap_or(0)
    }

    /// The blocks of an open volume; 0 of one above.
    pub fn blocks(&self, volume: u64) -> u64 {
        self.session.blocks(volume).unwrap_or(0)
    }

    /// The slice of each logical slice of an open volume, or UNMAPPED.
    pub fn map(&self, volume: u64) -> &[u32] {
        let row = (volume * self.geometry().slices) as usize;
        &self.tables.maps[row..][..self.slices(volume) as usize]
    }

    /// How many logical slices of an open volume have a slice.
    pub fn mapped(&self, volume: u64) -> u64 {
        let mapped = self.map(volume).iter().filter(|entry| **entry != UNMAPPED);
        mapped.count() as u64
    }

    /// For each slice 0 where it is free, and otherwise one more than its volume.
    pub fn owners(&self) -> &[u8] {
        &self.tables.owners
    }

    /// Whether a block lies in an unmapped logical slice. Not so where its volume has no such block.
    pub fn is_unmapped(&self, volume: u64, address: u64) -> bool {
        address < self.blocks(volume)
            && self.map(volume)[(address / self.geometry().slice_blocks) as usize] == UNMAPPED
    }

    pub fn permutation(&self) -> &[u32] {
        &self.permutation
    }

    pub fn drawn(&self) -> usize {
        self.drawn
    }

    pub fn start_place(&self) -> u64 {
        self.session.start_place()
    }

    /// A buffer for a block.
    pub fn buffer(&self) -> Vec<u8> {
        vec![0; self.geometry().block_bytes as usize]
    }

    pub fn read(&self, volume: u64, address: u64, buffer: &mut [u8]) -> Result<(), Refusal> {
        let block = Block { volume, address };
        self.session
            .read(&self.image.bytes, &self.tables, block, buffer)
    }

    pub fn identity(&self) -> Outcome<Identity> {
        self.image.locked.identity()
    }
}

impl Stick<MmapMut> {
    pub fn write(&mut self, volume: u64, address: u64, text: &[u8]) -> Outcome<Change> {
        let block = Block { volume, address };
        let need = self.need();
        let Stick {
            session,
            tables,
            permutation,
            tape,
            image,
            ..
        } = self;
        let written = tape.lend(need, |tape| {
            session.write(&mut image.bytes, tables, permutation, tape, block, text)
        })?;
        let written = written.map_err(Refusal::from)?;
        Ok(written.change)
    }

    /// Gives the slice that is free again.
    pub fn release(&mut self, volume: u64, logical_slice: u64) -> Outcome<u64> {
        let need = self.need();
        let Stick {
            session,
            tables,
            permutation,
            tape,
            image,
            ..
        } = self;
        let released = tape.lend(need, |tape| {
            session.release(
                &mut image.bytes,
                tables,
                permutation,
                tape,
                volume,
                logical_slice,
            )
        })?;
        Ok(released?)
    }

    pub fn sync(&self) -> Outcome {
        self.image.sync()
    }

    /// The bytes of the tape that a call takes at most.
    fn need(&self) -> usize {
        self.geometry().block_bytes as usize + IV_BYTES
    }
}

impl<M: Deref<Target = [u8]>> Drop for Stick<M> {
    fn drop(&mut self) {
        // Refused for a closed session alone, which has nothing to wipe.
        let _ = self.session.close(&self.image.bytes, &mut self.tables);
        self.permutation.zeroize();
    }
}
