//! A session, and the calls of the engine.

use std::mem::size_of;

use crate::refusal::answered;
use crate::sys;
use crate::{Block, Geometry, Refusal, Tables, Tape, WriteRefused, Written};

// In each call every pointer and the length after it come from one slice or struct, which is
// borrowed until the call returns. What the call writes is borrowed mutably, so that it overlaps
// nothing else. That is all that the C functions ask for; they test every number themselves.

/// An open device: the volume that a key opened, with all below it.
///
/// The device, the tables and the tape are lent to each call. As long as the session is used, nothing
/// but these calls may alter them, and the tables are those of the opening, as is the permutation.
///
/// After every call that leaves it open the maps on the device are those in the tables: a claim and a
/// release store the map block that holds their entry before they return. So a session that is dropped
/// between two calls loses nothing. With the same key the device opens again, with any permutation, and its
/// volumes hold what they held. That is promised of calls that returned, not of a stick that is pulled out
/// inside a call. A [`close`](Session::close) only wipes the keys and the tables.
///
/// A session has a start place: no slice at an earlier place of the permutation is free, and claims
/// look from there on. So the probes of all its writes, those refused by 5 or 21 left out, add up to at
/// most P times one more than its served releases.
///
/// It also has the length of each open volume, as the volume was formatted: [`Session::blocks`].
///
/// ```
/// use hiwalgam::{Block, Geometry, Refusal, Session, Tables, Tape};
///
/// # let random = vec![0x5a; 60_000];
/// let geometry = Geometry { block_bytes: 1024, slice_blocks: 4, slices: 2 };
/// let (key, block, text) = ([7; 32], Block { volume: 0, address: 5 }, [3; 1024]);
/// let (mut tape, mut device) = (Tape::new(&random), vec![0; geometry.device_length()]);
/// hiwalgam::format(&mut device, geometry, 1, &key, &[2], &mut tape)?;
/// let mut tables = Tables::new(geometry);
/// let mut session = Session::open(&device, geometry, &key, &mut tables, &[1, 0])?;
/// let used = tape.position;
/// session.write(&mut device, &mut tables, &[1, 0], &mut tape, block, &text)?;
/// assert_eq!(tape.position - used, 1024 + 16);
///
/// // Without a close: session and tables are gone, and the block is there again.
/// drop((session, tables));
/// let (mut tables, mut buffer) = (Tables::new(geometry), [0; 1024]);
/// let session = Session::open(&device, geometry, &key, &mut tables, &[0, 1])?;
/// session.read(&device, &tables, block, &mut buffer)?;
/// assert_eq!(buffer, text);
/// # Ok::<(), Refusal>(())
/// ```
#[derive(PartialEq, Eq, Debug)]
pub struct Session(sys::Session);

impl Session {
    /// Opens a device: the lowest volume whose key cell `key` opens, and all below it. The
    /// permutation names each slice once, as [`shuffle`](crate::shuffle) makes it from the tape; claims
    /// take the first free one in its order. Its place is the start place, which is P where no slice is
    /// free.
    ///
    /// Refused by 1, 2, 3, 4, 5 (the tables stay), 6, 7, 8, 9, 10 (they become empty). A 9 is also an
    /// entry that is mapped at or past its volume's N.
    pub fn open<M, O>(
        device: &[u8],
        geometry: Geometry,
        key: &[u8],
        tables: &mut Tables<M, O>,
        permutation: &[u32],
    ) -> Result<Session, Refusal>
    where
        M: AsMut<[u32]>,
        O: AsMut<[u8]>,
    {
        let (maps, owners) = (tables.maps.as_mut(), tables.owners.as_mut());
        let mut session = sys::Session::CLOSED;
        // SAFETY: each pointer goes with the length of what it was taken from.
        #[rustfmt::skip]
        let number = unsafe {
            sys::hiwalgam_open(
                device.as_ptr(), device.len(),
                &geometry, size_of::<sys::Geometry>(),
                key.as_ptr(), key.len(),
                maps.as_mut_ptr(), maps.len(),
                owners.as_mut_ptr(), owners.len(),
                permutation.as_ptr(), permutation.len(),
                &mut session, size_of::<sys::Session>(),
            )
        };
        answered(number)?;
        Ok(Session(session))
    }

    /// Reads a block into `buffer`, which has B bytes. A block that was never written, or not since its
    /// logical slice was released, is zeros. The volume ends before block [`blocks`](Session::blocks).
    ///
    /// Refused by 20, 2, 4, 11, 12, 13, 9; the buffer stays then.
    pub fn read<M, O>(
        &self,
        device: &[u8],
        tables: &Tables<M, O>,
        block: Block,
        buffer: &mut [u8],
    ) -> Result<(), Refusal>
    where
        M: AsRef<[u32]>,
        O: AsRef<[u8]>,
    {
        let (maps, owners) = (tables.maps.as_ref(), tables.owners.as_ref());
        // SAFETY: each pointer goes with the length of what it was taken from.
        #[rustfmt::skip]
        let number = unsafe {
            sys::hiwalgam_read(
                device.as_ptr(), device.len(),
                maps.as_ptr(), maps.len(),
                owners.as_ptr(), owners.len(),
                &self.0, size_of::<sys::Session>(),
                block.volume, block.address,
                buffer.as_mut_ptr(), buffer.len(),
            )
        };
        answered(number)
    }

    /// Finds the ciphertext of a block and gives its length, B. It is copied to the start of `out`
    /// where that has room for it; otherwise `out` stays. `None` where the block has no slice, or
    /// where a read of it would be refused.
    pub fn find<M, O>(
        &self,
        device: &[u8],
        tables: &Tables<M, O>,
        block: Block,
        out: &mut [u8],
    ) -> Option<usize>
    where
        M: AsRef<[u32]>,
        O: AsRef<[u8]>,
    {
        let (maps, owners) = (tables.maps.as_ref(), tables.owners.as_ref());
        // SAFETY: each pointer goes with the length of what it was taken from.
        #[rustfmt::skip]
        let length = unsafe {
            sys::hiwalgam_find(
                device.as_ptr(), device.len(),
                maps.as_ptr(), maps.len(),
                owners.as_ptr(), owners.len(),
                &self.0, size_of::<sys::Session>(),
                block.volume, block.address,
                out.as_mut_ptr(), out.len(),
            )
        };
        (length > 0).then_some(length)
    }

    /// Writes a block: `text` has B bytes. Where the block's logical slice has a slice, the block is
    /// rewritten there and takes 16 bytes of the tape. Otherwise the first free slice in the order
    /// of the permutation, from the start place on, is claimed, and takes B + 16 bytes; the start place
    /// becomes the claimed place plus one. The last 16 bytes are the IV of the map block that holds the
    /// entry: it is on the device, as the slice is, when the call returns.
    ///
    /// Refused by 20, 2, 4, 5 (length), 11, 12, 13, 9 (a rewrite looks at the asked entry alone, a claim at
    /// all entries of its map block); a claim by 5 (a place that names no slice) or 22; both by 21. A 22
    /// sets the start place to P, and nothing else changes then. With another permutation than that of the
    /// opening, here or at a release before, a 22 can come while an earlier place is free.
    pub fn write<M, O>(
        &mut self,
        device: &mut [u8],
        tables: &mut Tables<M, O>,
        permutation: &[u32],
        tape: &mut Tape<'_>,
        block: Block,
        text: &[u8],
    ) -> Result<Written, WriteRefused>
    where
        M: AsMut<[u32]>,
        O: AsMut<[u8]>,
    {
        let (maps, owners) = (tables.maps.as_mut(), tables.owners.as_mut());
        let mut written = sys::Written::default();
        // SAFETY: each pointer goes with the length of what it was taken from.
        #[rustfmt::skip]
        let number = unsafe {
            sys::hiwalgam_write(
                device.as_mut_ptr(), device.len(),
                maps.as_mut_ptr(), maps.len(),
                owners.as_mut_ptr(), owners.len(),
                permutation.as_ptr(), permutation.len(),
                tape.bytes.as_ptr(), tape.bytes.len(), &mut tape.position,
                &mut self.0, size_of::<sys::Session>(),
                block.volume, block.address,
                text.as_ptr(), text.len(),
                &mut written, size_of::<sys::Written>(),
            )
        };
        Written::answered(number, written)
    }

    /// Releases a logical slice of an open volume, numbered from 0 to N - 1, and gives the slice of the
    /// device that is free for claims again. The blocks of the logical slice then read as zeros, and the
    /// next write to one of them is a claim. The start place becomes the slice's place in the
    /// permutation where that is lower.
    ///
    /// It takes 16 bytes of the tape, the IV of the map block that holds the entry: the block is on the
    /// device when the call returns. No other byte of the device changes: what the slice held stays there,
    /// under the volume's key, until a claim takes the slice.
    ///
    /// Refused by 20, 2, 4, 5 (the whole permutation is tested, as at an opening), 11, 12, 9 (any entry of
    /// the map block), 25 (the logical slice has no slice), 21; nothing changes then.
    ///
    /// ```
    /// use hiwalgam::{Block, Change, Geometry, Refusal, Session, Tables, Tape};
    ///
    /// # let random = vec![0x5a; 60_000];
    /// let geometry = Geometry { block_bytes: 1024, slice_blocks: 4, slices: 2 };
    /// // A given order, for slices that the example can name.
    /// let (key, permutation, text) = ([7; 32], [1, 0], [3; 1024]);
    /// let (mut tape, mut device) = (Tape::new(&random), vec![0; geometry.device_length()]);
    /// hiwalgam::format(&mut device, geometry, 1, &key, &[2], &mut tape)?;
    /// let mut tables = Tables::new(geometry);
    /// let mut session = Session::open(&device, geometry, &key, &mut tables, &permutation)?;
    ///
    /// // Block 5 is in logical slice 1.
    /// let block = Block { volume: 0, address: 5 };
    /// let written = session.write(&mut device, &mut tables, &permutation, &mut tape, block, &text)?;
    /// assert_eq!((written.change, session.start_place()), (Change::Claimed(1), 1));
    /// let freed = session.release(&mut device, &mut tables, &permutation, &mut tape, 0, 1)?;
    /// assert_eq!((freed, session.start_place()), (1, 0));
    ///
    /// let mut buffer = [0xff; 1024];
    /// session.read(&device, &tables, block, &mut buffer)?;
    /// assert_eq!(buffer, [0; 1024]);
    /// let again = session.release(&mut device, &mut tables, &permutation, &mut tape, 0, 1);
    /// assert_eq!(again, Err(Refusal::SliceUnmapped));
    /// # Ok::<(), Refusal>(())
    /// ```
    pub fn release<M, O>(
        &mut self,
        device: &mut [u8],
        tables: &mut Tables<M, O>,
        permutation: &[u32],
        tape: &mut Tape<'_>,
        volume: u64,
        logical_slice: u64,
    ) -> Result<u64, Refusal>
    where
        M: AsMut<[u32]>,
        O: AsMut<[u8]>,
    {
        let (maps, owners) = (tables.maps.as_mut(), tables.owners.as_mut());
        let mut slice = 0;
        // SAFETY: each pointer goes with the length of what it was taken from.
        #[rustfmt::skip]
        let number = unsafe {
            sys::hiwalgam_release(
                device.as_mut_ptr(), device.len(),
                maps.as_mut_ptr(), maps.len(),
                owners.as_mut_ptr(), owners.len(),
                permutation.as_ptr(), permutation.len(),
                tape.bytes.as_ptr(), tape.bytes.len(), &mut tape.position,
                &mut self.0, size_of::<sys::Session>(),
                volume, logical_slice, &mut slice,
            )
        };
        answered(number)?;
        Ok(slice)
    }

    /// Closes the session: wipes the keys and the tables, which are empty afterwards; geometry, volume,
    /// start place and counts stay. The device is lent for its length alone, and no byte of it changes: it
    /// opens to the same volumes as without the close. No tape is taken.
    ///
    /// Refused by 20, 2, 4. Nothing changes then, and the close can be tried again.
    ///
    /// ```
    /// use hiwalgam::{Geometry, Refusal, Session, Tables, Tape};
    ///
    /// # let random = vec![0x5a; 60_000];
    /// let geometry = Geometry { block_bytes: 1024, slice_blocks: 4, slices: 2 };
    /// let (mut device, key) = (vec![0; geometry.device_length()], [7; 32]);
    /// hiwalgam::format(&mut device, geometry, 1, &key, &[2], &mut Tape::new(&random))?;
    /// let mut tables = Tables::new(geometry);
    /// let mut session = Session::open(&device, geometry, &key, &mut tables, &[1, 0])?;
    ///
    /// session.close(&device, &mut tables)?;
    /// assert_eq!(tables, Tables::new(geometry));
    /// assert_eq!((session.is_open(), session.record().keys), (false, [0; 480]));
    /// assert_eq!(session.close(&device, &mut tables), Err(Refusal::NotOpen));
    /// # Ok::<(), Refusal>(())
    /// ```
    pub fn close<M, O>(&mut self, device: &[u8], tables: &mut Tables<M, O>) -> Result<(), Refusal>
    where
        M: AsMut<[u32]>,
        O: AsMut<[u8]>,
    {
        let (maps, owners) = (tables.maps.as_mut(), tables.owners.as_mut());
        // SAFETY: each pointer goes with the length of what it was taken from.
        #[rustfmt::skip]
        let number = unsafe {
            sys::hiwalgam_close(
                device.as_ptr(), device.len(),
                maps.as_mut_ptr(), maps.len(),
                owners.as_mut_ptr(), owners.len(),
                &mut self.0, size_of::<sys::Session>(),
            )
        };
        answered(number)
    }

    /// The geometry of the device.
    pub fn geometry(&self) -> Geometry {
        self.0.geometry
    }

    /// The opened volume: it and all below it are open.
    pub fn volume(&self) -> u64 {
        self.0.volume
    }

    /// The place of the permutation at which the next claim begins to look, 0 to P. A release can lower
    /// it; rewrites, reads, finds and a close leave it.
    pub fn start_place(&self) -> u64 {
        self.0.start_place
    }

    /// N, the logical slices of an open volume, from 1 to P: the most slices of the device that it can
    /// hold. `None` for a volume above the opened one. A close leaves it.
    pub fn slices(&self, volume: u64) -> Option<u64> {
        let index = usize::try_from(volume).ok()?;
        let count = self.0.counts.get(index).copied();
        count.filter(|_| volume <= self.0.volume)
    }

    /// The blocks of an open volume, N x S: what a file system can lay out. They are addressed from 0.
    /// `None` for a volume above the opened one. A close leaves them.
    ///
    /// A session [from a record](Session::from_record), whose numbers can be any, also gives `None`
    /// where 64 bits do not hold the product; each of its calls is then refused.
    ///
    /// ```
    /// use hiwalgam::{Geometry, Refusal, Session, Tables, Tape};
    ///
    /// # let random = vec![0x5a; 60_000];
    /// let geometry = Geometry { block_bytes: 1024, slice_blocks: 4, slices: 4 };
    /// let (keys, counts) = ([[7; 32], [8; 32]], [3, 1]);
    /// let mut device = vec![0; geometry.device_length()];
    /// hiwalgam::format(&mut device, geometry, 2, keys.as_flattened(), &counts, &mut Tape::new(&random))?;
    ///
    /// let mut tables = Tables::new(geometry);
    /// let session = Session::open(&device, geometry, &keys[1], &mut tables, &[2, 0, 3, 1])?;
    /// assert_eq!((session.slices(0), session.blocks(0)), (Some(3), Some(12)));
    /// assert_eq!((session.slices(1), session.blocks(1)), (Some(1), Some(4)));
    /// assert_eq!((session.slices(2), session.blocks(2)), (None, None));
    /// # Ok::<(), Refusal>(())
    /// ```
    pub fn blocks(&self, volume: u64) -> Option<u64> {
        let slices = self.slices(volume)?;
        slices.checked_mul(self.0.geometry.slice_blocks)
    }

    /// Whether the session is open: it was not closed.
    pub fn is_open(&self) -> bool {
        self.0.open == 1
    }

    /// A session from a record, which may hold anything: each call tests it.
    pub fn from_record(record: sys::Session) -> Session {
        Session(record)
    }

    /// The session as C has it, with the keys.
    pub fn record(&self) -> &sys::Session {
        &self.0
    }
}
