//! What a call can be refused for.

use std::error::Error;
use std::fmt;

use crate::sys;

/// Why a call was refused. The number of each is the one that the C functions answer.
#[derive(Clone, Copy, PartialEq, Eq, Hash, Debug)]
#[repr(u8)]
pub enum Refusal {
    /// The size of blocks, the blocks in a slice or the number of slices is not allowed. At a
    /// formatting also a count of logical slices that is not 1 to P, or another number of counts than
    /// volumes.
    BadGeometry = 1,
    /// The device is not as long as the geometry says.
    DeviceLength = 2,
    /// The key is not 32 bytes, or the keys to format with are not 32 bytes each.
    KeyLength = 3,
    /// The map table has not 15 entries for each slice, or the owner table not one; at a shuffle the list
    /// has not one.
    TableLength = 4,
    /// The permutation does not name each slice once.
    BadPermutation = 5,
    /// The key opens no key cell.
    NoCell = 6,
    /// The tag of a header that is needed is wrong.
    HeaderTag = 7,
    /// A header's count of logical slices is not 1 to P, or its blocks in a slice are others than the
    /// geometry's.
    HeaderGeometry = 8,
    /// A map entry that names no slice, or stands at or past the volume's count of logical slices, is
    /// not the mark of an unmapped one: at an opening any of the open volumes, at a claim or a release any
    /// in the map block of the asked one, and otherwise the asked one.
    BadEntry = 9,
    /// A slice is mapped twice.
    SliceTwice = 10,
    /// The volume is above the opened one.
    VolumeAbove = 11,
    /// The block is past the end of the volume: its address is N x S or more. At a release the logical
    /// slice is: its number is N or more.
    AddressAbove = 12,
    /// A buffer, text, IV, tag, associated data or struct is not as long as it has to be.
    WrongLength = 13,
    /// A line of the program `slicewalk` is malformed; no function answers it.
    MalformedLine = 14,
    /// The tag is wrong.
    TagDiffers = 15,
    /// The session is closed, or holds numbers that are not allowed, among them the counts of the open
    /// volumes.
    NotOpen = 20,
    /// The tape has not as many bytes left as the call needs.
    TapeShort = 21,
    /// No slice from the start place on is free for a claim.
    NoFreeSlice = 22,
    /// There is no key to format with, or more than 15.
    KeyCount = 23,
    /// A key opens the key cell of a lower volume.
    LowerCell = 24,
    /// The logical slice to release has no slice.
    SliceUnmapped = 25,
}

impl Refusal {
    /// All refusals, in the order of their numbers.
    pub const ALL: [Refusal; 21] = [
        Refusal::BadGeometry,
        Refusal::DeviceLength,
        Refusal::KeyLength,
        Refusal::TableLength,
        Refusal::BadPermutation,
        Refusal::NoCell,
        Refusal::HeaderTag,
        Refusal::HeaderGeometry,
        Refusal::BadEntry,
        Refusal::SliceTwice,
        Refusal::VolumeAbove,
        Refusal::AddressAbove,
        Refusal::WrongLength,
        Refusal::MalformedLine,
        Refusal::TagDiffers,
        Refusal::NotOpen,
        Refusal::TapeShort,
        Refusal::NoFreeSlice,
        Refusal::KeyCount,
        Refusal::LowerCell,
        Refusal::SliceUnmapped,
    ];

    /// The number that the C functions answer.
    pub const fn number(self) -> u8 {
        self as u8
    }

    /// The refusal with a number, or `None` where no refusal has it.
    pub fn from_number(number: u8) -> Option<Refusal> {
        let mut all = Refusal::ALL.into_iter();
        all.find(|refusal| refusal.number() == number)
    }

    fn reason(self) -> &'static str {
        match self {
            Refusal::BadGeometry => {
                "the geometry, a count of logical slices or the number of counts is not allowed"
            }
            Refusal::DeviceLength => "the device is not as long as the geometry says",
            Refusal::KeyLength => "a key is not 32 bytes",
            Refusal::TableLength => {
                "the map table, the owner table or the list to shuffle has a wrong length"
            }
            Refusal::BadPermutation => "the permutation does not name each slice once",
            Refusal::NoCell => "the key opens no key cell",
            Refusal::HeaderTag => "the tag of a header is wrong",
            Refusal::HeaderGeometry => "the numbers in a header do not fit the geometry",
            Refusal::BadEntry => {
                "a map entry is no slice, or past the volume's end, and not unmapped"
            }
            Refusal::SliceTwice => "a slice is mapped twice",
            Refusal::VolumeAbove => "the volume is above the opened one",
            Refusal::AddressAbove => "the block or the logical slice is past the end of the volume",
            Refusal::WrongLength => "a buffer or a struct has a wrong length",
            Refusal::MalformedLine => "the line is malformed",
            Refusal::TagDiffers => "the tag is wrong",
            Refusal::NotOpen => "the session is not open",
            Refusal::TapeShort => "the tape has too few bytes left",
            Refusal::NoFreeSlice => "no slice from the start place on is free",
            Refusal::KeyCount => "there is no key, or more than 15",
            Refusal::LowerCell => "a key opens the cell of a lower volume",
            Refusal::SliceUnmapped => "the logical slice is unmapped",
        }
    }
}

impl fmt::Display for Refusal {
    fn fmt(&self, f: &mut fmt::Formatter<'_>) -> fmt::Result {
        write!(f, "{} (refusal {})", self.reason(), self.number())
    }
}

impl Error for Refusal {}

/// The result of a call by the number that it answered. A number that no refusal has comes from
/// another library than the one that this crate was written for, which is no case to go on from.
pub(crate) fn answered(number: u8) -> Result<(), Refusal> {
    match Refusal::from_number(number) {
        Some(refusal) => Err(refusal),
        None if number == sys::SERVED => Ok(()),
        None => panic!("libhiwalgam.a answered {number}, which is no refusal of this crate"),
    }
}
