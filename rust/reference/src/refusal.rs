//! The refusals of documents 01 and 02.

/// Why a call is refused, with the document's number.
#[derive(Clone, Copy, PartialEq, Eq, Debug)]
#[repr(u8)]
pub enum Refusal {
    /// B, S or P is not allowed; at a formatting also a count of logical slices, or another number of
    /// counts than keys.
    BadGeometry = 1,
    /// The device is not as long as its geometry says.
    DeviceLength = 2,
    /// The key is not 32 bytes, or the keys are not 32 bytes each.
    KeyLength = 3,
    /// The map table is not 15 x P entries, the owner table not P bytes, or the list to shuffle not P
    /// numbers.
    TableLength = 4,
    /// The permutation is not P long, or does not name each slice once.
    BadPermutation = 5,
    /// No key cell opens.
    NoCell = 6,
    /// The tag of a needed header is wrong.
    HeaderTag = 7,
    /// A header's N is 0 or above P, or its S differs from the geometry.
    HeaderGeometry = 8,
    /// A map entry is neither unmapped nor below P, or it is at or past N and not unmapped.
    BadEntry = 9,
    /// A slice is mapped twice.
    SliceTwice = 10,
    /// The volume is above k.
    VolumeAbove = 11,
    /// The address is N x S or more, or the logical slice to release N or more.
    AddressAbove = 12,
    /// Another length, or the position, is outside its limits.
    WrongLength = 13,
    /// A line of the walk is malformed.
    MalformedLine = 14,
    /// The authentication tag differs.
    TagDiffers = 15,
    /// The session is closed, its geometry is not allowed, its k is above 14, its start place above P,
    /// or an N that it holds of volumes 0 to k not allowed.
    NotOpen = 20,
    /// The tape has fewer bytes left than the call needs, or the position is past its end.
    TapeShort = 21,
    /// No slice that the permutation names from the start place on is free.
    NoFreeSlice = 22,
    /// No key to format with, or more than 15.
    KeyCount = 23,
    /// A key opens the cell of a lower volume.
    LowerCell = 24,
    /// The logical slice to release is unmapped.
    SliceUnmapped = 25,
}

impl Refusal {
    pub fn number(self) -> u8 {
        self as u8
    }
}
