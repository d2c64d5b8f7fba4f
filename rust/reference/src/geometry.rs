//! The geometry of a stick: where its blocks begin.

use std::ops::Range;

/// Volumes of a stick.
pub const VOLUMES: usize = 15;
/// The bytes of a key cell: IV 12, ciphertext 32, tag 16.
pub const CELL: usize = 60;
/// The bytes of the salt before the cells.
const SALT: usize = 16;
/// The bytes of a counter-mode IV.
pub const IV: usize = 16;

/// A geometry that is allowed.
#[derive(Clone, Copy, PartialEq, Debug)]
pub struct Geometry {
    /// The bytes in a block.
    pub b: usize,
    /// The data blocks in a slice.
    pub s: usize,
    /// The physical slices.
    pub p: usize,
}

impl Geometry {
    /// None where the numbers are not allowed.
    pub fn new(b: usize, s: usize, p: usize) -> Option<Self> {
        let allowed =
            (b == 1024 || b == 4096) && (1..=b / IV).contains(&s) && (1..=4096).contains(&p);
        allowed.then_some(Geometry { b, s, p })
    }

    /// The entries of a map block: four bytes each, after the IV.
    pub fn entries_in_block(self) -> usize {
        (self.b - IV) / 4
    }

    /// m, the map blocks of a volume.
    pub fn map_blocks(self) -> usize {
        self.p.div_ceil(self.entries_in_block())
    }

    /// H, the header blocks of the stick, the master block included.
    pub fn header_blocks(self) -> usize {
        1 + VOLUMES * (1 + self.map_blocks())
    }

    /// The bytes of the stick.
    pub fn device_len(self) -> usize {
        self.b * (self.header_blocks() + self.p * (self.s + 1))
    }

    /// Whether a volume can have this count of logical slices (N).
    pub fn allows_count(self, count: usize) -> bool {
        (1..=self.p).contains(&count)
    }

    /// The blocks of a volume with a count of logical slices that is allowed.
    pub fn blocks(self, count: usize) -> usize {
        count * self.s
    }

    /// The index of a logical slice's entry in the map table.
    pub fn entry(self, volume: usize, logical: usize) -> usize {
        volume * self.p + logical
    }

    /// The bytes of key cell `i`.
    pub fn cell(self, i: usize) -> Range<usize> {
        let start = SALT + CELL * i;
        start..start + CELL
    }

    /// The bytes of header `i`, its map blocks included.
    pub fn header(self, i: usize) -> Range<usize> {
        let blocks = 1 + self.map_blocks();
        let start = self.b * (1 + i * blocks);
        start..start + self.b * blocks
    }

    /// The bytes of the map blocks of header `i`.
    pub fn maps(self, i: usize) -> Range<usize> {
        let header = self.header(i);
        header.start + self.b..header.end
    }

    /// The number of the map block, among those of a volume, that holds a logical slice's entry.
    pub fn map_block_of(self, logical: usize) -> usize {
        logical / self.entries_in_block()
    }

    /// The logical slices whose entries map block `t` of a volume holds.
    pub fn map_block_slices(self, t: usize) -> Range<usize> {
        let entries = self.entries_in_block();
        t * entries..self.p.min((t + 1) * entries)
    }

    /// The bytes of map block `t` of header `i`.
    pub fn map_block(self, i: usize, t: usize) -> Range<usize> {
        let start = self.maps(i).start + self.b * t;
        start..start + self.b
    }

    /// The bytes of slice `slice`, its IV block included.
    pub fn slice(self, slice: usize) -> Range<usize> {
        let len = self.b * (self.s + 1);
        let start = self.b * self.header_blocks() + slice * len;
        start..start + len
    }

    /// The bytes of the IV of data block `offset` of a slice.
    pub fn iv(self, slice: usize, offset: usize) -> Range<usize> {
        let start = self.slice(slice).start + IV * offset;
        start..start + IV
    }

    /// The bytes of data block `offset` of a slice.
    pub fn data(self, slice: usize, offset: usize) -> Range<usize> {
        let start = self.slice(slice).start + self.b * (1 + offset);
        start..start + self.b
    }
}
