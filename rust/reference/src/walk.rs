//! The walk: frames in lowercase hexadecimal, one a line, each with one answer line.

use crate::geometry::{Geometry, IV, VOLUMES};
use crate::permutation::{names_each_slice_once, search};
use crate::refusal::Refusal;
use crate::session::UNMAPPED;

/// The longest frame, in bytes.
const FRAME_LIMIT: usize = 513;
/// The most slices of a stick that is walked.
const SLICES_LIMIT: usize = 256;
/// The frames 03 of the right length that are not malformed.
const REQUESTS_LIMIT: usize = 4096;
/// The answer byte of a line that is not refused.
const SERVED: u8 = 0;

/// A served frame 03.
struct Placed {
    slice: u32,
    /// The device block that holds the asked block.
    block: usize,
    /// The places looked at, from the start place on: 0 for a rewrite.
    probes: usize,
    /// The tape position afterwards.
    position: usize,
}

/// What the lines so far have left.
#[derive(Default)]
pub struct Walk {
    /// None until a frame 01 is accepted.
    geometry: Option<Geometry>,
    /// Empty until a frame 02 is accepted.
    permutation: Vec<u32>,
    /// The physical slice of logical slice `l` of volume `i` is at `i * P + l`.
    maps: Vec<u32>,
    /// For each physical slice 0 where it is free, and `i + 1` where volume `i` holds it.
    owners: Vec<u8>,
    /// The place of the permutation at which a claim begins to look: 0 at first, when all is free.
    start_place: usize,
    /// The frames 03 of the right length, up to the limit.
    requests: usize,
    /// The tape bytes used.
    position: usize,
}

impl Walk {
    pub fn new() -> Self {
        Walk::default()
    }

    /// Takes one line without its end, and appends the answer line.
    pub fn line(&mut self, line: &[u8], out: &mut Vec<u8>) {
        match self.answer(line) {
            Ok(None) => push_hex(&[SERVED], out),
            Ok(Some(placed)) => {
                push_hex(&[SERVED], out);
                push_hex(&(placed.slice as u16).to_be_bytes(), out);
                push_hex(&(placed.block as u32).to_be_bytes(), out);
                push_hex(&(placed.probes as u16).to_be_bytes(), out);
                push_hex(&(placed.position as u32).to_be_bytes(), out);
            }
            Err(refusal) => push_hex(&[refusal.number()], out),
        }
        out.push(b'\n');
    }

    fn answer(&mut self, line: &[u8]) -> Result<Option<Placed>, Refusal> {
        let mut bytes = [0; FRAME_LIMIT];
        let frame = frame(line, &mut bytes).ok_or(Refusal::MalformedLine)?;
        match frame {
            [1, numbers @ ..] => self.set_geometry(numbers).map(|()| None),
            [2, slices @ ..] => self.set_permutation(slices).map(|()| None),
            [3, request @ ..] => self.request(request).map(Some),
            _ => Err(Refusal::MalformedLine),
        }
    }

    /// Frame 01: B, S and P.
    fn set_geometry(&mut self, numbers: &[u8]) -> Result<(), Refusal> {
        let &[b0, b1, s0, s1, p0, p1] = numbers else {
            return Err(Refusal::MalformedLine);
        };
        if self.geometry.is_some() {
            return Err(Refusal::MalformedLine);
        }
        let [b, s, p] = [[b0, b1], [s0, s1], [p0, p1]].map(|n| usize::from(u16::from_be_bytes(n)));
        let geometry = Geometry::new(b, s, p).ok_or(Refusal::BadGeometry)?;
        if p > SLICES_LIMIT {
            return Err(Refusal::BadGeometry);
        }
        self.geometry = Some(geometry);
        self.maps = vec![UNMAPPED; VOLUMES * p];
        self.owners = vec![0; p];
        Ok(())
    }

    /// Frame 02: P slices, each once.
    fn set_permutation(&mut self, slices: &[u8]) -> Result<(), Refusal> {
        if !self.permutation.is_empty() {
            return Err(Refusal::MalformedLine);
        }
        let geometry = self.geometry.ok_or(Refusal::NotOpen)?;
        let slices = slices.chunks_exact(2);
        let whole = slices.remainder().is_empty();
        let slices = slices.map(|n| u32::from(u16::from_be_bytes([n[0], n[1]])));
        let slices: Vec<u32> = slices.collect();
        if !whole || !names_each_slice_once(&slices, geometry.p) {
            return Err(Refusal::BadPermutation);
        }
        self.permutation = slices;
        Ok(())
    }

    /// Frame 03: a write to an address of a volume.
    fn request(&mut self, request: &[u8]) -> Result<Placed, Refusal> {
        let &[volume, a0, a1, a2, a3] = request else {
            return Err(Refusal::MalformedLine);
        };
        if self.requests == REQUESTS_LIMIT {
            return Err(Refusal::MalformedLine);
        }
        self.requests += 1;
        let geometry = match self.geometry {
            Some(geometry) if !self.permutation.is_empty() => geometry,
            _ => return Err(Refusal::NotOpen),
        };
        let volume = usize::from(volume);
        let address = u32::from_be_bytes([a0, a1, a2, a3]) as usize;
        if volume >= VOLUMES {
            return Err(Refusal::VolumeAbove);
        }
        if address >= geometry.blocks(geometry.p) {
            return Err(Refusal::AddressAbove);
        }

        let entry = geometry.entry(volume, address / geometry.s);
        let mut slice = self.maps[entry];
        let mut probes = 0;
        if slice == UNMAPPED {
            (slice, probes) = self.find_free()?;
            self.maps[entry] = slice;
            self.owners[slice as usize] = volume as u8 + 1;
            // The slice's IV block, and the IV of the map block that holds the entry.
            self.position += geometry.b + IV;
        } else {
            self.position += IV;
        }
        let start = geometry.header_blocks() + slice as usize * (geometry.s + 1);
        Ok(Placed {
            slice,
            block: start + 1 + address % geometry.s,
            probes,
            position: self.position,
        })
    }

    /// The first free slice from the start place on, and the places looked at. The start place moves
    /// past it, or to P where no slice is free.
    fn find_free(&mut self) -> Result<(u32, usize), Refusal> {
        let start = self.start_place;
        let place = search(&self.permutation, &self.owners, start);
        let Some(&slice) = self.permutation.get(place) else {
            self.start_place = place;
            return Err(Refusal::NoFreeSlice);
        };
        self.start_place = place + 1;
        Ok((slice, place + 1 - start))
    }
}

/// The bytes of a line, or None where it is not the lowercase hexadecimal of 1 to 513 bytes.
fn frame<'a>(line: &[u8], bytes: &'a mut [u8; FRAME_LIMIT]) -> Option<&'a [u8]> {
    let pairs = line.chunks_exact(2);
    if line.is_empty() || !pairs.remainder().is_empty() {
        return None;
    }
    let frame = bytes.get_mut(..pairs.len())?;
    for (byte, digits) in frame.iter_mut().zip(pairs) {
        *byte = digit(digits[0])? << 4 | digit(digits[1])?;
    }
    Some(frame)
}

/// The value of a lowercase hexadecimal digit.
fn digit(character: u8) -> Option<u8> {
    match character {
        b'0'..=b'9' => Some(character - b'0'),
        b'a'..=b'f' => Some(character - b'a' + 10),
        _ => None,
    }
}

fn push_hex(bytes: &[u8], out: &mut Vec<u8>) {
    const DIGITS: &[u8; 16] = b"0123456789abcdef";
    for &byte in bytes {
        out.push(DIGITS[usize::from(byte >> 4)]);
        out.push(DIGITS[usize::from(byte & 15)]);
    }
}

/// A line without the byte 0a at its end, which the last line may lack.
pub fn without_end(line: &[u8]) -> &[u8] {
    line.strip_suffix(b"\n").unwrap_or(line)
}

/// The output for a whole input.
pub fn walk(input: &[u8]) -> Vec<u8> {
    let mut walk = Walk::new();
    let mut out = Vec::new();
    for line in input.split_inclusive(|&byte| byte == b'\n') {
        walk.line(without_end(line), &mut out);
    }
    out
}
