//! Formatting: a device of tape bytes, with the cell, the header and the empty map of each volume.

use crate::aes::KEY;
use crate::gcm;
use crate::geometry::{Geometry, CELL, IV, VOLUMES};
use crate::opening::gcm_open;
use crate::refusal::Refusal;
use crate::requests::write_map_block;
use crate::session::Tape;

/// The bytes of a GCM IV.
const GCM_IV: usize = 12;
/// The associated data of header 0; that of header `i` is `i` more.
const HEADER_AAD: u8 = 16;

/// The keys of one volume, in the order in which they are drawn.
struct VolumeKeys<'a> {
    vmk: &'a [u8; KEY],
    vek: &'a [u8; KEY],
}

/// Makes a blank stick: key `i` opens the volumes 0 to `i`, in which nothing is mapped. `keys` has a key
/// for each of the volumes, end to end, and `counts` its number of logical slices (N). A refusal leaves
/// every byte of the device, and the tape's position.
pub fn format(
    device: &mut [u8],
    [b, s, p]: [usize; 3],
    volumes: usize,
    keys: &[u8],
    counts: &[usize],
    tape: &mut Tape,
) -> Result<(), Refusal> {
    let geometry = Geometry::new(b, s, p).ok_or(Refusal::BadGeometry)?;
    if counts.len() != volumes || counts.iter().any(|&count| !geometry.allows_count(count)) {
        return Err(Refusal::BadGeometry);
    }
    if device.len() != geometry.device_len() {
        return Err(Refusal::DeviceLength);
    }
    if !(1..=VOLUMES).contains(&volumes) {
        return Err(Refusal::KeyCount);
    }
    if keys.len() != KEY * volumes {
        return Err(Refusal::KeyLength);
    }
    let volume = 2 * KEY + 2 * GCM_IV + IV * geometry.map_blocks();
    tape.check(device.len() + volumes * volume)?;

    let (keys, _) = keys.as_chunks();
    // The tape itself stays until nothing can be refused any more.
    let mut draws = tape.clone();
    let filling = draws.draw(device.len());
    let volumes: Vec<VolumeKeys> = (0..volumes).map(|_| draw_keys(&mut draws)).collect();
    let cells = seal_cells(keys, &volumes, &mut draws);
    if opens_lower_cell(keys, &cells) {
        return Err(Refusal::LowerCell);
    }

    device.copy_from_slice(filling);
    for (i, cell) in cells.iter().enumerate() {
        device[geometry.cell(i)].copy_from_slice(cell);
    }
    for (i, &count) in counts.iter().enumerate() {
        write_header(geometry, &volumes, i, count, &mut draws, device);
    }
    *tape = draws;
    Ok(())
}

fn draw_keys<'a>(tape: &mut Tape<'a>) -> VolumeKeys<'a> {
    let mut draw = || tape.draw(KEY).try_into().unwrap();
    VolumeKeys {
        vmk: draw(),
        vek: draw(),
    }
}

/// Stores a text as an IV from the tape, ciphertext and tag at the start of `out`.
fn seal(tape: &mut Tape, key: &[u8; KEY], aad: u8, text: &[u8], out: &mut [u8]) {
    let (iv, rest) = out.split_at_mut(GCM_IV);
    let (cipher, rest) = rest.split_at_mut(text.len());
    iv.copy_from_slice(tape.draw(GCM_IV));
    let tag = gcm::encrypt(key, iv, &[aad], text, cipher);
    rest[..gcm::TAG].copy_from_slice(&tag);
}

/// The cells as they are to stand on the device, each sealed under its own key.
fn seal_cells(keys: &[[u8; KEY]], volumes: &[VolumeKeys], tape: &mut Tape) -> Vec<[u8; CELL]> {
    let mut cells = vec![[0; CELL]; volumes.len()];
    for (i, cell) in cells.iter_mut().enumerate() {
        seal(tape, &keys[i], i as u8, volumes[i].vmk, cell);
    }
    cells
}

/// Whether a key opens the cell of a lower volume. The key need not be that cell's own: a ciphertext
/// and tag of GCM can be right under two keys.
fn opens_lower_cell(keys: &[[u8; KEY]], cells: &[[u8; CELL]]) -> bool {
    let opens = |key, j: usize| gcm_open::<KEY>(key, j as u8, &cells[j]).is_some();
    (0..keys.len()).any(|i| (0..i).any(|j| opens(&keys[i], j)))
}

/// Writes header `i` and its map blocks, in which no entry is mapped. Below volume 0 is a key of
/// zeros.
fn write_header(
    geometry: Geometry,
    volumes: &[VolumeKeys],
    i: usize,
    count: usize,
    tape: &mut Tape,
    device: &mut [u8],
) {
    let VolumeKeys { vmk, vek } = volumes[i];
    let below = match i {
        0 => &[0; KEY],
        _ => volumes[i - 1].vmk,
    };
    let numbers = [count, geometry.s].map(|number| (number as u32).to_be_bytes());
    let text = [&vek[..], below, numbers.as_flattened()].concat();
    let header = &mut device[geometry.header(i)];
    seal(tape, vmk, HEADER_AAD + i as u8, &text, header);
    for block in device[geometry.maps(i)].chunks_mut(geometry.b) {
        write_map_block(vek, tape.draw(IV), &[], block);
    }
}
