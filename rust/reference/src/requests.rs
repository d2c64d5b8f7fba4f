//! Read, find, write, release and close.

use crate::aes::KEY;
use crate::ctr;
use crate::geometry::{Geometry, IV};
use crate::permutation::{names_each_slice_once, search};
use crate::refusal::Refusal;
use crate::session::{tables_fit, Refused, Session, Stored, Tables, Tape, Target, KEYS, UNMAPPED};

/// The tests with which every request begins: the session, the device, the tables.
fn check_lent(
    device: &[u8],
    maps: &[u32],
    owners: &[u8],
    session: &Session,
) -> Result<Geometry, Refusal> {
    let geometry = session.geometry().ok_or(Refusal::NotOpen)?;
    if device.len() != geometry.device_len() {
        return Err(Refusal::DeviceLength);
    }
    if !tables_fit(geometry, maps, owners) {
        return Err(Refusal::TableLength);
    }
    Ok(geometry)
}

/// N, the logical slices of a volume, where it is open.
fn open_count(session: &Session, volume: usize) -> Result<usize, Refusal> {
    if volume > session.k {
        return Err(Refusal::VolumeAbove);
    }
    Ok(session.counts[volume])
}

/// The logical slice of the target, and the offset of its block in the slice.
fn locate(
    geometry: Geometry,
    session: &Session,
    target: Target,
) -> Result<(usize, usize), Refusal> {
    if target.address >= geometry.blocks(open_count(session, target.volume)?) {
        return Err(Refusal::AddressAbove);
    }
    Ok((target.address / geometry.s, target.address % geometry.s))
}

/// The physical slice of a map entry, or None where it is unmapped.
fn mapped(geometry: Geometry, entry: u32) -> Result<Option<usize>, Refusal> {
    match entry {
        UNMAPPED => Ok(None),
        slice if (slice as usize) < geometry.p => Ok(Some(slice as usize)),
        _ => Err(Refusal::BadEntry),
    }
}

/// The physical slice and the offset of the target, where the slice is mapped.
fn find_block(
    device: &[u8],
    maps: &[u32],
    owners: &[u8],
    session: &Session,
    target: Target,
    right_buffer: impl Fn(Geometry) -> bool,
) -> Result<(Geometry, Option<(usize, usize)>), Refusal> {
    let geometry = check_lent(device, maps, owners, session)?;
    let (logical, offset) = locate(geometry, session, target)?;
    if !right_buffer(geometry) {
        return Err(Refusal::WrongLength);
    }
    let slice = mapped(geometry, maps[geometry.entry(target.volume, logical)])?;
    Ok((geometry, slice.map(|slice| (slice, offset))))
}

/// Reads a block. An unmapped one is zeros.
pub fn read(
    device: &[u8],
    maps: &[u32],
    owners: &[u8],
    session: &Session,
    target: Target,
    buf: &mut [u8],
) -> Result<(), Refusal> {
    let right_buffer = |geometry: Geometry| buf.len() == geometry.b;
    let (geometry, block) = find_block(device, maps, owners, session, target, right_buffer)?;
    match block {
        None => buf.fill(0),
        Some((slice, offset)) => {
            let iv = device[geometry.iv(slice, offset)].try_into().unwrap();
            buf.copy_from_slice(&device[geometry.data(slice, offset)]);
            ctr::apply(session.data_key(target.volume), iv, buf);
        }
    }
    Ok(())
}

/// The ciphertext of a block; empty where it is unmapped, or where a read would be refused.
pub fn find<'a>(
    device: &'a [u8],
    maps: &[u32],
    owners: &[u8],
    session: &Session,
    target: Target,
) -> &'a [u8] {
    match find_block(device, maps, owners, session, target, |_| true) {
        Ok((geometry, Some((slice, offset)))) => &device[geometry.data(slice, offset)],
        _ => &[],
    }
}

/// Writes a block: over the old one where its slice is mapped, else into a free slice. A claim moves
/// the session's start place past the slice that it takes, or to P where it finds none, and stores the
/// map block that holds the entry.
pub fn write(
    device: &mut [u8],
    tables: &mut Tables,
    permutation: &[u32],
    tape: &mut Tape,
    session: &mut Session,
    target: Target,
    text: &[u8],
) -> Result<Stored, Refused> {
    let geometry = check_lent(device, tables.maps, tables.owners, session)?;
    if permutation.len() != geometry.p {
        return Err(Refusal::BadPermutation.into());
    }
    let (logical, offset) = locate(geometry, session, target)?;
    if text.len() != geometry.b {
        return Err(Refusal::WrongLength.into());
    }
    let (volume, index) = (target.volume, geometry.entry(target.volume, logical));

    if let Some(slice) = mapped(geometry, tables.maps[index])? {
        tape.check(IV)?;
        let iv = tape.draw(IV);
        device[geometry.iv(slice, offset)].copy_from_slice(iv);
        let key = session.data_key(volume);
        store(key, iv, text, &mut device[geometry.data(slice, offset)]);
        return Ok(Stored::Rewritten { slice });
    }

    check_map_block(geometry, tables.maps, session, volume, logical)?;
    let (slice, probes) = find_free(permutation, tables.owners, session)?;
    let short = |refusal| Refused { refusal, probes };
    tape.check(geometry.b + IV).map_err(short)?;
    let key = session.data_key(volume);
    let (iv_block, data) = device[geometry.slice(slice)].split_at_mut(geometry.b);
    iv_block.copy_from_slice(tape.draw(geometry.b));
    let zeros = vec![0; geometry.b];
    let blocks = data.chunks_mut(geometry.b).zip(iv_block.chunks(IV));
    for (j, (block, iv)) in blocks.enumerate() {
        store(key, iv, if j == offset { text } else { &zeros }, block);
    }
    tables.maps[index] = slice as u32;
    tables.owners[slice] = volume as u8 + 1;
    session.start_place += probes;
    let iv = tape.draw(IV);
    store_map_block(geometry, device, tables.maps, session, iv, volume, logical);
    Ok(Stored::Claimed { slice, probes })
}

/// Stores the ciphertext of a block.
fn store(key: &[u8; KEY], iv: &[u8], text: &[u8], block: &mut [u8]) {
    block.copy_from_slice(text);
    ctr::apply(key, iv.try_into().unwrap(), block);
}

/// The first free slice from the start place on, and the places looked at. Where no slice is free, the
/// start place becomes P.
fn find_free(
    permutation: &[u32],
    owners: &[u8],
    session: &mut Session,
) -> Result<(usize, usize), Refused> {
    let (start, p) = (session.start_place, session.p);
    let place = search(permutation, owners, start);
    let refused = |refusal, probes| Err(Refused { refusal, probes });
    match permutation.get(place) {
        None => {
            session.start_place = p;
            refused(Refusal::NoFreeSlice, p - start)
        }
        Some(&slice) if slice as usize >= p => refused(Refusal::BadPermutation, place + 1 - start),
        Some(&slice) => Ok((slice as usize, place + 1 - start)),
    }
}

/// Gives back the slice of a logical slice, which is unmapped and reads as zeros afterwards. The start
/// place becomes the slice's place, where that is lower. The map block that holds the entry is stored;
/// the bytes of the slice stay.
pub fn release(
    device: &mut [u8],
    tables: &mut Tables,
    permutation: &[u32],
    tape: &mut Tape,
    session: &mut Session,
    volume: usize,
    logical: usize,
) -> Result<usize, Refusal> {
    let geometry = check_lent(device, tables.maps, tables.owners, session)?;
    if !names_each_slice_once(permutation, geometry.p) {
        return Err(Refusal::BadPermutation);
    }
    if logical >= open_count(session, volume)? {
        return Err(Refusal::AddressAbove);
    }
    check_map_block(geometry, tables.maps, session, volume, logical)?;
    let entry = &mut tables.maps[geometry.entry(volume, logical)];
    let slice = mapped(geometry, *entry)?.ok_or(Refusal::SliceUnmapped)?;
    tape.check(IV)?;

    *entry = UNMAPPED;
    tables.owners[slice] = 0;
    let mut places = permutation.iter();
    let place = places.position(|&named| named as usize == slice).unwrap();
    session.start_place = session.start_place.min(place);
    let iv = tape.draw(IV);
    store_map_block(geometry, device, tables.maps, session, iv, volume, logical);
    Ok(slice)
}

/// Closes the session: wipes the tables and the keys. The device is lent for its length alone.
pub fn close(device: &[u8], tables: &mut Tables, session: &mut Session) -> Result<(), Refusal> {
    check_lent(device, tables.maps, tables.owners, session)?;
    tables.clear();
    session.keys = [0; KEYS];
    session.opened = false;
    Ok(())
}

/// The part of the map table that the map block with the entry of a logical slice holds, as entries
/// with their logical slices.
fn map_block_entries(
    geometry: Geometry,
    maps: &[u32],
    volume: usize,
    logical: usize,
) -> impl Iterator<Item = (usize, u32)> + '_ {
    let slices = geometry.map_block_slices(geometry.map_block_of(logical));
    slices.map(move |logical| (logical, maps[geometry.entry(volume, logical)]))
}

/// Refuses where an entry of the map block that holds a logical slice's entry is no slice, or is mapped
/// at or past the volume's count.
fn check_map_block(
    geometry: Geometry,
    maps: &[u32],
    session: &Session,
    volume: usize,
    logical: usize,
) -> Result<(), Refusal> {
    for (logical, entry) in map_block_entries(geometry, maps, volume, logical) {
        if mapped(geometry, entry)?.is_some() && logical >= session.counts[volume] {
            return Err(Refusal::BadEntry);
        }
    }
    Ok(())
}

/// Stores the map block that holds a logical slice's entry, from the map table.
fn store_map_block(
    geometry: Geometry,
    device: &mut [u8],
    maps: &[u32],
    session: &Session,
    iv: &[u8],
    volume: usize,
    logical: usize,
) {
    let entries = map_block_entries(geometry, maps, volume, logical);
    let entries: Vec<u32> = entries.map(|(_, entry)| entry).collect();
    let block = geometry.map_block(volume, geometry.map_block_of(logical));
    write_map_block(session.data_key(volume), iv, &entries, &mut device[block]);
}

/// Writes the IV and the entries of a map block. Entries past the last are unmapped: four bytes FF.
pub(crate) fn write_map_block(key: &[u8; KEY], drawn: &[u8], entries: &[u32], block: &mut [u8]) {
    let (iv, text) = block.split_at_mut(IV);
    iv.copy_from_slice(drawn);
    text.fill(0xff);
    for (bytes, entry) in text.chunks_mut(4).zip(entries) {
        bytes.copy_from_slice(&entry.to_be_bytes());
    }
    ctr::apply(key, drawn.try_into().unwrap(), text);
}
