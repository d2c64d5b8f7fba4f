//! Opening: the key cell, the chain of headers, and the maps.

use crate::aes::KEY;
use crate::geometry::{Geometry, IV, VOLUMES};
use crate::permutation::{names_each_slice_once, search};
use crate::refusal::Refusal;
use crate::session::{tables_fit, Session, Tables, KEYS, UNMAPPED};
use crate::{ctr, gcm};

/// Opens the volumes 0 to k for the lowest k whose cell `key` opens. The start place is the first
/// place whose slice is free, or P. A refusal after that of the permutation leaves the tables empty, an
/// earlier one as they were.
pub fn open(
    device: &[u8],
    [b, s, p]: [usize; 3],
    key: &[u8],
    tables: &mut Tables,
    permutation: &[u32],
) -> Result<Session, Refusal> {
    let geometry = Geometry::new(b, s, p).ok_or(Refusal::BadGeometry)?;
    if device.len() != geometry.device_len() {
        return Err(Refusal::DeviceLength);
    }
    let key = key.try_into().map_err(|_| Refusal::KeyLength)?;
    if !tables_fit(geometry, tables.maps, tables.owners) {
        return Err(Refusal::TableLength);
    }
    if !names_each_slice_once(permutation, p) {
        return Err(Refusal::BadPermutation);
    }

    tables.clear();
    let (k, vmk) = open_cell(geometry, device, key).ok_or(Refusal::NoCell)?;
    let (keys, counts) = open_headers(geometry, device, k, vmk)?;
    let mut session = Session {
        b,
        s,
        p,
        k,
        start_place: 0,
        keys,
        counts,
        opened: true,
    };
    for volume in 0..=k {
        let refusal = read_map(geometry, device, &session, volume, tables);
        if refusal.is_err() {
            tables.clear();
        }
        refusal?;
    }
    session.start_place = search(permutation, tables.owners, 0);
    Ok(session)
}

/// Decrypts a text that is stored as IV 12, ciphertext and tag 16. None where the tag is wrong.
pub(crate) fn gcm_open<const N: usize>(key: &[u8; KEY], aad: u8, sealed: &[u8]) -> Option<[u8; N]> {
    let (iv, rest) = sealed.split_at(12);
    let (cipher, rest) = rest.split_at(N);
    let tag = rest[..gcm::TAG].try_into().unwrap();
    let mut text = [0; N];
    gcm::decrypt(key, iv, &[aad], cipher, tag, &mut text).then_some(text)
}

/// The lowest cell that opens, and the VMK in it.
fn open_cell(geometry: Geometry, device: &[u8], key: &[u8; KEY]) -> Option<(usize, [u8; KEY])> {
    (0..VOLUMES).find_map(|i| {
        let vmk = gcm_open(key, i as u8, &device[geometry.cell(i)])?;
        Some((i, vmk))
    })
}

/// Follows the chain from header k down to header 0 and returns the data keys and the counts of
/// logical slices.
fn open_headers(
    geometry: Geometry,
    device: &[u8],
    k: usize,
    mut vmk: [u8; KEY],
) -> Result<([u8; KEYS], [usize; VOLUMES]), Refusal> {
    let (mut keys, mut counts) = ([0; KEYS], [0; VOLUMES]);
    for i in (0..=k).rev() {
        let header = &device[geometry.header(i)];
        let text: [u8; 72] = gcm_open(&vmk, 16 + i as u8, header).ok_or(Refusal::HeaderTag)?;
        let number = |at: usize| u32::from_be_bytes(text[at..at + 4].try_into().unwrap()) as usize;
        counts[i] = number(64);
        if !geometry.allows_count(counts[i]) || number(68) != geometry.s {
            return Err(Refusal::HeaderGeometry);
        }
        keys[KEY * i..KEY * (i + 1)].copy_from_slice(&text[..KEY]);
        vmk.copy_from_slice(&text[KEY..2 * KEY]);
    }
    Ok((keys, counts))
}

/// Reads the map of one volume into the tables, entry by entry, until a bad one.
fn read_map(
    geometry: Geometry,
    device: &[u8],
    session: &Session,
    volume: usize,
    tables: &mut Tables,
) -> Result<(), Refusal> {
    let mut entries = Vec::new();
    for block in device[geometry.maps(volume)].chunks(geometry.b) {
        let (iv, cipher) = block.split_at(IV);
        let mut text = cipher.to_vec();
        let iv = iv.try_into().unwrap();
        ctr::apply(session.data_key(volume), iv, &mut text);
        let numbers = text.chunks(4).map(|four| four.try_into().unwrap());
        entries.extend(numbers.map(u32::from_be_bytes));
    }
    for (logical, &entry) in entries[..geometry.p].iter().enumerate() {
        if entry == UNMAPPED {
            continue;
        }
        if logical >= session.counts[volume] {
            return Err(Refusal::BadEntry);
        }
        let owner = tables.owners.get_mut(entry as usize);
        let owner = owner.ok_or(Refusal::BadEntry)?;
        if *owner != 0 {
            return Err(Refusal::SliceTwice);
        }
        *owner = volume as u8 + 1;
        tables.maps[geometry.entry(volume, logical)] = entry;
    }
    Ok(())
}
