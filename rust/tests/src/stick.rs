//! Builds sticks for tests and benchmarks, with the layout and the ciphers of the reference.

use std::collections::HashMap;

use hiwalgam_reference::aes::KEY;
use hiwalgam_reference::geometry::{Geometry, IV};
use hiwalgam_reference::session::Tape;
use hiwalgam_reference::{ctr, formatting, gcm};

use crate::inputs::Random;
use crate::interface::{Target, UNMAPPED, VOLUMES};

/// What a stick holds of one volume.
#[derive(Clone)]
pub struct Volume {
    /// The caller's key that opens the volume's cell.
    pub key: [u8; KEY],
    pub vmk: [u8; KEY],
    pub vek: [u8; KEY],
    /// P entries, which need not be right.
    pub map: Vec<u32>,
    /// N and S as the header gives them.
    pub numbers: [u32; 2],
}

/// A stick with what was put into it.
#[derive(Clone)]
pub struct Stick {
    pub geometry: Geometry,
    pub volumes: Vec<Volume>,
    pub device: Vec<u8>,
    /// The text of every block that is mapped.
    pub texts: HashMap<Target, Vec<u8>>,
}

impl Volume {
    /// A volume with random keys, as large as the stick, with nothing mapped.
    pub fn new(random: &mut Random, geometry: Geometry) -> Self {
        let keys = [(); 3].map(|()| random.array());
        Volume::with_keys(geometry, keys, geometry.p)
    }

    /// A volume with its key, VMK and VEK and a count of logical slices, with nothing mapped.
    fn with_keys(geometry: Geometry, [key, vmk, vek]: [[u8; KEY]; 3], count: usize) -> Self {
        Volume {
            key,
            vmk,
            vek,
            map: vec![UNMAPPED; geometry.p],
            numbers: [count as u32, geometry.s as u32],
        }
    }

    /// The same volume with another count of logical slices.
    pub fn with_count(mut self, count: usize) -> Self {
        self.numbers[0] = count as u32;
        self
    }

    /// N, the logical slices of the volume.
    pub fn count(&self) -> usize {
        self.numbers[0] as usize
    }
}

/// The tape bytes that a formatting takes: the device's, and for each volume VMK and VEK, the IVs of
/// cell and header, and those of the map blocks.
pub fn format_need(geometry: Geometry, volumes: usize) -> usize {
    geometry.device_len() + volumes * (32 + 32 + 12 + 12 + IV * geometry.map_blocks())
}

impl Stick {
    /// A blank stick with so many volumes, each as large as the stick, formatted by the reference.
    pub fn blank(random: &mut Random, geometry: Geometry, volumes: usize) -> Self {
        Stick::blank_with(random, geometry, &vec![geometry.p; volumes])
    }

    /// A blank stick with a volume for each count of logical slices.
    pub fn blank_with(random: &mut Random, geometry: Geometry, counts: &[usize]) -> Self {
        let (Geometry { b, s, p }, volumes) = (geometry, counts.len());
        let (mut device, keys) = (vec![0; geometry.device_len()], random.bytes(KEY * volumes));
        let mut tape = vec![0; format_need(geometry, volumes)];
        random.fill_ivs(&mut tape);
        let (bytes, position) = (&tape[..], 0);
        let lent = &mut Tape { bytes, position };
        formatting::format(&mut device, [b, s, p], volumes, &keys, counts, lent).unwrap();
        Stick::formatted(geometry, &keys, counts, &tape, &device)
    }

    /// The stick that a formatting with these keys, counts and tape bytes left: VMK and VEK of each
    /// volume are on the tape, behind as many bytes as the device has.
    pub fn formatted(
        geometry: Geometry,
        keys: &[u8],
        counts: &[usize],
        tape: &[u8],
        device: &[u8],
    ) -> Self {
        let ((keys, _), (drawn, _)) = (keys.as_chunks(), tape[device.len()..].as_chunks());
        let volumes = keys.iter().zip(drawn.chunks_exact(2)).zip(counts);
        let volumes = volumes.map(|((&key, drawn), &count)| {
            Volume::with_keys(geometry, [key, drawn[0], drawn[1]], count)
        });
        Stick {
            geometry,
            volumes: volumes.collect(),
            device: device.to_vec(),
            texts: HashMap::new(),
        }
    }

    /// A stick with so many volumes, each as large as the stick, which map up to `mapped` slices at
    /// random, each once.
    pub fn random(random: &mut Random, geometry: Geometry, volumes: usize, mapped: usize) -> Self {
        Stick::random_with(random, geometry, &vec![geometry.p; volumes], mapped)
    }

    /// The same with a volume for each count of logical slices.
    pub fn random_with(
        random: &mut Random,
        geometry: Geometry,
        counts: &[usize],
        mapped: usize,
    ) -> Self {
        let volumes = counts.iter();
        let volumes = volumes.map(|&count| Volume::new(random, geometry).with_count(count));
        let mut volumes: Vec<Volume> = volumes.collect();
        for slice in random.permutation(geometry.p).into_iter().take(mapped) {
            let volume = &mut volumes[random.below(counts.len())];
            let logical = random.below(volume.count());
            volume.map[logical] = slice;
        }
        Stick::new(random, geometry, volumes)
    }

    /// A stick of random bytes with these volumes, and random texts in the mapped blocks.
    pub fn new(random: &mut Random, geometry: Geometry, volumes: Vec<Volume>) -> Self {
        assert!(volumes.len() <= VOLUMES);
        let mut device = vec![0; geometry.device_len()];
        random.fill(&mut device);
        for i in 0..volumes.len() {
            for block in device[geometry.maps(i)].chunks_mut(geometry.b) {
                random.fill_ivs(&mut block[..IV]);
            }
        }
        for slice in 0..geometry.p {
            let start = geometry.slice(slice).start;
            random.fill_ivs(&mut device[start..start + IV * geometry.s]);
        }
        let mut stick = Stick {
            geometry,
            volumes,
            device,
            texts: HashMap::new(),
        };
        for i in 0..stick.volumes.len() {
            let key = stick.volumes[i].key;
            stick.seal_cell(random, i, &key);
            stick.seal_header(random, i);
            stick.write_map(random, i);
            stick.write_texts(random, i);
        }
        stick
    }

    /// The keys that open the volumes, end to end.
    pub fn keys(&self) -> Vec<u8> {
        self.volumes.iter().flat_map(|volume| volume.key).collect()
    }

    /// N, the logical slices, of each volume.
    pub fn counts(&self) -> Vec<usize> {
        self.volumes.iter().map(Volume::count).collect()
    }

    /// Seals the VMK of volume `i` into its cell under `key`.
    pub fn seal_cell(&mut self, random: &mut Random, i: usize, key: &[u8; KEY]) {
        let cell = &mut self.device[self.geometry.cell(i)];
        seal(random, key, i as u8, &self.volumes[i].vmk, cell);
    }

    /// Seals the header of volume `i`. Volume 0 has random bytes for the VMK below it.
    pub fn seal_header(&mut self, random: &mut Random, i: usize) {
        let below = match i {
            0 => random.array(),
            _ => self.volumes[i - 1].vmk,
        };
        let Volume {
            vmk, vek, numbers, ..
        } = &self.volumes[i];
        let numbers = numbers.map(u32::to_be_bytes);
        let text = [&vek[..], &below, numbers.as_flattened()].concat();
        let header = &mut self.device[self.geometry.header(i)];
        seal(random, vmk, 16 + i as u8, &text, header);
    }

    /// Writes the map blocks of volume `i`. The IVs are those that are on the stick, and an entry
    /// past the last is random: it must be ignored.
    pub fn write_map(&mut self, random: &mut Random, i: usize) {
        let Geometry { b, .. } = self.geometry;
        let volume = &self.volumes[i];
        let blocks = self.device[self.geometry.maps(i)].chunks_mut(b);
        let parts = volume.map.chunks(self.geometry.entries_in_block());
        for (block, entries) in blocks.zip(parts) {
            let (iv, text) = block.split_at_mut(IV);
            random.fill(text);
            let numbers: Vec<u8> = entries.iter().flat_map(|e| e.to_be_bytes()).collect();
            text[..numbers.len()].copy_from_slice(&numbers);
            ctr::apply(&volume.vek, (&*iv).try_into().unwrap(), text);
        }
    }

    /// Writes random texts into all blocks that volume `i` maps, under the IVs on the stick.
    fn write_texts(&mut self, random: &mut Random, i: usize) {
        let geometry = self.geometry;
        let Volume { vek, map, .. } = &self.volumes[i];
        for (logical, &entry) in map.iter().enumerate() {
            let slice = entry as usize;
            if slice >= geometry.p {
                continue;
            }
            for offset in 0..geometry.s {
                let text = random.bytes(geometry.b).to_vec();
                let iv: [u8; IV] = self.device[geometry.iv(slice, offset)].try_into().unwrap();
                let block = &mut self.device[geometry.data(slice, offset)];
                block.copy_from_slice(&text);
                ctr::apply(vek, &iv, block);
                let target = Target {
                    volume: i,
                    address: logical * geometry.s + offset,
                };
                self.texts.insert(target, text);
            }
        }
    }
}

/// Stores a text as a random IV of 12 bytes, ciphertext and tag at the start of `out`.
fn seal(random: &mut Random, key: &[u8; KEY], aad: u8, text: &[u8], out: &mut [u8]) {
    let (iv, rest) = out.split_at_mut(12);
    let (cipher, rest) = rest.split_at_mut(text.len());
    random.fill(iv);
    let tag = gcm::encrypt(key, iv, &[aad], text, cipher);
    rest[..gcm::TAG].copy_from_slice(&tag);
}
