//! The proved ciphers against the reference, on inputs from a seeded generator. `HIWALGAM_SEED` sets
//! another seed. Each buffer stands between guard bytes, and each call is judged by the whole of
//! every buffer, guards included.

use std::collections::BTreeSet;

use hiwalgam::Refusal::{KeyLength, TagDiffers, WrongLength};
use hiwalgam::{GCM_AAD_LIMIT, GCM_TEXT_LIMIT, POSITION_LIMIT, TEXT_LIMIT};
use hiwalgam_reference::ctr;
use hiwalgam_tests::adapters::{CFunctions, Reference, Wrapper};
use hiwalgam_tests::inputs::{Guarded, Random};
use hiwalgam_tests::interface::{Answer, Ciphers, SERVED};

// ---- calls

#[derive(Clone, Copy, PartialEq, Debug)]
enum Call {
    EncryptBlock,
    CounterMode,
    KeystreamAt,
    Seal,
    Open,
}
use Call::*;

const CALLS: [Call; 5] = [EncryptBlock, CounterMode, KeystreamAt, Seal, Open];

/// The arguments of a call. A call uses only those that it has: the block of `EncryptBlock` is the
/// text.
#[derive(Clone, PartialEq)]
struct Arguments {
    key: Guarded,
    iv: Guarded,
    position: u64,
    aad: Guarded,
    text: Guarded,
    tag: Guarded,
    out: Guarded,
}

impl Arguments {
    /// Arguments for counter mode.
    fn ctr(random: &mut Random, text_len: usize) -> Self {
        Arguments {
            key: random.bytes(32),
            iv: random.bytes(16),
            position: 0,
            aad: Guarded::blank(0),
            text: random.bytes(text_len),
            tag: Guarded::blank(0),
            out: Guarded::blank(text_len),
        }
    }

    /// Arguments for GCM, with the tag blank.
    fn gcm(random: &mut Random, text_len: usize, aad_len: usize) -> Self {
        Arguments {
            iv: random.bytes(12),
            aad: random.bytes(aad_len),
            tag: Guarded::blank(16),
            ..Arguments::ctr(random, text_len)
        }
    }

    /// Arguments of `Open` for what a call of `Seal` left in `sealed`.
    fn opening(sealed: &Arguments) -> Self {
        Arguments {
            text: sealed.out.clone(),
            out: Guarded::blank(sealed.out.len()),
            ..sealed.clone()
        }
    }

    /// Arguments with which `call` is served.
    fn right(random: &mut Random, call: Call) -> Self {
        match call {
            EncryptBlock => Arguments::ctr(random, 16),
            CounterMode | KeystreamAt => Arguments::ctr(random, 20),
            Seal => Arguments::gcm(random, 20, 7),
            Open => {
                let mut sealed = Arguments::gcm(random, 20, 7);
                assert_eq!(run(Seal, &mut sealed), SERVED);
                Arguments::opening(&sealed)
            }
        }
    }

    fn call(&mut self, call: Call, ciphers: &dyn Ciphers) -> Answer {
        let Arguments {
            key,
            iv,
            position,
            aad,
            text,
            tag,
            out,
        } = self;
        match call {
            EncryptBlock => ciphers.encrypt_block(key, text, out),
            CounterMode => ciphers.counter_mode(key, iv, text, out),
            KeystreamAt => ciphers.keystream_at(key, iv, *position, text, out),
            Seal => ciphers.gcm_seal(key, iv, aad, text, out, tag),
            Open => ciphers.gcm_open(key, iv, aad, text, tag, out),
        }
    }

    fn lengths(&self) -> String {
        format!(
            "key {}, iv {}, position {}, aad {}, text {}, tag {}, out {}",
            self.key.len(),
            self.iv.len(),
            self.position,
            self.aad.len(),
            self.text.len(),
            self.tag.len(),
            self.out.len()
        )
    }
}

/// Calls the C functions on `arguments` and returns their answer. The other implementations must
/// give the same answer and leave the same bytes everywhere. A served call may change only what it
/// is to write, and a refused one changes nothing.
fn run(call: Call, arguments: &mut Arguments) -> Answer {
    let mut unchanged = arguments.clone();
    let lengths = arguments.lengths();
    let answer = arguments.call(call, &CFunctions);
    for ciphers in [&Wrapper as &dyn Ciphers, &Reference] {
        let mut other = unchanged.clone();
        let other_answer = other.call(call, ciphers);
        assert_eq!(answer, other_answer, "{call:?} by {ciphers:?}, {lengths}");
        assert!(*arguments == other, "{call:?} by {ciphers:?}, {lengths}");
    }

    if answer == SERVED {
        unchanged.out = Guarded::new(&arguments.out);
        if call == Seal {
            unchanged.tag = Guarded::new(&arguments.tag);
        }
    }
    assert!(*arguments == unchanged, "change by {call:?}, {lengths}");
    answer
}

/// A counter as the IV.
fn counter(value: u128) -> Guarded {
    Guarded::new(&value.to_be_bytes())
}

/// Counters whose next value carries out of the low 32, 64 and 96 bits and out of all 128.
const CARRIES: [(u128, u128); 4] = [
    (
        0x00000001_00000002_00000003_ffffffff,
        0x00000001_00000002_00000004_00000000,
    ),
    (
        0x00000001_00000002_ffffffff_ffffffff,
        0x00000001_00000003_00000000_00000000,
    ),
    (
        0x00000001_ffffffff_ffffffff_ffffffff,
        0x00000002_00000000_00000000_00000000,
    ),
    (
        0xffffffff_ffffffff_ffffffff_ffffffff,
        0x00000000_00000000_00000000_00000000,
    ),
];

// ---- the block cipher

#[test]
fn blocks() {
    let mut random = Random::seeded();
    for _ in 0..2000 {
        let mut arguments = Arguments::right(&mut random, EncryptBlock);
        assert_eq!(run(EncryptBlock, &mut arguments), SERVED);
    }
}

// ---- counter mode
//
// The library enciphers short texts block by block and long ones on bit planes, 16 blocks to a lane and
// up to 16 lanes at once. Inputs are chosen by that; what is due is the same for both forms.

const BLOCK: usize = 16;
const LANE: usize = 16 * BLOCK;

/// A text of so many bytes is a short one.
const SHORT: usize = 96;

/// Blocks of a text after which the counter carries: inside a lane, at its edge, and in other lanes.
const CARRY_AFTER: [usize; 8] = [1, 7, 15, 16, 17, 31, 32, 255];

/// Every length up to 600, and those around the end of each block and of each lane, of which the last
/// are above the limit.
fn text_lengths() -> BTreeSet<usize> {
    let around = |edge: usize, by: usize| edge - by..=edge + by;
    let blocks = (BLOCK..=TEXT_LIMIT).step_by(BLOCK);
    let lanes = (LANE..=TEXT_LIMIT).step_by(LANE);
    (0..=600)
        .chain(blocks.flat_map(|edge| around(edge, 1)))
        .chain(lanes.flat_map(|edge| around(edge, 17)))
        .collect()
}

/// The answer to a text of so many bytes.
fn answer_to(len: usize) -> Answer {
    if len <= 4096 {
        SERVED
    } else {
        Err(WrongLength)
    }
}

#[test]
fn counter_mode_lengths() {
    let mut random = Random::seeded();
    for len in text_lengths() {
        let mut arguments = Arguments::ctr(&mut random, len);
        let answer = answer_to(len);
        assert_eq!(run(CounterMode, &mut arguments), answer, "length {len}");
        if answer == SERVED {
            // Counter mode once more gives the text.
            let text = arguments.text;
            arguments.text = arguments.out;
            arguments.out = Guarded::blank(len);
            assert_eq!(run(CounterMode, &mut arguments), SERVED, "length {len}");
            assert!(arguments.out == text, "length {len}");
        }
    }
}

#[test]
fn counter_mode_carries() {
    let mut random = Random::seeded();
    for (last, next) in CARRIES {
        let key = random.bytes(32);
        let [at_last, at_next] = [last, next].map(|value| {
            let mut block = Arguments::right(&mut random, EncryptBlock);
            block.key = key.clone();
            block.text = counter(value);
            assert_eq!(run(EncryptBlock, &mut block), SERVED);
            block.out
        });

        // The carry after each block of a long text, and shorter texts before and at the carry.
        for blocks_before in 0..=256 {
            for len in [0, 1, 16, 17, 32, 100, LANE, LANE + 44, 1000, TEXT_LIMIT] {
                let mut arguments = Arguments::ctr(&mut random, len);
                arguments.key = key.clone();
                arguments.iv = counter(last.wrapping_sub(blocks_before as u128));
                assert_eq!(run(CounterMode, &mut arguments), SERVED);

                let bytes = arguments.text.iter().zip(&arguments.out[..]);
                let keystream: Vec<u8> = bytes.map(|(text, out)| text ^ out).collect();
                let mut blocks = keystream.chunks_exact(BLOCK).skip(blocks_before);
                for (value, encrypted) in [(last, &at_last), (next, &at_next)] {
                    if let Some(block) = blocks.next() {
                        assert!(
                            *block == encrypted[..],
                            "counter {value:032x} after {blocks_before} blocks of {len} bytes"
                        );
                    }
                }
            }
        }
    }
}

/// Counter mode of a text from byte 0 on, with no limit on its length, by the reference alone.
fn without_limit(key: &[u8], iv: &[u8], text: &[u8]) -> Vec<u8> {
    let mut bytes = text.to_vec();
    ctr::apply(key.try_into().unwrap(), iv.try_into().unwrap(), &mut bytes);
    bytes
}

/// Arguments for a text that has a part of TEXT_LIMIT bytes from each byte of its first two blocks on; a part that begins
/// inside a block needs more than 16 lanes. The counter carries after so many blocks.
fn longest(random: &mut Random, last: u128, carry_after: usize) -> Arguments {
    let mut arguments = Arguments::ctr(random, TEXT_LIMIT + 2 * BLOCK);
    arguments.iv = counter(last.wrapping_sub(carry_after as u128 - 1));
    arguments
}

/// Runs `KeystreamAt` on a part of the text of `arguments`, and compares with that part of `whole`.
fn run_part(arguments: &Arguments, whole: &[u8], position: usize, len: usize) {
    let mut part = arguments.clone();
    part.position = position as u64;
    part.text = Guarded::new(&arguments.text[position..position + len]);
    part.out = Guarded::blank(len);
    assert_eq!(run(KeystreamAt, &mut part), SERVED);
    let expected = &whole[position..position + len];
    assert!(
        part.out[..] == *expected,
        "position {position}, length {len}"
    );
}

#[test]
fn keystream_from_each_byte() {
    let mut random = Random::seeded();
    for (last, _) in CARRIES {
        let whole = longest(&mut random, last, 3);
        let expected = without_limit(&whole.key, &whole.iv, &whole.text);
        for position in 0..=100 {
            for len in [0, 1, 2, 7, 15, 16, 17, 31, 32, 33, 100, 150] {
                run_part(&whole, &expected, position, len);
            }
        }

        // The end of the text around that of a lane, counted from the text's first byte or from the
        // first byte of a block before it.
        for position in 0..2 * BLOCK {
            for edge in [1, 2, 3, 15, 16].map(|lanes| lanes * LANE) {
                for len in edge - 33..=TEXT_LIMIT.min(edge + 17) {
                    run_part(&whole, &expected, position, len);
                }
            }
        }
    }
}

#[test]
fn carries_from_each_byte() {
    let mut random = Random::seeded();
    for (last, _) in CARRIES {
        for carry_after in CARRY_AFTER {
            let whole = longest(&mut random, last, carry_after);
            let expected = without_limit(&whole.key, &whole.iv, &whole.text);
            for position in 0..2 * BLOCK {
                for len in [LANE, LANE + BLOCK, TEXT_LIMIT - LANE, TEXT_LIMIT] {
                    run_part(&whole, &expected, position, len);
                }
            }
        }
    }
}

/// A long text in short pieces, for which the library has another form, is the same as at once.
#[test]
fn long_text_in_short_pieces() {
    let mut random = Random::seeded();
    for (last, _) in CARRIES {
        for position in 0..2 * BLOCK {
            let mut whole = Arguments::ctr(&mut random, TEXT_LIMIT);
            whole.iv = counter(last.wrapping_sub(random.below(256) as u128));
            whole.position = position as u64;
            assert_eq!(run(KeystreamAt, &mut whole), SERVED);

            let mut pieces = Vec::new();
            while pieces.len() < TEXT_LIMIT {
                let start = pieces.len();
                let len = (1 + random.below(SHORT)).min(TEXT_LIMIT - start);
                let mut piece = whole.clone();
                piece.position = (position + start) as u64;
                piece.text = Guarded::new(&whole.text[start..start + len]);
                piece.out = Guarded::blank(len);
                assert_eq!(run(KeystreamAt, &mut piece), SERVED);
                pieces.extend_from_slice(&piece.out);
            }
            assert!(pieces[..] == whole.out[..], "position {position}");
        }
    }
}

#[test]
fn keystream_lengths() {
    let mut random = Random::seeded();
    for len in text_lengths() {
        for position in [0, 1, 15, 16, 17, (1 << 32) - 1, POSITION_LIMIT] {
            let mut arguments = Arguments::ctr(&mut random, len);
            arguments.position = position;
            let answer = answer_to(len);
            assert_eq!(run(KeystreamAt, &mut arguments), answer, "length {len}");
        }
    }
}

#[test]
fn keystream_at_far_positions() {
    let mut random = Random::seeded();
    // 2^36 is where the number of the block passes 32 bits.
    let around = [1u64 << 16, 1 << 31, 1 << 32, 1 << 35, 1 << 36, 1 << 39];
    let positions = around
        .into_iter()
        .flat_map(|middle| middle - 40..=middle + 40)
        .chain(POSITION_LIMIT - 40..=POSITION_LIMIT);
    let random_iv = u128::from_be_bytes(random.bytes(16)[..].try_into().unwrap());
    for position in positions {
        let block = u128::from(position / 16);
        for iv in CARRIES.map(|(last, _)| last).into_iter().chain([random_iv]) {
            // From the IV as it is, and so far before it that the text crosses the carry; a short text
            // and one of more than two lanes.
            for (iv, len) in [
                (iv, 70),
                (iv, 600),
                (iv.wrapping_sub(block + 1), 70),
                (iv.wrapping_sub(block + 17), 600),
            ] {
                let mut far = Arguments::ctr(&mut random, len);
                far.iv = counter(iv);
                far.position = position;
                assert_eq!(run(KeystreamAt, &mut far), SERVED, "position {position}");

                // The same bytes from the counter of that block.
                let skipped = (position % 16) as usize;
                let mut near = far.clone();
                near.iv = counter(iv.wrapping_add(block));
                near.text = Guarded::new(&[&[0; 16][..skipped], &far.text].concat());
                near.out = Guarded::blank(skipped + len);
                assert_eq!(run(CounterMode, &mut near), SERVED);
                assert_eq!(far.out[..], near.out[skipped..], "position {position}");
            }
        }
    }
}

/// What a call only reads may be the same memory.
#[test]
fn inputs_may_overlap() {
    let mut random = Random::seeded();
    for len in [SHORT, LANE] {
        let bytes = random.bytes(len);
        let (key, iv, text) = (&bytes[10..42], &bytes[20..36], &bytes[..]);
        let outs = [&CFunctions as &dyn Ciphers, &Wrapper, &Reference].map(|ciphers| {
            let mut outs = [vec![0; len], vec![0; len]];
            let mut tag = [0; 16];
            let [ctr, gcm] = &mut outs;
            assert_eq!(ciphers.counter_mode(key, iv, text, ctr), SERVED);
            let iv = &iv[..12];
            assert_eq!(ciphers.gcm_seal(key, iv, iv, text, gcm, &mut tag), SERVED);
            (outs, tag)
        });
        assert!(outs[0] == outs[2] && outs[1] == outs[2], "{len} bytes");
    }
}

// ---- GCM

#[test]
fn gcm_lengths() {
    let mut random = Random::seeded();
    for text_len in 0..=GCM_TEXT_LIMIT + 1 {
        for aad_len in 0..=GCM_AAD_LIMIT + 1 {
            let mut sealed = Arguments::gcm(&mut random, text_len, aad_len);
            let mut opened = Arguments::opening(&sealed);
            if text_len > 256 || aad_len > 16 {
                assert_eq!(run(Seal, &mut sealed), Err(WrongLength));
                assert_eq!(run(Open, &mut opened), Err(WrongLength));
                continue;
            }
            // The blank tag is wrong.
            assert_eq!(run(Open, &mut opened), Err(TagDiffers));
            assert_eq!(run(Seal, &mut sealed), SERVED);
            let mut opened = Arguments::opening(&sealed);
            assert_eq!(run(Open, &mut opened), SERVED);
            assert!(opened.out == sealed.text);
        }
    }
}

/// Arguments with which `Open` is served, for several lengths.
fn served_openings(random: &mut Random) -> Vec<Arguments> {
    let mut openings = Vec::new();
    for text_len in [0, 1, 15, 16, 17, 32, 72, 255, 256] {
        for aad_len in [0, 1, 15, 16] {
            let mut sealed = Arguments::gcm(random, text_len, aad_len);
            assert_eq!(run(Seal, &mut sealed), SERVED);
            let opening = Arguments::opening(&sealed);
            assert_eq!(run(Open, &mut opening.clone()), SERVED);
            openings.push(opening);
        }
    }
    openings
}

#[test]
fn damaged_tags() {
    let mut random = Random::seeded();
    for opening in served_openings(&mut random) {
        for i in 0..16 {
            // Each bit of each byte alone, and every bit of the byte.
            for damage in (0..8).map(|bit| 1 << bit).chain([0xff]) {
                let mut damaged = opening.clone();
                damaged.tag[i] ^= damage;
                assert_eq!(
                    run(Open, &mut damaged),
                    Err(TagDiffers),
                    "byte {i}, {damage:02x}"
                );
            }
            // Two bytes whose changes are equal, or add to 0.
            for j in 0..i {
                let mut damaged = opening.clone();
                damaged.tag[i] ^= 0x80;
                damaged.tag[j] ^= 0x80;
                assert_eq!(
                    run(Open, &mut damaged),
                    Err(TagDiffers),
                    "bytes {i} and {j}"
                );
                let mut damaged = opening.clone();
                damaged.tag[i] = damaged.tag[i].wrapping_add(1);
                damaged.tag[j] = damaged.tag[j].wrapping_sub(1);
                assert_eq!(
                    run(Open, &mut damaged),
                    Err(TagDiffers),
                    "bytes {i} and {j}"
                );
            }
        }
    }
}

#[test]
fn damaged_messages() {
    let mut random = Random::seeded();
    type Field = fn(&mut Arguments) -> &mut Guarded;
    let fields: [(&str, Field); 4] = [
        ("key", |arguments| &mut arguments.key),
        ("iv", |arguments| &mut arguments.iv),
        ("aad", |arguments| &mut arguments.aad),
        ("text", |arguments| &mut arguments.text),
    ];
    for opening in served_openings(&mut random) {
        for (name, field) in fields {
            let len = field(&mut opening.clone()).len();
            for i in 0..len {
                let mut damaged = opening.clone();
                field(&mut damaged)[i] ^= 1 << random.below(8);
                assert_eq!(run(Open, &mut damaged), Err(TagDiffers), "{name}, byte {i}");
            }
        }
    }
}

/// One byte less, or a zero byte more, which the padding alone would not tell apart.
#[test]
fn messages_of_another_length() {
    let mut random = Random::seeded();
    for opening in served_openings(&mut random) {
        let shorter = |bytes: &Guarded| bytes.split_last().map(|(_, rest)| Guarded::new(rest));
        let longer = |bytes: &Guarded| Some(Guarded::new(&[bytes, &[0][..]].concat()));
        for aad in [shorter(&opening.aad), longer(&opening.aad)]
            .into_iter()
            .flatten()
        {
            if aad.len() <= GCM_AAD_LIMIT {
                let mut damaged = opening.clone();
                damaged.aad = aad;
                assert_eq!(
                    run(Open, &mut damaged),
                    Err(TagDiffers),
                    "length of the aad"
                );
            }
        }
        for text in [shorter(&opening.text), longer(&opening.text)]
            .into_iter()
            .flatten()
        {
            if text.len() <= GCM_TEXT_LIMIT {
                let mut damaged = opening.clone();
                damaged.out = Guarded::blank(text.len());
                damaged.text = text;
                assert_eq!(
                    run(Open, &mut damaged),
                    Err(TagDiffers),
                    "length of the text"
                );
            }
        }
    }
}

// ---- wrong lengths, and the order of the refusals

#[derive(Clone, Copy, PartialEq, Debug)]
enum Argument {
    Key,
    Iv,
    Position,
    Aad,
    Text,
    Tag,
    Out,
}
use Argument::*;

/// The arguments of a call that can be outside their limits, with `Out` after `Text`.
fn arguments_of(call: Call) -> &'static [Argument] {
    match call {
        EncryptBlock => &[Key, Text, Out],
        CounterMode => &[Key, Iv, Text, Out],
        KeystreamAt => &[Key, Iv, Position, Text, Out],
        Seal | Open => &[Key, Iv, Aad, Text, Tag, Out],
    }
}

/// The values of an argument that `call` must refuse: lengths, or positions. `text_len` is the
/// length of the text.
fn wrong_values(call: Call, argument: Argument, text_len: usize) -> Vec<u64> {
    if argument == Position {
        return vec![
            POSITION_LIMIT + 1,
            POSITION_LIMIT + 16,
            1 << 41,
            1 << 63,
            u64::MAX,
        ];
    }
    let wrong = |len: &usize| match (call, argument) {
        (_, Key) => *len != 32,
        (CounterMode | KeystreamAt, Iv) => *len != 16,
        (_, Iv) => *len != 12,
        (_, Aad) => *len > 16,
        (EncryptBlock, Text | Out) => *len != 16,
        (CounterMode | KeystreamAt, Text) => *len > 4096,
        (_, Text) => *len > 256,
        (_, Tag) => *len != 16,
        _ => *len != text_len,
    };
    // Some are a right length and 2^8 or 2^16 more.
    (0..=40)
        .chain([48, 64, 128, 255, 256, 257, 258, 268, 272, 276, 288, 512])
        .chain([
            4095, 4096, 4097, 4128, 65_536, 65_548, 65_552, 65_556, 65_568,
        ])
        .filter(wrong)
        .map(|len| len as u64)
        .collect()
}

/// Gives an argument a wrong value. The out buffer stays as long as the text.
fn put(arguments: &mut Arguments, random: &mut Random, call: Call, argument: Argument, value: u64) {
    let len = value as usize;
    match argument {
        Key => arguments.key = random.bytes(len),
        Iv => arguments.iv = random.bytes(len),
        Position => arguments.position = value,
        Aad => arguments.aad = random.bytes(len),
        Text => {
            arguments.text = random.bytes(len);
            if call != EncryptBlock {
                arguments.out = Guarded::blank(len);
            }
        }
        Tag => arguments.tag = Guarded::blank(len),
        Out => arguments.out = Guarded::blank(len),
    }
}

/// The answer to a call with wrong values of `wrong`, which is not empty.
fn refused(wrong: &[Argument]) -> Answer {
    match wrong.contains(&Key) {
        true => Err(KeyLength),
        false => Err(WrongLength),
    }
}

#[test]
fn each_wrong_length() {
    let mut random = Random::seeded();
    for call in CALLS {
        let right = Arguments::right(&mut random, call);
        assert_eq!(run(call, &mut right.clone()), SERVED);
        for &argument in arguments_of(call) {
            let values = wrong_values(call, argument, right.text.len());
            assert!(!values.is_empty());
            for value in values {
                let mut arguments = right.clone();
                put(&mut arguments, &mut random, call, argument, value);
                let expected = refused(&[argument]);
                assert_eq!(
                    run(call, &mut arguments),
                    expected,
                    "{call:?}, {argument:?} {value}"
                );
            }
        }
    }
}

#[test]
fn several_wrong_lengths() {
    let mut random = Random::seeded();
    for call in CALLS {
        let all = arguments_of(call);
        // Every set of two arguments or more, 40 times with other values.
        for set in 0u32..1 << all.len() {
            if set.count_ones() < 2 {
                continue;
            }
            let wrong: Vec<Argument> = (0..all.len())
                .filter(|i| set >> i & 1 == 1)
                .map(|i| all[i])
                .collect();
            for _ in 0..40 {
                let mut arguments = Arguments::right(&mut random, call);
                for &argument in &wrong {
                    let values = wrong_values(call, argument, arguments.text.len());
                    let value = values[random.below(values.len())];
                    put(&mut arguments, &mut random, call, argument, value);
                }
                assert_eq!(
                    run(call, &mut arguments),
                    refused(&wrong),
                    "{call:?}, {wrong:?}"
                );
            }
        }
    }
}

#[test]
fn wrong_lengths_before_wrong_tags() {
    let mut random = Random::seeded();
    for _ in 0..200 {
        let mut damaged = Arguments::right(&mut random, Open);
        damaged.tag[random.below(16)] ^= 1;
        assert_eq!(run(Open, &mut damaged.clone()), Err(TagDiffers));
        for &argument in arguments_of(Open) {
            let values = wrong_values(Open, argument, damaged.text.len());
            let value = values[random.below(values.len())];
            let mut arguments = damaged.clone();
            put(&mut arguments, &mut random, Open, argument, value);
            assert_eq!(
                run(Open, &mut arguments),
                refused(&[argument]),
                "{argument:?} {value}"
            );
        }
    }
}
