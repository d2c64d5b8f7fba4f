//! The published test vectors, each run through every implementation.
//! The header of `vectors/published.txt` names the sources and the fields of a line.

use std::collections::BTreeMap;

use hiwalgam::Refusal::{TagDiffers, WrongLength};
use hiwalgam::TEXT_LIMIT;
use hiwalgam_reference::aes::RoundKeys;
use hiwalgam_reference::gcm;
use hiwalgam_tests::adapters::{CFunctions, Reference, Wrapper};
use hiwalgam_tests::inputs::report;
use hiwalgam_tests::interface::{Answer, Ciphers, SERVED};

const PUBLISHED: &str = include_str!("../vectors/published.txt");

/// How many cases of each kind the file has; a gcm case that must not open is a kind of its own.
const EXPECTED: [(&str, usize); 6] = [
    ("ctr", 5),
    ("ecb", 421),
    ("ecb-iterated", 1),
    ("gcm", 119),
    ("gcm-invalid", 44),
    ("gcm-over-limits", 3),
];

/// What an out buffer holds before a call.
const FILL: u8 = 0xa5;

/// How many blocks of a long text stand before the published one: the library enciphers a long text on
/// bit planes, 16 blocks to a lane, and a short one block by block.
const BLOCKS_BEFORE: [usize; 9] = [0, 1, 7, 15, 16, 17, 31, 32, 252];

struct Case<'a> {
    id: &'a str,
    kind: &'a str,
    key: Vec<u8>,
    iv: Vec<u8>,
    aad: Vec<u8>,
    /// None where the file does not give it.
    text: Option<Vec<u8>>,
    cipher: Vec<u8>,
    /// The tag, the number of iterations or the first byte's position, by the kind.
    last: &'a str,
    valid: bool,
}

impl<'a> Case<'a> {
    fn parse(line: &'a str) -> Self {
        let fields: Vec<&str> = line.split(' ').collect();
        let [id, kind, key, iv, aad, text, cipher, last, valid] = fields[..] else {
            panic!("not nine fields: {line}");
        };
        Case {
            id,
            kind,
            key: bytes(key),
            iv: bytes(iv),
            aad: bytes(aad),
            text: (text != "?").then(|| bytes(text)),
            cipher: bytes(cipher),
            last,
            valid: match valid {
                "0" => false,
                "1" => true,
                _ => panic!("{id}: validity {valid}"),
            },
        }
    }

    fn text(&self) -> &[u8] {
        self.text
            .as_ref()
            .unwrap_or_else(|| panic!("{}: the text is not given", self.id))
    }

    /// Runs the case and returns the kind that it counts as.
    fn run(&self) -> &'static str {
        let (kind, check): (&'static str, fn(&Self, &dyn Ciphers)) = match (self.kind, self.valid) {
            ("ecb", true) => ("ecb", Self::ecb),
            ("ecb-iterated", true) => ("ecb-iterated", Self::ecb_iterated),
            ("ctr", true) => ("ctr", Self::ctr),
            ("gcm", true) => ("gcm", Self::gcm),
            ("gcm", false) => ("gcm-invalid", Self::gcm_invalid),
            ("gcm-over-limits", true) => {
                self.gcm_without_limits();
                ("gcm-over-limits", Self::gcm_over_limits)
            }
            (kind, valid) => panic!("{}: kind {kind}, validity {valid}", self.id),
        };
        for ciphers in [&CFunctions as &dyn Ciphers, &Wrapper, &Reference] {
            check(self, ciphers);
        }
        kind
    }

    fn ecb(&self, ciphers: &dyn Ciphers) {
        let text = self.text();
        assert!(!text.is_empty(), "{}", self.id);
        let mut encrypted = Vec::new();
        for block in text.chunks(16) {
            let mut out = [FILL; 16];
            let answer = ciphers.encrypt_block(&self.key, block, &mut out);
            assert_eq!(answer, SERVED, "{}", self.id);
            encrypted.extend(out);
        }
        self.same(ciphers, "blocks", &encrypted, &self.cipher);
        // Counter mode of zeros, where the block is the counter.
        for (block, cipher) in text.chunks(16).zip(self.cipher.chunks(16)) {
            self.in_long_texts(ciphers, block, &[0; 16], cipher);
        }
    }

    /// Counter mode of a long text that has the published one inside: the IV is as many blocks before
    /// the published one as stand before it in the text.
    fn in_long_texts(&self, ciphers: &dyn Ciphers, iv: &[u8], text: &[u8], cipher: &[u8]) {
        let counter = u128::from_be_bytes(iv.try_into().unwrap());
        for before in BLOCKS_BEFORE {
            let iv = counter.wrapping_sub(before as u128).to_be_bytes();
            let mut long = [FILL; TEXT_LIMIT];
            let place = 16 * before..16 * before + text.len();
            long[place.clone()].copy_from_slice(text);
            // The text may end with the published one.
            for len in [place.end.max(256), TEXT_LIMIT] {
                let mut out = vec![FILL; len];
                let answer = ciphers.counter_mode(&self.key, &iv, &long[..len], &mut out);
                assert_eq!(answer, SERVED, "{} after {before} blocks", self.id);
                self.same(ciphers, "long text", &out[place.clone()], cipher);
            }
        }
    }

    fn ecb_iterated(&self, ciphers: &dyn Ciphers) {
        let iterations: u32 = self.last.parse().unwrap();
        assert!(iterations > 1, "{}", self.id);
        let mut block = self.text().to_vec();
        for _ in 0..iterations {
            let mut out = [FILL; 16];
            let answer = ciphers.encrypt_block(&self.key, &block, &mut out);
            assert_eq!(answer, SERVED, "{}", self.id);
            block = out.to_vec();
        }
        self.same(ciphers, "last block", &block, &self.cipher);
    }

    fn ctr(&self, ciphers: &dyn Ciphers) {
        let from: u64 = match self.last {
            "-" => 0,
            number => number.parse().unwrap(),
        };
        assert!(!self.cipher.is_empty(), "{}", self.id);
        for (text, cipher) in [(self.text(), &self.cipher[..]), (&self.cipher, self.text())] {
            if from == 0 {
                let mut out = vec![FILL; text.len()];
                let answer = ciphers.counter_mode(&self.key, &self.iv, text, &mut out);
                assert_eq!(answer, SERVED, "{}", self.id);
                self.same(ciphers, "counter mode", &out, cipher);
                self.in_long_texts(ciphers, &self.iv, text, cipher);
            }
            // The rest of the text from each byte of it.
            for start in 0..=text.len() {
                let mut out = vec![FILL; text.len() - start];
                let position = from + start as u64;
                let answer =
                    ciphers.keystream_at(&self.key, &self.iv, position, &text[start..], &mut out);
                assert_eq!(answer, SERVED, "{} at {position}", self.id);
                self.same(ciphers, "counter mode from a byte", &out, &cipher[start..]);
            }
        }
    }

    fn gcm(&self, ciphers: &dyn Ciphers) {
        let tag = bytes(self.last);
        let (answer, out, out_tag) = self.seal(ciphers);
        assert_eq!(answer, SERVED, "{}: {ciphers:?} seal", self.id);
        self.same(ciphers, "ciphertext", &out, &self.cipher);
        self.same(ciphers, "tag", &out_tag, &tag);
        let (answer, out) = self.open(ciphers);
        assert_eq!(answer, SERVED, "{}: {ciphers:?} open", self.id);
        self.same(ciphers, "plaintext", &out, self.text());
    }

    fn gcm_invalid(&self, ciphers: &dyn Ciphers) {
        let (answer, out) = self.open(ciphers);
        assert_eq!(answer, Err(TagDiffers), "{}: {ciphers:?} open", self.id);
        self.same(ciphers, "refused out", &out, &vec![FILL; out.len()]);
    }

    fn gcm_over_limits(&self, ciphers: &dyn Ciphers) {
        let (answer, out, out_tag) = self.seal(ciphers);
        assert_eq!(answer, Err(WrongLength), "{}: {ciphers:?} seal", self.id);
        self.same(ciphers, "refused out", &out, &vec![FILL; out.len()]);
        self.same(ciphers, "refused tag", &out_tag, &[FILL; 16]);
        let (answer, out) = self.open(ciphers);
        assert_eq!(answer, Err(WrongLength), "{}: {ciphers:?} open", self.id);
        self.same(ciphers, "refused out", &out, &vec![FILL; out.len()]);
    }

    /// The reference's GCM without the limits.
    fn gcm_without_limits(&self) {
        let key = self.key[..].try_into().unwrap();
        let tag: [u8; gcm::TAG] = bytes(self.last).try_into().unwrap();
        let mut out = vec![FILL; self.text().len()];
        let out_tag = gcm::encrypt(key, &self.iv, &self.aad, self.text(), &mut out);
        self.same(&Reference, "ciphertext", &out, &self.cipher);
        self.same(&Reference, "tag", &out_tag, &tag);
        let mut out = vec![FILL; self.cipher.len()];
        let right = gcm::decrypt(key, &self.iv, &self.aad, &self.cipher, &tag, &mut out);
        assert!(right, "{}: reference open", self.id);
        self.same(&Reference, "plaintext", &out, self.text());
    }

    /// The answer, the ciphertext and the tag of gcm_seal.
    fn seal(&self, ciphers: &dyn Ciphers) -> (Answer, Vec<u8>, [u8; 16]) {
        let text = self.text();
        let mut out = vec![FILL; text.len()];
        let mut tag = [FILL; 16];
        let answer = ciphers.gcm_seal(&self.key, &self.iv, &self.aad, text, &mut out, &mut tag);
        (answer, out, tag)
    }

    /// The answer and the plaintext of gcm_open.
    fn open(&self, ciphers: &dyn Ciphers) -> (Answer, Vec<u8>) {
        let tag = bytes(self.last);
        let mut out = vec![FILL; self.cipher.len()];
        let answer = ciphers.gcm_open(&self.key, &self.iv, &self.aad, &self.cipher, &tag, &mut out);
        (answer, out)
    }

    fn same(&self, ciphers: &dyn Ciphers, what: &str, got: &[u8], published: &[u8]) {
        assert_eq!(got, published, "{}: {what} of {ciphers:?}", self.id);
    }
}

/// The bytes of a field: hexadecimal digits, or - for none.
fn bytes(field: &str) -> Vec<u8> {
    let digits = if field == "-" { "" } else { field };
    assert_eq!(digits.len() % 2, 0, "{field}");
    (0..digits.len())
        .step_by(2)
        .map(|i| u8::from_str_radix(&digits[i..i + 2], 16).unwrap())
        .collect()
}

#[test]
fn every_published_case() {
    // Every line after the header is a case.
    let cases: Vec<Case> = PUBLISHED
        .lines()
        .skip_while(|line| line.starts_with('#'))
        .map(Case::parse)
        .collect();
    let mut ran = BTreeMap::new();
    for case in &cases {
        *ran.entry(case.run()).or_insert(0) += 1;
    }
    let kinds = ran.iter().map(|(kind, count)| format!("{count} {kind}; "));
    let (kinds, all) = (kinds.collect::<String>(), cases.len());
    report(&format!(
        "published cases run through every implementation: {kinds}{all} in all"
    ));
    assert_eq!(ran, BTreeMap::from(EXPECTED));
}

/// The key expansion of FIPS 197, appendix A.3, of the reference alone: the library hands no round keys
/// out, and no other vector shows them.
#[test]
fn key_expansion() {
    let key = bytes("603deb1015ca71be2b73aef0857d77811f352c073b6108d72d9810a30914dff4");
    let keys = RoundKeys::new(key[..].try_into().unwrap());
    let words = keys.words().map(u32::from_be_bytes);
    // Two words by the rule for i mod 8 = 0, one by the plain rule, one by that for 4, and the last.
    for (i, published) in [
        (8, 0x9ba35411),
        (16, 0xd59aecb8),
        (9, 0x8e6925af),
        (20, 0xb5a9328a),
        (59, 0x706c631e),
    ] {
        assert_eq!(words[i], published, "w[{i}]");
    }
}
