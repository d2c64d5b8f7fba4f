//! The speed of the proved library beside that of the reference and, where the machine has it, of
//! OpenSSL. Counter mode, which the library does on bit planes for all but short texts, is also beside
//! two other proved forms: by the table at every length, as the library does short texts, and as it was
//! before, over a bare array of the key schedule and with two products in each byte of MixColumns.
//! Nothing here asserts a time.

use std::hint::black_box;
use std::process::Command;
use std::time::Instant;

use hiwalgam::sys;
use hiwalgam::Refusal::{self, KeyLength, WrongLength};
use hiwalgam_tests::adapters::c_functions::answer;
use hiwalgam_tests::adapters::{Reference, Wrapper};
use hiwalgam_tests::inputs::{Guarded, Random};
use hiwalgam_tests::interface::{Answer, Ciphers, SERVED};

const KEY: [u8; 32] = [0x42; 32];
const CTR_IV: [u8; 16] = [0x17; 16];
const GCM_IV: [u8; 12] = [0x17; 12];
const AAD: [u8; 16] = [0x33; 16];

/// Rounds, in each of which everything that is compared has a turn.
const ROUNDS: usize = 301;
/// About how long a turn lasts, in seconds.
const TURN_SECONDS: f64 = 0.001;

#[rustfmt::skip]
#[link(name = "hiwalgam_bench", kind = "static")]
extern "C" {
    /// `hiwalgam_counter_mode` over a bare array, with the same arguments and answers.
    fn hiwalgam_bench_bare_counter_mode(
        key: *const u8, key_length: usize,
        iv: *const u8, iv_length: usize,
        text: *const u8, text_length: usize,
        out: *mut u8, out_length: usize,
    ) -> u8;

    /// `hiwalgam_counter_mode` by the table at every length, with the same arguments and answers.
    fn hiwalgam_bench_table_counter_mode(
        key: *const u8, key_length: usize,
        iv: *const u8, iv_length: usize,
        text: *const u8, text_length: usize,
        out: *mut u8, out_length: usize,
    ) -> u8;
}

/// A form of counter mode, which takes key, IV, text and out.
type Form = fn(&[u8], &[u8], &[u8], &mut [u8]) -> Answer;

/// The forms that are compared, and where each is in the list.
const FORMS: [Form; 4] = [
    proved::<BARE>,
    proved::<TABLE>,
    proved::<LIBRARY>,
    reference,
];
const BARE: usize = 0;
const TABLE: usize = 1;
const LIBRARY: usize = 2;
const REFERENCE: usize = 3;

/// Lengths around the one from which the library works on bit planes, and that of a lane of 16 blocks.
const SWEEP: [usize; 6] = [96, 128, 160, 192, 224, LANE];
const LANE: usize = 256;

/// A proved form of counter mode. All of them are called alike.
fn proved<const FORM: usize>(key: &[u8], iv: &[u8], text: &[u8], out: &mut [u8]) -> Answer {
    let function = match FORM {
        BARE => hiwalgam_bench_bare_counter_mode,
        TABLE => hiwalgam_bench_table_counter_mode,
        _ => sys::hiwalgam_counter_mode,
    };
    // SAFETY: each pointer goes with the length of its slice, which is borrowed until the call
    // returns, mutably where the call writes: that is all that any of the functions asks for.
    #[rustfmt::skip]
    let number = unsafe {
        function(
            key.as_ptr(), key.len(),
            iv.as_ptr(), iv.len(),
            text.as_ptr(), text.len(),
            out.as_mut_ptr(), out.len(),
        )
    };
    answer(number)
}

fn reference(key: &[u8], iv: &[u8], text: &[u8], out: &mut [u8]) -> Answer {
    Reference.counter_mode(key, iv, text, out)
}

/// Tests that every form gives the same output.
fn same_outputs(random: &mut Random) {
    let text = random.bytes(4096);
    let keys = [KEY, [0; 32], random.array(), random.array()];
    // From the last of these the counter goes on at 0.
    let ivs = [CTR_IV, random.array(), [0xff; 16]];
    for (key, iv) in keys.iter().flat_map(|key| ivs.map(|iv| (key, iv))) {
        for len in (0..=600).chain([1024, 4096]) {
            let [bare, table, library, reference] = FORMS.map(|form| {
                let mut out = Guarded::blank(len);
                assert_eq!(form(key, &iv, &text[..len], &mut out), SERVED);
                out
            });
            assert!(library == reference, "library, {len} bytes");
            assert!(table == reference, "table, {len} bytes");
            assert!(bare == reference, "bare, {len} bytes");
        }
    }
}

/// Tests that every form refuses the same, and writes nothing then.
fn same_refusals(random: &mut Random) {
    // The bytes of key, IV, text and out.
    let cases: [([usize; 4], Refusal); 10] = [
        ([0, 16, 16, 16], KeyLength),
        ([31, 16, 16, 16], KeyLength),
        ([33, 16, 16, 16], KeyLength),
        ([31, 15, 4097, 16], KeyLength),
        ([32, 0, 16, 16], WrongLength),
        ([32, 15, 16, 16], WrongLength),
        ([32, 17, 16, 16], WrongLength),
        ([32, 16, 4097, 4097], WrongLength),
        ([32, 16, 16, 15], WrongLength),
        ([32, 16, 0, 16], WrongLength),
    ];
    for (lengths, refusal) in cases {
        let [key, iv, text, blank] = lengths.map(|len| random.bytes(len));
        for form in FORMS {
            let mut out = blank.clone();
            let answer = form(&key, &iv, &text, &mut out);
            assert_eq!(answer, Err(refusal), "{lengths:?}");
            assert!(out == blank, "{lengths:?}");
        }
    }
}

/// The seconds of one call in each round, of `N` calls that take turns.
struct Timed<const N: usize> {
    bytes: usize,
    rounds: Vec<[f64; N]>,
}

impl<const N: usize> Timed<N> {
    /// Times calls that take a text and an out of so many bytes.
    fn new(calls: [impl Fn(&[u8], &mut [u8]) -> Answer; N], bytes: usize) -> Self {
        let (text, mut out) = (vec![0x5c; bytes], vec![0; bytes]);
        let mut round = |count: u32| {
            calls.each_ref().map(|call| {
                let start = Instant::now();
                for _ in 0..count {
                    let answer = black_box(call)(black_box(&text), black_box(&mut out));
                    assert_eq!(answer, SERVED);
                }
                start.elapsed().as_secs_f64() / f64::from(count)
            })
        };
        // This round warms the buffers and gives the number of calls in a turn.
        let warm = round(100).into_iter().fold(0.0, f64::max);
        let count = (TURN_SECONDS / warm).ceil() as u32;
        let rounds = (0..ROUNDS).map(|_| round(count)).collect();
        Timed { bytes, rounds }
    }

    /// The megabytes (10^6 bytes) a second of a call.
    fn speed(&self, call: usize) -> f64 {
        let seconds = median(self.rounds.iter().map(|round| round[call]));
        self.bytes as f64 / seconds / 1e6
    }

    /// The median of how many times as fast as `other` a call was in a round.
    fn ratio(&self, call: usize, other: usize) -> f64 {
        median(self.rounds.iter().map(|round| round[other] / round[call]))
    }
}

fn median(values: impl Iterator<Item = f64>) -> f64 {
    let mut values: Vec<f64> = values.collect();
    values.sort_by(f64::total_cmp);
    values[values.len() / 2]
}

/// Prints a line for counter mode.
fn compare_forms(bytes: usize) {
    let calls = FORMS.map(|form| move |text: &[u8], out: &mut [u8]| form(&KEY, &CTR_IV, text, out));
    let timed = Timed::new(calls, bytes);
    let [bare, table, library, reference] =
        [BARE, TABLE, LIBRARY, REFERENCE].map(|form| timed.speed(form));
    let by_table = timed.ratio(LIBRARY, TABLE);
    let by_reference = timed.ratio(LIBRARY, REFERENCE);
    let table_by_bare = timed.ratio(TABLE, BARE);
    println!(
        "counter mode   {bytes:>5} {bare:>9.2} {table:>9.2} {library:>9.2} {reference:>10.2} \
         {by_table:>14.3} {by_reference:>18.3} {table_by_bare:>11.3}"
    );
}

/// Prints a line for a length around that from which the library works on bit planes.
fn sweep(bytes: usize) {
    // All calls are lent as much as a lane takes.
    let calls = [(TABLE, bytes), (LIBRARY, bytes), (LIBRARY, LANE)].map(|(form, len)| {
        move |text: &[u8], out: &mut [u8]| FORMS[form](&KEY, &CTR_IV, &text[..len], &mut out[..len])
    });
    let timed = Timed::new(calls, LANE);
    let (by_table, lane_by_table) = (timed.ratio(1, 0), timed.ratio(2, 0));
    println!("counter mode   {bytes:>5} {by_table:>14.3} {lane_by_table:>20.3}");
}

/// Prints a line for GCM.
fn compare_sealing(bytes: usize) {
    let calls = [&Wrapper as &dyn Ciphers, &Reference].map(|ciphers| {
        move |text: &[u8], out: &mut [u8]| {
            ciphers.gcm_seal(&KEY, &GCM_IV, &AAD, text, out, &mut [0; 16])
        }
    });
    let timed = Timed::new(calls, bytes);
    let (library, reference, ratio) = (timed.speed(0), timed.speed(1), timed.ratio(0, 1));
    println!("GCM seal       {bytes:>5} {library:>14.2} {reference:>16.2} {ratio:>18.3}");
}

/// What OpenSSL has for AES-256 in counter mode on this processor, and the value of `OPENSSL_ia32cap`
/// with which it takes it. Bit 57 stands for the AES instructions, bit 33 for the carry-less product
/// and bit 41 for SSSE3. Without the AES instructions OpenSSL takes bit slices, which need SSSE3, for
/// 128 bytes and more at once; without both, a table, as for shorter texts. Its form by vector
/// permutations is not used for counter mode.
const OPENSSL: [(&str, Option<&str>); 3] = [
    ("AES instructions", None),
    ("bit slices", Some("~0x200000200000000")),
    ("table", Some("~0x200020200000000")),
];

/// The speed of `openssl speed` for AES-256 in counter mode, in its one-line form
/// `+F:<number>:<name>:<bytes a second>`. None where there is no openssl.
fn openssl(bytes: usize, capabilities: Option<&str>) -> Option<f64> {
    let output = Command::new("openssl")
        .args(["speed", "-mr", "-evp", "aes-256-ctr", "-seconds", "1"])
        .args(["-bytes", &bytes.to_string()])
        .envs(capabilities.map(|value| ("OPENSSL_ia32cap", value)))
        .output()
        .ok()?;
    let text = String::from_utf8_lossy(&output.stdout);
    let line = text.lines().find(|line| line.starts_with("+F:"))?;
    let figure: f64 = line.rsplit(':').next()?.parse().ok()?;
    Some(figure / 1e6)
}

/// Prints a line for a form of OpenSSL beside the library, which is timed at once before it.
fn compare_openssl(name: &str, capabilities: Option<&str>, bytes: usize) {
    let library = |text: &[u8], out: &mut [u8]| FORMS[LIBRARY](&KEY, &CTR_IV, text, out);
    let library = Timed::new([library], bytes).speed(0);
    match openssl(bytes, capabilities) {
        Some(openssl) => {
            let ratio = library / openssl;
            println!("{name:<20} {bytes:>5} {library:>14.2} {openssl:>14.2} {ratio:>17.5}");
        }
        None => println!("{name:<20} {bytes:>5}  no figure: no openssl, or not its form"),
    }
}

fn main() {
    let random = &mut Random::seeded();
    same_outputs(random);
    same_refusals(random);

    println!(
        "Speeds in MB/s (10^6 bytes a second), medians of {ROUNDS} rounds; warm buffers, key \
         expansion in each call."
    );
    println!("A ratio is the median of that of two speeds in a round; all of a line take turns.\n");

    println!(
        "bare: over a bare array of the key schedule, two products in each byte of MixColumns;"
    );
    println!(
        "table: over a record of the round keys, with one product, by the table at every length;"
    );
    println!("library: as the table for short texts, on bit planes for others.");
    println!("The three and the reference gave the same outputs and refusals.");
    println!(
        "call           bytes      bare     table   library  reference  library/table  \
         library/reference  table/bare"
    );
    for bytes in [16, LANE, 1024, 4096] {
        compare_forms(bytes);
    }

    println!("\nWhere bit planes begin to pay. They take about as long for every text of up to a lane of");
    println!("{LANE} bytes: the last column has the table's time for the text by the library's for a lane,");
    println!("and they pay from 1 on.");
    println!("               bytes  library/table  table/library's lane");
    for bytes in SWEEP {
        sweep(bytes);
    }

    println!("\ncall           bytes   library MB/s   reference MB/s  library/reference");
    for bytes in [32, 72, 256] {
        compare_sealing(bytes);
    }

    println!("\nOpenSSL, AES-256 in counter mode, with its key expanded once. On a processor without AES");
    println!("instructions the first lines are of bit slices too.");
    println!("                     bytes   library MB/s   openssl MB/s   library/openssl");
    for (name, capabilities) in OPENSSL {
        for bytes in [LANE, 1024, 4096] {
            compare_openssl(name, capabilities, bytes);
        }
    }
}
