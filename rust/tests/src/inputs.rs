//! Inputs for tests and benchmarks: a seeded generator, and buffers between guards.

use std::env;
use std::io::{self, Write};
use std::ops::{Deref, DerefMut};
use std::sync::LazyLock;

/// Prints a line past the test harness, which holds back what `println` prints, and at once, so that
/// no other line comes into it.
pub fn report(line: &str) {
    let line = format!("{line}\n");
    io::stderr().write_all(line.as_bytes()).unwrap();
}

/// The seed of every generator: what `HIWALGAM_SEED` sets, or else a fixed one. It is printed once.
static SEED: LazyLock<u64> = LazyLock::new(|| {
    let seed = match env::var("HIWALGAM_SEED") {
        Ok(text) => text.parse().expect("HIWALGAM_SEED is a number"),
        Err(_) => 20_260_101,
    };
    report(&format!("HIWALGAM_SEED={seed}"));
    seed
});

/// The SplitMix64 generator.
pub struct Random(u64);

impl Random {
    /// A generator from the seed.
    pub fn seeded() -> Self {
        Random(*SEED)
    }

    pub fn word(&mut self) -> u64 {
        self.0 = self.0.wrapping_add(0x9e37_79b9_7f4a_7c15);
        let z = (self.0 ^ (self.0 >> 30)).wrapping_mul(0xbf58_476d_1ce4_e5b9);
        let z = (z ^ (z >> 27)).wrapping_mul(0x94d0_49bb_1331_11eb);
        z ^ (z >> 31)
    }

    /// A number below `bound`.
    pub fn below(&mut self, bound: usize) -> usize {
        (self.word() % bound as u64) as usize
    }

    /// True once in `times` calls on average.
    pub fn once_in(&mut self, times: usize) -> bool {
        self.below(times) == 0
    }

    pub fn pick<T: Clone>(&mut self, from: &[T]) -> T {
        from[self.below(from.len())].clone()
    }

    pub fn fill(&mut self, bytes: &mut [u8]) {
        for chunk in bytes.chunks_mut(8) {
            chunk.copy_from_slice(&self.word().to_be_bytes()[..chunk.len()]);
        }
    }

    /// Random IVs of 16 bytes, half of which end in a run of FF: the next counter carries out of
    /// 32 bits at least, and sometimes out of all 128.
    pub fn fill_ivs(&mut self, bytes: &mut [u8]) {
        self.fill(bytes);
        for iv in bytes.chunks_exact_mut(16) {
            if self.once_in(2) {
                iv[self.below(13)..].fill(0xff);
            }
        }
    }

    pub fn array<const N: usize>(&mut self) -> [u8; N] {
        let mut bytes = [0; N];
        self.fill(&mut bytes);
        bytes
    }

    pub fn bytes(&mut self, len: usize) -> Guarded {
        let mut bytes = vec![0; len];
        self.fill(&mut bytes);
        Guarded::new(&bytes)
    }

    /// A volume's count of logical slices on a device of `p` slices: 1, all, or any.
    pub fn count(&mut self, p: usize) -> usize {
        let any = 1 + self.below(p);
        self.pick(&[1, p, any, any])
    }

    /// Counts for so many volumes.
    pub fn counts(&mut self, p: usize, volumes: usize) -> Vec<usize> {
        (0..volumes).map(|_| self.count(p)).collect()
    }

    /// The numbers below `p` in a random order.
    pub fn permutation(&mut self, p: usize) -> Vec<u32> {
        let mut numbers: Vec<u32> = (0..p as u32).collect();
        for i in (1..p).rev() {
            numbers.swap(i, self.below(i + 1));
        }
        numbers
    }
}

/// Guard elements on each side of a buffer. The number is odd, so that bytes stand at no address to
/// which anything larger is aligned.
const GUARD: usize = 61;

/// What the elements of a buffer can be.
pub trait Element: Copy + PartialEq {
    /// Element `i` of a pattern whose neighbours differ.
    fn pattern(i: usize) -> Self;
}

impl Element for u8 {
    fn pattern(i: usize) -> Self {
        (i as u8).wrapping_mul(37) ^ 0xa5
    }
}

impl Element for u32 {
    fn pattern(i: usize) -> Self {
        (i as u32).wrapping_mul(0x2545_f491) ^ 0xa5a5_a5a5
    }
}

impl Element for usize {
    fn pattern(i: usize) -> Self {
        i.wrapping_mul(0x2545_f491_4f6c_dd1d) ^ 0xa5a5_a5a5_a5a5_a5a5
    }
}

fn pattern<T: Element>(len: usize) -> Vec<T> {
    (0..len).map(T::pattern).collect()
}

/// A buffer that dereferences to its content, between guard elements. Two are equal where the
/// content and the guards are.
#[derive(Clone, PartialEq)]
pub struct Guarded<T = u8>(Vec<T>);

impl<T: Element> Guarded<T> {
    pub fn new(content: &[T]) -> Self {
        Guarded([&pattern(GUARD), content, &pattern(GUARD)].concat())
    }

    /// A buffer that is to be written.
    pub fn blank(len: usize) -> Self {
        Guarded::new(&pattern(len))
    }

    /// Whether the guards are as they were put.
    pub fn is_intact(&self) -> bool {
        *self == Guarded::new(self)
    }

    /// The same content cut, or continued by the pattern, to another length.
    pub fn resized(&self, len: usize) -> Self {
        let mut content = self[..len.min(self.len())].to_vec();
        content.extend((content.len()..len).map(T::pattern));
        Guarded::new(&content)
    }
}

impl<T> Deref for Guarded<T> {
    type Target = [T];

    fn deref(&self) -> &[T] {
        &self.0[GUARD..self.0.len() - GUARD]
    }
}

impl<T> DerefMut for Guarded<T> {
    fn deref_mut(&mut self) -> &mut [T] {
        let end = self.0.len() - GUARD;
        &mut self.0[GUARD..end]
    }
}
