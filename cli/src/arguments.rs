//! The subcommands and their options.

use std::ops::RangeInclusive;
use std::path::PathBuf;

use clap::{Args, Parser, Subcommand};

/// Makes, reads and writes encrypted memory sticks with up to 15 nested volumes.
#[derive(Parser)]
#[command(name = "hiwalgam", version)]
pub struct Arguments {
    #[command(subcommand)]
    pub command: Command,
}

#[derive(Subcommand)]
pub enum Command {
    /// Makes a blank stick; what IMAGE held is gone
    Format(Format),
    /// Tells the geometry of an image, without a key
    Info(Info),
    /// Lists the volumes that a key opens
    Volumes(Stick),
    /// Copies blocks of a volume to a file or to standard output
    Get(Get),
    /// Copies a file or standard input to blocks of a volume
    Put(Put),
    /// Gives slices of a volume back; their blocks then read as zeros
    Release(Release),
    /// Reads every block of every volume that a key opens
    Check(Stick),
    /// Shows which volume holds which slice
    Map(Map),
    /// Shows the order in which a session's claims would take slices
    Shuffle(Stick),
}

/// B and S, which no byte of an image tells.
#[derive(Args, Clone, Copy)]
pub struct Blocks {
    /// B, the bytes in a block: 1024 or 4096
    #[arg(short = 'B', long, value_name = "BYTES", default_value_t = 4096)]
    pub block_bytes: u64,
    /// S, the data blocks in a slice: 1 to B / 16
    #[arg(short = 'S', long, value_name = "BLOCKS", default_value_t = 256)]
    pub slice_blocks: u64,
}

#[derive(Args)]
pub struct Info {
    /// The stick: a file or a block device
    pub image: PathBuf,
    #[command(flatten)]
    pub blocks: Blocks,
}

/// A stick that is opened with a key.
#[derive(Args)]
pub struct Stick {
    /// The stick: a file or a block device
    pub image: PathBuf,
    #[command(flatten)]
    pub access: Access,
}

#[derive(Args)]
pub struct Access {
    #[command(flatten)]
    pub blocks: Blocks,
    /// The key: a file of 32 bytes
    #[arg(short, long, value_name = "FILE", conflicts_with = "passphrase_fd")]
    pub key: Option<PathBuf>,
    /// Reads the passphrase, one line, from this descriptor
    #[arg(long, value_name = "FD", value_parser = clap::value_parser!(i32).range(0..))]
    pub passphrase_fd: Option<i32>,
}

#[derive(Args)]
pub struct Format {
    /// The stick: a file, which is made where there is none, or a block device
    pub image: PathBuf,
    #[command(flatten)]
    pub blocks: Blocks,
    /// P, the slices of the stick: 1 to 4096
    #[arg(long, value_name = "P", conflicts_with = "size")]
    pub slices: Option<u64>,
    /// As many slices as fit into so many bytes; K, M and G stand for powers of 1024
    #[arg(long, value_name = "BYTES", value_parser = size)]
    pub size: Option<u64>,
    /// The logical slices of a volume, or `all`: once for each volume, from volume 0 up [default: one
    /// volume, all]
    #[arg(long = "volume", value_name = "COUNT", value_parser = count)]
    pub volumes: Vec<Count>,
    /// The key of a volume, a file of 32 bytes: once for each volume, from volume 0 up
    #[arg(
        short,
        long = "key",
        value_name = "FILE",
        conflicts_with = "passphrase_fd"
    )]
    pub keys: Vec<PathBuf>,
    /// Reads the passphrases, one line for each volume, from this descriptor
    #[arg(long, value_name = "FD", value_parser = clap::value_parser!(i32).range(0..))]
    pub passphrase_fd: Option<i32>,
    /// Keeps the random bytes in a nameless file in this folder, and not in memory
    #[arg(long, value_name = "DIR")]
    pub temp_dir: Option<PathBuf>,
    /// Overwrites an IMAGE that is not empty
    #[arg(long)]
    pub force: bool,
}

#[derive(Args)]
pub struct Get {
    #[command(flatten)]
    pub stick: Stick,
    /// The volume, from 0
    pub volume: u64,
    /// The file to write, or `-` for standard output [default: -]
    pub file: Option<PathBuf>,
    /// The first block
    #[arg(long, value_name = "BLOCK", default_value_t = 0)]
    pub first: u64,
    /// How many blocks [default: all from the first on]
    #[arg(long, value_name = "COUNT")]
    pub blocks: Option<u64>,
}

#[derive(Args)]
pub struct Put {
    #[command(flatten)]
    pub stick: Stick,
    /// The volume, from 0
    pub volume: u64,
    /// The file to read, or `-` for standard input [default: -]
    pub file: Option<PathBuf>,
    /// The first block
    #[arg(long, value_name = "BLOCK", default_value_t = 0)]
    pub first: u64,
}

#[derive(Args)]
pub struct Release {
    #[command(flatten)]
    pub stick: Stick,
    /// The volume, from 0
    pub volume: u64,
    /// Logical slices: numbers, or ranges like 3-5
    #[arg(value_name = "SLICE", required = true, value_parser = range)]
    pub slices: Vec<RangeInclusive<u64>>,
}

#[derive(Args)]
pub struct Map {
    #[command(flatten)]
    pub stick: Stick,
    /// Writes a picture to this file instead
    #[arg(long, value_name = "FILE")]
    pub svg: Option<PathBuf>,
}

/// How many logical slices a volume gets.
#[derive(Clone, Copy, PartialEq, Debug)]
pub enum Count {
    /// As many as the stick has slices.
    All,
    Slices(u64),
}

fn count(text: &str) -> Result<Count, String> {
    match text {
        "all" => Ok(Count::All),
        _ => Ok(Count::Slices(number(text)?)),
    }
}

/// Bytes, with a suffix K, M or G or without.
fn size(text: &str) -> Result<u64, String> {
    let shift = match text.chars().last() {
        Some('K') => 10,
        Some('M') => 20,
        Some('G') => 30,
        _ => 0,
    };
    let digits = text.strip_suffix(['K', 'M', 'G']).unwrap_or(text);
    let bytes = number(digits)?.checked_mul(1 << shift);
    bytes.ok_or_else(|| "more than 64 bits hold".into())
}

/// A number, or two with `-` between them, of which the second is not the lower.
fn range(text: &str) -> Result<RangeInclusive<u64>, String> {
    let (first, last) = text.split_once('-').unwrap_or((text, text));
    let (first, last) = (number(first)?, number(last)?);
    if first > last {
        return Err("the range ends before it begins".into());
    }
    Ok(first..=last)
}

/// Digits alone: a sign is none.
fn number(digits: &str) -> Result<u64, String> {
    let signed = digits.starts_with('+');
    let number = digits.parse().ok().filter(|_| !signed);
    number.ok_or_else(|| format!("`{digits}` is not a number of 64 bits"))
}

#[cfg(test)]
mod tests {
    use super::*;

    #[test]
    fn sizes_have_suffixes_of_1024() {
        assert_eq!(size("0"), Ok(0));
        assert_eq!(size("4097"), Ok(4097));
        assert_eq!(size("3K"), Ok(3 << 10));
        assert_eq!(size("3M"), Ok(3 << 20));
        assert_eq!(size("17179869183G"), Ok(17_179_869_183 << 30));
        for wrong in ["", "K", "1k", "1KB", "-1", "+1", "1.5G", "17179869184G"] {
            assert!(size(wrong).is_err(), "{wrong}");
        }
    }

    #[test]
    fn ranges_have_one_number_or_two() {
        assert_eq!(range("7"), Ok(7..=7));
        assert_eq!(range("3-5"), Ok(3..=5));
        assert_eq!(range("0-18446744073709551615"), Ok(0..=u64::MAX));
        for wrong in [
            "",
            "-",
            "3-",
            "-3",
            "5-3",
            "1-2-3",
            "0-18446744073709551616",
        ] {
            assert!(range(wrong).is_err(), "{wrong}");
        }
    }

    #[test]
    fn counts_are_numbers_or_all() {
        assert_eq!(count("all"), Ok(Count::All));
        assert_eq!(count("0"), Ok(Count::Slices(0)));
        assert!(count("ALL").is_err());
    }
}
