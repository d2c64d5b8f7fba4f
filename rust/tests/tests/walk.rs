//! The program `slicewalk`, run as a process with lines on its standard input. Its output is judged
//! byte by byte: by answers written out from documents 01 and 02, by which the reference's walk is
//! judged too, and by that walk on inputs from a seeded generator. `HIWALGAM_SEED` sets another seed.
//!
//! Every claim of a walk looks at one place: the maps are empty at first, there is one permutation, and
//! the start place stands behind the place of the claim before.

use std::fs::{self, File};
use std::io::{self, Write};
use std::path::{Path, PathBuf};
use std::process::{self, ChildStdin, Command, Output, Stdio};
use std::thread;
use std::time::Duration;

use hiwalgam_reference::walk::walk;
use hiwalgam_tests::inputs::Random;
use hiwalgam_tests::slicewalk::{geometry_line, permutation_line, request_line, slicewalk};

// ---- runs of the program

/// The standard output of a program that ended well.
fn output_of(output: Output) -> Vec<u8> {
    let errors = output.stderr.escape_ascii();
    assert!(output.status.success(), "{}: {errors}", output.status);
    output.stdout
}

/// A run of a program whose standard input another thread writes to a pipe.
fn run_fed(
    program: impl AsRef<Path>,
    feed: impl FnOnce(&mut ChildStdin) -> io::Result<()> + Send,
) -> Vec<u8> {
    let mut command = Command::new(program.as_ref());
    command.stdin(Stdio::piped());
    command.stdout(Stdio::piped()).stderr(Stdio::piped());
    let mut child = command.spawn().unwrap();
    let mut pipe = child.stdin.take().unwrap();
    thread::scope(|scope| {
        let feeder = scope.spawn(move || feed(&mut pipe));
        let output = output_of(child.wait_with_output().unwrap());
        let fed = feeder.join().unwrap();
        fed.expect("the program reads its input to the end");
        output
    })
}

fn run(input: &[u8]) -> Vec<u8> {
    run_fed(slicewalk(), |pipe| pipe.write_all(input))
}

/// A run whose standard input is a file or nothing: reads are as long as the program asks for.
fn run_on(input: impl Into<Stdio>) -> Vec<u8> {
    output_of(Command::new(slicewalk()).stdin(input).output().unwrap())
}

/// A file for the inputs of one test.
struct InputFile(PathBuf);

impl InputFile {
    fn new(name: &str) -> Self {
        let folder = Path::new(env!("CARGO_TARGET_TMPDIR"));
        InputFile(folder.join(format!("walk-{name}-{}", process::id())))
    }

    fn run(&self, input: &[u8]) -> Vec<u8> {
        fs::write(&self.0, input).unwrap();
        run_on(File::open(&self.0).unwrap())
    }
}

impl Drop for InputFile {
    fn drop(&mut self) {
        let _ = fs::remove_file(&self.0);
    }
}

// ---- comparison

fn lines(bytes: &[u8]) -> Vec<&[u8]> {
    bytes.split_inclusive(|&byte| byte == b'\n').collect()
}

/// A line for a message, cut where it is long.
fn shown(lines: &[&[u8]], i: usize) -> String {
    match lines.get(i) {
        Some(line) if line.len() > 60 => format!("{} ..", line[..60].escape_ascii()),
        Some(line) => line.escape_ascii().to_string(),
        None => "nothing".to_string(),
    }
}

/// Fails with the first line that differs.
fn assert_output(what: &str, input: &[u8], output: &[u8], expected: &[u8]) {
    if output == expected {
        return;
    }
    let (input, output, expected) = (lines(input), lines(output), lines(expected));
    let mut pairs = output.iter().zip(&expected);
    let i = pairs.position(|(line, expected)| line != expected);
    let i = i.unwrap_or(output.len().min(expected.len()));
    panic!(
        "{what}: line {} of {}, {}: {} instead of {}",
        i + 1,
        input.len(),
        shown(&input, i),
        shown(&output, i),
        shown(&expected, i)
    );
}

/// Lines and the answers that the document gives them.
struct Case {
    name: String,
    input: Vec<u8>,
    output: Vec<u8>,
}

impl Case {
    fn new(name: impl Into<String>) -> Self {
        Case {
            name: name.into(),
            input: Vec::new(),
            output: Vec::new(),
        }
    }

    fn line(mut self, line: impl AsRef<[u8]>, answer: impl AsRef<[u8]>) -> Self {
        self.input.extend([line.as_ref(), b"\n"].concat());
        self.output.extend([answer.as_ref(), b"\n"].concat());
        self
    }

    /// Lines that all get the same answer.
    fn lines<L: AsRef<[u8]>>(self, lines: impl IntoIterator<Item = L>, answer: &str) -> Self {
        let lines = lines.into_iter();
        lines.fold(self, |case, line| case.line(line, answer))
    }

    fn times(self, times: usize, line: impl AsRef<[u8]>, answer: &str) -> Self {
        self.lines((0..times).map(|_| &line), answer)
    }

    /// A geometry and a permutation that are accepted.
    fn open(self, geometry: impl AsRef<[u8]>, permutation: impl AsRef<[u8]>) -> Self {
        self.line(geometry, "00").line(permutation, "00")
    }

    /// Runs both the reference's walk and the program, and each again without the end of the last line,
    /// where that line is not empty.
    fn check(&self) {
        self.check_input(&self.input);
        if let Some(open @ [.., last]) = self.input.strip_suffix(b"\n") {
            if *last != b'\n' {
                self.check_input(open);
            }
        }
    }

    fn check_input(&self, input: &[u8]) {
        let Case { name, output, .. } = self;
        assert_output(&format!("reference, {name}"), input, &walk(input), output);
        assert_output(&format!("slicewalk, {name}"), input, &run(input), output);
    }
}

/// Stick A of the document: B 1,024, S 4, P 4.
const GEOMETRY_A: &str = "01040000040004";
/// 2 0 3 1.
const PERMUTATION_A: &str = "020002000000030001";
/// A first claim on stick A, and its answer.
const CLAIM_A: [&str; 2] = ["030000000005", "0000020000002b000100000410"];

/// Checks lines that change nothing: before a geometry is accepted, then before a permutation is,
/// then after both. The claim that follows is served as if they were not there.
fn check_in_each_state<L: AsRef<[u8]>>(name: &str, lines: &[L], answers: [&str; 3]) {
    let [claim, placed] = CLAIM_A;
    Case::new(name)
        .lines(lines, answers[0])
        .line(GEOMETRY_A, "00")
        .lines(lines, answers[1])
        .line(PERMUTATION_A, "00")
        .lines(lines, answers[2])
        .line(claim, placed)
        .check();
}

fn check_malformed<L: AsRef<[u8]>>(name: &str, lines: &[L]) {
    check_in_each_state(name, lines, ["0e"; 3]);
    Case::new(name).lines(lines.first(), "0e").check();
    Case::new(name).lines(lines.last(), "0e").check();
}

/// A frame of the kind with `len` bytes in all, the others 0.
fn frame(kind: u8, len: usize) -> String {
    format!("{kind:02x}{}", "00".repeat(len - 1))
}

/// The permutation p - 1, .., 1, 0.
fn descending(p: u16) -> String {
    permutation_line(&(0..p).rev().collect::<Vec<u16>>())
}

// ---- the document's example, and the ends of lines

const EXAMPLE_INPUT: &str = "\
01040000040004
020002000000030001
030000000005
03010000000d
030000000006
030000000010
";

const EXAMPLE_OUTPUT: &str = "\
00
00
0000020000002b000100000410
00000000000021000100000820
0000020000002c000000000830
0c
";

#[test]
fn example() {
    for input in [EXAMPLE_INPUT, EXAMPLE_INPUT.trim_end()] {
        let (input, output) = (input.as_bytes(), EXAMPLE_OUTPUT.as_bytes());
        assert_output("reference", input, &walk(input), output);
        assert_output("slicewalk", input, &run(input), output);
        let file = InputFile::new("example");
        assert_output("slicewalk, file", input, &file.run(input), output);
    }
}

#[test]
fn no_lines_and_empty_lines() {
    Case::new("no lines").check();
    assert_output("no input", b"", &run_on(Stdio::null()), b"");
    Case::new("an empty line").line("", "0e").check();
    Case::new("empty lines").times(5, "", "0e").check();
    check_malformed("an empty line", &[""]);
    let [claim, placed] = CLAIM_A;
    Case::new("empty lines between")
        .line("", "0e")
        .line(GEOMETRY_A, "00")
        .times(2, "", "0e")
        .line(PERMUTATION_A, "00")
        .line("", "0e")
        .line(claim, placed)
        .times(3, "", "0e")
        .check();
}

// ---- malformed lines

/// The bytes that are neither lowercase hexadecimal digits nor the end of a line.
fn strange_bytes() -> Vec<u8> {
    let digits = b"0123456789abcdef\n";
    let all = 0..=255;
    all.filter(|byte| !digits.contains(byte)).collect()
}

/// Every strange byte in every place of every kind of frame, instead of a digit, between two
/// digits, and as two in the place of two digits.
#[test]
fn strange_bytes_in_frames() {
    for frame in [GEOMETRY_A, PERMUTATION_A, CLAIM_A[0]] {
        let mut lines = Vec::new();
        for byte in strange_bytes() {
            for i in 0..frame.len() {
                let (before, after) = frame.as_bytes().split_at(i);
                lines.push([before, &[byte], &after[1..]].concat());
                lines.push([before, &[byte], after].concat());
                if i % 2 == 0 {
                    lines.push([before, &[byte; 2], after].concat());
                    lines.push([before, &[byte; 2], &after[2..]].concat());
                }
            }
            lines.push([frame.as_bytes(), &[byte]].concat());
            lines.push([frame.as_bytes(), &[byte; 2]].concat());
        }
        check_malformed(frame, &lines);
    }
}

#[test]
fn strange_lines() {
    for times in [1, 2, 12, 14] {
        let bytes = strange_bytes().into_iter();
        let lines: Vec<Vec<u8>> = bytes.map(|byte| vec![byte; times]).collect();
        check_malformed(&format!("{times} strange bytes"), &lines);
    }
    let lines: [&[u8]; 16] = [
        b"03000000000A",
        b"0300000000AA",
        b"030A00000000",
        b"0104000004000F",
        b"02000200000003000B",
        b"01040000040004\r",
        b"\r",
        b"030000000005 ",
        b" 030000000005",
        b"03 0000 000005",
        b"0x030000000005",
        b"03000000000\0",
        b"\0",
        b"0300000000\x80\xff",
        b"03000000000\xc3\xa9",
        b"\xff",
    ];
    check_malformed("strange lines", &lines);
}

#[test]
fn odd_digits() {
    let mut lines: Vec<String> = Vec::new();
    for frame in [GEOMETRY_A, PERMUTATION_A, CLAIM_A[0]] {
        lines.extend((1..frame.len()).step_by(2).map(|len| frame[..len].into()));
        lines.extend((0..16).map(|digit| format!("{frame}{digit:x}")));
    }
    lines.extend((0..16).map(|digit| format!("{digit:x}")));
    check_malformed("odd digits", &lines);
}

#[test]
fn unknown_kinds() {
    let kinds = [0].into_iter().chain(4..=255);
    for len in [1, 2, 6, 7, 9, 513] {
        let lines: Vec<String> = kinds.clone().map(|kind| frame(kind, len)).collect();
        assert_eq!(lines.len(), 253);
        check_malformed(&format!("unknown kinds, {len} bytes"), &lines);
    }
    // The rest of a good frame after another kind.
    let rests = [GEOMETRY_A, PERMUTATION_A, CLAIM_A[0]].map(|frame| &frame[2..]);
    let mut lines = Vec::new();
    for kind in kinds {
        lines.extend(rests.iter().map(|rest| format!("{kind:02x}{rest}")));
    }
    check_malformed("unknown kinds", &lines);
}

#[test]
fn wrong_lengths() {
    for (frame, right) in [(GEOMETRY_A, 7), (CLAIM_A[0], 6)] {
        // Cut, and continued by bytes 00, by bytes ff and by itself.
        let mut lines: Vec<String> = (1..right).map(|len| frame[..2 * len].into()).collect();
        for more in [1, 2, 3, 4, 5, 6, 7, 8, 64, 256, 506] {
            lines.push(format!("{frame}{}", "00".repeat(more)));
            lines.push(format!("{frame}{}", "ff".repeat(more)));
        }
        lines.push(frame.repeat(2));
        check_malformed(frame, &lines);
    }
}

#[test]
fn second_geometry() {
    let [claim, placed] = CLAIM_A;
    let seconds = [
        GEOMETRY_A,
        "01100001000100",
        "01040000010001",
        "01040000040000",
        "01040000040101",
        "01000000000000",
        "01ffffffffffff",
        "01",
        "0104000004",
    ];
    Case::new("a second geometry")
        .line("01040000400101", "01")
        .line(GEOMETRY_A, "00")
        .lines(seconds, "0e")
        .line(PERMUTATION_A, "00")
        .lines(seconds, "0e")
        .line(claim, placed)
        .lines(seconds, "0e")
        .line("030000000010", "0c")
        .line("030000000006", "0000020000002c000000000420")
        .check();
}

#[test]
fn second_permutation() {
    let [claim, placed] = CLAIM_A;
    let seconds = [
        PERMUTATION_A.to_string(),
        "020000000100020003".into(),
        "020000000000000000".into(),
        "020004000500060007".into(),
        "0200020000000300".into(),
        "02000200000003000100".into(),
        "02".into(),
        "0200".into(),
        "020000".into(),
        frame(2, 512),
        frame(2, 513),
        frame(2, 514),
        descending(256),
    ];
    Case::new("a second permutation")
        .open(GEOMETRY_A, PERMUTATION_A)
        .lines(&seconds, "0e")
        .line(claim, placed)
        .lines(&seconds, "0e")
        .line("03010000000d", "00000000000021000100000820")
        .check();
}

// ---- long frames and long lines

#[test]
fn frames_of_513_bytes() {
    for len in [510, 511, 512, 513] {
        let lines = [frame(2, len)];
        check_in_each_state(&format!("{len} bytes"), &lines, ["14", "05", "0e"]);
    }
    let whole = descending(256);
    check_in_each_state("P 256", &[&whole], ["14", "05", "0e"]);
    for kind in [0, 1, 3, 4, 255] {
        check_malformed("513 bytes", &[frame(kind, 513)]);
    }
    for len in [514, 515, 516, 769, 770, 1024, 1025, 1026, 1027] {
        let lines: Vec<String> = (0..=255).map(|kind| frame(kind, len)).collect();
        check_malformed(&format!("{len} bytes"), &lines);
    }
    for more in ["f", "00", "000", "0000", "\r", "0\r", "z"] {
        check_malformed("P 256 and more", &[format!("{whole}{more}")]);
    }
}

#[test]
fn permutation_of_513_bytes() {
    let whole = descending(256);
    assert_eq!(whole.len(), 1026);
    // H is 46, and slice 255 starts at block 46 + 255 x 2 = 556.
    Case::new("P 256")
        .line(&whole, "14")
        .line("01040000010100", "00")
        .line(&whole[..1024], "05")
        .line(&whole[..1022], "05")
        .line(&whole[..1025], "0e")
        .line(whole.clone() + "0", "0e")
        .line(whole.clone() + "00", "0e")
        .line(whole.clone() + "0000", "0e")
        .line(whole.clone() + "\r", "0e")
        .line(whole.clone() + &whole, "0e")
        .line(&whole, "00")
        .line(&whole, "0e")
        .line("030000000000", "0000ff0000022d000100000410")
        .check();
    Case::new("P 255")
        .line("010400000100ff", "00")
        .line(&whole, "05")
        .line(descending(255), "00")
        .line("030000000000", "0000fe0000022b000100000410")
        .check();
}

const MEGABYTE: usize = 1 << 20;

#[test]
fn lines_of_a_megabyte() {
    let zeros = "0".repeat(MEGABYTE);
    let spaces = " ".repeat(MEGABYTE);
    let nothing = "\0".repeat(MEGABYTE);
    let [claim, _] = CLAIM_A;
    let lines = [
        zeros.clone(),
        format!("{zeros}0"),
        "02".repeat(MEGABYTE / 2),
        "03".repeat(MEGABYTE / 2),
        "z".repeat(MEGABYTE),
        "F".repeat(MEGABYTE),
        "\r".repeat(MEGABYTE),
        nothing.clone(),
        format!("{GEOMETRY_A}{zeros}"),
        format!("{zeros}{GEOMETRY_A}"),
        format!("{GEOMETRY_A}{spaces}"),
        format!("{spaces}{GEOMETRY_A}"),
        format!("{claim}{nothing}"),
        format!("{zeros}{claim}"),
        // The length of a right frame, modulo 2^16.
        format!("{GEOMETRY_A}{}", &zeros[..1 << 16]),
        format!("{claim}{}", &zeros[..1 << 16]),
        format!("{PERMUTATION_A}{}", &zeros[..1 << 16]),
    ];
    check_malformed("a megabyte", &lines);
    for line in &lines {
        Case::new("a megabyte alone").line(line, "0e").check();
    }
}

#[test]
fn megabytes_of_empty_lines() {
    let count = 8 * MEGABYTE;
    let (input, output) = (b"\n".repeat(count), b"0e\n".repeat(count));
    assert_output("empty lines", &input, &run(&input), &output);
    assert_output("reference", &input, &walk(&input), &output);
}

// ---- what must come first, and what may be tried again

#[test]
fn before_the_geometry() {
    let mut lines = vec![
        PERMUTATION_A.to_string(),
        "020000000000000000".into(),
        "020004".into(),
        "0200".into(),
        "02".into(),
        descending(256),
    ];
    lines.extend((1..=20).map(|len| frame(2, len)));
    Case::new("02 first")
        .lines(&lines, "14")
        .line(GEOMETRY_A, "00")
        .line(PERMUTATION_A, "00")
        .line(CLAIM_A[0], CLAIM_A[1])
        .check();
    for line in lines {
        Case::new("02 alone").line(line, "14").check();
    }
    Case::new("a refused geometry is not accepted")
        .line("01040000040101", "01")
        .line(PERMUTATION_A, "14")
        .line(CLAIM_A[0], "14")
        .check();
}

/// 20 is decided before 11 and 12.
#[test]
fn before_the_permutation() {
    let [claim, placed] = CLAIM_A;
    let requests = [claim, "030f00000000", "03ff00000010", "0300ffffffff"];
    Case::new("03 too early")
        .lines(requests, "14")
        .line("01040000410004", "01")
        .lines(requests, "14")
        .line(GEOMETRY_A, "00")
        .lines(requests, "14")
        .line("020002000000030003", "05")
        .lines(requests, "14")
        .line(PERMUTATION_A, "00")
        .line("030f00000000", "0b")
        .line("0300ffffffff", "0c")
        .line(claim, placed)
        .check();
    Case::new("03 alone").line(claim, "14").check();
}

/// A refused frame leaves nothing of itself behind.
#[test]
fn retries() {
    let permutations = [
        "02",
        "0200",
        "020002",
        "02000200",
        "020002000000",
        "02000200000003",
        "0200020000000300",
        "02000200000003000100",
        "0200020000000300010004",
        "0200020000000300010002",
        "02000200000003000100020000",
        // A slice twice.
        "020002000200030001",
        "020002000000030002",
        "020000000000000000",
        "020001000100020003",
        // A slice at or above P.
        "020002000000030004",
        "020004000000030001",
        "020002000001030001",
        "020002000080000001",
        "02ffffffffffffffff",
        "020002000000030101",
        "020102000000030001",
        // Other slices in every place before the bad one.
        "020001000300000000",
        "020003000200010004",
    ];
    Case::new("retries")
        .line("01100000000000", "01")
        .line("01100001010004", "01")
        .line("01040000410004", "01")
        .line("01040000040101", "01")
        .line("01100001001000", "01")
        .line(PERMUTATION_A, "14")
        .line(GEOMETRY_A, "00")
        .lines(permutations, "05")
        .line(PERMUTATION_A, "00")
        .line(CLAIM_A[0], CLAIM_A[1])
        .line("03010000000d", "00000000000021000100000820")
        .line("030e00000000", "0000030000002f000100000c30")
        .line("030e0000000f", "00000100000028000100001040")
        .check();
}

// ---- geometries

#[test]
fn refused_geometries() {
    let mut case = Case::new("refused geometries");
    for b in [
        0, 1, 4, 15, 16, 256, 512, 1008, 1023, 1025, 1028, 1040, 2048, 3072, 4080, 4095, 4097,
        4100, 5120, 8192, 16384, 32768, 33792, 65535,
    ] {
        for (s, p) in [(1, 1), (4, 4), (0, 0)] {
            case = case.line(geometry_line(b, s, p), "01");
        }
    }
    for (b, slices) in [(1024, [65, 66, 256, 320]), (4096, [257, 258, 512, 4096])] {
        for s in [0, 1024, 16384, 65535].into_iter().chain(slices) {
            case = case.line(geometry_line(b, s, 4), "01");
        }
        for p in [0, 257, 258, 260, 512, 1020, 1024, 4095, 4096, 4097, 65535] {
            case = case.line(geometry_line(b, 4, p), "01");
        }
    }
    case.open(GEOMETRY_A, PERMUTATION_A)
        .line(CLAIM_A[0], CLAIM_A[1])
        .check();
    for line in [
        "01040000040000",
        "01040000040101",
        "01040000041000",
        "01040000041001",
        "01040000000004",
        "01040000410004",
        "01100001010004",
        "01080000040004",
    ] {
        Case::new("alone").line(line, "01").check();
    }
}

/// The last address of volume 14, claimed from a permutation that begins with the last slice. Its
/// device block is the stick's last: H + P x (S + 1) - 1.
#[test]
fn served_geometries() {
    for (b, s, p, placed) in [
        // 31 + 1 x 2 - 1 = 32.
        (1024, 1, 1, "00000000000020000100000410"),
        // 31 + 1 x 65 - 1 = 95.
        (1024, 64, 1, "0000000000005f000100000410"),
        // 31 + 4 x 65 - 1 = 290.
        (1024, 64, 4, "00000300000122000100000410"),
        // 31 + 251 x 2 - 1 = 532.
        (1024, 1, 251, "0000fa00000214000100000410"),
        // 31 + 252 x 2 - 1 = 534.
        (1024, 1, 252, "0000fb00000216000100000410"),
        // m is 2 from here on: 46 + 253 x 2 - 1 = 551.
        (1024, 1, 253, "0000fc00000227000100000410"),
        // 46 + 255 x 2 - 1 = 555.
        (1024, 1, 255, "0000fe0000022b000100000410"),
        // 46 + 256 x 65 - 1 = 16,685.
        (1024, 64, 256, "0000ff0000412d000100000410"),
        // m is 1: 31 + 1 x 257 - 1 = 287.
        (4096, 256, 1, "0000000000011f000100001010"),
        // 31 + 253 x 2 - 1 = 536.
        (4096, 1, 253, "0000fc00000218000100001010"),
        // 31 + 256 x 2 - 1 = 542.
        (4096, 1, 256, "0000ff0000021e000100001010"),
        // 31 + 4 x 66 - 1 = 294.
        (4096, 65, 4, "00000300000126000100001010"),
        // 31 + 256 x 257 - 1 = 65,822. P x S is 65,536.
        (4096, 256, 256, "0000ff0001011e000100001010"),
    ] {
        let past = u32::from(p) * u32::from(s);
        Case::new(format!("B {b}, S {s}, P {p}"))
            .open(geometry_line(b, s, p), descending(p))
            .line(request_line(14, past), "0c")
            .line(request_line(15, past - 1), "0b")
            .line(request_line(14, past - 1), placed)
            .line(request_line(14, past), "0c")
            .check();
    }
}

// ---- requests

#[test]
fn volumes_and_addresses() {
    Case::new("volumes and addresses of stick A")
        .open(GEOMETRY_A, PERMUTATION_A)
        .lines((15..=255).map(|volume| request_line(volume, 0)), "0b")
        // 11 is decided before 12.
        .lines((15..=255).map(|volume| request_line(volume, 16)), "0b")
        .line("030fffffffff", "0b")
        .line("03ffffffffff", "0b")
        .line("030000000010", "0c")
        .line("030e00000010", "0c")
        .line("030e00000011", "0c")
        .line("0300ffffffff", "0c")
        .line("030080000000", "0c")
        .line("03007fffffff", "0c")
        // Address 5 modulo 2^8, 2^16 and 2^24.
        .line("030000000105", "0c")
        .line("030000010005", "0c")
        .line("030001000005", "0c")
        .line("0300fffffff5", "0c")
        .line("030e0000000f", "0000020000002d000100000410")
        .line("03000000000f", "00000000000023000100000820")
        .check();
}

#[test]
fn a_stick_fills_up() {
    // Block 32 + 5 x slice + offset.
    Case::new("stick A fills up")
        .open(GEOMETRY_A, PERMUTATION_A)
        .line("030000000005", "0000020000002b000100000410")
        .line("03010000000d", "00000000000021000100000820")
        .line("030000000006", "0000020000002c000000000830")
        .line("030e00000000", "0000030000002f000100000c40")
        .line("030e00000003", "00000300000032000000000c50")
        .line("03000000000d", "00000100000026000100001060")
        .line("030200000000", "16")
        .line("030000000000", "16")
        .line("030100000007", "16")
        .line("030e0000000f", "16")
        .line("03010000000f", "00000000000023000000001070")
        .line("030f00000010", "0b")
        .line("030f00000000", "0b")
        .line("030000000010", "0c")
        .line("030200000000", "16")
        .line("030000000005", "0000020000002b000000001080")
        .line("03000000000c", "00000100000025000000001090")
        .line("03010000000c", "000000000000200000000010a0")
        .line("030e00000001", "000003000000300000000010b0")
        .line("030d00000001", "16")
        .line("020002000000030001", "0e")
        .check();
    Case::new("one slice")
        .open("01040000010001", "020000")
        .line("030000000001", "0c")
        .line("030300000000", "00000000000020000100000410")
        .line("030000000000", "16")
        .line("030300000000", "00000000000020000000000420")
        .line("030400000000", "16")
        .line("030300000001", "0c")
        .line("030300000000", "00000000000020000000000430")
        .check();
}

#[test]
fn fifteen_volumes() {
    // Block 32 + 2 x slice.
    Case::new("each volume claims the same address")
        .open("0110000001000f", descending(15))
        .line("030000000000", "00000e0000003c000100001010")
        .line("030100000000", "00000d0000003a000100002020")
        .line("030200000000", "00000c00000038000100003030")
        .line("030300000000", "00000b00000036000100004040")
        .line("030400000000", "00000a00000034000100005050")
        .line("030500000000", "00000900000032000100006060")
        .line("030600000000", "00000800000030000100007070")
        .line("030700000000", "0000070000002e000100008080")
        .line("030800000000", "0000060000002c000100009090")
        .line("030900000000", "0000050000002a00010000a0a0")
        .line("030a00000000", "0000040000002800010000b0b0")
        .line("030b00000000", "0000030000002600010000c0c0")
        .line("030c00000000", "0000020000002400010000d0d0")
        .line("030d00000000", "0000010000002200010000e0e0")
        .line("030e00000000", "0000000000002000010000f0f0")
        .line("030f00000000", "0b")
        .line("030e00000001", "16")
        .line("030000000001", "16")
        .line("030700000000", "0000070000002e00000000f100")
        .line("030000000000", "00000e0000003c00000000f110")
        .line("030e00000000", "0000000000002000000000f120")
        .line("030e0000000f", "0c")
        .check();
}

/// All values of each byte of a frame 03 that can be served: both digits of a byte count.
#[test]
fn every_byte_of_a_request() {
    // B 4,096, S 256, P 256: the last byte of an address is the offset, and the one before it the
    // logical slice. Slice 0 begins at block 31.
    let mut case = Case::new("offsets").open("01100001000100", permutation_256());
    case = case.line("030000000000", "00000000000020000100001010");
    for offset in 1..256 {
        let answer = format!("000000{:08x}0000{:08x}", 32 + offset, 4112 + 16 * offset);
        case = case.line(request_line(0, offset), answer);
    }
    case.check();
    let mut case = Case::new("logical slices").open("01100001000100", permutation_256());
    for slice in 0..256 {
        let (block, position) = (32 + 257 * slice, 4112 * (slice + 1));
        let answer = format!("00{slice:04x}{block:08x}0001{position:08x}");
        case = case.line(request_line(3, 256 * slice), answer);
    }
    case.check();
    let mut case = Case::new("the other bytes").open("01100001000100", permutation_256());
    for byte in 1..256 {
        case = case.line(request_line(0, byte << 16), "0c");
        case = case.line(request_line(0, byte << 24), "0c");
    }
    case.check();
}

/// 0, 1, .., 255.
fn permutation_256() -> String {
    permutation_line(&(0..256).collect::<Vec<u16>>())
}

/// B 4,096, S 256, P 256: m is 256 / 1,020 rounded up, 1, and H 31.
#[test]
fn largest_numbers() {
    let mut case = Case::new("largest numbers")
        .open("01100001000100", descending(256))
        // Slice 255, offset 255: 31 + 255 x 257 + 1 + 255 = 65,822.
        .line("030e0000ffff", "0000ff0001011e000100001010")
        // Slice 254, offset 0: 31 + 254 x 257 + 1 = 65,310.
        .line("030000000000", "0000fe0000ff1e000100002020");
    // Slices 253 down to 1, offset 0: 32 + 257 x slice.
    for logical in 0..253 {
        let (slice, claims) = (253 - logical, 3 + logical);
        let (block, position) = (32 + 257 * slice, 4112 * claims);
        let answer = format!("00{slice:04x}{block:08x}0001{position:08x}");
        case = case.line(request_line(1, 256 * logical), answer);
    }
    // Slice 0, offset 0, at place 255. The position is 256 x 4,112 = 2^20 + 4,096.
    case = case
        .line("030d00008000", "00000000000020000100101000")
        .line("030200000000", "16")
        .line("03020000ffff", "16")
        // Slice 255, offset 0: 31 + 255 x 257 + 1 = 65,567.
        .line("030e0000ff00", "0000ff0001001f000000101010");
    // 259 requests so far. Slice 0, offset 255: 31 + 1 + 255 = 287.
    for i in 1..=4096 - 259 {
        let answer = format!("0000000000011f0000{:08x}", 0x10_1010 + 16 * i);
        case = case.line("030d000080ff", answer);
    }
    // The last position is 2^20 + 4,096 + 16 + 3,837 x 16 = 1,114,080.
    assert!(case.output.ends_with(b"0000000000011f00000010ffe0\n"));
    case.line("030d000080ff", "0e").check();
}

// ---- the 4,096 requests

/// A claim that was served already, again `times` times, from tape position `position`.
fn rewrites(case: Case, times: usize, position: usize) -> Case {
    let answers = (1..=times).map(|i| format!("0000020000002b0000{:08x}", position + 16 * i));
    answers.fold(case, |case, answer| case.line(CLAIM_A[0], answer))
}

#[test]
fn served_requests_count() {
    let [claim, placed] = CLAIM_A;
    let case = Case::new("4,096 served")
        .open(GEOMETRY_A, PERMUTATION_A)
        .line(claim, placed);
    let case = rewrites(case, 4095, 0x410);
    assert!(case.output.ends_with(b"0000020000002b000000010400\n"));
    case.check();
    case.times(3, claim, "0e")
        .line("030f00000000", "0e")
        .line("030000000010", "0e")
        .line("03", "0e")
        .line(GEOMETRY_A, "0e")
        .line(PERMUTATION_A, "0e")
        .check();
}

#[test]
fn refused_requests_count() {
    let [claim, placed] = CLAIM_A;
    for (first, answer) in [(4095, placed), (4096, "0e"), (4097, "0e")] {
        Case::new(format!("{first} before the geometry"))
            .times(first.min(4096), claim, "14")
            .times(first - first.min(4096), claim, "0e")
            .open(GEOMETRY_A, PERMUTATION_A)
            .line(claim, answer)
            .times(2, claim, "0e")
            .check();
        Case::new(format!("{first} before the permutation"))
            .line(GEOMETRY_A, "00")
            .times(first.min(4096), "03ffffffffff", "14")
            .times(first - first.min(4096), "03ffffffffff", "0e")
            .line("02", "05")
            .line(PERMUTATION_A, "00")
            .line(claim, answer)
            .times(2, claim, "0e")
            .check();
    }
    Case::new("refusals of every number count")
        .times(1000, claim, "14")
        .line(GEOMETRY_A, "00")
        .times(1000, "03ffffffffff", "14")
        .line(PERMUTATION_A, "00")
        .times(500, "030f00000000", "0b")
        .times(500, "030000000010", "0c")
        .line("030000000005", "0000020000002b000100000410")
        .line("030100000005", "00000000000021000100000820")
        .line("030200000005", "00000300000030000100000c30")
        .line("030300000005", "00000100000026000100001040")
        .times(1090, "030400000005", "16")
        .line("030000000004", "0000020000002a000000001050")
        .line("030e00000004", "16")
        .line("030000000004", "0e")
        .line("030e00000004", "0e")
        .line("030f00000004", "0e")
        .check();
}

#[test]
fn malformed_requests_do_not_count() {
    let [claim, placed] = CLAIM_A;
    let malformed = [
        "03",
        "0300000000",
        "03000000000500",
        "03000000000500000000",
        "030000000005\r",
        "03000000000A",
        "03000000000",
        "0300000000050",
    ];
    let noise = malformed.iter().cycle().take(5000);
    let case = Case::new("malformed requests")
        .lines(noise.clone(), "0e")
        .times(10, claim, "14")
        .line(GEOMETRY_A, "00")
        .lines(noise.clone(), "0e")
        .line(PERMUTATION_A, "00")
        .lines(noise.clone(), "0e")
        .line(claim, placed)
        .lines(noise, "0e");
    rewrites(case, 4085, 0x410).line(claim, "0e").check();
}

#[test]
fn other_frames_after_the_requests() {
    let [claim, _] = CLAIM_A;
    Case::new("other frames after 4,096 requests")
        .times(4096, claim, "14")
        .line(claim, "0e")
        .line(PERMUTATION_A, "14")
        .line("01040000410004", "01")
        .line(claim, "0e")
        .line(GEOMETRY_A, "00")
        .line("020002000000030003", "05")
        .line(claim, "0e")
        .line(PERMUTATION_A, "00")
        .line(claim, "0e")
        .line(GEOMETRY_A, "0e")
        .line(PERMUTATION_A, "0e")
        .check();
}

// ---- inputs from the generator

/// A stick whose frames an input is made of.
struct Stick {
    b: u16,
    s: u16,
    p: u16,
    permutation: Vec<u16>,
    /// The volumes that it uses mostly.
    volumes: usize,
}

impl Stick {
    fn random(random: &mut Random) -> Self {
        let b = random.pick(&[1024, 4096]);
        let p = random.pick(&[1, 2, 3, 4, 8, 17, 40, 252, 253, 256]);
        let permutation = random.permutation(p.into());
        Stick {
            b,
            s: random.pick(&[1, 2, 3, 4, 17, b / 16]),
            p,
            permutation: permutation.iter().map(|&slice| slice as u16).collect(),
            volumes: random.pick(&[1, 3, 15]),
        }
    }

    fn geometry(&self) -> String {
        geometry_line(self.b, self.s, self.p)
    }

    fn permutation(&self) -> String {
        permutation_line(&self.permutation)
    }

    fn wrong_geometry(&self, random: &mut Random) -> String {
        let any = random.word() as u16;
        let (b, s, p) = (self.b, self.s, self.p);
        match random.below(3) {
            0 => geometry_line(random.pick(&[0, 1023, 1025, 2048, 4095, 4097, any]), s, p),
            1 => geometry_line(b, random.pick(&[0, b / 16 + 1, 65535, any]), p),
            _ => geometry_line(b, s, random.pick(&[0, 257, 4096, 4097, any])),
        }
    }

    fn wrong_permutation(&self, random: &mut Random) -> String {
        let mut slices = self.permutation.clone();
        let [i, j] = [(); 2].map(|()| random.below(slices.len()));
        match random.below(6) {
            0 => slices.truncate(i),
            1 => slices.push(random.pick(&[self.p, 0])),
            2 => slices[i] = slices[j],
            3 => slices[i] = random.pick(&[self.p, self.p + 1, 255, 256, 65535]),
            4 => return permutation_line(&slices) + "00",
            _ => return permutation_line(&slices[i..]) + "0",
        }
        permutation_line(&slices)
    }

    fn request(&self, random: &mut Random) -> String {
        let addresses = u32::from(self.p) * u32::from(self.s);
        let volume = match random.below(40) {
            0 => random.pick(&[14, 15, 16, 255]),
            1 => random.word() as u8,
            2 => random.below(15) as u8,
            _ => random.below(self.volumes) as u8,
        };
        let address = match random.below(40) {
            0 => random.pick(&[addresses - 1, addresses, addresses + 1, u32::MAX]),
            1 => random.word() as u32,
            2 => random.below(addresses as usize) as u32 + random.pick(&[1 << 16, 1 << 24]),
            // Only few logical slices, so that there are rewrites.
            3..=20 => random.below(addresses.min(6) as usize) as u32,
            _ => random.below(addresses as usize) as u32,
        };
        request_line(volume, address)
    }

    /// A line of any kind, without its end. Most are requests.
    fn line(&self, random: &mut Random) -> Vec<u8> {
        let mut line = match random.below(100) {
            0 => self.geometry(),
            1 => self.permutation(),
            2 => self.wrong_geometry(random),
            3..=4 => self.wrong_permutation(random),
            5 => {
                let len = random.below(20);
                hex(&random.bytes(len))
            }
            6 => frame(random.below(5) as u8, 508 + random.below(12)),
            7 if random.once_in(4) => "0".repeat(random.below(20_000)),
            _ => self.request(random),
        };
        if random.once_in(12) {
            return damaged(random, line);
        }
        if random.once_in(300) {
            line = line.repeat(random.below(200));
        }
        line.into_bytes()
    }

    /// A whole input. In most the frames 01 and 02 are accepted after a few other lines.
    fn input(&self, random: &mut Random) -> Vec<u8> {
        let mut lines = Vec::new();
        for first in [self.geometry(), self.permutation()] {
            for _ in 0..random.below(5) {
                lines.push(self.line(random));
            }
            for _ in 0..random.below(3) {
                lines.push(self.wrong_geometry(random).into_bytes());
                lines.push(self.wrong_permutation(random).into_bytes());
            }
            if !random.once_in(25) {
                lines.push(first.into_bytes());
            }
        }
        let most = random.pick(&[3, 60, 200, 800]);
        let more = if random.once_in(20) { 5000 } else { 0 };
        for _ in 0..more + random.below(most) {
            lines.push(self.line(random));
        }
        let mut input = lines.join(&b'\n');
        if !random.once_in(3) {
            input.push(b'\n');
        }
        input
    }
}

fn hex(bytes: &[u8]) -> String {
    bytes.iter().map(|byte| format!("{byte:02x}")).collect()
}

/// The line cut, or with one byte changed, put in or taken out. A byte 0a makes it two lines.
fn damaged(random: &mut Random, line: String) -> Vec<u8> {
    let mut line = line.into_bytes();
    if line.is_empty() {
        return line;
    }
    let i = random.below(line.len());
    let digit = random.pick(b"0123456789abcdef");
    match random.below(8) {
        0 => line.truncate(i),
        1 => line.truncate(i / 2 * 2),
        2 => line[i] = digit,
        3 => line.make_ascii_uppercase(),
        4 => line[i] = random.word() as u8,
        5 => line.insert(i, random.word() as u8),
        6 => line.insert(i, digit),
        _ => drop(line.remove(i)),
    }
    line
}

/// What the answers of many inputs covered.
struct Covered {
    /// The lines with each answer byte.
    answers: [usize; 256],
    claims: usize,
    rewrites: usize,
    /// Right requests after the 4,096.
    past_limit: usize,
    /// Inputs whose last line has no end.
    unended: usize,
}

impl Covered {
    fn nothing() -> Self {
        Covered {
            answers: [0; 256],
            claims: 0,
            rewrites: 0,
            past_limit: 0,
            unended: 0,
        }
    }

    fn add(&mut self, input: &[u8], output: &[u8]) {
        let (lines, answers) = (lines(input), lines(output));
        assert_eq!(lines.len(), answers.len(), "one answer for each line");
        self.unended += usize::from(!input.ends_with(b"\n"));
        for (line, answer) in lines.iter().zip(answers) {
            let answer = std::str::from_utf8(answer).unwrap().trim_end();
            let number = u8::from_str_radix(&answer[..2], 16).unwrap();
            self.answers[usize::from(number)] += 1;
            match answer.get(14..18) {
                Some("0000") => self.rewrites += 1,
                Some("0001") => self.claims += 1,
                Some(count) => panic!("a claim that looked at {count} places"),
                None => {}
            }
            self.past_limit += usize::from(is_request(line) && answer == "0e");
        }
    }

    fn check(&self) {
        let numbers = [0x00, 0x01, 0x05, 0x0b, 0x0c, 0x0e, 0x14, 0x16];
        for (number, &count) in self.answers.iter().enumerate() {
            println!("answer {number:02x}: {count}");
            assert_eq!(numbers.contains(&number), count > 0, "answer {number:02x}");
            assert!(count == 0 || count >= 200, "answer {number:02x}: {count}");
        }
        assert!(self.claims >= 1000, "claims: {}", self.claims);
        assert!(self.rewrites >= 1000, "rewrites: {}", self.rewrites);
        assert!(self.past_limit >= 1000, "past 4,096: {}", self.past_limit);
        assert!(self.unended >= 50, "without an end: {}", self.unended);
    }
}

/// Whether a line is a frame 03 of the right length.
fn is_request(line: &[u8]) -> bool {
    let line = line.strip_suffix(b"\n").unwrap_or(line);
    let digits = |line: &[u8]| line.iter().all(|byte| b"0123456789abcdef".contains(byte));
    line.len() == 12 && line.starts_with(b"03") && digits(line)
}

#[test]
fn random_inputs() {
    let mut random = Random::seeded();
    let mut covered = Covered::nothing();
    for i in 0..500 {
        let input = Stick::random(&mut random).input(&mut random);
        let expected = walk(&input);
        assert_output(&format!("input {i}"), &input, &run(&input), &expected);
        covered.add(&input, &expected);
    }
    covered.check();
}

// ---- pieces and edges

/// Cuts at random places, many of them just before or just after the end of a line.
fn pieces<'a>(random: &mut Random, input: &'a [u8], cuts: usize) -> Vec<&'a [u8]> {
    if input.is_empty() {
        return Vec::new();
    }
    let ends = input.iter().enumerate().filter(|(_, &byte)| byte == b'\n');
    let ends: Vec<usize> = ends.map(|(i, _)| i).chain([input.len() - 1]).collect();
    let mut places: Vec<usize> = (0..cuts)
        .map(|_| match random.below(3) {
            0 => random.below(input.len()),
            1 => random.pick(&ends),
            _ => random.pick(&ends) + 1,
        })
        .collect();
    places.sort_unstable();
    let starts = [0].into_iter().chain(places.iter().copied());
    let stops = places.iter().copied().chain([input.len()]);
    starts.zip(stops).map(|(i, j)| &input[i..j]).collect()
}

/// A run whose input comes in pieces, with a moment between them for the program to read.
fn run_pieces(pieces: &[&[u8]]) -> Vec<u8> {
    run_fed(slicewalk(), |pipe| {
        for piece in pieces {
            pipe.write_all(piece)?;
            pipe.flush()?;
            thread::sleep(Duration::from_micros(100));
        }
        Ok(())
    })
}

#[test]
fn input_in_pieces() {
    let mut random = Random::seeded();
    for input in [EXAMPLE_INPUT, EXAMPLE_INPUT.trim_end()] {
        let bytes: Vec<&[u8]> = input.as_bytes().chunks(1).collect();
        let output = EXAMPLE_OUTPUT.as_bytes();
        assert_output(
            "byte by byte",
            input.as_bytes(),
            &run_pieces(&bytes),
            output,
        );
        let lines = lines(input.as_bytes());
        assert_output(
            "line by line",
            input.as_bytes(),
            &run_pieces(&lines),
            output,
        );
    }
    for i in 0..40 {
        let input = Stick::random(&mut random).input(&mut random);
        let cuts = random.below(80);
        let pieces = pieces(&mut random, &input, cuts);
        assert_eq!(pieces.concat(), input);
        let output = run_pieces(&pieces);
        assert_output(&format!("input {i}"), &input, &output, &walk(&input));
    }
}

/// A line of `len` bytes that is not hexadecimal.
fn filler(len: usize) -> String {
    "z".repeat(len)
}

/// Some 300,000 bytes of short lines and of permutations that are refused, then claims.
fn long_case() -> Case {
    let whole = descending(256);
    // It ends in slices 1 and 0; here slice 1 stands twice.
    let twice = whole[..1022].to_string() + "0001";
    let mut case = Case::new("a long input");
    for _ in 0..70 {
        case = case
            .line(&whole, "14")
            .line("01040000410004", "01")
            .line(whole.clone() + "00", "0e")
            .line("", "0e")
            .line("020002", "14");
    }
    case = case.line("01100000010100", "00");
    for _ in 0..70 {
        case = case
            .line(&twice, "05")
            .line("01040000410004", "0e")
            .line(whole.clone() + "0", "0e");
    }
    case = case.line(&whole, "00");
    // Block 31 + 2 x slice + 1 for slices 255, 254, ..; then rewrites of the last, slice 0.
    for i in 0..256 {
        let (slice, address) = (255 - i, 255 - i);
        let (block, position) = (32 + 2 * slice, 4112 * (i + 1));
        let answer = format!("00{slice:04x}{block:08x}0001{position:08x}");
        case = case.line(request_line(7, address), answer);
    }
    for i in 1..=3840 {
        let answer = format!("000000000000200000{:08x}", 0x10_1000 + 16 * i);
        case = case.line("030700000000", answer);
    }
    case.times(1000, "030700000000", "0e")
}

/// The program that the benchmark runs beside `slicewalk`.
#[test]
fn reference_program() {
    let program = env!("CARGO_BIN_EXE_plainwalk");
    let Case { input, output, .. } = long_case();
    let ran = run_fed(program, |pipe| pipe.write_all(&input));
    assert_output("plainwalk", &input, &ran, &output);
    let open = EXAMPLE_INPUT.trim_end().as_bytes();
    let ran = run_fed(program, |pipe| pipe.write_all(open));
    assert_output("plainwalk", open, &ran, EXAMPLE_OUTPUT.as_bytes());
}

/// Each end of a line falls on every place about the edge of a buffer.
#[test]
fn edges_of_a_buffer() {
    let long = long_case();
    assert!(long.input.len() > 4 * 65_536);
    long.check();
    let file = InputFile::new("edges");
    for shift in 0..=70 {
        let input = [filler(shift).as_bytes(), b"\n", &long.input].concat();
        let output = [b"0e\n", &long.output[..]].concat();
        let what = format!("shifted by {shift}");
        assert_output(&what, &input, &run(&input), &output);
        assert_output(&what, &input, &file.run(&input), &output);
    }
}

/// A permutation of 513 bytes that begins at each of many places before the edge of a buffer.
#[test]
fn permutation_across_an_edge() {
    let file = InputFile::new("across");
    let whole = descending(256);
    for edge in [4096, 65_536] {
        for before in (0..=1028)
            .step_by(11)
            .chain([1, 2, 1024, 1025, 1026, 1027, 1028])
        {
            let geometry = "01040000010100";
            let case = Case::new(format!("{before} bytes before {edge}"))
                .line(filler(edge - before - geometry.len() - 2), "0e")
                .open(geometry, &whole)
                .line("030000000000", "0000ff0000022d000100000410");
            assert_eq!(case.input[edge - before..][..1026], *whole.as_bytes());
            let output = file.run(&case.input);
            assert_output(&case.name, &case.input, &output, &case.output);
        }
    }
}

/// Inputs that end at the edge of a buffer or about it, with and without the last 0a.
#[test]
fn ends_at_an_edge() {
    let file = InputFile::new("ends");
    for edge in [512, 1024, 4096, 8192, 16_384, 32_768, 65_536, 131_072] {
        for len in edge - 16..=edge + 2 {
            for end in ["", "\n"] {
                let last = format!("{GEOMETRY_A}{end}");
                let input = filler(len - last.len() - 1) + "\n" + &last;
                assert_eq!(input.len(), len);
                let output = file.run(input.as_bytes());
                assert_output(
                    &format!("{len} bytes"),
                    input.as_bytes(),
                    &output,
                    b"0e\n00\n",
                );
                let long = filler(len - end.len()) + end;
                let output = file.run(long.as_bytes());
                assert_output(&format!("{len} bytes"), long.as_bytes(), &output, b"0e\n");
            }
        }
    }
}

// ---- failures

/// A read or a write that fails is named on standard error, and an unfinished line gets no answer.
#[test]
fn failures_are_named() {
    let folder = File::open(env!("CARGO_TARGET_TMPDIR")).unwrap();
    let output = Command::new(slicewalk()).stdin(folder).output().unwrap();
    assert_eq!(output.stdout, b"");
    let errors = String::from_utf8(output.stderr).unwrap();
    assert!(
        errors.starts_with("slicewalk: standard input: "),
        "{errors}"
    );

    let input = InputFile::new("failures");
    for lines in [EXAMPLE_INPUT, EXAMPLE_INPUT.trim_end(), "03"] {
        fs::write(&input.0, lines).unwrap();
        let full = File::options().write(true).open("/dev/full").unwrap();
        let mut command = Command::new(slicewalk());
        command.stdin(File::open(&input.0).unwrap()).stdout(full);
        let errors = String::from_utf8(command.output().unwrap().stderr).unwrap();
        assert!(
            errors.starts_with("slicewalk: standard output: "),
            "{errors}"
        );
        assert_eq!(errors.lines().count(), 1, "{errors}");
    }
}
