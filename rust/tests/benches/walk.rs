//! The speed of the program `slicewalk` beside that of `plainwalk`, the reference's walk, both run as
//! processes that read a file and write to the null device. Nothing here asserts a time.

use std::fs::{self, File};
use std::path::{Path, PathBuf};
use std::process::{Command, Stdio};
use std::time::Instant;

use hiwalgam_tests::inputs::Random;
use hiwalgam_tests::interface::VOLUMES;
use hiwalgam_tests::slicewalk::{geometry_line, permutation_line, request_line, slicewalk};

/// S and P of the stick; B is 4,096.
const S: usize = 4;
const P: usize = 256;
/// The frames 03 that can be served.
const REQUESTS: usize = 4096;
/// The lines of the long input.
const LINES: usize = 100_000;
/// Rounds, in each of which every program has a turn with every file.
const ROUNDS: usize = 41;

/// The frames 01 and 02.
fn opening(random: &mut Random) -> Vec<String> {
    let permutation: Vec<u16> = random.permutation(P).iter().map(|&n| n as u16).collect();
    let geometry = geometry_line(4096, S as u16, P as u16);
    vec![geometry, permutation_line(&permutation)]
}

/// Requests among the first `volumes` volumes and the first `slices` logical slices of each.
fn requests(random: &mut Random, count: usize, volumes: usize, slices: usize) -> Vec<String> {
    let mut request = |_| {
        let address = random.below(slices * S) as u32;
        request_line(random.below(volumes) as u8, address)
    };
    (0..count).map(&mut request).collect()
}

/// An input in a file, with the seconds of a run of each program in each round.
struct Input {
    name: &'static str,
    lines: usize,
    path: PathBuf,
    seconds: [Vec<f64>; 2],
}

impl Input {
    fn new(name: &'static str, file: &str, lines: Vec<String>) -> Self {
        let path = Path::new(env!("CARGO_TARGET_TMPDIR")).join(file);
        let input: String = lines.iter().map(|line| format!("{line}\n")).collect();
        fs::write(&path, input).unwrap();
        Input {
            name,
            lines: lines.len(),
            path,
            seconds: [Vec::new(), Vec::new()],
        }
    }

    fn command(&self, program: &Path) -> Command {
        let mut command = Command::new(program);
        command.stdin(File::open(&self.path).unwrap());
        command
    }

    fn output(&self, program: &Path) -> Vec<u8> {
        let output = self.command(program).output().unwrap();
        assert!(output.status.success(), "{}", program.display());
        output.stdout
    }

    /// The seconds of a run, the start of the process included.
    fn time(&self, program: &Path) -> f64 {
        let mut command = self.command(program);
        command.stdout(Stdio::null());
        let start = Instant::now();
        let status = command.status().unwrap();
        let seconds = start.elapsed().as_secs_f64();
        assert!(status.success(), "{}", program.display());
        seconds
    }

    fn turn(&mut self, programs: &[PathBuf; 2]) {
        let times = programs.each_ref().map(|program| self.time(program));
        for (seconds, time) in self.seconds.iter_mut().zip(times) {
            seconds.push(time);
        }
    }

    /// The median seconds of each program.
    fn medians(&self) -> [f64; 2] {
        self.seconds.each_ref().map(|values| median(values.clone()))
    }

    /// The median of how many times as long as `plainwalk` the program took in a round.
    fn ratio(&self) -> f64 {
        let rounds = self.seconds[0].iter().zip(&self.seconds[1]);
        median(rounds.map(|(program, plain)| program / plain).collect())
    }
}

impl Drop for Input {
    fn drop(&mut self) {
        let _ = fs::remove_file(&self.path);
    }
}

fn median(mut values: Vec<f64>) -> f64 {
    values.sort_by(f64::total_cmp);
    values[values.len() / 2]
}

/// Prints how many lines of each kind an output has.
fn print_kinds(name: &str, output: &[u8]) {
    let output = std::str::from_utf8(output).unwrap();
    let count = |kind: fn(&str) -> bool| output.lines().filter(|line| kind(line)).count();
    let rewrites = count(|line| line.get(14..18) == Some("0000"));
    let claims = count(|line| line.len() > 2) - rewrites;
    let (full, wrong) = (count(|line| line == "16"), count(|line| line == "0e"));
    println!("{name:<16} {claims:>7} {rewrites:>10} {full:>7} {wrong:>7}");
}

fn main() {
    let random = &mut Random::seeded();
    let programs = [slicewalk(), PathBuf::from(env!("CARGO_BIN_EXE_plainwalk"))];
    let mut input = |name, file, count, volumes, slices| {
        let lines = [opening(random), requests(random, count, volumes, slices)];
        Input::new(name, file, lines.concat())
    };
    let mut inputs = [
        Input::new("no lines", "walk-no-lines", Vec::new()),
        input("100,000 lines", "walk-long", LINES - 2, VOLUMES, P),
        // 2 x 128 logical slices, for which there are slices enough.
        input("4,096 served", "walk-served", REQUESTS, 2, P / 2),
        input("4,096, soon full", "walk-full", REQUESTS, VOLUMES, P),
    ];
    println!("B 4096, S {S}, P {P}.\n");
    println!("input             claims   rewrites      16      0e");
    for input in &inputs {
        let [output, plain] = programs.each_ref().map(|program| input.output(program));
        assert!(output == plain, "both write the same for {}", input.name);
        print_kinds(input.name, &output);
    }
    for _ in 0..ROUNDS {
        inputs.iter_mut().for_each(|input| input.turn(&programs));
    }

    println!(
        "\nMedians of {ROUNDS} rounds, the start of the process included. Ratios are of times"
    );
    println!("in the same round; net ratios of medians less those of no lines.\n");
    println!("                    slicewalk               plainwalk       slicewalk/plainwalk");
    println!("input               ms      lines/s         ms      lines/s      ratio      net");
    let starts = inputs[0].medians();
    for input in &inputs {
        let medians = input.medians();
        let [program, plain] = medians.map(|seconds| {
            let speed = input.lines as f64 / seconds;
            format!("{:>8.3} {speed:>12.0}", 1e3 * seconds)
        });
        let net = match input.lines {
            0 => "-".to_string(),
            _ => format!("{:.3}", (medians[0] - starts[0]) / (medians[1] - starts[1])),
        };
        let (name, ratio) = (input.name, input.ratio());
        println!("{name:<16} {program}   {plain} {ratio:>10.3} {net:>8}");
    }
}
