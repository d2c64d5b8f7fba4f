//! The transcripts of `testdata` on each implementation. Their images and answers come from a script
//! that uses none of them; `testdata/README.md` says how they are read. After each call the whole of
//! what was lent is compared, with the guards around it. Besides, the session is dropped there in
//! thought, wherever it passed on untouched from its opening: the device has to open to what it holds.

use std::collections::HashMap;
use std::fs;
use std::path::{Path, PathBuf};

use hiwalgam_tests::adapters::{CFunctions, Reference, Wrapper};
use hiwalgam_tests::inputs::Guarded;
use hiwalgam_tests::interface::{
    Answer, Engine, Session, Tables, Tape, Target, Written, SERVED, UNMAPPED,
};

#[test]
fn c_functions_follow_the_transcripts() {
    follow_all(&CFunctions);
}

#[test]
fn wrapper_follows_the_transcripts() {
    follow_all(&Wrapper);
}

#[test]
fn reference_follows_the_transcripts() {
    follow_all(&Reference);
}

// ---- words

fn number(word: &str) -> usize {
    word.parse().expect("a number")
}

fn entry(word: &&str) -> u32 {
    match *word {
        "-" => UNMAPPED,
        word => word.parse().expect("an entry"),
    }
}

fn entries(words: &[&str]) -> Vec<u32> {
    words.iter().map(entry).collect()
}

fn hexadecimal(word: &str) -> Vec<u8> {
    let digits = if word == "-" { "" } else { word };
    assert!(digits.len() % 2 == 0, "an even number of digits");
    (0..digits.len() / 2)
        .map(|i| u8::from_str_radix(&digits[2 * i..2 * i + 2], 16).expect("hexadecimal"))
        .collect()
}

/// Counts of logical slices in one word, as `5,1,7*13`; `-` is none.
fn counts(word: &str) -> Vec<usize> {
    let runs = word.split(',').filter(|&run| run != "-");
    runs.flat_map(|run| {
        let (count, times) = run.split_once('*').unwrap_or((run, "1"));
        vec![number(count); number(times)]
    })
    .collect()
}

/// The number of an answer, as a transcript has it.
fn shown(answer: Answer) -> u8 {
    answer.map_or_else(|refusal| refusal.number(), |()| 0)
}

/// The files of the folder, by name.
struct Files(HashMap<String, Vec<u8>>);

impl Files {
    fn whole(&self, file: &str) -> &[u8] {
        &self.0[file]
    }

    fn part(&self, file: &str, offset: &str, length: &str) -> &[u8] {
        &self.whole(file)[number(offset)..][..number(length)]
    }

    /// Entries that stand in a file with two bytes each, most significant first.
    fn entries(&self, file: &str, offset: &str, count: &str) -> Vec<u32> {
        let bytes = &self.whole(file)[number(offset)..][..2 * number(count)];
        let pairs = bytes.chunks_exact(2);
        pairs
            .map(|pair| u16::from_be_bytes([pair[0], pair[1]]).into())
            .collect()
    }
}

// ---- states

/// What is lent to the calls or handed from one to the next.
struct State {
    device: Guarded,
    geometry: [usize; 3],
    maps: Guarded<u32>,
    owners: Guarded,
    permutation: Guarded<u32>,
    tape: Guarded,
    position: usize,
    session: Session,
}

impl State {
    fn empty() -> Self {
        State {
            device: Guarded::new(&[]),
            geometry: [0; 3],
            maps: Guarded::new(&[]),
            owners: Guarded::new(&[]),
            permutation: Guarded::new(&[]),
            tape: Guarded::new(&[]),
            position: 0,
            session: Session::CLOSED,
        }
    }

    /// Sets the part that the words name.
    fn set(&mut self, files: &Files, words: &[&str]) {
        let p = self.geometry[2];
        match *words {
            ["device", file, length] => self.device = Guarded::new(files.part(file, "0", length)),
            ["zeros", length] => self.device = Guarded::new(&vec![0; number(length)]),
            ["bytes", at, file, offset, length] => {
                let part = files.part(file, offset, length);
                self.device[number(at)..][..part.len()].copy_from_slice(part);
            }
            ["geometry", b, s, p] => self.geometry = [b, s, p].map(number),
            ["maps", count, value] => {
                self.maps = Guarded::new(&vec![entry(&value); number(count)]);
            }
            ["row", volume, ref row @ ..] => {
                self.maps[number(volume) * p..][..p].copy_from_slice(&entries(row));
            }
            ["entry", volume, logical, value] => {
                assert!(number(logical) < p, "a logical slice");
                self.maps[number(volume) * p + number(logical)] = entry(&value);
            }
            ["owners", ref owners @ ..] => {
                let owners = owners.iter().map(|word| word.parse().expect("an owner"));
                self.owners = Guarded::new(&owners.collect::<Vec<u8>>());
            }
            ["owner", slice, owner] => {
                self.owners[number(slice)] = owner.parse().expect("an owner");
            }
            ["permutation", ref slices @ ..] => self.permutation = Guarded::new(&entries(slices)),
            ["order", file, offset, count] => {
                self.permutation = Guarded::new(&files.entries(file, offset, count));
            }
            ["tape", bytes] => self.tape = Guarded::new(&hexadecimal(bytes)),
            ["tape", file, offset, length] => {
                self.tape = Guarded::new(files.part(file, offset, length));
            }
            ["position", position] => self.position = number(position),
            ["session", b, s, p, k, open, start_place, held, ref keys @ ..] => {
                let [b, s, p, k, open, start_place] = [b, s, p, k, open, start_place].map(number);
                assert!(open <= 1, "open or closed");
                self.session = Session {
                    b,
                    s,
                    p,
                    k,
                    open,
                    start_place,
                    ..Session::CLOSED
                };
                let held = counts(held);
                self.session.counts[..held.len()].copy_from_slice(&held);
                assert!(keys.iter().all(|key| key.len() == 64), "keys");
                let keys = hexadecimal(&keys.concat());
                self.session.keys[..keys.len()].copy_from_slice(&keys);
            }
            ["start", place] => self.session.start_place = number(place),
            ["count", volume, count] => self.session.counts[number(volume)] = number(count),
            _ => panic!("nothing that can be set"),
        }
    }

    /// Makes the call, and fails where the answer or a buffer is not as wanted.
    fn call(&mut self, engine: &dyn Engine, files: &Files, call: &[&str], want: &[&str]) {
        let mut tables = Tables {
            maps: &mut self.maps,
            owners: &mut self.owners,
        };
        let mut tape = Tape {
            bytes: &self.tape,
            position: self.position,
        };
        let (device, session, permutation) =
            (&mut self.device, &mut self.session, &mut self.permutation);
        let target = |volume, address| Target {
            volume: number(volume),
            address: number(address),
        };
        let got = match *call {
            ["shuffle"] => shown(engine.shuffle(self.geometry, permutation, &mut tape)).to_string(),
            ["open", key] => {
                let (key, numbers) = (Guarded::new(&hexadecimal(key)), self.geometry);
                let answer = engine.open(device, numbers, &key, &mut tables, permutation, session);
                match answer {
                    SERVED => format!("0 {}", session.k),
                    refused => shown(refused).to_string(),
                }
            }
            ["read", volume, address, length] => {
                let mut buffer = Guarded::blank(number(length));
                let mut wanted = buffer.clone();
                if let ["0", file, offset] = *want {
                    wanted.copy_from_slice(files.part(file, offset, length));
                }
                let target = target(volume, address);
                let answer = shown(engine.read(device, &tables, session, target, &mut buffer));
                assert!(answer.to_string() == want[0], "the answer is {answer}");
                assert!(buffer == wanted, "the buffer differs");
                want.join(" ")
            }
            ["find", volume, address] => {
                let mut out = Guarded::blank(4096);
                let mut wanted = out.clone();
                if let [length, at] = *want {
                    let part = &device[number(at)..][..number(length)];
                    wanted[..part.len()].copy_from_slice(part);
                }
                let target = target(volume, address);
                let length = engine.find(device, &tables, session, target, &mut out);
                assert!(length.to_string() == want[0], "the length is {length}");
                assert!(out == wanted, "the part differs");
                want.join(" ")
            }
            ["write", volume, address, file, offset, length] => {
                let text = Guarded::new(files.part(file, offset, length));
                let (tables, tape, unchanged) = (&mut tables, &mut tape, text.clone());
                let target = target(volume, address);
                let Written {
                    answer,
                    claimed,
                    slice,
                    probes,
                } = engine.write(device, tables, permutation, tape, session, target, &text);
                assert!(text == unchanged, "the text differs");
                match (shown(answer), claimed, slice) {
                    (0, 1, _) => format!("0 claimed {slice} {probes}"),
                    (0, 0, _) => format!("0 rewritten {slice} {probes}"),
                    (refusal, 0, 0) => format!("{refusal} {probes}"),
                    (answer, ..) => format!("{answer} with {claimed}, {slice}, {probes}"),
                }
            }
            ["release", volume, logical] => {
                let (volume, logical) = (number(volume), number(logical));
                let (tables, tape) = (&mut tables, &mut tape);
                match engine.release(device, tables, permutation, tape, session, volume, logical) {
                    Ok(slice) => format!("0 {slice}"),
                    Err(refusal) => refusal.number().to_string(),
                }
            }
            ["close"] => shown(engine.close(device, &mut tables, session)).to_string(),
            ["format", volumes, keys, handed] => {
                let (volumes, numbers) = (number(volumes), self.geometry);
                let keys = Guarded::new(&hexadecimal(keys));
                let handed = Guarded::new(&counts(handed));
                let unchanged = (keys.clone(), handed.clone());
                let answer = engine.format(device, numbers, volumes, &keys, &handed, &mut tape);
                assert!(keys == unchanged.0, "the keys differ");
                assert!(handed == unchanged.1, "the counts differ");
                shown(answer).to_string()
            }
            _ => panic!("no call"),
        };
        self.position = tape.position;
        assert!(got == want.join(" "), "the answer is {got}");
    }

    fn assert_equals(&self, expected: &State) {
        let differing: Vec<&str> = [
            ("device", self.device == expected.device),
            ("geometry", self.geometry == expected.geometry),
            ("maps", self.maps == expected.maps),
            ("owners", self.owners == expected.owners),
            ("permutation", self.permutation == expected.permutation),
            ("tape", self.tape == expected.tape),
            ("position", self.position == expected.position),
            ("session", self.session == expected.session),
        ]
        .iter()
        .filter_map(|&(part, equal)| (!equal).then_some(part))
        .collect();
        assert!(differing.is_empty(), "not as expected: {differing:?}");
    }

    /// The session is dropped here: with its key a copy of the device opens to the tables and the
    /// session held, whose start place alone goes by the permutation.
    fn assert_opens_again(&self, engine: &dyn Engine, key: &[u8]) {
        let held = &self.session;
        let mut maps = Guarded::new(&vec![0; self.maps.len()]);
        let mut owners = Guarded::new(&vec![u8::MAX; self.owners.len()]);
        let mut tables = Tables {
            maps: &mut maps,
            owners: &mut owners,
        };
        let permutation: Vec<u32> = (0..held.p as u32).rev().collect();
        let (device, numbers) = (self.device.clone(), [held.b, held.s, held.p]);
        let mut opened = Session::CLOSED;
        let answer = engine.open(
            &device,
            numbers,
            key,
            &mut tables,
            &permutation,
            &mut opened,
        );
        opened.start_place = held.start_place;
        assert!(answer == SERVED, "dropped, it opens with {answer:?}");
        assert!(opened == *held, "dropped, it opens to another session");
        assert!(maps == self.maps, "dropped, it opens to other maps");
        assert!(owners == self.owners, "dropped, it opens to other owners");
    }
}

// ---- transcripts

/// The line that is followed, named where a test fails in it.
struct Line<'a>(&'a str, usize, &'a str);

impl Drop for Line<'_> {
    fn drop(&mut self) {
        if std::thread::panicking() {
            eprintln!("{} line {}: {}", self.0, self.1, self.2);
        }
    }
}

/// The key with which a session that is dropped opens again: that of a served opening, from there on
/// while device, tables and session pass on from call to call.
#[derive(Default)]
struct Passing(Option<Vec<u8>>);

impl Passing {
    fn given(&mut self, part: &str) {
        if !["geometry", "permutation", "order", "tape", "position"].contains(&part) {
            self.0 = None;
        }
    }

    fn called(&mut self, call: &[&str], served: bool) {
        match *call {
            ["open", key] => self.0 = served.then(|| hexadecimal(key)),
            ["close"] | ["format", ..] if served => self.0 = None,
            _ => {}
        }
    }
}

/// What was done with a transcript.
#[derive(Default)]
struct Followed {
    calls: usize,
    /// After how many of them the session was dropped.
    drops: usize,
}

/// Follows a transcript.
fn follow(engine: &dyn Engine, files: &Files, name: &str, transcript: &str) -> Followed {
    let mut lent = State::empty();
    let mut expected = State::empty();
    let mut passing = Passing::default();
    let mut followed = Followed::default();
    let mut compared = true;
    for (i, text) in transcript.lines().enumerate() {
        let _named = Line(name, i + 1, text);
        let words: Vec<&str> = text.split(' ').collect();
        match words[..] {
            [""] | ["#", ..] => {}
            ["given", ref part @ ..] => {
                assert!(compared, "the call before is not compared");
                lent.set(files, part);
                expected.set(files, part);
                passing.given(part[0]);
            }
            ["then", ref part @ ..] => expected.set(files, part),
            ["compare"] => {
                lent.assert_equals(&expected);
                if let Passing(Some(key)) = &passing {
                    lent.assert_opens_again(engine, key);
                    followed.drops += 1;
                }
                compared = true;
            }
            ["image", file] => assert!(*lent.device == *files.whole(file), "the device differs"),
            ref words => {
                assert!(compared, "the call before is not compared");
                let equals = words
                    .iter()
                    .position(|&word| word == "=")
                    .expect("an answer");
                let (call, want) = (&words[..equals], &words[equals + 1..]);
                lent.call(engine, files, call, want);
                passing.called(call, want[0] == "0");
                followed.calls += 1;
                compared = false;
            }
        }
    }
    assert!(compared, "the last call is not compared");
    followed
}

/// The folder `testdata` of the repository.
fn folder() -> PathBuf {
    let above = Path::new(env!("CARGO_MANIFEST_DIR")).ancestors();
    above
        .map(|path| path.join("testdata"))
        .find(|path| path.is_dir())
        .expect("a folder testdata")
}

fn follow_all(engine: &dyn Engine) {
    let (mut files, mut transcripts) = (HashMap::new(), Vec::new());
    for file in fs::read_dir(folder()).expect("the folder can be read") {
        let path = file.expect("the folder can be read").path();
        let name = path.file_name().unwrap().to_string_lossy().into_owned();
        let content = fs::read(&path).expect("the file can be read");
        match path.extension().and_then(|extension| extension.to_str()) {
            Some("txt") => transcripts.push((name, String::from_utf8(content).expect("text"))),
            Some("img" | "bin") => drop(files.insert(name, content)),
            _ => {}
        }
    }
    assert!(!transcripts.is_empty(), "no transcript");
    transcripts.sort();
    let files = Files(files);
    let mut dropped = 0;
    for (name, transcript) in &transcripts {
        let Followed { calls, drops } = follow(engine, &files, name, transcript);
        assert!(calls > 0, "{name} has no call");
        println!("{engine:?}: {calls} calls of {name}, {drops} drops");
        dropped += drops;
    }
    assert!(dropped > 0, "no session is dropped");
}
