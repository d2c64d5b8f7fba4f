//! The crate's declarations of the C functions against the header, and its refusals against the
//! header and the engine's own source. A declaration that differs is no error of any compiler.

use std::collections::BTreeMap;
use std::fs;
use std::mem::{offset_of, size_of};

use hiwalgam::{sys, Refusal};

/// A file of the repository.
fn source(path: &str) -> String {
    let path = format!("{}/../../{path}", env!("CARGO_MANIFEST_DIR"));
    fs::read_to_string(&path).unwrap_or_else(|error| panic!("{path}: {error}"))
}

/// The header without its comments.
fn header() -> String {
    let text = source("include/hiwalgam.h");
    let mut parts = text.split("/*");
    let first = parts.next().unwrap().to_string();
    let rest = parts.map(|part| part.split_once("*/").expect("the end of a comment").1);
    first + &rest.collect::<String>()
}

/// The crate's declarations without their comments.
fn declarations() -> String {
    let text = source("rust/hiwalgam/src/sys.rs");
    let lines = text.lines().filter(|line| !line.trim().starts_with("//"));
    lines.collect::<Vec<&str>>().join("\n")
}

/// The text between `start` and the next `end`.
fn between<'a>(text: &'a str, start: &str, end: &str) -> &'a str {
    let (_, rest) = text
        .split_once(start)
        .unwrap_or_else(|| panic!("no {start}"));
    let (part, _) = rest.split_once(end).unwrap_or_else(|| panic!("no {end}"));
    part
}

// ---- refusals

/// `HEADER_TAG` as `HeaderTag`.
fn camel_case(name: &str) -> String {
    let words = name.split('_');
    let words = words.map(|word| word[..1].to_string() + &word[1..].to_lowercase());
    words.collect()
}

/// The names and numbers of lines like `NAME = NUMBER,`, or with another sign between.
fn numbered(lines: &str, prefix: &str, sign: &str) -> BTreeMap<u8, String> {
    let lines = lines
        .lines()
        .filter_map(|line| line.trim().strip_prefix(prefix));
    let lines = lines.map(|line| {
        let (name, number) = line.split_once(sign).unwrap();
        let number = number.trim().trim_end_matches(',').parse().unwrap();
        (number, name.trim().to_string())
    });
    lines.collect()
}

#[test]
fn refusals_have_one_name_and_number() {
    let refusals = Refusal::ALL.map(|refusal| (refusal.number(), format!("{refusal:?}")));
    let refusals = BTreeMap::from(refusals);
    assert_eq!(refusals.len(), Refusal::ALL.len());

    let header = header();
    let mut answers = numbered(
        between(&header, "enum hiwalgam_answer {", "}"),
        "HIWALGAM_",
        "=",
    );
    assert_eq!(answers.remove(&sys::SERVED).as_deref(), Some("SERVED"));
    let answers = answers.into_iter();
    let answers: BTreeMap<u8, String> = answers.map(|(n, name)| (n, camel_case(&name))).collect();
    assert_eq!(refusals, answers);

    let engine = source("crates/refusals/src/lib.rt");
    let numbers = between(&engine, "match r {", "}");
    assert_eq!(refusals, numbered(numbers, "Refusal::", "=>"));
}

// ---- numbers

/// A number of C or Rust: decimal or hexadecimal, with a suffix of C or underscores of Rust.
fn number(text: &str) -> u64 {
    let text = text.trim().trim_end_matches('u').replace('_', "");
    match text.strip_prefix("0x") {
        Some(digits) => u64::from_str_radix(digits, 16).unwrap(),
        None => text.parse().unwrap(),
    }
}

#[test]
fn constants_are_the_headers() {
    let header = header();
    let defines = header
        .lines()
        .filter_map(|line| line.strip_prefix("#define HIWALGAM_"));
    let defines = defines.filter_map(|line| line.split_once(' '));
    let defines = defines.filter(|(_, value)| value.starts_with(|c: char| c.is_ascii_digit()));
    let defines: BTreeMap<&str, u64> = defines.map(|(name, n)| (name, number(n))).collect();

    let declared = declarations();
    let constants = declared
        .lines()
        .filter_map(|line| line.strip_prefix("pub const "));
    let constants = constants.map(|line| {
        let (name, rest) = line.split_once(": ").unwrap();
        (name, number(between(rest, "= ", ";")))
    });
    let mut constants: BTreeMap<&str, u64> = constants.collect();
    assert_eq!(constants.remove("SERVED"), Some(0));
    assert_eq!(defines.len(), 13);
    assert_eq!(constants, defines);
}

// ---- functions and structs

/// A type of the header as Rust has it.
fn rust_type(c: &str) -> String {
    let target = c.trim_end_matches('*').trim();
    let name = match target.trim_start_matches("const ") {
        "uint8_t" => "u8",
        "uint32_t" => "u32",
        "uint64_t" => "u64",
        "size_t" => "usize",
        "hiwalgam_geometry" => "Geometry",
        "hiwalgam_session" => "Session",
        "hiwalgam_written" => "Written",
        other => panic!("type {other}"),
    };
    match (c.ends_with('*'), target.starts_with("const ")) {
        (false, _) => name.to_string(),
        (true, true) => format!("*const {name}"),
        (true, false) => format!("*mut {name}"),
    }
}

/// `TYPE NAME` of C as `NAME: TYPE` of Rust.
fn rust_item(c: &str) -> String {
    let c = c.trim();
    let start = c.rfind([' ', '*']).unwrap() + 1;
    format!("{}: {}", &c[start..], rust_type(c[..start].trim()))
}

/// The lists of a declaration, with one space between words and nothing after the last item.
fn items(list: &str) -> Vec<String> {
    let items = list.split(',').map(|item| item.split_whitespace());
    let items = items.map(|words| words.collect::<Vec<&str>>().join(" "));
    items.filter(|item| !item.is_empty()).collect()
}

/// The functions by their names: parameters, and last what they return.
type Functions = BTreeMap<String, Vec<String>>;

/// The functions of the header, and what stands behind the parameters of each.
fn header_functions() -> (Functions, BTreeMap<String, String>) {
    let header = header();
    let (mut functions, mut attributes) = (Functions::new(), BTreeMap::new());
    for statement in header.split([';', '{', '}']) {
        let statement = statement.lines().filter(|line| !line.starts_with('#'));
        let statement = statement.collect::<Vec<&str>>().join(" ");
        let Some((start, rest)) = statement.split_once('(') else {
            continue;
        };
        // An assertion of a size has one word before its parenthesis.
        let Some((returned, name)) = start.trim().rsplit_once(' ') else {
            continue;
        };
        let (parameters, rest) = rest.split_once(')').unwrap();
        let mut parts: Vec<String> = items(parameters);
        parts = parts.iter().map(|part| rust_item(part)).collect();
        parts.push(rust_type(returned.trim()));
        functions.insert(name.to_string(), parts);
        let words: Vec<&str> = rest.split_whitespace().collect();
        attributes.insert(name.to_string(), words.join(" "));
    }
    (functions, attributes)
}

fn declared_functions() -> Functions {
    let declared = declarations();
    let mut functions = Functions::new();
    for function in declared.split("pub fn ").skip(1) {
        let (name, rest) = function.split_once('(').unwrap();
        let (parameters, rest) = rest.split_once(')').unwrap();
        let mut parts = items(parameters);
        parts.push(between(rest, "-> ", ";").to_string());
        functions.insert(name.to_string(), parts);
    }
    functions
}

#[test]
fn functions_are_the_headers() {
    let (functions, _) = header_functions();
    assert_eq!(functions.len(), 12);
    assert_eq!(declared_functions(), functions);
}

/// The attribute that a parameter asks for, by its number: a list goes with the length behind it, and
/// one number stands alone. Write and release also read what they are lent to be written.
fn attribute(function: &str, number: usize, parameter: &str) -> Option<String> {
    let (_, of) = parameter.split_once(": ")?;
    let reads = ["hiwalgam_write", "hiwalgam_release"].contains(&function);
    let word = match of {
        "*const u8" | "*const u32" | "*const u64" => "IN",
        "*mut u8" | "*mut u32" if reads => "INOUT",
        "*mut u8" | "*mut u32" => "OUT",
        "*mut usize" | "*mut u64" => return Some(format!("HIWALGAM_NOT_NULL({number})")),
        _ => return None,
    };
    Some(format!("HIWALGAM_{word}({number}, {})", number + 1))
}

#[test]
fn attributes_go_with_the_parameters() {
    let (functions, attributes) = header_functions();
    for (name, parts) in &functions {
        let asked = (1..)
            .zip(parts)
            .filter_map(|(n, part)| attribute(name, n, part));
        let asked: Vec<String> = ["HIWALGAM_ANSWERS".to_string()]
            .into_iter()
            .chain(asked)
            .collect();
        assert_eq!(attributes[name], asked.join(" "), "{name}");
    }
}

/// The fields of a struct. The length of an array is left to the sizes, which are compared beside.
#[test]
fn structs_are_the_headers() {
    let (header, declared) = (header(), declarations());
    for (c, rust) in [
        ("hiwalgam_geometry", "Geometry"),
        ("hiwalgam_session", "Session"),
        ("hiwalgam_written", "Written"),
    ] {
        let fields = between(&header, &format!("typedef struct {c} {{"), "}").split(';');
        let fields = fields.filter(|field| !field.trim().is_empty());
        let fields = fields.map(|field| match field.split_once('[') {
            Some((item, _)) => rust_item(item).replace(": ", ": ["),
            None => rust_item(field),
        });
        let fields: Vec<String> = fields.collect();
        let found = items(between(&declared, &format!("pub struct {rust} {{"), "}"));
        let found = found.iter().map(|field| field.trim_start_matches("pub "));
        let found: Vec<&str> = found
            .map(|field| field.split(';').next().unwrap())
            .collect();
        assert_eq!(found, fields, "{c}");
    }
}

/// Where each field of a session stands in its bytes: the numbers of eight bytes each in the header's
/// order, then the keys, then the counts to the end.
#[test]
fn fields_of_a_session_have_their_places() {
    let places = [
        offset_of!(sys::Session, geometry),
        offset_of!(sys::Session, volume),
        offset_of!(sys::Session, open),
        offset_of!(sys::Session, start_place),
        offset_of!(sys::Session, keys),
        offset_of!(sys::Session, counts),
        size_of::<sys::Session>(),
    ];
    assert_eq!(places, [0, 24, 32, 40, 48, 528, 648]);
}
