//! The crate has what barrier.h has: the same constants, calls and structs, each
//! with the same numbers, names and types in the same order, and the same version.
//! The linker would not see a difference.
//!
//! The header is ../../include/barrier.h, or what BARRIER_HEADER names.

use std::collections::BTreeMap;
use std::env;
use std::fs;
use std::path::{Path, PathBuf};

const CONSTANTS: &str = include_str!("../src/constants.rs");
const CALLS: &str = include_str!("../src/c.rs");

fn header() -> String {
    let path = match env::var_os("BARRIER_HEADER") {
        Some(path) => PathBuf::from(path),
        None => Path::new(env!("CARGO_MANIFEST_DIR")).join("../../include/barrier.h"),
    };
    let text = fs::read_to_string(&path).unwrap_or_else(|error| {
        panic!(
            "{}: {error}. Name the header: BARRIER_HEADER=/whole/path/barrier.h",
            path.display()
        )
    });
    without_comments(&text)
}

fn without_comments(text: &str) -> String {
    let mut pieces = text.split("/*");
    let mut code = String::from(pieces.next().unwrap_or_default());
    for piece in pieces {
        let (_, after) = piece.split_once("*/").expect("a comment has an end");
        code += after;
    }
    code
}

fn one_space(text: &str) -> String {
    text.split_whitespace().collect::<Vec<_>>().join(" ")
}

/// The text between the two, without what is before it and after it.
fn between<'a>(text: &'a str, begin: &str, end: &str) -> &'a str {
    let (_, after) = text.split_once(begin).unwrap_or_else(|| panic!("{begin}"));
    let (inside, _) = after.split_once(end).unwrap_or_else(|| panic!("{end}"));
    inside
}

/// barrier_open_job is OpenJob, uint16_t is u16.
fn rust_type(c_type: &str) -> String {
    match c_type {
        "size_t" => "usize".into(),
        "double" => "f64".into(),
        _ => match c_type.strip_prefix("barrier_") {
            Some(name) => name.split('_').map(capitalised).collect(),
            None => {
                let bits = c_type
                    .strip_prefix("uint")
                    .and_then(|t| t.strip_suffix("_t"));
                format!("u{}", bits.unwrap_or_else(|| panic!("{c_type}")))
            }
        },
    }
}

fn capitalised(word: &str) -> String {
    let (first, rest) = word.split_at(1);
    first.to_uppercase() + rest
}

/// `const uint8_t *job` is `job: *const u8`, `uint64_t counts[BARRIER_N]` is
/// `counts: [u64; N]`.
fn rust_declaration(declared: &str) -> String {
    let (constant, declared) = match declared.strip_prefix("const ") {
        Some(rest) => (true, rest),
        None => (false, declared),
    };
    let (c_type, name) = declared.split_once(' ').expect("a type and a name");
    let inner = rust_type(c_type);
    if let Some(name) = name.strip_prefix('*') {
        let kind = if constant { "const" } else { "mut" };
        return format!("{name}: *{kind} {inner}");
    }
    match name.split_once('[') {
        Some((name, count)) => {
            let count = count.trim_end_matches(']').replace("BARRIER_", "");
            format!("{name}: [{inner}; {count}]")
        }
        None => format!("{name}: {inner}"),
    }
}

/// Name to value, of each #define with a value and each enum's names.
fn c_constants(header: &str) -> BTreeMap<String, String> {
    let mut constants = BTreeMap::new();
    for line in header.lines() {
        let line = one_space(line);
        let named = match line.strip_prefix("#define BARRIER_") {
            Some(named) => named.split_once(' '),
            None => line
                .strip_prefix("BARRIER_")
                .and_then(|l| l.split_once(" = ")),
        };
        if let Some((name, value)) = named {
            let value = value.replace("UINT64_C", "").replace(['(', ')', ','], "");
            constants.insert(name.into(), value);
        }
    }
    constants
}

fn rust_constants() -> BTreeMap<String, String> {
    let public = CONSTANTS
        .lines()
        .filter_map(|line| line.strip_prefix("pub const "));
    let named = public.map(|line| {
        let (name, rest) = line.split_once(": ").expect("a type");
        let (_, value) = rest.split_once(" = ").expect("a value");
        (name.into(), value.replace(['_', ';'], ""))
    });
    named.collect()
}

#[test]
fn constants_are_the_same() {
    let constants = c_constants(&header());
    assert!(constants.len() > 40, "{} constants", constants.len());
    assert_eq!(rust_constants(), constants);
}

/// A package that names the version in its Cargo.toml gets an engine of it.
#[test]
fn the_package_has_the_version_of_the_header() {
    let constants = c_constants(&header());
    let version = concat!("\"", env!("CARGO_PKG_VERSION"), "\"");
    assert_eq!(constants["VERSION"], version);
}

/// Each call as Rust declares it: `barrier_plan(job: *const u8, ..) -> PlanReply`.
fn c_calls(header: &str) -> Vec<String> {
    let mut calls = Vec::new();
    let code = header.lines().filter(|line| !line.starts_with('#'));
    let code = one_space(&code.collect::<Vec<_>>().join("\n"));
    for statement in code.split([';', '{', '}']) {
        let Some((declared, parameters)) = statement.trim().split_once('(') else {
            continue;
        };
        let (reply, name) = declared.split_once(' ').expect("a type and a name");
        let parameters = parameters.trim_end_matches(')').split(", ");
        let parameters = parameters.filter(|parameter| *parameter != "void");
        let parameters: Vec<String> = parameters.map(rust_declaration).collect();
        let reply = rust_type(reply);
        calls.push(format!("{name}({}) -> {reply}", parameters.join(", ")));
    }
    calls.sort();
    calls
}

fn rust_calls() -> Vec<String> {
    let declared = one_space(between(CALLS, "unsafe extern \"C\" {", "\n}"));
    let calls = declared
        .split(';')
        .filter_map(|call| call.trim().strip_prefix("pub fn "));
    let calls = calls.map(|call| call.replace("( ", "(").replace(", )", ")"));
    let mut calls: Vec<String> = calls.collect();
    calls.sort();
    calls
}

#[test]
fn calls_are_the_same() {
    let calls = c_calls(&header());
    assert!(calls.len() >= 14, "{} calls", calls.len());
    assert_eq!(rust_calls(), calls);
}

/// A field with the count of its array in numbers.
fn in_numbers(field: &str, constants: &BTreeMap<String, String>) -> String {
    match field.split_once("; ") {
        Some((begin, count)) => {
            let count = count.trim_end_matches(']');
            let number = constants.get(count).map_or(count, String::as_str);
            format!("{begin}; {number}]")
        }
        None => field.into(),
    }
}

/// Name to fields.
fn c_structs(header: &str) -> BTreeMap<String, Vec<String>> {
    let mut structs = BTreeMap::new();
    let constants = c_constants(header);
    for piece in header.split("typedef struct {").skip(1) {
        let (fields, after) = piece.split_once('}').expect("an end");
        let (name, _) = after.split_once(';').expect("a name");
        let fields = fields.split(';').map(one_space);
        let fields = fields.filter(|field| !field.is_empty());
        let fields = fields.map(|field| in_numbers(&rust_declaration(&field), &constants));
        structs.insert(rust_type(name.trim()), fields.collect());
    }
    structs
}

fn rust_structs() -> BTreeMap<String, Vec<String>> {
    let mut structs = BTreeMap::new();
    let constants = rust_constants();
    for piece in CALLS.split("pub struct ").skip(1) {
        let (name, after) = piece.split_once(" {").expect("fields");
        let (fields, _) = after.split_once('}').expect("an end");
        let fields = fields.lines().map(|line| line.trim());
        let fields = fields.filter_map(|line| line.strip_prefix("pub"));
        let fields = fields.map(|field| {
            let field = field.trim_start_matches("(crate)").trim_matches([' ', ',']);
            in_numbers(field, &constants)
        });
        structs.insert(name.into(), fields.collect());
    }
    structs
}

/// In C's order and with C's types, since all of them are `repr(C)`.
#[test]
fn structs_are_the_same() {
    let structs = c_structs(&header());
    assert!(structs.len() >= 12, "{} structs", structs.len());
    assert_eq!(rust_structs(), structs);
    assert_eq!(CALLS.matches("#[repr(C)]").count(), structs.len());
}
