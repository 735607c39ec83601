//! The declarations of the interface: include/darthog.h, src/raw.rs and the
//! source of the entries say the same. The prover checks neither of the first
//! two against the third.

use darthog_host::raw;
use darthog_host::Refusal;
use std::collections::BTreeMap;
use std::fs;
use std::path::Path;

/// A function: its parameters' names and types, in Rust's words, and what it
/// gives back.
#[derive(PartialEq, Eq, Debug)]
struct Function {
    parameters: Vec<(String, String)>,
    gives: String,
}

fn read(path: &str) -> String {
    let path = Path::new(env!("CARGO_MANIFEST_DIR")).join("..").join(path);
    fs::read_to_string(&path).unwrap_or_else(|error| panic!("{}: {error}", path.display()))
}

/// Every source of the entries.
fn sources() -> Vec<String> {
    let folder = "crates/host_calls/src";
    let path = Path::new(env!("CARGO_MANIFEST_DIR"))
        .join("..")
        .join(folder);
    let files = fs::read_dir(path).expect("the sources are there");
    let names = files.map(|file| file.expect("a file").file_name());
    names
        .filter_map(|name| Some(name.to_str()?.to_string()))
        .filter(|name| name.ends_with(".rt"))
        .map(|name| read(&format!("{folder}/{name}")))
        .collect()
}

/// The text without comments, a single space for each run of spaces.
fn plain(text: &str) -> String {
    let mut words = String::new();
    let mut rest = text;
    while let Some(start) = rest.find("/*") {
        words.push_str(&rest[..start]);
        let end = rest[start..].find("*/").expect("the comment ends");
        rest = &rest[start + end + 2..];
    }
    words.push_str(rest);
    let lines = words
        .lines()
        .map(|line| line.split("//").next().unwrap_or(""));
    let words: Vec<&str> = lines.flat_map(str::split_whitespace).collect();
    words.join(" ")
}

/// The parts of a list in brackets, without an empty last one.
fn parts(list: &str) -> Vec<&str> {
    list.split(',')
        .map(str::trim)
        .filter(|part| !part.is_empty())
        .collect()
}

/// Rust's words for C's.
fn rust_type(c: &str) -> String {
    match c {
        "uint8_t *" => "*mut u8",
        "const uint8_t *" => "*const u8",
        "uint32_t *" => "*mut u32",
        "const uint32_t *" => "*const u32",
        "size_t" => "usize",
        "uint32_t" => "u32",
        "uint64_t" => "u64",
        "struct darthog_reply" => "Reply",
        other => panic!("the header has the type {other}"),
    }
    .to_string()
}

/// The functions of the header.
fn of_header(text: &str) -> BTreeMap<String, Function> {
    let mut functions = BTreeMap::new();
    for part in plain(text).split(';') {
        let Some(open) = part.find('(') else { continue };
        if !part.ends_with(')') {
            continue;
        }
        let (front, name) = part[..open].rsplit_once(' ').expect("a type and a name");
        let gives = ["struct darthog_reply", "uint32_t", "size_t"]
            .into_iter()
            .find(|c| front.ends_with(c))
            .expect("a known type");
        let list = &part[open + 1..part.len() - 1];
        let parameters = parts(list).into_iter().map(|parameter| {
            let at = parameter.rfind([' ', '*']).expect("a type and a name") + 1;
            (
                parameter[at..].to_string(),
                rust_type(parameter[..at].trim()),
            )
        });
        let function = Function {
            parameters: parameters.collect(),
            gives: rust_type(gives),
        };
        functions.insert(name.to_string(), function);
    }
    functions
}

/// A slice as the pointer that C has for it; none for another type.
fn pointer_of(slice: &str) -> Option<&'static str> {
    match slice {
        "&mut [u8]" => Some("*mut u8"),
        "&[u8]" => Some("*const u8"),
        "&mut [u32]" => Some("*mut u32"),
        "&[u32]" => Some("*const u32"),
        _ => None,
    }
}

/// The functions of Rust or Rattle that start with these words. A slice is a
/// pointer and a length, which has the slice's name but for the image's.
fn of_source(text: &str, start: &str) -> BTreeMap<String, Function> {
    let text = plain(text);
    let mut functions = BTreeMap::new();
    for part in text.split(start).skip(1) {
        let open = part.find('(').expect("parameters");
        let close = part.find(')').expect("their end");
        let after = part[close + 1..].trim_start();
        let gives = after
            .strip_prefix("->")
            .expect("it gives something back")
            .trim_start();
        let end = gives.find([' ', ';', '{']).unwrap_or(gives.len());
        let mut parameters = Vec::new();
        for parameter in parts(&part[open + 1..close]) {
            let (name, of) = parameter.split_once(": ").expect("a name and a type");
            let pointer = pointer_of(of);
            parameters.push((name.to_string(), pointer.unwrap_or(of).to_string()));
            if pointer.is_some() {
                let length = match name {
                    "image" => "length".to_string(),
                    other => format!("{other}_length"),
                };
                parameters.push((length, "usize".to_string()));
            }
        }
        // what the source calls a plain answer is a reply for hosts
        let function = Function {
            parameters,
            gives: gives[..end].replace("PlainAnswer", "Reply"),
        };
        functions.insert(part[..open].to_string(), function);
    }
    functions
}

#[test]
fn the_functions_are_those_of_the_source() {
    let header = of_header(&read("include/darthog.h"));
    let start = "#[unsafe(no_mangle)] pub extern \"C\" fn ";
    let mut source = BTreeMap::new();
    for text in sources() {
        source.append(&mut of_source(&text, start));
    }
    let host = of_source(&read("host/src/raw.rs"), "pub fn ");
    assert_eq!(source.len(), 11);
    assert_eq!(header, source);
    assert_eq!(host, source);
}

/// The fields of a struct, between its name and the closing bracket.
fn fields(text: &str, start: &str) -> String {
    let text = plain(text);
    let from = text.find(start).expect("the struct is there") + start.len();
    let end = text[from..].find('}').expect("its end");
    text[from..from + end].to_string()
}

#[test]
fn a_reply_is_that_of_the_source() {
    let header = fields(&read("include/darthog.h"), "struct darthog_reply {");
    let header: Vec<&str> = header
        .split(';')
        .filter_map(|field| field.trim().strip_prefix("uint32_t "))
        .collect();
    let of = |text: &str, start: &str| -> Vec<String> {
        let text = fields(text, start);
        let fields = parts(&text).into_iter();
        let names = fields.filter_map(|field| field.strip_prefix("pub ")?.strip_suffix(": u32"));
        names.map(str::to_string).collect()
    };
    let source = of(
        &read("crates/rules/src/answers.rt"),
        "pub struct PlainAnswer {",
    );
    assert_eq!(source, header);
    let host = of(&read("host/src/raw.rs"), "pub struct Reply {");
    assert_eq!(host, header);
    assert_eq!(header, ["code", "first", "second", "third"]);
    assert_eq!(std::mem::size_of::<raw::Reply>(), 16);
}

#[test]
fn the_codes_are_those_of_the_header() {
    let text = read("include/darthog.h");
    let mut header: BTreeMap<String, u32> = BTreeMap::new();
    for line in plain(&text).split("enum {").skip(1) {
        let list = line.split('}').next().unwrap_or("");
        for part in parts(list) {
            let (name, number) = part.split_once(" = ").expect("a name and a number");
            header.insert(name.to_string(), number.parse().expect("a number"));
        }
    }
    let mut host: BTreeMap<String, u32> = BTreeMap::new();
    for (name, number) in [
        ("ACCEPTED", raw::ACCEPTED),
        ("MOVED", raw::MOVED),
        ("WAITS", raw::WAITS),
        ("EMPTY", raw::EMPTY),
        ("MARKED", raw::MARKED),
        ("INSERTED", raw::INSERTED),
        ("HANDED_OUT", raw::HANDED_OUT),
        ("TAKEN_BACK", raw::TAKEN_BACK),
        ("NOT_THERE", raw::NOT_THERE),
        ("CALL_INSERT", raw::CALL_INSERT),
        ("CALL_DELETE_MIN", raw::CALL_DELETE_MIN),
        ("CALL_STEP", raw::CALL_STEP),
        ("CALL_RELAXED", raw::CALL_RELAXED),
        ("CALL_REMOVE", raw::CALL_REMOVE),
        ("NO_MARKER", u32::from(raw::NO_MARKER)),
    ] {
        host.insert(format!("DARTHOG_{name}"), number);
    }
    for refusal in Refusal::ALL {
        // BadRecord is BAD_RECORD in C
        let mut name = String::from("DARTHOG");
        for letter in format!("{refusal:?}").chars() {
            if letter.is_ascii_uppercase() {
                name.push('_');
            }
            name.push(letter.to_ascii_uppercase());
        }
        host.insert(name, refusal.number());
    }
    assert_eq!(host, header);
    let most = raw::MAX_IMAGE_LENGTH;
    let line = format!("#define DARTHOG_MAX_IMAGE_LENGTH {most}\n");
    assert!(text.contains(&line), "the header has no line {line}");
}
