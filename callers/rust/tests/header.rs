//! The C header and this crate give the same numbers and words. The header
//! declares the functions and structs that the engine exports, and this crate
//! calls the functions as the header declares them.

use lavroudem::*;
use std::fs;
use std::path::Path;

const HEADER: &str = include_str!("../../c/lavroudem.h");
const REFUSALS: &str = include_str!("../src/refusal.rs");

#[test]
fn limits_and_bytes_are_the_same() {
    let numbers = [
        ("VERSION", VERSION),
        ("ONE", ONE),
        ("MAX_NAMES", MAX_NAMES as u64),
        ("MAX_STEPS", MAX_STEPS as u64),
        ("MAX_TRANCHES", MAX_TRANCHES as u64),
        ("MAX_PERIODS", MAX_PERIODS as u64),
        ("MAX_ACCRUALS", MAX_ACCRUALS),
        ("MAX_COUPON", MAX_COUPON),
        ("MAX_DECK", MAX_DECK as u64),
        ("PACKED_LENGTH", PACKED_LENGTH as u64),
        ("MAX_POSITIONS", MAX_POSITIONS as u64),
        ("MAX_NOMINAL", MAX_NOMINAL as u64),
        ("MAX_NET_VALUE", MAX_NET_VALUE as u64),
        ("BOOK_LENGTH", BOOK_LENGTH as u64),
        ("MAX_WALKS", MAX_WALKS as u64),
        ("MAX_PLACES", MAX_PLACES as u64),
        ("REGISTER_LENGTH", REGISTER_LENGTH as u64),
    ];
    for (name, number) in numbers {
        assert_eq!(defined(name), number.to_string(), "{name}");
    }
    for (name, byte) in [
        ("UNISSUED", UNISSUED),
        ("LIVE", LIVE),
        ("WITHDRAWN", WITHDRAWN),
    ] {
        assert_eq!(defined(name), format!("{byte:#04X}").replace("0X", "0x"));
    }
}

/// What the header defines a name as, up to a space.
fn defined(name: &str) -> &str {
    let start = format!("#define LAVROUDEM_{name} ");
    let (_, rest) = HEADER.split_once(&start).expect(name);
    rest.split([' ', '\n']).next().unwrap()
}

/// The refusals in the order of their checks, with gaps in the numbers.
fn checked() -> impl Iterator<Item = u8> {
    (1..=2)
        .chain([28, 29])
        .chain(3..=4)
        .chain([25])
        .chain(5..=7)
        .chain([21, 30])
        .chain(8..=20)
}

#[test]
fn refusals_are_the_same() {
    for number in checked() {
        let refusal = Refusal::from_number(number).unwrap();
        assert_eq!(refusal.number(), number);
        let name = screaming(&format!("{refusal:?}"));
        let entry = format!("LAVROUDEM_REFUSED_{name} = {number}");
        let found = HEADER.split([',', '\n']).any(|part| {
            let part = part.split(" /*").next().unwrap();
            part.trim() == entry
        });
        assert!(found, "{entry}");
    }
    assert_eq!(Refusal::from_number(0), None);
    for number in (22..=24).chain([26, 27]).chain(31..=u8::MAX) {
        assert_eq!(Refusal::from_number(number), Some(Refusal::Other(number)));
    }
}

#[test]
fn refusals_stand_in_the_order_of_their_checks() {
    let expected: Vec<u8> = checked().collect();
    let entries = HEADER.split("LAVROUDEM_REFUSED_").skip(1);
    let numbers = entries.map(|entry| entry.split([' ', ',', '\n']).nth(2).unwrap());
    let in_header: Vec<u8> = numbers.map(|number| number.parse().unwrap()).collect();
    assert_eq!(in_header, expected);
    let (_, table) = REFUSALS.split_once("\nrefusals! {\n").unwrap();
    let (table, _) = table.split_once("\n}\n").unwrap();
    let rows = table.lines().filter(|line| line.ends_with("\";"));
    let numbers = rows.map(|row| row.split(", ").nth(1).unwrap());
    let in_crate: Vec<u8> = numbers.map(|number| number.parse().unwrap()).collect();
    assert_eq!(in_crate, expected);
}

/// `NoWalk` as C has it, `NO_WALK`.
fn screaming(name: &str) -> String {
    let mut text = String::new();
    for letter in name.chars() {
        if letter.is_uppercase() && !text.is_empty() {
            text.push('_');
        }
        text.extend(letter.to_uppercase());
    }
    text
}

/// An archive of another version has not the function that the header names.
#[test]
fn the_version_is_linked() {
    let name = format!("lavroudem_version_{VERSION}");
    assert_eq!(HEADER.matches("lavroudem_version_").count(), 3);
    assert!(HEADER.contains(&format!("uint64_t {name}(void);")));
    assert!(HEADER.contains(&format!("lavroudem_linked_version)(void) = {name};")));
}

/// A program with two versions of the crate would have two archives with the
/// same names; cargo refuses that.
#[test]
fn one_archive_in_a_program() {
    let manifest = include_str!("../Cargo.toml");
    let (_, package) = manifest.split_once("[package]\n").unwrap();
    let package = package.split("\n[").next().unwrap();
    assert!(package.lines().any(|line| line == "links = \"lavroudem\""));
}

/// The header's table of words, in the order of their numbers; a number that
/// is none has an empty one.
#[test]
fn words_are_the_same() {
    let (_, rest) = HEADER.split_once("words[] = {").unwrap();
    let (table, _) = rest.split_once("};").unwrap();
    let words: Vec<&str> = table.split('"').skip(1).step_by(2).collect();
    assert_eq!(words.len(), 31);
    for (word, number) in words.into_iter().zip(0..).skip(1) {
        let expected = match Refusal::from_number(number).unwrap() {
            Refusal::Other(_) => "",
            refusal => refusal.word(),
        };
        assert_eq!(word, expected, "{number}");
    }
}

const EXPORTED: &str = include_str!("../../../crates/export/src/lib.rt");

/// The header without its comments, its blanks as one.
fn plain_header() -> String {
    let mut text = String::new();
    for part in HEADER.split("/*") {
        text += part.split_once("*/").map_or(part, |(_, code)| code);
    }
    let words: Vec<&str> = text.split_whitespace().collect();
    words.join(" ").replace("( ", "(")
}

#[test]
fn every_exported_function_is_declared() {
    let header = plain_header();
    let functions: Vec<&str> = EXPORTED.split("pub extern \"C\" fn ").skip(1).collect();
    for function in &functions {
        let declaration = declaration(function);
        assert!(header.contains(&declaration), "{declaration}");
    }
    assert_eq!(functions.len(), 16);
}

const CALLED: &str = include_str!("../src/archive.rs");

/// Parameter by parameter, each with its name and type. All but the version
/// that is only linked are called.
#[test]
fn every_function_is_called_as_it_is_declared() {
    let header = plain_header();
    let (_, block) = CALLED.split_once("\nextern \"C\" {\n").unwrap();
    let (block, _) = block.split_once("\n}\n").unwrap();
    let functions: Vec<&str> = block.split("fn ").skip(1).collect();
    for function in &functions {
        let declaration = declaration(function);
        assert!(header.contains(&declaration), "{declaration}");
    }
    let exported = EXPORTED.matches("pub extern \"C\" fn ").count();
    assert_eq!(functions.len(), exported - 1);
}

/// The structs of the exported functions, each in the crate that owns it.
#[test]
fn every_exported_struct_is_declared() {
    let header = plain_header();
    let sources = sources();
    let structs = [
        ("sheet", "Pool"),
        ("sheet", "Span"),
        ("sheet", "Sheet"),
        ("walk", "Walk"),
        ("turns", "Turn"),
        ("returns", "Opened"),
        ("returns", "Moved"),
        ("returns", "Valued"),
        ("returns", "Hedged"),
        ("returns", "Unpacked"),
        ("returns", "Booked"),
        ("returns", "Allotted"),
    ];
    for (owner, name) in structs {
        let start = format!("#[repr(C)]\npub struct {name} {{");
        let found = sources.iter().filter(|(_, text)| text.contains(&start));
        let found: Vec<_> = found.collect();
        let [(crate_name, text)] = found[..] else {
            panic!("{} crates declare {name}", found.len());
        };
        assert_eq!(crate_name, owner, "{name}");
        let fields = text
            .split_once(&start)
            .unwrap()
            .1
            .split_once('}')
            .unwrap()
            .0;
        let declaration = struct_declaration(name, fields);
        assert!(header.contains(&declaration), "{declaration}");
    }
    let defines = |rest: &&str| {
        rest.split_once(' ')
            .is_some_and(|(_, next)| next.starts_with('{'))
    };
    let defined = header.split("struct lavroudem_").skip(1).filter(defines);
    assert_eq!(defined.count(), structs.len());
}

/// The sources of the engine, each with the name of its crate. What a struct
/// derives plays no part.
fn sources() -> Vec<(String, String)> {
    let crates = Path::new(env!("CARGO_MANIFEST_DIR")).join("../../crates");
    let mut sources = Vec::new();
    for folder in fs::read_dir(crates).unwrap() {
        let folder = folder.unwrap();
        let name = folder.file_name().into_string().unwrap();
        let Ok(files) = fs::read_dir(folder.path().join("src")) else {
            continue; // a crate of definitions alone
        };
        for file in files {
            let text = fs::read_to_string(file.unwrap().path()).unwrap();
            let lines = text.lines().filter(|line| !line.starts_with("#[derive("));
            sources.push((name.clone(), lines.collect::<Vec<_>>().join("\n")));
        }
    }
    sources
}

/// The C declaration of a struct by its fields as the engine writes them.
fn struct_declaration(name: &str, fields: &str) -> String {
    let mut text = format!("{} {{", plain(name));
    for line in fields.lines() {
        let code = line
            .split("//")
            .next()
            .unwrap()
            .trim()
            .trim_end_matches(',');
        if let Some((field, kind)) = code.trim_start_matches("pub ").split_once(": ") {
            text += &format!(" {} {};", plain(kind), field_called(name, field));
        }
    }
    text + " };"
}

/// The header says what the numbers of an answer are.
fn field_called<'a>(answer: &str, field: &'a str) -> &'a str {
    match (answer, field) {
        (
            "Opened" | "Moved" | "Valued" | "Hedged" | "Unpacked" | "Booked" | "Allotted",
            "number",
        ) => "refusal",
        ("Valued", "default") => "default_leg",
        ("Valued", "premium") => "premium_leg",
        ("Valued", "net") => "net_value",
        _ => field,
    }
}

/// The C declaration of a function as the engine or the crate writes it.
fn declaration(function: &str) -> String {
    let (name, rest) = function.split_once('(').unwrap();
    let (parameters, rest) = rest.split_once(')').unwrap();
    let answer = rest.split_whitespace().nth(1).unwrap();
    let answer = answer.trim_end_matches(';');
    let pairs = parameters
        .split(',')
        .filter_map(|pair| pair.split_once(':'));
    let parameters: Vec<String> = pairs
        .map(|(parameter, kind)| declared(called(name, parameter.trim()), kind.trim()))
        .collect();
    let mut parameters = parameters.join(", ");
    if parameters.is_empty() {
        parameters = "void".into();
    }
    format!("{} {name}({parameters});", plain(answer))
}

/// The header's names are plainer here and there.
fn called<'a>(function: &str, parameter: &'a str) -> &'a str {
    match (function, parameter) {
        ("lavroudem_back", "count") => "steps",
        ("lavroudem_deck_room", "bytes") => "deck_length",
        _ => parameter,
    }
}

/// A parameter in C. A slice of the engine is a pointer and a length, which
/// the crate writes out.
fn declared(name: &str, kind: &str) -> String {
    // `register` is a word of C.
    let register_bytes = name.replace("register", "register_bytes");
    let pointer = |entry: &str| format!("{} *{register_bytes}", plain(entry));
    let slice = |entry: &str| {
        let entry = entry.trim_end_matches(']');
        format!("{}, size_t {name}_length", pointer(entry))
    };
    if let Some(entry) = kind.strip_prefix("&mut [") {
        slice(entry)
    } else if let Some(entry) = kind.strip_prefix("&[") {
        format!("const {}", slice(entry))
    } else if let Some(entry) = kind.strip_prefix("*mut ") {
        pointer(entry)
    } else if let Some(entry) = kind.strip_prefix("*const ") {
        format!("const {}", pointer(entry))
    } else {
        format!("{} {name}", plain(kind))
    }
}

/// A type in C that is no list.
fn plain(kind: &str) -> String {
    match kind {
        "bool" => "bool".into(),
        "u8" => "uint8_t".into(),
        "u16" => "uint16_t".into(),
        "u64" => "uint64_t".into(),
        "i64" => "int64_t".into(),
        "usize" => "size_t".into(),
        // The crate's own sheet has its numbers too.
        "Layout" => plain("Sheet"),
        path => {
            let name = path.rsplit("::").next().unwrap();
            format!("struct lavroudem_{}", name.to_lowercase())
        }
    }
}
