//! The same functions in the C header, raw.rs and the archive's source; the same numbers and versions
//! in C and Rust.

use renju::{CELLS, Colour, DIAGRAM, Kind, MENDED, MOVES, PRETTY, RECORD, REPORT, ROWS, ROWS_ON};
use renju::{LINE, SGF, STONES_TEXT, raw};
use renju::{Reason, Refusal, TEXT, Verdict, View};
use std::collections::BTreeMap;
use std::fs;
use std::path::Path;

const HEADER: &str = include_str!("../include/renju.h");
const RAW: &str = include_str!("../src/raw.rs");
const BUILD: &str = include_str!("../build.rs");
const PKG_CONFIG: &str = include_str!("../renju.pc");

/// The text with its C comments taken out.
fn uncommented(text: &str) -> String {
    let mut parts = text.split("/*");
    let first = parts.next().unwrap_or_default().to_owned();
    parts.fold(first, |kept, part| {
        kept + part.split_once("*/").expect("a comment's end").1
    })
}

/// The text with a single space for any run of space.
fn single_spaced(text: &str) -> String {
    text.split_whitespace().collect::<Vec<_>>().join(" ")
}

/// The prototypes of the header, each on one line.
fn header_prototypes() -> Vec<String> {
    let code = uncommented(HEADER);
    let starts = code.match_indices("\nuint32_t renju_").map(|(at, _)| at);
    let mut found: Vec<String> = starts
        .map(|at| single_spaced(code[at..].split_once(';').expect("an end").0))
        .collect();
    found.sort();
    found
}

/// The code without the lines that are comments, single-spaced.
fn code_of(text: &str) -> String {
    let is_code = |line: &&str| {
        let line = line.trim_start();
        !line.starts_with("//") && line != "#[must_use]"
    };
    let code: Vec<&str> = text.lines().filter(is_code).collect();
    single_spaced(&code.join(" "))
}

/// The declarations of raw.rs, in the words of C.
fn raw_prototypes() -> Vec<String> {
    let block = RAW.split_once("unsafe extern \"C\" {").expect("a block").1;
    let block = block.split_once("\n    }\n").expect("its end").0;
    let code = code_of(block);
    let same = |parameter: &str| vec![parameter.to_owned()];
    let declarations = code.split_terminator(';');
    let mut found: Vec<String> = declarations.map(|each| in_c(each, same)).collect();
    found.sort();
    found
}

/// The functions of the source that the archive is compiled from, in the words of C.
fn source_prototypes() -> Vec<String> {
    let folder = Path::new(env!("CARGO_MANIFEST_DIR")).join("../../crates/renju_c/src");
    let mut found = Vec::new();
    for file in fs::read_dir(folder).expect("the archive's source") {
        let path = file.expect("a file").path();
        if path.extension().is_some_and(|of| of == "rt") {
            let text = fs::read_to_string(path).expect("text");
            found.extend(exported(&code_of(&text)));
        }
    }
    found.sort();
    found
}

/// The functions of one file that are symbols of the archive, under their own names.
fn exported(code: &str) -> Vec<String> {
    let mut parts = code.split("#[unsafe(no_mangle)] pub extern \"C\" ");
    let rest = parts.next().unwrap_or_default();
    assert!(!rest.contains("extern"), "under another name: {rest}");
    let declarations = parts.map(|part| part.split_once("ensures").expect("a contract"));
    declarations
        .map(|(declaration, _)| in_c(declaration, as_raw))
        .collect()
}

/// A parameter of the source as the archive takes it: a slice is a pointer and a length.
fn as_raw(parameter: &str) -> Vec<String> {
    let slice = |name, of| vec![format!("{name}: *{of} u8"), format!("{name}_len: usize")];
    match parameter.split_once(": ") {
        Some((name, "&[u8]")) => slice(name, "const"),
        Some((name, "&mut [u8]")) => slice(name, "mut"),
        _ => vec![parameter.to_owned()],
    }
}

/// A declaration in the words of C; `lowered` makes those of raw.rs of each parameter.
fn in_c(declaration: &str, lowered: fn(&str) -> Vec<String>) -> String {
    let (_, declaration) = declaration.split_once("fn ").expect("a function");
    let (name, rest) = declaration.split_once('(').expect("its parameters");
    let (parameters, result) = rest.split_once(')').expect("its result");
    assert_eq!(result.trim(), "-> u32", "{name}");
    let parameters = parameters.split(',').map(str::trim);
    let parameters: Vec<String> = parameters
        .filter(|part| !part.is_empty())
        .flat_map(lowered)
        .map(|parameter| parameter_in_c(&parameter))
        .collect();
    match parameters.is_empty() {
        true => format!("uint32_t {name}(void)"),
        false => format!("uint32_t {name}({})", parameters.join(", ")),
    }
}

fn parameter_in_c(parameter: &str) -> String {
    let (name, of) = parameter.split_once(": ").expect("a type");
    let of = match of {
        "*const u8" => "const uint8_t *",
        "*mut u8" => "uint8_t *",
        "usize" => "size_t ",
        "bool" => "bool ",
        "u8" => "uint8_t ",
        "u16" => "uint16_t ",
        "u32" => "uint32_t ",
        _ => panic!("{of} has no word in C"),
    };
    format!("{of}{name}")
}

#[test]
fn same_functions() {
    let header = header_prototypes();
    assert_eq!(header.len(), 45);
    assert_eq!(header, raw_prototypes());
    assert_eq!(header, source_prototypes());
}

/// Each function is also called by the C program, by its own name.
#[test]
fn every_function_is_called_from_c() {
    let calls = include_str!("c/calls.c");
    for prototype in header_prototypes() {
        let name = prototype.trim_start_matches("uint32_t ");
        let call = &name[..=name.find('(').expect("parameters")];
        assert!(calls.contains(call), "{call}");
    }
}

/// .. and by the one that hands NULL over, in the place of each of its slices.
#[test]
fn every_slice_is_empty_once_from_c() {
    let calls = include_str!("c/empty.c");
    for prototype in header_prototypes() {
        let name = prototype.trim_start_matches("uint32_t ");
        let (name, parameters) = name.split_once('(').expect("parameters");
        let slices = parameters.matches('*').count();
        let call = format!("{name}(");
        let lines = calls.lines().filter(|line| line.contains(&call));
        let nulls: usize = lines.map(|line| line.matches("NULL, 0").count()).sum();
        assert!(nulls >= slices, "{name}: {nulls} of {slices}");
    }
}

/// Each function has a comment of its own before it, which says what it refuses.
#[test]
fn every_function_has_its_comment() {
    let starts = HEADER
        .match_indices("\nuint32_t renju_")
        .map(|(at, _)| at + 1);
    for start in starts {
        let name = HEADER[start..].split_once('(').expect("a function").0;
        let before = HEADER[..start].trim_end();
        assert!(before.ends_with("*/"), "{name}");
        let comment = &before[before.rfind("/*").expect("a comment")..];
        assert!(!comment.starts_with("/*\n"), "{name}: that of a group");
        let refuses = ["Refusals ", "Refusal ", "Never refused"];
        let said = single_spaced(&comment.replace("\n * ", " "));
        assert!(refuses.iter().any(|word| said.contains(word)), "{name}");
    }
}

/// What the header defines as text.
fn header_text(name: &str) -> &'static str {
    let found = HEADER.split_once(&format!("#define {name} \""));
    let text = found.unwrap_or_else(|| panic!("{name}")).1;
    text.split_once('"').expect("its end").0
}

/// The crate, the header and pkg-config name one version; the crate, the header, `build.rs`, a symbol
/// and the archive one interface.
#[test]
fn same_versions() {
    assert_eq!(header_text("RENJU_VERSION"), env!("CARGO_PKG_VERSION"));
    let version = format!("\nVersion: {}\n", env!("CARGO_PKG_VERSION"));
    assert!(PKG_CONFIG.contains(&version), "{PKG_CONFIG}");
    assert_eq!(raw::renju_interface_2(), raw::INTERFACE);
    let interface = raw::INTERFACE;
    let symbol = format!("uint32_t renju_interface_{interface}(void)");
    assert!(header_prototypes().contains(&symbol), "{symbol}");
    let said = format!("\nconst INTERFACE: &str = \"renju_interface_{interface}\";\n");
    assert!(BUILD.contains(&said), "{said}");
}

/// The header's numbers by name: `#define NAME n` and `NAME = n`.
fn header_numbers() -> BTreeMap<String, usize> {
    let code = uncommented(HEADER);
    let defined = code.lines().filter_map(|line| {
        let (name, number) = line.strip_prefix("#define ")?.split_once(' ')?;
        // Not a text.
        (!number.starts_with('"')).then_some((name, number.trim()))
    });
    let numbered = code
        .split([',', '{', '}'])
        .filter_map(|item| item.split_once(" = "));
    defined
        .chain(numbered)
        .map(|(name, number)| (name.trim(), number.trim()))
        .filter(|(name, _)| name.starts_with("RENJU_"))
        .map(|(name, number)| (name.to_owned(), number.parse().expect("a number")))
        .collect()
}

/// A part of the package's version.
fn version(part: usize) -> usize {
    let mut parts = env!("CARGO_PKG_VERSION").split('.');
    parts
        .nth(part)
        .expect("three parts")
        .parse()
        .expect("a number")
}

/// `DoubleThree` as the header has it: `RENJU_DOUBLE_THREE`.
fn name_in_c(name: impl std::fmt::Debug) -> String {
    let mut result = "RENJU".to_owned();
    for letter in format!("{name:?}").chars() {
        if letter.is_ascii_uppercase() {
            result.push('_');
        }
        result.push(letter.to_ascii_uppercase());
    }
    result
}

/// Sizes, which are called `.._BYTES` so that none looks like a refusal.
fn sizes() -> Vec<(String, usize)> {
    let sizes = [
        ("TEXT", TEXT),
        ("CELLS", CELLS),
        ("POINTS", CELLS),
        ("DIAGRAM", DIAGRAM),
        ("PRETTY", PRETTY),
        ("STONES_TEXT", STONES_TEXT),
        ("CROSS", 2),
        ("CROSSES", 2 * CELLS),
        ("ROW", 4),
        ("ROWS", 4 * ROWS),
        ("ROWS_ON", 4 * ROWS_ON),
        ("MOVES", MOVES),
        ("REPORT", REPORT),
        ("RECORD", RECORD),
        ("LINE", LINE),
        ("SGF", SGF),
        ("MENDED", MENDED),
    ];
    let named = |(name, size)| (format!("RENJU_{name}_BYTES"), size);
    sizes.into_iter().map(named).collect()
}

#[test]
fn same_numbers() {
    let mut ours = BTreeMap::from(
        [
            ("RENJU_EMPTY", 0),
            ("RENJU_REASON_NONE", 0),
            ("RENJU_VERSION_MAJOR", version(0)),
            ("RENJU_VERSION_MINOR", version(1)),
            ("RENJU_VERSION_PATCH", version(2)),
            ("RENJU_INTERFACE", raw::INTERFACE as usize),
        ]
        .map(|(name, number)| (name.to_owned(), number)),
    );
    let apart = |group, of: &dyn std::fmt::Debug| name_in_c(of).replacen("RENJU", group, 1);
    let refusals = Refusal::ALL.map(|of| (apart("RENJU_REFUSED", &of), of.number().into()));
    let colours = Colour::ALL.map(|of| (name_in_c(of), of.number().into()));
    let kinds = Kind::ALL.map(|of| (name_in_c(of), of.number().into()));
    let views = View::ALL.map(|of| (name_in_c(of), of.number().into()));
    let verdicts = Verdict::ALL.map(|of| (name_in_c(of), of.number().into()));
    let reasons = Reason::ALL.map(|of| (apart("RENJU_REASON", &of), of.number().into()));
    let groups = [&refusals[..], &colours, &kinds, &views, &verdicts, &reasons];
    for (name, number) in groups.concat().into_iter().chain(sizes()) {
        let before = ours.insert(name.clone(), number);
        assert_eq!(before, None, "{name} twice");
    }
    assert_eq!(header_numbers(), ours);
}
