//! Every declaration of `src/ffi.rs` against `include/pedal.h`.
//!
//! Both texts are read into the same table: constants, structs with their fields, and functions
//! with their parameters and answers, all in Rust's words.

use std::collections::BTreeMap;
use std::mem::{align_of, size_of};

use pedal::ffi;

/// The header.
const HEADER: &str = include_str!("../../../include/pedal.h");
/// The declarations, as they are compiled.
const DECLARATIONS: &str = include_str!("../src/ffi.rs");

/// A name and its type.
type Typed = (String, String);

/// What a text declares.
#[derive(Debug, Default, PartialEq)]
struct Table {
    /// The value of each constant.
    constants: BTreeMap<String, String>,
    /// The fields of each struct, in order.
    structs: BTreeMap<String, Vec<Typed>>,
    /// The parameters of each function, in order, and its answer.
    functions: BTreeMap<String, (Vec<Typed>, String)>,
}

// ---------------------------------------------------------------------------------------
// Words
// ---------------------------------------------------------------------------------------

/// Takes out everything between an opening and a closing mark.
fn without(text: &str, open: &str, close: &str) -> String {
    let mut kept = String::new();
    let mut rest = text;
    while let Some((before, after)) = rest.split_once(open) {
        kept.push_str(before);
        kept.push(' ');
        rest = after.split_once(close).map_or("", |parts| parts.1);
    }
    kept + rest
}

/// The words and marks of a text, one by one.
fn words(text: &str) -> Vec<String> {
    let mut words: Vec<String> = Vec::new();
    let mut inside = false;
    for letter in text.chars() {
        let part = letter.is_alphanumeric() || letter == '_';
        match words.last_mut() {
            Some(word) if part && inside => word.push(letter),
            _ if letter.is_whitespace() => {}
            _ => words.push(letter.to_string()),
        }
        inside = part;
    }
    words
}

/// The words up to a mark, and those after it.
fn split_at<'a>(words: &'a [String], mark: &str) -> (&'a [String], &'a [String]) {
    let place = words.iter().position(|word| word == mark);
    let place = place.unwrap_or_else(|| panic!("no {mark} in {words:?}"));
    (&words[..place], &words[place + 1..])
}

/// The parts between marks, without an empty one at the end.
fn parts<'a>(words: &'a [String], mark: &str) -> Vec<&'a [String]> {
    let mut parts: Vec<&[String]> = words.split(|word| word == mark).collect();
    parts.retain(|part| !part.is_empty());
    parts
}

/// The words of a slice as text slices, to be matched.
fn plain(words: &[String]) -> Vec<&str> {
    words.iter().map(String::as_str).collect()
}

// ---------------------------------------------------------------------------------------
// The header
// ---------------------------------------------------------------------------------------

/// A C type's name in Rust.
fn rust_type(name: &str) -> String {
    match name {
        "size_t" => "usize".to_string(),
        "uint8_t" => "u8".to_string(),
        "uint16_t" => "u16".to_string(),
        _ => rust_struct(name),
    }
}

/// A C struct's name in Rust: pedal_filled is Filled.
fn rust_struct(name: &str) -> String {
    let name = name.strip_prefix("pedal_");
    let name = name.unwrap_or_else(|| panic!("an unknown type in the header"));
    let mut letters = name.chars();
    let first = letters.next().map(|letter| letter.to_ascii_uppercase());
    first.into_iter().chain(letters).collect()
}

/// A C declaration of a field or parameter, in Rust's words.
fn c_typed(words: &[String]) -> Typed {
    let (name, kind) = match plain(words).as_slice() {
        ["const", base, "*", name] => (*name, format!("*const {}", rust_type(base))),
        [base, "*", name] => (*name, format!("*mut {}", rust_type(base))),
        [base, name, "[", size, "]"] => (*name, format!("[{}; {size}]", rust_type(base))),
        [base, name] => (*name, rust_type(base)),
        _ => panic!("an unknown declaration in the header: {words:?}"),
    };
    (name.to_string(), kind)
}

/// The constants that the header defines with a value.
fn c_defines(text: &str, table: &mut Table) {
    for line in text.lines() {
        let words: Vec<&str> = line.split_whitespace().collect();
        if let ["#define", name, value] = words.as_slice() {
            table.constants.insert(name.to_string(), value.to_string());
        }
    }
}

/// The header's text without comments, without lines for the preprocessor, and without the
/// bracket around it for C++.
fn c_body(text: &str) -> String {
    let lines = text.lines().filter(|line| !line.starts_with('#'));
    let lines = lines.filter(|line| !line.contains("extern \"C\"") && *line != "}");
    lines.collect::<Vec<&str>>().join("\n")
}

/// An enum of the header: each name with its number.
fn c_enum(words: &[String], table: &mut Table) {
    for part in parts(words, ",") {
        match plain(part).as_slice() {
            [name, "=", value] => {
                table.constants.insert(name.to_string(), value.to_string());
            }
            _ => panic!("an unknown number in the header: {part:?}"),
        }
    }
}

/// A struct of the header.
fn c_struct(name: &str, words: &[String], table: &mut Table) {
    let fields = parts(words, ";").into_iter().map(c_typed).collect();
    table.structs.insert(rust_struct(name), fields);
}

/// A function of the header.
fn c_function(answer: &str, name: &str, words: &[String], table: &mut Table) {
    let parameters = parts(words, ",").into_iter().map(c_typed).collect();
    let answer = rust_struct(answer);
    table
        .functions
        .insert(name.to_string(), (parameters, answer));
}

/// Reads the header.
fn read_header(text: &str) -> Table {
    let mut table = Table::default();
    let text = without(text, "/*", "*/");
    c_defines(&text, &mut table);
    let words = words(&c_body(&text));
    let mut rest = words.as_slice();
    while let [kind, name, mark, ..] = plain(rest).as_slice() {
        let (kind, name, mark) = (kind.to_string(), name.to_string(), mark.to_string());
        let close = if mark == "{" { "}" } else { ")" };
        let (inner, after) = split_at(rest, close);
        match (kind.as_str(), mark.as_str()) {
            ("enum", "{") => c_enum(&inner[3..], &mut table),
            ("struct", "{") => c_struct(&name, &inner[3..], &mut table),
            ("struct", _) => c_function(&name, &mark, &inner[4..], &mut table),
            _ => panic!("an unknown declaration in the header: {kind} {name}"),
        }
        rest = split_at(after, ";").1;
    }
    assert!(rest.is_empty(), "more in the header: {rest:?}");
    table
}

// ---------------------------------------------------------------------------------------
// The declarations
// ---------------------------------------------------------------------------------------

/// A type in Rust's words, with single spaces.
fn spaced(words: &[String]) -> String {
    match plain(words).as_slice() {
        ["*", how, base] => format!("*{how} {base}"),
        ["[", base, ";", size, "]"] => format!("[{base}; {size}]"),
        [base] => base.to_string(),
        _ => panic!("an unknown type in the declarations: {words:?}"),
    }
}

/// A field or parameter.
fn rust_typed(words: &[String]) -> Typed {
    let words = words.strip_prefix(&["pub".to_string()]).unwrap_or(words);
    match plain(words).as_slice() {
        [name, ":", ..] => (name.to_string(), spaced(&words[2..])),
        _ => panic!("an unknown declaration: {words:?}"),
    }
}

/// A constant: its name and value, and the words after it.
fn rust_constant<'a>(words: &'a [String], table: &mut Table) -> &'a [String] {
    let (constant, rest) = split_at(words, ";");
    match plain(constant).as_slice() {
        ["pub", "const", name, ":", "usize", "=", value] => {
            table.constants.insert(name.to_string(), value.to_string());
        }
        _ => panic!("an unknown constant: {constant:?}"),
    }
    rest
}

/// A struct, and the words after it.
fn rust_record<'a>(words: &'a [String], table: &mut Table) -> &'a [String] {
    let (inner, rest) = split_at(words, "}");
    let fields = parts(&inner[4..], ",").into_iter().map(rust_typed);
    table.structs.insert(inner[2].clone(), fields.collect());
    rest
}

/// A function, and the words after it.
fn rust_function<'a>(words: &'a [String], table: &mut Table) -> &'a [String] {
    let (inner, after) = split_at(words, ")");
    let (answer, rest) = split_at(after, ";");
    let parameters = parts(&inner[4..], ",").into_iter().map(rust_typed);
    match plain(answer).as_slice() {
        ["-", ">", answer] => {
            let function = (parameters.collect(), answer.to_string());
            table.functions.insert(inner[2].clone(), function);
        }
        _ => panic!("an unknown answer of {}: {answer:?}", inner[2]),
    }
    rest
}

/// The declarations' text without comments, attributes and the bracket around the functions.
fn rust_body(text: &str) -> String {
    let kept = |line: &&str| {
        let line = line.trim_start();
        !(line.starts_with("//") || line.starts_with("#[") || line.starts_with("extern \"C\""))
    };
    text.lines().filter(kept).collect::<Vec<&str>>().join("\n")
}

/// Reads the declarations.
fn read_declarations(text: &str) -> Table {
    let mut table = Table::default();
    let words = words(&rust_body(text));
    let mut rest = words.as_slice();
    loop {
        rest = match plain(rest).as_slice() {
            ["pub", "const", ..] => rust_constant(rest, &mut table),
            ["pub", "struct", ..] => rust_record(rest, &mut table),
            ["pub", "fn", ..] => rust_function(rest, &mut table),
            ["}"] => return table,
            _ => panic!("more among the declarations: {rest:?}"),
        }
    }
}

// ---------------------------------------------------------------------------------------
// The comparison
// ---------------------------------------------------------------------------------------

/// The names whose entries differ, or that only one side has.
fn differing<T: PartialEq>(one: &BTreeMap<String, T>, other: &BTreeMap<String, T>) -> Vec<String> {
    let names = one
        .keys()
        .chain(other.keys().filter(|name| !one.contains_key(*name)));
    let names = names.filter(|name| one.get(*name) != other.get(*name));
    names.cloned().collect()
}

/// The names of all declarations in which two tables differ.
fn drift(one: &Table, other: &Table) -> Vec<String> {
    let mut names = differing(&one.constants, &other.constants);
    names.extend(differing(&one.structs, &other.structs));
    names.extend(differing(&one.functions, &other.functions));
    names
}

/// The header and the declarations say the same.
#[test]
fn declarations_match_the_header() {
    let (header, declared) = (read_header(HEADER), read_declarations(DECLARATIONS));
    let names = drift(&header, &declared);
    assert!(
        names.is_empty(),
        "declared otherwise than in the header: {names:?}"
    );
}

/// The tables hold what they should: ten functions, seven structs and six constants.
#[test]
fn tables_are_whole() {
    for table in [read_header(HEADER), read_declarations(DECLARATIONS)] {
        assert_eq!(table.functions.len(), 10);
        assert_eq!(table.structs.len(), 7);
        assert_eq!(table.constants.len(), 6);
        let (parameters, answer) = &table.functions["pedal_next"];
        assert_eq!(parameters.len(), 16);
        assert_eq!(parameters[12].1, "*const u16");
        assert_eq!(parameters[14], ("out".to_string(), "*mut u16".to_string()));
        assert_eq!(answer, "Listed");
        assert_eq!(table.structs["Peaks"][2].1, "[usize; PEDAL_KINDS]");
        assert_eq!(table.constants["PEDAL_OVER_USE"], "3");
    }
}

/// The header with one part of it changed, which must be there once.
fn changed(part: &str, to: &str) -> Table {
    assert_eq!(HEADER.matches(part).count(), 1, "{part}");
    read_header(&HEADER.replace(part, to))
}

/// Each kind of drift is seen, and the declaration at fault is named.
#[test]
fn drift_is_named() {
    let declared = read_declarations(DECLARATIONS);
    let edits = [
        ("size_t step,\n", "uint16_t step,\n", "pedal_advance"),
        ("const uint16_t *after", "uint16_t *after", "pedal_next"),
        ("size_t channel,\n", "size_t canal,\n", "pedal_view"),
        (
            "struct pedal_peaks pedal_peak",
            "struct pedal_part pedal_peak",
            "pedal_peak",
        ),
        (
            "    size_t latency;\n",
            "    size_t latency;\n    size_t more;\n",
            "Scheduled",
        ),
        ("peak[PEDAL_KINDS]", "peak[5]", "Peaks"),
        (
            "#define PEDAL_OPERATIONS ",
            "#define PEDAL_OPERATIONS 1",
            "PEDAL_OPERATIONS",
        ),
        ("PEDAL_BROKEN = 2", "PEDAL_BROKEN = 4", "PEDAL_BROKEN"),
    ];
    for (part, to, name) in edits {
        assert_eq!(drift(&changed(part, to), &declared), [name]);
    }
}

/// A function that only one side has is named.
#[test]
fn missing_functions_are_named() {
    let header = read_header(HEADER);
    for name in header.functions.keys() {
        let mut declared = read_declarations(DECLARATIONS);
        declared.functions.remove(name);
        assert_eq!(drift(&header, &declared), [name.as_str()]);
        assert_eq!(drift(&declared, &header), [name.as_str()]);
    }
}

/// The structs lie in memory as C lays them: numbers of the size of a pointer, with no gaps.
#[test]
fn structs_have_no_gaps() {
    let word = size_of::<usize>();
    assert_eq!(align_of::<ffi::Peaks>(), word);
    assert_eq!(size_of::<ffi::Filled>(), 2 * word);
    assert_eq!(size_of::<ffi::Scheduled>(), 3 * word);
    assert_eq!(size_of::<ffi::Advanced>(), 3 * word);
    assert_eq!(size_of::<ffi::Verdict>(), 5 * word);
    assert_eq!(size_of::<ffi::Peaks>(), (2 + ffi::PEDAL_KINDS) * word);
    assert_eq!(size_of::<ffi::Listed>(), 3 * word);
    assert_eq!(size_of::<ffi::Part>(), 3 * word);
}
