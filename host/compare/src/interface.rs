//! The C interface as three texts declare it: the C header, the Rust declarations
//! and the Rattle source. Each is read into one form, and the forms are compared.

use std::collections::BTreeMap;

/// Names with Rust types, in their order.
type Names = Vec<(String, String)>;

/// What a text declares. A function's last entry, `return`, is what it gives.
#[derive(Debug, Default, PartialEq, Eq)]
pub struct Interface {
    /// Structs and their fields.
    pub structs: BTreeMap<String, Names>,
    /// Functions, their parameters and what they return.
    pub functions: BTreeMap<String, Names>,
}

impl Interface {
    /// Reads a C header.
    pub fn of_c(text: &str) -> Self {
        let text = without(text, "/*", "*/");
        let mut interface = Interface::default();
        for part in text.split("typedef struct").skip(1) {
            let (fields, rest) = bracketed(part, '{', '}');
            let name = c_type(rest.split(';').next().unwrap_or_default());
            interface.structs.insert(name, fields.split(';').flat_map(c_fields).collect());
        }
        for statement in text.split(';').filter(|statement| statement.contains('(')) {
            let declared = statement.rsplit(['{', '}']).next().unwrap_or_default();
            let (declared, parameters) = declared.split_once('(').unwrap_or_default();
            let (returned, name) = declared.trim().rsplit_once(' ').unwrap_or_default();
            let listed = parameters.trim_end_matches(')').split(',').filter(|p| *p != "void");
            let mut names: Names = listed.flat_map(c_fields).collect();
            names.push(("return".into(), c_type(returned)));
            interface.functions.insert(name.trim_start_matches('*').into(), names);
        }
        interface
    }

    /// Reads Rust or Rattle: structs with `repr(C)`, and functions whose name begins with `ntp5_`.
    pub fn of_rust(text: &str) -> Self {
        let text = without(text, "//", "\n");
        let mut interface = Interface::default();
        for part in text.split("#[repr(C)]").skip(1) {
            let part = part.split_once("struct").map_or("", |(_, part)| part);
            let name = part.split('{').next().unwrap_or_default().trim();
            let (fields, _) = bracketed(part, '{', '}');
            interface.structs.insert(name.into(), fields.split(',').flat_map(rust_name).collect());
        }
        for part in text.split("fn ntp5_").skip(1) {
            let name = part.split('(').next().unwrap_or_default();
            let (parameters, rest) = bracketed(part, '(', ')');
            let mut names: Names = parameters.split(',').flat_map(rust_name).collect();
            let returned = rest.trim_start().trim_start_matches("->").trim_start();
            let end = returned.find(|c: char| !c.is_alphanumeric()).unwrap_or(returned.len());
            names.push(("return".into(), returned[..end].into()));
            interface.functions.insert(format!("ntp5_{name}"), names);
        }
        interface
    }

    /// Every way in which `other` differs, a line each.
    pub fn differences(&self, other: &Interface) -> Vec<String> {
        let pairs = [(&self.structs, &other.structs), (&self.functions, &other.functions)];
        pairs.iter().flat_map(|(own, others)| differing(own, others)).collect()
    }
}

fn differing(own: &BTreeMap<String, Names>, others: &BTreeMap<String, Names>) -> Vec<String> {
    let mut lines = Vec::new();
    for name in own.keys().chain(others.keys().filter(|name| !own.contains_key(*name))) {
        match (own.get(name), others.get(name)) {
            (Some(a), Some(b)) if a == b => {}
            (Some(a), Some(b)) => {
                let place =
                    a.iter().zip(b).position(|(a, b)| a != b).unwrap_or(a.len().min(b.len()));
                let (a, b) = (a.get(place), b.get(place));
                lines.push(format!("{name}, place {}: {a:?} here, {b:?} there", place + 1));
            }
            (Some(_), None) => lines.push(format!("{name}: missing there")),
            _ => lines.push(format!("{name}: missing here")),
        }
    }
    lines
}

/// The text without what stands from `from` to `to`.
fn without(text: &str, from: &str, to: &str) -> String {
    let mut parts = text.split(from);
    let mut left = parts.next().unwrap_or_default().to_string();
    for part in parts {
        left.push('\n');
        left += part.split_once(to).map_or("", |(_, rest)| rest);
    }
    left
}

/// What stands in the first pair of brackets, which holds no other pair, and what follows it.
fn bracketed(text: &str, from: char, to: char) -> (&str, &str) {
    let inner = text.split_once(from).map_or("", |(_, inner)| inner);
    inner.split_once(to).unwrap_or((inner, ""))
}

/// C's names of one type, or one parameter: `uint8_t leap, mode` or `const uint8_t *id`.
fn c_fields(text: &str) -> Names {
    let text = text.trim();
    let words = text.rfind(|c: char| c == '*' || c.is_whitespace());
    let Some(place) = text.find(',').map_or(words, |comma| text[..comma].rfind(' ')) else {
        return Vec::new();
    };
    let (kind, names) = text.split_at(place + 1);
    names.split(',').map(|name| (name.trim().into(), c_type(kind))).collect()
}

/// A C type as Rust names it; `ntp5_written` is `Written`.
fn c_type(text: &str) -> String {
    let known = match text.trim() {
        "uint8_t" => "u8",
        "int8_t" => "i8",
        "uint16_t" => "u16",
        "int16_t" => "i16",
        "uint32_t" => "u32",
        "uint64_t" => "u64",
        "int64_t" => "i64",
        "size_t" => "usize",
        "bool" => "bool",
        "uint8_t *" => "*mut u8",
        "const uint8_t *" => "*const u8",
        "uint64_t *" => "*mut u64",
        "const uint64_t *" => "*const u64",
        other => return capital(other.trim_start_matches("ntp5_")),
    };
    known.into()
}

fn capital(word: &str) -> String {
    let (first, rest) = word.split_at(word.len().min(1));
    first.to_uppercase() + rest
}

/// A Rust field or parameter; a slice is a pointer and a length.
fn rust_name(text: &str) -> Names {
    let Some((name, kind)) = text.split_once(':') else {
        return Vec::new();
    };
    let (name, kind) = (name.trim().trim_start_matches("pub "), kind.trim());
    let pointer = |start, to| {
        let of = kind.strip_prefix(start)?.strip_suffix(']')?;
        Some(format!("{to} {of}"))
    };
    match pointer("&mut [", "*mut").or_else(|| pointer("&[", "*const")) {
        Some(pointer) => vec![(name.into(), pointer), (format!("{name}_len"), "usize".into())],
        None => vec![(name.into(), kind.into())],
    }
}
