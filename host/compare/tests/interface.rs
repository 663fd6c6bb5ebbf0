//! The C header, the Rust declarations and the Rattle source declare one interface.
#![forbid(unsafe_code)]

use compare::interface::Interface;
use ntp5::Refusal;
use std::path::{Path, PathBuf};
use std::{env, fs};

/// Parameters with another name in Rattle, where the interface's is taken: `poll` by the
/// definition that the contract cites, `header` by a crate.
const RATTLE_NAMES: [(&str, &str, &str); 2] =
    [("ntp5_poll", "exponent", "poll"), ("ntp5_header_write", "fields", "header")];

/// The repository's top, or where `$NTP5_TOP` says that header and Rattle source stand.
fn top() -> PathBuf {
    let own = || Path::new(env!("CARGO_MANIFEST_DIR")).join("../..");
    env::var_os("NTP5_TOP").map_or_else(own, PathBuf::from)
}

fn text(path: &Path) -> String {
    fs::read_to_string(path).unwrap_or_else(|error| panic!("{}: {error}", path.display()))
}

fn header() -> Interface {
    Interface::of_c(&text(&top().join("include/ntp5.h")))
}

fn rust() -> Interface {
    Interface::of_rust(include_str!("../../ntp5/src/ffi/mod.rs"))
}

/// The Rattle sources of a crate, one after the other.
fn sources(name: &str) -> String {
    let folder = top().join("crates").join(name).join("src");
    let entries = fs::read_dir(&folder);
    let entries = entries.unwrap_or_else(|error| panic!("{}: {error}", folder.display()));
    let files = entries.map(|entry| entry.expect("an entry of the folder").path());
    files
        .filter(|path| path.extension().is_some_and(|end| end == "rt"))
        .map(|path| text(&path))
        .collect()
}

/// The exports stand in one crate and the structs in another, but for the server's, which the
/// responder takes as it is.
fn rattle() -> Interface {
    let sources = ["responder_rules", "c_structs", "ntp5_c"].map(sources).concat();
    let mut interface = Interface::of_rust(&sources);
    for (function, own, name) in RATTLE_NAMES {
        let parameters = interface.functions.get_mut(function).into_iter().flatten();
        parameters.filter(|(name, _)| name == own).for_each(|pair| pair.0 = name.into());
    }
    interface
}

/// The header's names of the refusals.
const REFUSALS: [(&str, Refusal); 13] = [
    ("NTP5_BAD_LENGTH", Refusal::DatagramLength),
    ("NTP5_BAD_VERSION", Refusal::Version),
    ("NTP5_BAD_MODE", Refusal::Mode),
    ("NTP5_BAD_FIELD", Refusal::FieldLength),
    ("NTP5_BAD_PADDING", Refusal::FieldPadding),
    ("NTP5_BAD_ARGUMENT", Refusal::Argument),
    ("NTP5_BAD_STATE", Refusal::State),
    ("NTP5_BAD_COOKIE", Refusal::Cookie),
    ("NTP5_NOT_ASKED", Refusal::NotOutstanding),
    ("NTP5_NOT_INTERLEAVED", Refusal::NotInterleaved),
    ("NTP5_NO_ROOM", Refusal::Room),
    ("NTP5_NOT_STORED", Refusal::NotStored),
    ("NTP5_AFTER_MAC", Refusal::AfterMac),
];

/// The header's first enum is success and the refusals, each with the wrapper's number.
#[test]
fn refusal_numbers() {
    let header = text(&top().join("include/ntp5.h"));
    let (_, rest) = header.split_once("enum {").expect("an enum");
    let (refusals, _) = rest.split_once("};").expect("its end");
    let named = refusals.lines().filter_map(|line| line.trim().split_once(" = "));
    let given: Vec<(&str, String)> = named
        .map(|(name, value)| (name, value.chars().take_while(char::is_ascii_digit).collect()))
        .collect();
    let refused = REFUSALS.map(|(name, refusal)| (name, refusal.number().to_string()));
    let expected: Vec<_> = [("NTP5_OK", "0".into())].into_iter().chain(refused).collect();
    assert_eq!(given, expected);
}

#[test]
fn header_and_rust() {
    let (header, rust) = (header(), rust());
    assert_eq!((header.structs.len(), header.functions.len()), (9, 20));
    let lines = header.differences(&rust);
    assert!(lines.is_empty(), "header here, Rust there:\n{}", lines.join("\n"));
}

#[test]
fn header_and_rattle() {
    let lines = header().differences(&rattle());
    assert!(lines.is_empty(), "header here, Rattle there:\n{}", lines.join("\n"));
}

#[test]
fn differences_are_found() {
    let one = "typedef struct { uint8_t a; int8_t b, c; int16_t d; } ntp5_s; uint8_t ntp5_f(ntp5_s s, const uint8_t *p, size_t p_len, uint64_t *q, size_t q_len);";
    let rust = "#[repr(C)] struct S { pub a: u8, pub b: i8, pub c: i8, pub d: i16 } fn ntp5_f(s: S, p: &[u8], q: &mut [u64]) -> u8;";
    assert_eq!(Interface::of_c(one), Interface::of_rust(rust));
    for (from, to) in [
        ("b: i8", "b: u8"),
        ("a: u8", "z: u8"),
        ("a: u8, pub b: i8", "b: i8, pub a: u8"),
        ("&[u8]", "&mut [u8]"),
        ("&[u8]", "&[u64]"),
        ("&mut [u64]", "&[u64]"),
        ("&mut [u64]", "&mut [u8]"),
        ("-> u8", "-> u16"),
        (", pub c: i8", ""),
        ("d: i16", "d: u16"),
        ("s: S", "s: T"),
        ("s: S, p: &[u8]", "p: &[u8], s: S"),
        ("ntp5_f", "ntp5_g"),
    ] {
        let other = Interface::of_rust(&rust.replace(from, to));
        assert!(!Interface::of_c(one).differences(&other).is_empty(), "{from} for {to}");
    }
}
