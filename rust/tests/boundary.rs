//! The crate's declarations held to the library's source and to `include/mrt.h`: the same calls, each with the same
//! parameters in the same order, and the same structs field by field. All three are read as text. Which values a call
//! leaves, and what they mean, no declaration shows: for that the header has a number, and so has the crate's version.

use std::collections::{BTreeMap, BTreeSet};
use std::fs;
use std::mem::{offset_of, size_of};
use std::path::{Path, PathBuf};

/// A call's parameters and its result, by the call's name. A struct stands as its fields.
type Calls = BTreeMap<String, String>;

/// The fields of each struct, by its name.
type Structs = BTreeMap<String, String>;

fn text(path: impl AsRef<Path>) -> String {
    let path = Path::new(env!("CARGO_MANIFEST_DIR")).join(path);
    fs::read_to_string(&path).unwrap_or_else(|error| panic!("{}: {error}", path.display()))
}

/// The files with an ending, in a folder and the folders in it.
fn files(folder: &Path, ending: &str) -> Vec<PathBuf> {
    let entries = fs::read_dir(folder).unwrap_or_else(|error| panic!("{}: {error}", folder.display()));
    let paths = entries.map(|entry| entry.unwrap().path());
    paths
        .flat_map(|path| match path {
            path if path.is_dir() => files(&path, ending),
            path if path.extension().is_some_and(|e| e == ending) => vec![path],
            _ => vec![],
        })
        .collect()
}

/// Source without its comments, all white space being one blank.
fn plain(source: &str) -> String {
    let lines = source.lines().map(|line| line.split("//").next().unwrap_or_default());
    lines.flat_map(str::split_whitespace).collect::<Vec<_>>().join(" ")
}

/// What stands before a mark, and what stands after it.
fn cut<'a>(source: &'a str, mark: &str) -> (&'a str, &'a str) {
    source.split_once(mark).unwrap_or_else(|| panic!("no `{mark}` in `{source}`"))
}

/// What a list has between its commas.
fn listed(list: &str) -> impl Iterator<Item = &str> {
    list.split(',').map(str::trim).filter(|item| !item.is_empty())
}

/// A type with its struct, where it has one, as the fields. A path has its last name.
fn resolved(ty: &str, structs: &Structs) -> String {
    let (before, name) = ty.rsplit_once(' ').map_or(("", ty), |(before, name)| (before, name));
    let name = name.rsplit("::").next().unwrap_or(name);
    let fields = structs.get(name).map_or(name, String::as_str);
    format!("{before} {fields}").trim().to_string()
}

/// A call as text, by which it is compared.
fn call(parameters: impl Iterator<Item = (String, String)>, result: &str, structs: &Structs) -> String {
    let parameters: Vec<_> = parameters.map(|(name, ty)| format!("{name}: {}", resolved(&ty, structs))).collect();
    format!("({}) -> {}", parameters.join(", "), resolved(result, structs))
}

/// The structs of Rust's or the library's source that have the layout of C.
fn structs(source: &str) -> Structs {
    let after = source.split("#[repr(C)]").skip(1);
    after
        .map(|after| {
            let (name, after) = cut(cut(after, "struct ").1, " {");
            let fields: Vec<_> = listed(cut(after, "}").0).map(|field| field.trim_start_matches("pub ")).collect();
            (name.to_string(), format!("{{ {} }}", fields.join(", ")))
        })
        .collect()
}

/// A parameter of the library's source, as it crosses the boundary: a slice is a pointer and a length.
fn lent(parameter: &str) -> Vec<(String, String)> {
    let (name, ty) = cut(parameter, ": ");
    let pointer = if ty.starts_with("&mut ") { "*mut" } else { "*const" };
    let held = ty.trim_start_matches('&').trim_start_matches("mut ");
    let inner = held.strip_prefix('[').and_then(|held| held.strip_suffix(']'));
    match inner {
        Some(inner) if ty.starts_with('&') => {
            vec![(name.to_string(), format!("{pointer} {inner}")), (format!("{name}_len"), "usize".to_string())]
        }
        _ if ty.starts_with('&') => vec![(name.to_string(), format!("{pointer} {held}"))],
        _ => vec![(name.to_string(), ty.to_string())],
    }
}

/// The exported calls of the library's source.
fn exported() -> Calls {
    let crates = Path::new(env!("CARGO_MANIFEST_DIR")).join("../crates");
    let folders = fs::read_dir(&crates).unwrap_or_else(|error| panic!("{}: {error}", crates.display()));
    let folders = folders.map(|entry| entry.unwrap().path().join("src")).filter(|source| source.is_dir());
    let sources = folders.flat_map(|source| files(&source, "rt"));
    let source = sources.map(|path| plain(&text(path))).collect::<Vec<_>>().join(" ");
    let structs = structs(&source);
    let after = source.split("#[unsafe(no_mangle)]").skip(1);
    after
        .map(|after| {
            let (name, after) = cut(cut(after, "extern \"C\" fn ").1, "(");
            let (parameters, after) = cut(after, ")");
            let head = after.split(" ensures").next().unwrap_or_default().split(" {").next().unwrap_or_default();
            let result = head.trim().trim_start_matches("-> ");
            (name.to_string(), call(listed(parameters).flat_map(lent), result, &structs))
        })
        .collect()
}

/// The calls that the crate declares.
fn declared() -> Calls {
    let source = plain(&(text("src/boundary.rs") + &text("src/peers.rs")));
    let structs = structs(&source);
    let block = cut(cut(&source, "unsafe extern \"C\" {").1, "}").0;
    let calls = block.split(';').filter_map(|line| line.trim().strip_prefix("fn "));
    calls
        .map(|line| {
            let (name, after) = cut(line, "(");
            let (parameters, result) = cut(after, ") -> ");
            let parameters = listed(parameters).map(|parameter| cut(parameter, ": "));
            let parameters = parameters.map(|(name, ty)| (name.to_string(), ty.to_string()));
            (name.to_string(), call(parameters, result, &structs))
        })
        .collect()
}

/// A type of C in Rust's words.
fn from_c(ty: &str) -> String {
    match ty.trim() {
        "uint8_t" => "u8".to_string(),
        "uint16_t" => "u16".to_string(),
        "uint32_t" => "u32".to_string(),
        "uint64_t" => "u64".to_string(),
        "int64_t" => "i64".to_string(),
        "size_t" => "usize".to_string(),
        other => other.to_string(),
    }
}

/// A parameter or a field of C. `type` is no name in Rust.
fn from_c_parameter(parameter: &str) -> (String, String) {
    let (ty, name) = parameter.rsplit_once(' ').unwrap_or_else(|| panic!("no name in `{parameter}`"));
    let (pointer, name) = name.strip_prefix('*').map_or((false, name), |name| (true, name));
    let ty = match (pointer, ty.strip_prefix("const ")) {
        (true, Some(ty)) => format!("*const {}", from_c(ty)),
        (true, None) => format!("*mut {}", from_c(ty)),
        _ => from_c(ty),
    };
    let (name, ty) = match name.trim_end_matches(']').split_once('[') {
        Some((name, size)) => (name, format!("[{ty}; {size}]")),
        None => (name, ty),
    };
    (if name == "type" { "kind" } else { name }.to_string(), ty)
}

/// The header without its comments and its lines for the preprocessor.
fn c_source() -> String {
    let header = text("../include/mrt.h");
    let open: Vec<_> = header.split("/*").map(|after| after.split("*/").last().unwrap_or_default()).collect();
    let lines: Vec<_> = open.iter().flat_map(|part| part.lines()).filter(|line| !line.starts_with('#')).collect();
    plain(&lines.join("\n"))
}

/// The structs of the header.
fn c_structs(source: &str) -> Structs {
    let after = source.split("typedef struct ").skip(1);
    after
        .map(|after| {
            let (name, after) = cut(after, " {");
            let fields = cut(after, "}").0.split(';').map(str::trim).filter(|field| !field.is_empty());
            let fields = fields.map(from_c_parameter).map(|(name, ty)| format!("{name}: {ty}"));
            (name.to_string(), format!("{{ {} }}", fields.collect::<Vec<_>>().join(", ")))
        })
        .collect()
}

/// The calls that the header declares.
fn in_c() -> Calls {
    let source = c_source();
    let structs = c_structs(&source);
    let calls = source.split(';').filter(|line| line.contains('('));
    calls
        .map(|line| {
            let (before, parameters) = cut(line.trim().trim_start_matches("extern \"C\" {").trim_end_matches(')'), "(");
            let (result, name) = before.trim().rsplit_once(' ').unwrap_or_else(|| panic!("no result in `{before}`"));
            let parameters = listed(parameters).map(from_c_parameter);
            (name.to_string(), call(parameters, &from_c(result), &structs))
        })
        .collect()
}

/// Says of every call that one side lacks, or that both have in another form, what each has.
fn hold(ours: &Calls, theirs: &Calls) {
    let names: BTreeSet<_> = ours.keys().chain(theirs.keys()).collect();
    let apart = names.into_iter().filter(|name| ours.get(*name) != theirs.get(*name));
    let said: Vec<_> =
        apart.map(|name| format!("{name}\n  crate: {:?}\n  other: {:?}", ours.get(name), theirs.get(name))).collect();
    assert!(said.is_empty(), "{}", said.join("\n"));
}

#[test]
fn the_crate_declares_what_the_library_exports() {
    hold(&declared(), &exported());
}

#[test]
fn the_crate_declares_what_the_header_does() {
    hold(&declared(), &in_c());
}

/// The number that the header gives a name.
fn defined(name: &str) -> String {
    let header = text("../include/mrt.h");
    let mut words = header.lines().map(|line| line.split_whitespace().collect::<Vec<_>>());
    let line = words.find(|words| words.starts_with(&["#define", name]));
    line.unwrap_or_else(|| panic!("no `{name}` in the header"))[2..].concat()
}

#[test]
fn the_minor_version_is_the_number_of_the_interface() {
    assert_eq!(env!("CARGO_PKG_VERSION_MINOR"), defined("MRT_INTERFACE"));
}

#[test]
fn a_peer_has_the_layout_of_the_header() {
    assert_eq!(size_of::<mrt::Peer>(), 28);
    let offsets = [offset_of!(mrt::Peer, kind), offset_of!(mrt::Peer, id), offset_of!(mrt::Peer, addr)];
    assert_eq!((offsets, offset_of!(mrt::Peer, asn)), ([0, 4, 8], 24));
}

/// The readers of this file tell apart what differs in one word.
#[test]
fn a_difference_is_seen() {
    let none = Structs::new();
    let of = |parameters: &str| call(listed(parameters).flat_map(lent), "u32", &none);
    assert_eq!(of("s: &[u8], at: usize"), "(s: *const u8, s_len: usize, at: usize) -> u32");
    assert_eq!(of("out: &mut [u64]"), "(out: *mut u64, out_len: usize) -> u32");
    assert_eq!(of("n: &mut u64"), "(n: *mut u64) -> u32");
    assert_ne!(of("a: u32, b: u16"), of("b: u16, a: u32"));
    let fields = structs("#[repr(C)] pub struct Found { pub refusal: u32, pub id: u32, }");
    assert_eq!(call(std::iter::empty(), "Found", &fields), "() -> { refusal: u32, id: u32 }");
    assert_eq!(from_c_parameter("uint8_t addr[16]"), ("addr".to_string(), "[u8; 16]".to_string()));
    assert_eq!(from_c_parameter("const mrt_peer *slots"), ("slots".to_string(), "*const mrt_peer".to_string()));
}
