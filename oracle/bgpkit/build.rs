//! Copies the crate's own files to where the build can take them in, all unedited but for one place of the scan.

use std::path::{Path, PathBuf};
use std::{env, fs, process};

/// The name of each module and its file in the crate.
const FILES: [(&str, &str); 9] = [
    ("error", "src/error.rs"),
    ("sink", "src/encoder/sink.rs"),
    ("utils", "src/parser/utils.rs"),
    ("recovery", "src/parser/iters/recovery.rs"),
    ("mrt_header", "src/parser/mrt/mrt_header.rs"),
    ("mrt_record", "src/parser/mrt/mrt_record.rs"),
    ("bgp4mp", "src/parser/mrt/messages/bgp4mp.rs"),
    ("peer_index_table", "src/parser/mrt/messages/table_dump_v2/peer_index_table.rs"),
    ("rib_afi_entries", "src/parser/mrt/messages/table_dump_v2/rib_afi_entries.rs"),
];

/// 02, wish 14: a scan takes no type 5. The module, how the candidate test's arm for that type begins, and what stands
/// there instead: outside of `with_own_parsers` the arm is never taken.
const REPLACED: (&str, &str, &str) = (
    "recovery",
    "EntryType::BGP if legacy_header_is_plausible(",
    "EntryType::BGP if crate::parser::own_parsers() && legacy_header_is_plausible(",
);

fn main() {
    println!("cargo:rerun-if-env-changed=BGPKIT_SRC");
    let source = source_folder();
    let target = PathBuf::from(env::var("OUT_DIR").expect("cargo sets OUT_DIR"));
    for (module, path) in FILES {
        let from = source.join(path);
        println!("cargo:rerun-if-changed={}", from.display());
        take_in(module, &from, &target);
    }
}

/// The folder named by BGPKIT_SRC, or the folder `shared` beside the repository.
fn source_folder() -> PathBuf {
    let beside = || {
        let manifest = env::var("CARGO_MANIFEST_DIR").expect("cargo sets CARGO_MANIFEST_DIR");
        Path::new(&manifest).join("../../../shared/docs/src")
    };
    env::var_os("BGPKIT_SRC").map_or_else(beside, PathBuf::from)
}

/// Copies one file and writes the line that declares it as a module.
fn take_in(module: &str, from: &Path, target: &Path) {
    let copy = target.join(format!("{module}.rs"));
    let text = fs::read_to_string(from).unwrap_or_else(|error| {
        stop(&format!(
            "A source file of bgpkit-parser 0.23.0 is not at {} ({error}). \
             Set BGPKIT_SRC to the folder that holds the crate's src folder.",
            from.display()
        ))
    });
    let text = if module == REPLACED.0 { replaced(&text, from) } else { text };
    fs::write(&copy, text).expect("OUT_DIR can be written");
    let line =
        format!("#[allow(dead_code, unused_imports)] #[path = {:?}] pub mod {module};\n", copy.display().to_string());
    fs::write(target.join(format!("mod_{module}.rs")), line).expect("OUT_DIR can be written");
}

/// The arm is to be met once: with none the scan would still take type 5, and of two it is not known which is meant.
fn replaced(text: &str, from: &Path) -> String {
    let (_, arm, instead) = REPLACED;
    let times = text.matches(arm).count();
    if times != 1 {
        stop(&format!("\"{arm}\" is to stand once in {}, and stands there {times} times.", from.display()));
    }
    text.replace(arm, instead)
}

fn stop(message: &str) -> ! {
    eprintln!("{message}");
    process::exit(1);
}
