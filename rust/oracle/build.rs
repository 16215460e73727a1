//! Finds the original's source and writes the list of its modules.
//!
//! The original is compiled where it stands, unchanged: only this list of
//! modules is ours, and no line of it is copied into the repository.

use std::env;
use std::fs;
use std::path::{Path, PathBuf};
use std::process;

/// The files of the original's `src/board`. `zobrist` is only there because
/// `board` needs it; it is never asked.
const MODULES: [&str; 10] = [
    "bits",
    "player",
    "segment",
    "point",
    "row",
    "line",
    "grid",
    "forbidden",
    "board",
    "zobrist",
];

/// Where the original is to be had, and what to do with it.
const HOW: &str = "It is renju-note/quintet at commit 8219b71be2 (Rust, MIT; see NOTICE), and not part of \
this repository. Get that commit, then set QUINTET_SRC to the folder that has its `src/board`:

    QUINTET_SRC=/path/to/quintet cargo test -p oracle

The package `renju`, which programs link, needs no original: `cargo build`, `cargo test` and `cargo doc` \
without `-p` and without `--workspace` leave out what does.";

fn main() {
    println!("cargo:rerun-if-env-changed=QUINTET_SRC");
    let root = source_root();
    let folder = root.join("src").join("board");
    let files = module_files(&folder).unwrap_or_else(|missing| {
        let shown = missing.display();
        eprintln!("oracle: the original's source is not there: no {shown}.\n{HOW}");
        process::exit(1)
    });
    for file in &files {
        println!("cargo:rerun-if-changed={}", file.display());
    }
    let out = PathBuf::from(env::var_os("OUT_DIR").expect("cargo sets OUT_DIR"));
    fs::write(out.join("board.rs"), module_list(&files)).expect("OUT_DIR can be written");
}

/// `QUINTET_SRC` if it is set, else the folder beside the repository.
fn source_root() -> PathBuf {
    match env::var_os("QUINTET_SRC") {
        Some(root) => PathBuf::from(root),
        None => {
            let manifest = env::var_os("CARGO_MANIFEST_DIR").expect("cargo sets the folder");
            PathBuf::from(manifest).join("../../../shared/docs/src")
        }
    }
}

/// The full path of every module's file, or the first that is missing.
fn module_files(folder: &Path) -> Result<Vec<PathBuf>, PathBuf> {
    let paths = MODULES.iter().map(|name| folder.join(format!("{name}.rs")));
    let whole = paths.map(|path| path.canonicalize().map_err(|_| path));
    whole.collect()
}

/// One `pub mod` for each file, each with the path of the file.
fn module_list(files: &[PathBuf]) -> String {
    MODULES
        .iter()
        .zip(files)
        .map(|(name, file)| format!("#[path = {file:?}]\npub mod {name};\n"))
        .collect()
}
