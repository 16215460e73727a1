//! Writes every file of the recorded answers into `vectors`, with the copies that the programs that
//! replay them read, or into the folder that is named: `record [FOLDER]`.

use oracle::vectors;
use std::env;
use std::fs;
use std::io;
use std::path::{Path, PathBuf};

fn main() -> io::Result<()> {
    let root = Path::new(env!("CARGO_MANIFEST_DIR")).join("../..");
    let named = env::args_os().nth(1).map(PathBuf::from);
    let folder = named.clone().unwrap_or_else(|| root.join("vectors"));
    fs::create_dir_all(&folder)?;
    for (name, text) in vectors::files() {
        fs::write(folder.join(name), &text)?;
        if let (None, Some(copy)) = (&named, vectors::copy(name)) {
            fs::write(root.join(copy), &text)?;
        }
        println!("{name}: {} bytes", text.len());
    }
    Ok(())
}
