//! Finds the archive of the proved functions, or has it written, and links it.
//!
//! The archive is the file that `RENJU_ARCHIVE` names, else the repository's own, which must not be
//! older than the code that it was compiled from. The script `archive` of the package writes it. Where
//! there is none for the target, a warning says so, and all that needs no linking works: `cargo check`,
//! `cargo doc`, editors.
//!
//! What it writes is in cargo's `OUT_DIR`, in `target/`, and in the crates' `out/`, which `rt` owns.

#[path = "build/ar.rs"]
mod ar;

use std::env;
use std::fs::{self, File};
use std::io::{self, ErrorKind, Read};
use std::path::{Path, PathBuf};
use std::process::{self, Command, ExitStatus};
use std::thread;
use std::time::{Duration, Instant, SystemTime};

/// What the archive is called; the linker looks for it by this name.
const FILE: &str = "librenju.a";

/// The symbol that carries the version of the interface.
const INTERFACE: &str = "renju_interface_2";

fn main() {
    println!("cargo:rerun-if-env-changed=RENJU_ARCHIVE");
    match find() {
        Ok(Found::Archive(archive)) => link(&archive),
        Ok(Found::None(why)) => link_nothing(&why),
        Err(message) => {
            eprintln!("renju: {message}");
            process::exit(1);
        }
    }
}

/// The archive to link, or why there is none for the target.
enum Found {
    Archive(PathBuf),
    None(String),
}

fn find() -> Result<Found, String> {
    let target = Target {
        arch: variable("CARGO_CFG_TARGET_ARCH")?,
        os: variable("CARGO_CFG_TARGET_OS")?,
    };
    if let Some(path) = env::var_os("RENJU_ARCHIVE") {
        return named(PathBuf::from(path), &target).map(Found::Archive);
    }
    own(Path::new(&variable("CARGO_MANIFEST_DIR")?), &target)
}

fn variable(name: &str) -> Result<String, String> {
    env::var(name).map_err(|error| format!("{name}: {error}"))
}

/// What the crate is compiled for.
struct Target {
    arch: String,
    os: String,
}

impl Target {
    /// Whether the script can write for it here: it runs on x86-64 Linux, and this build has it write for
    /// that alone.
    fn is_here(&self) -> bool {
        let here = (env::consts::ARCH, env::consts::OS);
        here == (self.arch.as_str(), self.os.as_str()) && matches!(here, ("x86_64", "linux"))
    }

    /// What keeps an archive from being linked. Off Linux archives look otherwise, and the linker says it.
    fn fault(&self, archive: &Path) -> Option<String> {
        if self.os != "linux" {
            return None;
        }
        match fs::read(archive) {
            Ok(bytes) => ar::fault(&bytes, &self.arch, INTERFACE),
            Err(error) => Some(format!("can't be read: {error}")),
        }
    }
}

/// The archive that `RENJU_ARCHIVE` names: the caller answers for its age.
fn named(archive: PathBuf, target: &Target) -> Result<PathBuf, String> {
    let shown = archive.display();
    if !archive.is_file() {
        return Err(format!("RENJU_ARCHIVE names {shown}, which is no file"));
    }
    if archive.file_name().is_none_or(|name| name != FILE) {
        return Err(format!(
            "RENJU_ARCHIVE names {shown}; the file must be called {FILE}"
        ));
    }
    if let Some(fault) = target.fault(&archive) {
        return Err(format!(
            "RENJU_ARCHIVE names {shown}, which {fault}. Name one that rust/renju/archive wrote from the \
             same commit as this crate, on x86-64 Linux (--aarch64 for that); or unset RENJU_ARCHIVE"
        ));
    }
    Ok(archive)
}

/// The repository's archive, written anew where it is absent, stale or not for this crate.
fn own(package: &Path, target: &Target) -> Result<Found, String> {
    let root = package.join("../..");
    // As a path that people can read.
    let root = root.canonicalize().unwrap_or(root);
    let script = package.join("archive");
    let archive = root.join("target/staticlib").join(FILE);
    let sources = sources(&root, &script);
    // Also where it is not there: it may come.
    for path in sources.iter().chain([&archive]) {
        println!("cargo:rerun-if-changed={}", path.display());
    }
    let newest = sources.iter().filter_map(|source| newest(source)).max();
    let written = changed(&archive);
    let fault = match written {
        Some(_) => target.fault(&archive),
        None => Some("is not there".to_owned()),
    };
    if fault.is_none() && written >= newest {
        return Ok(Found::Archive(archive));
    }
    if target.is_here() && has_rt()? {
        write(&script)?;
        return match target.fault(&archive) {
            None => Ok(Found::Archive(archive)),
            Some(fault) => Err(format!("{} was written, but {fault}", archive.display())),
        };
    }
    Ok(without_rt(archive, fault, target))
}

/// What is made of an archive that can't be written anew: a stale one is linked, with a warning.
fn without_rt(archive: PathBuf, fault: Option<String>, target: &Target) -> Found {
    let shown = archive.display();
    let Some(fault) = fault else {
        warn(&format!(
            "{shown} is older than the code under crates/, and can't be written anew here; the old one \
             is linked"
        ));
        return Found::Archive(archive);
    };
    let Target { arch, os } = target;
    let way = if target.is_here() {
        "there is no `rt` on PATH to write it: install the Rattle toolchain"
    } else {
        "it is written on x86-64 Linux: run rust/renju/archive there, with --aarch64 for that processor"
    };
    Found::None(format!(
        "no {FILE} for {arch}, {os}: {shown} {fault}, and {way}, or set RENJU_ARCHIVE to a {FILE}"
    ))
}

/// What the archive is compiled from: the list of crates, and their code; and what compiles it.
fn sources(root: &Path, script: &Path) -> Vec<PathBuf> {
    let mut sources = vec![root.join("crates.txt"), script.to_owned()];
    sources.extend(entries(&root.join("crates")).map(|name| name.join("src")));
    sources.retain(|source| source.exists());
    sources
}

fn entries(folder: &Path) -> impl Iterator<Item = PathBuf> {
    let entries = fs::read_dir(folder).into_iter().flatten();
    entries.flatten().map(|entry| entry.path())
}

fn changed(path: &Path) -> Option<SystemTime> {
    fs::metadata(path).and_then(|data| data.modified()).ok()
}

/// When something at or below a path last changed. A folder counts too: its
/// own time tells of a file that was taken away.
fn newest(path: &Path) -> Option<SystemTime> {
    let below = entries(path).filter_map(|entry| newest(&entry)).max();
    changed(path).max(below)
}

/// Whether there is an `rt`, without which the script can't write the archive.
fn has_rt() -> Result<bool, String> {
    match Command::new("rt").arg("version").output() {
        Ok(_) => Ok(true),
        Err(error) if error.kind() == ErrorKind::NotFound => Ok(false),
        Err(error) => Err(format!("`rt` cannot be run: {error}")),
    }
}

/// Has the script write the archive, by `rt`, which proves and compiles it.
///
/// It takes minutes, and cargo shows nothing that a build script says before that has ended, unless it
/// is asked to (`cargo build -vv`), and has no other way to the terminal for it. So what the script says
/// goes to a file as it comes, which can be followed, and from there to standard error, which `-vv`
/// shows as it comes and cargo shows whole where this fails. At the end a warning says what was done,
/// since a proof of minutes should not go by unseen. Who wants to see it runs the script first.
fn write(script: &Path) -> Result<(), String> {
    let out = PathBuf::from(variable("OUT_DIR")?);
    let (log, shown) = (out.join("archive.log"), script.display());
    eprintln!(
        "renju: {shown} has `rt` prove and compile {FILE}: some minutes the first time; in {}",
        log.display()
    );
    let began = Instant::now();
    let status = followed(Command::new(script).env("TMPDIR", &out), &log)
        .map_err(|error| format!("{shown} cannot be run: {error}"))?;
    if !status.success() {
        return Err(format!(
            "{shown}, which has `rt` write {FILE}, failed, {status}. What it said is above, and in {}",
            log.display()
        ));
    }
    let seconds = began.elapsed().as_secs();
    warn(&format!(
        "{shown} had `rt` prove and compile {FILE}, in {seconds} s; {} has what it said",
        log.display()
    ));
    Ok(())
}

/// Runs a command, with what it says in a file, and on standard error as it comes.
fn followed(command: &mut Command, log: &Path) -> io::Result<ExitStatus> {
    let file = File::create(log)?;
    command.stdout(file.try_clone()?).stderr(file);
    let mut child = command.spawn()?;
    let mut said = File::open(log)?;
    loop {
        let ended = child.try_wait()?;
        let mut bytes = Vec::new();
        said.read_to_end(&mut bytes)?;
        eprint!("{}", String::from_utf8_lossy(&bytes));
        if let Some(status) = ended {
            return Ok(status);
        }
        thread::sleep(Duration::from_millis(200));
    }
}

fn warn(message: &str) {
    println!("cargo:warning={message}");
}

fn link(archive: &Path) {
    let whole = archive.canonicalize();
    let whole = whole.unwrap_or_else(|_| archive.to_owned());
    let folder = whole.parent().unwrap_or(Path::new("/"));
    println!("cargo:rerun-if-changed={}", whole.display());
    println!("cargo:rustc-link-search=native={}", folder.display());
    println!("cargo:rustc-link-lib=static=renju");
    // The test of the C header links the same archive.
    println!("cargo:rustc-env=RENJU_ARCHIVE_FILE={}", whole.display());
}

/// The library is named all the same: nothing that is only checked or documented looks for it, and where
/// something is to be linked, the compiler says that it could not find it, below the warning.
fn link_nothing(why: &str) {
    warn(&format!(
        "{why}. `cargo check` and `cargo doc` work without it, and nothing can be linked"
    ));
    println!("cargo:rustc-link-lib=static=renju");
    println!("cargo:rustc-env=RENJU_ARCHIVE_FILE=");
}
