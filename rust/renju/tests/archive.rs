//! A wrong archive can't pass silently: the build script says what is wrong with one, and without the
//! symbol that carries the interface's version nothing links.

#[path = "../build/ar.rs"]
mod ar;

use std::env;
use std::fs;
use std::path::{Path, PathBuf};
use std::process::{Command, Output};

const INTERFACE: &str = "renju_interface_2";

fn archive() -> Vec<u8> {
    fs::read(env!("RENJU_ARCHIVE_FILE")).expect("the archive")
}

/// The archive with every place of one name changed to another of the same length.
fn renamed(from: &str, to: &str) -> Vec<u8> {
    assert_eq!(from.len(), to.len());
    let (from, to) = (from.as_bytes(), to.as_bytes());
    let (mut bytes, mut times) = (archive(), 0);
    for at in 0..bytes.len() - from.len() {
        if bytes[at..].starts_with(from) {
            bytes[at..at + to.len()].copy_from_slice(to);
            times += 1;
        }
    }
    assert!(times >= 2, "in the index and in the object");
    bytes
}

/// The archive for another machine: the number at 18 of its objects is changed.
fn machined(number: u16) -> Vec<u8> {
    let mut bytes = archive();
    for at in 0..bytes.len() - 20 {
        if bytes[at..].starts_with(b"\x7fELF") {
            bytes[at + 18..at + 20].copy_from_slice(&number.to_le_bytes());
        }
    }
    bytes
}

fn fault(bytes: &[u8], arch: &str) -> Option<String> {
    ar::fault(bytes, arch, INTERFACE)
}

#[test]
fn this_archive_has_no_fault() {
    let bytes = archive();
    assert_eq!(fault(&bytes, env::consts::ARCH), None);
    let symbols = ar::symbols(&bytes);
    for name in ["renju_read", "renju_win_plan", INTERFACE] {
        assert!(symbols.contains(&name), "{name}");
    }
}

#[test]
fn another_machine_is_told() {
    let arm = machined(183);
    assert_eq!(ar::machine(&arm), Some(183));
    assert_eq!(fault(&arm, "aarch64"), None);
    let said = "is for aarch64, and the target is x86_64";
    assert_eq!(fault(&arm, "x86_64").as_deref(), Some(said));
    let said = "is for x86_64, and the target is riscv64";
    assert_eq!(fault(&machined(62), "riscv64").as_deref(), Some(said));
    let said = "is for machine 243 of ELF, and the target is aarch64";
    assert_eq!(fault(&machined(243), "aarch64").as_deref(), Some(said));
    // Which number a third architecture has is not known here.
    assert_eq!(fault(&machined(243), "riscv64"), None);
}

#[test]
fn the_other_order_of_bytes() {
    let mut bytes = archive();
    let object = bytes.windows(4).position(|four| four == b"\x7fELF");
    let object = object.expect("an object");
    bytes[object + 5] = 2;
    bytes[object + 18..object + 20].copy_from_slice(&[0, 22]);
    assert_eq!(ar::machine(&bytes), Some(22));
}

#[test]
fn another_version_is_told() {
    let arch = env::consts::ARCH;
    let said = "is of another version of the interface: it has renju_interface_9, and this crate needs \
                renju_interface_2";
    let other = renamed(INTERFACE, "renju_interface_9");
    assert_eq!(fault(&other, arch).as_deref(), Some(said));
    let said = "is of another version of the interface: it has none, and this crate needs renju_interface_2";
    let none = renamed(INTERFACE, "renju_i_terface_2");
    assert_eq!(fault(&none, arch).as_deref(), Some(said));
}

#[test]
fn no_archive_is_told() {
    let bytes = archive();
    let said = Some("is no archive of ELF objects".to_owned());
    for part in [
        &b""[..],
        b"!<arch>\n",
        b"no archive",
        &bytes[1..],
        &bytes[..70],
    ] {
        assert_eq!(fault(part, "x86_64"), said);
    }
    // Cut anywhere, it is read as far as it goes.
    for end in (0..bytes.len()).step_by(997) {
        assert!(ar::symbols(&bytes[..end]).len() <= ar::symbols(&bytes).len());
    }
}

fn run(command: &mut Command) -> (bool, String) {
    let Output {
        status,
        stdout,
        stderr,
    } = command.output().expect("it runs");
    let said = [stdout, stderr].concat();
    (
        status.success(),
        String::from_utf8_lossy(&said).into_owned(),
    )
}

/// Compiles the crate over an archive, past the build script, and a program that calls none of it but
/// `Cells::new`: whether the program links, and what the compiler says.
fn linked(name: &str, archive: &[u8], flags: &[&str]) -> (bool, String) {
    let room = Path::new(env!("CARGO_TARGET_TMPDIR")).join(name);
    fs::create_dir_all(&room).expect("a folder");
    fs::write(room.join("librenju.a"), archive).expect("the archive is written");
    let source = "fn main() { println!(\"{}\", renju::Cells::new() < renju::Cells::new()); }";
    fs::write(room.join("program.rs"), source).expect("the program is written");
    let rustc = || {
        let mut rustc = Command::new("rustc");
        rustc.args(["--edition", "2024"]).args(flags);
        rustc.arg("--out-dir").arg(&room).arg("-L").arg(&room);
        rustc
    };
    let package = PathBuf::from(env!("CARGO_MANIFEST_DIR"));
    let mut library = rustc();
    library.args([
        "--crate-type",
        "rlib",
        "--crate-name",
        "renju",
        "-l",
        "static=renju",
    ]);
    let (compiled, said) = run(library.arg(package.join("src/lib.rs")));
    assert!(compiled, "{said}");
    let mut program = rustc();
    program
        .arg("--extern")
        .arg(format!("renju={}", room.join("librenju.rlib").display()));
    run(program.arg(room.join("program.rs")))
}

/// Also where nothing of the archive is called, and in optimized programs, whose linker drops what is not
/// called.
#[test]
fn another_version_does_not_link() {
    let other = renamed(INTERFACE, "renju_interface_9");
    for (name, flags) in [
        ("plain", &[][..]),
        ("optimized", &["-O", "-C", "codegen-units=1"]),
    ] {
        let (links, said) = linked(&format!("linked_{name}"), &archive(), flags);
        assert!(links, "{said}");
        let (links, said) = linked(&format!("unlinked_{name}"), &other, flags);
        assert!(!links, "{name}: another version was linked");
        assert!(said.contains(INTERFACE), "{said}");
    }
}

/// In C it is every file that includes the header.
#[test]
fn another_version_does_not_link_in_c() {
    let room = PathBuf::from(env!("CARGO_TARGET_TMPDIR"));
    let source = room.join("includes.c");
    fs::write(
        &source,
        "#include \"renju.h\"\nint main(void) { return 0; }\n",
    )
    .expect("written");
    let other = room.join("other.a");
    fs::write(&other, renamed(INTERFACE, "renju_interface_9")).expect("written");
    let compiled = |archive: &Path| {
        let mut cc = Command::new("cc");
        cc.arg("-O2")
            .arg("-I")
            .arg(concat!(env!("CARGO_MANIFEST_DIR"), "/include"));
        run(cc
            .arg(&source)
            .arg(archive)
            .arg("-o")
            .arg(room.join("includes")))
    };
    let (links, said) = compiled(Path::new(env!("RENJU_ARCHIVE_FILE")));
    assert!(links, "{said}");
    let (links, said) = compiled(&other);
    assert!(!links && said.contains(INTERFACE), "{said}");
}
