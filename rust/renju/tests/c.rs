//! The header, by a C compiler: a program that calls every function, linked with the same archive,
//! and the examples of this README and of the root's.

use renju::Refusal;
use std::fs;
use std::path::{Path, PathBuf};
use std::process::{Command, Output};

const FLAGS: [&str; 4] = ["-Wall", "-Wextra", "-Wpedantic", "-Werror"];

fn package() -> &'static Path {
    Path::new(env!("CARGO_MANIFEST_DIR"))
}

fn text(path: &str) -> String {
    fs::read_to_string(package().join(path)).unwrap_or_else(|error| panic!("{path}: {error}"))
}

fn said(output: &Output) -> String {
    let (out, err) = (&output.stdout, &output.stderr);
    String::from_utf8_lossy(out).into_owned() + &String::from_utf8_lossy(err)
}

/// Compiles and links a source, and gives the program's path.
fn compile(compiler: &str, language: [&str; 2], source: &Path, name: &str) -> PathBuf {
    let program = Path::new(env!("CARGO_TARGET_TMPDIR")).join(name);
    let mut command = Command::new(compiler);
    command.arg(language[0]).args(FLAGS);
    command.arg("-I").arg(package().join("include"));
    command.args(["-x", language[1]]).arg(source);
    command.args(["-x", "none", env!("RENJU_ARCHIVE_FILE"), "-pthread"]);
    command.arg("-o").arg(&program);
    let output = command.output().unwrap_or_else(|error| {
        panic!("the C header is tested with `{compiler}`, which cannot be run: {error}")
    });
    assert!(output.status.success(), "{compiler}: {}", said(&output));
    program
}

/// What a program writes.
fn run(program: &Path) -> String {
    let output = Command::new(program).output().expect("a program to run");
    assert!(output.status.success(), "{}", said(&output));
    String::from_utf8(output.stdout).expect("text")
}

#[test]
fn every_function_from_c() {
    let source = package().join("tests/c/calls.c");
    let program = compile("cc", ["-std=c99", "c"], &source, "calls");
    assert_eq!(run(&program), text("tests/c/calls.txt"));
}

/// Whether a tool can be run that the crate itself does not need; says so where it can't.
fn has(tool: &str) -> bool {
    let there = Command::new(tool).arg("--version").output().is_ok();
    if !there {
        println!("not run: no {tool}");
    }
    there
}

#[test]
fn every_function_from_cpp() {
    if has("c++") {
        let source = package().join("tests/c/calls.c");
        let program = compile("c++", ["-std=c++11", "c++"], &source, "calls_cpp");
        assert_eq!(run(&program), text("tests/c/calls.txt"));
    }
}

/// NULL with length 0 is an empty slice.
#[test]
fn no_slice_from_c() {
    let source = package().join("tests/c/empty.c");
    let program = compile("cc", ["-std=c99", "c"], &source, "empty");
    assert_eq!(run(&program), text("tests/c/empty.txt"));
}

/// The words of each refusal are those of the crate, and the versions are its own.
#[test]
fn refusals_and_versions_in_words() {
    let (version, interface) = (env!("CARGO_PKG_VERSION"), renju::raw::INTERFACE);
    let mut lines = vec![version.to_owned(), version.to_owned()];
    lines.push(format!("{interface} {interface}"));
    lines.push("not refused".to_owned());
    let last = Refusal::ALL.len() as u16 + 1;
    let refusals = (1..=last).filter_map(Refusal::from_number);
    lines.extend(refusals.map(|refusal| refusal.meaning().to_owned()));
    let source = package().join("tests/c/texts.c");
    let program = compile("cc", ["-std=c99", "c"], &source, "texts");
    assert_eq!(run(&program).lines().collect::<Vec<_>>(), lines);
}

/// The example, compiled by what pkg-config says of a prefix that `install` has filled.
#[test]
fn example_by_pkg_config() {
    if !has("pkg-config") {
        return;
    }
    let room = Path::new(env!("CARGO_TARGET_TMPDIR")).join("prefix");
    let installed = Command::new(package().join("install"))
        .env("RENJU_ARCHIVE", env!("RENJU_ARCHIVE_FILE"))
        .arg(&room)
        .output()
        .expect("install runs");
    assert!(installed.status.success(), "{}", said(&installed));
    let readme = text("README.md");
    fs::write(room.join("crosses.c"), fenced(&readme, "c")).expect("the source is written");
    let line = "cc -std=c99 crosses.c $(pkg-config --cflags --libs renju) -o crosses";
    let compiled = Command::new("sh")
        .args(["-ec", line])
        .env("PKG_CONFIG_PATH", room.join("lib/pkgconfig"))
        .current_dir(&room)
        .output()
        .expect("sh runs");
    assert!(compiled.status.success(), "{}", said(&compiled));
    assert_eq!(run(&room.join("crosses")), fenced(&readme, "text"));
    let version = Command::new("pkg-config")
        .args(["--modversion", "renju"])
        .env("PKG_CONFIG_PATH", room.join("lib/pkgconfig"))
        .output()
        .expect("pkg-config runs");
    assert_eq!(said(&version).trim(), env!("CARGO_PKG_VERSION"));
}

/// The part of the README between the first fence of a language and the next.
fn fenced<'a>(readme: &'a str, language: &str) -> &'a str {
    let after = readme.split_once(&format!("```{language}\n"));
    let after = after.expect("an example in the README").1;
    after.split_once("```").expect("its end").0
}

/// What a program in C writes.
fn run_c(code: &str, name: &str) -> String {
    let source = Path::new(env!("CARGO_TARGET_TMPDIR")).join(format!("{name}.c"));
    fs::write(&source, code).expect("the source is written");
    run(&compile("cc", ["-std=c99", "c"], &source, name))
}

#[test]
fn example_of_the_readme() {
    let readme = text("README.md");
    let written = run_c(fenced(&readme, "c"), "crosses");
    assert_eq!(written, fenced(&readme, "text"));
}

/// The part of the root's README below a heading.
fn below(heading: &str) -> String {
    let readme = text("../../README.md");
    let (_, part) = readme.split_once(heading).expect("the heading");
    part.to_owned()
}

/// That of this README runs among the documentation's.
#[test]
fn rust_example_of_the_root() {
    let (ours, root) = (text("README.md"), below("\n## Calling it from Rust\n"));
    for language in ["toml", "rust"] {
        assert_eq!(fenced(&root, language), fenced(&ours, language));
    }
}

#[test]
fn c_example_of_the_root() {
    let root = below("\n## Calling it from C\n");
    let example = fenced(&root, "c");
    let said = "renju_answer(word) is 1; out[0] is RENJU_DOUBLE_THREE, out[1] is 112,";
    assert!(example.contains(said), "{example}");
    let code = format!(
        "#include \"renju.h\"\n#include <stdio.h>\nint main(void) {{\n{example}\
         printf(\"%u %u: %d %d\\n\", renju_refusal(word), renju_answer(word),\n\
         out[0] == RENJU_DOUBLE_THREE, out[1]);\nreturn 0;\n}}\n"
    );
    assert_eq!(run_c(&code, "root"), "0 1: 1 112\n");
}

/// The stack that a strict question takes on x86-64, by its depth, as docs/PERFORMANCE.md has it: what
/// comes before the first trial stone, each question inside another, and the last look at a point.
#[cfg(target_arch = "x86_64")]
fn stack_of(depth: usize) -> usize {
    BEFORE_TRIALS + 144 * (depth - 1) + 64
}

/// What the host function takes before the first trial stone.
#[cfg(target_arch = "x86_64")]
const BEFORE_TRIALS: usize = 2272;

/// The deepest question that was found, on a thread that has so many bytes for it and no more; with the
/// bytes that come before any look it dies. (The referee looks at every eye before it asks, so it goes
/// less deep than the figure says.)
#[cfg(target_arch = "x86_64")]
#[test]
fn the_deepest_question_has_stack_enough() {
    use renju::{Cells, Point};
    let known = text("tests/deepest.txt");
    let mut lines = known.lines();
    let (board, point) = (
        lines.next().expect("a board"),
        lines.next().expect("a point"),
    );
    let cells: Cells = board.parse().expect("a board");
    let point: Point = point.parse().expect("a point");
    let depth = usize::from(cells.depth(point));
    assert_eq!(lines.next(), Some(format!("{depth}").as_str()));
    let source = package().join("tests/c/stack.c");
    let program = compile("cc", ["-std=c99", "c"], &source, "stack");
    let asked = |bytes: usize| {
        let words = [board, &point.code().to_string(), &bytes.to_string()];
        Command::new(&program)
            .args(words)
            .output()
            .expect("it runs")
    };
    let enough = asked(stack_of(depth).next_multiple_of(16));
    assert!(enough.status.success(), "{}", said(&enough));
    let verdict = cells.verdict(point).number();
    assert_eq!(
        String::from_utf8_lossy(&enough.stdout),
        format!("{verdict}\n")
    );
    // Killed, by what lies below the stack.
    assert_eq!(asked(BEFORE_TRIALS).status.code(), None);
}
