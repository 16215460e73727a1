//! The help: each command's example is run, the man page and the completions are those of the help.

mod common;

use common::{commands, folder, run, shell};
use std::path::Path;
use std::process::Command;

/// The commands of an example, each with what it writes.
fn examples(help: &str) -> Vec<(String, String)> {
    let behind = help.split_once("\nexample:\n").expect("an example").1;
    let lines = behind.lines().take_while(|line| !line.is_empty());
    let mut all: Vec<(String, String)> = Vec::new();
    for line in lines {
        let line = line.strip_prefix("  ").expect("an indented line");
        match (line.strip_prefix("$ "), all.last_mut()) {
            (Some(command), _) => all.push((command.to_owned(), String::new())),
            (None, Some((_, written))) => *written += &format!("{line}\n"),
            (None, None) => panic!("{line}: before any command"),
        }
    }
    all
}

#[test]
fn each_example_writes_what_the_help_says() {
    let names = commands();
    let expected = [
        "list", "verdict", "game", "sgf", "tag", "mend", "convert", "hint", "depth", "turn", "svg",
        "check",
    ];
    assert_eq!(names, expected);
    for name in names {
        let folder = folder(&format!("example-{name}"));
        let help = run(&[&name, "--help"]);
        assert_eq!((help.status, help.err.as_str()), (0, ""));
        assert_eq!(run(&["help", &name]), help);
        let examples = examples(&help.out);
        assert!(!examples.is_empty(), "{name} has an example");
        for (command, written) in examples {
            assert!(command.contains(&format!("renju {name}")) || command.starts_with("grep"));
            let said = shell(&command, &folder);
            assert_eq!(said.out, written, "{command}\n{}", said.err);
        }
    }
}

/// The folder of this package.
fn package() -> &'static Path {
    Path::new(env!("CARGO_MANIFEST_DIR"))
}

/// A file that is written from the help, and must be as the program writes it now.
fn kept(file: &str, words: &[&str]) -> String {
    let written = run(words);
    assert_eq!(written.status, 0);
    let kept = std::fs::read_to_string(package().join(file)).unwrap_or_default();
    let again = format!("renju {} > rust/tool/{file}", words.join(" "));
    assert!(kept == written.out, "{file} is stale: {again}");
    kept
}

#[test]
fn the_man_page_is_that_of_the_help() {
    let page = kept("renju.1", &["--man"]);
    for name in commands() {
        assert!(page.contains(&format!(".SS renju {name}")), "{name}");
    }
    // Where groff is installed it finds nothing to complain of.
    let mut groff = Command::new("groff");
    groff
        .args(["-man", "-Tutf8", "-ww", "-z"])
        .arg(package().join("renju.1"));
    match groff.output() {
        Ok(said) => assert_eq!(String::from_utf8_lossy(&said.stderr), ""),
        Err(_) => println!("not run: no groff"),
    }
}

#[test]
fn the_completions_complete() {
    kept("renju.bash", &["--completions", "bash"]);
    let script = package().join("renju.bash");
    let completed = |words: &[&str]| {
        let last = words.len() - 1;
        let line = format!(
            "source '{}'; COMP_WORDS=({}); COMP_CWORD={last}; _renju; echo \"${{COMPREPLY[*]}}\"",
            script.display(),
            words
                .iter()
                .map(|word| format!("'{word}'"))
                .collect::<Vec<_>>()
                .join(" ")
        );
        let said = Command::new("bash").args(["-c", &line]).output().ok()?;
        assert_eq!(String::from_utf8_lossy(&said.stderr), "");
        Some(String::from_utf8_lossy(&said.stdout).trim_end().to_owned())
    };
    let Some(first) = completed(&["renju", "ve"]) else {
        println!("not run: no bash");
        return;
    };
    assert_eq!(first, "verdict");
    let second = |words: &[&str]| completed(words).expect("bash is there");
    assert_eq!(second(&["renju", "hint", "--l"]), "--limit");
    assert_eq!(second(&["renju", "hint", "--j"]), "--json");
    assert_eq!(second(&["renju", "help", "che"]), "check");
    assert_eq!(second(&["renju", "list", "--l"]), "");
    assert!(second(&["renju", "game", "/et"]).contains("/etc"));
}
