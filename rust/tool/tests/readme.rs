//! The README's transcripts: each command writes what stands behind it.

mod common;

use common::{folder, shell};

const README: &str = include_str!("../README.md");

/// The commands of all `console` blocks, each with what it writes.
fn transcripts() -> Vec<(String, String)> {
    let mut all: Vec<(String, String)> = Vec::new();
    let blocks = README.split("```console\n").skip(1);
    for line in blocks.flat_map(|block| block.lines().take_while(|line| *line != "```")) {
        match (line.strip_prefix("$ "), all.last_mut()) {
            (Some(command), _) => all.push((command.to_owned(), String::new())),
            (None, Some((_, written))) => *written += &format!("{line}\n"),
            (None, None) => panic!("{line}: before any command"),
        }
    }
    all
}

#[test]
fn each_command_writes_what_the_readme_says() {
    let folder = folder("readme");
    let transcripts = transcripts();
    assert!(transcripts.len() >= 8, "{transcripts:?}");
    for (command, written) in transcripts {
        if command.starts_with("parallel") && shell("command -v parallel", &folder).status != 0 {
            println!("not run: no parallel");
            continue;
        }
        let said = shell(&command, &folder);
        assert_eq!(said.out, written, "{command}\n{}", said.err);
    }
}
