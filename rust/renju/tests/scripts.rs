//! That the scripts of the repository's root say of a refusal what this crate says.

use std::path::Path;
use std::process::Command;

use renju::Refusal;

/// The numbers that some program can give; the scripts have words for no other.
const TOLD: [u16; 14] = [1, 2, 3, 4, 5, 6, 7, 8, 14, 15, 16, 20, 21, 22];

/// What `meaning` of `scripts/program.sh` says of each number.
fn said(numbers: &[u16]) -> Vec<String> {
    let root = Path::new(env!("CARGO_MANIFEST_DIR")).join("../..");
    let code = ". \"$here/scripts/program.sh\"; for number; do meaning \"$number\"; done";
    let words = numbers.iter().map(|number| number.to_string());
    let output = Command::new("sh")
        .args(["-euc", code, "sh"])
        .args(words)
        .env("here", root)
        .env("name", "none")
        .output()
        .expect("a shell");
    assert!(output.status.success(), "{output:?}");
    let text = String::from_utf8(output.stdout).expect("text");
    text.lines().map(String::from).collect()
}

#[test]
fn the_scripts_have_the_words_of_the_crate() {
    let meanings = TOLD.map(|number| {
        let refusal = Refusal::from_number(number);
        refusal.expect("a refusal").meaning().to_string()
    });
    assert_eq!(said(&TOLD), meanings);
}

#[test]
fn another_number_has_no_words() {
    assert_eq!(said(&[0, 99]), ["this script knows no words for it"; 2]);
}
