//! Texts to read, good and damaged: examples by hand and random changes.

use crate::boards::{self, Dice};
use crate::naive::{Cells, POINTS};
use crate::naive_text::write_diagram;
use crate::original;

/// What may stand behind the letter of a point.
const BEHIND: [&str; 36] = [
    "", "0", "1", "8", "9", "10", "14", "15", "16", "19", "99", "00", "01", "08", "09", "008",
    "123", "156", "+1", "+9", "+12", "+0", "+", "++", "+ 1", "-1", "1+", "8x", "15x", " 8", "1 5",
    "8 x", "1.5", "\u{1c}", "8\u{1c}", "15\u{7f}",
];

/// First bytes of points, good ones and their neighbours in the code table.
const LETTERS: [&str; 14] = [
    "A", "O", "P", "@", "a", "o", "p", "`", "Z", "1", "+", ".", "\u{1}", "\u{1c}",
];

/// The six bytes that are space.
const SPACES: [char; 6] = ['\t', '\n', '\u{b}', '\u{c}', '\r', ' '];

/// Lists as they may be typed: commas, slashes, doubled points, refusals in
/// both orders.
const LISTS: [&str; 49] = [
    "G8,I8,H7,H9/A1",
    "H8",
    "h8,I9,i9,A1,o15,O15",
    "H8,H8",
    "H8,I9,H8",
    "H8,H8,H8,H8",
    "H8/H8",
    "H8,I9/I9,H8",
    "H8,h08/H+8",
    ",",
    ",,",
    " , ",
    "H8,",
    ",H8",
    "H8,,I9",
    "H8, ,I9",
    "H8,\nI9,\r\nJ10",
    "H8 , I9 , J10 ",
    "H8;I9,J10",
    "H8 I9,J10",
    "H15 I9,J10",
    "/",
    "//",
    "///",
    " / ",
    "H8/",
    "/H8",
    "H8/I9",
    " H8 / I9 ",
    "\n\tH8,I9 / \rJ10\u{b}\u{c}",
    "H8/I9/",
    "H8/I9/J10",
    "H8/I9/not a point",
    "H8/I9/,,,",
    "H8/I99/",
    "X1/I9/",
    "H8//",
    "H8/ /",
    "H8/I123/J10",
    "H8//I9",
    "H8,/I9",
    "H8/,I9",
    ",H8/I9",
    "H0,X1",
    "X1,H0",
    "H0/X1",
    "X1/H0",
    "H8,I9,J0,",
    "H8/I9,J10/K0",
];

/// Every short text made by hand.
pub fn short_examples() -> Vec<String> {
    let mut all: Vec<String> = LISTS.map(String::from).to_vec();
    all.extend(BEHIND.map(|behind| format!("H{behind},A1")));
    all.extend(["H123", "+12", "08"].map(|behind| format!("B2/h{behind}")));
    all.extend(LETTERS.map(|letter| format!("{letter}8,A1")));
    for s in SPACES {
        all.push(format!("{s}H8{s},{s}I9{s}"));
        all.push(format!("{s}H8{s}/{s}I9{s}{s}"));
        all.push(format!("H{s}8,A1"));
        all.push(format!("{s}"));
    }
    all
}

/// All points of the board as one list of moves.
pub fn all_points() -> String {
    let name = |code: u8| original::point(code).to_string();
    let names: Vec<String> = (0..225).map(name).collect();
    names.join(",")
}

/// The diagram without its spaces.
pub fn compact(cells: &Cells) -> String {
    write_diagram(cells).replace(' ', "")
}

/// Diagrams of one board, written in many ways and damaged in many ways.
pub fn diagram_examples(cells: &Cells) -> Vec<String> {
    let small = compact(cells);
    let lines: Vec<&str> = small.split('\n').collect();
    let mut all = vec![
        write_diagram(cells),
        original::to_board(cells).to_pretty_string(),
        small.clone(),
        format!("\n\n  {small}\n \n"),
        small.replace('\n', "\r\n"),
        small.replace('\n', "\t\n\u{b}\u{c}"),
        small.replace('.', "-"),
        small.replace('.', "O"),
        small.replace('.', "\u{1}"),
        small.replace('x', "X"),
        small.replace('\n', "\r"),
        small.replace('\n', "\u{b}"),
        small.replace('\n', " "),
        small.replacen('.', ",", 1),
        small.replacen('.', "/", 1),
        small.replacen('.', "", 1),
        small.replacen('\n', "\n\n", 1),
        format!("{small}\nABCDEFGHIJKLMNO"),
        format!("{}\nABCDEFGHIJKLMNO", lines[..14].join("\n")),
        format!("{}\nabcdefghijklmno", lines[..14].join("\n")),
    ];
    all.push(every_byte());
    all.extend(line_damage(&lines));
    all
}

/// A diagram whose cells go through every byte that can be a cell: no space,
/// and neither "," nor "/".
fn every_byte() -> String {
    let is_cell = |c: &char| !SPACES.contains(c) && *c != ',' && *c != '/';
    let bytes = (1..128u8).map(char::from).filter(is_cell);
    let cells: Vec<char> = bytes.cycle().take(POINTS).collect();
    let lines: Vec<String> = cells.chunks(15).map(|line| line.iter().collect()).collect();
    lines.join("\n")
}

/// Lines too long, too short, too many and too few, alone and together.
fn line_damage(lines: &[&str]) -> Vec<String> {
    let joined = |lines: &[&str]| lines.join("\n");
    let with = |at: usize, line: &'static str| {
        let mut changed = lines.to_vec();
        changed[at] = line;
        changed
    };
    let (long, short) = ("................", "..............");
    let mut both = with(2, short);
    both[9] = long;
    vec![
        joined(&with(0, long)),
        joined(&with(14, long)),
        joined(&with(0, short)),
        joined(&with(14, short)),
        joined(&with(7, "")),
        joined(&with(3, "ooooooooooooooooooooooooooooooooo")),
        joined(&lines[1..]),
        joined(&[lines, &lines[3..4]].concat()),
        joined(&with(5, long)[1..]),
        joined(&with(5, short)[1..]),
        joined(&both),
        ["o"; 15].join("\n"),
        ["o"; 14].join("\n"),
        "o".repeat(15),
        "o".repeat(16),
        String::new(),
    ]
}

/// A good text of one of the three forms.
pub fn good(dice: &mut Dice) -> String {
    let cells = boards::clustered(dice);
    let board = original::to_board(&cells);
    let names = |codes: Vec<u8>, most: usize| {
        let some = codes.into_iter().take(most);
        let names: Vec<String> = some.map(|p| original::point(p).to_string()).collect();
        names.join(", ")
    };
    let most = 1 + dice.below(9);
    match dice.below(10) {
        0 => compact(&cells),
        1..=4 => {
            let moves = (0..most).map(|_| dice.below(POINTS) as u8).collect();
            names(moves, most)
        }
        _ => {
            let [black, white] = [1, 2].map(|c| names(original::stones(&board, c), most));
            format!("{black}/{white}")
        }
    }
}

/// The text with some bytes replaced, put in, taken out or doubled.
pub fn mutated(dice: &mut Dice, text: &str) -> String {
    const COMMON: &[u8] = b"ABHOPaho/,+- \n\t\r0123456789ox.";
    let mut bytes = text.as_bytes().to_vec();
    for _ in 0..1 + dice.below(3) {
        let at = dice.below(bytes.len() + 1);
        let any = 1 + dice.below(127) as u8;
        let new = if dice.chance(10) {
            any
        } else {
            dice.pick(COMMON)
        };
        match dice.below(4) {
            0 if at < bytes.len() => bytes[at] = new,
            1 if at < bytes.len() => drop(bytes.remove(at)),
            2 if at < bytes.len() => bytes.insert(at, bytes[at]),
            _ => bytes.insert(at, new),
        }
    }
    String::from_utf8(bytes).expect("only bytes below 128")
}
