//! `README.md` of the recorded answers, with the counts as they are.

use super::SEED;
use std::collections::BTreeMap;
use std::fmt::Write;

const FORMS: &str = "\
## Form

ASCII. One record a line, each line ended by byte 10. The first byte is a
letter that says what the record is; each field has exactly one space before
it. Numbers are lower-case hex of fixed width: a byte has two digits, the mask
of a line four. A list is its bytes run together; an empty list is an empty
field. A line that starts with `#` is a comment. CELLS are 225 characters in
code order: `.` empty, `o` black, `x` white. Colours are 01 Black, 02 White;
kinds 00 to 07 in the order of `row.rs` (Two, Three, Straight, Sword, Four,
Five, Overlining, Overlined); directions 00 to 03 vertical, horizontal,
ascending, descending; verdicts 0 none, 1 DoubleThree, 2 DoubleFour,
3 Overline. A row is four bytes: key, start, stones mask, eyes mask.
No line but a text is over 4,200 bytes.

### boards.txt

- `b CELLS` opens a block; the records below are about that board. The
  comment before it names its sort, its stones and how many strict questions
  stand inside one another at the deepest point. Sorts: empty, full, the cases
  C6 to C12 and a board beside them, small boards whose verdict turns on one
  answer inside, random, clustered, dense black, dense white, nested (4 or more
  questions inside one another), games of 8, 20, 40 and 80 moves.
- `s VERDICTS` 225 digits, the strict verdict at every code.
- `p VERDICTS` 225 characters, the plain verdict at every empty code, `-` at
  an occupied one.
- `f LIST` the forbidden list, two bytes each: kind, code.
- `S VERDICTS VERDICTS`, `P VERDICTS VERDICTS`, `F LIST LIST` stand in the
  place of `s`, `p` and `f` where request 6 of document 02 answers otherwise
  than the original (the eye of a Three completes a five). The first field is
  the answer of the naive reading, `rust/oracle/src/naive.rs`, the second that of the
  original. The first is replayed.
- `k C LIST` the stones of colour C.
- `m LIST` the empty points.
- `r C K LIST` the rows of colour C and kind K on the board.
- `o CODE C K LIST` those through a point.
- `e CODE C LIST` four eyes through a point, as codes.
- `n CODE D E LIST` neighbours at distance D, as codes; E is 01 for the
  empty-only form.

### lines.txt

Every record starts with `SIZE BLACKS WHITES`, the line's size and two masks.

- `l .. STARTS EYES BOUND BOUND` 16 masks of `row_starts` (Black's eight kinds,
  White's eight), 16 of `row_eyes`, `score_bound` for Black and White.
- `c .. CELL STARTS` 16 masks of `row_starts_on` for the cell.
- `q .. COLOUR N COUNT SCORE OPEN` `count_mask`, `score_mask` and `open_starts`
  for the number N, 00 to 0f.
- `z .. STARTS CELLS EYES` `eyes_of` for a mask of starts and a byte of cells.
- `g .. J BLACKS WHITES` and then pairs for Black and White: score (ff is -1),
  count, free, alive, `stone_bits`, `eye_bits`. The window's own two masks have
  bit 0 for the cell before it, bits 1 to 5 for its cells, bit 6 for the cell
  after it.

### texts.txt

- `t TEXT 00 CELLS` a text that reads as a board, `t TEXT R` one that is
  refused with number R, 03 or 04. TEXT is the text's bytes as a list.
- `c TEXT 00 CELLS`, `c TEXT R` the same for a text with no slash and no comma,
  which the original reads as a diagram: R is 05 to 07. By request 13 of document
  02 that is the converter's reader.
- `d CELLS TEXT` the plain diagram, `D CELLS TEXT` the numbered one.
- `y CODE TEXT` the text of a point.
- `p TEXT 00 LIST` a text that reads as a list of points, `p TEXT R` one that
  is refused; `P TEXT LIST` the text of a list of points.
- `T ..` and `L ..` have the forms of `t` and `p` and stand at the end of the
  file. They are not the original's answers: request 5 of document 02 speaks of
  these texts (`rust/oracle/src/left_out.rs`: a point with a plus sign or with
  something behind two digits, a second slash), and the answers are those of
  the naive reading, `rust/oracle/src/naive_text.rs`.
- `M ..`, of the form of `t`, and `C TEXT 00 STONES`, `C TEXT R` stand there too:
  what the live entry reads a text with no slash and no comma as, one move, and
  the stones text that the converter writes of it (request 13; R is 05 to 07, or
  16, which is 22).
- `g BLACKS WHITES TEXT` a segment written as text.
- `i TEXT SIZE BLACKS WHITES` a text that reads as a line, `i TEXT ff` one that
  is too long. `I SIZE BLACKS WHITES TEXT` a line written as text. Sizes here
  are 00 to 0f.

### points.txt

- `a CODE DIR NUMBER CELL MAXJ KEY` the address of a point: line number, cell,
  last cell of that line, key of the line; KEY is ff for a diagonal that is not
  stored.
- `v KEY DIR NUMBER` the line of a key.
- `w DIR NUMBER CELL CODE` the point at a cell, short diagonals too.
";

pub fn text(files: &[(&'static str, String)]) -> String {
    let mut out = String::from("# Recorded answers\n\n");
    out.push_str(
        "Answers of the original, `src/board` of renju-note/quintet at commit\n\
         8219b71be2, to questions about boards, lines, texts and addresses. They are\n\
         replayed to see that a port answers the same. Only the records `T` and `L` of\n\
         texts.txt are not the original's, and `S`, `P` and `F` of boards.txt show two\n\
         answers.\n\n",
    );
    writeln!(
        out,
        "Made by `cargo run --release --bin record` in `rust/oracle`, from the fixed seed\n\
         {SEED}; a second run gives the same bytes, and the tests of `oracle` check\n\
         that these are still the bytes it would write.\n"
    )
    .expect("a String takes all");
    out.push_str(
        "The programs that replay the four files have copies of them, boards.txt in\n\
         `crates/replay_boards/stdin` and so on: `rt` runs a program on its crate's own\n\
         files, and takes no link. Every record of the four is replayed.\n\n",
    );
    out.push_str("## Counts\n\n| file | bytes | records |\n|---|---|---|\n");
    for (name, text) in files {
        let row = format!("| {name} | {} | {} |", text.len(), counts(text));
        writeln!(out, "{row}").expect("a String takes all");
    }
    out.push('\n');
    out.push_str(FORMS);
    out
}

/// How many records each letter has.
fn counts(text: &str) -> String {
    let mut found: BTreeMap<char, usize> = BTreeMap::new();
    let letters = text.lines().filter_map(|line| line.chars().next());
    for letter in letters.filter(|&c| c != '#') {
        *found.entry(letter).or_default() += 1;
    }
    let each: Vec<String> = found.iter().map(|(c, n)| format!("{c} {n}")).collect();
    each.join(", ")
}
