//! Games to and from SGF: written, read, refused.

use renju::raw::{renju_from_sgf, renju_to_sgf};
use renju::{CELLS, MOVES, Moves, Refusal, SGF, sgf};

/// A game of every length, as codes; every fifteenth point is met again.
fn games() -> impl Iterator<Item = Moves> {
    let code = |length: usize, number: usize| ((number * 16 + length) % CELLS) as u8;
    (0..=MOVES).map(move |length| {
        let codes: Vec<u8> = (0..length).map(|number| code(length, number)).collect();
        Moves::from_codes(&codes).expect("at most 225 codes below 225")
    })
}

fn reads(text: &str) -> Result<Vec<u8>, Refusal> {
    sgf::read(text.as_bytes()).map(|game| game.as_codes().to_vec())
}

/// The tokens of a text that was written.
fn tokens(text: &str) -> Vec<String> {
    let mut found = Vec::new();
    let mut rest = text;
    while !rest.is_empty() {
        let length = match rest.as_bytes()[0] {
            b'[' => rest.find(']').expect("its end") + 1,
            b'A'..=b'Z' => rest.find('[').expect("its value"),
            _ => 1,
        };
        found.push(rest[..length].to_owned());
        rest = &rest[length..];
    }
    found
}

fn text_of(game: &Moves) -> String {
    String::from_utf8(sgf::write(game).to_vec()).expect("bytes below 128")
}

#[test]
fn every_length_reads_back() {
    for game in games() {
        let text = sgf::write(&game);
        assert_eq!(text.len(), 14 + 6 * game.points().len());
        assert_eq!(sgf::read(&text), Ok(game));
    }
}

#[test]
fn every_point() {
    for code in 0..CELLS as u8 {
        let game = Moves::from_codes(&[code]).expect("a point");
        let (column, row) = (b'a' + code / 15, b'o' - code % 15);
        let text = format!(
            "(;GM[4]SZ[15];B[{}{}])",
            char::from(column),
            char::from(row)
        );
        assert_eq!(text_of(&game), text);
    }
    // "A1 is `ao`, O15 is `oa`"
    assert_eq!(reads("(;GM[4]SZ[15];B[ao];W[oa])"), Ok(vec![0, 224]));
}

#[test]
fn white_space_around_tokens() {
    let game = Moves::from_codes(&[112, 128, 0]).expect("points");
    let tokens = tokens(&text_of(&game));
    for space in [" ", "\n", "\t\x0b\x0c\r \n"] {
        assert_eq!(reads(&tokens.join(space)), Ok(vec![112, 128, 0]));
        assert_eq!(
            reads(&format!("{space}{}{space}", tokens.join(space))),
            Ok(vec![112, 128, 0])
        );
        // At one place, and inside a token at any: there only where the token has one byte.
        for place in 0..tokens.len() {
            let mut spaced = tokens.clone();
            spaced[place].insert_str(0, space);
            assert_eq!(reads(&spaced.concat()), Ok(vec![112, 128, 0]));
            for inside in 1..tokens[place].len() {
                let mut spaced = tokens.clone();
                spaced[place].insert_str(inside, space);
                assert_eq!(
                    reads(&spaced.concat()),
                    Err(Refusal::OutsideSubset),
                    "{spaced:?}"
                );
            }
        }
    }
    // Other bytes are no space.
    for byte in (1..128)
        .map(char::from)
        .filter(|byte| !"\t\n\x0b\x0c\r ".contains(*byte))
    {
        assert_eq!(
            reads(&format!("(;GM[4]SZ[15]){byte}")),
            Err(Refusal::OutsideSubset)
        );
    }
}

#[test]
fn outside_the_subset() {
    for text in [
        "",
        "(",
        "(;GM[4]SZ[15]",
        "(;GM[4]SZ[15]))",
        "(;GM[4]SZ[15])(;GM[4]SZ[15])",
        // Other properties, another order, another value.
        "(;FF[4]GM[4]SZ[15])",
        "(;SZ[15]GM[4])",
        "(;GM[4])",
        "(;GM[1]SZ[15])",
        "(;GM[4]SZ[19])",
        "(;GM[4]SZ[015])",
        "(;gm[4]SZ[15])",
        "(;GM[4]SZ[15]C[a comment];B[hh])",
        "(;GM[4]SZ[15];B[hh]C[a comment])",
        // Variations.
        "(;GM[4]SZ[15](;B[hh]))",
        "(;GM[4]SZ[15];B[hh](;W[ig])(;W[ii]))",
        // Not in turn, a pass, a wrong value.
        "(;GM[4]SZ[15];W[hh])",
        "(;GM[4]SZ[15];B[hh];B[ig])",
        "(;GM[4]SZ[15];B[])",
        "(;GM[4]SZ[15];B[pp])",
        "(;GM[4]SZ[15];B[HH])",
        "(;GM[4]SZ[15];B[h8])",
        "(;GM[4]SZ[15];B[h h])",
        "(;GM[4]SZ[15];B[hh][ig])",
        "(;GM[4]SZ[15];B[hh]W[ig])",
        "(;GM[4]SZ[15];;B[hh])",
    ] {
        assert_eq!(reads(text), Err(Refusal::OutsideSubset), "{text}");
    }
}

/// "Points may repeat": a text stores moves.
#[test]
fn points_may_repeat() {
    assert_eq!(reads("(;GM[4]SZ[15];B[hh];W[hh];B[hh])"), Ok(vec![112; 3]));
}

fn many(count: usize) -> String {
    let moves: String = (0..count)
        .map(|number| [";B[hh]", ";W[hh]"][number % 2])
        .collect();
    format!("(;GM[4]SZ[15]{moves})")
}

/// 1, 2, 20, 14, then 13; no lent byte is changed.
#[test]
fn first_refusal_of_several() {
    let word = |text: &[u8]| {
        let mut out = [9; 2];
        let word = renju_from_sgf(text, &mut out);
        assert_eq!(out, [9; 2]);
        word >> 16
    };
    assert_eq!(word(&[128; 4097]), 1);
    assert_eq!(word(&[128; 4096]), 2);
    assert_eq!(word(b"(;GM[4]SZ[15])\x80"), 2);
    assert_eq!(word(&[b' '; 4096]), 20);
    assert_eq!(word(many(680).as_bytes()), 14);
    assert_eq!(word(many(226).as_bytes()), 14);
    assert_eq!(word(format!("{})", many(226)).as_bytes()), 20);
    assert_eq!(word(many(225).as_bytes()), 13);
    // 4,096 bytes with the white space.
    let mut text = many(3);
    text += &" ".repeat(4096 - text.len());
    assert_eq!(word(text.as_bytes()), 13);
}

/// On writing 14, 8, then 13.
#[test]
fn first_refusal_on_writing() {
    let word = |moves: &[u8]| {
        let mut out = [9; SGF - 1];
        let word = renju_to_sgf(moves, &mut out);
        assert_eq!(out, [9; SGF - 1]);
        word >> 16
    };
    assert_eq!(word(&[225; 226]), 14);
    assert_eq!(word(&[225; 225]), 8);
    assert_eq!(word(&[224; 225]), 13);
}

/// With room for the whole answer, or more, its own bytes are written and no other.
#[test]
fn leading_bytes_alone() {
    for more in 0..3 {
        let mut out = vec![9; 20 + more];
        assert_eq!(renju_to_sgf(&[112], &mut out), 20);
        assert_eq!(out, [&b"(;GM[4]SZ[15];B[hh])"[..], &vec![9; more]].concat());
        let mut back = vec![9; 1 + more];
        assert_eq!(renju_from_sgf(b"(;GM[4]SZ[15];B[hh])", &mut back), 1);
        assert_eq!(back, [&[112][..], &vec![9; more]].concat());
    }
}
