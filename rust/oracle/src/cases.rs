//! The cases C1 to C12 of section 8 of document 01, as data, and small boards
//! whose verdict turns on one answer inside.

use crate::naive::{self, BLACK, Cells, EMPTY, POINTS, WHITE};
use crate::naive_text;

/// A line of one case: stones of one colour by cell, all else empty.
pub struct LineCase {
    pub name: &'static str,
    pub size: usize,
    pub colour: u8,
    pub stones: &'static [usize],
}

/// C1 to C5.
pub const LINE_CASES: [LineCase; 6] = [
    line_case("C1", 5, BLACK, &[0, 1, 2, 3]),
    line_case("C2", 15, BLACK, &[2, 3, 4]),
    line_case("C3", 15, WHITE, &[0, 1, 2, 3, 5]),
    line_case("C4", 15, BLACK, &[0, 1, 2, 3, 5]),
    line_case("C5", 15, BLACK, &[0, 1, 2, 3, 4, 5]),
    line_case("C5", 15, WHITE, &[0, 1, 2, 3, 4, 5]),
];

const fn line_case(
    name: &'static str,
    size: usize,
    colour: u8,
    stones: &'static [usize],
) -> LineCase {
    LineCase {
        name,
        size,
        colour,
        stones,
    }
}

impl LineCase {
    /// The line's cell values.
    pub fn cells(&self) -> Vec<u8> {
        let mut cells = vec![EMPTY; self.size];
        for &i in self.stones {
            cells[i] = self.colour;
        }
        cells
    }
}

/// A board of one case with the point asked and both verdicts.
pub struct BoardCase {
    pub name: &'static str,
    pub blacks: &'static str,
    pub whites: &'static str,
    pub at: &'static str,
    pub strict: u8,
    pub plain: u8,
}

const CROSS: &str = "G8 I8 H7 H9";

/// The plain verdict is the document's where it names one (C10), else the
/// strict one: no other case has a Four through the point.
pub const BOARD_CASES: [BoardCase; 9] = [
    board_case("C6", "D8 E8 F8 H8 I8", "", "G8", naive::OVERLINE),
    board_case("C7", CROSS, "", "H8", naive::DOUBLE_THREE),
    board_case("C8", CROSS, "E8 K8", "H8", naive::NONE),
    board_case("C8", CROSS, "E8", "H8", naive::DOUBLE_THREE),
    board_case("C9", "E8 F8 G8 H9 H10 H11", "", "H8", naive::DOUBLE_FOUR),
    BoardCase {
        name: "C10",
        blacks: "D8 E8 F8 G8 H9 H10 H11 I9 J10 K11",
        whites: "",
        at: "H8",
        strict: naive::NONE,
        plain: naive::DOUBLE_FOUR,
    },
    board_case("C11", "D8 F8 H8 J8", "", "G8", naive::DOUBLE_FOUR),
    board_case("C12", "E8 F8 G8", "", "H8", naive::NONE),
    // Not in the table: I8 is free before the stone and a double four with
    // it, which C1 to C12 do not tell apart (section 9, the fourth error).
    board_case(
        "beside C12",
        "G8 J8 H5 H7 I9 I10 I11",
        "I12",
        "H8",
        naive::NONE,
    ),
];

const fn board_case(
    name: &'static str,
    blacks: &'static str,
    whites: &'static str,
    at: &'static str,
    verdict: u8,
) -> BoardCase {
    BoardCase {
        name,
        blacks,
        whites,
        at,
        strict: verdict,
        plain: verdict,
    }
}

impl BoardCase {
    /// The board's cell bytes.
    pub fn cells(&self) -> Cells {
        let mut cells = [EMPTY; POINTS];
        for (stones, colour) in [(self.blacks, BLACK), (self.whites, WHITE)] {
            for name in stones.split_whitespace() {
                cells[code_of(name)] = colour;
            }
        }
        cells
    }

    /// The code of the point that is asked.
    pub fn point(&self) -> usize {
        code_of(self.at)
    }
}

fn code_of(name: &str) -> usize {
    naive_text::point(name.as_bytes()).expect("a point of the table")
}

/// A board of few black stones whose strict verdict turns on one answer deep
/// inside: with that answer taken the other way the verdict is another.
pub struct Turning {
    pub on: &'static str,
    pub blacks: &'static str,
    pub at: &'static str,
    pub strict: u8,
    /// The verdict by request 6: another where an eye that completes a five is met on the way.
    pub by_request_6: u8,
    /// How many strict questions stand inside one another, by request 6.
    pub depth: usize,
}

/// Found by search and with every stone taken off that was not needed. The
/// verdicts are the original's.
pub const TURNING: [Turning; 17] = [
    turning(
        naive::NONE,
        "an eye that is an overline",
        2,
        "D6",
        "B6 B8 D8 E5 E6 E9 F10 G11",
    ),
    turning(
        naive::DOUBLE_THREE,
        "an eye that is an overline",
        3,
        "L5",
        "H7 I6 J2 J5 L3 L6 M2 M4 M5 N4",
    ),
    turning(
        naive::NONE,
        "an eye that is a double four",
        2,
        "D9",
        "A8 B8 B11 D7 D10 E8",
    ),
    turning(
        naive::DOUBLE_THREE,
        "an eye that is a double four",
        3,
        "E9",
        "D8 E10 E12 F10 F11 G9 H11",
    ),
    turning(
        naive::NONE,
        "an eye that is a double three",
        3,
        "D4",
        "E2 E4 F4 F6 G7 H2",
    ),
    Turning {
        by_request_6: naive::NONE,
        ..turning(
            naive::DOUBLE_THREE,
            "an eye that completes a five",
            2,
            "D5",
            "B4 C5 D7 D8 E7 F5 F8",
        )
    },
    Turning {
        by_request_6: naive::DOUBLE_THREE,
        ..turning(
            naive::NONE,
            "an eye that completes a five",
            3,
            "K3",
            "J3 K2 K4 M2 M3 M5 M6 N5",
        )
    },
    turning(
        naive::DOUBLE_THREE,
        "the stone being on at the eye",
        2,
        "F5",
        "E6 F4 F7 H3 I4",
    ),
    turning(
        naive::NONE,
        "the stone being on at the eye",
        2,
        "G11",
        "E10 F10 F12 G12 I9 I10 I12 I13",
    ),
    turning(
        naive::DOUBLE_THREE,
        "the third question",
        3,
        "F9",
        "C10 D11 F7 F10 G8 G12 H13",
    ),
    turning(
        naive::NONE,
        "the fourth question",
        5,
        "C4",
        "B2 B3 C2 C5 D4 E3 E6 F5",
    ),
    turning(
        naive::DOUBLE_THREE,
        "the fifth question",
        5,
        "D6",
        "B3 C5 D4 D7 E3 E6 F5 F8 G7",
    ),
    turning(
        naive::NONE,
        "the sixth question",
        6,
        "H9",
        "G7 G9 G10 G11 G12 J7 J8 J9 J10 J11 J12",
    ),
    turning(
        naive::DOUBLE_THREE,
        "the seventh question",
        7,
        "E7",
        "D5 D7 D8 D9 D10 G5 G6 G7 G8 G9 G10 G11",
    ),
    Turning {
        by_request_6: naive::DOUBLE_THREE,
        ..turning(
            naive::NONE,
            "an eye that completes a five",
            7,
            "G9",
            "B12 C8 C11 D7 D10 E9 E12 F8 F11 F14 G10 H6 H9 H12 I8 I11",
        )
    },
    turning(
        naive::DOUBLE_THREE,
        "the ninth question",
        9,
        "L12",
        "D11 D14 E11 E14 F11 F14 G11 G14 H11 H14 I11 I14 J11 J14 K11 K14 L11 L14 M11",
    ),
    turning(
        naive::NONE,
        "the tenth question",
        11,
        "C3",
        "B2 C2 C5 D2 D5 E2 E5 F2 F5 G2 G5 H2 H5 I2 I5 J2 J5 K2 K5 L2 L5",
    ),
];

const fn turning(
    strict: u8,
    on: &'static str,
    depth: usize,
    at: &'static str,
    blacks: &'static str,
) -> Turning {
    Turning {
        on,
        blacks,
        at,
        strict,
        by_request_6: strict,
        depth,
    }
}

impl Turning {
    /// The board's cell bytes.
    pub fn cells(&self) -> Cells {
        let mut cells = [EMPTY; POINTS];
        for name in self.blacks.split_whitespace() {
            cells[code_of(name)] = BLACK;
        }
        cells
    }

    /// The code of the point that is asked.
    pub fn point(&self) -> usize {
        code_of(self.at)
    }
}
