//! The naive reading against the original: boards, lines, addresses, texts,
//! puts and removes.

use oracle::agree;
use oracle::board::grid::Grid;
use oracle::board::line::Line;
use oracle::board::point::{Direction, Index};
use oracle::boards::{self, Dice};
use oracle::naive::{self, BLACK, EMPTY, KINDS, POINTS, WHITE};
use oracle::{left_out, naive_text, original, texts};

#[test]
fn boards_agree() {
    let tally = agree::run(3_000, 7, |_| ());
    println!(
        "boards {}, comparisons {}, nesting of 4 or more {}, forbidden points {}",
        tally.boards, tally.comparisons, tally.deep, tally.forbidden
    );
    if let Some(failure) = &tally.smallest {
        let diagram = naive_text::write_diagram(&failure.cells);
        panic!(
            "{} differ, {}\n{diagram}",
            tally.differences, failure.question
        );
    }
    assert!(tally.deep >= 600 && tally.forbidden > 10_000);
    // Request 6 leaves something out, and not much.
    let left_out = &tally.left_out;
    println!(
        "left out: verdicts {} ({} otherwise), lists {} ({} otherwise)",
        left_out.verdicts, left_out.other_verdicts, left_out.lists, left_out.other_lists
    );
    assert!((1..tally.comparisons / 20).contains(&left_out.verdicts));
    assert!((1..tally.boards / 2).contains(&left_out.lists));
    assert!(left_out.other_verdicts > 0 && left_out.other_lists > 0);
}

/// The line with the given number to base three, cell 0 the lowest digit.
fn line_numbered(size: u32, number: u32) -> (Vec<u8>, Line) {
    let cells: Vec<u8> = (0..size)
        .map(|i| (number / 3u32.pow(i) % 3) as u8)
        .collect();
    let of = |colour: u8| {
        let set = (0..cells.len()).filter(|&i| cells[i] == colour);
        naive::mask(set) as u16
    };
    let line = original::to_line(size as u8, of(BLACK), of(WHITE));
    (cells, line)
}

/// Asks everything about one line; the number of answers compared.
fn line_agrees(cells: &[u8], line: &Line) -> usize {
    for colour in [BLACK, WHITE] {
        let r = original::player(colour);
        for (kind, k) in KINDS.into_iter().zip(original::KINDS) {
            let starts = naive::mask(naive::starts(cells, colour, kind));
            assert_eq!(starts, line.row_starts(r, k) as u32, "{cells:?} {kind:?}");
            let eyes = naive::mask(naive::row_eyes(cells, colour, kind));
            assert_eq!(eyes, line.row_eyes(r, k) as u32, "{cells:?} {kind:?}");
            let i = cells.len() / 2 + cells[0] as usize;
            let on = naive::mask(naive::starts_on(cells, i, colour, kind));
            assert_eq!(
                on,
                line.row_starts_on(i as u8, r, k) as u32,
                "{cells:?} {kind:?}"
            );
        }
        let bound = naive::score_bound(cells, colour);
        assert_eq!(bound, line.score_bound(r) as usize, "{cells:?}");
        windows_agree(cells, line, colour);
    }
    50 + 8 * (cells.len() - 4)
}

/// The window by itself: alive, score, count and free, for one colour.
fn windows_agree(cells: &[u8], line: &Line, colour: u8) {
    let r = original::player(colour);
    for (j, segment) in line.segments() {
        let at = j as usize;
        assert_eq!(naive::score(cells, at, colour), segment.score(r));
        assert_eq!(naive::count(cells, at, colour), segment.count(r) as usize);
        assert_eq!(naive::is_free(cells, at, colour), segment.is_free(r));
        assert_eq!(naive::is_dead(cells, at, colour), !segment.is_alive(r));
    }
}

/// All lines of size 5 to 9, and some of the sizes above.
#[test]
fn lines_agree() {
    let (mut lines, mut answers) = (0, 0);
    let mut dice = Dice::new(11);
    for size in 5..=15 {
        let all = 3u32.pow(size);
        let few = all.min(20_000);
        for i in 0..few {
            let number = if few == all {
                i
            } else {
                dice.below(all as usize) as u32
            };
            let (cells, line) = line_numbered(size, number);
            answers += line_agrees(&cells, &line);
            lines += 1;
        }
    }
    println!("lines {lines}, answers {answers}");
    assert!(lines > 120_000);
}

/// "`score_mask`, `count_mask` and `open_starts` read a number n modulo 8; 6
/// and 7 match nothing." All lines of size 8; all numbers on some of them.
#[test]
fn numbers_are_read_modulo_eight() {
    for number in 0..3u32.pow(8) {
        let (cells, line) = line_numbered(8, number);
        let last = if number % 100 == 0 { 255 } else { 16 };
        for n in 0..=last {
            number_agrees(&cells, &line, BLACK, n);
            number_agrees(&cells, &line, WHITE, n);
        }
    }
}

fn number_agrees(cells: &[u8], line: &Line, colour: u8, n: u8) {
    let r = original::player(colour);
    let low = n % 8;
    let starts = |holds: &dyn Fn(usize) -> bool| naive::mask((0..4).filter(|&j| holds(j)));
    let count = starts(&|j| naive::holds(cells, j, colour, low as usize));
    let score = starts(&|j| naive::score(cells, j, colour) == low as i8);
    let open = starts(&|j| naive::is_open(cells, j, colour, low as i8));
    assert_eq!(count, line.count_mask(r, n) as u32, "{cells:?} {n}");
    assert_eq!(score, line.score_mask(r, n) as u32, "{cells:?} {n}");
    assert_eq!(open, line.open_starts(r, n) as u32, "{cells:?} {n}");
}

/// "`eyes_of` gives the line's empty cells s + k, for s a set bit of the
/// starts and k of the cells."
#[test]
fn eyes_of_agrees() {
    let mut dice = Dice::new(12);
    for _ in 0..20_000 {
        let size = 5 + dice.below(11) as u32;
        let (cells, line) = line_numbered(size, dice.below(3usize.pow(size)) as u32);
        let (starts, steps) = (dice.roll() as u16, dice.roll() as u8);
        let set = |mask: u32, i: usize| mask / 2u32.pow(i as u32) % 2 == 1;
        let reached = |i: usize| {
            let mut from = (0..=i).map(|s| (s, i - s));
            from.any(|(s, k)| k < 8 && set(starts as u32, s) && set(steps as u32, k))
        };
        let eyes = (0..cells.len()).filter(|&i| cells[i] == EMPTY && reached(i));
        assert_eq!(naive::mask(eyes), line.eyes_of(starts, steps) as u32);
    }
}

#[test]
fn addresses_agree() {
    for p in 0..POINTS {
        for d in Direction::ALL {
            let number = original::direction_number(d) as usize;
            let index = original::point(p as u8).to_index(d);
            assert_eq!(
                naive::address(p, number),
                (index.i as usize, index.j as usize)
            );
            let key = naive::line_key(number, index.i as usize);
            assert_eq!(key, Grid::line_key(d, index.i));
            let size = naive::line_size(number, index.i as usize);
            assert_eq!(size, index.max_j() as usize + 1);
            let back = Index::new(d, index.i, index.j).to_point();
            assert_eq!(u8::from(back) as usize, p);
            if let Some(key) = key {
                assert_eq!(naive::point_at(key, index.j as usize), p);
                assert_eq!(Grid::line_from_key(key), (d, index.i));
            }
        }
    }
}

/// "Put replaces what stood there; remove of an empty point changes nothing.
/// Any sequence of both answers as a plain map from 225 points".
#[test]
fn puts_and_removes_are_a_map() {
    let mut dice = Dice::new(13);
    for _ in 0..50 {
        let mut cells = [EMPTY; POINTS];
        let mut board = original::to_board(&cells);
        for _ in 0..400 {
            let (p, colour) = (dice.below(POINTS), dice.below(3) as u8);
            cells[p] = colour;
            match colour {
                EMPTY => board.remove(original::point(p as u8)),
                _ => board.put(original::player(colour), original::point(p as u8)),
            }
        }
        assert_eq!(original::to_cells(&board), cells);
        let mut tally = agree::Tally::default();
        agree::verdicts(&cells, &board, &mut tally);
        agree::rows(&cells, &board, &mut tally);
        assert_eq!(tally.differences, 0);
    }
}

/// All texts but those that request 5 speaks of; of those with no slash and no
/// comma the converter's reader.
#[test]
fn texts_agree() {
    let mut dice = Dice::new(14);
    let mut all = texts::short_examples();
    all.push(texts::all_points());
    all.extend(texts::diagram_examples(&boards::game_of(&mut dice, 25)));
    for _ in 0..40_000 {
        let good = texts::good(&mut dice);
        all.push(texts::mutated(&mut dice, &good));
    }
    let (mut refused, mut typed, mut lone) = ([0; 8], [0, 0], [0, 0]);
    for text in &all {
        let bytes = text.as_bytes();
        let (naive, original) = (naive_text::read(bytes), original::read(text));
        let other = usize::from(naive != original);
        if left_out::typed(bytes) {
            typed = [typed[0] + 1, typed[1] + other];
            continue;
        }
        let same = if left_out::lone(bytes) {
            lone = [lone[0] + 1, lone[1] + other];
            naive_text::read_diagram(bytes)
        } else {
            naive
        };
        assert_eq!(same, original, "{text:?}");
        refused[original.err().unwrap_or(0) as usize] += 1;
    }
    println!("texts {}, by refusal {refused:?}", all.len() - typed[0]);
    println!(
        "left out by request 5 {}, of these {} answered otherwise",
        typed[0], typed[1]
    );
    println!(
        "the live entry left out by request 13 {}, of these {} answered otherwise",
        lone[0], lone[1]
    );
    assert!(refused[0] > 1_000 && refused[3..].iter().all(|&n| n > 10));
    assert!(typed[0] < all.len() / 4 && typed[1] > typed[0] / 4);
    assert!(lone[0] > 1_000 && lone[1] == lone[0], "{lone:?}");
}
