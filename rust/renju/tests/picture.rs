//! Pictures of boards: that they show what stands on the board and what is forbidden, are well
//! formed, and change nothing of another picture in the same page.

use renju::{Cells, Moves, Picture, Point, Refusal, View};

/// Boards with no, one and several crosses of each kind.
fn boards() -> Vec<Cells> {
    let texts = [
        "H8",
        "H8,I9,J10,H9",
        "G8,I8,H7,H9/A1",
        "E8,F8,G8,H9,H10,H11/A1,C3,D4,E5",
        "C8,D8,E8,G8,H8,H3,H4,H5,H6/O1,O3",
        "G8,I8,H7,H9,C3,D3,E4,E5,L11,L12,L13,M14,N14/A1,B2,O15",
    ];
    let read = |text: &&str| text.parse().expect("a board");
    let mut made: Vec<Cells> = texts.iter().map(read).collect();
    made.push(Cells::new());
    made.push(Cells::from_bytes(&[2; 225]).expect("cells"));
    made
}

/// The elements of an XML text in order, each with its attributes; panics where it is not well
/// formed.
fn elements(text: &str) -> Vec<(String, Vec<(String, String)>)> {
    let (mut open, mut found) = (Vec::new(), Vec::new());
    for part in text.split('<').skip(1) {
        let (tag, after) = part.split_once('>').expect("a tag ends");
        assert!(!after.contains('>'), "{after}");
        entities(after);
        if let Some(closed) = tag.strip_prefix('/') {
            assert_eq!(open.pop().as_deref(), Some(closed));
            continue;
        }
        let (tag, alone) = match tag.strip_suffix('/') {
            Some(tag) => (tag, true),
            None => (tag, false),
        };
        let (name, rest) = tag.split_once(' ').unwrap_or((tag, ""));
        if !alone {
            open.push(name.to_string());
        }
        found.push((name.to_string(), attributes(rest)));
    }
    assert_eq!(open, [""; 0]);
    found
}

/// `name="value"` and again, each name once.
fn attributes(mut rest: &str) -> Vec<(String, String)> {
    let mut found: Vec<(String, String)> = Vec::new();
    while !rest.is_empty() {
        let (name, after) = rest.split_once("=\"").expect("a name and a quote");
        let (value, after) = after.split_once('"').expect("the quote's end");
        assert!(
            name.bytes().all(|b| b.is_ascii_alphabetic() || b == b'-'),
            "{name}"
        );
        assert!(found.iter().all(|(known, _)| known != name), "{name} twice");
        entities(value);
        found.push((name.to_string(), value.to_string()));
        rest = after.trim_start();
    }
    found
}

/// An ampersand begins one of the three names that are written.
fn entities(text: &str) {
    for part in text.split('&').skip(1) {
        assert!(
            ["amp;", "lt;", "gt;"]
                .iter()
                .any(|name| part.starts_with(name)),
            "{part}"
        );
    }
}

fn count(text: &str, name: &str) -> usize {
    elements(text)
        .iter()
        .filter(|(found, _)| found == name)
        .count()
}

/// What the titles say.
fn titles(text: &str) -> Vec<&str> {
    let parts = text.split("<title>").skip(1);
    let words = parts.filter_map(|part| part.split_once("</title>"));
    words.map(|(words, _)| words).collect()
}

#[test]
fn a_circle_for_each_stone_and_a_title_for_each_cross() {
    let mut crosses_seen = 0;
    for cells in boards() {
        let (text, crosses) = (cells.to_svg(), cells.forbidden_points());
        let counts = cells.counts();
        let stones = usize::from(counts.black) + usize::from(counts.white);
        assert_eq!(count(&text, "circle"), stones);
        // Two paths are the lines and the marked points.
        assert_eq!(count(&text, "path"), 2 + crosses.len());
        for cross in &crosses {
            let title = format!("<title>{cross}</title></path>");
            assert_eq!(text.matches(&title).count(), 1, "{cross}");
        }
        crosses_seen += crosses.len();
    }
    assert!(crosses_seen >= 5, "{crosses_seen}");
}

/// The stones by their places, which are those of the diagram's letters: the first line is the
/// uppermost row.
#[test]
fn a_picture_lies_as_the_diagram_does() {
    for cells in boards() {
        let mut expected = Vec::new();
        for (row, line) in cells.to_string().lines().enumerate() {
            for (column, letter) in line.split_whitespace().enumerate() {
                let fill = match letter {
                    "o" => "#1c1c1c",
                    "x" => "#f4f1ea",
                    _ => continue,
                };
                expected.push((56 + 40 * column, 56 + 40 * row, fill.to_string()));
            }
        }
        let mut stones: Vec<(usize, usize, String)> = elements(&cells.to_svg())
            .iter()
            .filter(|(name, _)| name == "circle")
            .map(|(_, attributes)| {
                let of = |name: &str| {
                    let (_, value) = attributes.iter().find(|(n, _)| n == name).expect("it");
                    value.clone()
                };
                let number = |name: &str| of(name).parse().expect("a number");
                (number("cx"), number("cy"), of("fill"))
            })
            .collect();
        expected.sort();
        stones.sort();
        assert_eq!(stones, expected);
    }
}

#[test]
fn words_are_escaped_and_controls_are_not_kept() {
    let words = "a < b && \"c\" > 'd'\u{1b}[1m\u{ffff}é";
    let text = Picture::of(&Cells::new()).words(words).to_string();
    assert!(
        text.contains(">a &lt; b &amp;&amp; \"c\" &gt; 'd' [1m é</text>"),
        "{text}"
    );
    elements(&text);
    // Words need room below the board, and only they do.
    let height = |text: &str| {
        elements(text)[0]
            .1
            .iter()
            .find(|(n, _)| n == "height")
            .cloned()
    };
    assert_ne!(height(&text), height(&Cells::new().to_svg()));
}

/// Nothing that a page shares: no id, no class, no reference, no style sheet.
#[test]
fn two_pictures_in_a_page_share_nothing() {
    for cells in boards() {
        for (name, attributes) in elements(&cells.to_svg()) {
            assert!(
                !["style", "defs", "script", "use"].contains(&name.as_str()),
                "{name}"
            );
            for (attribute, value) in attributes {
                assert!(!["id", "class", "href", "style"].contains(&attribute.as_str()));
                assert!(!value.contains("url("), "{value}");
            }
        }
    }
}

#[test]
fn moves_are_numbered_and_the_last_is_marked() -> Result<(), Refusal> {
    let game = Moves::from_codes(&[112, 128, 113, 112])?;
    let points: Vec<Point> = game.points().collect();
    let cells: Cells = "H8,I9,H9".parse()?;
    let text = Picture::of(&cells)
        .moves(points[..3].iter().copied())
        .to_string();
    elements(&text);
    let titles = titles(&text);
    for (n, point) in points[..3].iter().enumerate() {
        let title = format!("{point}, move {}", n + 1);
        assert!(titles.contains(&title.as_str()), "{titles:?}");
        assert!(text.contains(&format!(">{}</text></g>", n + 1)));
    }
    // One ring, at H9.
    let ring = "stroke=\"#1257c8\"";
    assert_eq!(text.matches(ring).count(), 1);
    let marked = text
        .lines()
        .find(|line| line.contains(ring))
        .expect("a ring");
    assert!(marked.contains("<title>H9, move 3</title>"), "{marked}");
    // The fourth move is faulty: the game's own picture shows the three before it.
    assert_eq!(game.to_svg(), text);
    // A second move at a point gives it its number; one without a stone is not shown.
    let again = Picture::of(&cells)
        .moves(points.iter().copied())
        .to_string();
    assert!(again.contains("<title>H8, move 4</title>"));
    let mut taken = cells;
    taken.remove(points[2]);
    let text = Picture::of(&taken)
        .moves(points[..3].iter().copied())
        .to_string();
    assert!(!text.contains("move 3") && !text.contains(ring));
    // A ring alone, without numbers.
    let text = Picture::of(&cells).last(points[0]).to_string();
    assert!(text.contains(ring) && !text.contains("move "));
    Ok(())
}

#[test]
fn three_digits_are_smaller() -> Result<(), Refusal> {
    let cells = Cells::from_bytes(&[2; 225])?;
    let text = Picture::of(&cells).moves(Point::all()).to_string();
    for (number, size) in [(1, 17), (99, 17), (100, 14), (225, 14)] {
        let end = format!(">{number}</text></g>");
        let line = text.lines().find(|line| line.ends_with(&end)).expect("it");
        assert!(line.contains(&format!("font-size=\"{size}\"")), "{line}");
    }
    Ok(())
}

/// In each view the stones lie as on the turned board, and each still has its own name; the
/// coordinates go with them.
#[test]
fn a_view_turns_stones_and_coordinates() -> Result<(), Refusal> {
    let cells: Cells = "G8,I8,H7,H9,C15/A1,B3".parse()?;
    let circles = |text: &str| {
        let mut found: Vec<String> = text
            .split("<circle ")
            .skip(1)
            .map(|part| part.split("/>").next().unwrap_or_default().to_string())
            .collect();
        found.sort();
        found
    };
    for view in View::ALL {
        let text = Picture::of(&cells).view(view).to_string();
        elements(&text);
        assert_eq!(
            circles(&text),
            circles(&cells.turned(view).to_svg()),
            "{view:?}"
        );
        assert!(titles(&text).contains(&"C15") && text.contains("<title>H8 DoubleThree"));
        // A and 1 stand beyond both ends of the lines through A1.
        let a1 = "A1".parse::<Point>()?.turned(view);
        let place = |p: Point| (56 + 40 * i32::from(p.x()), 616 - 40 * i32::from(p.y()));
        for (name, (far_x, far_y)) in [("A", (0, 14)), ("1", (14, 0))] {
            let (x, y) = place(a1);
            let (to_x, to_y) = place(Point::new(far_x, far_y)?.turned(view));
            let at = (x - 30 * (to_x - x).signum(), y - 30 * (to_y - y).signum());
            let label = format!("<text x=\"{}\" y=\"{}\" dy=\"0.35em\">{name}<", at.0, at.1);
            assert!(text.contains(&label), "{view:?} {label}");
        }
    }
    Ok(())
}

#[test]
fn given_crosses_are_drawn_in_place_of_the_boards() -> Result<(), Refusal> {
    let cells: Cells = "G8,I8,H7,H9/A1".parse()?;
    let crosses = cells.forbidden_points();
    let with = Picture::of(&cells).crosses(&crosses).to_string();
    assert_eq!(with, cells.to_svg());
    let title = "<title>4 black, 1 white; 1 point forbidden to Black</title>";
    assert!(with.contains(title));
    let without = Picture::of(&cells).crosses(&[]).to_string();
    assert_eq!(count(&without, "path"), 2);
    assert!(without.contains("; 0 points forbidden"));
    let elsewhere = Picture::of(&Cells::new()).crosses(&crosses).to_string();
    assert!(elsewhere.contains("<title>H8 DoubleThree</title>"));
    Ok(())
}

/// The picture of the root's README is what is drawn of these moves; it was written by `cargo run
/// --example picture -- --svg ../docs/board.svg --words WORDS MOVES`, in `rust/`.
#[test]
fn the_readmes_picture_is_drawn() -> Result<(), Refusal> {
    let moves = "H8,I8,H7,J6,H9,H4,I5,I6,H6,G4,J7,G7,G6,H5,F4,E8,J4,H3,F5,K7,F3,H1,H2,H10,J9,D7,I9,\
        G9,D6,E10,D2,J5,E5,E6,L8,F10,F7,I3,J10,G10,F8,G3,K10,K11,L9,D12,E4,D11,D1,F11";
    let cells: Cells = moves.parse()?;
    let points: Result<Vec<Point>, Refusal> = moves.split(',').map(str::parse).collect();
    let words = "After move 50: three points are forbidden to Black";
    let drawn = Picture::of(&cells).moves(points?).words(words).to_string();
    assert_eq!(cells.forbidden_points().len(), 3);
    assert!(
        drawn == include_str!("../../../docs/board.svg"),
        "docs/board.svg is another picture"
    );
    Ok(())
}
