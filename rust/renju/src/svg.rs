//! A board as an SVG picture: stones with their numbers, and a red cross at each point that is
//! forbidden to Black.

use alloc::string::{String, ToString};
use core::fmt::{self, Display, Formatter, Write};

use crate::{CELLS, Cells, Colour, Cross, Moves, Point, SIDE, View};

/// From line to line.
const STEP: i32 = 40;
/// From the edge of the picture to the first line: room for the coordinates.
const MARGIN: i32 = 56;
/// Where the last line is.
const END: i32 = MARGIN + (SIDE as i32 - 1) * STEP;
/// The side of the board with its margins.
const WIDTH: i32 = END + MARGIN;
/// From the first or the last line to a coordinate.
const AWAY: i32 = MARGIN / 2 + 2;
/// Room for the words under the board.
const FOOT: i32 = 32;

/// The five marked points: H8, D4, D12, L4 and L12.
const STARS: [(u8, u8); 5] = [(7, 7), (3, 3), (3, 11), (11, 3), (11, 11)];

/// Lines, coordinates and words.
const INK: &str = "#4a3417";
/// The crosses, and nothing else.
const RED: &str = "#d0021b";
/// The ring around the last move's stone.
const BLUE: &str = "#1257c8";

impl Cells {
    /// The board as an SVG picture, with a red cross at each point that is forbidden to Black.
    /// [`Picture`] can say more: moves, words and a view.
    ///
    /// ```
    /// let cells: renju::Cells = "G8,I8,H7,H9/A1".parse()?;
    /// let svg = cells.to_svg();
    /// assert!(svg.starts_with("<svg "));
    /// assert!(svg.contains("<title>H8 DoubleThree</title>"));
    /// # Ok::<(), renju::Refusal>(())
    /// ```
    #[must_use]
    pub fn to_svg(&self) -> String {
        Picture::of(self).to_string()
    }
}

impl Moves {
    /// The board of the moves up to the first faulty one, as an SVG picture: each stone with the
    /// number of its move, the last of them marked, and a red cross at each point that is
    /// forbidden to Black.
    ///
    /// ```
    /// let game = renju::Moves::from_codes(&[112, 128])?;
    /// assert!(game.to_svg().contains("<title>I9, move 2</title>"));
    /// # Ok::<(), renju::Refusal>(())
    /// ```
    #[must_use]
    pub fn to_svg(&self) -> String {
        let report = self.report();
        // A faulty move is not on the board, and no stone bears its number.
        let good = report.fault.map_or(usize::MAX, |fault| {
            usize::from(fault.number).saturating_sub(1)
        });
        let picture = Picture::of(&report.cells).moves(self.points().take(good));
        picture.to_string()
    }
}

/// A board to be drawn as SVG: `to_string()` is the picture.
///
/// It is one `<svg>` element that stands alone, as a file or in a page. It has no `id`, no class
/// and no style sheet, so several pictures in one page do not change one another.
///
/// # Examples
///
/// ```
/// use renju::{Moves, Picture};
///
/// let game = Moves::from_codes(&[112, 128, 113])?;
/// let cells = game.report().cells;
/// let svg = Picture::of(&cells).moves(game.points()).words("Club final").to_string();
/// assert_eq!(svg.matches("<circle ").count(), 3);
/// assert!(svg.contains("Club final"));
/// # Ok::<(), renju::Refusal>(())
/// ```
#[derive(Clone, Copy, Debug)]
#[must_use]
pub struct Picture<'a> {
    cells: &'a Cells,
    /// Those of the board where none were given.
    crosses: Option<&'a [Cross]>,
    words: &'a str,
    view: View,
    /// By code, the number of the last move there; 0 for none.
    numbers: [u16; CELLS],
    last: Option<Point>,
}

impl<'a> Picture<'a> {
    /// The picture of a board with its crosses.
    ///
    /// ```
    /// let cells: renju::Cells = "H8,I9".parse()?;
    /// assert_eq!(renju::Picture::of(&cells).to_string(), cells.to_svg());
    /// # Ok::<(), renju::Refusal>(())
    /// ```
    pub const fn of(cells: &'a Cells) -> Self {
        Self {
            cells,
            crosses: None,
            words: "",
            view: View::Same,
            numbers: [0; CELLS],
            last: None,
        }
    }

    /// With the numbers of these moves, from 1, on their stones, and a ring around the last one's.
    /// A move at whose point no stone stands is not shown.
    ///
    /// ```
    /// use renju::{Cells, Picture};
    ///
    /// let cells: Cells = "H8,I9".parse()?;
    /// let svg = Picture::of(&cells).moves(["H8".parse()?, "I9".parse()?]).to_string();
    /// assert!(svg.contains(">1</text>") && svg.contains(">2</text>"));
    /// # Ok::<(), renju::Refusal>(())
    /// ```
    pub fn moves(mut self, points: impl IntoIterator<Item = Point>) -> Self {
        let mut number: u16 = 0;
        self.numbers = [0; CELLS];
        self.last = None;
        for point in points {
            number = number.saturating_add(1);
            if let Some(place) = self.numbers.get_mut(usize::from(point.code())) {
                *place = number;
            }
            self.last = Some(point);
        }
        self
    }

    /// With a ring around the stone of the last move, where its number is not known or not wanted.
    ///
    /// ```
    /// use renju::{Cells, Picture};
    ///
    /// let cells: Cells = "H8,I9".parse()?;
    /// let plain = Picture::of(&cells).to_string();
    /// assert_ne!(Picture::of(&cells).last("I9".parse()?).to_string(), plain);
    /// # Ok::<(), renju::Refusal>(())
    /// ```
    pub const fn last(mut self, point: Point) -> Self {
        self.last = Some(point);
        self
    }

    /// With these crosses in place of the board's own: those of a frame before, or none.
    ///
    /// ```
    /// use renju::{Cells, Picture};
    ///
    /// let cells: Cells = "G8,I8,H7,H9/A1".parse()?;
    /// let svg = Picture::of(&cells).crosses(&[]).to_string();
    /// assert!(!svg.contains("DoubleThree"));
    /// # Ok::<(), renju::Refusal>(())
    /// ```
    pub const fn crosses(mut self, crosses: &'a [Cross]) -> Self {
        self.crosses = Some(crosses);
        self
    }

    /// With a line of words under the board.
    ///
    /// ```
    /// use renju::{Cells, Picture};
    ///
    /// let svg = Picture::of(&Cells::new()).words("Black < White").to_string();
    /// assert!(svg.contains("Black &lt; White"));
    /// ```
    pub const fn words(mut self, words: &'a str) -> Self {
        self.words = words;
        self
    }

    /// As a player in this view sees it. Points keep their names: the coordinates are turned too.
    ///
    /// ```
    /// use renju::{Cells, Picture, View};
    ///
    /// let cells: Cells = "C15,I9".parse()?;
    /// let svg = Picture::of(&cells).view(View::LeftRight).to_string();
    /// assert!(svg.contains("<title>C15</title>"));
    /// # Ok::<(), renju::Refusal>(())
    /// ```
    pub const fn view(mut self, view: View) -> Self {
        self.view = view;
        self
    }

    /// Where a point lies. Row 1 is at the bottom, as in the diagrams, so y is turned over.
    fn place(&self, point: Point) -> (i32, i32) {
        let point = point.turned(self.view);
        let (x, y) = (i32::from(point.x()), i32::from(point.y()));
        (MARGIN + STEP * x, END - STEP * y)
    }

    /// The opening, with what it shows in words, white paper and the wood on it.
    fn ground(&self, f: &mut Formatter<'_>, crosses: &[Cross]) -> fmt::Result {
        let height = if self.words.is_empty() {
            WIDTH
        } else {
            WIDTH + FOOT
        };
        let side = WIDTH - 12;
        let (size, counts, count) = (Size(height), self.cells.counts(), crosses.len());
        let points = if count == 1 { "point" } else { "points" };
        write!(
            f,
            r##"<svg xmlns="http://www.w3.org/2000/svg" viewBox="0 0 {WIDTH} {height}" {size} role="img">
<title>{counts}; {count} {points} forbidden to Black</title>
<rect {size} fill="#fff"/>
<rect x="6" y="6" width="{side}" height="{side}" rx="8" fill="#e6bf7d"/>
"##
        )
    }

    /// Fifteen lines each way, and the marked points: dots, which a round end of a line draws.
    fn lines(&self, f: &mut Formatter<'_>) -> fmt::Result {
        write!(
            f,
            "<path fill=\"none\" stroke=\"{INK}\" stroke-width=\"1.2\" d=\""
        )?;
        for at in (MARGIN..=END).step_by(STEP as usize) {
            write!(f, "M{MARGIN} {at}H{END}M{at} {MARGIN}V{END}")?;
        }
        write!(
            f,
            "\"/>\n<path stroke=\"{INK}\" stroke-width=\"8\" stroke-linecap=\"round\" d=\""
        )?;
        for (x, y) in STARS {
            // The five lie alike in every view.
            let (x, y) = (MARGIN + STEP * i32::from(x), MARGIN + STEP * i32::from(y));
            write!(f, "M{x} {y}h0")?;
        }
        f.write_str("\"/>\n")
    }

    /// A to O and 1 to 15, each at both ends of its line.
    fn coordinates(&self, f: &mut Formatter<'_>) -> fmt::Result {
        writeln!(
            f,
            "<g font-family=\"sans-serif\" font-size=\"15\" fill=\"{INK}\" text-anchor=\"middle\">"
        )?;
        for n in 0..SIDE {
            let last = SIDE - 1;
            let letter = char::from(b'A' + n);
            self.ends(f, [(n, 0), (n, last)], letter)?;
            self.ends(f, [(0, n), (last, n)], n + 1)?;
        }
        if !self.words.is_empty() {
            label(f, (WIDTH / 2, WIDTH + FOOT / 4), Escaped(self.words))?;
        }
        f.write_str("</g>\n")
    }

    /// A coordinate beyond each end of its line.
    fn ends(&self, f: &mut Formatter<'_>, ends: [(u8, u8); 2], name: impl Display) -> fmt::Result {
        let [Ok(one), Ok(other)] = ends.map(|(x, y)| Point::new(x, y)) else {
            return Ok(());
        };
        for (from, to) in [(one, other), (other, one)] {
            let ((x, y), (far_x, far_y)) = (self.place(from), self.place(to));
            let beyond = (
                x + AWAY * (x - far_x).signum(),
                y + AWAY * (y - far_y).signum(),
            );
            label(f, beyond, &name)?;
        }
        Ok(())
    }

    /// A stone: pointing at it shows the point's name and the number of the move.
    fn stone(&self, f: &mut Formatter<'_>, point: Point, colour: Colour) -> fmt::Result {
        let (x, y) = self.place(point);
        let code = usize::from(point.code());
        let number = self.numbers.get(code).copied().unwrap_or(0);
        write!(f, "<g><title>{point}")?;
        if number > 0 {
            write!(f, ", move {number}")?;
        }
        let (fill, edge, light, text) = looks(colour);
        let ring = self.last == Some(point);
        let (edge, wide) = if ring { (BLUE, "4") } else { (edge, "1") };
        write!(
            f,
            "</title><circle cx=\"{x}\" cy=\"{y}\" r=\"18\" fill=\"{fill}\" stroke=\"{edge}\" stroke-width=\"{wide}\"/>"
        )?;
        if number > 0 {
            // Three digits are smaller, so that they stay on the stone.
            let size = if number < 100 { 17 } else { 14 };
            write!(f, "<text font-size=\"{size}\" fill=\"{text}\"")?;
            write!(f, " x=\"{x}\" y=\"{y}\" dy=\"0.35em\">{number}</text>")?;
        } else {
            // A gleam from above, on the left.
            let (x, y) = (x - 6, y - 7);
            write!(f, "<ellipse cx=\"{x}\" cy=\"{y}\" rx=\"6\" ry=\"4\"")?;
            write!(f, " fill=\"#fff\" opacity=\"{light}\"/>")?;
        }
        f.write_str("</g>\n")
    }

    fn stones(&self, f: &mut Formatter<'_>) -> fmt::Result {
        f.write_str("<g font-family=\"sans-serif\" text-anchor=\"middle\">\n")?;
        for colour in Colour::ALL {
            for &point in &self.cells.stones(colour) {
                self.stone(f, point, colour)?;
            }
        }
        f.write_str("</g>\n")
    }

    /// A red cross. Pointing at it shows the point's name and why it is forbidden.
    fn cross(&self, f: &mut Formatter<'_>, cross: &Cross) -> fmt::Result {
        let arm = 10;
        let (x, y) = self.place(cross.point);
        let (left, right, above, below) = (x - arm, x + arm, y - arm, y + arm);
        write!(
            f,
            "<path d=\"M{left} {above}L{right} {below}M{left} {below}L{right} {above}\">"
        )?;
        writeln!(f, "<title>{cross}</title></path>")
    }
}

/// A colour's own: the stone, its edge, how strong its gleam is, and the number on it.
const fn looks(colour: Colour) -> (&'static str, &'static str, &'static str, &'static str) {
    match colour {
        Colour::Black => ("#1c1c1c", "#000", "0.3", "#fff"),
        Colour::White => ("#f4f1ea", "#8d8778", "0.9", "#000"),
    }
}

/// Words with their middle at a place: `dy` lowers them by half the height of a capital.
fn label(f: &mut Formatter<'_>, (x, y): (i32, i32), words: impl Display) -> fmt::Result {
    writeln!(f, "<text x=\"{x}\" y=\"{y}\" dy=\"0.35em\">{words}</text>")
}

/// How wide and how high the picture is; the height is what differs.
#[derive(Clone, Copy)]
struct Size(i32);

impl Display for Size {
    fn fmt(&self, f: &mut Formatter<'_>) -> fmt::Result {
        write!(f, "width=\"{WIDTH}\" height=\"{}\"", self.0)
    }
}

/// Words as they may stand in a text of XML. Controls, which may not stand there at all, are
/// spaces.
struct Escaped<'a>(&'a str);

impl Display for Escaped<'_> {
    fn fmt(&self, f: &mut Formatter<'_>) -> fmt::Result {
        for letter in self.0.chars() {
            match letter {
                '&' => f.write_str("&amp;"),
                '<' => f.write_str("&lt;"),
                '>' => f.write_str("&gt;"),
                '\u{fffe}' | '\u{ffff}' => f.write_char(' '),
                control if control.is_control() => f.write_char(' '),
                other => f.write_char(other),
            }?;
        }
        Ok(())
    }
}

impl Display for Picture<'_> {
    fn fmt(&self, f: &mut Formatter<'_>) -> fmt::Result {
        let own = self
            .crosses
            .is_none()
            .then(|| self.cells.forbidden_points());
        let own = own.as_deref().unwrap_or_default();
        let crosses = self.crosses.unwrap_or(own);
        self.ground(f, crosses)?;
        self.lines(f)?;
        self.coordinates(f)?;
        self.stones(f)?;
        writeln!(
            f,
            "<g fill=\"none\" stroke=\"{RED}\" stroke-width=\"4.5\" stroke-linecap=\"round\">"
        )?;
        for cross in crosses {
            self.cross(f, cross)?;
        }
        f.write_str("</g>\n</svg>\n")
    }
}
