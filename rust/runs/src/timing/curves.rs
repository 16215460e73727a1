//! Curves of measured points as an SVG picture: charts side by side, each with its own axes.

use std::fmt::Write;

/// How the values of an axis are laid out.
#[derive(Debug, Clone, Copy, PartialEq, Eq)]
pub enum Scale {
    /// From 0 on, even steps.
    Even,
    /// By powers of ten; nothing at or below 0 is drawn.
    Tens,
}

/// An axis: its words, its scale and the values that it goes from and to.
#[derive(Debug, Clone)]
pub struct Axis {
    pub words: String,
    pub scale: Scale,
    pub from: f64,
    pub to: f64,
}

impl Axis {
    /// An axis that has room for these values.
    pub fn of(words: &str, scale: Scale, values: impl IntoIterator<Item = f64>) -> Self {
        let drawn = values
            .into_iter()
            .filter(|&v| scale == Scale::Even || v > 0.0);
        let (least, most) = drawn.fold((f64::INFINITY, 0f64), |(a, b), v| (a.min(v), b.max(v)));
        let (from, to) = match scale {
            Scale::Even => (0.0, if most > 0.0 { most } else { 1.0 }),
            Scale::Tens if least > most => (1.0, 10.0),
            Scale::Tens => (ten_below(least), ten_above(most)),
        };
        Self {
            words: words.to_string(),
            scale,
            from,
            to,
        }
    }

    /// Where a value lies: 0 at the axis' begin, 1 at its end.
    pub fn share(&self, value: f64) -> f64 {
        match self.scale {
            Scale::Even => (value - self.from) / (self.to - self.from),
            Scale::Tens => (value / self.from).log10() / (self.to / self.from).log10(),
        }
    }

    /// The values that are marked.
    pub fn marks(&self) -> Vec<f64> {
        let mut marks = Vec::new();
        let mut mark = self.from;
        while mark <= self.to * 1.000_001 {
            marks.push(mark);
            mark = match self.scale {
                Scale::Even => mark + even_step(self.to),
                Scale::Tens => mark * 10.0,
            };
        }
        marks
    }
}

fn ten_below(value: f64) -> f64 {
    10f64.powf(value.log10().floor())
}

/// The power of ten that is not below the value, and above its own power of ten.
fn ten_above(value: f64) -> f64 {
    let ten = ten_below(value);
    if ten * 1.000_001 >= value {
        ten.max(value)
    } else {
        ten * 10.0
    }
}

/// A step of 1, 2 or 5 times a power of ten that marks an axis at ten places at most.
fn even_step(to: f64) -> f64 {
    let ten = ten_below(to / 10.0);
    let steps = [1.0, 2.0, 5.0, 10.0].map(|n| n * ten);
    steps
        .into_iter()
        .find(|step| to / step <= 10.0)
        .unwrap_or(to)
}

/// A measured point.
#[derive(Debug, Clone, Copy, PartialEq)]
pub struct Dot {
    pub x: f64,
    pub y: f64,
    /// Hollow where what was asked for was not reached.
    pub is_full: bool,
}

/// Points of one sort, joined by a line.
#[derive(Debug, Clone)]
pub struct Curve {
    pub name: String,
    pub colour: &'static str,
    pub dots: Vec<Dot>,
}

/// A chart: its words, its axes and its curves, and a line that is not to be crossed.
#[derive(Debug, Clone)]
pub struct Chart {
    pub words: String,
    pub x: Axis,
    pub y: Axis,
    pub curves: Vec<Curve>,
    pub limit: Option<f64>,
}

/// The room of a chart, with its words and axes, and the part in which it is drawn.
const WIDTH: f64 = 520.0;
const HEIGHT: f64 = 400.0;
const LEFT: f64 = 86.0;
const RIGHT: f64 = 24.0;
const TOP: f64 = 62.0;
const FOOT: f64 = 58.0;

/// The charts beside one another.
pub fn svg(charts: &[Chart]) -> String {
    let width = WIDTH * charts.len() as f64;
    let mut text = format!(
        "<svg xmlns=\"http://www.w3.org/2000/svg\" viewBox=\"0 0 {width} {HEIGHT}\" width=\"{width}\" height=\"{HEIGHT}\" \
         font-family=\"sans-serif\" font-size=\"13\" fill=\"#222\">\n<rect width=\"{width}\" height=\"{HEIGHT}\" fill=\"#fff\"/>\n"
    );
    for (n, chart) in charts.iter().enumerate() {
        let _ = writeln!(text, "<g transform=\"translate({} 0)\">", WIDTH * n as f64);
        text += &chart.drawn();
        text += "</g>\n";
    }
    text + "</svg>\n"
}

impl Chart {
    fn drawn(&self) -> String {
        let mut text = words((WIDTH / 2.0, TOP / 4.0), "middle", &self.words);
        text += &self.grid();
        if let Some(limit) = self.limit {
            let at = self.height(limit);
            let end = WIDTH - RIGHT;
            let _ = writeln!(
                text,
                "<path d=\"M{LEFT} {at:.1}H{end}\" stroke=\"#c00\" stroke-dasharray=\"6 4\"/>"
            );
        }
        for (n, curve) in self.curves.iter().enumerate() {
            text += &self.curve(curve);
            // The names stand in a row above, where no curve is.
            let (x, y) = (LEFT + 140.0 * n as f64 + 10.0, TOP * 0.7);
            let name = words((x + 12.0, y), "start", &curve.name);
            let _ = writeln!(
                text,
                "<circle cx=\"{x}\" cy=\"{y:.1}\" r=\"5\" fill=\"{}\"/>\n{name}",
                curve.colour
            );
        }
        text
    }

    fn across(&self, value: f64) -> f64 {
        LEFT + (WIDTH - LEFT - RIGHT) * self.x.share(value)
    }

    fn height(&self, value: f64) -> f64 {
        HEIGHT - FOOT - (HEIGHT - FOOT - TOP) * self.y.share(value)
    }

    /// The marks of both axes, with their lines, numbers and words.
    fn grid(&self) -> String {
        let (end, bottom) = (WIDTH - RIGHT, HEIGHT - FOOT);
        let (mut path, mut text) = (String::new(), String::new());
        for mark in self.x.marks() {
            let at = self.across(mark);
            let _ = write!(path, "M{at:.1} {TOP}V{bottom}");
            text += &words((at, bottom + 16.0), "middle", &number(mark));
        }
        for mark in self.y.marks() {
            let at = self.height(mark);
            let _ = write!(path, "M{LEFT} {at:.1}H{end}");
            text += &words((LEFT - 8.0, at), "end", &number(mark));
        }
        text += &words(((LEFT + end) / 2.0, HEIGHT - 16.0), "middle", &self.x.words);
        let middle = (TOP + bottom) / 2.0;
        let _ = writeln!(
            text,
            "<text transform=\"translate(16 {middle}) rotate(-90)\" text-anchor=\"middle\">{}</text>",
            self.y.words
        );
        format!("<path d=\"{path}\" stroke=\"#ddd\" fill=\"none\"/>\n{text}")
    }

    fn curve(&self, curve: &Curve) -> String {
        let drawn = |dot: &&Dot| self.y.scale == Scale::Even || dot.y > 0.0;
        let dots: Vec<&Dot> = curve.dots.iter().filter(drawn).collect();
        let places: Vec<String> = dots
            .iter()
            .map(|dot| format!("{:.1},{:.1}", self.across(dot.x), self.height(dot.y)))
            .collect();
        let colour = curve.colour;
        let mut text = format!(
            "<polyline points=\"{}\" fill=\"none\" stroke=\"{colour}\" stroke-width=\"2\"/>\n",
            places.join(" ")
        );
        for dot in dots {
            let fill = if dot.is_full { colour } else { "#fff" };
            let _ = writeln!(
                text,
                "<circle cx=\"{:.1}\" cy=\"{:.1}\" r=\"4\" fill=\"{fill}\" stroke=\"{colour}\"/>",
                self.across(dot.x),
                self.height(dot.y)
            );
        }
        text
    }
}

fn words((x, y): (f64, f64), anchor: &str, words: &str) -> String {
    format!(
        "<text x=\"{x:.1}\" y=\"{y:.1}\" dy=\"0.35em\" text-anchor=\"{anchor}\">{words}</text>\n"
    )
}

/// A mark's number, in thousands with commas.
fn number(value: f64) -> String {
    let whole = value.round();
    if (value - whole).abs() > 1e-9 * value.abs() {
        return format!("{:.3}", value).trim_end_matches('0').to_string();
    }
    let digits = format!("{whole:.0}");
    let mut grouped = String::new();
    for (n, digit) in digits.chars().enumerate() {
        if n > 0 && (digits.len() - n) % 3 == 0 {
            grouped.push(',');
        }
        grouped.push(digit);
    }
    grouped
}
