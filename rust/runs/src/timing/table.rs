//! The table of times, as plain text and as Markdown.

use super::race::Times;
use super::stats::Summary;

/// One line of the table.
#[derive(Debug, Clone)]
pub struct Row {
    pub question: String,
    pub boards: String,
    /// How many different questions were asked.
    pub asked: usize,
    /// How many calls went to one sample.
    pub calls: usize,
    pub other: Summary,
    pub ours: Summary,
}

impl Row {
    /// The line of what was timed.
    pub fn new(question: &str, boards: &str, times: &Times) -> Self {
        Self {
            question: question.to_string(),
            boards: boards.to_string(),
            asked: times.ours.len(),
            calls: times.calls,
            other: Summary::of(&times.other),
            ours: Summary::of(&times.ours),
        }
    }

    /// How many times as long the other took for all the questions together. Over 1: ours is
    /// faster.
    pub fn ratio(&self) -> f64 {
        self.other.sum / self.ours.sum
    }

    fn fields(&self) -> [String; COLUMNS] {
        let (other, ours) = (&self.other, &self.ours);
        [
            self.question.clone(),
            self.boards.clone(),
            grouped(self.asked as f64, 0),
            self.calls.to_string(),
            nanos(other.p50),
            nanos(other.p99),
            nanos(ours.p50),
            nanos(ours.p99),
            format!("{:.2}", other.p50 / ours.p50),
            format!("{:.2}", other.p99 / ours.p99),
            format!("{:.2}", self.ratio()),
        ]
    }
}

const COLUMNS: usize = 11;

/// The first two columns are words and stand left; numbers stand right.
const WORDS: usize = 2;

/// Whose times stand in a table: the other's name, then that of ours.
pub type Sides = [&'static str; 2];

/// The head of the columns.
fn head([other, ours]: Sides) -> [String; COLUMNS] {
    [
        "question".to_string(),
        "boards".to_string(),
        "asked".to_string(),
        "calls".to_string(),
        format!("{other} p50"),
        format!("{other} p99"),
        format!("{ours} p50"),
        format!("{ours} p99"),
        "ratio p50".to_string(),
        "ratio p99".to_string(),
        "ratio sum".to_string(),
    ]
}

/// What the columns mean, for under the tables.
pub const LEGEND: &str = "\
Times are ns for one call: the fastest of the rounds for each question, then p50 and p99 over the
questions. `asked` is how many questions, `calls` how many calls one sample holds. The ratios are
original / ours, second / fast and depth / verdict, of the p50s, of the p99s and of the sums over all
questions; over 1, ours is faster, and so many times slower is the second referee than the fast one,
and a depth with its verdict than the verdict alone. `Board` is the original's board that also keeps
a hash, `Grid` the one without; the port has no hash.
";

/// Short times with a decimal, for there it matters.
fn nanos(time: f64) -> String {
    grouped(time, if time < 100.0 { 1 } else { 0 })
}

/// A number with a comma before every three digits.
fn grouped(number: f64, decimals: usize) -> String {
    let plain = format!("{number:.decimals$}");
    let whole = plain.find('.').unwrap_or(plain.len());
    let mut text = String::new();
    for (i, digit) in plain.chars().enumerate() {
        if i > 0 && i < whole && (whole - i).is_multiple_of(3) {
            text.push(',');
        }
        text.push(digit);
    }
    text
}

/// The head and the rows as fields, and how wide each column is.
fn laid_out(rows: &[Row], sides: Sides) -> (Vec<[String; COLUMNS]>, [usize; COLUMNS]) {
    let fields: Vec<_> = [head(sides)]
        .into_iter()
        .chain(rows.iter().map(Row::fields))
        .collect();
    let mut widths = [0; COLUMNS];
    for line in &fields {
        for (width, field) in widths.iter_mut().zip(line) {
            *width = field.chars().count().max(*width);
        }
    }
    (fields, widths)
}

fn padded(column: usize, field: &str, width: usize) -> String {
    if column < WORDS {
        format!("{field:<width$}")
    } else {
        format!("{field:>width$}")
    }
}

fn line(fields: &[String; COLUMNS], widths: &[usize; COLUMNS], between: &str) -> String {
    let pad = |(c, field): (usize, &String)| padded(c, field, widths[c]);
    let padded: Vec<String> = fields.iter().enumerate().map(pad).collect();
    padded.join(between)
}

/// The table as plain text.
pub fn plain(rows: &[Row], sides: Sides) -> String {
    let (fields, widths) = laid_out(rows, sides);
    let lines = fields.iter().map(|f| line(f, &widths, "  ") + "\n");
    lines.collect()
}

/// The table in Markdown.
pub fn markdown(rows: &[Row], sides: Sides) -> String {
    let (fields, widths) = laid_out(rows, sides);
    let mut lines = fields
        .iter()
        .map(|f| format!("| {} |\n", line(f, &widths, " | ")));
    let head = lines.next().unwrap_or_default();
    let rule = |(c, &width): (usize, &usize)| {
        let end = if c < WORDS { "-" } else { ":" };
        format!("{}{end}|", "-".repeat(width + 1))
    };
    let rule: String = widths.iter().enumerate().map(rule).collect();
    format!("{head}|{rule}\n{}", lines.collect::<String>())
}
