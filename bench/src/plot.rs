//! The ratios of a summary on a logarithmic axis: for each row a dot at the median and a line from the least to the most, its numbers in a column of their own.

use crate::summary::Sum;
use std::fmt::Write;

/// Where the names, the n and the numbers stand, and the axis begins and ends.
const NAMES: f64 = 312.0;
const SIZES: f64 = 346.0;
const LEFT: f64 = 362.0;
const RIGHT: f64 = 822.0;
const MIDDLES: f64 = 878.0;
const SPREADS: f64 = 892.0;
const WIDE: f64 = 984.0;
const TOP: f64 = 74.0;
const ROW: f64 = 15.0;
const GAP: f64 = 8.0;
/// The height of the letters.
const FONT: f64 = 11.0;
/// The axis ends at two of these, or at a ratio beyond them all, so that nothing is cut off.
const MARKS: [f64; 12] = [0.05, 0.1, 0.2, 0.3, 0.5, 0.8, 1.0, 2.0, 3.0, 5.0, 7.0, 10.0];

struct Line {
    from: (f64, f64),
    to: (f64, f64),
    style: &'static str,
}

struct Text {
    at: (f64, f64),
    anchor: &'static str,
    what: String,
}

/// Kept apart until the end, so that a test can see where everything lies.
struct Page {
    low: f64,
    high: f64,
    lines: Vec<Line>,
    dots: Vec<(f64, f64)>,
    texts: Vec<Text>,
    tall: f64,
}

impl Page {
    fn new(sums: &[Sum]) -> Self {
        let least = sums.iter().map(|sum| sum.least).fold(1.0, f64::min);
        let most = sums.iter().map(|sum| sum.most).fold(1.0, f64::max);
        let below = MARKS.iter().rev().find(|mark| **mark <= least);
        let above = MARKS.iter().find(|mark| **mark >= most && **mark > 1.0);
        Page {
            low: *below.unwrap_or(&least),
            high: *above.unwrap_or(&most),
            lines: Vec::new(),
            dots: Vec::new(),
            texts: Vec::new(),
            tall: 0.0,
        }
    }

    fn x(&self, ratio: f64) -> f64 {
        LEFT + (RIGHT - LEFT) * (ratio / self.low).ln() / (self.high / self.low).ln()
    }

    fn text(&mut self, x: f64, y: f64, anchor: &'static str, what: String) {
        let at = (x, y);
        self.texts.push(Text { at, anchor, what });
    }

    /// A row whose middle is at this height.
    fn row(&mut self, y: f64, sum: &Sum) {
        let line = Line {
            from: (self.x(sum.least), y),
            to: (self.x(sum.most), y),
            style: r##"stroke="#6baed6" stroke-width="3" stroke-linecap="round""##,
        };
        self.lines.push(line);
        self.dots.push((self.x(sum.middle), y));
        let under = y + FONT / 3.0;
        self.text(SIZES, under, "end", sum.size());
        self.text(MIDDLES, under, "end", format!("{:.2}", sum.middle));
        let spread = format!("{:.2} to {:.2}", sum.least, sum.most);
        self.text(SPREADS, under, "start", spread);
    }

    /// The upright lines, with their ratios above them.
    fn axis(&mut self, bottom: f64) {
        let (low, high) = (self.low, self.high);
        for mark in MARKS.into_iter().filter(|m| (low..=high).contains(m)) {
            let x = self.x(mark);
            let style = match mark {
                1.0 => r##"stroke="#333333""##,
                0.8 => r##"stroke="#b30000" stroke-dasharray="5 4""##,
                _ => r##"stroke="#dddddd""##,
            };
            self.lines.push(Line {
                from: (x, TOP - 10.0),
                to: (x, bottom),
                style,
            });
            self.text(x, TOP - 22.0, "middle", mark.to_string());
        }
    }
}

fn page(sums: &[Sum], head: &str) -> Page {
    let mut page = Page::new(sums);
    let what =
        "Time of the port / time of the Rust: median (dot), least to most (line) of all runs";
    page.text(16.0, 20.0, "start", what.into());
    page.text(16.0, 36.0, "start", head.into());
    for (x, name) in [(SIZES, "n"), (MIDDLES, "median")] {
        page.text(x, TOP - 22.0, "end", name.into());
    }
    page.text(SPREADS, TOP - 22.0, "start", "least to most".into());
    let mut y = TOP;
    for group in sums.chunk_by(|a, b| a.call == b.call) {
        page.text(NAMES, y + FONT / 3.0, "end", group[0].call.clone());
        for sum in group {
            page.row(y, sum);
            y += ROW;
        }
        y += GAP;
    }
    page.tall = y;
    page
}

pub fn svg(sums: &[Sum], head: &str) -> String {
    let mut page = page(sums, head);
    let rows = page.lines.len();
    page.axis(page.tall - GAP);
    page.lines.rotate_left(rows); // the rows lie over the axis
    let mut shapes = String::new();
    for Line { from, to, style } in &page.lines {
        let ((x1, y1), (x2, y2)) = (from, to);
        let _ = writeln!(
            shapes,
            r#"<line x1="{x1:.1}" y1="{y1:.1}" x2="{x2:.1}" y2="{y2:.1}" {style}/>"#
        );
    }
    for (x, y) in &page.dots {
        let _ = writeln!(
            shapes,
            r##"<circle cx="{x:.1}" cy="{y:.1}" r="4" fill="#08519c"/>"##
        );
    }
    whole(&shapes, &page)
}

fn whole(shapes: &str, page: &Page) -> String {
    let mut texts = String::new();
    for Text { at, anchor, what } in &page.texts {
        let what = what.replace('&', "&amp;").replace('<', "&lt;");
        let (x, y) = at;
        let _ = writeln!(
            texts,
            r#"<text x="{x:.1}" y="{y:.1}" text-anchor="{anchor}">{what}</text>"#
        );
    }
    let tall = page.tall + 8.0;
    format!(
        r#"<svg xmlns="http://www.w3.org/2000/svg" viewBox="0 0 {WIDE} {tall}">
<rect width="100%" height="100%" fill="white"/>
{shapes}<g font-family="Helvetica, Arial, sans-serif" font-size="{FONT}">
{texts}</g>
</svg>
"#
    )
}

#[cfg(test)]
mod tests {
    use super::*;

    type Edges = [f64; 4];

    fn sum(call: &str, n: usize, least: f64, most: f64) -> Sum {
        Sum {
            call: call.into(),
            n: Some(n),
            runs: 1,
            disturbed: 0,
            port: vec![1.0],
            rust: vec![1.0],
            middle: (least * most).sqrt(),
            least,
            most,
            builds: Vec::new(),
        }
    }

    fn drawn() -> Page {
        let call = "filterrun, a whole job, the Rust buffered";
        let sums = [
            sum(call, 8, 0.31, 0.4),
            sum(call, 16, 0.9, 1.1),
            sum("sqrt", 32, 2.5, 5.43),
        ];
        let mut page = page(&sums, "a machine; a kit; a compiler; a day");
        page.axis(page.tall - GAP);
        page
    }

    /// Left, right, top and bottom, with letters wider than those of most fonts.
    fn edges(text: &Text) -> Edges {
        let wide = 0.58 * FONT * text.what.chars().count() as f64;
        let left = match text.anchor {
            "start" => text.at.0,
            "middle" => text.at.0 - wide / 2.0,
            _ => text.at.0 - wide,
        };
        [
            left,
            left + wide,
            text.at.1 - 0.8 * FONT,
            text.at.1 + 0.25 * FONT,
        ]
    }

    fn meet(a: Edges, b: Edges) -> bool {
        a[0] <= b[1] && b[0] <= a[1] && a[2] <= b[3] && b[2] <= a[3]
    }

    #[test]
    fn no_line_meets_a_text() {
        let page = drawn();
        for text in &page.texts {
            for Line { from, to, .. } in &page.lines {
                let line = [from.0 - 4.0, to.0 + 4.0, from.1 - 4.0, to.1 + 4.0];
                assert!(!meet(edges(text), line), "{}", text.what);
            }
        }
    }

    #[test]
    fn texts_are_apart_and_on_the_page() {
        let page = drawn();
        for (at, text) in page.texts.iter().enumerate() {
            let [left, right, top, bottom] = edges(text);
            assert!(left >= 0.0 && right <= WIDE, "{}", text.what);
            assert!(top >= 0.0 && bottom <= page.tall + 8.0, "{}", text.what);
            for other in &page.texts[..at] {
                assert!(!meet(edges(text), edges(other)), "{}", text.what);
            }
        }
    }

    #[test]
    fn nothing_is_beyond_the_axis() {
        let page = drawn();
        assert_eq!((page.low, page.high), (0.3, 7.0));
        let far = Page::new(&[sum("far", 2, 0.01, 70.0)]);
        assert_eq!((far.low, far.high), (0.01, 70.0));
        assert_eq!((far.x(0.01), far.x(70.0)), (LEFT, RIGHT));
    }

    #[test]
    fn equal_steps_for_equal_factors() {
        let page = drawn();
        let step = |a, b| page.x(b) - page.x(a);
        assert!((step(0.5, 1.0) - step(1.0, 2.0)).abs() < 1e-9);
    }
}
