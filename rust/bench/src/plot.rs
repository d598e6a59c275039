//! Plots of cost against the number of entries, as SVG. Both axes are logarithmic: a cost that does
//! not grow is level, one that grows in proportion rises at an even slope.

use std::fmt::Write;

const WIDTH: f64 = 800.0;
const HEIGHT: f64 = 500.0;
/// The edges of the area with the lines.
const LEFT: f64 = 80.0;
const RIGHT: f64 = 780.0;
const TOP: f64 = 50.0;
const BOTTOM: f64 = 440.0;

/// One line of a plot.
pub struct Line {
    pub label: String,
    pub colour: &'static str,
    pub dashed: bool,
    /// Entries and nanoseconds.
    pub points: Vec<(f64, f64)>,
}

/// The plot of some lines.
pub fn svg(title: &str, lines: &[Line]) -> String {
    let scale = Scale::new(lines);
    let mut out = format!(
        "<svg xmlns=\"http://www.w3.org/2000/svg\" viewBox=\"0 0 {WIDTH} {HEIGHT}\" \
         width=\"{WIDTH}\" height=\"{HEIGHT}\" font-family=\"sans-serif\" font-size=\"14\" \
         fill=\"#222\">\n"
    );
    out += &format!("<rect width=\"{WIDTH}\" height=\"{HEIGHT}\" fill=\"#fff\"/>\n");
    let middle = (LEFT + RIGHT) / 2.0;
    out += &text(middle, 30.0, "middle", &format!("font-size=\"18\">{title}"));
    axes(&mut out, &scale);
    for line in lines {
        draw(&mut out, &scale, line);
    }
    legend(&mut out, lines);
    out += "</svg>\n";
    out
}

/// Where a number of entries and a time lie.
struct Scale {
    entries: (f64, f64),
    nanos: (f64, f64),
}

impl Scale {
    /// From the first to the last number of entries, and from the tick below the least time to the
    /// one above the greatest.
    fn new(lines: &[Line]) -> Scale {
        let points = || lines.iter().flat_map(|line| &line.points);
        let bounds = |numbers: &mut dyn Iterator<Item = f64>| {
            numbers.fold((f64::MAX, f64::MIN), |(low, high), number| {
                (low.min(number), high.max(number))
            })
        };
        let (low, high) = bounds(&mut points().map(|point| point.1));
        let below = ticks().take_while(|&tick| tick <= low).last();
        let above = ticks().find(|&tick| tick >= high);
        Scale {
            entries: bounds(&mut points().map(|point| point.0)),
            nanos: (below.unwrap_or(low), above.unwrap_or(high)),
        }
    }

    fn x(&self, entries: f64) -> f64 {
        LEFT + (RIGHT - LEFT) * part(entries, self.entries)
    }

    fn y(&self, nanos: f64) -> f64 {
        BOTTOM - (BOTTOM - TOP) * part(nanos, self.nanos)
    }
}

/// How far a number is on the way between two, by its logarithm.
fn part(number: f64, (low, high): (f64, f64)) -> f64 {
    (number / low).ln() / (high / low).ln()
}

/// 1, 2, 5, 10 and so on, in nanoseconds.
fn ticks() -> impl Iterator<Item = f64> {
    (0..8).flat_map(|power| [1.0, 2.0, 5.0].map(|digit| digit * 10_f64.powi(power)))
}

fn axes(out: &mut String, scale: &Scale) {
    let grid = "stroke=\"#ddd\"";
    for nanos in ticks().filter(|tick| (scale.nanos.0..=scale.nanos.1).contains(tick)) {
        let y = scale.y(nanos);
        *out += &segment((LEFT, y), (RIGHT, y), grid);
        let label = if nanos < 1000.0 {
            format!("{nanos} ns")
        } else {
            format!("{} µs", nanos / 1000.0)
        };
        *out += &text(LEFT - 8.0, y + 5.0, "end", &format!(">{label}"));
    }
    let mut entries = 1.0;
    while entries <= scale.entries.1 {
        let x = scale.x(entries);
        *out += &segment((x, TOP), (x, BOTTOM), grid);
        *out += &text(x, BOTTOM + 20.0, "middle", &format!(">{entries}"));
        entries *= 2.0;
    }
    *out += &format!(
        "<rect x=\"{LEFT}\" y=\"{TOP}\" width=\"{}\" height=\"{}\" fill=\"none\" \
         stroke=\"#666\"/>\n",
        RIGHT - LEFT,
        BOTTOM - TOP
    );
    let middle = (LEFT + RIGHT) / 2.0;
    let label = ">entries in the store (logarithmic)";
    *out += &text(middle, BOTTOM + 45.0, "middle", label);
    let middle = (TOP + BOTTOM) / 2.0;
    let turned = format!("transform=\"rotate(-90 18 {middle})\">time for one call (logarithmic)");
    *out += &text(18.0, middle, "middle", &turned);
}

fn draw(out: &mut String, scale: &Scale, line: &Line) {
    let mut path = String::new();
    for &(entries, nanos) in &line.points {
        let (x, y) = (scale.x(entries), scale.y(nanos));
        let _ = write!(path, "{x:.1},{y:.1} ");
        *out += &mark(x, y, line);
    }
    let path = path.trim_end();
    let stroke = stroke(line);
    *out += &format!("<polyline points=\"{path}\" fill=\"none\" {stroke}/>\n");
}

fn legend(out: &mut String, lines: &[Line]) {
    let (left, top) = (LEFT + 12.0, TOP + 12.0);
    let height = 22.0 * lines.len() as f64 + 10.0;
    *out += &format!(
        "<rect x=\"{left}\" y=\"{top}\" width=\"260\" height=\"{height}\" fill=\"#fff\" \
         fill-opacity=\"0.9\" stroke=\"#bbb\"/>\n"
    );
    for (at, line) in lines.iter().enumerate() {
        let y = top + 16.0 + 22.0 * at as f64;
        *out += &segment((left + 10.0, y), (left + 50.0, y), &stroke(line));
        *out += &mark(left + 30.0, y, line);
        *out += &text(left + 60.0, y + 5.0, "start", &format!(">{}", line.label));
    }
}

/// A point: round on a full line, square on a dashed one.
fn mark(x: f64, y: f64, line: &Line) -> String {
    let colour = line.colour;
    if line.dashed {
        let (x, y) = (x - 3.5, y - 3.5);
        format!("<rect x=\"{x:.1}\" y=\"{y:.1}\" width=\"7\" height=\"7\" fill=\"{colour}\"/>\n")
    } else {
        format!("<circle cx=\"{x:.1}\" cy=\"{y:.1}\" r=\"4\" fill=\"{colour}\"/>\n")
    }
}

fn stroke(line: &Line) -> String {
    let dashes = if line.dashed {
        " stroke-dasharray=\"7 5\""
    } else {
        ""
    };
    format!("stroke=\"{}\" stroke-width=\"2\"{dashes}", line.colour)
}

fn segment(from: (f64, f64), to: (f64, f64), style: &str) -> String {
    format!(
        "<line x1=\"{:.1}\" y1=\"{:.1}\" x2=\"{:.1}\" y2=\"{:.1}\" {style}/>\n",
        from.0, from.1, to.0, to.1
    )
}

/// `rest` is what follows in the tag, its end, and the text.
fn text(x: f64, y: f64, anchor: &str, rest: &str) -> String {
    let blank = if rest.starts_with('>') { "" } else { " " };
    format!("<text x=\"{x:.1}\" y=\"{y:.1}\" text-anchor=\"{anchor}\"{blank}{rest}</text>\n")
}
