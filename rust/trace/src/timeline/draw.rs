//! The picture as SVG.
//!
//! Time goes to the right, one column for each call. Downwards: the calls, a lane for each stream,
//! two for each role, what was refused in full, and the legend.

use savorylatch::Reason;

use crate::notation::Notations;
use crate::timeline::lanes::{roles, spans, streams, Span};
use crate::timeline::text::{cut, escaped, folded, hyphenated};
use crate::timeline::{state, Moment, State};

const LEFT: usize = 94;
const RIGHT: usize = 16;
/// Where labels and sentences begin.
const MARGIN: usize = 20;
/// The least width of the picture and of a column.
const WIDTH: usize = 1000;
const COLUMN: usize = 77;
/// Heights.
const TOP: usize = 44;
const CALLS: usize = 134;
const LANE: usize = 58;
const BAR: usize = 26;
const LINE: usize = 18;
/// What a character of the picture's text takes, at most on average.
const CHARACTER: usize = 7;
const BOLD: usize = 8;

const INK: &str = "#1b1f24";
const GREY: &str = "#57606a";
const REFUSED: &str = "#b3261e";
const MARK: &str = "#7a4b00";
const WHITE: &str = "#ffffff";

/// How spans and lines are painted.
const LEADS: &str = "fill=\"#0b57a4\"";
const BACKED: &str = "fill=\"#d6e4f5\"";
const OPEN: &str = "fill=\"#ffffff\" stroke=\"#57606a\" stroke-dasharray=\"4 3\"";
const VACANT: &str = "fill=\"#fbe3df\"";
const THIN: &str = "stroke=\"#d8dee4\"";
const STEP: &str = "stroke=\"#7a4b00\" stroke-width=\"3\" stroke-linecap=\"square\"";
const SOLID: &str = "stroke=\"#b3261e\" stroke-width=\"3\"";
const CROSS: &str = "stroke=\"#b3261e\" stroke-width=\"2\" stroke-dasharray=\"6 4\"";

/// The picture of a script's calls.
pub fn svg(title: &str, moments: &[Moment], notations: &Notations) -> String {
    let columns = moments.len().max(1);
    // Half a column more, so that there is room for what holds after the last call.
    let halves = 2 * columns + 1;
    let width = WIDTH.max(LEFT + RIGHT + COLUMN * halves / 2);
    let mut picture = Picture {
        body: String::new(),
        column: 2 * (width - LEFT - RIGHT) / halves,
        width,
        y: TOP,
        notations,
    };
    picture.text(MARGIN, 28, &Style::title(), title);
    picture.calls(moments);
    for stream in streams(moments) {
        picture.stream(stream, moments);
    }
    for role in roles(moments) {
        picture.primary(role, moments);
        picture.mark(role, moments);
    }
    let lanes = picture.y;
    picture.refusals(moments);
    picture.legend();
    picture.finish(moments, lanes)
}

/// How a text looks.
struct Style {
    colour: &'static str,
    size: usize,
    bold: bool,
    middle: bool,
}

impl Style {
    fn new(colour: &'static str) -> Style {
        Style {
            colour,
            size: 12,
            bold: false,
            middle: false,
        }
    }

    fn title() -> Style {
        Style {
            size: 16,
            bold: true,
            ..Style::new(INK)
        }
    }

    fn bold(self) -> Style {
        Style { bold: true, ..self }
    }

    fn middle(self) -> Style {
        Style {
            middle: true,
            ..self
        }
    }
}

struct Picture<'n> {
    body: String,
    width: usize,
    column: usize,
    /// Where the next lane begins.
    y: usize,
    notations: &'n Notations,
}

impl Picture<'_> {
    /// The middle of a column. That of the one after the last is where all spans end.
    fn x(&self, at: usize) -> usize {
        LEFT + self.column * at + self.column / 2
    }

    fn text(&mut self, x: usize, y: usize, style: &Style, text: &str) {
        let anchor = if style.middle {
            " text-anchor=\"middle\""
        } else {
            ""
        };
        let weight = if style.bold {
            " font-weight=\"bold\""
        } else {
            ""
        };
        let (size, colour) = (style.size, style.colour);
        self.body += &format!(
            "<text x=\"{x}\" y=\"{y}\" font-size=\"{size}\" fill=\"{colour}\"{anchor}{weight}>{}</text>\n",
            escaped(text)
        );
    }

    fn rect(&mut self, x: usize, y: usize, width: usize, height: usize, paint: &str) {
        self.body +=
            &format!("<rect x=\"{x}\" y=\"{y}\" width=\"{width}\" height=\"{height}\" {paint}/>\n");
    }

    fn line(&mut self, from: (usize, usize), to: (usize, usize), paint: &str) {
        self.body += &format!(
            "<line x1=\"{}\" y1=\"{}\" x2=\"{}\" y2=\"{}\" {paint}/>\n",
            from.0, from.1, to.0, to.1
        );
    }

    /// The row of calls: number, command, role, id, and the answer.
    fn calls(&mut self, moments: &[Moment]) {
        let y = self.y;
        let label = Style::new(GREY);
        self.text(MARGIN, y + LINE, &label, "call");
        self.text(MARGIN, y + LINE * 5, &label, "answer");
        for (at, moment) in moments.iter().enumerate() {
            let x = self.x(at);
            let [command, role, id] = &moment.title;
            let id = cut(id, self.column / BOLD);
            let number = (at + 1).to_string();
            self.text(x, y + LINE, &Style::new(INK).bold().middle(), &number);
            for (line, part) in (2..).zip([command, role, &id]) {
                self.text(x, y + LINE * line, &Style::new(INK).middle(), part);
            }
            self.answer(x, y + LINE * 5, moment.reason);
        }
        self.y += CALLS + 8;
    }

    /// A reason's number, and its name if it is not 0.
    fn answer(&mut self, x: usize, y: usize, reason: Reason) {
        let number = reason.number().to_string();
        if reason == Reason::Done {
            return self.text(x, y, &Style::new(INK).middle(), &number);
        }
        let style = Style::new(REFUSED).bold().middle();
        self.text(x, y, &style, &number);
        let name = hyphenated(reason.name(), self.column / BOLD);
        for (below, part) in (1..).zip(&name) {
            self.text(x, y + 14 * below, &style, part);
        }
    }

    /// A stream's lane: a bar while it is open, and what it is told below.
    fn stream(&mut self, stream: u8, moments: &[Moment]) {
        let y = self.y;
        let name = format!("stream {stream}");
        self.text(MARGIN, y + BAR - 8, &Style::new(INK).bold(), &name);
        let states = moments.iter().map(|moment| state(&moment.after, stream));
        for span in spans(states) {
            self.bar(&span);
        }
        for (at, moment) in moments.iter().enumerate() {
            let told = moment.told.iter().find(|(told, _)| *told == stream);
            if let Some((_, status)) = told {
                let text = format!("told {status}");
                let x = self.x(at);
                self.text(x, y + BAR + 16, &Style::new(GREY).middle(), &text);
            }
        }
        self.y += LANE;
    }

    fn bar(&mut self, span: &Span<State>) {
        let (paint, colour, text) = match &span.what {
            State::Closed => return,
            State::Open => (OPEN, GREY, "open".to_owned()),
            State::Backup { role, id } => {
                let id = id.map_or("no id".to_owned(), |id| {
                    format!("id {}", self.notations.id(id))
                });
                (BACKED, INK, format!("{id} (role {role})"))
            }
            State::Primary { role, id } => {
                let id = self.notations.id(*id);
                (LEADS, WHITE, format!("id {id} (role {role})"))
            }
        };
        self.block(span.from, span.to, paint, &Style::new(colour).bold(), &text);
    }

    /// A filled span of the lane with a text that is cut to fit.
    fn block(&mut self, from: usize, to: usize, paint: &str, style: &Style, text: &str) {
        let (x, end, y) = (self.x(from), self.x(to), self.y);
        let width = end.saturating_sub(x);
        // A gap shows where one span ends and the next begins.
        self.rect(x, y, width.saturating_sub(2), BAR, paint);
        let room = width.saturating_sub(10) / BOLD;
        // Rather the id alone than half of the role.
        let short = text.split(" (").next().unwrap_or(text);
        let text = if text.chars().count() <= room {
            text
        } else {
            short
        };
        self.text(x + 6, y + 17, style, &cut(text, room));
    }

    /// Who is primary of a role.
    fn primary(&mut self, role: u8, moments: &[Moment]) {
        let name = format!("role {role}");
        let y = self.y;
        self.line((MARGIN, y - 6), (self.width - RIGHT, y - 6), THIN);
        self.y += 8;
        let y = self.y;
        self.text(MARGIN, y + 10, &Style::new(INK).bold(), &name);
        self.text(MARGIN, y + 25, &Style::new(GREY), "primary");
        let known = moments.iter().map(|moment| {
            let agent = &moment.after;
            (agent.mark(role).is_some(), agent.primary(role))
        });
        for span in spans(known) {
            match span.what {
                (false, _) => {}
                (true, None) => {
                    let style = Style::new(REFUSED).bold();
                    self.block(span.from, span.to, VACANT, &style, "nobody");
                }
                (true, Some(stream)) => {
                    let style = Style::new(WHITE).bold();
                    let text = format!("stream {stream}");
                    self.block(span.from, span.to, LEADS, &style, &text);
                }
            }
        }
        self.y += BAR + 10;
    }

    /// The mark of a role, as steps upwards.
    fn mark(&mut self, role: u8, moments: &[Moment]) {
        const RISES: usize = 32;
        let marks = spans(moments.iter().map(|moment| moment.after.mark(role)));
        let steps = marks.iter().filter(|span| span.what.is_some()).count();
        let rise = (RISES / steps.max(1)).min(16);
        self.y += 22 + rise * steps.saturating_sub(1);
        let mut y = self.y;
        self.text(MARGIN, y + 4, &Style::new(GREY), "mark");
        let mut before = None;
        for span in marks {
            let Some(mark) = span.what else { continue };
            let (x, end) = (self.x(span.from), self.x(span.to));
            if let Some(before) = before {
                y -= rise;
                self.line((x, before), (x, y), STEP);
            }
            self.line((x, y), (end, y), STEP);
            let room = end.saturating_sub(x + 8) / BOLD;
            let text = cut(&self.notations.id(mark), room);
            self.text(x + 6, y - 5, &Style::new(MARK).bold(), &text);
            before = Some(y);
        }
        self.y += 18;
    }

    /// The sentences of what was refused.
    fn refusals(&mut self, moments: &[Moment]) {
        let room = (self.width - MARGIN - RIGHT) / CHARACTER;
        for (at, moment) in moments.iter().enumerate() {
            let Some(why) = &moment.why else { continue };
            let (name, number) = (moment.reason.name(), moment.reason.number());
            let text = format!("Call {}, {name} ({number}): {why}.", at + 1);
            for line in folded(&text, room) {
                self.y += LINE;
                self.text(MARGIN, self.y, &Style::new(REFUSED), &line);
            }
        }
        self.y += LINE;
    }

    fn legend(&mut self) {
        self.y += 6;
        let y = self.y;
        let parts = [
            (LEADS, "primary", 110),
            (BACKED, "bound, not primary", 180),
            (OPEN, "open, not bound", 160),
            (VACANT, "no primary", 130),
        ];
        let mut x = MARGIN;
        for (paint, text, width) in parts {
            self.rect(x, y, 26, 14, paint);
            self.text(x + 33, y + 12, &Style::new(INK), text);
            x += width;
        }
        self.line((x, y + 8), (x + 26, y + 8), STEP);
        self.text(x + 33, y + 12, &Style::new(INK), "mark of the role");
        x += 150;
        self.line((x, y + 2), (x + 10, y + 12), SOLID);
        self.line((x, y + 12), (x + 10, y + 2), SOLID);
        self.text(
            x + 16,
            y + 12,
            &Style::new(REFUSED),
            "refused, or updates failed",
        );
        let told =
            "told N: the stream is told status N: 0 it is primary, 5 nobody is, 6 another is";
        self.text(MARGIN, y + 34, &Style::new(INK), told);
        self.y += 50;
    }

    /// Puts what lies behind before the rest: white, columns, and lines through refused calls.
    fn finish(self, moments: &[Moment], lanes: usize) -> String {
        let (width, height) = (self.width, self.y);
        let mut behind = Picture {
            body: String::new(),
            ..self
        };
        behind.rect(0, 0, width, height, "fill=\"#ffffff\"");
        let top = TOP + CALLS;
        for (at, moment) in moments.iter().enumerate() {
            let x = behind.x(at);
            let paint = match moment.reason {
                Reason::Done => THIN,
                _ => CROSS,
            };
            behind.line((x, top), (x, lanes), paint);
            if moment.reason != Reason::Done {
                behind.line((x - 5, top - 5), (x + 5, top + 5), SOLID);
                behind.line((x - 5, top + 5), (x + 5, top - 5), SOLID);
            }
        }
        format!(
            "<svg xmlns=\"http://www.w3.org/2000/svg\" viewBox=\"0 0 {width} {height}\" \
             width=\"{width}\" height=\"{height}\" \
             font-family=\"system-ui, 'Segoe UI', Roboto, 'DejaVu Sans', sans-serif\">\n\
             {}{}</svg>\n",
            behind.body, self.body
        )
    }
}
