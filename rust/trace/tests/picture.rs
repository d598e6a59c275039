//! The picture of the five events, read as a person reads it: which bar stands over which calls, and what is told where. What it has to
//! show is written here by hand, from document 01; that it is the picture which `--timeline` makes is for `.ci/parts/scripts` to see.

use std::fs;

/// The colours of the legend.
const PRIMARY: &str = "#0b57a4";
const BACKUP: &str = "#d6e4f5";
const UNBOUND: &str = "#ffffff";
const NOBODY: &str = "#fbe3df";

/// An element, which is a line of the file.
#[derive(Clone, Copy)]
struct Element<'s>(&'s str);

impl<'s> Element<'s> {
    fn is(&self, name: &str) -> bool {
        self.0.starts_with(&format!("<{name} "))
    }

    fn word(&self, key: &str) -> &'s str {
        let found = self.0.split_once(&format!(" {key}=\""));
        found.map_or("", |(_, rest)| rest.split('"').next().unwrap_or(""))
    }

    fn number(&self, key: &str) -> i32 {
        self.word(key).parse().unwrap_or(-1)
    }

    fn text(&self) -> &'s str {
        let found = self
            .0
            .split_once('>')
            .and_then(|(_, rest)| rest.split_once('<'));
        found.map_or("", |(text, _)| text)
    }
}

struct Picture<'s> {
    elements: Vec<Element<'s>>,
    /// The places of the calls, from call 1 on.
    calls: Vec<i32>,
}

impl<'s> Picture<'s> {
    fn read(svg: &'s str) -> Picture<'s> {
        let elements: Vec<Element> = svg.lines().map(Element).collect();
        let row = elements
            .iter()
            .filter(|e| e.is("text") && e.number("y") == 62);
        let numbers = row.filter(|e| e.text().parse::<u8>().is_ok());
        let calls = numbers.map(|e| e.number("x")).collect();
        Picture { elements, calls }
    }

    fn texts(&self) -> impl Iterator<Item = &Element<'s>> {
        self.elements.iter().filter(|e| e.is("text"))
    }

    /// The call at a place.
    fn call(&self, x: i32) -> usize {
        1 + self
            .calls
            .iter()
            .position(|call| *call == x)
            .expect("a call's place")
    }

    /// Where the label of a lane stands.
    fn lane(&self, label: &str) -> i32 {
        let at = self
            .texts()
            .find(|e| e.number("x") == 20 && e.text() == label);
        at.expect("the lane has a label").number("y")
    }

    /// The bars of a lane: first and last call, colour, and the text on it, which is the next element.
    fn bars(&self, label: &str) -> Vec<(usize, usize, &'s str, &'s str)> {
        let lane = self.lane(label);
        let lies = |e: &Element| e.is("rect") && (lane - 20..lane).contains(&e.number("y"));
        let pairs = self.elements.windows(2).filter(|pair| lies(&pair[0]));
        let bar = |pair: &[Element<'s>]| {
            let (from, to) = (
                pair[0].number("x"),
                pair[0].number("x") + pair[0].number("width"),
            );
            let under = self
                .calls
                .iter()
                .filter(|x| (from..to).contains(*x))
                .count();
            let first = self.call(from);
            (
                first,
                first + under - 1,
                pair[0].word("fill"),
                pair[1].text(),
            )
        };
        pairs.map(bar).collect()
    }

    /// What is written under a lane's bars: call and text.
    fn below(&self, label: &str) -> Vec<(usize, &'s str)> {
        let lane = self.lane(label);
        let lies = |e: &&Element| e.number("y") == lane + 24 && e.number("x") != 20;
        self.texts()
            .filter(lies)
            .map(|e| (self.call(e.number("x")), e.text()))
            .collect()
    }
}

fn picture() -> String {
    let path = concat!(env!("CARGO_MANIFEST_DIR"), "/../../docs/five-events.svg");
    fs::read_to_string(path).expect("docs/five-events.svg")
}

#[test]
fn streams_and_what_they_are_told() {
    let svg = picture();
    let shown = Picture::read(&svg);
    let old = [
        (1, 1, UNBOUND, "open"),
        (2, 5, PRIMARY, "id 5 (role 0)"),
        (6, 11, BACKUP, "id 5 (role 0)"),
    ];
    assert_eq!(shown.bars("stream 1"), old);
    assert_eq!(
        shown.below("stream 1"),
        [(2, "told 0"), (6, "told 6"), (8, "told 5")]
    );
    let new = [
        (5, 5, UNBOUND, "open"),
        (6, 7, PRIMARY, "id 6 (role 0)"),
        (8, 8, BACKUP, "id 4"),
    ];
    assert_eq!(shown.bars("stream 2"), new);
    assert_eq!(shown.below("stream 2"), [(6, "told 0"), (8, "told 5")]);
}

#[test]
fn primary_and_mark() {
    let svg = picture();
    let shown = Picture::read(&svg);
    let primaries = [
        (2, 5, PRIMARY, "stream 1"),
        (6, 7, PRIMARY, "stream 2"),
        (8, 11, NOBODY, "nobody"),
    ];
    assert_eq!(shown.bars("role 0"), primaries);
    // The mark is a line that rises, with its number over it.
    let lane = shown.lane("mark");
    let near = |e: &&Element| (lane - 30..lane).contains(&e.number("y")) && e.number("x") != 20;
    let marks: Vec<_> = shown
        .texts()
        .filter(near)
        .map(|e| (shown.call(e.number("x") - 6), e.text()))
        .collect();
    assert_eq!(marks, [(2, "5"), (6, "6")]);
}

#[test]
fn answers() {
    let svg = picture();
    let shown = Picture::read(&svg);
    let row = shown.lane("answer");
    let answers = shown
        .texts()
        .filter(|e| e.number("y") == row && e.number("x") != 20);
    let answers: Vec<_> = answers.map(|e| e.text()).collect();
    assert_eq!(
        answers,
        ["0", "0", "0", "0", "0", "0", "0", "0", "0", "10", "0"]
    );
    let asked = |y| {
        shown
            .texts()
            .filter(move |e| e.number("y") == y && e.number("x") != 20)
            .map(|e| e.text())
    };
    let calls = [
        "open 1",
        "arbitrate 1",
        "configure",
        "write",
        "open 2",
        "arbitrate 2",
        "write",
        "arbitrate 2",
        "close 2",
        "write",
        "read",
    ];
    assert!(asked(80).eq(calls));
    assert!(asked(116).eq(["", "id 5", "id 5", "id 5", "", "id 6", "id 6", "id 4", "", "id 5", ""]));
}
