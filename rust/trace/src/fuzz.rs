//! Scripts and bytes at random: nothing panics, and what is said of them is sound.

use crate::dice::{Dice, SCRIPTS};
use crate::input;
use crate::notation::hex;
use crate::parse;
use crate::session;

/// Whole words and signs that a script may hold, in place of others.
const PIECES: [&str; 43] = [
    "open",
    "close",
    "arbitrate",
    "configure",
    "write",
    "read",
    "raw",
    "expect",
    "device",
    "value",
    "table",
    "insert",
    "type",
    "role",
    "id",
    "unset",
    "atomic",
    "atomicity",
    "only",
    "priority",
    "told",
    "count",
    "pairs",
    "primary",
    "mark",
    "entry",
    "stream",
    "(",
    ")",
    ",",
    "=",
    "/",
    "&&&",
    "..",
    "*",
    ":",
    "\n",
    "\n  ",
    "#",
    "é",
    "0x",
    "999999999999999999999999999999999999999999",
    "0xffffffffffffffffffffffffffffffff",
];

/// A script with some words changed: into any, or numbers into other numbers only. Some of its
/// batches are made atomic.
fn mutated(text: &str, dice: &mut Dice) -> String {
    let lines = text.lines().filter(|line| !line.starts_with('#'));
    let lines = lines.map(
        |line| match line.starts_with("write ") && dice.below(3) == 0 {
            true => format!("{} atomic\n", line.trim_end_matches(" atomic")),
            false => format!("{line}\n"),
        },
    );
    let text: String = lines.collect();
    let words = text.split_inclusive([' ', '\n', '(', '=']);
    let mut words: Vec<String> = words.map(str::to_owned).collect();
    let mild = dice.below(2) == 0;
    for _ in 0..1 + dice.below(6) {
        match mild {
            true => renumber(&mut words, dice),
            false => change(&mut words, dice),
        }
    }
    words.concat()
}

fn renumber(words: &mut [String], dice: &mut Dice) {
    let is_number = |word: &&mut String| word.trim_end().parse::<u32>().is_ok();
    let mut numbers: Vec<&mut String> = words.iter_mut().filter(is_number).collect();
    let at = dice.below(numbers.len());
    if let Some(word) = numbers.get_mut(at) {
        let end = word
            .trim_start_matches(|c: char| c.is_ascii_digit())
            .to_owned();
        **word = format!("{}{end}", dice.byte());
    }
}

fn change(words: &mut Vec<String>, dice: &mut Dice) {
    let at = dice.below(words.len());
    let other = dice.below(words.len());
    match dice.below(5) {
        _ if words.is_empty() => {}
        0 => words[at] = format!("{} ", dice.pick(&PIECES)),
        1 => words[at] = words[other].clone(),
        2 => words.swap(at, other),
        3 => {
            words.remove(at);
        }
        _ => words.insert(at, (*dice.pick(&PIECES)).to_owned()),
    }
}

/// The reasons of a trace's calls, by their numbers.
fn reasons(trace: &str) -> Vec<&str> {
    let answers = trace
        .lines()
        .filter_map(|line| line.trim_start().strip_prefix("answer "));
    let number = |answer: &'_ str| answer.find('(').zip(answer.find(')'));
    let answers = answers.filter_map(|answer| number(answer).map(|(a, b)| &answer[a + 1..b]));
    answers.collect()
}

#[test]
fn scripts_at_random() {
    let mut dice = Dice::new(2);
    let (mut mistakes, mut played, mut rolled_back) = (0, 0, 0);
    for _ in 0..3_000 {
        let script: &str = SCRIPTS[dice.below(SCRIPTS.len())];
        let text = mutated(script, &mut dice);
        match parse::script(&text) {
            Err(mistake) => {
                mistakes += 1;
                let line = text.lines().nth(mistake.place.line - 1);
                let length = line.unwrap_or_else(|| panic!("{text}")).chars().count();
                assert!((1..=length + 1).contains(&mistake.place.column), "{text}");
                assert_eq!(mistake.report("f", &text).lines().count(), 3);
            }
            Ok(script) => {
                played += 1;
                let trace = session::trace(&script).unwrap();
                rolled_back +=
                    usize::from(trace.text.contains("-> rolled-back (25), ABORTED (10)"));
                let quiet = session::quiet(&script, "f").unwrap();
                assert_eq!(trace.held, quiet.held);
                assert_eq!(reasons(&trace.text).len(), script.calls.len());
                let frames = session::frames(&script);
                let explained = session::explain(&input::cut(&frames), script.device).unwrap();
                assert_eq!(reasons(&explained), reasons(&trace.text));
                let picture = session::timeline(&script, "f").unwrap();
                assert!(picture.ends_with("</svg>\n"));
            }
        }
    }
    assert!(mistakes > 500 && played > 500, "{mistakes} {played}");
    assert!(rolled_back > 100, "{rolled_back}");
}

#[test]
fn bytes_at_random() {
    let mut dice = Dice::new(3);
    for _ in 0..2_000 {
        let mut bytes = Vec::new();
        for _ in 0..dice.below(6) {
            let length = *dice.pick(&[0, 1, 2, 3, 28, 81, 159, 250, 471]);
            let mut frame: Vec<u8> = (0..length).map(|_| dice.byte()).collect();
            if let Some(command) = frame.first_mut() {
                *command = dice.below(8) as u8;
            }
            bytes.extend(input::framed(&frame));
        }
        bytes.truncate(bytes.len() - dice.below(3).min(bytes.len()));
        let input = input::cut(&bytes);
        let trace = session::explain(&input, 1).unwrap();
        assert_eq!(reasons(&trace).len(), input.frames.len());
        assert_eq!(trace.contains("breaks off"), !input.rest.is_empty());
        let text = String::from_utf8_lossy(&bytes);
        let _ = parse::script(&text);
        let _ = input::hex_text(&text);
    }
}

#[test]
fn what_explain_says_of_a_call_is_a_script_again() {
    for text in SCRIPTS {
        let script = parse::script(text).unwrap();
        let frames = session::frames(&script);
        let input = input::cut(&frames);
        let trace = session::explain(&input, 1).unwrap();
        let again = parse::script(&scripted(&trace, &input.frames)).unwrap();
        assert_eq!(session::frames(&again), frames);
    }
}

/// The calls, rows and updates of a trace, laid out as a script. A call with a part that no other
/// statement can send, which is shown in brackets, is there as `raw`.
fn scripted(trace: &str, frames: &[&[u8]]) -> String {
    let mut calls: Vec<String> = Vec::new();
    for line in trace.lines() {
        let (first, rest) = line.trim_start().split_once(' ').unwrap_or((line, ""));
        let rest = rest.trim_start();
        let behind = rest
            .split_once(' ')
            .map_or("", |(_, behind)| behind.trim_start());
        let part = match first {
            _ if !line.starts_with(' ') => {
                calls.push(format!("{rest}\n"));
                continue;
            }
            "row" => behind,
            "update" => behind.split(" -> ").next().unwrap_or(""),
            _ => continue,
        };
        if let Some(call) = calls.last_mut() {
            *call += &format!("  {part}\n");
        }
    }
    // The last line is no call.
    calls.pop();
    for (call, frame) in calls.iter_mut().zip(frames) {
        if call.contains('[') {
            *call = format!("raw {}\n", hex(frame));
        }
    }
    calls.concat()
}
