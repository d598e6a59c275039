//! What the program does with a script or with frames, up to the text that it prints.

use savorylatch::answer::Unreadable;

use crate::input::{self, Input};
use crate::judge;
use crate::names::Names;
use crate::notation::Notations;
use crate::play::{Outcome, Player};
use crate::render;
use crate::script::{Call, Script};
use crate::timeline;
use crate::words::{some, Words};

/// A text to print, and whether all expectations held.
#[derive(Debug, PartialEq, Eq)]
pub struct Report {
    pub text: String,
    pub held: bool,
}

/// Plays a script; the trace, and a last line that says how the expectations fared.
pub fn trace(script: &Script) -> Result<Report, Unreadable> {
    let mut text = String::new();
    let width = script.calls.len().to_string().len();
    let failed = each(script, |number, call, outcome, words| {
        let mut lines = render::call(number, width, outcome, words);
        let failed = not_held(call, outcome, words);
        for (line, expected, instead) in &failed {
            lines.not_held(*line, expected, instead);
        }
        text += &lines.finish();
        failed.len()
    })?;
    Ok(ended(text, script, failed))
}

/// What was printed, with the last line, and whether all held.
fn ended(mut text: String, script: &Script, failed: usize) -> Report {
    text += &verdict(script, failed);
    Report {
        text,
        held: failed == 0,
    }
}

/// Plays a script; only what did not hold, and the last line.
pub fn quiet(script: &Script, file: &str) -> Result<Report, Unreadable> {
    let mut text = String::new();
    let failed = each(script, |number, call, outcome, words| {
        let failed = not_held(call, outcome, words);
        for (line, expected, instead) in &failed {
            text += &format!("{file}:{line}: call {number}: {expected}; but {instead}\n");
        }
        failed.len()
    })?;
    Ok(ended(text, script, failed))
}

/// `play`'s input.
pub fn frames(script: &Script) -> Vec<u8> {
    let frames = script.calls.iter().map(|call| input::framed(&call.frame));
    frames.collect::<Vec<_>>().concat()
}

/// The picture of a script, as SVG.
pub fn timeline(script: &Script, title: &str) -> Result<String, Unreadable> {
    let mut moments = Vec::new();
    each(script, |_, _, outcome, words| {
        moments.push(timeline::moment(outcome, words));
        0
    })?;
    Ok(timeline::svg(title, &moments, &script.notations))
}

/// The trace of frames that no script names anything for.
pub fn explain(input: &Input, device: u64) -> Result<String, Unreadable> {
    let (names, notations) = (Names::default(), Notations::default());
    let words = Words {
        names: &names,
        notations: &notations,
        device,
    };
    let mut player = Player::new(device);
    let width = input.frames.len().to_string().len();
    let mut text = String::new();
    for (number, frame) in (1..).zip(&input.frames) {
        let outcome = player.call(frame)?;
        text += &render::call(number, width, &outcome, &words).finish();
    }
    if !input.rest.is_empty() {
        let left = some(input.rest.len(), "byte is", "bytes are");
        text += &format!("the input breaks off: {left} left, which is no call\n");
    }
    text += &format!("{}\n", some(input.frames.len(), "call", "calls"));
    Ok(text)
}

/// Plays a script and hands each call on; the sum of what comes back.
fn each(
    script: &Script,
    mut look: impl FnMut(usize, &Call, &Outcome, &Words) -> usize,
) -> Result<usize, Unreadable> {
    let mut player = Player::new(script.device);
    let mut sum = 0;
    for (number, call) in (1..).zip(&script.calls) {
        let outcome = player.call(&call.frame)?;
        let words = Words {
            names: &call.names,
            notations: &script.notations,
            device: script.device,
        };
        sum += look(number, call, &outcome, &words);
    }
    Ok(sum)
}

/// The expectations of a call that did not hold: line, words, and what is so instead.
fn not_held<'c>(call: &'c Call, outcome: &Outcome, words: &Words) -> Vec<(usize, &'c str, String)> {
    let judged = call.expectations.iter().map(|expectation| {
        let instead = judge::instead(&expectation.what, outcome, words)?;
        Some((expectation.line, expectation.text.as_str(), instead))
    });
    judged.flatten().collect()
}

fn verdict(script: &Script, failed: usize) -> String {
    let all: usize = script.calls.iter().map(|c| c.expectations.len()).sum();
    let calls = some(script.calls.len(), "call", "calls");
    let expectations = some(all, "expectation", "expectations");
    let held = match (all, failed) {
        (0, _) => String::new(),
        (1, 0) => ", which held".to_owned(),
        (_, 0) => ", which all held".to_owned(),
        (_, failed) => format!(", of which {failed} did not hold"),
    };
    format!("{calls}, {expectations}{held}\n")
}
