//! The program `play`: frames in, one line per call out.
//!
//! It reads frames from its standard input, each after a length of two bytes,
//! and prints for each call its ordinal, reason, code and count, then each
//! record in hexadecimal.

use std::fmt::Write as _;
use std::io::{self, Read, Write as _};
use std::path::Path;
use std::process::{Command, Stdio};
use std::thread;

use savorylatch::answer::View;

use crate::cases::{Case, DEVICE};
use crate::describe::{self, hex};

/// Where the program is built, seen from this crate.
pub const USUAL_PATH: &str = concat!(env!("CARGO_MANIFEST_DIR"), "/../../target/bin/play");

/// A frame and the bytes that answer it.
pub type Exchange = (Vec<u8>, Vec<u8>);

/// Can `play` take the case? It is of device 1 and its buffers are long enough.
pub fn can_play(case: &Case) -> bool {
    case.device == DEVICE && case.steps.iter().all(|step| step.call.is_roomy())
}

/// Plays a case to the program.
pub fn run_case(program: &Path, case: &Case) -> Result<(), String> {
    let exchanges: Vec<Exchange> = case
        .steps
        .iter()
        .map(|step| (step.call.frame.clone(), step.answer.clone()))
        .collect();
    run(program, &exchanges).map_err(|text| format!("case {}: {text}", case.name))
}

/// Plays frames to the program and compares its lines with the answers.
pub fn run(program: &Path, exchanges: &[Exchange]) -> Result<(), String> {
    let mut input = Vec::new();
    let mut expected = String::new();
    for (at, (frame, answer)) in exchanges.iter().enumerate() {
        input.extend(framed(frame));
        let view = View::new(answer, savorylatch::Command::of(frame));
        let view = view.map_err(|wrong| format!("call {}: {wrong}", at + 1))?;
        let _ = writeln!(expected, "{}", view.printed(at + 1));
    }
    agree(program, input, &expected).map_err(|wrong| match exchanges.get(wrong.line - 1) {
        Some((frame, _)) => format!("{}\n  for {}", wrong.text, describe::frame(frame)),
        None => wrong.text,
    })
}

/// Input that ends in the middle: what is complete is played, the rest is not.
pub fn run_broken_inputs(program: &Path) -> Result<(), String> {
    let cases: [(&[u8], &str); 7] = [
        (&[], ""),
        (&[0x00], ""),
        (&[0x00, 0x02, 0x01], ""),
        (&[0x00, 0x02, 0x01, 0x03], "1 0 0 0\n"),
        (&[0x00, 0x02, 0x01, 0x03, 0x00], "1 0 0 0\n"),
        (
            &[
                0x00, 0x02, 0x01, 0x03, 0x00, 0x02, 0x02, 0x03, 0xff, 0xff, 0x01,
            ],
            "1 0 0 0\n2 0 0 0\n",
        ),
        // An empty frame is a call.
        (
            &[0x00, 0x00, 0x00, 0x01, 0x01, 0x00, 0x02, 0x01, 0x03],
            "1 1 3 0\n2 1 3 0\n3 0 0 0\n",
        ),
    ];
    for (input, expected) in cases {
        agree(program, input.to_vec(), expected)
            .map_err(|wrong| format!("input {}: {}", hex(input), wrong.text))?;
    }
    Ok(())
}

/// A frame after its length.
fn framed(frame: &[u8]) -> Vec<u8> {
    let length = frame.len() as u16;
    [&length.to_be_bytes(), frame].concat()
}

/// Can the program take a call and answer it so? A call under reason 2 has no
/// answer; it changes nothing, so it can be left out.
pub fn can_take(device: u64, frame: &[u8], answer: &[u8]) -> bool {
    device == DEVICE && u16::try_from(frame.len()).is_ok() && !answer.is_empty()
}

/// A line that is not as expected.
struct Wrong {
    line: usize,
    text: String,
}

fn agree(program: &Path, input: Vec<u8>, expected: &str) -> Result<(), Wrong> {
    let printed = talk(program, input).map_err(|error| Wrong {
        line: 1,
        text: format!("{}: {error}", program.display()),
    })?;
    if printed == expected {
        return Ok(());
    }
    let common = printed
        .lines()
        .zip(expected.lines())
        .take_while(|(one, other)| one == other)
        .count();
    let shown = |text: &str| text.lines().nth(common).unwrap_or("nothing").to_owned();
    Err(Wrong {
        line: common + 1,
        text: format!(
            "line {} of play is\n  {}\n  and not\n  {}",
            common + 1,
            shown(&printed),
            shown(expected)
        ),
    })
}

/// Everything the program prints for the input.
fn talk(program: &Path, input: Vec<u8>) -> io::Result<String> {
    let mut child = Command::new(program)
        .stdin(Stdio::piped())
        .stdout(Stdio::piped())
        .spawn()?;
    let (stdin, stdout) = (child.stdin.take(), child.stdout.take());
    // The program answers while it still reads.
    let writer = thread::spawn(move || stdin.map_or(Ok(()), |mut stdin| stdin.write_all(&input)));
    let mut printed = String::new();
    let read = stdout.map_or(Ok(0), |mut stdout| stdout.read_to_string(&mut printed));
    let status = child.wait()?;
    read?;
    match writer.join() {
        Ok(written) => written?,
        Err(_) => return Err(io::Error::other("its input could not be written")),
    }
    if !status.success() {
        return Err(io::Error::other(format!("it ended with {status}")));
    }
    Ok(printed)
}
