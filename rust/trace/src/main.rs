//! `savorylatch`: plays a script on the proved agent and says what came of each call.

#![forbid(unsafe_code)]
// No input may stop the program.
#![cfg_attr(
    not(test),
    deny(
        clippy::expect_used,
        clippy::indexing_slicing,
        clippy::panic,
        clippy::unreachable,
        clippy::unwrap_used
    )
)]

use std::env;
use std::ffi::OsStr;
use std::fs;
use std::io::{self, Read, Write};
use std::path::Path;
use std::process::ExitCode;

use savorylatch::answer::Unreadable;
use trace::input::{self, Input};
use trace::mistake::{Mistake, Place};
use trace::options::{self, Wish};
use trace::script::Script;
use trace::session::{self, Report};
use trace::{help, parse};

/// An expectation did not hold.
const NOT_HELD: u8 = 1;
/// A mistake in the script or the command line, or a file that cannot be read.
const MISTAKE: u8 = 2;

fn main() -> ExitCode {
    let done = match options::wish(env::args_os().skip(1)) {
        Ok(wish) => run(wish),
        Err(wrong) => Err(format!("savorylatch: {wrong}\n{}", options::USAGE)),
    };
    done.unwrap_or_else(|message| {
        let _ = io::stderr().write_all(message.as_bytes());
        ExitCode::from(MISTAKE)
    })
}

/// Does what is asked for; what stops it is said.
fn run(wish: Wish) -> Result<ExitCode, String> {
    match wish {
        Wish::Help => print(help::text().as_bytes()),
        Wish::Version => print(concat!("savorylatch ", env!("CARGO_PKG_VERSION"), "\n").as_bytes()),
        Wish::Trace { file } => report(session::trace(&script(&file)?)),
        Wish::Quiet { file } => report(session::quiet(&script(&file)?, &name(&file))),
        Wish::Frames { file } => frames(&script(&file)?),
        Wish::Timeline { file } => {
            let picture = session::timeline(&script(&file)?, &title(&file));
            print(picture.map_err(unreadable)?.as_bytes())
        }
        Wish::Explain { file, hex, device } => explain(&file, hex, device),
    }
}

fn frames(script: &Script) -> Result<ExitCode, String> {
    if script.device != parse::DEVICE {
        let device = script.device;
        let note = format!("note: the script's device is {device}, and play's is 1\n");
        let _ = io::stderr().write_all(note.as_bytes());
    }
    print(&session::frames(script))
}

fn explain(file: &OsStr, hex: bool, device: u64) -> Result<ExitCode, String> {
    let bytes = content(file)?;
    let frames;
    let input = match hex {
        false => input::cut(&bytes),
        true => {
            let text = utf8(file, &bytes)?;
            frames = input::hex_text(text).map_err(|m| m.report(&name(file), text))?;
            Input {
                frames: frames.iter().map(Vec::as_slice).collect(),
                rest: &[],
            }
        }
    };
    let text = session::explain(&input, device);
    print(text.map_err(unreadable)?.as_bytes())
}

fn report(report: Result<Report, Unreadable>) -> Result<ExitCode, String> {
    let report = report.map_err(unreadable)?;
    let written = print(report.text.as_bytes())?;
    Ok(match report.held {
        true => written,
        false => ExitCode::from(NOT_HELD),
    })
}

/// Writes to standard output. A reader that has enough is no failure.
fn print(bytes: &[u8]) -> Result<ExitCode, String> {
    let mut out = io::stdout().lock();
    match out.write_all(bytes).and_then(|()| out.flush()) {
        Err(wrong) if wrong.kind() != io::ErrorKind::BrokenPipe => {
            Err(format!("savorylatch: standard output: {wrong}\n"))
        }
        _ => Ok(ExitCode::SUCCESS),
    }
}

fn script(file: &OsStr) -> Result<Script, String> {
    let bytes = content(file)?;
    let text = utf8(file, &bytes)?;
    parse::script(text).map_err(|mistake| mistake.report(&name(file), text))
}

fn content(file: &OsStr) -> Result<Vec<u8>, String> {
    let mut bytes = Vec::new();
    let read = match file == "-" {
        true => io::stdin().lock().read_to_end(&mut bytes).map(|_| bytes),
        false => fs::read(file),
    };
    read.map_err(|wrong| format!("savorylatch: {}: {wrong}\n", name(file)))
}

/// The text of a file; bytes that are none are a mistake in their line.
fn utf8<'b>(file: &OsStr, bytes: &'b [u8]) -> Result<&'b str, String> {
    std::str::from_utf8(bytes).map_err(|wrong| {
        let good = bytes.get(..wrong.valid_up_to()).unwrap_or_default();
        let good = String::from_utf8_lossy(good);
        let last = good.rsplit('\n').next().unwrap_or("");
        let place = Place {
            line: good.matches('\n').count() + 1,
            column: last.chars().count() + 1,
        };
        let mistake = Mistake::new(place, "UTF-8 text", "other bytes");
        mistake.report(&name(file), &good)
    })
}

/// An answer that is none of the agent's, which an archive of another version may give.
fn unreadable(wrong: Unreadable) -> String {
    format!("savorylatch: an answer cannot be read: {wrong}\n")
}

/// A file's name over a picture.
fn title(file: &OsStr) -> String {
    let stem = Path::new(file).file_stem().filter(|_| file != "-");
    stem.map_or(String::new(), |stem| stem.to_string_lossy().into_owned())
}

/// A file's name in messages.
fn name(file: &OsStr) -> String {
    match file == "-" {
        true => "standard input".to_owned(),
        false => file.to_string_lossy().into_owned(),
    }
}
