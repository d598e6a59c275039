//! The scripts' traces against the second implementation. Each script's frames are played by it, and
//! what the text of the trace beside the script states of each call must be what it answers: reason
//! and code, who is told what, the pairs of the updates, the entries in their order, and after the
//! call primary and mark of every role. So a trace is checked by something else than what prints it.
//!
//! Not compared are the sentences that say why, and what a trace repeats of the script: statements,
//! rows and updates, of which only the number is.

mod changed;
mod facts;
mod names;
mod played;
mod text;

use std::fs;
use std::path::{Path, PathBuf};

use facts::differ;
use played::Player;

fn scripts() -> PathBuf {
    Path::new(env!("CARGO_MANIFEST_DIR")).join("../../samples")
}

/// The names of all scripts.
fn all_scripts() -> Vec<String> {
    let files = fs::read_dir(scripts()).expect("there is a folder of scripts");
    let names = files.filter_map(|file| {
        let name = file.ok()?.file_name().into_string().ok()?;
        Some(name.strip_suffix(".txt")?.to_owned())
    });
    names.collect()
}

/// The text of a script, or of the trace beside it.
fn file(name: &str, ending: &str) -> String {
    let path = scripts().join(format!("{name}.{ending}"));
    fs::read_to_string(&path).unwrap_or_else(|wrong| panic!("{}: {wrong}", path.display()))
}

/// The first difference between a script's trace and the second implementation: the call, the fact,
/// and both sides.
fn check(script: &str, trace: &str) -> Result<(), String> {
    let script = trace::parse::script(script).map_err(|mistake| mistake.to_string())?;
    let trace = text::trace(trace);
    let mut player = Player::new(script.device);
    for (number, call) in (1..).zip(&script.calls) {
        let at = |what: &str| format!("call {number}, {what}");
        let mut second = player.call(&call.frame).map_err(at)?;
        second.number = number;
        let Some(shown) = trace.calls.get(number - 1) else {
            return trace.end.and(Err(at("number: it is not in the trace")));
        };
        if let Some(difference) = shown.difference(&second) {
            return Err(at(&difference));
        }
    }
    let played = script.calls.len();
    if trace.calls.len() > played {
        let more = played + 1;
        return Err(format!("call {more}, number: it is only in the trace"));
    }
    differ("last line", &trace.end?, &played).map_or(Ok(()), Err)
}

#[test]
fn traces_are_what_the_second_implementation_answers() {
    let names = all_scripts();
    assert!(!names.is_empty(), "there are no scripts");
    let wrong = names.iter().filter_map(|name| {
        let difference = check(&file(name, "txt"), &file(name, "trace")).err()?;
        Some(format!("samples/{name}.trace, {difference}\n"))
    });
    let wrong: String = wrong.collect();
    assert!(wrong.is_empty(), "\n{wrong}");
}
