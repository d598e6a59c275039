//! The runs, and what is printed of them.
//!
//! Each function says whether all agreed; the error is that of printing.

use std::io::{self, Write};
use std::path::{Path, PathBuf};
use std::time::{Duration, Instant};

use reference::{Agent, Past};

use crate::faults;
use crate::lists::{self, Found};
use crate::play::{self, Exchange};
use crate::shrink::shrink;
use crate::tally::Tally;
use crate::{cases, describe};

/// So many lists of a run go through the program `play` as well.
const LISTS_FOR_PLAY: usize = 6;
/// How long a shorter list is looked for.
const SHRINKING: Duration = Duration::from_secs(30);
/// How often a run tells how far it is.
const PROGRESS: Duration = Duration::from_secs(10);

/// The cases, then the lists.
pub fn compare(
    out: &mut impl Write,
    seed: u64,
    calls: u64,
    given: Option<PathBuf>,
) -> io::Result<bool> {
    let usual = Path::new(play::USUAL_PATH);
    let program = match &given {
        Some(path) if !path.exists() => {
            writeln!(out, "play   is not there: {}", path.display())?;
            return Ok(false);
        }
        Some(path) => Some(path.as_path()),
        None => Some(usual).filter(|path| path.exists()),
    };
    let cases_agree = cases(out, program)?;
    if calls == 0 {
        return Ok(cases_agree);
    }
    let lists_agree = lists(out, seed, calls, program)?;
    Ok(cases_agree && lists_agree)
}

fn cases(out: &mut impl Write, program: Option<&Path>) -> io::Result<bool> {
    let all = cases::all();
    let mut wrong: Vec<String> = all.iter().filter_map(|case| case.run().err()).collect();
    let calls: usize = all.iter().map(|case| case.steps.len()).sum();
    let verdict = verdict(&wrong);
    writeln!(out, "cases  {} with {calls} calls: {verdict}", all.len())?;
    match program {
        None => writeln!(out, "play   is not there: {}", play::USUAL_PATH)?,
        Some(program) => {
            let apt: Vec<_> = all.iter().filter(|case| play::can_play(case)).collect();
            let results = apt.iter().map(|case| play::run_case(program, case));
            let results = results.chain([play::run_broken_inputs(program)]);
            let failed: Vec<String> = results.filter_map(Result::err).collect();
            let verdict = self::verdict(&failed);
            let count = apt.len();
            writeln!(
                out,
                "play   {count} cases, and input that breaks off: {verdict}"
            )?;
            wrong.extend(failed);
        }
    }
    for text in &wrong {
        writeln!(out, "\n{text}")?;
    }
    Ok(wrong.is_empty())
}

fn verdict(wrong: &[String]) -> &'static str {
    if wrong.is_empty() {
        "all as written by hand"
    } else {
        "NOT AS THEY SHOULD BE"
    }
}

fn lists(out: &mut impl Write, seed: u64, calls: u64, program: Option<&Path>) -> io::Result<bool> {
    let start = Instant::now();
    let mut next_progress = PROGRESS;
    let mut tally = Tally::default();
    let mut for_play = LISTS_FOR_PLAY;
    while tally.calls < calls {
        tally.lists += 1;
        let list = tally.lists;
        let most = usize::try_from(calls - tally.calls).unwrap_or(usize::MAX);
        let mut exchanges: Vec<Exchange> = Vec::new();
        let played =
            lists::play::<Agent, Past>(lists::seed_of(seed, list), most, |view, draft, seen| {
                tally.count(view, draft, seen);
                let frame = &draft.call.frame;
                let wanted = program.is_some() && for_play > 0;
                if wanted && play::can_take(view.device, frame, seen.answer) {
                    exchanges.push((frame.clone(), seen.answer.to_vec()));
                }
            });
        if let Err(found) = played {
            difference(out, seed, list, *found)?;
            return Ok(false);
        }
        if let (Some(program), false) = (program, exchanges.is_empty()) {
            for_play -= 1;
            if let Err(text) = play::run(program, &exchanges) {
                writeln!(out, "\nDIFFERENCE in list {list} of seed {seed}: {text}")?;
                return Ok(false);
            }
        }
        if start.elapsed() >= next_progress {
            next_progress += PROGRESS;
            progress(&tally, calls, start.elapsed());
        }
    }

    let played = LISTS_FOR_PLAY - for_play;
    conclude(out, seed, &tally, start.elapsed(), played)
}

/// Prints what there is to say of lists that all agree on, so many of which
/// went through `play` too.
fn conclude(
    out: &mut impl Write,
    seed: u64,
    tally: &Tally,
    elapsed: Duration,
    played: usize,
) -> io::Result<bool> {
    writeln!(out, "\n{tally}")?;
    writeln!(
        out,
        "lists  {} of seed {seed} with {} calls: all agree ({:.0} calls a second)",
        tally.lists,
        tally.calls,
        rate(tally, elapsed)
    )?;
    if played > 0 {
        writeln!(out, "play   {played} of these lists: the same lines")?;
    }
    if let Ok(text) = tally.free() {
        writeln!(out, "free   {text}")?;
    }
    let wrong = tally.wrong();
    for item in &wrong {
        writeln!(out, "{item}")?;
    }
    Ok(wrong.is_empty())
}

fn rate(tally: &Tally, elapsed: Duration) -> f64 {
    tally.calls as f64 / elapsed.as_secs_f64().max(0.001)
}

/// Goes to standard error, so that the output stays what it is.
fn progress(tally: &Tally, calls: u64, elapsed: Duration) {
    let _ = writeln!(
        io::stderr(),
        "{} of {calls} calls in {} lists, all agree so far ({:.0} calls a second)",
        tally.calls,
        tally.lists,
        rate(tally, elapsed)
    );
}

/// One list of a run.
pub fn list(out: &mut impl Write, seed: u64, list: u64) -> io::Result<bool> {
    let mut tally = Tally::default();
    let played = lists::play::<Agent, Past>(
        lists::seed_of(seed, list),
        usize::MAX,
        |view, draft, seen| tally.count(view, draft, seen),
    );
    match played {
        Ok(calls) => {
            writeln!(out, "{tally}")?;
            writeln!(
                out,
                "list   {list} of seed {seed} with {calls} calls: all agree"
            )?;
            match tally.free() {
                Ok(text) => writeln!(out, "free   {text}").map(|()| true),
                Err(text) => writeln!(out, "{text}").map(|()| false),
            }
        }
        Err(found) => {
            difference(out, seed, list, *found)?;
            Ok(false)
        }
    }
}

/// Prints a difference and the shortest list that shows one.
fn difference(out: &mut impl Write, seed: u64, list: u64, found: Found) -> io::Result<()> {
    writeln!(
        out,
        "\nDIFFERENCE in list {list} of seed {seed}, call {}: {}",
        found.list.calls.len(),
        found.difference.0
    )?;
    out.flush()?;
    let shortest = shrink::<Agent, Past>(found, SHRINKING);
    writeln!(out, "\nThe shortest list found that shows a difference:")?;
    write!(out, "{}", describe::list(&shortest.list))?;
    writeln!(out, "on its last call {}", shortest.difference.0)
}

/// Plants every fault and finds it.
pub fn faults(out: &mut impl Write, seed: u64) -> io::Result<bool> {
    if !faults::is_sound(seed) {
        writeln!(out, "the copy differs though no fault is planted in it")?;
        return Ok(false);
    }
    let names = faults::names();
    let mut missed = 0;
    writeln!(out, "  calls  shortest  fault")?;
    for (number, name) in names.iter().enumerate() {
        match faults::find(number, seed) {
            Some(catch) => writeln!(
                out,
                "{:>7}  {:>8}  {name}",
                catch.calls,
                catch.shortest.list.calls.len()
            )?,
            None => {
                missed += 1;
                writeln!(out, "NOT FOUND          {name}")?;
            }
        }
    }
    let misfits = faults::misfits();
    for misfit in misfits {
        writeln!(out, "DOES NOT FIT       {misfit}")?;
    }
    writeln!(
        out,
        "{} faults, {} planted, {} found",
        names.len() + misfits.len(),
        names.len(),
        names.len() - missed
    )?;
    Ok(missed == 0 && misfits.is_empty())
}
