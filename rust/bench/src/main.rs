//! Measures the proved agent beside the second implementation.
//!
//! ```text
//! bench [--quick] [--only TEXT | --write DIR]
//! ```
//!
//! Prints what was measured as Markdown. `--write` also writes it to `BENCHMARKS.md` in the folder,
//! with plots beside it; `--only` measures the cases that have the text in their names; `--quick`
//! goes through everything in a moment, and its times mean nothing.
//!
//! No time makes the program fail. It ends with 1 if the two sides disagree on an answer, because
//! then what was measured is not the same work, and with 2 if it is called wrongly or cannot write.
//!
//! Reading order: [`sides`] (what is called), [`cases`] (with what, in which state), [`measure`]
//! (how), [`report`] and [`plot`] (what is shown).

#![forbid(unsafe_code)]

mod cases;
mod measure;
mod plot;
mod report;
mod sides;

use std::path::{Path, PathBuf};
use std::process::ExitCode;
use std::{env, fs, io};

use measure::{Bench, Disagreement, Plan};

const USAGE: &str = "usage: bench [--quick] [--only TEXT | --write DIR]";

/// What was asked for.
#[derive(Default)]
struct Options {
    quick: bool,
    only: Option<String>,
    write: Option<PathBuf>,
}

impl Options {
    /// `None` for anything that is not in the usage.
    fn read(mut arguments: impl Iterator<Item = String>) -> Option<Options> {
        let mut options = Options::default();
        while let Some(argument) = arguments.next() {
            match argument.as_str() {
                "--quick" => options.quick = true,
                "--only" => options.only = Some(arguments.next()?),
                "--write" => options.write = Some(arguments.next()?.into()),
                _ => return None,
            }
        }
        let one = options.only.is_none() || options.write.is_none();
        one.then_some(options)
    }

    fn plan(&self) -> Plan {
        if self.quick {
            Plan::QUICK
        } else {
            Plan::FULL
        }
    }
}

fn main() -> ExitCode {
    let Some(options) = Options::read(env::args().skip(1)) else {
        eprintln!("{USAGE}");
        return ExitCode::from(2);
    };
    let mut cases = cases::table();
    cases.extend(cases::series());
    if let Some(text) = &options.only {
        cases.retain(|case| case.full_name().contains(text));
    }
    let benches = match measure::run(cases, options.plan()) {
        Ok(benches) => benches,
        Err(Disagreement(message)) => {
            eprintln!("{message}");
            return ExitCode::from(1);
        }
    };
    print!("{}", report::tables(&benches));
    if let Some(folder) = &options.write {
        if let Err(error) = write(folder, &benches, options.plan()) {
            eprintln!("{}: {error}", folder.display());
            return ExitCode::from(2);
        }
    }
    ExitCode::SUCCESS
}

/// Writes the document and its plots to a folder, which is made if need be.
fn write(folder: &Path, benches: &[Bench], plan: Plan) -> io::Result<()> {
    fs::create_dir_all(folder)?;
    let document = report::document(benches, plan);
    fs::write(folder.join("BENCHMARKS.md"), document)?;
    for (name, plot) in report::plots(benches) {
        fs::write(folder.join(name), plot)?;
    }
    Ok(())
}

#[cfg(test)]
mod tests {
    use super::*;

    #[test]
    fn both_sides_agree_in_every_case() {
        let mut cases = cases::table();
        cases.extend(cases::series());
        for case in cases {
            if let Err(Disagreement(message)) = Bench::new(case) {
                panic!("{message}");
            }
        }
    }

    #[test]
    fn options() {
        let read = |text: &str| Options::read(text.split_whitespace().map(str::to_owned));
        assert!(read("").is_some_and(|options| !options.quick));
        assert!(read("--quick --only READ").is_some_and(|options| options.quick));
        assert!(read("--write").is_none());
        assert!(read("--write x --only y").is_none());
        assert!(read("--slow").is_none());
    }
}
