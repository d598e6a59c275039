//! The command line.

use std::ffi::OsString;
use std::path::PathBuf;

pub const USAGE: &str = "\
Compares the agent's library with the second implementation.

  compare [--calls N] [--seed S] [--play PATH]
      plays the cases, then random lists of N calls in all (200000; 0 for the
      cases alone). A short run may not meet everything that it has to.
  compare --list K [--seed S]
      plays list K of a run alone, whole
  compare --faults [--seed S]
      plants each fault in a copy of the second implementation, and finds it
  compare --help
      prints this

  --seed S     the seed of the lists, a number (1)
  --play PATH  the program play (target/bin/play beside the workspace, if it
               is there)

The exit status is 0 if all agreed and all was met, 1 if not, and 2 if the
command line is not understood.
";

/// What is asked for.
#[derive(Debug, PartialEq, Eq)]
pub enum Order {
    Help,
    Faults {
        seed: u64,
    },
    List {
        seed: u64,
        list: u64,
    },
    Compare {
        seed: u64,
        calls: u64,
        /// `None` for the usual place.
        play: Option<PathBuf>,
    },
}

impl Order {
    /// Reads the arguments; the error says what is wrong with them.
    pub fn read(arguments: impl IntoIterator<Item = OsString>) -> Result<Order, String> {
        let mut arguments = arguments.into_iter();
        let (mut seed, mut calls, mut list, mut play) = (None, None, None, None);
        let (mut help, mut faults) = (false, false);
        while let Some(argument) = arguments.next() {
            let mut value = || {
                let missing = || format!("{} needs a value", argument.display());
                arguments.next().ok_or_else(missing)
            };
            match argument.to_str() {
                Some("--help" | "-h") => help = true,
                Some("--faults") => faults = true,
                Some("--seed") => seed = Some(number(&value()?)?),
                Some("--calls") => calls = Some(number(&value()?)?),
                Some("--list") => list = Some(number(&value()?)?),
                Some("--play") => play = Some(PathBuf::from(value()?)),
                _ => return Err(format!("{} is not an option", argument.display())),
            }
        }
        if help {
            return Ok(Order::Help);
        }
        let whole = calls.is_some() || play.is_some();
        if (faults || list.is_some()) && whole || faults && list.is_some() {
            return Err("these options do not go together".to_owned());
        }
        let seed = seed.unwrap_or(1);
        Ok(match list {
            _ if faults => Order::Faults { seed },
            Some(list) => Order::List { seed, list },
            None => Order::Compare {
                seed,
                calls: calls.unwrap_or(200_000),
                play,
            },
        })
    }
}

fn number(text: &OsString) -> Result<u64, String> {
    let parsed = text.to_str().and_then(|text| text.parse().ok());
    parsed.ok_or_else(|| format!("{} is not a number", text.display()))
}
