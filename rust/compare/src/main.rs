//! Compares the agent's library with the second implementation, on cases
//! written by hand and on hostile random lists of calls.
//!
//! Every call goes to three: the library (`savorylatch`), the second
//! implementation (`reference::Agent`) and the evaluator that looks back over
//! the list (`reference::Past`). Compared, byte for byte, are the reason
//! returned, the whole answer buffer with the bytes that must stay as they
//! were, and the store: its entries, the bytes that are never touched, and
//! that a refused call changes nothing.
//!
//! Reading order: [`bench`] (one call to all three), [`again`] (READs before
//! and after a batch that was rolled back), [`twice`] (lists with other bytes
//! after the keys of their DELETEs), [`cases`] (by hand), [`lists`] (at random),
//! [`tally`] (what has to be met), [`shrink`] (the shortest list that shows a
//! difference), [`faults`] (that the comparison can fail), [`play`] (the
//! program), [`report`] (what is printed).

#![forbid(unsafe_code)]

mod again;
mod bench;
mod cases;
mod describe;
mod dice;
mod faults;
mod lists;
mod options;
mod parts;
mod play;
mod report;
mod shrink;
mod tally;
#[cfg(test)]
mod tests;
mod twice;

use std::io::{self, Write};
use std::process::ExitCode;

use options::{Order, USAGE};

fn main() -> ExitCode {
    let order = match Order::read(std::env::args_os().skip(1)) {
        Ok(order) => order,
        Err(why) => {
            let _ = write!(io::stderr(), "compare: {why}\n\n{USAGE}");
            return ExitCode::from(2);
        }
    };
    let mut out = io::stdout().lock();
    let agreed = match order {
        Order::Help => write!(out, "{USAGE}").map(|()| true),
        Order::Faults { seed } => report::faults(&mut out, seed),
        Order::List { seed, list } => report::list(&mut out, seed, list),
        Order::Compare { seed, calls, play } => report::compare(&mut out, seed, calls, play),
    };
    match agreed {
        Ok(true) => ExitCode::SUCCESS,
        // Whoever read the output may have gone; then there is nobody to tell.
        Ok(false) | Err(_) => ExitCode::FAILURE,
    }
}
