//! A host: plays the sample of document 01 and prints a line for each call, as the program `play`
//! does.

use std::io::{self, Write};

use savorylatch::frame::{self, Head};
use savorylatch::{Agent, Answer, Command, Store};

fn main() -> io::Result<()> {
    play(&mut io::stdout())
}

/// Stream 3 opens, arbitrates for role 0 of device 1 with id 5, closes, and closes again.
pub fn play(out: &mut impl Write) -> io::Result<()> {
    let head = Head {
        device: 1,
        role: 0,
        id: Some(5),
    };
    let frames = [
        frame::open(3),
        frame::arbitrate(3, &head),
        frame::close(3),
        frame::close(3),
    ];
    let (mut agent, mut store, mut answer) = (Agent::new(1), Store::new(), Answer::new());
    for (ordinal, frame) in (1..).zip(&frames) {
        agent.call(frame, &mut store, &mut answer);
        let view = answer.view(Command::of(frame)).map_err(io::Error::other)?;
        writeln!(out, "{}", view.printed(ordinal))?;
    }
    Ok(())
}
