//! Readable scripts for the agent, and traces that say why.
//!
//! A script is read whole ([`lex`], [`parse`]) into frames and expectations ([`script`]). Its frames
//! go to the proved agent ([`play`]), and what comes back is said in the script's language
//! ([`words`], [`render`]) with the reasons explained ([`explain`]) and the expectations judged
//! ([`judge`]). A trace is always made of the frame that was sent, taken apart again ([`call`]): so
//! scripts, `raw` frames and captures are shown alike. [`timeline`] draws it.

#![forbid(unsafe_code)]
// No input may stop the program.
#![cfg_attr(
    not(test),
    deny(
        clippy::expect_used,
        clippy::indexing_slicing,
        clippy::panic,
        clippy::unreachable,
        clippy::unwrap_used
    )
)]

pub mod call;
#[cfg(test)]
mod dice;
pub mod explain;
#[cfg(test)]
mod fuzz;
pub mod help;
pub mod input;
pub mod judge;
pub mod lex;
pub mod mistake;
pub mod names;
pub mod notation;
pub mod options;
pub mod parse;
pub mod play;
pub mod render;
pub mod script;
pub mod session;
pub mod timeline;
pub mod words;
