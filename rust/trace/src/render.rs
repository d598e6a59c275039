//! The trace: each call flush left, and under it what came of it.

use savorylatch::answer::{Notification, Status};
use savorylatch::wire::{Row, Update};
use savorylatch::Reason;

use crate::call::Call;
use crate::explain;
use crate::notation::hex;
use crate::play::Outcome;
use crate::words::Words;

/// The width of `update 64`, the longest label.
const LABEL: usize = 9;
/// The most bytes of a frame without a readable form that are shown.
const SHOWN: usize = 32;

/// A call's lines.
pub struct Lines {
    /// How far what follows a call is indented: past its number, and a little more.
    indent: usize,
    text: String,
}

/// The lines of a call. The numbers of all calls have the same width.
pub fn call(number: usize, width: usize, outcome: &Outcome, words: &Words) -> Lines {
    let statement = match &outcome.call {
        Ok(call) => words.statement(call),
        Err(_) => raw(&outcome.frame),
    };
    let mut lines = Lines {
        indent: width + 4,
        text: format!("{number:<width$}  {statement}\n"),
    };
    if let Ok(Call::Configure { rows, .. }) = &outcome.call {
        lines.rows(rows, words);
    }
    let why = explain::answer(outcome, words);
    lines.add("answer", &format!("{}: {why}", reason(outcome.reason)));
    if let Ok(Call::Write { updates, .. }) = &outcome.call {
        lines.updates(updates, outcome, words);
    }
    for (at, entry) in (1..).zip(&outcome.entries) {
        lines.add(&format!("entry {at}"), &words.entry(entry));
    }
    for told in &outcome.told {
        lines.add(
            &format!("stream {}", told.stream),
            &notification(told, words),
        );
    }
    lines.roles(outcome, words);
    lines
}

impl Lines {
    /// An expectation that did not hold.
    pub fn not_held(&mut self, line: usize, expected: &str, instead: &str) {
        let text = format!("line {line}: {expected}; but {instead}");
        self.add("NOT HELD", &text);
    }

    pub fn finish(self) -> String {
        self.text
    }

    /// A labelled line.
    fn add(&mut self, label: &str, text: &str) {
        let indent = self.indent;
        self.text += &format!("{:indent$}{label:LABEL$}  {text}\n", "");
    }

    /// A line under the text of the one before.
    fn below(&mut self, text: &str) {
        self.add("", text);
    }

    fn rows(&mut self, rows: &[Row], words: &Words) {
        for (at, row) in rows.iter().enumerate() {
            self.add(&format!("row {}", at + 1), &words.row(at, row));
        }
    }

    /// The updates with their pairs, which stand in one column, and why a failed one failed.
    fn updates(&mut self, updates: &[Update], outcome: &Outcome, words: &Words) {
        let texts: Vec<String> = updates.iter().map(|update| words.update(update)).collect();
        let width = texts.iter().map(|text| text.chars().count()).max();
        let width = width.unwrap_or(0);
        let mut why = explain::updates(outcome, words).into_iter();
        let mut pairs = outcome.pairs.iter();
        for (at, text) in (1..).zip(&texts) {
            let pair = match pairs.next() {
                Some(&pair) => reason(pair),
                None => "not looked at".to_owned(),
            };
            self.add(
                &format!("update {at}"),
                &format!("{text:width$}  -> {pair}"),
            );
            if let Some(why) = why.next().flatten() {
                self.below(&why);
            }
        }
    }

    /// Primary and mark of the roles that have a mark. One that has none never had a primary.
    fn roles(&mut self, outcome: &Outcome, words: &Words) {
        for role in 0..8 {
            let Some(mark) = outcome.after.mark(role) else {
                continue;
            };
            let primary = match outcome.after.primary(role) {
                Some(stream) => format!("primary is stream {stream}"),
                None => "no primary".to_owned(),
            };
            let text = format!("{primary}, the mark is {}", words.id(mark));
            self.add(&format!("role {role}"), &text);
        }
    }
}

/// A reason and its code, by name and number.
pub fn reason(reason: Reason) -> String {
    let code = reason.code();
    format!(
        "{} ({}), {code} ({})",
        reason.name(),
        reason.number(),
        code.number()
    )
}

fn notification(told: &Notification, words: &Words) -> String {
    let role = told.role;
    let who = match told.status {
        Status::Primary => format!("it is primary of role {role}"),
        Status::OtherPrimary => format!("another stream is primary of role {role}"),
        Status::NoPrimary => format!("role {role} has no primary"),
    };
    let mark = match told.mark {
        Some(mark) => format!("the mark is {}", words.id(mark)),
        None => "there is no mark yet".to_owned(),
    };
    format!("is told: {who}, {mark} (status {})", told.status as u8)
}

/// A frame that cannot be said otherwise, shortened.
fn raw(frame: &[u8]) -> String {
    match frame.get(..SHOWN) {
        Some(start) if frame.len() > SHOWN => {
            format!("raw {}.. ({} bytes)", hex(start), frame.len())
        }
        _ => format!("raw {}", hex(frame)).trim_end().to_owned(),
    }
}

#[cfg(test)]
mod tests {
    use crate::{parse, session};

    /// The lines of a script's last call.
    fn last(script: &str) -> Vec<String> {
        let report = session::trace(&parse::script(script).unwrap()).unwrap();
        let mut lines: Vec<&str> = report.text.lines().rev().skip(1).collect();
        let length = lines.iter().position(|line| !line.starts_with(' '));
        lines.truncate(length.map_or(0, |at| at + 1));
        lines.iter().rev().map(|line| (*line).to_owned()).collect()
    }

    #[test]
    fn parts_that_no_statement_can_send_are_shown() {
        let head = "00*7.01 00 01 00*15.05";
        let before = format!(
            "open 1\narbitrate 1 role 0 id 5\nconfigure role 0 id 5\n \
             table t 0x02000001 owner 0 size 4 key k:exact:8 action a 0x01000001 (p:8)\nraw 05 {head} 00 01 "
        );
        let action = "00*105 01000001 01.08.00*15";
        for (update, shown, why) in [
            ("01 02000001 00*4 01 01.07.00*15 01.08.00*15", "insert table t k=[kind exact: 0x07 0x08] a(p=0x08)", "field k (exact, 8 bits) has one value, but the second is not all zero"),
            ("01 02000001 00*4 09 01.07.00*15 00*17", "insert table t k=[kind 9: 0x07 [empty]] a(p=0x08)", "field k (exact, 8 bits) is given a slot of kind 9"),
            ("01 02000001 00*4 01 11.07.00*15 00*17", "insert table t k=[kind exact: [length 17: 07000000000000000000000000000000] [empty]] a(p=0x08)", "the value of field k (exact, 8 bits) has length 17, over 16"),
            ("01 02000001 00*4 01 01.07.01.00*14 00*17", "insert table t k=[kind exact: [length 1: 07010000000000000000000000000000] [empty]] a(p=0x08)", "the value of field k (exact, 8 bits) has a byte after its length that is not 0"),
            ("ff 02000001 00*4 01 01.07.00*15 00*17", "type 255 table t k=0x07 a(p=0x08)", "type 255 is none of 1 insert, 2 modify, 3 delete"),
        ] {
            let lines = last(&format!("{before}{update} {action} 00*51"));
            assert_eq!(lines[0], "4  write role 0 id 5");
            assert!(lines[2].contains(&format!("{shown}  -> bad-form (17)")), "{}", lines[2]);
            assert_eq!(lines[3].trim(), why);
        }
    }

    /// A table of two entries, of which one is stored.
    const TABLE: &str = "open 1\narbitrate 1 role 0 id 5\nconfigure role 0 id 5\n \
        table t 0x02000001 owner 0 size 2 key k:exact:8 action a 0x01000001 (p:8)\n\
        write role 0 id 5\n insert table t k=1 a(7)\n";

    #[test]
    fn an_atomic_batch_that_is_rolled_back() {
        let batch =
            "write role 0 id 5 atomic\n modify table t k=1 a(8)\n insert table t k=2 a(8)\n \
                     insert table t k=3 a(8)\n type 9 table t k=1 a(8)\n";
        let lines = [
            "5  write role 0 id 5 atomic",
            "     answer     some-failed (23), UNKNOWN (2): update 3 of 4 failed, so nothing of the batch took effect: the entries are as before",
            "     update 1   modify table t k=1 a(p=8)  -> rolled-back (25), ABORTED (10)",
            "                undone, because update 3 failed",
            "     update 2   insert table t k=2 a(p=8)  -> rolled-back (25), ABORTED (10)",
            "                undone, because update 3 failed",
            "     update 3   insert table t k=3 a(p=8)  -> table-full (22), RESOURCE_EXHAUSTED (8)",
            "                table t is full: it holds 2 entries, its size",
            "     update 4   type 9 table t k=1 a(p=8)  -> rolled-back (25), ABORTED (10)",
            "                not tried, because update 3 failed before it",
            "     role 0     primary is stream 1, the mark is 5",
        ];
        assert_eq!(last(&format!("{TABLE}{batch}")), lines);
    }

    /// What a DELETE carries beside its key is shown as it is sent, and nothing is said of it.
    #[test]
    fn what_a_delete_carries_is_shown() {
        let ill_formed = format!("[length 255: {}]", "ff".repeat(16));
        let rubbish = format!("0xffffffff({})", [&*ill_formed; 4].join(", "));
        for (rest, shown) in [
            ("00*72", ""),
            ("01000001 01.09.00*15 00*51", " a(p=9)"),
            ("01000001 02.0100.00*14 00*51", " a(p=256)"),
            ("01000001 00*17 01.09.00*15 00*34", " a(p=[empty], 0x09)"),
            ("01000009 01.09.00*15 00*51", " 0x01000009(0x09)"),
            ("00*4 01.09.00*15 00*51", " 0x00000000(0x09)"),
            ("ff*72", &format!(" {rubbish}")),
        ] {
            let update = format!("03 02000001 00*4 01 01.01.00*15 00*17 00*105 {rest}");
            let lines = [
                "5  write role 0 id 5",
                "     answer     done (0), OK (0): 1 update took effect",
                &format!("     update 1   delete table t k=1{shown}  -> done (0), OK (0)"),
                "     role 0     primary is stream 1, the mark is 5",
            ];
            let write = format!("raw 05 00*7.01 00 01 00*15.05 00 01 {update}");
            assert_eq!(last(&format!("{TABLE}{write}")), lines);
        }
    }

    #[test]
    fn other_atomic_batches() {
        for (updates, why) in [
            ("\n", "done (0), OK (0): there are no updates"),
            (
                " delete table t k=1\n insert table t k=1 a(8)\n",
                "done (0), OK (0): 2 updates took effect",
            ),
            (
                " insert table t k=1 a(8)\n",
                "some-failed (23), UNKNOWN (2): its update failed: the entries are as before",
            ),
        ] {
            let lines = last(&format!("{TABLE}write role 0 id 5 atomic\n{updates}"));
            assert_eq!(lines[1].trim(), format!("answer     {why}"));
        }
    }

    #[test]
    fn frames_without_a_form_are_shortened() {
        assert_eq!(
            last("raw 09*40")[0],
            format!("1  raw {}.. (40 bytes)", "09".repeat(32))
        );
        assert_eq!(last("raw 09*32")[0], format!("1  raw {}", "09".repeat(32)));
        assert_eq!(last("raw")[0], "1  raw");
    }

    #[test]
    fn what_is_not_the_usual_is_shown() {
        assert_eq!(last("read role 0 device 7")[0], "1  read role 0 device 7");
        assert_eq!(last("device 7\nread role 0 device 7")[0], "1  read role 0");
        assert_eq!(
            last("write role 3 id 0x10 atomicity 2")[0],
            "1  write role 3 id 0x10 atomicity 2"
        );
        assert_eq!(
            last("write role 3 atomicity 1 id 0x10")[0],
            "1  write role 3 id 0x10 atomic"
        );
    }
}
