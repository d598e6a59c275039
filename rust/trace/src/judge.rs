//! Whether what a script expects of a call is so.

use savorylatch::answer::Notification;
use savorylatch::wire::Entry;
use savorylatch::{Agent, Reason, StreamState};

use crate::play::Outcome;
use crate::script::{Expected, ExpectedState};
use crate::words::{some, Words};

/// What is so instead, if the expectation does not hold.
pub fn instead(expected: &Expected, outcome: &Outcome, words: &Words) -> Option<String> {
    let after = &outcome.after;
    let (holds, is) = match expected {
        Expected::Frame(frame) => (outcome.frame == *frame, other(&outcome.frame, frame)),
        Expected::Printed(line) => {
            let is = format!("`play` prints {}", outcome.printed);
            (outcome.printed == *line, is)
        }
        Expected::Reason(reason) => {
            let is = format!("the reason is {}", named(outcome.reason));
            (outcome.reason == *reason, is)
        }
        Expected::Told {
            stream,
            status,
            mark,
        } => {
            let same = |told: &Notification| {
                (told.stream, told.status as u8) == (*stream, *status)
                    && mark.is_none_or(|mark| told.mark == mark)
            };
            (outcome.told.iter().any(same), told(&outcome.told, words))
        }
        Expected::ToldCount(count) => (outcome.told.len() == *count, told(&outcome.told, words)),
        Expected::Pairs(reasons) => (outcome.pairs == *reasons, pairs(&outcome.pairs)),
        Expected::Primary { role, stream } => {
            let primary = after.primary(*role);
            (primary == *stream, format!("it is {}", number(primary)))
        }
        Expected::Mark { role, id } => {
            let mark = after.mark(*role);
            (mark == *id, format!("it is {}", id_or_none(mark, words)))
        }
        Expected::Entries(count) => {
            let shown = outcome.entries.len();
            (
                shown == *count,
                format!("the call shows {}", entries(shown)),
            )
        }
        Expected::Entry { entry, action } => among(entry, *action, &outcome.entries),
        Expected::Stream { stream, state } => stream_state(*stream, *state, after, words),
    };
    (!holds).then_some(is)
}

/// Where a call's frame is another than expected.
fn other(is: &[u8], expected: &[u8]) -> String {
    let pairs = is.iter().zip(expected).enumerate();
    let first = pairs.into_iter().find(|(_, (is, expected))| is != expected);
    match first {
        _ if is.len() != expected.len() => {
            format!(
                "the frame has {} bytes, and not {}",
                is.len(),
                expected.len()
            )
        }
        Some((offset, (byte, _))) => format!("the frame's byte at offset {offset} is {byte:02x}"),
        None => "the frame is the same".to_owned(),
    }
}

/// Is an entry among those that a call shows? The action need not be compared.
fn among(entry: &Entry, action: bool, shown: &[Entry]) -> (bool, String) {
    let same = |other: &Entry| other.same_key(entry) && (!action || other.same_action(entry));
    let is = match shown.len() {
        0 => "the call shows no entry".to_owned(),
        1 => "the only entry that the call shows is another".to_owned(),
        count => format!("it is none of the {count} entries that the call shows"),
    };
    (shown.iter().any(same), is)
}

fn entries(count: usize) -> String {
    some(count, "entry", "entries")
}

fn id_or_none(id: Option<u128>, words: &Words) -> String {
    id.map_or("none".to_owned(), |id| words.id(id))
}

/// A reason by name and number.
fn named(reason: Reason) -> String {
    format!("{} ({})", reason.name(), reason.number())
}

fn number(stream: Option<u8>) -> String {
    stream.map_or("none".to_owned(), |stream| format!("stream {stream}"))
}

fn told(told: &[Notification], words: &Words) -> String {
    let each: Vec<String> = told
        .iter()
        .map(|told| {
            let mark = id_or_none(told.mark, words);
            format!("{} status {} mark {mark}", told.stream, told.status as u8)
        })
        .collect();
    match &each[..] {
        [] => "nobody is told".to_owned(),
        [one] => format!("the one notification is {one}"),
        all => format!("the notifications are {}", all.join(", ")),
    }
}

fn pairs(pairs: &[Reason]) -> String {
    let each: Vec<String> = pairs.iter().map(|&reason| named(reason)).collect();
    match each.is_empty() {
        true => "there are no pairs".to_owned(),
        false => format!("the pairs are {}", each.join(", ")),
    }
}

fn stream_state(stream: u8, state: ExpectedState, agent: &Agent, words: &Words) -> (bool, String) {
    let is = agent.stream(stream);
    let holds = match (state, is) {
        (ExpectedState::Closed, StreamState::Closed) => true,
        (ExpectedState::Open, StreamState::Open) => true,
        (ExpectedState::Bound { role, id }, StreamState::Bound { role: r, id: i }) => {
            role == r && id.is_none_or(|id| id == i)
        }
        _ => false,
    };
    let text = match is {
        StreamState::Closed => "it is closed".to_owned(),
        StreamState::Open => "it is open, and not bound".to_owned(),
        StreamState::Bound { role, id: None } => format!("it is bound to role {role}, unset"),
        StreamState::Bound { role, id: Some(id) } => {
            format!("it is bound to role {role} with id {}", words.id(id))
        }
    };
    (holds, text)
}

#[cfg(test)]
mod tests {
    use crate::{parse, session};

    /// Streams 1 and 2 in role 0, 1 primary; a table.
    const BEFORE: &str = "open 1\narbitrate 1 role 0 id 5\nopen 2\narbitrate 2 role 0 unset\nopen 3\n\
        configure role 0 id 5\n table t 0x02000001 owner 0 size 4 key k:exact:16 action a 0x01000001 (p:8)\n";
    const WRITE: &str =
        "write role 0 id 5\n insert table t k=1 a(7)\n insert table t k=0x0001 a(8)\n";

    /// Whether an expectation holds after a call, and what is so instead.
    fn judged(call: &str, expectation: &str) -> (bool, String) {
        let text = format!("{BEFORE}{call}\nexpect {expectation}\n");
        let script = parse::script(&text).unwrap_or_else(|m| panic!("{}", m.report("test", &text)));
        let report = session::quiet(&script, "f").unwrap();
        let first = report.text.lines().next().unwrap_or("");
        let instead = first.split("; but ").nth(1).unwrap_or("");
        (report.held, instead.to_owned())
    }

    fn check(call: &str, holds: &[&str], fails: &[(&str, &str)]) {
        for expectation in holds {
            assert_eq!(
                judged(call, expectation),
                (true, String::new()),
                "{expectation}"
            );
        }
        for (expectation, instead) in fails {
            assert_eq!(
                judged(call, expectation),
                (false, (*instead).to_owned()),
                "{expectation}"
            );
        }
    }

    #[test]
    fn reasons() {
        let is = "the reason is not-open (4)";
        check(
            "close 9",
            &["4", "not-open"],
            &[("0", is), ("already-open", is)],
        );
    }

    #[test]
    fn bytes() {
        // A judged line begins with `expect`; here it is a line of its own.
        let judged = |lines: &str| {
            let text = format!("open 1\narbitrate 1 role 0 id 5\n{lines}\n");
            let report = session::quiet(&parse::script(&text).unwrap(), "f").unwrap();
            (report.held, report.text)
        };
        for lines in [
            "> 03 01 00*7.01 00 01 00*15.05",
            "> 0301.0000000000000001 00 01 00*15 05",
            "< 2 0 0 1 01.00.00.01.00*15.05",
            "< 2 0 0 1 0100000100000000000000000000000000000005",
        ] {
            assert!(judged(lines).0, "{lines}");
        }
        for (lines, instead) in [
            ("> 03 01 00*7.01 00 01 00*15.06", "at offset 27 is 05"),
            (
                "> 03 02 00*7.01 00 01 00*15.06",
                "the frame's byte at offset 1 is 01",
            ),
            (">", "the frame has 28 bytes, and not 0"),
            ("> 03 01 00*7.01 00 01 00*15.05 00", "28 bytes, and not 29"),
            (
                "< 3 0 0 1 01.00.00.01.00*15.05",
                "`play` prints 2 0 0 1 0100000100000000000000000000000000000005\n",
            ),
            ("< 2 0 0 1 01.00.00.01.00*15.06", "`play` prints 2 0 0 1 "),
            ("< 2 0 0 1", "`play` prints 2 0 0 1 01"),
            ("< 2 1 0 1 01.00.00.01.00*15.05", "`play` prints 2 0 0 1 "),
            ("< 2 0 1 1 01.00.00.01.00*15.05", "`play` prints 2 0 0 1 "),
            ("< 2 0 0 2 01.00.00.01.00*15.05", "`play` prints 2 0 0 1 "),
        ] {
            let (held, text) = judged(lines);
            assert!(!held && text.contains(instead), "{lines}: {text}");
        }
    }

    #[test]
    fn told() {
        let is = "the notifications are 1 status 6 mark 7, 2 status 0 mark 7";
        check(
            "arbitrate 2 role 0 id 7",
            &[
                "told 1 status 6",
                "told 1 status 6 mark 7",
                "told 2 status 0 mark 0x7",
                "told count 2",
            ],
            &[
                ("told 3 status 6", is),
                ("told 1 status 0", is),
                ("told 1 status 6 mark 5", is),
                ("told 1 status 6 mark none", is),
                ("told nobody", is),
                ("told count 0", is),
                ("told count 1", is),
                ("told count 3", is),
            ],
        );
        let is = "nobody is told";
        let fails = [("told 1 status 0", is), ("told count 1", is)];
        check("close 2", &["told nobody", "told count 0"], &fails);
        let is = "the one notification is 3 status 5 mark none";
        let fails = [("told 3 status 5 mark 1", is)];
        check("arbitrate 3 role 4", &["told 3 status 5 mark none"], &fails);
    }

    #[test]
    fn pairs() {
        let is = "the pairs are done (0), stored (20)";
        let fails = [
            ("pairs 0", is),
            ("pairs 20 0", is),
            ("pairs", is),
            ("pairs 0 20 0", is),
        ];
        check(WRITE, &["pairs 0 20", "pairs done stored", "23"], &fails);
        check("open 4", &["pairs"], &[("pairs 0", "there are no pairs")]);
    }

    #[test]
    fn primaries_and_marks() {
        let fails = [
            ("primary role 0 stream 2", "it is stream 1"),
            ("primary role 0 none", "it is stream 1"),
            ("primary role 1 stream 1", "it is none"),
            ("mark role 0 4", "it is 5"),
            ("mark role 0 none", "it is 5"),
            ("mark role 1 1", "it is none"),
        ];
        let holds = [
            "primary role 0 stream 1",
            "primary role 1 none",
            "mark role 0 5",
            "mark role 9 none",
        ];
        check("open 4", &holds, &fails);
    }

    #[test]
    fn entries() {
        let call = format!("{WRITE}read role 0");
        let other = "the only entry that the call shows is another";
        let fails = [
            ("entries 0", "the call shows 1 entry"),
            ("entries 2", "the call shows 1 entry"),
            ("entry table t k=2 a(7)", other),
            ("entry table t k=1 a(8)", other),
            ("entry table t priority 1 k=1", other),
            ("entry table 0x02000002 1=1", other),
            ("entry table t", other),
        ];
        let holds = [
            "entries 1",
            "entry table t k=1 a(7)",
            "entry table t k=0x000001 a(0x0007)",
            "entry table t k=1",
        ];
        check(&call, &holds, &fails);
        let fails = [
            ("entry table t k=1", "the call shows no entry"),
            ("entries 1", "the call shows no entry"),
        ];
        check("open 4", &["entries 0"], &fails);
    }

    #[test]
    fn an_entry_that_is_none_of_several() {
        let call =
            "write role 0 id 5\n insert table t k=1 a(7)\n insert table t k=2 a(8)\nread role 0";
        let none = "it is none of the 2 entries that the call shows";
        check(
            call,
            &["entry table t k=2 a(8)", "entries 2"],
            &[
                ("entry table t k=3", none),
                ("entry table t k=2 a(7)", none),
            ],
        );
    }

    #[test]
    fn stream_states() {
        let bound = "it is bound to role 0 with id 5";
        let fails = [
            ("stream 1 closed", bound),
            ("stream 1 open", bound),
            ("stream 1 bound role 1", bound),
            ("stream 1 bound role 0 id 4", bound),
            ("stream 1 bound role 0 unset", bound),
            ("stream 2 bound role 0 id 5", "it is bound to role 0, unset"),
            ("stream 3 closed", "it is open, and not bound"),
            ("stream 3 bound role 0", "it is open, and not bound"),
            ("stream 9 open", "it is closed"),
        ];
        let holds = [
            "stream 1 bound role 0",
            "stream 1 bound role 0 id 5",
            "stream 2 bound role 0 unset",
            "stream 3 open",
            "stream 9 closed",
            "stream 99 closed",
        ];
        check("open 4", &holds, &fails);
    }
}
