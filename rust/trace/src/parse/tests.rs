//! Every statement, and the mistakes: where, what was expected, what is there.

use savorylatch::frame::Head;
use savorylatch::wire::{Action, Entry, Field, Key, Row, Slot, Update, Value};
use savorylatch::Reason;

use super::*;
use crate::mistake::Place;
use crate::script::{Expected, ExpectedState};

const CONFIGURE: &str = "configure role 0 id 5\n\
    \ttable t 0x02000001 owner 1 size 4 key a:exact:32 b:lpm:32 c:ternary:12 d:range:8\n\
    \t\taction go 0x01000001 (p:9, q:48)\n\
    \t\taction no 0x01000002 ()\n\
    \ttable u 0x02000002 owner 0 size 1 key a:optional:4 action go 0x01000003 (p:1)\n";

fn calls(text: &str) -> Vec<Call> {
    let script = super::script(text).unwrap_or_else(|m| panic!("{}", m.report("test", text)));
    let decode = |call: &script::Call| Call::decode(&call.frame).unwrap();
    script.calls.iter().map(decode).collect()
}

fn call(text: &str) -> Call {
    calls(text).pop().unwrap()
}

/// The entry of an update after [`CONFIGURE`].
fn entry(text: &str) -> Entry {
    match call(&format!("{CONFIGURE}write role 0 id 5\n insert {text}")) {
        Call::Write { updates, .. } => updates[0].entry,
        other => panic!("{other:?}"),
    }
}

fn head(role: u8, id: Option<u128>) -> Head {
    Head {
        device: 1,
        role,
        id,
    }
}

#[test]
fn streams() {
    assert_eq!(call("open 1"), Call::Open { stream: 1 });
    assert_eq!(call("open 0xff"), Call::Open { stream: 255 });
    assert_eq!(call("close 31 # that one"), Call::Close { stream: 31 });
    let arbitrate = |head| Call::Arbitrate { stream: 3, head };
    assert_eq!(call("arbitrate 3 role 2 id 5"), arbitrate(head(2, Some(5))));
    assert_eq!(
        call("arbitrate 3 role 255 unset"),
        arbitrate(head(255, None))
    );
    assert_eq!(call("arbitrate 3 role 2"), arbitrate(head(2, None)));
    assert_eq!(call("arbitrate 3 role 2 id 0"), arbitrate(head(2, Some(0))));
    let device = Head {
        device: 9,
        ..head(2, Some(1 << 64))
    };
    assert_eq!(
        call("arbitrate 3 role 2 device 9 id 0x10000000000000000"),
        arbitrate(device)
    );
}

#[test]
fn devices() {
    let text = "device 0x7\nread role 0\nread role 0 device 3";
    assert_eq!(script(text).unwrap().device, 7);
    let devices: Vec<u64> = calls(text)
        .iter()
        .map(|call| match call {
            Call::Read { device, .. } => *device,
            other => panic!("{other:?}"),
        })
        .collect();
    assert_eq!(devices, [7, 3]);
    assert_eq!(script("open 1").unwrap().device, 1);
}

#[test]
fn configure() {
    let Call::Configure { head: given, rows } = call(CONFIGURE) else {
        panic!();
    };
    assert_eq!(given, head(0, Some(5)));
    let field = |kind, width| Field { kind, width };
    let none = Action::default();
    let first = Row {
        table: 0x0200_0001,
        owner: 1,
        size: 4,
        field_count: 4,
        fields: [field(1, 32), field(2, 32), field(3, 12), field(4, 8)],
        action_count: 2,
        actions: [
            Action {
                id: 0x0100_0001,
                count: 2,
                widths: [9, 48, 0, 0],
            },
            Action {
                id: 0x0100_0002,
                ..none
            },
            none,
            none,
        ],
    };
    assert_eq!(rows[0], first);
    assert_eq!(rows.len(), 2);
    assert_eq!(rows[1].fields[0], field(5, 4));
    // Nothing but what must be there, and a kind by number.
    let Call::Configure { rows, .. } =
        call("configure role 0\n table x 1 owner 255 size 65535 key k:9:255")
    else {
        panic!();
    };
    assert_eq!(
        (rows[0].owner, rows[0].size, rows[0].action_count),
        (255, 65535, 0)
    );
    assert_eq!(rows[0].fields[0], field(9, 255));
    let no_rows = Call::Configure {
        head: head(0, None),
        rows: vec![],
    };
    assert_eq!(call("configure role 0"), no_rows);
}

#[test]
fn updates() {
    let text = format!(
        "{CONFIGURE}write role 1 id 5 atomicity 2\n  insert table t a=1 go(1, 2)\n\
         # a comment at the margin\n  modify table t a=1\n    go(1, 2)\n\n\
         \tdelete table t a=1 go(1, 2)\n type 9 table t a=1 go(1, 2)"
    );
    let Call::Write {
        head: given,
        atomicity,
        updates,
    } = call(&text)
    else {
        panic!();
    };
    assert_eq!((given, atomicity), (head(1, Some(5)), 2));
    let kinds: Vec<u8> = updates.iter().map(|update: &Update| update.kind).collect();
    assert_eq!(kinds, [1, 2, 3, 9]);
    assert!(updates
        .iter()
        .all(|update| update.entry == updates[0].entry));
    let empty = |atomicity| Call::Write {
        head: head(0, Some(5)),
        atomicity,
        updates: vec![],
    };
    for (words, atomicity) in [
        ("id 5", 0),
        ("id 5 atomicity 0", 0),
        ("id 5 atomic", 1),
        ("atomic id 5", 1),
        ("id 5 atomicity 1", 1),
        ("id 5 atomicity 2", 2),
    ] {
        let text = format!("write role 0 {words}");
        assert_eq!(call(&text), empty(atomicity), "{text}");
    }
}

/// An action may be left out, and then nothing is sent of one; if it is written, it is sent.
#[test]
fn a_delete_needs_no_action() {
    let text = format!(
        "{CONFIGURE}write role 1 id 5\n delete table t priority 3 a=1\n \
         delete table t priority 3 a=1 go(1, 2)\n delete table t priority 3 a=1 9(0x0007)"
    );
    let Call::Write { updates, .. } = call(&text) else {
        panic!();
    };
    let key = entry("table t priority 3 a=1").key;
    for (update, action, parameters) in [
        (updates[0], 0, &[][..]),
        (updates[1], 0x0100_0001, &[Value::new(1), Value::new(2)]),
        (updates[2], 9, &[Value::from_bytes(&[0, 7]).unwrap()]),
    ] {
        let mut sent = [Value::default(); 4];
        sent[..parameters.len()].copy_from_slice(parameters);
        assert_eq!((update.kind, update.entry.key), (3, key));
        assert_eq!(
            (update.entry.action, update.entry.parameters),
            (action, sent)
        );
    }
}

#[test]
fn matches() {
    let slot = |kind, first, second: Option<u128>| Slot {
        kind,
        first: Value::new(first),
        second: second.map_or(Value::default(), Value::new),
    };
    let written =
        entry("table t d=1..0xfe b=10.0.0.0/8 a=10.0.0.1 priority 10 c=0x1&&&15 go(q=2, p=1)");
    let slots = [
        slot(1, 0x0a00_0001, None),
        slot(2, 0x0a00_0000, Some(8)),
        slot(3, 1, Some(15)),
        slot(4, 1, Some(254)),
    ];
    let expected = Entry {
        table: 0x0200_0001,
        key: Key {
            priority: 10,
            slots,
        },
        action: 0x0100_0001,
        parameters: [
            Value::new(1),
            Value::new(2),
            Value::default(),
            Value::default(),
        ],
    };
    assert_eq!(written, Entry { ..expected });
    // By number and place, the same.
    let numbers =
        "table 0x02000001 priority 10 1=10.0.0.1 2=10.0.0.0/8 3=1&&&15 4=1..254 0x01000001(1, 2)";
    assert_eq!(entry(numbers), expected);
    // With blanks around the signs.
    let blanks =
        "table t priority 10 a = 10.0.0.1 b = 10.0.0.0 / 8 c = 1 &&& 15 d = 1 .. 254 go ( 1 , 2 )";
    assert_eq!(entry(blanks), expected);
}

#[test]
fn the_form_decides_the_kind() {
    let kinds = |text: &str| entry(text).key.slots.map(|slot| slot.kind);
    assert_eq!(kinds("table t a=1/8 b=1 c=1..2 d=1&&&1"), [2, 1, 4, 3]);
    assert_eq!(kinds("table t a=* b=*"), [0; 4]);
    assert_eq!(kinds("table u a=1"), [5, 0, 0, 0]);
    assert_eq!(kinds("table 0x02000002 1=1 2=1"), [5, 1, 0, 0]);
    assert_eq!(kinds("table 0x02000009 1=1"), [1, 0, 0, 0]);
}

#[test]
fn values_are_sent_as_written() {
    let first = |text: &str| entry(&format!("table t a={text}")).key.slots[0].first;
    assert_eq!(first("0x0001ff"), Value::from_bytes(&[0, 1, 0xff]).unwrap());
    assert_eq!(first("511"), Value::new(511));
    let named = "value host = 00:00:00:00:00:01\nwrite role 0\n insert table 1 1=host 2(host)";
    let Call::Write { updates, .. } = call(named) else {
        panic!();
    };
    let six = Value::from_bytes(&[0, 0, 0, 0, 0, 1]).unwrap();
    assert_eq!(updates[0].entry.key.slots[0].first, six);
    assert_eq!(updates[0].entry.parameters[0], six);
}

#[test]
fn parts_that_are_left_out_are_sent_empty() {
    assert_eq!(entry("table t").action, 0);
    assert_eq!(entry("table t no()").parameters, [Value::default(); 4]);
    let second = [
        Value::default(),
        Value::new(7),
        Value::default(),
        Value::default(),
    ];
    assert_eq!(entry("table t go(q=7)").parameters, second);
    assert_eq!(entry("table t go(2=7)").parameters, second);
}

#[test]
fn two_names_may_have_one_id() {
    let text =
        "configure role 0\n table t 1 owner 0 size 1 action a 2 (p:8) action b 2 (q:8, r:8)\n\
                write role 0\n insert table t b(r=7)";
    let Call::Write { updates, .. } = call(text) else {
        panic!();
    };
    assert_eq!(updates[0].entry.action, 2);
    assert_eq!(updates[0].entry.parameters[1], Value::new(7));
}

#[test]
fn reads() {
    let read = |wanted| Call::Read {
        device: 1,
        role: 2,
        wanted,
    };
    assert_eq!(call("read role 2"), read(Wanted::Everything));
    assert_eq!(call("read role 2 table 7"), read(Wanted::Table(7)));
    assert_eq!(call("read role 2 table 0"), read(Wanted::Everything));
    let text = format!("{CONFIGURE}read role 2 table t only a=0x0007 priority 3");
    let mut key = Key {
        priority: 3,
        ..Key::default()
    };
    key.slots[0].kind = 1;
    key.slots[0].first = Value::from_bytes(&[0, 7]).unwrap();
    let table = 0x0200_0001;
    assert_eq!(call(&text), read(Wanted::Key { table, key }));
    let key = Key::default();
    assert_eq!(
        call("read role 2 table 0 only"),
        read(Wanted::Key { table: 0, key })
    );
}

#[test]
fn raw() {
    let frame = |text: &str| script(text).unwrap().calls.pop().unwrap().frame;
    assert_eq!(frame("raw 01 03"), [1, 3]);
    assert_eq!(
        frame("raw 0103\n  00*2.ff # more\n  07"),
        [1, 3, 0, 0, 0xff, 7]
    );
    assert_eq!(frame("raw"), [0; 0]);
}

#[test]
fn names_are_those_of_the_latest_configure() {
    let text = "configure role 0\n table x 1 owner 0 size 1\nread role 0 table x\n\
                configure role 9\n table x 2 owner 0 size 1\nread role 0 table x";
    let tables: Vec<Call> = calls(text);
    let table = |at: usize| match tables[at] {
        Call::Read {
            wanted: Wanted::Table(table),
            ..
        } => table,
        ref other => panic!("{other:?}"),
    };
    assert_eq!((table(1), table(3)), (1, 2));
}

/// What an `expect` line after [`CONFIGURE`] asks for.
fn expected(text: &str) -> Expected {
    let script = script(&format!("{CONFIGURE}expect {text}")).unwrap();
    script.calls[0].expectations[0].what.clone()
}

#[test]
fn expected_answers() {
    let not_primary = Expected::Reason(Reason::NotPrimary);
    assert_eq!(expected("10"), not_primary);
    assert_eq!(expected("not-primary"), not_primary);
    let told = |status, mark| Expected::Told {
        stream: 3,
        status,
        mark,
    };
    assert_eq!(expected("told 3 status 5"), told(5, None));
    assert_eq!(expected("told 3 status 6 mark 7"), told(6, Some(Some(7))));
    assert_eq!(expected("told 3 status 5 mark none"), told(5, Some(None)));
    assert_eq!(expected("told nobody"), Expected::ToldCount(0));
    assert_eq!(expected("told count 2"), Expected::ToldCount(2));
    let reasons = vec![Reason::Done, Reason::Stored, Reason::NotStored];
    assert_eq!(expected("pairs 0 20 not-stored"), Expected::Pairs(reasons));
    assert_eq!(expected("pairs"), Expected::Pairs(vec![]));
    assert_eq!(expected("entries 3"), Expected::Entries(3));
    let read = |text: &str, action| Expected::Entry {
        entry: entry(text),
        action,
    };
    assert_eq!(expected("entry table t a=1"), read("table t a=1", false));
    assert_eq!(
        expected("entry table t a=1 no()"),
        read("table t a=1 no()", true)
    );
}

#[test]
fn expected_states() {
    let primary = |stream| Expected::Primary { role: 0, stream };
    assert_eq!(expected("primary role 0 stream 2"), primary(Some(2)));
    assert_eq!(expected("primary role 0 none"), primary(None));
    let mark = |id| Expected::Mark { role: 1, id };
    assert_eq!(expected("mark role 1 0x10"), mark(Some(16)));
    assert_eq!(expected("mark role 1 none"), mark(None));
    let stream = |state| Expected::Stream { stream: 1, state };
    let bound = |id| stream(ExpectedState::Bound { role: 2, id });
    assert_eq!(expected("stream 1 closed"), stream(ExpectedState::Closed));
    assert_eq!(expected("stream 1 open"), stream(ExpectedState::Open));
    assert_eq!(expected("stream 1 bound role 2"), bound(None));
    assert_eq!(expected("stream 1 bound role 2 id 5"), bound(Some(Some(5))));
    assert_eq!(expected("stream 1 bound role 2 unset"), bound(Some(None)));
}

#[test]
fn expectations_go_with_the_call_above() {
    let text =
        "open 1\nexpect 0\n\nexpect  told   nobody # so\nopen 2\nexpect entry table 1 1=2 3(4)\n";
    let script = script(text).unwrap();
    let lines = |at: usize| -> Vec<(usize, &str)> {
        let expectations = script.calls[at].expectations.iter();
        expectations.map(|e| (e.line, e.text.as_str())).collect()
    };
    assert_eq!(lines(0), [(2, "expect 0"), (4, "expect told nobody")]);
    assert_eq!(lines(1), [(6, "expect entry table 1 1=2 3(4)")]);
}

/// The mistake of a text as the table has it.
fn mistake(text: &str) -> (String, String) {
    let mistake = script(text).expect_err(text);
    let Place { line, column } = mistake.place;
    (format!("{line}:{column}"), mistake.to_string())
}

#[test]
fn mistakes() {
    let mut before = String::new();
    let mut tried = 0;
    for line in include_str!("mistakes.txt").lines() {
        let parts: Vec<&str> = line.split(" | ").collect();
        match parts[..] {
            ["@ nothing"] => before = String::new(),
            ["@ row"] => before = "configure role 0\n  ".to_owned(),
            ["@ update"] => before = format!("{CONFIGURE}write role 0\n  "),
            ["@ expectation"] => before = "open 1\nexpect ".to_owned(),
            [text, place, expected, found] if !line.starts_with("# M") => {
                let text = format!("{before}{}", text.replace('~', "\n"));
                let message = format!("expected {expected}, found {found}");
                assert_eq!(mistake(&text), (place.to_owned(), message), "{line}");
                tried += 1;
            }
            _ => assert!(line.is_empty() || line.starts_with('#'), "{line}"),
        }
    }
    assert!(tried > 90, "{tried}");
}

#[test]
fn too_many_rows_and_updates() {
    let row = |at: usize| format!("\n table t{at} 1 owner 0 size 1");
    let rows = |count| {
        format!(
            "configure role 0{}",
            (0..count).map(row).collect::<String>()
        )
    };
    assert_eq!(calls(&rows(8)).len(), 1);
    let message = "expected at most 8 rows, found one more".to_owned();
    assert_eq!(mistake(&rows(9)), ("10:2".to_owned(), message));

    let updates = |count| format!("write role 0{}", "\n insert table 1".repeat(count));
    assert_eq!(calls(&updates(64)).len(), 1);
    let message = "expected at most 64 updates, found one more".to_owned();
    assert_eq!(mistake(&updates(65)), ("66:2".to_owned(), message));
}

#[test]
fn a_mistake_is_shown_under_its_line() {
    let text = "open 1\r\n\tarbitrate 1\r\n";
    let report = script(text).unwrap_err().report("five.txt", text);
    let lines: Vec<&str> = report.lines().collect();
    assert!(lines[0].starts_with("five.txt:2:2: expected no blanks before it"));
    assert_eq!(lines[1..], ["     arbitrate 1", "     ^"]);
    let long = format!("open {}", "x".repeat(100));
    let message = script(&long).unwrap_err().to_string();
    assert!(message.ends_with(&format!("found '{}..'", "x".repeat(40))));
}

#[test]
fn other_ways_to_write_a_file() {
    assert_eq!(calls("\u{feff}open 1\r\nclose 1\r\n").len(), 2);
    assert_eq!(calls("").len(), 0);
    assert_eq!(calls("open\t1\t# tab").len(), 1);
}
