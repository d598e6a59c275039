//! That the comparison can fail: a trace changed in one place is found out, at its call and fact.

use std::ops::Range;

use crate::{check, file};

/// Script, call, the fact that must be reported, what stands once in the call's lines, and what is
/// put there. A line that is not understood is reported as such.
const CHANGES: &[(&str, usize, &str, &str, &str)] = &[
    // Reason and code.
    ("five-events", 10, "answer", "-primary (10)", "-primary (11)"),
    ("five-events", 10, "answer", "DENIED (7)", "DENIED (3)"),
    ("refusals", 66, "answer", "-roles (16)", "-roles (15)"),
    ("five-events", 1, "answer", "\n      answer     done (0), OK (0): stream 1 is open, and not bound to a role yet", ""),
    ("p5", 4, "answer", "\n     answer ", "\n     answer     done (0), OK (0): so\n     answer "),
    // Who is told what.
    ("five-events", 6, "told", "stream 1   is", "stream 3   is"),
    ("five-events", 6, "told", "another stream is primary of role 0, the mark is 6 (status 6)", "role 0 has no primary, the mark is 6 (status 5)"),
    ("five-events", 6, "line", "(status 6)", "(status 5)"),
    ("five-events", 6, "told", "another stream is primary of role 0", "another stream is primary of role 1"),
    ("five-events", 8, "told", "stream 2   is told: role 0 has no primary, the mark is 6", "stream 2   is told: role 0 has no primary, the mark is 4"),
    ("refusals", 24, "told", "there is no mark yet", "the mark is 5"),
    ("p2-p3-p4", 5, "told", "the mark is 5 (status", "there is no mark yet (status"),
    ("five-events", 6, "told", "\n      stream 1   is told: another stream is primary of role 0, the mark is 6 (status 6)", ""),
    ("five-events", 9, "told", "\n      role", "\n      stream 1   is told: role 0 has no primary, the mark is 6 (status 5)\n      role"),
    ("five-events", 8, "told", "stream 1   is told: role 0 has no primary, the mark is 6 (status 5)\n      stream 2 ", "stream 2   is told: role 0 has no primary, the mark is 6 (status 5)\n      stream 1 "),
    // The updates.
    ("p9", 4, "pairs", "stored (20)", "stored (21)"),
    ("p9", 4, "pairs", "EXISTS (6)", "EXISTS (5)"),
    ("five-events", 4, "pairs", "-> done (0), OK (0)", "-> not looked at"),
    ("five-events", 10, "pairs", "-> not looked at", "-> done (0), OK (0)"),
    ("tenant-moved", 4, "parts", "\n      update 2   insert table tenants dst=10.0.0.2 forward(port=7)  -> done (0), OK (0)", ""),
    ("five-events", 10, "parts", "\n      update 1   modify table tenants dst=10.0.0.1 forward(port=7)  -> not looked at", ""),
    ("five-events", 10, "parts", "\n      role", "\n      update 2   modify table tenants dst=10.0.0.1 forward(port=7)  -> not looked at\n      role"),
    ("tenant-moved", 4, "line", "update 2", "update 3"),
    // Those of an atomic batch.
    ("atomic-move", 7, "answer", "-failed (23)", "-failed (25)"),
    ("atomic-move", 7, "pairs", "-full (22)", "-full (25)"),
    ("atomic-move", 7, "pairs", "port=9)  -> rolled-back (25)", "port=9)  -> rolled-back (22)"),
    ("atomic-move", 7, "pairs", "port=9)  -> rolled-back (25), ABORTED (10)", "port=9)  -> rolled-back (25), ABORTED (9)"),
    ("atomic-move", 7, "line", "port=9)  -> rolled-back (25), ABORTED (10)", "port=9)  -> done (0), OK (0)"),
    ("atomic-move", 7, "pairs", "type 9 table east dst=10.0.0.3 forward(port=7)  -> rolled-back (25), ABORTED (10)", "type 9 table east dst=10.0.0.3 forward(port=7)  -> bad-form (17), INVALID_ARGUMENT (3)"),
    ("atomic-move", 8, "entries", "dst=10.0.0.2 forward(port=7)\n      entry 2    table east dst=10.0.0.3", "dst=10.0.0.3 forward(port=7)\n      entry 2    table east dst=10.0.0.2"),
    ("five-events-atomic", 11, "pairs", "west dst=10.0.0.1 forward(port=8)  -> not looked at", "west dst=10.0.0.1 forward(port=8)  -> rolled-back (25), ABORTED (10)"),
    // Those of DELETEs, by their keys alone.
    ("clean-up", 8, "pairs", "dst=10.0.0.1                    -> done (0), OK (0)", "dst=10.0.0.1                    -> not looked at"),
    ("clean-up", 10, "pairs", "-broken (19)", "-broken (17)"),
    ("clean-up", 12, "pairs", "-wide (18), OUT_OF_RANGE (11)", "-form (17), INVALID_ARGUMENT (3)"),
    ("clean-up", 12, "pairs", "dst=10.0.0.1                         -> not-stored (21)", "dst=10.0.0.1                         -> not-stored (17)"),
    ("clean-up", 13, "pairs", "-broken (19), INVALID_ARGUMENT (3)", "-wide (18), OUT_OF_RANGE (11)"),
    // The entries.
    ("five-events", 11, "entries", "port=8", "port=7"),
    ("five-events", 11, "entries", "dst=10.0.0.1", "dst=10.0.0.2"),
    ("values-and-widths", 9, "entries", "dst=0x0a000000/8", "dst=0x0a000000/9"),
    ("values-and-widths", 9, "entries", "dst=0x0a000001/32", "dst=0x0a000001"),
    ("values-and-widths", 9, "entries", "table routes set(out=3)", "table routes dst=0x80000000/1 set(out=3)"),
    ("values-and-widths", 14, "entries", "entry 1    table hosts mac=00:11:22:33:44:55", "entry 1    table hosts mac=00:11:22:33:44:56"),
    ("values-and-widths", 12, "entries", "entry 1    table rules priority 20", "entry 1    table rules priority 21"),
    ("values-and-widths", 6, "line", "0x01ff", "0x0001ff"),
    ("roles", 11, "entries", "table red", "table blue"),
    ("tenant-moved", 12, "entries", "drop()", "forward(port=8)"),
    ("tenant-moved", 12, "line", "drop()", "drop(port=8)"),
    ("tenant-moved", 12, "line", "dst=", "src="),
    ("roles", 13, "entries", "red dst=10.1.0.1 forward(port=11)\n      entry 2    table blue dst=10.2.0.1 forward(port=21)", "blue dst=10.2.0.1 forward(port=21)\n      entry 2    table red dst=10.1.0.1 forward(port=11)"),
    ("roles", 13, "entries", "\n      entry 2    table blue dst=10.2.0.1 forward(port=21)", ""),
    ("roles", 13, "line", "\n      entry 1    table red dst=10.1.0.1 forward(port=11)", ""),
    ("roles", 14, "entries", "\n      role 0", "\n      entry 1    table core dst=10.0.0.1 forward(port=1)\n      role 0"),
    // Primaries and marks.
    ("five-events", 7, "roles", "primary is stream 2", "primary is stream 1"),
    ("five-events", 7, "roles", "primary is stream 2", "no primary"),
    ("five-events", 9, "roles", "no primary,", "primary is stream 1,"),
    ("five-events", 9, "roles", "the mark is 6", "the mark is 5"),
    ("five-events", 9, "roles", "role 0     no", "role 1     no"),
    ("roles", 19, "roles", "\n      role 1     no primary, the mark is 5", ""),
    ("roles", 4, "roles", "\n      role 0     primary is stream 0, the mark is 1", "\n      role 0     primary is stream 0, the mark is 1\n      role 1     no primary, the mark is 1"),
    // The frame of it.
    ("five-events", 6, "number", "6   arbitrate", "7   arbitrate"),
    ("values-and-widths", 3, "parts", "\n      row 4      table hosts 0x02000004 owner 0 size 8 key mac:exact:48 addr:exact:128 action set 0x01000001 (out:9)", ""),
    ("p9", 4, "line", "\n     role", "\n     NOT HELD   line 9: expect 0; but the reason is some-failed (23)\n     role"),
    ("p9", 4, "line", "\n     update 2", "\n                no update failed here\n     update 2"),
    // Forms of entries that no trace among the scripts has.
    ("forms", 5, "entries", "m=1&&&0x0fff", "m=1&&&0x0ffe"),
    ("forms", 5, "entries", "m=1&&&0x0fff", "m=2&&&0x0fff"),
    ("forms", 5, "entries", "r=10..20", "r=10..21"),
    ("forms", 5, "entries", "r=10..20", "r=10/20"),
    ("forms", 5, "entries", "o=0 ", ""),
    ("forms", 5, "entries", "q=00:00:00:00:00:09", "q=00:00:00:00:01:09"),
    ("forms", 5, "line", "(p=7, q=", "(q=7, p="),
    ("forms", 5, "roles", "0x10000000000000000", "0x10000000000000001"),
    ("forms", 7, "entries", "table 0x02000001 priority 3", "table 0x02000002 priority 3"),
    ("forms", 7, "entries", "4=0 0x01000001(7", "4=0 0x01000002(7"),
    ("forms", 7, "entries", "1=0.0.0.0", "2=0.0.0.0"),
    ("forms", 7, "line", " 4=0", " 2=0"),
    ("forms", 7, "line", " 4=0", " 5=0"),
    ("forms", 8, "pairs", "-> not looked at", "-> done (0), OK (0)"),
];

/// Every form of a match, other ids and another device; entries by number after a `configure` that
/// was refused, and a bad frame with an update.
const FORMS: &str = "\
device 7
open 1
arbitrate 1 role 0 id 0x10000000000000000
configure role 0 id 0x10000000000000000
  table t 0x02000001 owner 0 size 4 key e:exact:32 m:ternary:16 r:range:16 o:optional:8
    action a 0x01000001 (p:9, q:48)
    action action 0x01000002 ()
write role 0 id 0x10000000000000000
  insert table t priority 3 e=10.0.0.1 m=1&&&0x0fff r=10..20 o=0 a(p=7, q=00:00:00:00:00:09)
  insert table t priority 4 e=0.0.0.0 action()
read role 0
configure role 1 id 1
  table x 0x02000009 owner 0 size 1 key k:exact:8 action a 0x01000001 ()
read role 0
write role 0 id 0
  insert table x k=1 a()
";

/// A script and its trace: one that stands among the scripts, or the one that is printed for [`FORMS`].
fn script_and_trace(name: &str) -> (String, String) {
    if name != "forms" {
        return (file(name, "txt"), file(name, "trace"));
    }
    let script = trace::parse::script(FORMS).expect("the forms are a script");
    let report = trace::session::trace(&script).expect("every answer can be read");
    (FORMS.to_owned(), report.text)
}

/// Where the lines of a call stand in a trace.
fn lines_of(trace: &str, call: usize) -> Range<usize> {
    let mut at = 0;
    let mut starts = Vec::new();
    for line in trace.split_inclusive('\n') {
        if !line.starts_with(' ') {
            starts.push(at);
        }
        at += line.len();
    }
    starts[call - 1]..starts[call]
}

/// A trace in which one place is changed.
fn changed(trace: &str, call: usize, from: &str, to: &str) -> String {
    let range = lines_of(trace, call);
    let lines = &trace[range.clone()];
    assert_eq!(lines.matches(from).count(), 1, "'{from}' in\n{lines}");
    let mut trace = trace.to_owned();
    trace.replace_range(range, &lines.replace(from, to));
    trace
}

#[test]
fn a_change_in_one_place_is_found() {
    for &(name, call, fact, from, to) in CHANGES {
        let (script, trace) = script_and_trace(name);
        assert_eq!(check(&script, &trace), Ok(()), "{name}, unchanged");
        let found = check(&script, &changed(&trace, call, from, to)).err();
        let found = found.unwrap_or_else(|| "nothing".to_owned());
        assert!(
            found.starts_with(&format!("call {call}, {fact}: ")),
            "{name}, call {call}, {fact}: with '{to}' for '{from}' this is found: {found}"
        );
    }
}

#[test]
fn calls_too_few_or_too_many_are_found() {
    let (script, trace) = script_and_trace("five-events");
    let found = |trace: &str| check(&script, trace).unwrap_err();
    for call in [1, 6, 11] {
        let mut less = trace.clone();
        less.replace_range(lines_of(&trace, call), "");
        assert!(found(&less).starts_with(&format!("call {call}, number: ")));
        let mut more = trace.clone();
        let range = lines_of(&trace, call);
        more.insert_str(range.end, &trace[range]);
        assert!(found(&more).starts_with(&format!("call {}, number: ", call + 1)));
    }
    let miscounted = trace.replace("\n11 calls", "\n12 calls");
    assert!(found(&miscounted).starts_with("last line: "));
    assert!(found("").starts_with("last line: "));
}
