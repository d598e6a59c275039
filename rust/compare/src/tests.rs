//! That the comparison is what it claims to be. That the library agrees is
//! for the program itself to say.

use std::ffi::OsString;
use std::time::Duration;

use reference::bytes::{configure, open, read_all, write, Entry, Head, Update};
use reference::{Agent, Past};
use savorylatch::wire::Frame;

use crate::again::Reads;
use crate::bench::{Bench, Call, List, Seen, STORE_ROOM};
use crate::lists::maker::Draft;
use crate::lists::view::View;
use crate::options::Order;
use crate::tally::Tally;
use crate::twice::with_other_bytes;
use crate::{cases, faults, lists, shrink};

fn order(words: &[&str]) -> Result<Order, String> {
    Order::read(words.iter().map(OsString::from))
}

#[test]
fn command_lines() {
    let usual = Order::Compare {
        seed: 1,
        calls: 200_000,
        play: None,
    };
    assert_eq!(order(&[]), Ok(usual));
    assert_eq!(
        order(&["--faults", "--seed", "7"]),
        Ok(Order::Faults { seed: 7 })
    );
    assert_eq!(
        order(&["--list", "3"]),
        Ok(Order::List { seed: 1, list: 3 })
    );
    assert_eq!(order(&["--calls", "x", "--help"]).ok(), None);
    assert_eq!(order(&["--help", "--faults"]), Ok(Order::Help));
    for wrong in [
        &["--calls"][..],
        &["--calls", "-1"],
        &["--seed", "99999999999999999999"],
        &["--faults", "--calls", "5"],
        &["--faults", "--list", "5"],
        &["5"],
    ] {
        assert!(order(wrong).is_err(), "{wrong:?}");
    }
}

#[test]
fn cases_have_names_of_their_own() {
    let mut names: Vec<&str> = cases::all().iter().map(|case| case.name).collect();
    names.sort_unstable();
    let all = names.len();
    names.dedup();
    assert_eq!(names.len(), all);
}

#[test]
fn cases_notice_a_wrong_answer() {
    for mut case in cases::all() {
        if let Some(last) = case.steps.iter_mut().rfind(|step| !step.answer.is_empty()) {
            last.answer[0] ^= 1;
            assert!(case.run().is_err(), "{}", case.name);
        }
    }
}

#[test]
fn frames_parse_to_themselves() {
    let mut parsed = 0;
    let played = lists::play::<Agent, Past>(5, 300, |_, draft, _| {
        if let Ok(frame) = Frame::decode(&draft.call.frame) {
            assert_eq!(frame.encode(), draft.call.frame);
            parsed += 1;
        }
    });
    assert!(played.is_ok() && parsed > 100);
}

#[test]
fn a_seed_is_a_list() {
    let frames = || {
        let mut frames = Vec::new();
        let played = lists::play::<Agent, Past>(9, 200, |_, draft, _| {
            frames.push(draft.call.clone());
        });
        assert!(played.is_ok());
        frames
    };
    assert_eq!(frames(), frames());
}

#[test]
fn short_buffers_are_lent_short() {
    let list = List {
        device: 1,
        store: STORE_ROOM,
        fill: 3,
        calls: vec![
            Call {
                store_len: 0,
                answer_len: 0,
                ..Call::new(open(1))
            },
            Call::new(open(1)),
            Call::new(write(Head::set(1, 0, 1), 0, &[])),
        ],
    };
    assert!(Bench::<Agent, Past>::play(&list).is_ok());
}

#[test]
fn a_planted_fault_shrinks() {
    let names = faults::names();
    let unset = names.iter().position(|&name| name == "unset ids clash");
    let caught = unset.and_then(|number| faults::find(number, 1));
    // Two streams, each opened and bound without an id.
    assert_eq!(
        caught.map(|caught| caught.shortest.list.calls.len()),
        Some(4)
    );
}

#[test]
fn the_copy_without_a_fault_is_sound() {
    assert!(faults::is_sound(2));
    assert!(faults::names().len() >= 40);
}

#[test]
fn nothing_to_shrink_stays() {
    // Where the time is over at once, the list found is the answer.
    let names = faults::names();
    let number = names
        .iter()
        .position(|&name| name == "status 5 where another is primary");
    let Some(caught) = number.and_then(|number| faults::find(number, 3)) else {
        panic!("not found");
    };
    let calls = caught.shortest.list.calls.clone();
    let again = shrink::shrink::<Agent, Past>(caught.shortest, Duration::ZERO);
    assert_eq!(again.list.calls, calls);
}

/// What a run fails for after one call, if it is not that something was not met.
fn given_after(frame: Vec<u8>, reason: u8, answer: &[u8]) -> Vec<String> {
    let mut tally = Tally::default();
    let draft = Draft {
        call: Call::new(frame),
        aims: Vec::new(),
    };
    let seen = Seen {
        reason,
        answer,
        after_rollback: false,
        twice: false,
    };
    tally.count(&View::new(1), &draft, &seen);
    let mut wrong = tally.wrong();
    wrong.retain(|text| !text.starts_with("NOT MET"));
    wrong
}

#[test]
fn a_run_that_meets_24_fails() {
    let insert = Update::insert(Entry::default());
    for atomicity in [0, 1] {
        let batch = || write(Head::set(1, 0, 1), atomicity, &[insert, insert, insert]);
        let full = [23, 2, 0, 3, 22, 8, 22, 8, 25, 10];
        assert!(given_after(batch(), 23, &full).is_empty());
        for (answer, updates) in [
            ([23, 2, 0, 3, 24, 8, 22, 8, 25, 10], 1),
            ([23, 2, 0, 3, 25, 10, 24, 8, 24, 8], 2),
        ] {
            let text = format!("GIVEN: 24, which is free, by 0 calls and to {updates} updates");
            assert_eq!(given_after(batch(), 23, &answer), [text]);
        }
    }
    let refused = [24, 8, 0, 0];
    for frame in [
        open(1),
        read_all(1, 0, 0),
        write(Head::set(1, 0, 1), 0, &[]),
    ] {
        let text = "GIVEN: 24, which is free, by 1 calls and to 0 updates";
        assert_eq!(given_after(frame, 24, &refused), [text]);
    }
    // 24 is no reason where it is a number of records, or a byte of one.
    assert!(given_after(read_all(1, 0, 0), 0, &[0, 0, 0, 24, 24, 24]).is_empty());
    assert!(given_after(open(1), 2, &[]).is_empty());
}

/// A READ, and two answers that it might have.
fn a_read() -> (Vec<u8>, [u8; 4], [u8; 5]) {
    (read_all(1, 0, 0), [0, 0, 0, 0], [0, 0, 0, 1, 7])
}

#[test]
fn a_read_after_a_rollback_must_be_as_before() {
    let (read, none, one) = a_read();
    let batch = write(Head::set(1, 0, 1), 1, &[]);
    let mut reads = Reads::default();
    assert_eq!(reads.note(&read, &one), Ok(false));
    assert_eq!(reads.note(&read, &one), Ok(false));
    assert_eq!(reads.note(&batch, &[23, 2, 0, 0]), Ok(false));
    assert_eq!(reads.note(&read, &one), Ok(true));
    assert_eq!(reads.note(&read, &one), Ok(false));
    assert_eq!(reads.note(&batch, &[23, 2, 0, 0]), Ok(false));
    assert!(reads.note(&read, &none).is_err());
}

#[test]
fn a_read_after_a_change_may_be_anything() {
    let (read, none, one) = a_read();
    let head = Head::set(1, 0, 1);
    let changes = [
        (write(head, 1, &[]), 0),
        (write(head, 0, &[]), 0),
        (write(head, 0, &[]), 23),
        (configure(head, &[]), 0),
    ];
    for (change, reason) in changes {
        let mut reads = Reads::default();
        assert_eq!(reads.note(&read, &one), Ok(false));
        assert_eq!(reads.note(&change, &[reason, 0, 0, 0]), Ok(false));
        assert_eq!(reads.note(&read, &none), Ok(false));
    }
    // A refused call changes nothing.
    for change in [
        write(head, 1, &[]),
        write(head, 0, &[]),
        configure(head, &[]),
    ] {
        let mut reads = Reads::default();
        assert_eq!(reads.note(&read, &one), Ok(false));
        assert_eq!(reads.note(&change, &[10, 7, 0, 0]), Ok(false));
        assert!(reads.note(&read, &none).is_err());
    }
}

/// Where the updates are in a WRITE, and in an update what follows the key.
const UPDATES_AT: usize = 29;
const REST_AT: usize = 149;

#[test]
fn other_bytes_are_those_after_the_keys_of_deletes() {
    let entry = Entry::default();
    let updates = [
        Update::delete(entry),
        Update::insert(entry),
        Update::modify(entry),
        Update { kind: 131, entry },
        Update::delete(entry),
    ];
    let frame = write(Head::set(1, 0, 1), 1, &updates);
    for seed in 0..40 {
        let other = with_other_bytes(&frame, seed).expect("there are DELETEs");
        assert_eq!(other[..UPDATES_AT], frame[..UPDATES_AT]);
        let pairs = other[UPDATES_AT..]
            .chunks(221)
            .zip(frame[UPDATES_AT..].chunks(221));
        for (now, then) in pairs {
            assert_eq!(now[..REST_AT], then[..REST_AT]);
            assert_eq!(now[REST_AT..] != then[REST_AT..], then[0] == 3);
        }
    }
    assert_eq!(
        with_other_bytes(&write(Head::set(1, 0, 1), 0, &updates[1..4]), 1),
        None
    );
    assert_eq!(with_other_bytes(&frame[..frame.len() - 1], 1), None);
    assert_eq!(with_other_bytes(&read_all(1, 0, 0), 1), None);
}

#[test]
fn playing_twice_shows_what_is_looked_at_after_a_key() {
    let shows = |name| {
        let number = faults::names().iter().position(|&other| other == name);
        assert!(number.is_some(), "{name}");
        faults::shows_when_played_twice(number, 1)
    };
    for name in [
        "the action of a DELETE is checked under 17",
        "the parameters of a DELETE are checked under 18",
        "a DELETE is looked up by the whole entry",
        "a rolled back DELETE leaves its own action",
        "in an atomic batch a DELETE is checked as a whole entry",
    ] {
        assert!(shows(name), "{name}");
    }
    // What is wrong both times is for others to find.
    assert!(!shows("the key of a DELETE is not checked under 17"));
    assert!(!shows("MODIFY leaves the parameters"));
    assert!(!faults::shows_when_played_twice(None, 1));
}
