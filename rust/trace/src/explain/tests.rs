//! What is found beside a reason agrees with the agent, whatever it is called with.

use savorylatch::Reason;

use super::{refused, updates};
use crate::call::Call;
use crate::dice::{Dice, SCRIPTS};
use crate::names::Names;
use crate::notation::Notations;
use crate::parse;
use crate::play::{Outcome, Player};
use crate::words::Words;

/// The reasons that were met, by their numbers.
type Met = [usize; 26];

/// Plays frames and looks at each.
fn agree(frames: &[Vec<u8>], met: &mut Met) {
    let (names, notations) = (Names::default(), Notations::default());
    let words = Words {
        names: &names,
        notations: &notations,
        device: 1,
    };
    let mut player = Player::new(1);
    for frame in frames {
        let outcome = player.call(frame).unwrap();
        one(&outcome, &words, met);
    }
}

/// What is found must be the agent's reason; and nothing where the agent finds nothing.
fn one(outcome: &Outcome, words: &Words, met: &mut Met) {
    let reason = outcome.reason;
    met[usize::from(reason.number())] += 1;
    let refused = Some(reason).filter(|reason| !reason.is_accepted());
    let finding = refused::sentence(outcome, words);
    let found = finding.map(|finding| finding.reason);
    assert_eq!(found, refused, "{:?}", outcome.call);

    let found = updates::each(outcome, |_, update, _, past| {
        let found = past.finding(update, words).map(|finding| finding.reason);
        found.unwrap_or(Reason::Done)
    });
    let pairs = match outcome.call {
        Ok(Call::Write { atomicity: 1, .. }) => all_or_none(found),
        _ => found,
    };
    assert_eq!(pairs, outcome.pairs, "{:?}", outcome.call);
    for pair in pairs {
        met[usize::from(pair.number())] += 1;
    }
}

/// The pairs of an atomic batch, by what is found of its updates: from the first that fails on,
/// nothing is said of the others.
fn all_or_none(mut found: Vec<Reason>) -> Vec<Reason> {
    if let Some(failed) = found.iter().position(|&reason| reason != Reason::Done) {
        let own = found[failed];
        found.fill(Reason::RolledBack);
        found[failed] = own;
    }
    found
}

/// The frames of all scripts, each script's after a fresh start.
fn scripts() -> Vec<Vec<Vec<u8>>> {
    let frames = |text: &&str| {
        let script = parse::script(text).unwrap();
        script.calls.into_iter().map(|call| call.frame).collect()
    };
    SCRIPTS.iter().map(frames).collect()
}

#[test]
fn scripts_agree() {
    let mut met = Met::default();
    for frames in scripts() {
        agree(&frames, &mut met);
    }
    // All that a script can bring about: 2 is about the host's buffers.
    for reason in Reason::ALL {
        let times = met[usize::from(reason.number())];
        assert_eq!(times > 0, *reason != Reason::TooShort, "{reason:?}");
    }
}

#[test]
fn changed_frames_agree() {
    let scripts = scripts();
    let mut dice = Dice::new(1);
    let mut met = Met::default();
    for _ in 0..1_500 {
        let mut frames = dice.pick(&scripts).clone();
        for _ in 0..1 + dice.below(12) {
            let at = dice.below(frames.len());
            change(&mut frames[at], &mut dice);
        }
        agree(&frames, &mut met);
    }
    let rare = Reason::ALL.iter();
    let rare = rare.filter(|reason| met[usize::from(reason.number())] < 20);
    assert!(rare.eq(&[Reason::TooShort]));
}

/// Where the atomicity of a WRITE is.
const ATOMICITY: usize = 27;

/// Changes one byte, rather one that says something, or the length.
fn change(frame: &mut Vec<u8>, dice: &mut Dice) {
    let telling: Vec<usize> = (0..frame.len()).filter(|&at| frame[at] != 0).collect();
    match dice.below(12) {
        0 => frame.truncate(dice.below(frame.len() + 1)),
        1 => frame.push(dice.byte()),
        // Any batch may be an atomic one.
        5..=7 if frame.first() == Some(&5) && frame.len() > ATOMICITY => frame[ATOMICITY] ^= 1,
        2..=4 if !frame.is_empty() => {
            let at = dice.below(frame.len());
            frame[at] = dice.byte();
        }
        _ if !telling.is_empty() => {
            let near = *dice.pick(&telling) + dice.below(2);
            if let Some(byte) = frame.get_mut(near) {
                *byte = dice.byte();
            }
        }
        _ => {}
    }
}

/// What bytes at random hardly meet: bounds.
#[test]
fn bounds_agree() {
    let text = "open 1\narbitrate 1 role 0 id 5\nconfigure role 0 id 5\n\
        \x20 table t 0x02000001 owner 0 size 255 key k:lpm:8 action a 0x01000001 (p:128)\n\
        \x20 table u 0x02000002 owner 0 size 1 key k:range:128 m:ternary:128 action a 0x01000001 (p:1)\n\
        write role 0 id 5\n\
        \x20 insert table t k=0/256 a(1)\n\
        \x20 insert table t k=0/0x0108 a(1)\n\
        \x20 insert table t k=0/8 a(0xffffffffffffffffffffffffffffffff)\n\
        \x20 insert table t k=255/8 a(1)\n\
        \x20 insert table t k=128/1 a(1)\n\
        \x20 insert table t k=64/1 a(1)\n\
        \x20 insert table u priority 1 k=0..0xffffffffffffffffffffffffffffffff a(1)\n\
        \x20 insert table u priority 1 k=1..0xffffffffffffffffffffffffffffffff a(1)\n\
        \x20 insert table u priority 2 a(2)\n\
        \x20 insert table u priority 2 m=0x80000000000000000000000000000000&&&1 a(1)\n\
        expect pairs 19 19 0 0 0 19 19 0 18 19\n\
        arbitrate 1 role 0 id 5\nexpect 0\n";
    let script = parse::script(text).unwrap();
    let report = crate::session::quiet(&script, "bounds").unwrap();
    assert!(report.held, "{}", report.text);
    let frames: Vec<Vec<u8>> = script.calls.into_iter().map(|call| call.frame).collect();
    agree(&frames, &mut Met::default());
}
