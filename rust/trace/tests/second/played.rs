//! What the second implementation answers to a script's frames, read from the bytes into facts.

use reference::bytes::{self, arbitrate, close, open, Head, Key, Slot, Value};
use reference::frame::{ROW, STREAMS, UPDATE};
use reference::streams::ROLES;
use reference::{Agent, Command, ANSWER_ROOM, STORE_ROOM};

use crate::facts::{Call, Entry, Match, Pair, Role, Told};

/// A second implementation's agent with an answer buffer.
pub struct Player {
    device: u64,
    agent: Agent,
    answer: Vec<u8>,
}

impl Player {
    /// With a fresh agent.
    pub fn new(device: u64) -> Player {
        Player {
            device,
            agent: Agent::new(device),
            answer: vec![0; ANSWER_ROOM],
        }
    }

    /// One call; the mistake says what is wrong with the answer itself.
    pub fn call(&mut self, frame: &[u8]) -> Result<Call, &'static str> {
        let returned = self.agent.call(frame, STORE_ROOM, &mut self.answer);
        if returned != self.answer[0] {
            return Err("another reason is returned than written");
        }
        let mut call = read(frame, &self.answer).ok_or("a record cannot be read")?;
        call.roles = (0..ROLES).filter_map(|role| self.role(role)).collect();
        Ok(call)
    }

    /// Primary and mark of a role, by what each stream hears that comes to it anew. The primary is
    /// the one whose leaving left none: it hears 5 where others hear 6. If the role has eight
    /// streams, only these find a place in it, which is enough.
    fn role(&mut self, role: u8) -> Option<Role> {
        let heard = (0..STREAMS).filter_map(|stream| self.hears(stream, role));
        let heard: Vec<Told> = heard.collect();
        let without = |status| heard.iter().find(|told| told.status == status);
        let primary = without(6).and_then(|_| without(5));
        Some(Role {
            role,
            primary: primary.map(|told| told.stream),
            mark: heard.first()?.mark?,
        })
    }

    /// What a stream hears that leaves and comes to a role without an id, by which the role gets no
    /// other primary and no other mark. It is done to a copy of the agent.
    fn hears(&mut self, stream: u8, role: u8) -> Option<Told> {
        let mut agent = self.agent.clone();
        let anew = arbitrate(stream, Head::unset(self.device, role));
        for frame in [&close(stream), &open(stream), &anew] {
            agent.call(frame, STORE_ROOM, &mut self.answer);
        }
        read(&anew, &self.answer)?.told.pop()
    }
}

/// An answer's facts, but for the roles.
fn read(frame: &[u8], answer: &[u8]) -> Option<Call> {
    let (&[reason, code, high, low], rest) = answer.split_first_chunk()?;
    let count = usize::from(u16::from_be_bytes([high, low]));
    let mut call = Call {
        answers: vec![(reason, code)],
        parts: parts(frame),
        ..Call::default()
    };
    match frame.first() {
        Some(2 | 3) => call.told = records(rest, count, told)?,
        Some(5) => call.pairs = records(rest, count, pair)?,
        Some(6) => call.entries = records(rest, count, entry)?,
        _ => (count == 0).then_some(())?,
    }
    Some(call)
}

/// How many rows or updates the second implementation finds in a frame.
fn parts(frame: &[u8]) -> Option<usize> {
    match Command::read(frame).ok()? {
        Command::Configure { rows, .. } => Some(rows.len() / ROW),
        Command::Write { updates, .. } => Some(updates.len() / UPDATE),
        _ => Some(0),
    }
}

/// Reads records of one length.
fn records<const N: usize, T>(
    bytes: &[u8],
    count: usize,
    record: fn(&[u8; N]) -> Option<T>,
) -> Option<Vec<T>> {
    let bytes = bytes.get(..count * N)?.chunks_exact(N);
    bytes.map(|bytes| record(bytes.first_chunk()?)).collect()
}

fn told(&[stream, role, status, flag, ref id @ ..]: &[u8; 20]) -> Option<Told> {
    let mark = match (flag, u128::from_be_bytes(*id)) {
        (0, 0) => None,
        (1, id) => Some(id),
        _ => return None,
    };
    Some(Told {
        stream,
        role,
        status,
        mark,
    })
}

fn pair(&[reason, code]: &[u8; 2]) -> Option<Pair> {
    Some((reason, code))
}

fn entry(record: &[u8; 220]) -> Option<Entry> {
    let rest = &mut &record[..];
    let table = u32::from_be_bytes(take(rest)?);
    let priority = u32::from_be_bytes(take(rest)?);
    let mut fields = [None; 4];
    for field in &mut fields {
        *field = slot(rest)?;
    }
    let action = u32::from_be_bytes(take(rest)?);
    let mut values = [None; 4];
    for slot in &mut values {
        *slot = value(rest)?;
    }
    Some(Entry {
        table,
        priority,
        fields,
        action,
        // Those in use stand before those that are not.
        parameters: match values.is_sorted_by_key(Option::is_none) {
            true => values.into_iter().flatten().collect(),
            false => return None,
        },
    })
}

/// A slot; the inner `None` is an omitted one.
fn slot(rest: &mut &[u8]) -> Option<Option<Match>> {
    let [kind] = take(rest)?;
    Some(match (kind, value(rest)?, value(rest)?) {
        (0, None, None) => None,
        (1 | 5, Some(value), None) => Some(Match::Value(value)),
        (2, Some(value), Some(prefix)) => Some(Match::Prefix(value, prefix)),
        (3, Some(value), Some(mask)) => Some(Match::Mask(value, mask)),
        (4, Some(low), Some(high)) => Some(Match::Range(low, high)),
        _ => return None,
    })
}

/// A value in shortest form, which is the only one that may be stored; the inner `None` is an unused
/// one.
fn value(rest: &mut &[u8]) -> Option<Option<u128>> {
    let [length] = take(rest)?;
    let bytes: [u8; 16] = take(rest)?;
    let (digits, padding) = bytes.split_at_checked(usize::from(length))?;
    let shortest = digits.len() == 1 || digits.first() != Some(&0);
    if !shortest || padding.iter().any(|&byte| byte != 0) {
        return None;
    }
    let number = digits.iter().fold(0, |n, &byte| n << 8 | u128::from(byte));
    Some((!digits.is_empty()).then_some(number))
}

/// Takes the first bytes.
fn take<const N: usize>(rest: &mut &[u8]) -> Option<[u8; N]> {
    let (taken, behind) = rest.split_first_chunk()?;
    *rest = behind;
    Some(*taken)
}

#[test]
fn a_stored_value_that_is_not_in_shortest_form_is_none() {
    let read = |first: Value, parameter: Value| {
        let key = Key::new(0, &[Slot::exact(first)]);
        entry(&bytes::Entry::new(1, key, 2, &[parameter]).bytes()).map(|_| ())
    };
    let seven = Value::of(7);
    let ragged = |length| Value {
        length,
        bytes: [1; 16],
    };
    assert_eq!(read(seven, Value::of(0)), Some(()));
    assert_eq!(read(ragged(16), seven), Some(()));
    for wrong in [
        Value::padded(7, 2),
        Value::padded(0, 2),
        ragged(15),
        ragged(17),
    ] {
        assert_eq!(read(wrong, seven), None, "{wrong:?}");
        assert_eq!(read(seven, wrong), None, "{wrong:?}");
    }
}

#[test]
fn primary_and_mark_are_known_where_no_stream_is_free() {
    let mut player = Player::new(1);
    let mut play = |frame: &[u8]| player.call(frame).expect("the answer can be read").roles;
    for stream in 0..32 {
        play(&open(stream));
    }
    for stream in 0..8 {
        play(&arbitrate(stream, Head::set(1, 3, 10 + u128::from(stream))));
    }
    let roles = play(&arbitrate(9, Head::set(1, 7, 1)));
    let role = |role, primary, mark| Role {
        role,
        primary,
        mark,
    };
    assert_eq!(roles, [role(3, Some(7), 17), role(7, Some(9), 1)]);
    let roles = play(&close(7));
    assert_eq!(roles, [role(3, None, 17), role(7, Some(9), 1)]);
}
