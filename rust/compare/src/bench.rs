//! One call to all three: the library, the second implementation, looking back.
//!
//! A [`Bench`] lends the library a store and an answer buffer full of noise
//! and then accounts for every byte of both: what the other two say must have
//! been written stands there, and nothing else has changed.

use reference::Expected;

use crate::again::Reads;
use crate::describe::hex;
use crate::dice::noise;
use crate::twice::{Library, Twin};

/// The least bytes an answer buffer must hold.
pub const ANSWER_ROOM: usize = 57_344;
/// The least bytes a store must hold. Later ones are never touched.
pub const STORE_ROOM: usize = 56_320;
/// Bytes of an entry.
const ENTRY: usize = 220;

/// The second implementation, or a copy of it.
pub trait Second {
    fn fresh(device: u64) -> Self;
    fn call(&mut self, frame: &[u8], store_len: usize, answer: &mut [u8]) -> u8;
    fn store_image(&self) -> Vec<u8>;
}

/// The evaluator that looks back, or a copy of it.
pub trait LookBack {
    /// Is the library compared with it?
    const JUDGES: bool = true;

    fn fresh(device: u64) -> Self;
    fn expect(&mut self, frame: &[u8], roomy: bool) -> Expected;
    fn store_image(&self) -> Vec<u8>;
}

/// Makes the two evaluations of a crate or module fit for a [`Bench`].
macro_rules! sides {
    ($agent:path, $past:path) => {
        impl $crate::bench::Second for $agent {
            fn fresh(device: u64) -> Self {
                Self::new(device)
            }

            fn call(&mut self, frame: &[u8], store_len: usize, answer: &mut [u8]) -> u8 {
                self.call(frame, store_len, answer)
            }

            fn store_image(&self) -> Vec<u8> {
                self.store_image()
            }
        }

        impl $crate::bench::LookBack for $past {
            fn fresh(device: u64) -> Self {
                Self::new(device)
            }

            fn expect(&mut self, frame: &[u8], roomy: bool) -> reference::Expected {
                let expected = self.expect(frame, roomy);
                reference::Expected {
                    reason: expected.reason,
                    answer: expected.answer,
                    accepted: expected.accepted,
                    effects: expected.effects,
                    authorised: expected.authorised,
                }
            }

            fn store_image(&self) -> Vec<u8> {
                self.store_image()
            }
        }
    };
}
pub(crate) use sides;

sides!(reference::Agent, reference::Past);

/// Looking back, kept for what it knows of the list; the library is not
/// compared with it.
pub struct Silent<L>(L);

impl<L: LookBack> LookBack for Silent<L> {
    const JUDGES: bool = false;

    fn fresh(device: u64) -> Self {
        Silent(L::fresh(device))
    }

    fn expect(&mut self, frame: &[u8], roomy: bool) -> Expected {
        self.0.expect(frame, roomy)
    }

    fn store_image(&self) -> Vec<u8> {
        self.0.store_image()
    }
}

/// One call of a list, with all that it is lent.
#[derive(Clone, Debug, PartialEq, Eq)]
pub struct Call {
    pub frame: Vec<u8>,
    pub answer_len: usize,
    /// How much of the store is lent; never more than there is.
    pub store_len: usize,
    /// What the answer buffer holds before the call.
    pub fill: u64,
    /// What happens to the free bytes of the store before the call.
    pub poison: Option<Poison>,
}

impl Call {
    /// A call with buffers that just suffice.
    pub fn new(frame: Vec<u8>) -> Call {
        Call {
            frame,
            answer_len: ANSWER_ROOM,
            store_len: STORE_ROOM,
            fill: 0,
            poison: None,
        }
    }

    /// Are both buffers long enough?
    pub fn is_roomy(&self) -> bool {
        self.answer_len >= ANSWER_ROOM && self.store_len >= STORE_ROOM
    }
}

/// What is put into the bytes after the last entry, up to [`STORE_ROOM`].
#[derive(Clone, Copy, Debug, PartialEq, Eq)]
pub enum Poison {
    /// Noise.
    Noise(u64),
    /// The same byte everywhere.
    Byte(u8),
    /// The entries that are present, again and again.
    Entries,
}

/// A list of calls of one agent.
#[derive(Clone, Debug, PartialEq, Eq)]
pub struct List {
    pub device: u64,
    /// Bytes of the store.
    pub store: usize,
    /// What the store holds at first.
    pub fill: u64,
    pub calls: Vec<Call>,
}

impl List {
    /// The same agent and store, without calls.
    pub fn clone_empty(&self) -> List {
        List {
            calls: Vec::new(),
            ..*self
        }
    }
}

/// A difference, in words.
#[derive(Clone, Debug)]
pub struct Difference(pub String);

/// What a call came to, where all agree on it.
pub struct Seen<'a> {
    pub reason: u8,
    /// The bytes that were written.
    pub answer: &'a [u8],
    /// Is it a READ that was made before a batch that was rolled back too?
    pub after_rollback: bool,
    /// Was it played again with other bytes after the keys of DELETEs?
    pub twice: bool,
}

/// The library beside the two that it is compared with.
pub struct Bench<S, L> {
    library: savorylatch::Agent,
    second: S,
    past: L,
    reads: Reads,
    twin: Twin<Library>,
    store: Vec<u8>,
    /// The store as the last call found it.
    before: Vec<u8>,
    /// Bytes of the entries present.
    used: usize,
    answer: Vec<u8>,
    other: Vec<u8>,
}

impl<S: Second, L: LookBack> Bench<S, L> {
    /// A fresh agent with a store of so many bytes.
    pub fn new(device: u64, store: usize, fill: u64) -> Self {
        let store = noise(fill, store).to_vec();
        Bench {
            library: savorylatch::Agent::new(device),
            second: S::fresh(device),
            past: L::fresh(device),
            reads: Reads::default(),
            twin: Twin::new(device),
            before: store.clone(),
            store,
            used: 0,
            answer: Vec::new(),
            other: Vec::new(),
        }
    }

    /// Plays a list, up to the first difference.
    pub fn play(list: &List) -> Result<(), (usize, Difference)> {
        let mut bench = Self::new(list.device, list.store, list.fill);
        for (at, call) in list.calls.iter().enumerate() {
            bench.call(call).map_err(|difference| (at, difference))?;
        }
        Ok(())
    }

    /// Plays one call to all three and compares everything it leaves behind.
    pub fn call(&mut self, call: &Call) -> Result<Seen<'_>, Difference> {
        if let Some(poison) = call.poison {
            self.poison(poison);
        }
        let fill = noise(call.fill, call.answer_len);
        for buffer in [&mut self.answer, &mut self.other] {
            buffer.clear();
            buffer.extend_from_slice(fill);
        }

        let lent = &mut self.store[..call.store_len];
        let returned = self.library.call_in(&call.frame, lent, &mut self.answer) as u8;
        let second = self
            .second
            .call(&call.frame, call.store_len, &mut self.other);
        let expected = self.past.expect(&call.frame, call.is_roomy());

        let image = expected.accepted.then(|| self.past.store_image());
        let verdict = self.verdict(call, returned, second, &expected, image.as_deref());
        let (after_rollback, twice) = verdict.map_err(|text| {
            let answers = [&self.answer, &self.other].map(|answer| written(answer, fill));
            difference(&text, [returned, second], answers, &expected)
        })?;
        if let Some(image) = image {
            self.used = image.len();
            self.before.copy_from_slice(&self.store);
        }
        Ok(Seen {
            reason: returned,
            answer: &self.answer[..expected.answer.len()],
            after_rollback,
            twice,
        })
    }

    /// Compares all that a call leaves behind. Gives what [`Seen`] says of it
    /// beside reason and answer.
    fn verdict(
        &mut self,
        call: &Call,
        returned: u8,
        second: u8,
        expected: &Expected,
        image: Option<&[u8]>,
    ) -> Result<(bool, bool), String> {
        let kept = self.agrees_with_second(returned, second)?;
        if L::JUDGES {
            self.agrees_with_past(returned, expected, noise(call.fill, call.answer_len))?;
            if image.is_some_and(|image| image.len() != kept || !self.store.starts_with(image)) {
                return Err("library and looking back: the entries kept differ".to_owned());
            }
        }
        let answer = &self.answer[..expected.answer.len()];
        let after_rollback = self.reads.note(&call.frame, answer)?;
        let twice = self.twin.call(call, returned, &self.answer)?;
        if image.is_some_and(|image| !self.twin.keeps(image)) {
            return Err("the list played twice: the entries kept differ".to_owned());
        }
        Ok((after_rollback, twice))
    }

    /// Gives the bytes of the entries that the second implementation keeps.
    fn agrees_with_second(&self, returned: u8, second: u8) -> Result<usize, String> {
        let differs = |text: String| Err(format!("library and second implementation: {text}"));
        if returned != second {
            return differs("the reasons returned differ".to_owned());
        }
        if let Some(at) = first_difference(&self.answer, &self.other) {
            return differs(format!("the answers differ from byte {at} on"));
        }
        let image = self.second.store_image();
        let Some(entries) = self.store.get(..image.len()) else {
            return differs(format!("there are {} bytes of entries", image.len()));
        };
        if let Some(at) = first_difference(entries, &image) {
            return differs(format!(
                "the stores differ at byte {at}, in entry {}",
                at / ENTRY
            ));
        }
        let tail = STORE_ROOM.min(self.store.len());
        if let Some(at) = first_difference(&self.store[tail..], &self.before[tail..]) {
            return differs(format!("byte {} of the store was touched", tail + at));
        }
        let refused = returned != 0 && returned != 23;
        if refused {
            if let Some(at) = first_difference(&self.store, &self.before) {
                return differs(format!("a refused call changed byte {at} of the store"));
            }
        }
        Ok(image.len())
    }

    fn agrees_with_past(
        &self,
        returned: u8,
        expected: &Expected,
        fill: &[u8],
    ) -> Result<(), String> {
        let differs = |text: String| Err(format!("library and looking back: {text}"));
        if returned != expected.reason {
            return differs("the reasons returned differ".to_owned());
        }
        if (returned == 0 || returned == 23) != expected.accepted {
            return differs("reason 0 or 23 is not what was accepted".to_owned());
        }
        let Some((written, rest)) = self.answer.split_at_checked(expected.answer.len()) else {
            return differs("the answers differ in length".to_owned());
        };
        if let Some(at) = first_difference(written, &expected.answer) {
            return differs(format!("the answers differ from byte {at} on"));
        }
        if let Some(at) = first_difference(rest, &fill[written.len()..]) {
            let at = written.len() + at;
            return differs(format!("byte {at} of the answer buffer was touched"));
        }
        let pairs = written.get(4..).unwrap_or_default().chunks(2);
        let took_effect = pairs.map(|pair| pair == [0, 0]);
        if !expected.effects.is_empty() && !took_effect.eq(expected.effects.iter().copied()) {
            return differs("pairs (0, 0) are not the updates that took effect".to_owned());
        }
        if !expected.authorised {
            return differs("an effect without the authority of a live primary".to_owned());
        }
        Ok(())
    }

    /// Fills the free bytes. The record is saved and restored beside it, as a
    /// host may do.
    fn poison(&mut self, poison: Poison) {
        self.library = self.library.clone();
        let end = STORE_ROOM.min(self.store.len());
        let (entries, free) = self.store[..end].split_at_mut(self.used);
        match poison {
            Poison::Noise(seed) => free.copy_from_slice(noise(seed, free.len())),
            Poison::Byte(byte) => free.fill(byte),
            Poison::Entries if entries.is_empty() => {}
            Poison::Entries => {
                for place in free.chunks_mut(entries.len()) {
                    place.copy_from_slice(&entries[..place.len()]);
                }
            }
        }
        self.before[..end].copy_from_slice(&self.store[..end]);
    }
}

/// A difference, with what the library and the second implementation returned
/// and answered, and with what looking back expects.
fn difference(
    text: &str,
    [returned, second]: [u8; 2],
    [answer, other]: [&[u8]; 2],
    expected: &Expected,
) -> Difference {
    Difference(format!(
        "{text}\n  library:               returned {returned}, answer {}\n  \
         second implementation: returned {second}, answer {}\n  \
         looking back:          returned {}, answer {}",
        shown(answer),
        shown(other),
        expected.reason,
        shown(&expected.answer),
    ))
}

/// Where two slices differ first; the end of the shorter one counts.
fn first_difference(one: &[u8], other: &[u8]) -> Option<usize> {
    if one == other {
        return None;
    }
    Some(one.iter().zip(other).take_while(|(a, b)| a == b).count())
}

/// The bytes of a buffer up to the last one that is not as it was.
fn written<'a>(buffer: &'a [u8], before: &[u8]) -> &'a [u8] {
    let mut pairs = buffer.iter().zip(before);
    let end = pairs.rposition(|(now, then)| now != then);
    &buffer[..end.map_or(0, |at| at + 1)]
}

/// Enough of an answer to see its head and first records.
fn shown(answer: &[u8]) -> String {
    const SHOWN: usize = 64;
    match answer.len() {
        0 => "nothing".to_owned(),
        1..=SHOWN => hex(answer),
        length => format!("{}.. in {length} bytes", hex(&answer[..SHOWN])),
    }
}
