//! A bench that plays each call to both evaluations.

use reference::bytes::*;
use reference::{Agent, Expected, Past, ANSWER_ROOM, STORE_ROOM};

/// The device of every bench.
pub const DEVICE: u64 = 1;

/// The table of [`one_row`].
pub const TABLE: u32 = 0x0200_0001;
/// Its only action.
pub const ACTION: u32 = 0x0100_0001;

/// No records.
pub const NONE: [&[u8]; 0] = [];

/// An agent and its past, call by call.
pub struct Bench {
    pub agent: Agent,
    pub past: Past,
    buffer: Vec<u8>,
    calls: usize,
}

impl Bench {
    /// A fresh agent.
    pub fn fresh() -> Bench {
        Bench {
            agent: Agent::new(DEVICE),
            past: Past::new(DEVICE),
            buffer: vec![0; ANSWER_ROOM],
            calls: 0,
        }
    }

    /// Stream 0 is primary of role 0 with id 1, and the rows are in force.
    #[track_caller]
    pub fn configured(rows: &[Row]) -> Bench {
        let mut bench = Bench::fresh();
        bench.ok(&open(0));
        bench.told(0, 0, 1, &[(0, 0)], Some(1));
        bench.ok(&configure(primary(), rows));
        bench
    }

    /// Plays a call to both, checks that they agree on everything that a call
    /// leaves behind, and gives what was written.
    #[track_caller]
    pub fn call(&mut self, frame: &[u8]) -> Expected {
        self.call_with(frame, ANSWER_ROOM, STORE_ROOM)
    }

    /// The same with buffers of given lengths.
    #[track_caller]
    pub fn call_with(&mut self, frame: &[u8], answer_len: usize, store_len: usize) -> Expected {
        // Another filling for each call, so that bytes written show.
        self.calls += 1;
        let fill = 0x5a ^ self.calls as u8;
        self.buffer.resize(answer_len, 0);
        self.buffer.fill(fill);

        let reason = self.agent.call(frame, store_len, &mut self.buffer);
        let roomy = answer_len >= 57_344 && store_len >= 56_320;
        let expected = self.past.expect(frame, roomy);

        let (written, rest) = self.buffer.split_at(expected.answer.len());
        assert_eq!(hex(written), hex(&expected.answer), "answer");
        assert!(rest.iter().all(|&byte| byte == fill), "rest of the buffer");
        assert_eq!(reason, expected.reason, "reason returned");
        assert!(expected.authorised, "authority");
        assert_eq!(
            self.agent.store_image(),
            self.past.store_image(),
            "entries kept"
        );
        expected
    }

    /// A call with the whole answer as expected.
    #[track_caller]
    pub fn answers(&mut self, frame: &[u8], expected: &[u8]) {
        let written = self.call(frame).answer;
        assert_eq!(hex(&written), hex(expected));
    }

    /// A call that is accepted and has no records.
    #[track_caller]
    pub fn ok(&mut self, frame: &[u8]) {
        self.answers(frame, &answer(0, 0, &NONE));
    }

    /// A call that is refused without records.
    #[track_caller]
    pub fn refused(&mut self, frame: &[u8], reason: u8, code: u8) {
        self.answers(frame, &answer(reason, code, &NONE));
    }

    /// An accepted ARBITRATE with a set id, and the streams told with their
    /// statuses and the mark.
    #[track_caller]
    pub fn told(&mut self, stream: u8, role: u8, id: u128, to: &[(u8, u8)], mark: Option<u128>) {
        let frame = arbitrate(stream, Head::set(DEVICE, role, id));
        self.tells(&frame, (0, 0), role, to, mark);
    }

    /// Any call with its reason and code, and the streams told.
    #[track_caller]
    pub fn tells(
        &mut self,
        frame: &[u8],
        (reason, code): (u8, u8),
        role: u8,
        to: &[(u8, u8)],
        mark: Option<u128>,
    ) {
        let notices: Vec<[u8; 20]> = to
            .iter()
            .map(|&(stream, status)| notice(stream, role, status, mark))
            .collect();
        self.answers(frame, &answer(reason, code, &notices));
    }

    /// A WRITE by the primary of role 0, with its head and pairs.
    #[track_caller]
    pub fn writes(&mut self, updates: &[Update], head: (u8, u8), pairs: &[(u8, u8)]) {
        self.writes_as(primary(), updates, head, pairs);
    }

    /// A WRITE with its head and pairs.
    #[track_caller]
    pub fn writes_as(
        &mut self,
        who: Head,
        updates: &[Update],
        (reason, code): (u8, u8),
        pairs: &[(u8, u8)],
    ) {
        let pairs: Vec<[u8; 2]> = pairs.iter().map(|&(r, c)| [r, c]).collect();
        self.answers(&write(who, 0, updates), &answer(reason, code, &pairs));
    }

    /// An INSERT that takes effect.
    #[track_caller]
    pub fn takes(&mut self, entry: Entry) {
        self.writes(&[Update::insert(entry)], (0, 0), &[(0, 0)]);
    }

    /// An INSERT that fails.
    #[track_caller]
    pub fn fails(&mut self, entry: Entry, reason: u8, code: u8) {
        self.writes(&[Update::insert(entry)], (23, 2), &[(reason, code)]);
    }

    /// A READ with these entries as its records.
    #[track_caller]
    pub fn shows(&mut self, frame: &[u8], entries: &[Entry]) {
        let records: Vec<[u8; 220]> = entries.iter().map(Entry::bytes).collect();
        self.answers(frame, &answer(0, 0, &records));
    }
}

/// The head of the configured bench's primary.
pub fn primary() -> Head {
    Head::set(DEVICE, 0, 1)
}

/// One table of one field, with one action without parameters.
pub fn one_row(kind: u8, width: u8) -> Row {
    Row::new(TABLE, 0, 16, &[(kind, width)], &[Action::new(ACTION, &[])])
}

/// An entry of [`one_row`].
pub fn entry(priority: u32, slot: Slot) -> Entry {
    Entry::new(TABLE, Key::new(priority, &[slot]), ACTION, &[])
}

/// A table of one exact field of 16 bits, with one action of one parameter of
/// 16 bits.
pub fn plain_row(table: u32, owner: u8, size: u16) -> Row {
    let fields = [(kind::EXACT, 16)];
    Row::new(table, owner, size, &fields, &[Action::new(ACTION, &[16])])
}

/// An entry of [`plain_row`].
pub fn plain(table: u32, field: u128, param: u128) -> Entry {
    let key = Key::new(0, &[Slot::exact(field)]);
    Entry::new(table, key, ACTION, &[Value::of(param)])
}

/// Bytes from hexadecimal text; blanks do not count.
pub fn unhex(text: &str) -> Vec<u8> {
    let digits: Vec<char> = text.chars().filter(|c| !c.is_whitespace()).collect();
    digits
        .chunks(2)
        .map(|pair| u8::from_str_radix(&pair.iter().collect::<String>(), 16).unwrap())
        .collect()
}

pub fn hex(bytes: &[u8]) -> String {
    bytes.iter().map(|byte| format!("{byte:02x}")).collect()
}
