//! Documents 01 and 02, through the wrapper: what the types build is what the agent takes, and what
//! it answers is what they read.

use savorylatch::answer::{Failure, Notification, Outcome, Status, View};
use savorylatch::frame::Atomicity::{ContinueOnError, DataplaneAtomic, RollbackOnError};
use savorylatch::frame::{self, Action, Entry, Field, Head, Key, Kind, Query, Row, Slot, Update};
use savorylatch::frame::{UpdateKind, Value, Wanted};
use savorylatch::{Agent, Answer, Code, Command, Reason, Store, StreamState};

#[allow(dead_code)] // its main
#[path = "../examples/host.rs"]
mod host;

const DEVICE: u64 = 1;
const TABLE: u32 = 0x0200_0001;
const ACTION: u32 = 0x0100_0001;

/// An agent with what it is lent.
struct Bench {
    agent: Agent,
    store: Store,
    answer: Answer,
}

impl Bench {
    fn fresh() -> Bench {
        Bench {
            agent: Agent::new(DEVICE),
            store: Store::new(),
            answer: Answer::new(),
        }
    }

    /// Stream 0 is primary of role 0 with id 1, and the rows are in force.
    fn configured(rows: &[Row]) -> Bench {
        let mut bench = Bench::fresh();
        bench.done(&frame::open(0));
        bench.done(&frame::arbitrate(0, &with(1)));
        bench.done(&frame::configure(&with(1), rows));
        bench
    }

    /// A call; the answer says what is returned.
    #[track_caller]
    fn call(&mut self, frame: &[u8]) -> View<'_> {
        let reason = self.agent.call(frame, &mut self.store, &mut self.answer);
        let view = self.answer.view(Command::of(frame)).unwrap();
        assert_eq!(view.reason(), reason);
        assert_eq!(view.code(), reason.code());
        view
    }

    /// A call that is not refused.
    #[track_caller]
    fn done(&mut self, frame: &[u8]) {
        assert_eq!(self.call(frame).reason(), Reason::Done);
    }

    /// A call that is refused without records.
    #[track_caller]
    fn refused(&mut self, frame: &[u8], reason: Reason) {
        let view = self.call(frame);
        assert_eq!((view.reason(), view.count()), (reason, 0));
    }

    /// An accepted call of a stream of role 0; those told, with their status, and the mark.
    #[track_caller]
    fn tells(&mut self, frame: &[u8], told: &[(u8, Status)], mark: u128) {
        let view = self.call(frame);
        assert_eq!(view.reason(), Reason::Done);
        let expected = told.iter().map(|&(stream, status)| Notification {
            stream,
            role: 0,
            status,
            mark: Some(mark),
        });
        assert!(view.notifications().eq(expected));
    }

    /// A WRITE of one update, and how that ends.
    #[track_caller]
    fn ends(&mut self, frame: &[u8], reason: Reason) {
        let pairs: Vec<_> = self.call(frame).pairs().collect();
        assert_eq!(pairs, [(reason, reason.code())]);
    }

    /// An INSERT by the primary, and how it ends.
    #[track_caller]
    fn inserts(&mut self, entry: Entry, reason: Reason) {
        let frame = frame::write(&with(1), ContinueOnError, &[Update::insert(entry)]);
        self.ends(&frame, reason);
    }

    /// The entries that a READ by role 0 shows.
    #[track_caller]
    fn shows(&mut self, wanted: Wanted) -> Vec<Entry> {
        let view = self.call(&frame::read(&Query {
            device: DEVICE,
            role: 0,
            wanted,
        }));
        assert_eq!(view.reason(), Reason::Done);
        assert_eq!(view.entries().count(), view.count());
        view.entries().collect()
    }
}

/// A head of role 0 with an id.
fn with(id: u128) -> Head {
    Head {
        device: DEVICE,
        role: 0,
        id: Some(id),
    }
}

/// One table of one field, with one action without parameters.
fn one_row(kind: Kind, width: u8) -> Row {
    Row {
        table: TABLE,
        owner: 0,
        size: 16,
        fields: vec![Field { kind, width }],
        actions: vec![Action {
            id: ACTION,
            widths: vec![],
        }],
    }
}

/// An entry of [`one_row`].
fn entry(priority: u32, slot: Slot) -> Entry {
    Entry::new(TABLE, priority, [slot], ACTION, [])
}

/// A table of four fields, of each kind but one, with two actions, of four parameters and of one.
fn rich_row() -> Row {
    let fields = [
        (Kind::Exact, 128),
        (Kind::Lpm, 32),
        (Kind::Ternary, 9),
        (Kind::Optional, 1),
    ];
    Row {
        table: TABLE,
        owner: 3,
        size: 200,
        fields: fields
            .map(|(kind, width)| Field { kind, width })
            .into_iter()
            .collect(),
        actions: vec![
            Action {
                id: ACTION,
                widths: vec![1, 9, 64, 128],
            },
            Action {
                id: 0x01ab_cdef,
                widths: vec![16],
            },
        ],
    }
}

/// An entry of [`rich_row`], by its exact value.
fn rich_entry(exact: u128) -> Entry {
    let slots = [
        Slot::exact(exact),
        Slot::lpm(0x0a00_0000, 8),
        Slot::ternary(0x101, 0x181),
        Slot::optional(0),
    ];
    let parameters = [1, 0x1ff, u64::MAX.into(), u128::MAX].map(Value::new);
    Entry::new(TABLE, 2_147_483_647, slots, ACTION, parameters)
}

// ---- the sample of `play`

#[test]
fn the_example_prints_the_four_lines() {
    let mut out = Vec::new();
    host::play(&mut out).unwrap();
    let lines = "\
1 0 0 0
2 0 0 1 0300000100000000000000000000000000000005
3 0 0 0
4 4 5 0
";
    assert_eq!(String::from_utf8(out).unwrap(), lines);
}

#[test]
fn the_samples_frames_are_those_built() {
    assert_eq!(frame::open(3), [0x01, 0x03]);
    let mut arbitrate = vec![0x03, 0x03, 0, 0, 0, 0, 0, 0, 0, 1, 0, 1];
    arbitrate.extend(5u128.to_be_bytes());
    assert_eq!(arbitrate.len(), 0x1c);
    assert_eq!(frame::arbitrate(3, &with(5)), arbitrate);
    assert_eq!(frame::close(3), [0x02, 0x03]);
}

// ---- bench cases

#[test]
fn p1_ids_are_numbers_of_128_bits() {
    let (ones, more) = (u128::from(u64::MAX), 1 << 64);
    let mut bench = Bench::fresh();
    bench.done(&frame::open(1));
    bench.done(&frame::open(2));
    bench.tells(
        &frame::arbitrate(1, &with(ones)),
        &[(1, Status::Primary)],
        ones,
    );
    bench.tells(
        &frame::arbitrate(2, &with(more)),
        &[(1, Status::OtherPrimary), (2, Status::Primary)],
        more,
    );
    assert_eq!(bench.agent.mark(0), Some(more));
    assert_eq!(bench.agent.primary(0), Some(2));
}

#[test]
fn p2_to_p4_a_backup_is_not_promoted_but_may_claim_the_mark() {
    let mut bench = Bench::fresh();
    bench.done(&frame::open(1));
    bench.done(&frame::open(2));
    bench.tells(&frame::arbitrate(1, &with(5)), &[(1, Status::Primary)], 5);
    bench.tells(
        &frame::arbitrate(2, &with(3)),
        &[(2, Status::OtherPrimary)],
        5,
    );
    bench.tells(&frame::close(1), &[(2, Status::NoPrimary)], 5);
    assert_eq!(bench.agent.primary(0), None);
    bench.tells(&frame::arbitrate(2, &with(4)), &[(2, Status::NoPrimary)], 5);
    assert_eq!(bench.agent.primary(0), None);
    bench.tells(&frame::arbitrate(2, &with(5)), &[(2, Status::Primary)], 5);
    assert_eq!(bench.agent.primary(0), Some(2));
}

#[test]
fn p5_a_lowered_id_leaves_no_primary() {
    let mut bench = Bench::fresh();
    bench.done(&frame::open(1));
    bench.done(&frame::arbitrate(1, &with(5)));
    bench.tells(&frame::arbitrate(1, &with(4)), &[(1, Status::NoPrimary)], 5);
    for id in [4, 5] {
        let frame = frame::write(&with(id), ContinueOnError, &[]);
        bench.refused(&frame, Reason::NotPrimary);
    }
}

#[test]
fn p6_leading_zeros_are_taken_and_not_stored() {
    let value = |bytes: &[u8]| Slot::Exact(Value::from_bytes(bytes).unwrap());
    let mut bench = Bench::configured(&[one_row(Kind::Exact, 9)]);
    bench.inserts(entry(0, value(&[0x02, 0x00])), Reason::TooWide);
    bench.inserts(entry(0, value(&[0x00, 0x01, 0xff])), Reason::Done);
    let stored = entry(0, value(&[0x01, 0xff]));
    assert_eq!(bench.shows(Wanted::Everything), [stored]);
    bench.inserts(stored, Reason::Stored);
}

#[test]
fn p7_prefixes() {
    let mut bench = Bench::configured(&[one_row(Kind::Lpm, 32)]);
    bench.inserts(entry(0, Slot::lpm(0x0a00_0000, 8)), Reason::Done);
    bench.inserts(entry(0, Slot::lpm(0x0a00_0001, 8)), Reason::RuleBroken);
    bench.inserts(entry(0, Slot::lpm(0x0a00_0000, 0)), Reason::RuleBroken);
    bench.inserts(entry(0, Slot::lpm(0x0a00_0000, 33)), Reason::RuleBroken);
    bench.inserts(entry(0, Slot::lpm(0x0a00_0000, 32)), Reason::Done);
}

#[test]
fn p8_ranges() {
    let mut bench = Bench::configured(&[one_row(Kind::Range, 8)]);
    bench.inserts(entry(1, Slot::range(0x00, 0xfe)), Reason::Done);
    bench.inserts(entry(1, Slot::range(0x00, 0xff)), Reason::RuleBroken);
}

#[test]
fn p9_one_entry_twice_in_one_write() {
    let mut bench = Bench::configured(&[rich_row()]);
    let twice = [Update::insert(rich_entry(7)); 2];
    let view = bench.call(&frame::write(&with(1), ContinueOnError, &twice));
    assert_eq!(
        (view.reason(), view.code()),
        (Reason::SomeFailed, Code::Unknown)
    );
    assert!(view.reason().is_accepted());
    let pairs: Vec<_> = view.pairs().collect();
    assert_eq!(
        pairs,
        [
            (Reason::Done, Code::Ok),
            (Reason::Stored, Code::AlreadyExists)
        ]
    );
    assert_eq!(
        bench.answer.as_bytes()[..8],
        [23, 2, 0, 2, 0, 0, 20, 6],
        "as it stands in document 01"
    );
    assert_eq!(bench.agent.entries(), 1);
}

// ---- round trips

#[test]
fn what_is_written_is_read() {
    let mut bench = Bench::configured(&[one_row(Kind::Range, 128), rich_row()].map(renumbered));
    let rich: Vec<_> = (0..60).map(|k| rich_entry(k << 100)).collect();
    let updates: Vec<_> = rich.iter().copied().map(Update::insert).collect();
    bench.done(&frame::write(&with(1), ContinueOnError, &updates));
    let range = Entry {
        table: TABLE + 1,
        ..entry(1, Slot::range(1, u128::MAX))
    };
    bench.inserts(range, Reason::Done);
    assert_eq!(bench.agent.entries(), 61);

    // By row, though the range came last.
    let all = bench.shows(Wanted::Everything);
    assert_eq!(all[0], range);
    assert_eq!(all[1..], rich);
    assert_eq!(bench.shows(Wanted::Table(TABLE)), rich);
    assert_eq!(bench.shows(Wanted::Table(TABLE + 1)), [range]);
    assert_eq!(bench.shows(Wanted::Key(rich[9].key())), [rich[9]]);

    // In its place, with the other action; and omitted slots.
    let modified = Entry::new(
        TABLE,
        rich[9].priority,
        rich[9].slots,
        0x01ab_cdef,
        [Value::new(0)],
    );
    let omitted = Entry::new(
        TABLE,
        1,
        [Slot::exact(0)],
        0x01ab_cdef,
        [Value::new(0xffff)],
    );
    let updates = [
        Update {
            kind: UpdateKind::Modify,
            entry: modified,
        },
        Update::delete(rich[0].key()),
        Update::insert(omitted),
    ];
    bench.done(&frame::write(&with(1), ContinueOnError, &updates));
    let now = bench.shows(Wanted::Table(TABLE));
    assert_eq!(now[..8], rich[1..9]);
    assert_eq!(now[8], modified);
    assert_eq!(now[59], omitted);
    assert_eq!(bench.shows(Wanted::Key(rich[0].key())), []);
}

/// The first table of [`what_is_written_is_read`] gets a number of its own.
fn renumbered(row: Row) -> Row {
    let table = match row.fields[0].kind {
        Kind::Range => TABLE + 1,
        _ => TABLE,
    };
    Row { table, ..row }
}

#[test]
fn a_full_store_is_read() {
    let mut bench = Bench::configured(&[Row {
        size: 256,
        ..rich_row()
    }]);
    let all: Vec<_> = (0..256).map(rich_entry).collect();
    for some in all.chunks(64) {
        let updates: Vec<_> = some.iter().copied().map(Update::insert).collect();
        bench.done(&frame::write(&with(1), ContinueOnError, &updates));
    }
    bench.inserts(rich_entry(256), Reason::TableFull);
    assert_eq!(bench.shows(Wanted::Everything), all);
    assert_eq!(bench.agent.entries(), 256);
}

// ---- the record

#[test]
fn a_fresh_agent() {
    let agent = Agent::new(u64::MAX);
    assert_eq!(agent.device(), u64::MAX);
    assert_eq!(agent.entries(), 0);
    assert_eq!(agent.rows(), []);
    assert_eq!(agent.streams().count(), 0);
    for number in 0..=255 {
        assert_eq!(agent.stream(number), StreamState::Closed);
        assert_eq!((agent.primary(number), agent.mark(number)), (None, None));
    }
}

#[test]
fn streams_and_marks_are_seen() {
    let mut bench = Bench::fresh();
    let id = |role: u8| u128::from(role + 1) << 64 | u128::from(role);
    for role in 0..8 {
        let head = Head {
            role,
            id: Some(id(role)),
            ..with(1)
        };
        let backup = Head { id: None, ..head };
        let stream = 31 - role;
        bench.done(&frame::open(stream));
        bench.done(&frame::arbitrate(stream, &head));
        bench.done(&frame::open(role));
        bench.done(&frame::arbitrate(role, &backup));
    }
    bench.done(&frame::open(12));
    for role in 0..8 {
        let (stream, bound) = (31 - role, id(role));
        let state = |id| StreamState::Bound { role, id };
        assert_eq!(bench.agent.primary(role), Some(stream));
        assert_eq!(bench.agent.mark(role), Some(bound));
        assert_eq!(bench.agent.stream(stream), state(Some(bound)));
        assert_eq!(bench.agent.stream(role), state(None));
    }
    assert_eq!(bench.agent.stream(12), StreamState::Open);
    assert_eq!(bench.agent.stream(13), StreamState::Closed);
    assert_eq!(bench.agent.streams().count(), 17);
}

#[test]
fn rows_are_seen() {
    let kinds = [
        Kind::Exact,
        Kind::Lpm,
        Kind::Ternary,
        Kind::Range,
        Kind::Optional,
    ];
    let rows: Vec<Row> = (0..8)
        .map(|k: u8| Row {
            table: 0x0200_0000 | u32::from(k) << 16,
            owner: 7 - k,
            size: 1 + 8 * u16::from(k),
            fields: (0..=k % 4)
                .map(|j| Field {
                    kind: kinds[usize::from(k + j) % 5],
                    width: 1 + 15 * k + j,
                })
                .collect(),
            actions: (0..=3 - k % 4)
                .map(|j| Action {
                    id: 0x0100_0000 | u32::from(k) << 8 | u32::from(j),
                    widths: (0..(k + j) % 5).map(|i| 128 - 10 * k - i).collect(),
                })
                .collect(),
        })
        .collect();
    let mut bench = Bench::configured(&rows);
    assert_eq!(bench.agent.rows(), rows);
    bench.done(&frame::configure(&with(1), &rows[2..4]));
    assert_eq!(bench.agent.rows(), rows[2..4]);
}

#[test]
fn debug_shows_the_views() {
    let mut bench = Bench::configured(&[one_row(Kind::Exact, 9)]);
    bench.done(&frame::open(30));
    bench.inserts(entry(0, Slot::exact(1)), Reason::Done);
    let shown = format!("{:?}", bench.agent);
    for part in [
        "Agent { device: 1, streams: {0: Bound { role: 0, id: Some(1) }, 30: Open}",
        "marks: {0: 1}, primaries: {0: 0}",
        "rows: [Row { table: 33554433,",
        "entries: 1 }",
    ] {
        assert!(shown.contains(part), "{part} is not in {shown}");
    }
    assert_eq!(format!("{:?}", bench.store), "Store { .. }");
    bench.refused(&[], Reason::BadFrame);
    assert_eq!(
        format!("{:?}", bench.answer),
        "Answer { reason: 1, code: 3, count: 0, .. }"
    );
    assert_eq!(format!("{:?}", Value::new(0x1ff)), "0x01ff");
}

#[test]
fn a_clone_with_its_store_goes_its_own_way() {
    let mut bench = Bench::configured(&[one_row(Kind::Exact, 9)]);
    bench.inserts(entry(0, Slot::exact(1)), Reason::Done);
    let mut saved = Bench {
        agent: bench.agent.clone(),
        store: bench.store.clone(),
        answer: Answer::default(),
    };
    bench.inserts(entry(0, Slot::exact(2)), Reason::Done);
    bench.done(&frame::close(0));
    // On another thread, too.
    std::thread::spawn(move || {
        assert_eq!(saved.agent.primary(0), Some(0));
        let stored = [entry(0, Slot::exact(1))];
        assert_eq!(saved.shows(Wanted::Everything), stored);
    })
    .join()
    .unwrap();
    assert_eq!(bench.agent.entries(), 2);
}

// ---- buffers

#[test]
fn short_buffers_are_refused_and_left_alone() {
    let mut agent = Agent::new(DEVICE);
    let frame = frame::open(3);
    for (store, answer) in [
        (Store::LENGTH - 1, Answer::LENGTH),
        (Store::LENGTH, Answer::LENGTH - 1),
        (0, 0),
    ] {
        let (mut store, mut answer) = (vec![0xaa; store], vec![0xaa; answer]);
        let reason = agent.call_in(&frame, &mut store, &mut answer);
        assert_eq!(reason, Reason::TooShort);
        assert!(store.iter().chain(&answer).all(|&byte| byte == 0xaa));
        assert_eq!(agent.stream(3), StreamState::Closed);
    }
}

#[test]
fn bytes_behind_the_buffers_are_left_alone() {
    let mut agent = Agent::new(DEVICE);
    let (mut store, mut answer) = (
        vec![0xaa; Store::LENGTH + 9],
        vec![0xaa; Answer::LENGTH + 9],
    );
    let mut call = |frame: &[u8]| agent.call_in(frame, &mut store, &mut answer);
    let row = Row {
        size: 256,
        ..one_row(Kind::Exact, 16)
    };
    assert_eq!(call(&frame::open(0)), Reason::Done);
    assert_eq!(call(&frame::arbitrate(0, &with(1))), Reason::Done);
    assert_eq!(call(&frame::configure(&with(1), &[row])), Reason::Done);
    for k in 0..256 {
        let update = Update::insert(entry(0, Slot::exact(k)));
        let frame = frame::write(&with(1), ContinueOnError, &[update]);
        assert_eq!(call(&frame), Reason::Done);
    }
    let all = Query {
        device: DEVICE,
        role: 0,
        wanted: Wanted::Everything,
    };
    assert_eq!(call(&frame::read(&all)), Reason::Done);
    assert_eq!(store[Store::LENGTH..], [0xaa; 9]);
    assert!(answer[4 + 256 * 220..].iter().all(|&byte| byte == 0xaa));
    let view = View::new(&answer, Command::Read).unwrap();
    assert!(view
        .entries()
        .eq((0..256).map(|k| entry(0, Slot::exact(k)))));
}

// ---- atomic batches (document 02, request Two)

/// Three entries of [`one_row`] are stored, in this order.
fn three_stored() -> (Bench, [Entry; 3]) {
    let entries = [1, 2, 3].map(|k| entry(0, Slot::exact(k)));
    let mut bench = Bench::configured(&[one_row(Kind::Exact, 16)]);
    bench.done(&frame::write(
        &with(1),
        RollbackOnError,
        &entries.map(Update::insert),
    ));
    (bench, entries)
}

#[test]
fn an_atomic_batch_without_a_failure_takes_effect() {
    let (mut bench, [one, two, three]) = three_stored();
    let four = entry(0, Slot::exact(4));
    // Each is judged as though those before it had taken effect.
    let batch = [
        Update::delete(one.key()),
        Update::insert(four),
        Update::modify(four),
        Update::insert(one),
    ];
    let view = bench.call(&frame::write(&with(1), RollbackOnError, &batch));
    assert_eq!((view.reason(), view.count()), (Reason::Done, 4));
    assert!(view
        .outcomes()
        .all(|outcome| outcome == Outcome::TookEffect));
    assert_eq!(view.rolled_back(), None);
    let read = bench.shows(Wanted::Everything);
    assert_eq!(read, [two, three, four, one]);

    bench.done(&frame::write(&with(1), RollbackOnError, &[]));
    assert_eq!(bench.answer.view(Command::Write).unwrap().count(), 0);
}

#[test]
fn an_atomic_batch_with_a_failure_leaves_everything() {
    let (mut bench, stored) = three_stored();
    let [one, two, _] = stored;
    let four = entry(0, Slot::exact(4));
    let malformed = Entry::new(TABLE, 9, [], 0, []);
    let batch = [
        Update::delete(one.key()),
        Update::modify(two),
        Update::insert(four),
        Update::insert(two), // stored already
        Update::insert(malformed),
        Update::delete(two.key()),
    ];
    let view = bench.call(&frame::write(&with(1), RollbackOnError, &batch));
    assert_eq!(view.reason(), Reason::SomeFailed);
    let rolled_back = (Reason::RolledBack, Code::Aborted);
    let mut pairs = [rolled_back; 6];
    pairs[3] = (Reason::Stored, Code::AlreadyExists);
    assert!(view.pairs().eq(pairs));
    let cause = Failure {
        update: 3,
        reason: Reason::Stored,
    };
    assert_eq!(view.rolled_back(), Some(cause));
    assert_eq!(bench.agent.entries(), 3);
    assert_eq!(bench.shows(Wanted::Everything), stored);

    // One update alone.
    let view = bench.call(&frame::write(
        &with(1),
        RollbackOnError,
        &[Update::delete(four.key())],
    ));
    assert!(view.pairs().eq([(Reason::NotStored, Code::NotFound)]));
    let cause = Failure {
        update: 0,
        reason: Reason::NotStored,
    };
    assert_eq!(view.rolled_back(), Some(cause));
}

#[test]
fn an_atomic_batch_of_64_is_rolled_back_by_its_last() {
    let (mut bench, stored) = three_stored();
    let mut batch = [Update::delete(stored[0].key()), Update::insert(stored[0])].repeat(32);
    batch[63] = Update::insert(stored[1]);
    let view = bench.call(&frame::write(&with(1), RollbackOnError, &batch));
    let cause = Failure {
        update: 63,
        reason: Reason::Stored,
    };
    assert_eq!((view.count(), view.rolled_back()), (64, Some(cause)));
    assert_eq!(bench.shows(Wanted::Everything), stored);
}

#[test]
fn a_deposed_primarys_atomic_batch_is_refused_as_a_whole() {
    let (mut bench, stored) = three_stored();
    bench.done(&frame::open(2));
    bench.done(&frame::arbitrate(2, &with(6)));
    bench.done(&frame::arbitrate(2, &with(4)));
    bench.done(&frame::close(2));
    let batch = [Update::delete(stored[0].key()), Update::insert(stored[0])];
    let resent = frame::write(&with(1), RollbackOnError, &batch);
    bench.refused(&resent, Reason::NotPrimary);
    assert_eq!(bench.shows(Wanted::Everything), stored);
}

// ---- DELETE by key (document 02, request One)

/// What may stand in the place of action and parameters: zeros, FF everywhere, FF in one place.
fn rests() -> Vec<[u8; 72]> {
    let one = |at: usize| std::array::from_fn(|place| if place == at { 0xff } else { 0 });
    let all = [[0; 72], [0xff; 72]];
    all.into_iter().chain((0..72).map(one)).collect()
}

/// A WRITE of one update with such bytes in it.
fn carrying(head: &Head, update: Update, rest: [u8; 72]) -> Vec<u8> {
    let mut frame = frame::write(head, ContinueOnError, &[update]);
    let at = frame.len() - rest.len();
    frame[at..].copy_from_slice(&rest);
    frame
}

#[test]
fn a_delete_is_done_whatever_stands_beside_its_key() {
    let (mut bench, [one, two, three]) = three_stored();
    for rest in rests() {
        bench.done(&carrying(&with(1), Update::delete(one.key()), rest));
        assert_eq!(bench.shows(Wanted::Everything), [two, three]);
        bench.inserts(one, Reason::Done);
    }
    // With an action, too, whether it is the stored one or none of the row's.
    let kind = UpdateKind::Delete;
    for action in [ACTION, 0x01ff_ffff] {
        let entry = Entry { action, ..one };
        let frame = frame::write(&with(1), ContinueOnError, &[Update { kind, entry }]);
        bench.ends(&frame, Reason::Done);
        bench.inserts(one, Reason::Done);
    }
}

#[test]
fn insert_and_modify_are_checked_as_whole_entries() {
    let (mut bench, stored) = three_stored();
    let four = entry(0, Slot::exact(4));
    for rest in rests() {
        for update in [Update::insert(four), Update::modify(stored[0])] {
            bench.ends(&carrying(&with(1), update, rest), Reason::BadForm);
        }
    }
    assert_eq!(bench.shows(Wanted::Everything), stored);
}

#[test]
fn the_key_of_a_delete_is_checked() {
    let (mut bench, stored) = three_stored();
    let of_role_1 = Head { role: 1, ..with(1) };
    bench.done(&frame::open(1));
    bench.done(&frame::arbitrate(1, &of_role_1));
    let one = Slot::exact(1);
    for (head, key, reason) in [
        (with(1), Key::new(TABLE + 9, 0, [one]), Reason::NoSuchTable),
        (of_role_1, stored[0].key(), Reason::NotTheRoles),
        (with(1), Key::new(TABLE, 0, []), Reason::BadForm),
        (with(1), Key::new(TABLE, 0, [one; 2]), Reason::BadForm),
        (
            with(1),
            Key::new(TABLE, 0, [Slot::lpm(1, 16)]),
            Reason::BadForm,
        ),
        (
            with(1),
            Key::new(TABLE, 0, [Slot::exact(1 << 16)]),
            Reason::TooWide,
        ),
        (with(1), Key::new(TABLE, 1, [one]), Reason::RuleBroken),
        (
            with(1),
            Key::new(TABLE, 0, [Slot::exact(4)]),
            Reason::NotStored,
        ),
    ] {
        for rest in rests() {
            bench.ends(&carrying(&head, Update::delete(key), rest), reason);
        }
    }
    assert_eq!(bench.shows(Wanted::Everything), stored);
}

#[test]
fn an_atomic_clean_up_is_undone_for_a_key_that_is_gone() {
    let (mut bench, stored) = three_stored();
    let gone = Key::new(TABLE, 0, [Slot::exact(4)]);
    let batch = [stored[0].key(), gone, stored[2].key()].map(Update::delete);
    let failed = Outcome::Failed(Reason::NotStored);

    let view = bench.call(&frame::write(&with(1), RollbackOnError, &batch));
    let undone = Outcome::RolledBack;
    assert!(view.outcomes().eq([undone, failed, undone]));
    assert_eq!(bench.shows(Wanted::Everything), stored);

    let view = bench.call(&frame::write(&with(1), ContinueOnError, &batch));
    let done = Outcome::TookEffect;
    assert!(view.outcomes().eq([done, failed, done]));
    assert_eq!(bench.shows(Wanted::Everything), [stored[1]]);
}

// ---- what the builders say is refused

#[test]
fn frames_that_are_refused() {
    let mut bench = Bench::configured(&[one_row(Kind::Exact, 16)]);
    bench.refused(&[], Reason::BadFrame);
    bench.refused(&[0x07], Reason::BadFrame);
    bench.refused(&frame::open(32), Reason::BadFrame);
    bench.refused(&frame::close(255), Reason::BadFrame);
    bench.refused(&frame::arbitrate(32, &with(1)), Reason::BadFrame);
    bench.refused(&frame::arbitrate(0, &with(0)), Reason::BadFrame);
    bench.refused(&frame::open(0), Reason::AlreadyOpen);
    bench.refused(&frame::close(1), Reason::NotOpen);

    let key = Wanted::Key(Key::new(0, 0, [Slot::exact(1)]));
    let read = |role, wanted| {
        frame::read(&Query {
            device: DEVICE,
            role,
            wanted,
        })
    };
    bench.refused(&read(0, key), Reason::BadFrame);
    bench.refused(&read(8, Wanted::Everything), Reason::NoSuchRole);
    bench.refused(&read(0, Wanted::Table(1)), Reason::NoSuchTable);
    bench.refused(&read(1, Wanted::Table(TABLE)), Reason::NotTheRoles);
    assert_eq!(bench.shows(Wanted::Table(0)), []);

    let write = |atomicity, n| {
        let update = Update::insert(entry(0, Slot::exact(1)));
        frame::write(&with(1), atomicity, &vec![update; n])
    };
    for n in [65, 255, 256, 256 + 64, 512] {
        bench.refused(&write(ContinueOnError, n), Reason::BadFrame);
    }
    bench.refused(&write(RollbackOnError, 65), Reason::BadFrame);
    bench.refused(&write(DataplaneAtomic, 1), Reason::Atomicity);
    bench.refused(&write(DataplaneAtomic, 0), Reason::Atomicity);
    assert_eq!(bench.agent.entries(), 0);
    assert_eq!(bench.call(&write(ContinueOnError, 64)).pairs().count(), 64);
}

#[test]
fn rows_that_are_refused() {
    let mut bench = Bench::configured(&[one_row(Kind::Exact, 16)]);
    let row = one_row(Kind::Exact, 8);
    for n in [0, 9, 256, 257] {
        let frame = frame::configure(&with(1), &vec![row.clone(); n]);
        bench.refused(&frame, Reason::BadFrame);
    }
    let action = &row.actions[0];
    let action_of = |k: u32| Action {
        id: ACTION + k,
        widths: vec![],
    };
    for n in [5, 256, 257] {
        let fields = Row {
            fields: vec![row.fields[0]; n],
            ..row.clone()
        };
        let actions = Row {
            actions: (0..n as u32).map(action_of).collect(),
            ..row.clone()
        };
        let widths = Row {
            actions: vec![Action {
                widths: vec![1; n],
                ..action.clone()
            }],
            ..row.clone()
        };
        for row in [fields, actions, widths] {
            let frame = frame::configure(&with(1), &[row]);
            bench.refused(&frame, Reason::RowsNotAllowed);
        }
    }
    assert_eq!(bench.agent.rows(), [one_row(Kind::Exact, 16)]);
}

#[test]
fn a_refused_arbitrate_has_notifications() {
    let mut bench = Bench::fresh();
    bench.done(&frame::open(1));
    bench.done(&frame::open(2));
    bench.done(&frame::arbitrate(1, &with(5)));
    bench.done(&frame::arbitrate(2, &with(3)));
    let other_role = Head { role: 1, ..with(5) };
    let view = bench.call(&frame::arbitrate(1, &other_role));
    assert_eq!(view.reason(), Reason::Rebound);
    let told = Notification {
        stream: 2,
        role: 0,
        status: Status::NoPrimary,
        mark: Some(5),
    };
    assert!(view.notifications().eq([told]));
    assert_eq!(bench.agent.stream(1), StreamState::Closed);
}
