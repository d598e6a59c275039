//! OPEN, CLOSE, ARBITRATE and CONFIGURE.

use reference::bytes::{self, kind, Action, Head, Row};

use super::keys::{ACTION, TABLE};
use super::state::{primary, with_primary, DEVICE, ID, LOWER, STREAM};
use super::{Case, Frame};

/// The streams of a crowded role, of which the last is primary.
const CROWD: u8 = 8;

pub fn open_and_close() -> Vec<Case> {
    let opened = || every(0..32, bytes::open);
    let closed = || every(0..32, bytes::close);
    vec![
        Case::new("OPEN", "of a closed stream", Vec::new()).step(opened(), closed()),
        Case::new("CLOSE", "of an unbound stream", opened()).step(closed(), opened()),
        Case::new("CLOSE", "of a backup", crowded(1)).step(
            every(0..CROWD - 1, bytes::close),
            (0..CROWD - 1).flat_map(bind).collect(),
        ),
        Case::new("CLOSE", "of a primary, 7 streams notified", crowded(4))
            .step(every(primaries(), bytes::close), primaries_back())
            .records(7),
    ]
}

pub fn arbitrate() -> Vec<Case> {
    let case = |name: &str, setup: Vec<Frame>| Case::new("ARBITRATE", name, setup);
    let to_and_fro = |stream: u8| vec![send(stream, LOWER), send(stream, ID)];
    let mut unbound = with_primary();
    unbound.extend(every(2..32, bytes::open));
    let held = |stream: u8| send(stream, id_of(CROWD * (stream / CROWD)));
    vec![
        case("repeated id, 1 stream bound", with_primary())
            .timed(vec![send(STREAM, ID)])
            .records(1),
        case("repeated id, 8 streams bound", crowded(1))
            .timed(vec![send(7, ID)])
            .records(1),
        case("with change, 1 stream notified", with_primary())
            .timed(to_and_fro(STREAM))
            .records(1),
        case("with change, 8 streams notified", crowded(1))
            .timed(to_and_fro(7))
            .records(8),
        case("refused 8, unbound stream", unbound)
            .step(
                every(2..32, |stream| bytes::arbitrate(stream, primary())),
                every(2..32, bytes::open),
            )
            .refused(8),
        case("refused 8, primary, 7 streams notified", crowded(4))
            .step(every(primaries(), held), primaries_back())
            .refused(8)
            .records(7),
    ]
}

pub fn configure() -> Vec<Case> {
    let case = |name: &str, rows: u32| {
        let frame = bytes::configure(primary(), &full_rows(rows));
        Case::new("CONFIGURE", name, with_primary()).timed(vec![frame])
    };
    vec![case("1 full row", 1), case("8 full rows", 8)]
}

/// Rows in which every place is used.
pub fn full_rows(count: u32) -> Vec<Row> {
    let fields = [
        (kind::EXACT, 128),
        (kind::LPM, 32),
        (kind::TERNARY, 48),
        (kind::RANGE, 16),
    ];
    let actions = [1, 2, 3, 4].map(|action| Action::new(ACTION + action, &[9, 32, 48, 128]));
    (0..count)
        .map(|row| Row::new(TABLE + row, row as u8, 32, &fields, &actions))
        .collect()
}

fn every(streams: impl Iterator<Item = u8>, frame: impl Fn(u8) -> Frame) -> Vec<Frame> {
    streams.map(frame).collect()
}

/// Each of the first roles has eight streams: role 0 the streams 0 to 7, and so on.
fn crowded(roles: u8) -> Vec<Frame> {
    (0..CROWD * roles).flat_map(bind).collect()
}

/// Opens a stream of a crowded role and binds it.
fn bind(stream: u8) -> [Frame; 2] {
    [bytes::open(stream), send(stream, id_of(stream))]
}

/// The id of a stream of a crowded role.
fn id_of(stream: u8) -> u128 {
    match stream % CROWD {
        7 => ID,
        backup => u128::from(backup) + 1,
    }
}

/// ARBITRATE for the role of a stream.
fn send(stream: u8, id: u128) -> Frame {
    bytes::arbitrate(stream, Head::set(DEVICE, stream / CROWD, id))
}

/// The primaries of four crowded roles.
fn primaries() -> impl Iterator<Item = u8> {
    (0..4).map(|role| CROWD * role + 7)
}

fn primaries_back() -> Vec<Frame> {
    primaries().flat_map(bind).collect()
}
