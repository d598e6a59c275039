//! Spans of time in which something stays the same.

use crate::timeline::{state, Moment, State};

/// A value that holds from one call to before another, counted from 0.
#[derive(Clone, Debug, PartialEq, Eq)]
pub struct Span<T> {
    pub from: usize,
    pub to: usize,
    pub what: T,
}

/// The longest spans of equal values.
pub fn spans<T: PartialEq>(values: impl Iterator<Item = T>) -> Vec<Span<T>> {
    let mut spans: Vec<Span<T>> = Vec::new();
    for (at, what) in values.enumerate() {
        match spans.last_mut() {
            Some(last) if last.what == what => last.to = at + 1,
            _ => spans.push(Span {
                from: at,
                to: at + 1,
                what,
            }),
        }
    }
    spans
}

/// The streams that were ever open.
pub fn streams(moments: &[Moment]) -> Vec<u8> {
    let ever = |&stream: &u8| {
        let mut states = moments.iter().map(|moment| state(&moment.after, stream));
        states.any(|state| state != State::Closed)
    };
    (0..32).filter(ever).collect()
}

/// The roles that ever had a mark.
pub fn roles(moments: &[Moment]) -> Vec<u8> {
    // A mark never falls, so the last call has them all.
    let last = moments.last().map(|moment| &moment.after);
    let marked = |&role: &u8| last.is_some_and(|agent| agent.mark(role).is_some());
    (0..8).filter(marked).collect()
}

#[cfg(test)]
mod tests {
    use super::*;

    #[test]
    fn equal_neighbours_are_one_span() {
        let span = |from, to, what| Span { from, to, what };
        let found = spans([1, 1, 2, 1].into_iter());
        assert_eq!(found, [span(0, 2, 1), span(2, 3, 2), span(3, 4, 1)]);
        assert_eq!(spans([0; 0].into_iter()), []);
    }
}
