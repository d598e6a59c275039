//! Document 02, request Five: there is no test for a full store, and 24 is
//! free. The sizes add to at most 256, so where the store is full every table
//! is, and 22 is said.
//!
//! In answers that are written out, 17 02 is the head 23 (2), 16 08 the pair
//! 22 (8) and 19 0a the pair 25 (10).

use std::collections::BTreeSet;

use crate::lists::Dice;
use crate::support::*;
use reference::bytes::*;

const FIRST: u32 = 0x0200_0001;
const SECOND: u32 = 0x0200_0002;
const THIRD: u32 = 0x0200_0003;

fn insert(table: u32, field: u128) -> Update {
    Update::insert(plain(table, field, 1))
}

fn delete(table: u32, field: u128) -> Update {
    Update::delete(plain(table, field, 1))
}

/// Room for 253, 2 and 1 entries. All are there but one of the second table.
fn nearly_full() -> Bench {
    let mut bench = Bench::configured(&[
        plain_row(FIRST, 0, 253),
        plain_row(SECOND, 0, 2),
        plain_row(THIRD, 0, 1),
    ]);
    let first = (0..253).map(|field| insert(FIRST, field));
    let all: Vec<Update> = first.chain([insert(SECOND, 0), insert(THIRD, 0)]).collect();
    for batch in all.chunks(64) {
        bench.writes(batch, (0, 0), &vec![(0, 0); batch.len()]);
    }
    bench
}

/// A WRITE by the primary of role 0, and its answer.
#[track_caller]
fn batch(bench: &mut Bench, atomicity: u8, updates: &[Update], answer: &str) {
    bench.answers(&write(primary(), atomicity, updates), &unhex(answer));
}

#[test]
fn where_the_store_is_full_every_table_is() {
    let mut bench = nearly_full();
    let elsewhere = [insert(FIRST, 253), insert(THIRD, 1)];
    batch(&mut bench, 0, &elsewhere, "1702 0002 1608 1608");
    // The 256th entry.
    batch(&mut bench, 0, &[insert(SECOND, 1)], "0000 0001 0000");
    assert_eq!(bench.agent.store_image().len(), 56_320);
    let everywhere = [elsewhere[0], insert(SECOND, 2), elsewhere[1]];
    batch(&mut bench, 0, &everywhere, "1702 0003 1608 1608 1608");
    // There already comes before full.
    batch(&mut bench, 0, &[insert(THIRD, 0)], "1702 0001 1406");
    // One out: there is room in its table, and in no other.
    batch(&mut bench, 0, &[delete(SECOND, 0)], "0000 0001 0000");
    batch(&mut bench, 0, &elsewhere, "1702 0002 1608 1608");
    batch(
        &mut bench,
        0,
        &[insert(SECOND, 2), insert(SECOND, 3)],
        "1702 0002 0000 1608",
    );
    assert_eq!(bench.agent.store_image().len(), 56_320);
}

#[test]
fn batches_that_roll_back_at_a_full_store() {
    let mut bench = nearly_full();
    batch(
        &mut bench,
        1,
        &[insert(SECOND, 1), insert(THIRD, 1)],
        "1702 0002 190a 1608",
    );
    batch(&mut bench, 1, &[insert(SECOND, 1)], "0000 0001 0000");
    let full = bench.agent.store_image();
    assert_eq!(full.len(), 56_320);
    batch(
        &mut bench,
        1,
        &[insert(FIRST, 253), delete(FIRST, 0)],
        "1702 0002 1608 190a",
    );
    batch(
        &mut bench,
        1,
        &[delete(FIRST, 0), insert(THIRD, 1), insert(FIRST, 253)],
        "1702 0003 190a 1608 190a",
    );
    assert_eq!(bench.agent.store_image(), full);
    batch(
        &mut bench,
        1,
        &[delete(FIRST, 0), insert(FIRST, 253)],
        "0000 0002 0000 0000",
    );
    batch(&mut bench, 1, &[insert(FIRST, 0)], "1702 0001 1608");
}

/// Tables of which nothing is known but the fields of their entries.
#[derive(Clone)]
struct Counted {
    sizes: Vec<usize>,
    held: Vec<BTreeSet<u128>>,
}

/// Type, place of the table, field.
type Drawn = (u8, usize, u128);

impl Counted {
    /// Sizes that add to 256.
    fn new(dice: &mut Dice) -> Counted {
        let count = 1 + dice.below(8);
        let mut sizes = vec![1; count];
        for _ in count..256 {
            sizes[dice.below(count)] += 1;
        }
        let held = vec![BTreeSet::new(); count];
        Counted { sizes, held }
    }

    fn stored(&self) -> usize {
        self.held.iter().map(BTreeSet::len).sum()
    }

    /// By counting: 20, 22, 21 or 0.
    fn judge(&mut self, (kind, table, field): Drawn) -> u8 {
        let held = &mut self.held[table];
        match kind {
            1 if held.contains(&field) => 20,
            1 if held.len() == self.sizes[table] => 22,
            1 => {
                held.insert(field);
                0
            }
            _ if held.remove(&field) => 0,
            _ => 21,
        }
    }

    /// The pairs of a WRITE.
    fn pairs(&mut self, atomicity: u8, updates: &[Drawn]) -> Vec<[u8; 2]> {
        let before = self.clone();
        let mut reasons: Vec<u8> = updates.iter().map(|&update| self.judge(update)).collect();
        let failed = reasons.iter().position(|&reason| reason != 0);
        if let (1, Some(failed)) = (atomicity, failed) {
            let own = reasons[failed];
            reasons.fill(25);
            reasons[failed] = own;
            *self = before;
        }
        let code = |reason| match reason {
            0 => 0,
            20 => 6,
            21 => 5,
            22 => 8,
            _ => 10,
        };
        reasons
            .iter()
            .map(|&reason| [reason, code(reason)])
            .collect()
    }

    /// Updates, mostly INSERTs that pass one after the other, until the store is
    /// full. Of 999 there is never an entry.
    fn draw(&self, dice: &mut Dice, count: usize) -> Vec<Drawn> {
        let mut ahead = self.clone();
        let mut drawn = Vec::new();
        for _ in 0..count {
            let table = dice.below(self.sizes.len());
            let any = dice.below(self.sizes[table] + 3) as u128;
            let update = match dice.below(12) {
                0 | 1 => (3, table, any),
                2 | 3 => (1, table, any),
                _ => ahead.fitting().unwrap_or((1, table, 999)),
            };
            ahead.judge(update);
            drawn.push(update);
        }
        drawn
    }

    /// An INSERT that passes, if there is one.
    fn fitting(&self) -> Option<Drawn> {
        let has_room = |&at: &usize| self.held[at].len() < self.sizes[at];
        let table = (0..self.sizes.len()).find(has_room)?;
        let field = (0..).find(|field| !self.held[table].contains(field))?;
        Some((1, table, field))
    }
}

/// The table at a place.
fn table(at: usize) -> u32 {
    FIRST + at as u32
}

/// One WRITE that is drawn, with the answer that counting gives.
fn one_write(bench: &mut Bench, counted: &mut Counted, dice: &mut Dice) -> Vec<[u8; 2]> {
    let most = if counted.stored() < 200 { 64 } else { 4 };
    let count = 1 + dice.below(most);
    let drawn = counted.draw(dice, count);
    let atomicity = u8::from(dice.once_in(3));
    let pairs = counted.pairs(atomicity, &drawn);
    let update = |&(kind, at, field): &Drawn| Update {
        kind,
        entry: plain(table(at), field, 1),
    };
    let updates: Vec<Update> = drawn.iter().map(update).collect();
    let failed = pairs.iter().any(|&pair| pair != [0, 0]);
    let (reason, code) = if failed { (23, 2) } else { (0, 0) };
    bench.answers(
        &write(primary(), atomicity, &updates),
        &answer(reason, code, &pairs),
    );
    assert_eq!(bench.agent.store_image().len(), 220 * counted.stored());
    pairs
}

#[test]
fn counting_the_entries_of_each_table_is_enough() {
    let (mut filled, mut refused) = (0, 0);
    for seed in 1..=8 {
        let mut dice = Dice(seed);
        let mut counted = Counted::new(&mut dice);
        let sizes = counted.sizes.iter().enumerate();
        let rows: Vec<Row> = sizes
            .map(|(at, &size)| plain_row(table(at), 0, size as u16))
            .collect();
        let mut bench = Bench::configured(&rows);
        for _ in 0..80 {
            let full = counted.stored() == 256;
            let pairs = one_write(&mut bench, &mut counted, &mut dice);
            filled += usize::from(!full && counted.stored() == 256);
            refused += usize::from(full && pairs.contains(&[22, 8]));
        }
    }
    assert!(filled >= 20 && refused >= 20, "{filled} and {refused}");
}
