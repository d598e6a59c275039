//! Measuring: both sides in turn, in short blocks, in many rounds.
//!
//! A round times one block of each side, in random order; a block is so many repetitions of the
//! case, the same number for both. What a busy machine does to one side it does to the other a
//! moment later, so the ratio of a round holds where its times do not. The cases are gone through in
//! many passes, in another order each time, and each begins with a round that does not count.
//!
//! On a shared machine the work of others slows whole stretches down. Before and after each round a
//! fixed piece of work is timed, and only the rounds count in which it ran fastest.

use std::hint::black_box;
use std::time::{Duration, Instant};

use savorylatch::answer::View;
use savorylatch::Command;

use crate::cases::{Case, Frame, DEVICE};
use crate::sides::{Buffer, Proved, Second, Side, ANSWER};

/// How long to measure.
#[derive(Clone, Copy)]
pub struct Plan {
    pub passes: usize,
    /// Of each case in each pass.
    pub rounds: usize,
    /// What a block of the slower side should take.
    pub block: Duration,
}

impl Plan {
    pub const FULL: Plan = Plan {
        passes: 100,
        rounds: 30,
        block: Duration::from_micros(20),
    };
    /// To see that everything works, not to learn anything.
    pub const QUICK: Plan = Plan {
        passes: 1,
        rounds: 10,
        block: Duration::from_micros(2),
    };
}

/// Of so many rounds one counts, the quietest.
pub const QUIET: usize = 10;

/// The two sides gave different answers, or other ones than the case names.
#[derive(Debug)]
pub struct Disagreement(pub String);

/// A case with both sides in its state, and the times so far.
pub struct Bench {
    pub case: Case,
    proved: Lane<Proved>,
    second: Lane<Second>,
    /// Repetitions in a block.
    times: usize,
    rounds: Vec<Round>,
}

/// Nanoseconds for one call.
#[derive(Clone, Copy, Default)]
struct Round {
    proved: f64,
    second: f64,
    copy: f64,
    /// The fixed work before or after it, whichever took longer.
    fixed: f64,
}

/// What the quiet rounds of a case say.
#[derive(Clone, Copy, Debug)]
pub struct Summary {
    /// Nanoseconds for one call, the median.
    pub proved: f64,
    pub second: f64,
    /// The first to the second, and the 10th and 90th percentile of the ratios of single rounds.
    pub ratio: f64,
    pub low: f64,
    pub high: f64,
    /// Nanoseconds for the plain copy, if there is one.
    pub copy: Option<f64>,
}

/// Measures all cases.
pub fn run(cases: Vec<Case>, plan: Plan) -> Result<Vec<Bench>, Disagreement> {
    let clock = Clock::new();
    let mut answer = Buffer::answer();
    let mut fixed = FixedWork::new();
    let mut benches: Vec<Bench> = cases
        .into_iter()
        .map(Bench::new)
        .collect::<Result<_, _>>()?;
    for bench in &mut benches {
        bench.choose_times(plan, &clock, answer.bytes_mut());
    }
    let mut random = Random::new();
    let mut order: Vec<usize> = (0..benches.len()).collect();
    for _ in 0..plan.passes {
        eprint!(".");
        random.shuffle(&mut order);
        for &at in &order {
            let bench = &mut benches[at];
            bench.round(&clock, &mut random, answer.bytes_mut())?;
            let mut before = fixed.time(&clock);
            for _ in 0..plan.rounds {
                let round = bench.round(&clock, &mut random, answer.bytes_mut())?;
                let after = fixed.time(&clock);
                bench.rounds.push(Round {
                    fixed: f64::max(before, after),
                    ..round
                });
                before = after;
            }
            bench.same_entries()?;
        }
    }
    eprintln!();
    Ok(benches)
}

impl Bench {
    /// Brings both sides into the state of the case, and goes through its steps once. Every answer
    /// must be the same on both sides, up to the last byte of the buffer, and as the case expects.
    pub fn new(case: Case) -> Result<Bench, Disagreement> {
        let mut pair = Pair::new(&case);
        for frame in &case.setup {
            pair.accepted(frame)?;
        }
        for step in &case.steps {
            for frame in &step.timed {
                pair.expected(frame)?;
            }
            for frame in &step.undo {
                pair.accepted(frame)?;
            }
        }
        pair.same_entries()?;
        let Pair { proved, second, .. } = pair;
        Ok(Bench {
            proved: Lane::new(proved),
            second: Lane::new(second),
            case,
            times: 1,
            rounds: Vec::new(),
        })
    }

    /// Repetitions enough for a block to be as long as planned.
    fn choose_times(&mut self, plan: Plan, clock: &Clock, answer: &mut [u8]) {
        // The third block of each side: the first ones fetch code and data.
        let mut slower = 0.0;
        for _ in 0..3 {
            let proved = self.proved.block(&self.case, 1, clock, answer).nanos;
            let second = self.second.block(&self.case, 1, clock, answer).nanos;
            slower = f64::max(proved, second);
        }
        let times = plan.block.as_nanos() as f64 / slower.max(1.0);
        self.times = times.ceil().clamp(1.0, 10_000.0) as usize;
    }

    fn round(
        &mut self,
        clock: &Clock,
        random: &mut Random,
        answer: &mut [u8],
    ) -> Result<Round, Disagreement> {
        let mut round = Round::default();
        let mut reasons = [0; 2];
        let mut order = [0, 1, 2];
        random.shuffle(&mut order);
        for lane in order {
            match lane {
                0 => {
                    let block = self.proved.block(&self.case, self.times, clock, answer);
                    round.proved = block.each();
                    reasons[0] = block.reasons;
                }
                1 => {
                    let block = self.second.block(&self.case, self.times, clock, answer);
                    round.second = block.each();
                    reasons[1] = block.reasons;
                }
                _ => {
                    if let Some(length) = self.case.copy {
                        let from = &self.proved.side.store()[..length];
                        round.copy = copy(from, self.times, clock, answer);
                    }
                }
            }
        }
        let same = reasons[0] == reasons[1];
        require(
            &self.case,
            same,
            "the sides gave different reasons while measured",
        )?;
        Ok(round)
    }

    /// Both sides must hold the same entries after they were measured.
    fn same_entries(&self) -> Result<(), Disagreement> {
        same_entries(&self.case, &self.proved.side, &self.second.side)
    }

    /// What was measured.
    pub fn summary(&self) -> Summary {
        let mut rounds = self.rounds.clone();
        rounds.sort_by(|one, other| one.fixed.total_cmp(&other.fixed));
        rounds.truncate(rounds.len().div_ceil(QUIET));
        let all = |time: fn(&Round) -> f64| Sorted::new(rounds.iter().map(time));
        let proved = all(|round| round.proved).median();
        let second = all(|round| round.second).median();
        let ratios = all(|round| round.proved / round.second);
        Summary {
            proved,
            second,
            ratio: proved / second,
            low: ratios.at(0.1),
            high: ratios.at(0.9),
            copy: self.case.copy.map(|_| all(|round| round.copy).median()),
        }
    }
}

/// One side in the state of a case.
struct Lane<S> {
    side: S,
    /// The step that is next, where steps are undone.
    next: usize,
}

/// A timed block.
struct Block {
    nanos: f64,
    calls: usize,
    /// The reasons of all calls, added.
    reasons: u64,
}

impl Block {
    /// Nanoseconds for one call.
    fn each(&self) -> f64 {
        self.nanos / self.calls as f64
    }
}

impl<S: Side> Lane<S> {
    fn new(side: S) -> Lane<S> {
        Lane { side, next: 0 }
    }

    /// All steps so many times if nothing is to be undone, otherwise so many steps.
    fn block(&mut self, case: &Case, times: usize, clock: &Clock, answer: &mut [u8]) -> Block {
        let mut block = Block {
            nanos: 0.0,
            calls: 0,
            reasons: 0,
        };
        if case.looped() {
            let start = Instant::now();
            for _ in 0..times {
                for step in &case.steps {
                    block.reasons += self.calls(&step.timed, answer);
                }
            }
            block.nanos = clock.since(start);
            let calls: usize = case.steps.iter().map(|step| step.timed.len()).sum();
            block.calls = calls * times;
        } else {
            for _ in 0..times {
                let step = &case.steps[self.next];
                self.next = (self.next + 1) % case.steps.len();
                let start = Instant::now();
                block.reasons += self.calls(&step.timed, answer);
                block.nanos += clock.since(start);
                block.calls += step.timed.len();
                block.reasons += self.calls(&step.undo, answer);
            }
        }
        block
    }

    /// The calls one after the other; gives back their reasons, added. Not inlined, so that the code
    /// around the two sides is the same.
    #[inline(never)]
    fn calls(&mut self, frames: &[Frame], answer: &mut [u8]) -> u64 {
        let mut reasons = 0;
        for frame in frames {
            reasons += u64::from(self.side.call(black_box(frame), black_box(&mut *answer)));
        }
        reasons
    }
}

/// Copies the bytes so many times to where an answer has its records; gives back nanoseconds for one
/// copy.
fn copy(from: &[u8], times: usize, clock: &Clock, answer: &mut [u8]) -> f64 {
    let to = &mut answer[4..][..from.len()];
    let start = Instant::now();
    for _ in 0..times {
        black_box(&mut *to).copy_from_slice(black_box(from));
    }
    clock.since(start) / times as f64
}

/// A fixed piece of work, to see how busy the machine is: copies that stay in the nearest cache, as
/// the calls do for the most part.
struct FixedWork {
    from: Vec<u8>,
    to: Vec<u8>,
}

impl FixedWork {
    fn new() -> FixedWork {
        FixedWork {
            from: vec![1; 1500],
            to: vec![0; 1500],
        }
    }

    fn time(&mut self, clock: &Clock) -> f64 {
        let start = Instant::now();
        for _ in 0..32 {
            black_box(&mut self.to).copy_from_slice(black_box(&self.from));
        }
        clock.since(start)
    }
}

/// The clock, with what looking at it takes by itself.
struct Clock {
    overhead: f64,
}

impl Clock {
    fn new() -> Clock {
        let empty = || Instant::now().elapsed().as_nanos() as f64;
        let all = Sorted::new((0..10_001).map(|_| empty()));
        Clock {
            overhead: all.median(),
        }
    }

    /// Nanoseconds, without those of the clock itself.
    fn since(&self, start: Instant) -> f64 {
        let nanos = start.elapsed().as_nanos() as f64;
        (nanos - self.overhead).max(0.0)
    }
}

/// Both sides, compared at every call.
struct Pair<'a> {
    case: &'a Case,
    proved: Proved,
    second: Second,
    answers: [Vec<u8>; 2],
}

impl Pair<'_> {
    fn new(case: &Case) -> Pair<'_> {
        Pair {
            case,
            proved: Proved::fresh(DEVICE),
            second: Second::fresh(DEVICE),
            answers: [vec![0; ANSWER], vec![0; ANSWER]],
        }
    }

    /// The same reason and the same bytes from both.
    fn call(&mut self, frame: &[u8]) -> Result<u8, Disagreement> {
        let [first, other] = &mut self.answers;
        first.fill(0xa5);
        other.fill(0xa5);
        let reason = self.proved.call(frame, first);
        let agreed = reason == self.second.call(frame, other) && first == other;
        self.require(agreed, "the sides answered differently")?;
        Ok(reason)
    }

    fn accepted(&mut self, frame: &[u8]) -> Result<(), Disagreement> {
        let reason = self.call(frame)?;
        self.require(reason == 0, "a call around the timed ones was refused")
    }

    fn expected(&mut self, frame: &[u8]) -> Result<(), Disagreement> {
        let expect = self.case.expect;
        let reason = self.call(frame)?;
        let answer = &self.answers[0];
        let view = View::new(answer, Command::of(frame)).ok();
        let records = view.map_or(0, |view| view.count());
        let mut pairs = view.iter().flat_map(View::pairs).enumerate();
        let kept = reason == expect.reason
            && view.is_some_and(|view| view.reason().number() == reason)
            && records == expect.records
            && match expect.pairs {
                Some(expected) => {
                    pairs.all(|(at, (given, _))| given.number() == expected.reason(at))
                }
                None => true,
            };
        let found = format!("reason {reason} and {records} records are not what the case names");
        self.require(kept, &found)
    }

    fn same_entries(&self) -> Result<(), Disagreement> {
        same_entries(self.case, &self.proved, &self.second)
    }

    fn require(&self, kept: bool, message: &str) -> Result<(), Disagreement> {
        require(self.case, kept, message)
    }
}

fn same_entries(case: &Case, proved: &Proved, second: &Second) -> Result<(), Disagreement> {
    let count = proved.count();
    let same = proved.entries(count) == second.entries(count);
    require(case, same, "the sides hold different entries")
}

fn require(case: &Case, kept: bool, message: &str) -> Result<(), Disagreement> {
    if kept {
        return Ok(());
    }
    let (command, name) = (case.command, &case.name);
    Err(Disagreement(format!("{command}, {name}: {message}")))
}

/// Numbers in order.
struct Sorted(Vec<f64>);

impl Sorted {
    fn new(numbers: impl Iterator<Item = f64>) -> Sorted {
        let mut numbers: Vec<f64> = numbers.collect();
        numbers.sort_by(f64::total_cmp);
        Sorted(numbers)
    }

    /// The number below which this part of them lies, between two neighbours if need be.
    fn at(&self, part: f64) -> f64 {
        let Some(last) = self.0.len().checked_sub(1) else {
            return f64::NAN;
        };
        let place = part * last as f64;
        let (below, above) = (
            self.0[place.floor() as usize],
            self.0[place.ceil() as usize],
        );
        below + (above - below) * place.fract()
    }

    fn median(&self) -> f64 {
        self.at(0.5)
    }
}

/// Random enough for an order; the same in each run.
struct Random(u64);

impl Random {
    fn new() -> Random {
        Random(0x9e37_79b9_7f4a_7c15)
    }

    fn below(&mut self, bound: usize) -> usize {
        self.0 ^= self.0 << 13;
        self.0 ^= self.0 >> 7;
        self.0 ^= self.0 << 17;
        (self.0 >> 33) as usize % bound
    }

    fn shuffle<T>(&mut self, items: &mut [T]) {
        for at in (1..items.len()).rev() {
            let other = self.below(at + 1);
            items.swap(at, other);
        }
    }
}

#[cfg(test)]
mod tests {
    use super::*;

    #[test]
    fn parts_of_numbers() {
        let numbers = Sorted::new([4.0, 1.0, 3.0, 2.0, 5.0].into_iter());
        assert_eq!(numbers.median(), 3.0);
        assert_eq!(numbers.at(0.0), 1.0);
        assert_eq!(numbers.at(1.0), 5.0);
        assert_eq!(numbers.at(0.625), 3.5);
        assert!(Sorted::new([].into_iter()).median().is_nan());
    }

    #[test]
    fn a_shuffle_loses_nothing() {
        let mut items: Vec<usize> = (0..100).collect();
        Random::new().shuffle(&mut items);
        assert_ne!(items, (0..100).collect::<Vec<_>>());
        items.sort_unstable();
        assert_eq!(items, (0..100).collect::<Vec<_>>());
    }
}
