//! What was measured, as Markdown and as plots.

use std::fs;

use crate::cases::{Batch, Form, Growth, Keys, Narrow, Task, Way, ENTRY, FULL};
use crate::measure::{Bench, Plan, Summary, QUIET};
use crate::plot::{self, Line};

const PROVED_COLOUR: &str = "#0b5fa5";
const SECOND_COLOUR: &str = "#c8540a";
const COPY_COLOUR: &str = "#666";

/// The tables.
pub fn tables(benches: &[Bench]) -> String {
    [
        commands(benches),
        atomic(benches),
        padded(benches),
        copies(benches),
        series(benches),
    ]
    .concat()
}

/// The file BENCHMARKS.md.
pub fn document(benches: &[Bench], plan: Plan) -> String {
    let plots: String = Growth::ALL
        .map(|growth| format!("![{}]({})\n", growth.title(), growth.file()))
        .join("\n");
    [
        opening(plan),
        tables(benches),
        format!(
            "## Plots\n\nFull lines are keys that differ early, dashed ones late.\n\n{plots}\n"
        ),
        "## Copies, and what stays above 1.00\n\n`SPEED.md` counts the copies of memory in a call, and says of the cases above 1.00 why they are.\n".to_owned(),
    ]
    .concat()
}

/// The plots with the names of their files.
pub fn plots(benches: &[Bench]) -> Vec<(&'static str, String)> {
    Growth::ALL
        .map(|growth| (growth.file(), plot(benches, growth)))
        .into()
}

fn opening(plan: Plan) -> String {
    let rounds = grouped(plan.passes * plan.rounds);
    let micros = plan.block.as_micros();
    format!(
        "\
# Benchmarks

The proved agent beside the second implementation in Rust, each called with the same frames in the \
same states, in one run.

Machine: {machine}.

## To repeat it

In `rust`, with `libsavorylatch.a` in place (see the documentation of the crate `savorylatch`), on a \
machine that does nothing else:

```
cargo run --release -p bench                    # prints the tables
cargo run --release -p bench -- --write DIR     # also writes this file and the plots to DIR
cargo run --release -p bench -- --quick         # to see that it runs
cargo run --release -p bench -- --only TEXT     # only cases with this text in their names
```

It takes about a minute; `taskset -c 1` before it keeps it on one core. The release profile is \
Cargo's own. Link-time optimisation is off: the archive could take no part in it, so it would help \
the second only. The program ends with 0 unless the two sides disagree: no time makes it fail.

## What is compared

- *Proved* is `savorylatch::Agent::call_in`: the wrapper, the C interface and the proved library, \
in memory that the host lends. *Second* is `reference::Agent::call`, which keeps entries in a `Vec` \
with a `HashMap` from key to place, allocates, and uses no store. Both write the whole answer to the \
same buffer.
- *Ratio* is proved to second: 1.00 is equal, below it the proved agent takes less time. It is the \
ratio of the two medians. *Spread* is the 10th to the 90th percentile of the ratios of single rounds. \
A round times one block of each side, in random order, of about {micros} microseconds for the slower \
one; the cases are gone through {passes} times, in random order.
- Of the {rounds} rounds of a case one in {QUIET} counts: those in which a fixed piece of work, timed \
before and after each round, ran fastest. On a shared machine the work of others slows both sides \
down for a while.
- Before a case is measured both sides go through it once: reason, answer up to the last byte of the \
buffer, and entries must be the same, and be those that the case names. While it is measured the \
reasons are added up and compared, after each pass the entries.
- A call that changes the state is brought back by calls that are not timed: an INSERT by a DELETE, \
a CLOSE by OPEN and ARBITRATE. What was deleted at the first place is inserted at the last, so that \
the next entry is the first. What the clock takes by itself is measured and subtracted.
- Keys that differ *early* differ in the first byte of a 16-byte exact value (one of 256 in the \
second), those that differ *late* in the last byte. *Four slots* is a table of four fields of 128 \
bits (exact, lpm, ternary, range) and four parameters of 128 bits, where keys differ in the last \
byte of the fourth slot. Elsewhere keys differ late, or there are none; *Padded keys* has keys of its \
own.
- Nanoseconds are for one call, also where the call has 64 updates.
- How the linker lays the code out sways single cases from one build to the next. Of the second: by up \
to a half where CLOSE and ARBITRATE notify many streams, elsewhere by a few percent. Of the proved \
agent: the search for a key by up to two fifths and a DELETE by up to a quarter, by where their loops lie.

Not compared: building frames and reading answers, transport, the first call with cold caches, \
several threads, memory, and agents other than these two.

",
        machine = machine(),
        passes = plan.passes,
    )
}

/// From `/proc/cpuinfo`.
fn machine() -> String {
    let Ok(info) = fs::read_to_string("/proc/cpuinfo") else {
        return "unknown".to_owned();
    };
    let all = |name: &str| {
        let lines = info.lines().filter_map(|line| line.split_once(':'));
        lines
            .filter(|(key, _)| key.trim() == name)
            .map(|(_, value)| value.trim().to_owned())
            .collect::<Vec<_>>()
    };
    let first = |name: &str| all(name).into_iter().next().unwrap_or_default();
    let guest = if first("flags").split(' ').any(|flag| flag == "hypervisor") {
        ", virtual machine"
    } else {
        ""
    };
    format!(
        "{}, {} processors, cache {}, {} MHz{guest}",
        first("model name"),
        all("processor").len(),
        first("cache size"),
        first("cpu MHz"),
    )
}

/// The table of all commands.
fn commands(benches: &[Bench]) -> String {
    let rows: Vec<(&Bench, Summary)> = benches
        .iter()
        .filter(|bench| bench.case.in_commands())
        .map(|bench| (bench, bench.summary()))
        .collect();
    let above = rows.iter().filter(|(_, summary)| summary.ratio > 1.0);
    let mut out = format!(
        "## Commands\n\n\
         {} cases; in {} of them the ratio is above 1.00.\n\n\
         | Command | Case | Keys | Proved, ns | Second, ns | Ratio | Spread |\n\
         |---|---|---|--:|--:|--:|--:|\n",
        rows.len(),
        above.count()
    );
    for (bench, summary) in rows {
        let case = &bench.case;
        out += &format!(
            "| {} | {} | {} | {} | {} | {:.2} | {:.2} to {:.2} |\n",
            case.command,
            case.name,
            case.keys.map_or("", Keys::name),
            nanos(summary.proved),
            nanos(summary.second),
            summary.ratio,
            summary.low,
            summary.high,
        );
    }
    out + "\n"
}

/// Atomic batches beside plain ones, of the proved agent.
fn atomic(benches: &[Bench]) -> String {
    let mut rows = String::new();
    for keys in [Keys::Early, Keys::Late] {
        for batch in Batch::ALL {
            let proved = |way: Way| {
                let is_it = |bench: &&Bench| {
                    bench.case.atomic == Some((batch, way)) && bench.case.keys == Some(keys)
                };
                let bench = benches.iter().find(is_it);
                bench.map(|bench| bench.summary().proved)
            };
            if batch.ways().iter().any(|&way| proved(way).is_some()) {
                let cells = atomic_cells(proved);
                rows += &format!("| {} | {} | {cells} |\n", batch.name, keys.name());
            }
        }
    }
    if rows.is_empty() {
        return rows;
    }
    format!(
        "## Atomic batches\n\n\
         The proved agent only: nanoseconds for one WRITE with atomicity 0 (*plain*) and with \
         atomicity 1, and ratios of these medians, all measured in the same passes. *Accepted* is to \
         the plain one. *Rolled back* fails at its 64th update, *failing* at its second of 64; both \
         are to the accepted one. They leave the state as it was, so that many are timed at once, as \
         MODIFYs are; accepted INSERTs and DELETEs are undone after each.\n\n\
         Goals: accepted at most 1.25 (64 INSERTs into an empty store) and 1.50 (64 DELETEs, and 1 \
         MODIFY in a store of 192); rolled back at the 64th at most 2.00 (DELETEs 2.50); failing at \
         the second at most 0.25.\n\n\
         | Batch | Keys | Plain, ns | Accepted, ns | Ratio | Rolled back at the 64th, ns | Ratio | \
         Failing at the 2nd, ns | Ratio |\n\
         |---|---|--:|--:|--:|--:|--:|--:|--:|\n{rows}\n"
    )
}

/// A row's times and ratios; a cell is empty where nothing was measured.
fn atomic_cells(proved: impl Fn(Way) -> Option<f64>) -> String {
    let time = |way: Way| proved(way).map_or(String::new(), nanos);
    let ratio = |way: Way, to: Way| match (proved(way), proved(to)) {
        (Some(one), Some(other)) => format!("{:.2}", one / other),
        _ => String::new(),
    };
    [
        time(Way::Plain),
        time(Way::Accepted),
        ratio(Way::Accepted, Way::Plain),
        time(Way::LastFails),
        ratio(Way::LastFails, Way::Accepted),
        time(Way::SecondFails),
        ratio(Way::SecondFails, Way::Accepted),
    ]
    .join(" | ")
}

/// The highest ratio of padded keys to shortest ones that is asked for.
const PADDED_GOAL: f64 = 1.5;

/// Calls with padded keys beside the same ones with keys in shortest form.
fn padded(benches: &[Bench]) -> String {
    let pairs = pairs(benches);
    if pairs.is_empty() {
        return String::new();
    }
    let proved = |pair: &Pair| pair.ratio(|summary| summary.proved);
    let ratios = || pairs.iter().filter_map(proved);
    let above = ratios().filter(|&ratio| ratio > PADDED_GOAL).count();
    let highest = ratios().fold(0.0, f64::max);
    let rows: String = pairs.iter().map(Pair::row).collect();
    format!(
        "## Padded keys\n\n\
         Nanoseconds for one call whose keys are in shortest form, and for the same call with every \
         value of its keys padded with leading zeros to 16 bytes, masks and prefix lengths too; \
         *ratio* is padded to shortest, of these medians, of the proved agent and of the second, all \
         measured in the same passes. The entries stored are the same, and so are parameters.\n\n\
         In shortest form a value has 12 bytes, and 4 in the keys named so: addresses in a field of 32 \
         bits. Keys that differ *early* differ in the first byte of one exact value (one of 256 in the \
         second), *late* ones and addresses in the last byte. *Four slots* are exact, lpm, ternary and \
         range, of 128 bits: keys differ in the last byte of the last slot's second value, or, in the \
         *middle*, of the second slot's first value.\n\n\
         Goal: at most {PADDED_GOAL:.2}. {} pairs; in {above} of them the proved agent's ratio is above \
         it, and {highest:.2} is the highest.\n\n\
         | Case | Keys | Proved, shortest, ns | Padded, ns | Ratio | Second, shortest, ns | Padded, ns | \
         Ratio |\n\
         |---|---|--:|--:|--:|--:|--:|--:|\n{rows}\n",
        pairs.len()
    )
}

/// A call with keys in both forms, as far as they were measured.
struct Pair {
    task: Task,
    narrow: Narrow,
    shortest: Option<Summary>,
    padded: Option<Summary>,
}

/// The pairs of which a form was measured.
fn pairs(benches: &[Bench]) -> Vec<Pair> {
    let find = |task: Task, keys: Keys| {
        let is_it = |bench: &&Bench| bench.case.task == Some(task) && bench.case.keys == Some(keys);
        benches.iter().find(is_it).map(Bench::summary)
    };
    let mut pairs = Vec::new();
    for narrow in Narrow::ALL {
        pairs.extend(Task::ALL.map(|task| Pair {
            task,
            narrow,
            shortest: find(task, Keys::Narrow(narrow, Form::Shortest)),
            padded: find(task, Keys::Narrow(narrow, Form::Padded)),
        }));
    }
    pairs.retain(|pair| pair.shortest.is_some() || pair.padded.is_some());
    pairs
}

impl Pair {
    /// Padded to shortest, of one side.
    fn ratio(&self, time: fn(Summary) -> f64) -> Option<f64> {
        Some(time(self.padded?) / time(self.shortest?))
    }

    /// Times and ratio of one side; a cell is empty where nothing was measured.
    fn cells(&self, time: fn(Summary) -> f64) -> String {
        let nanos = |form: Option<Summary>| form.map(time).map_or(String::new(), nanos);
        let ratio = self.ratio(time).map(|ratio| format!("{ratio:.2}"));
        let ratio = ratio.unwrap_or_default();
        format!(
            "{} | {} | {ratio}",
            nanos(self.shortest),
            nanos(self.padded)
        )
    }

    fn row(&self) -> String {
        format!(
            "| {} | {} | {} | {} |\n",
            self.task.name(),
            self.narrow.name(),
            self.cells(|summary| summary.proved),
            self.cells(|summary| summary.second),
        )
    }
}

/// READ of all entries beside a plain copy of the same bytes.
fn copies(benches: &[Bench]) -> String {
    let mut rows = String::new();
    for bench in benches.iter().filter(|bench| bench.case.growth.is_none()) {
        let summary = bench.summary();
        let Some(copy) = summary.copy else {
            continue;
        };
        for (what, time) in [
            ("plain copy", copy),
            ("proved", summary.proved),
            ("second", summary.second),
        ] {
            rows += &format!("| {what} | {} | {:.2} |\n", nanos(time), time / copy);
        }
    }
    if rows.is_empty() {
        return rows;
    }
    let bytes = grouped(FULL * ENTRY);
    format!(
        "## READ of all entries beside a plain copy\n\n\
         `copy_from_slice` of the {bytes} bytes of the store to where the answer has its records, \
         timed in the same rounds.\n\n\
         | What | ns | To the copy |\n|---|--:|--:|\n{rows}\n"
    )
}

/// Cost as the number of entries grows.
fn series(benches: &[Bench]) -> String {
    let mut out = String::new();
    for growth in Growth::ALL {
        let points = points(benches, growth);
        if points.is_empty() {
            continue;
        }
        let copied = points.iter().any(|point| point.late.copy.is_some());
        out += &format!("### {}\n\n", growth.title());
        out += "| Entries | Proved, early | Second, early | Ratio | Proved, late | Second, late | \
                Ratio |";
        out += if copied { " Plain copy |\n" } else { "\n" };
        out += "|--:|--:|--:|--:|--:|--:|--:|";
        out += if copied { "--:|\n" } else { "\n" };
        for Point {
            entries,
            early,
            late,
        } in points
        {
            let both = [early, late].map(|side| {
                let (proved, second) = (nanos(side.proved), nanos(side.second));
                format!("{proved} | {second} | {:.2}", side.ratio)
            });
            let copy = late.copy.map(|copy| format!(" {} |", nanos(copy)));
            let copy = copy.unwrap_or_default();
            out += &format!("| {entries} | {} | {} |{copy}\n", both[0], both[1]);
        }
        out += "\n";
    }
    if out.is_empty() {
        return out;
    }
    format!(
        "## Cost as the number of entries grows\n\nNanoseconds for one call; the entries of an \
         INSERT include the new one.\n\n{out}"
    )
}

/// A number of entries in a series.
struct Point {
    entries: usize,
    early: Summary,
    late: Summary,
}

/// The points of a series that were measured.
fn points(benches: &[Bench], growth: Growth) -> Vec<Point> {
    let find = |keys: Keys, entries: usize| {
        let is_it = |bench: &&Bench| {
            bench.case.growth == Some((growth, entries)) && bench.case.keys == Some(keys)
        };
        benches.iter().find(is_it).map(Bench::summary)
    };
    Growth::COUNTS
        .iter()
        .filter_map(|&entries| {
            Some(Point {
                entries,
                early: find(Keys::Early, entries)?,
                late: find(Keys::Late, entries)?,
            })
        })
        .collect()
}

fn plot(benches: &[Bench], growth: Growth) -> String {
    let points = points(benches, growth);
    let line = |label: &str, colour, dashed, time: &dyn Fn(&Point) -> Option<f64>| Line {
        label: label.to_owned(),
        colour,
        dashed,
        points: points
            .iter()
            .filter_map(|point| Some((point.entries as f64, time(point)?)))
            .collect(),
    };
    let mut lines = vec![
        line(
            "proved, keys differ early",
            PROVED_COLOUR,
            false,
            &|point| Some(point.early.proved),
        ),
        line("proved, keys differ late", PROVED_COLOUR, true, &|point| {
            Some(point.late.proved)
        }),
        line(
            "second, keys differ early",
            SECOND_COLOUR,
            false,
            &|point| Some(point.early.second),
        ),
        line("second, keys differ late", SECOND_COLOUR, true, &|point| {
            Some(point.late.second)
        }),
        line("plain copy of the bytes", COPY_COLOUR, false, &|point| {
            point.late.copy
        }),
    ];
    lines.retain(|line| !line.points.is_empty());
    plot::svg(growth.title(), &lines)
}

/// Nanoseconds, with as much as can be relied on.
fn nanos(nanos: f64) -> String {
    if nanos < 100.0 {
        format!("{nanos:.1}")
    } else {
        grouped(nanos.round() as usize)
    }
}

/// With a comma before every three digits.
fn grouped(number: usize) -> String {
    let digits = number.to_string();
    let mut out = String::new();
    for (at, digit) in digits.chars().enumerate() {
        if at > 0 && (digits.len() - at) % 3 == 0 {
            out.push(',');
        }
        out.push(digit);
    }
    out
}

#[cfg(test)]
mod tests {
    use super::*;

    #[test]
    fn ratios_of_atomic_batches() {
        let full = |way: Way| match way {
            Way::Plain => Some(1000.0),
            Way::Accepted => Some(1250.0),
            Way::LastFails => Some(2000.0),
            Way::SecondFails => Some(250.0),
        };
        let cells = "1,000 | 1,250 | 1.25 | 2,000 | 1.60 | 250 | 0.20";
        assert_eq!(atomic_cells(full), cells);
        let one = |way: Way| (way == Way::Accepted).then_some(99.0);
        assert_eq!(atomic_cells(one), " | 99.0 |  |  |  |  | ");
    }

    #[test]
    fn a_row_of_padded_keys() {
        let summary = |proved, second| Summary {
            proved,
            second,
            ratio: proved / second,
            low: 1.0,
            high: 1.0,
            copy: None,
        };
        let pair = Pair {
            task: Task::ReadLast,
            narrow: Narrow::Late,
            shortest: Some(summary(200.0, 100.0)),
            padded: Some(summary(250.0, 110.0)),
        };
        let row = "| READ of 1 key, last of 256 | late | 200 | 250 | 1.25 | 100 | 110 | 1.10 |\n";
        assert_eq!(pair.row(), row);
        let one = Pair {
            shortest: None,
            ..pair
        };
        let row = "| READ of 1 key, last of 256 | late |  | 250 |  |  | 110 |  |\n";
        assert_eq!(one.row(), row);
    }

    #[test]
    fn numbers_in_a_table() {
        assert_eq!(nanos(7.26), "7.3");
        assert_eq!(nanos(99.94), "99.9");
        assert_eq!(nanos(123.4), "123");
        assert_eq!(nanos(56_320.0), "56,320");
        assert_eq!(grouped(1_234_567), "1,234,567");
        assert_eq!(grouped(999), "999");
    }
}
