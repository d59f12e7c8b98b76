//! The tables, as Markdown.

use crate::bins;
use crate::calls::{self, KINDS, LIVE};
use crate::checks::{self, CHUNKS, FILLS};
use crate::clock::ROUNDS;
use crate::fit;
use crate::instructions::{self, Cost};
use crate::order;
use crate::patrols::{self, Way, WAYS};
use crate::room;
use crate::stations::kind_name;
use std::fmt::Write;
use std::process::Command;

pub const CHECK: &str = "## The check, relative to a walk by hand";
pub const INSTRUCTIONS: &str = "## The instructions of a check, relative to a walk by hand";
pub const PATROL: &str = "## The patrol, relative to the same loop by hand";
pub const CALLS: &str = "## The calls, relative to other allocators";
pub const BINS: &str = "## A step outside the check, by the number of bins";
pub const ROOM: &str = "## How often there is no room";
pub const FIT: &str = "## How well blocks from bins fit";
pub const ORDER: &str = "## A bin in order of size, by the number of its chunks";

const METHOD: &str = "\
`cd rust && cargo run --release -p bench` (after `bash tools/archive`) writes this page, and with the word `check`, `instructions`, `patrol`, `calls`, `bins`, `room`, `fit` or `order` that part of it. Each ratio is to a peer measured in the same run. \
Times are medians of interleaved runs: a round runs every work once, and a first round, which warms the caches, is not counted. \
The heap, the record and the peers' arenas stay in the processor's first two caches. The proved heap is called through `kruzhvela::flat`, the functions of C: \
each call but the check and the patrol unpacks the record from its 103 words and, the questions apart, packs it again.
";

fn line(command: &str, words: &[&str]) -> String {
    let output = Command::new(command).args(words).output();
    output.map_or_else(|_| "unknown".into(), |o| String::from_utf8_lossy(&o.stdout).trim().to_string())
}

pub fn method() -> String {
    format!("# Benchmarks\n\n{METHOD}\n")
}

/// Date, machine and rounds: parts of the page may be measured apart.
fn measured() -> String {
    let model = line("sh", &["-c", "lscpu | sed -n 's/^Model name: *//p' | head -1"]);
    format!(
        "Measured on: {}, {} ({} processors), {}. {ROUNDS} rounds.",
        line("date", &["-u", "+%Y-%m-%d"]),
        model,
        line("nproc", &[]),
        line("uname", &["-sm"])
    )
}

/// Our time and a peer's on a heap of so many chunks, in nanoseconds.
struct Times {
    chunks: u32,
    ours: f64,
    peer: f64,
}

/// The exponent with which the time grows in the number of chunks: 1 is linear.
fn exponent(times: &[Times]) -> f64 {
    let (less, more) = (&times[1], &times[2]);
    (more.ours / less.ours).ln() / (f64::from(more.chunks) / f64::from(less.chunks)).ln()
}

/// Ratios to a peer: a line for each name, a column for each number of chunks.
fn ratios(lines: Vec<(String, Vec<Times>)>) -> String {
    let mut text = String::from(
        "| Heap | 20 chunks | 200 chunks | 2,500 chunks | growth from 200 to 2,500 |\n|---|---|---|---|---|\n",
    );
    for (name, times) in lines {
        let cell = |times: &Times| format!("{:.2} ({:.0} ns)", times.ours / times.peer, times.ours);
        let cells: Vec<String> = times.iter().map(cell).collect();
        assert_eq!(cells.len(), CHUNKS.len());
        let _ = writeln!(text, "| {name} | {} | {:.2} |", cells.join(" | "), exponent(&times));
    }
    text
}

fn check_ratios(rows: &[checks::Row]) -> String {
    let times = |row: &checks::Row| Times { chunks: row.chunks, ours: row.ours, peer: row.limit };
    let of = |fill| rows.iter().filter(|row| row.fill == fill).map(times).collect();
    ratios(FILLS.iter().map(|&(fill, name)| (name.to_string(), of(fill))).collect())
}

pub fn checks(rows: &[checks::Row]) -> String {
    format!(
        "{}\n\nThe peer (`rust/bench/c/limit.c`) is the check written by hand in C for speed: it tests the same conditions on the same words and keeps the same bitmap. \
         Aim: at most 1.20, and at most 1.10 for the exponent of growth (1 is linear).\n\n{}",
        measured(),
        check_ratios(rows)
    )
}

/// The table of what a check costs in instructions, for a chunk of each kind and once.
pub fn instructions([ours, limit]: &[Cost; 2]) -> String {
    let costs = [
        ("for a chunk in use", ours.used, limit.used),
        ("for an ordinary chunk", ours.ordinary, limit.ordinary),
        ("once for each check", ours.once, limit.once),
    ];
    let mut text = format!(
        "Counted by {} on {}; the peer is compiled by {}. The heaps have 16,384 words, {} bins and 100 or 1,100 chunks, all in use or all ordinary.\n\n\
         | Instructions of a check | proved | by hand | ratio |\n|---|---|---|---|\n",
        line("valgrind", &["--version"]),
        line("uname", &["-sm"]),
        line("sh", &["-c", "cc --version | head -1"]),
        instructions::BINS.len()
    );
    for (part, ours, peer) in costs {
        let _ = writeln!(text, "| {part} | {ours:.1} | {peer:.1} | {:.2} |", ours / peer);
    }
    text
}

fn patrol_ratios(rows: &[patrols::Row], ways: &[Way]) -> String {
    let times = |row: &patrols::Row| Times { chunks: row.chunks, ours: row.ours, peer: row.limit };
    let of = |way, fill| rows.iter().filter(|row| row.way == way && row.fill == fill).map(times).collect();
    let named = WAYS.iter().filter(|(way, _)| ways.contains(way));
    let lines = named.flat_map(|&(way, by)| FILLS.map(|(fill, name)| (format!("{name}, {by}"), of(way, fill))));
    ratios(lines.collect())
}

pub fn patrols(rows: &[patrols::Row]) -> String {
    format!(
        "{}\n\nThe peer (`rust/bench/c/patrol.c`) is the same loop written by hand in C: it makes the same tests of each chunk, and goes along once where nothing is wrong. \
         The heaps are undamaged. A full patrol in one run and in runs of 16 chunks; aim: at most 1.20.\n\n{}\n\
         One run of 16 chunks from the start. Its time must not grow with the heap: an exponent of 0.\n\n{}",
        measured(),
        patrol_ratios(rows, &[Way::OneRun, Way::RunsOf16]),
        patrol_ratios(rows, &[Way::FirstRunOf16])
    )
}

fn call_ratios(rows: &[calls::Row]) -> String {
    let names: Vec<&str> = rows[0].peers.iter().map(|peer| peer.name).collect();
    let rest: Vec<String> = names.iter().map(|name| format!("rest to {name}")).collect();
    let mut text =
        format!("| Load | live | step | check | walk | rest | {} | {} |\n", names.join(" | "), rest.join(" | "));
    let _ = writeln!(text, "|---|---|---|---|---|---|{}", "---|".repeat(2 * names.len()));
    for (kind, name) in KINDS {
        for live in LIVE {
            for row in rows.iter().filter(|row| row.kind == kind && row.live == live) {
                let part = |time: f64| format!("{:.0} %", 100.0 * time / row.ours);
                let steps: Vec<String> = row.peers.iter().map(|peer| format!("{:.1}", row.ours / peer.step)).collect();
                let rests: Vec<String> =
                    row.peers.iter().map(|peer| format!("{:.1}", row.rest / peer.steady)).collect();
                let _ = writeln!(
                    text,
                    "| {name} | {live} | {:.0} ns | {} | {} | {} ({:.0} ns) | {} | {} |",
                    row.ours,
                    part(row.check()),
                    part(row.walk),
                    part(row.rest),
                    row.rest,
                    steps.join(" | "),
                    rests.join(" | ")
                );
            }
        }
    }
    text
}

pub fn calls(rows: &[calls::Row]) -> String {
    let missing = if rows[0].peers.len() == 1 {
        "Debian's `newlib-source` is not installed here, so newlib's two allocators are left out.\n\n"
    } else {
        ""
    };
    format!(
        "{}\n\nEach of newlib's two allocators has one fixed arena of 65,536 bytes, as the heap has; glibc's takes memory from the system. \
         A step frees one strip and allocates another (reallocate: it resizes one). \
         Its parts are the checks, the walk that finds a live block, and the rest. Walk and rest are measured on a steady heap, which each step brings back to the same state, \
         so that the check can be measured alone on those states; the checks are what remains of a step of the load. \
         The peers' columns give the ratio of the steps; the last columns give the ratio of the rest to the peer's step on a steady heap. Aim of the rest: not slower than newlib's.\n\n{missing}{}",
        measured(),
        call_ratios(rows)
    )
}

/// A step outside the check for each table, with its ratio to a step of glibc's.
pub fn bins(rows: &[bins::Row]) -> String {
    let mut text = format!(
        "{} Instructions counted by {}.\n\nA step frees one of 20 strips and allocates another; a call of the check is taken off for each of its two calls. \
         With 3 bins all sizes of the load are outside the small array, with 19 and 32 four of five. \
         Instructions are the mean of a thousand steps, with some 80 of the benchmark's own; times are the mean of a steady step of a strip of each size.\n\n\
         | Bins | instructions | time | to a step of glibc's |\n|---|---|---|---|\n",
        measured(),
        line("valgrind", &["--version"])
    );
    for row in rows {
        let instructions = row.instructions.map_or("not counted".into(), |count| format!("{count:.0}"));
        let _ = writeln!(text, "| {} | {instructions} | {:.0} ns | {:.1} |", row.bins, row.time, row.time / row.glibc);
    }
    text
}

/// The requests refused for lack of room, for each load and donor.
pub fn room(rows: &[room::Row]) -> String {
    let mut text = String::from(
        "The loads in heaps with a tenth more bytes than so many strips of the mean size need, without a donor and with one of an eighth or a quarter of the heap. \
         A strip that is refused stays away until its slot's next turn (reallocate: it keeps its size). The counts are the same in every run.\n\n\
         | Load | live | heap bytes | requests | refused with 7, no donor | donor of an eighth | donor of a quarter |\n|---|---|---|---|---|---|---|\n",
    );
    for row in rows {
        let refused = row.refused.map(|count| count.to_string()).join(" | ");
        let _ =
            writeln!(text, "| {} | {} | {} | {} | {refused} |", kind_name(row.kind), row.live, row.bytes, row.requests);
    }
    text
}

pub fn fit(rows: &[fit::Row]) -> String {
    let mut text = String::from(
        "The loads of the part above in the same heaps and in the largest heap, without a donor. Of the new blocks, those that come from a bin: \
         the bytes of their chunks beyond the need, in all; the bytes beyond the need of the chunks that they were cut from, in all; \
         and for how many a smaller ordinary chunk could serve, which the promise `BestFit` says is none. What is cut off goes back to a bin if it has 24 bytes. \
         The figures are the same in every run.\n\n\
         | Load | live | heap bytes | new blocks | from a bin | bytes granted beyond the need | bytes of the chunk beyond the need | a smaller one could serve |\n\
         |---|---|---|---|---|---|---|---|\n",
    );
    let mut all = [0; 5];
    for row in rows {
        let fit = &row.fit;
        let figures = [fit.granted, fit.from_bins, fit.beyond, fit.taken_beyond, fit.not_smallest];
        let cells = figures.map(|figure| figure.to_string()).join(" | ");
        let _ = writeln!(text, "| {} | {} | {} | {cells} |", kind_name(row.kind), row.live, row.bytes);
        all = std::array::from_fn(|at| all[at] + figures[at]);
    }
    let _ = writeln!(text, "| all | | | {} |", all.map(|figure: usize| figure.to_string()).join(" | "));
    text
}

/// A line of times: for each number of chunks in the bin, the same for each chunk, and the exponent of growth.
fn order_line(name: &str, rows: &[order::Row], time: fn(&order::Row) -> f64) -> String {
    let cell = |row: &order::Row| format!("{:.0} ns ({:.2})", time(row), time(row) / row.members as f64);
    let cells: Vec<String> = rows.iter().map(cell).collect();
    let (less, more) = (&rows[1], &rows[2]);
    let growth = (time(more) / time(less)).ln() / (more.members as f64 / less.members as f64).ln();
    // a difference of two times may be below 0
    let growth = if growth.is_finite() { format!("{growth:.2}") } else { String::new() };
    format!("| {name} | {} | {growth} |\n", cells.join(" | "))
}

/// The check and the calls on one large bin, for each number of chunks in it.
pub fn order(rows: &[order::Row]) -> String {
    let ratios: Vec<String> = rows.iter().map(|row| format!("{:.2}", row.check / row.by_hand)).collect();
    let mut text = format!(
        "{}\n\nThe largest heap, with merging off and one bin outside the small array, whose free chunks have six sizes (40 to 80 bytes) and stand in ascending order. \
         A block that is freed goes before all of them, behind half or behind all. Allocate + free takes the first chunk of 56 bytes, a third down the list, and puts it behind half. \
         Each call finds the same heap: the words that it changed are put back, and the time of that is taken off. Every call has its check in it. \
         In parentheses the time for each chunk in the bin. The last column is the exponent of growth from 100 to 1,000 (1 is linear).\n\n\
         | Call | 10 chunks | 100 chunks | 1,000 chunks | growth |\n|---|---|---|---|---|\n",
        measured()
    );
    text += &order_line("the check", rows, |row| row.check);
    let _ = writeln!(text, "| the check, to the one by hand | {} | |", ratios.join(" | "));
    text += &order_line("free, put at the head", rows, |row| row.head);
    text += &order_line("free, put in the middle", rows, |row| row.middle);
    text += &order_line("free, put at the tail", rows, |row| row.tail);
    text += &order_line("put at the tail less put at the head", rows, |row| row.tail - row.head);
    text + &order_line("allocate + free", rows, |row| row.allocate_free)
}
