//! Instructions of a check, counted by valgrind: unlike times they are the same in every run.

use crate::checks::{by_hand, filled, proved, repeat, Check, Fill};
use crate::peers::Kruzhvela;
use kruzhvela::limits::MOST_WORDS;
use std::env;
use std::process::Command;

/// Bin sizes from 24 to 128 by 8, and powers of two above them.
pub const BINS: [u32; 21] =
    [24, 32, 40, 48, 56, 64, 72, 80, 88, 96, 104, 112, 120, 128, 256, 512, 1_024, 2_048, 4_096, 8_192, 16_384];

/// Two numbers of chunks: the difference of the two counts is that of the chunks between them.
const FEW: u32 = 100;
const MANY: u32 = 1_100;

/// How many checks are counted together.
const TIMES: u32 = 10;

/// A check by its word, with the function of C that makes it.
const CHECKS: [(&str, &str, Check); 2] = [("kruzhvela", "kz_check", proved), ("limit", "limit_check", by_hand)];

const FREE: &str = "free";
const USED: &str = "used";

/// Instructions for a chunk in use, for an ordinary one, and once for each check.
pub struct Cost {
    pub used: f64,
    pub ordinary: f64,
    pub once: f64,
}

/// Only makes so many checks of a heap with so many chunks of one kind, start, top and end apart. An unknown word makes none.
pub fn play(who: &str, fill: &str, chunks: u32, times: u64) {
    let check = CHECKS.iter().find(|(word, ..)| *word == who);
    let fill = [(FREE, Fill::AllFree), (USED, Fill::AllUsed)].into_iter().find(|(word, _)| *word == fill);
    let (Some(&(.., check)), Some((_, fill))) = (check, fill) else { return };
    let mut heap = filled(Kruzhvela::new(MOST_WORDS, &BINS, 0, false), chunks, &[16], fill);
    repeat(times, check, &mut heap);
}

/// Instructions that valgrind, given some words of its own, counts while the benchmark is played. None where it is not installed.
fn collected(asked: &[&str], played: &[&str]) -> Option<f64> {
    let valgrind = ["--tool=callgrind", "--callgrind-out-file=/dev/null"];
    let bench = env::current_exe().ok()?;
    let output = Command::new("valgrind").args(valgrind).args(asked).arg(bench).args(played).output().ok()?;
    let told = String::from_utf8_lossy(&output.stderr);
    let collected = told.lines().find_map(|line| line.split_once("Collected :")?.1.trim().parse::<f64>().ok());
    let counted = collected.filter(|&instructions| instructions > 0.0);
    Some(counted.unwrap_or_else(|| panic!("valgrind counted nothing: {told}")))
}

/// Instructions of all that the benchmark does where it is played with these words.
pub fn total(played: &[&str]) -> Option<f64> {
    collected(&[], played)
}

/// Instructions of one check, all that it calls among them.
fn count(who: &str, function: &str, fill: &str, chunks: u32) -> Option<f64> {
    let played = ["checks", who, fill, &chunks.to_string(), &TIMES.to_string()];
    Some(collected(&[&format!("--toggle-collect={function}")], &played)? / f64::from(TIMES))
}

/// What a chunk of one kind costs, and the rest of a check.
fn costs(who: &str, function: &str, fill: &str) -> Option<(f64, f64)> {
    let few = count(who, function, fill, FEW)?;
    let chunk = (count(who, function, fill, MANY)? - few) / f64::from(MANY - FEW);
    Some((chunk, few - chunk * f64::from(FEW)))
}

/// The costs of the proved check and of the one by hand. None on another machine than x86-64: the page has its counts.
pub fn rows() -> Option<[Cost; 2]> {
    if env::consts::ARCH != "x86_64" {
        return None;
    }
    let cost = |(who, function, _): (&str, &str, Check)| {
        let (ordinary, _) = costs(who, function, FREE)?;
        let (used, once) = costs(who, function, USED)?;
        Some(Cost { used, ordinary, once })
    };
    let [ours, limit] = CHECKS.map(cost);
    Some([ours?, limit?])
}
