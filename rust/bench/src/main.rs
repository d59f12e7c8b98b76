//! Measures the proved heap against its peers, prints the tables and writes docs/BENCHMARKS.md.
//! `bench check`, `bench instructions`, `bench patrol`, `bench calls`, `bench bins`, `bench room`, `bench fit` or `bench order`
//! measures one part and leaves the others as they stand in the page. For a profiler that counts instructions, `bench steps WHO N` only plays N steps,
//! `bench checks WHO FILL CHUNKS N` only makes N checks (WHO: kruzhvela or limit, FILL: free or used), and `bench bins SIZES N HOW`
//! only plays N steps with a table of so many sizes (HOW: plain, or checked for a check before each call).

#[cfg(test)]
mod agree;
mod bins;
mod calls;
mod checks;
mod clock;
mod fit;
mod instructions;
mod loads;
mod order;
mod patrols;
mod peers;
mod report;
mod room;
mod stations;

use std::path::Path;
use std::{env, fs};

/// A part of the page: its word, its heading, and the function that measures and writes it, if it can be measured here.
type Part = (&'static str, &'static str, fn() -> Option<String>);

const PARTS: [Part; 8] = [
    ("check", report::CHECK, || Some(report::checks(&checks::rows()))),
    ("instructions", report::INSTRUCTIONS, || Some(report::instructions(&instructions::rows()?))),
    ("patrol", report::PATROL, || Some(report::patrols(&patrols::rows()))),
    ("calls", report::CALLS, || Some(report::calls(&calls::rows()))),
    ("bins", report::BINS, || Some(report::bins(&bins::rows()))),
    ("room", report::ROOM, || Some(report::room(&room::rows()))),
    ("fit", report::FIT, || Some(report::fit(&fit::rows()))),
    ("order", report::ORDER, || Some(report::order(&order::rows()))),
];

/// The heading of the part that is written by hand.
const BY_HAND: &str = "## What the figures say";

/// The part of a page under a heading, up to the next heading.
fn under<'a>(page: &'a str, heading: &str) -> &'a str {
    let Some(at) = page.find(heading) else { return "" };
    let end = page[at + heading.len()..].find("\n## ").map_or(page.len(), |next| at + heading.len() + next + 1);
    &page[at..end]
}

/// Plays what a profiler is to count, if the words ask for it, and says whether they did.
fn played(words: &[&str]) -> bool {
    match words {
        ["steps", who, steps] => calls::play(who, steps.parse().unwrap_or(0)),
        ["bins", sizes, steps, how] => {
            bins::play(sizes.parse().unwrap_or(0), steps.parse().unwrap_or(0), *how == bins::CHECKED);
        }
        ["checks", who, fill, chunks, times] => {
            instructions::play(who, fill, chunks.parse().unwrap_or(0), times.parse().unwrap_or(0));
        }
        _ => return false,
    }
    true
}

fn main() -> std::io::Result<()> {
    let words: Vec<String> = env::args().skip(1).collect();
    let words: Vec<&str> = words.iter().map(String::as_str).collect();
    if played(&words) {
        return Ok(());
    }
    if let Some(unknown) = words.iter().find(|word| PARTS.iter().all(|(part, ..)| part != *word)) {
        panic!("{unknown} is no part of the page: {}", PARTS.map(|(part, ..)| part).join(", "));
    }
    let path = Path::new(env!("CARGO_MANIFEST_DIR")).join("../../docs/BENCHMARKS.md");
    let before = fs::read_to_string(&path).unwrap_or_default();
    let mut page = report::method();
    for (word, heading, measure) in PARTS {
        let asked = words.is_empty() || words.contains(&word);
        if let Some(measured) = asked.then(measure).flatten() {
            let part = format!("{heading}\n\n{measured}\n");
            print!("{part}");
            page += &part;
        } else {
            page += under(&before, heading);
        }
    }
    fs::write(path, page + under(&before, BY_HAND))
}
