//! Holds the parts of the picture unit against the given text: parts [SEED [PART[=SIZE]..]]
//! One line a part; the first difference ends the run with 1.

#[path = "harness/bench.rs"]
mod bench;
#[path = "harness/bytes.rs"]
mod bytes;
#[path = "harness/draw.rs"]
mod draw;
#[path = "harness/fifo.rs"]
mod fifo;
#[path = "harness/lcd.rs"]
mod lcd;
#[path = "harness/line_sets.rs"]
mod line_sets;
#[path = "harness/locks.rs"]
mod locks;
#[path = "harness/memory.rs"]
mod memory;
#[path = "harness/oam_bug.rs"]
mod oam_bug;
#[path = "harness/order.rs"]
mod order;
#[path = "harness/pipe.rs"]
mod pipe;
#[path = "harness/pixel.rs"]
mod pixel;
#[path = "harness/refusals.rs"]
mod refusals;
#[path = "harness/registers.rs"]
mod registers;
#[path = "harness/runs.rs"]
mod runs;
#[path = "harness/sprite.rs"]
mod sprite;
#[path = "harness/states.rs"]
mod states;
#[path = "harness/step.rs"]
mod step;
#[path = "harness/sweep.rs"]
mod sweep;
#[path = "harness/tiles.rs"]
mod tiles;

use bench::{Bench, Part};
use given::list::{spaced, Digest};
use std::time::Instant;

const PARTS: &[(&str, Part)] = &[
    ("conversion", states::round),
    ("sprite, selection", sprite::selects),
    ("line sets, edits", line_sets::edits),
    ("line sets, untrue", line_sets::untrue),
    ("line sets, refusals", line_sets::refused),
    ("lcd", lcd::stores),
    ("tiles, rows", tiles::rows),
    ("tiles, fetches", tiles::fetches),
    ("tiles, sprites", tiles::sprites),
    ("oam_bug", oam_bug::corruptions),
    ("fifo, sprites", fifo::sprites),
    ("fifo, background", fifo::background),
    ("registers, table", registers::table),
    ("registers, writes", registers::writes),
    ("registers, blanking", registers::blanking),
    ("registers, reads", registers::reads),
    ("registers, colour flag", registers::colour),
    ("memory, start", memory::start),
    ("memory, VRAM", memory::vram),
    ("memory, OAM", memory::oam),
    ("locks, calls", locks::calls),
    ("locks, the given test", locks::given),
    ("pixel, mixer", pixel::mixer),
    ("pixel, sprites", pixel::sprites),
    ("pipe, window", pipe::window),
    ("pipe, fetcher", pipe::fetcher),
    ("pipe, feed", pipe::feed),
    ("pipe, all three", pipe::all),
    ("order", order::sentence),
    ("draw", draw::draws),
    ("step", step::steps),
    ("refusals, ladder", refusals::ladder),
    ("refusals, lengths", refusals::lengths),
    ("refusals, order", refusals::disorder),
    ("refusals, steps", refusals::steps),
    ("refusals, addresses", refusals::addresses),
    ("refusals, moments", refusals::moments),
    ("refusals, kinds", refusals::kinds),
    ("runs", runs::runs),
    ("sweep", sweep::sweep),
    ("blankings", sweep::blankings),
];

/// The cases of all parts at their own sizes, seed 1: a part that lost some is seen.
const ALL: u64 = 33_280_069;

fn main() {
    let words: Vec<String> = std::env::args().skip(1).collect();
    let seed: u64 = match words.first().map(|word| word.parse()) {
        None => 1,
        Some(Ok(seed)) => seed,
        Some(Err(_)) => {
            eprintln!("usage: parts [SEED [PART[=SIZE]..]]");
            std::process::exit(2)
        }
    };
    let asked: Vec<(&str, Option<u64>)> = words
        .iter()
        .skip(1)
        .map(|word| match word.split_once('=') {
            Some((name, size)) => (name, size.parse().ok()),
            None => (word.as_str(), None),
        })
        .collect();
    let of = |name: &str| asked.iter().find(|(start, _)| name.starts_with(start));
    let wanted = |name: &str| asked.is_empty() || of(name).is_some();
    bench::silence_stops();
    let began = Instant::now();
    let mut total = 0;
    for (name, part) in PARTS.iter().filter(|(name, _)| wanted(name)) {
        let start = Instant::now();
        // a part has the same cases, whatever the other parts are
        let mut digest = Digest::new();
        digest.take(name.as_bytes());
        let mut bench = Bench::new(seed ^ digest.0);
        bench.seed = seed;
        bench.size = of(name).and_then(|(_, size)| *size);
        match part(&mut bench) {
            Ok(()) => {
                if bench.moved > 0 {
                    bench.note = format!("{} move the state", spaced(bench.moved));
                }
                let seconds = start.elapsed().as_secs_f64();
                let cases = spaced(bench.cases);
                let line = format!(
                    "{name:<23} {cases:>10} cases {seconds:>6.2} s  {}",
                    bench.note
                );
                println!("{}", line.trim_end())
            }
            Err(difference) => {
                println!(
                    "{}: a difference at case {}, seed {}:\n{}",
                    name, bench.cases, seed, difference
                );
                std::process::exit(1)
            }
        }
        if bench.cases == 0 {
            println!("{}: no case was tried, seed {}", name, seed);
            std::process::exit(1)
        }
        total += bench.cases;
    }
    if total == 0 {
        eprintln!("parts: no part of that name");
        std::process::exit(2)
    }
    if words.is_empty() && total != ALL {
        println!("parts: {} cases, where {} were to be tried", spaced(total), spaced(ALL));
        std::process::exit(1)
    }
    println!(
        "{:<23} {:>10} cases {:>6.2} s",
        "all equal",
        spaced(total),
        began.elapsed().as_secs_f64()
    );
}
