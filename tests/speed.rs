//! The speed of the unit beside the given text, scene by scene; tests/speed builds and runs it.
//!   speed times ROUNDS                     every scene on both sides in turn; pictures, states and answers are compared,
//!                                          and a line a scene has name, steps, nanoseconds given and unit, what it is
//!   speed once SCENE given|unit all|none   one side, all of its steps or none, to be counted: the difference is the steps
//!   speed list SCENE steps|writes          the scene as requests of the protocol `machine`: its steps, or as many OAM writes
//! And what all lines are asked after an edit of OAM, by scanning it and by the sets of the lines:
//!   speed lines ROUNDS                     every asking on both sides in turn; the answers are compared, and a line an asking
//!                                          has name, edits, nanoseconds by scanning and by the sets, what it is
//!   speed edits ASKING scan|sets all|none  one side, all of its edits or none, to be counted

// of the harness only the bench, the calls and the states are used
#![allow(dead_code)]

#[path = "harness/bench.rs"]
mod bench;
#[path = "harness/bytes.rs"]
mod bytes;
#[path = "harness/order.rs"]
mod order;
#[path = "harness/runs.rs"]
mod runs;
#[path = "harness/states.rs"]
mod states;
#[path = "harness/step.rs"]
mod step;

use bench::{fill, number, Bench, Memory};
use given::list::Random;
use given::machine::Requests;
use given::ppu::Ppu;
use rattle::line_sets;
use rattle::refusals::Refusal;
use rattle::sprite::{self, Sprite};
use rattle::state::State;
use rattle::{ports, ppu};
use std::arch::asm;
use std::cell::Cell;
use std::io::{self, BufWriter, Write};
use std::process::exit;
use std::time::{Duration, Instant};

/// The steps of 4 in a frame, and in its VBlank.
const FRAME: u32 = 17_556;
const VBLANK: u32 = 1_140;

struct Scene {
    name: &'static str,
    what: &'static str,
    dmg: bool,
    registers: &'static [(u8, u8)],
    /// 40 sprites of 16 lines, in four rows of ten: ten sprites a line on 64 of the 144 lines, and none on the others.
    sprites: bool,
    /// The steps before those that are measured, from line 0, cycle 0, and those that are.
    before: u32,
    steps: u32,
}

const SCENES: [Scene; 4] = [
    Scene {
        name: "a",
        what: "DMG, background",
        dmg: true,
        registers: &[(0x42, 9), (0x43, 5), (0x47, 0xE4), (0x40, 0x91)],
        sprites: false,
        before: 0,
        steps: FRAME,
    },
    Scene {
        name: "b",
        what: "colour, window, ten sprites a line",
        dmg: false,
        registers: &[(0x42, 9), (0x43, 5), (0x4A, 40), (0x4B, 60), (0x40, 0xF7)],
        sprites: true,
        before: 0,
        steps: FRAME,
    },
    Scene {
        name: "c",
        what: "display off",
        dmg: true,
        registers: &[(0x40, 0x11)],
        sprites: false,
        before: 0,
        steps: FRAME,
    },
    Scene {
        name: "d",
        what: "VBlank alone",
        dmg: true,
        registers: &[(0x42, 9), (0x43, 5), (0x47, 0xE4), (0x40, 0x91)],
        sprites: false,
        before: FRAME - VBLANK,
        steps: VBLANK,
    },
];

/// The same place, of which the compiler knows nothing any more: no step is left out, or drawn into the next. No instruction;
/// `std::hint::black_box` came after rustc 1.63.
#[inline(always)]
fn hidden<T>(place: &mut T) -> &mut T {
    unsafe { asm!("/* {0} */", in(reg) place as *mut T, options(nostack, preserves_flags)) };
    place
}

/// The steps of the given text, with the interrupts that they ask for summed up.
#[inline(never)]
fn given_steps(ppu: &mut Ppu, mut steps: u32) -> u32 {
    let mut sum = 0;
    for _ in 0..*hidden(&mut steps) {
        let mut requests = Requests(0);
        hidden(ppu).clock(&mut requests, 4);
        sum += requests.0 as u32;
    }
    *hidden(&mut sum)
}

/// The steps of the unit, with the same summed up; a refused step would be seen in the sum.
#[inline(never)]
fn unit_steps(s: &mut State, m: &mut Memory, mut steps: u32) -> u32 {
    let mut sum = 0;
    for _ in 0..*hidden(&mut steps) {
        sum += match ppu::step(hidden(s), &m.vram, &m.oam, &mut m.a, &mut m.b, 4) {
            Ok(report) => report.requests as u32,
            Err(why) => 1000 * why.number() as u32,
        };
    }
    *hidden(&mut sum)
}

/// A scene that stands ready for its steps, on both sides, and the calls that lead to it from a start.
struct Ready {
    bench: Bench,
    calls: Vec<[u8; 8]>,
    start: State,
    memory: Memory,
}

fn ready(scene: &Scene) -> Ready {
    let mut bench = Bench::new(1);
    let slots = Cell::new(rattle::sprite::blank());
    let mut s = states::in_order(&mut bench.random);
    let mut m = bench.memory.clone();
    let mut calls = Vec::new();
    let mut call = |s: &mut State, m: &mut Memory, op: u8, a: [u8; 3]| {
        let q = [op, a[0], a[1], a[2], 0, 0, 0, 0];
        let number = runs::answer(s, m, &slots, q)[0];
        assert_eq!(number, 0, "scene {}: call {:?} is refused", scene.name, q);
        calls.push(q);
    };
    call(&mut s, &mut m, 1, [scene.dmg as u8, !scene.dmg as u8, 0]);
    let mut vram = vec![0; if scene.dmg { 8192 } else { 16384 }];
    fill(&mut bench.random, &mut vram);
    for (bank, bytes) in vram.chunks(8192).enumerate() {
        call(&mut s, &mut m, 3, [0x4F, 0xFF, bank as u8]);
        for (at, byte) in bytes.iter().enumerate() {
            let [low, high] = (0x8000 + at as u16).to_le_bytes();
            call(&mut s, &mut m, 5, [low, high, *byte]);
        }
    }
    assert!(m.vram.starts_with(&vram), "scene {}: VRAM is not as written", scene.name);
    if !scene.dmg {
        for port in [0x68, 0x6A] {
            call(&mut s, &mut m, 3, [port, 0xFF, 0x80]);
            for _ in 0..64 {
                call(&mut s, &mut m, 3, [port + 1, 0xFF, bench.random.byte()]);
            }
        }
    }
    if scene.sprites {
        for k in 0..40 {
            let (y, x) = (16 + 36 * (k / 10), 8 + 16 * (k % 10));
            let bytes = [y, x, bench.random.byte(), bench.random.byte()];
            for (at, byte) in bytes.iter().enumerate() {
                call(&mut s, &mut m, 6, [4 * k + at as u8, 0xFE, *byte]);
            }
        }
    }
    for (register, value) in scene.registers {
        call(&mut s, &mut m, 3, [*register, 0xFF, *value]);
    }
    if s.regs.lcdc >= 128 {
        while s.beam.line != 0 || s.beam.cycle != 0 {
            call(&mut s, &mut m, 2, [4, 0, 0]);
        }
    }
    for _ in 0..scene.before {
        call(&mut s, &mut m, 2, [4, 0, 0]);
    }
    Ready {
        bench,
        calls,
        start: s,
        memory: m,
    }
}

impl Ready {
    /// Puts both sides back to the start.
    fn reset(&mut self) -> State {
        self.bench.memory.clone_from(&self.memory);
        self.bench.sync();
        self.bench.set(&self.start);
        self.start
    }

    /// Ends with 1 unless both sides answered alike and hold the same state, pictures, OAM and VRAM.
    fn compare(&mut self, scene: &Scene, s: State, sums: [u32; 2]) {
        let mut wanted = self.bench.given.state();
        // the oracle keeps the stored places and the blanking outside the given text, and is not run here
        wanted.beam.count = s.beam.count;
        wanted.beam.blanked = s.beam.blanked;
        let mut found = states::differences(&wanted, &states::plain(&s));
        found.extend(self.bench.compare_memory().err());
        if sums[0] != sums[1] {
            found.push(format!("  interrupts, summed up: wanted {}, got {}", sums[0], sums[1]));
        }
        if !found.is_empty() {
            println!("scene {}: the sides differ:\n{}", scene.name, found.join("\n"));
            exit(1)
        }
    }
}

/// Runs both sides from the start; the times of the given text and of the unit.
fn round(scene: &Scene, ready: &mut Ready, unit_first: bool) -> [Duration; 2] {
    let mut s = ready.reset();
    let mut times = [Duration::ZERO; 2];
    let mut sums = [0; 2];
    for side in [unit_first as usize, !unit_first as usize] {
        let began = Instant::now();
        sums[side] = if side == 0 {
            given_steps(&mut ready.bench.given.ppu, scene.steps)
        } else {
            unit_steps(&mut s, &mut ready.bench.memory, scene.steps)
        };
        times[side] = began.elapsed();
    }
    ready.compare(scene, s, sums);
    times
}

fn median(mut times: Vec<Duration>) -> u128 {
    times.sort();
    times[times.len() / 2].as_nanos()
}

fn times(rounds: usize) {
    for scene in &SCENES {
        let mut ready = ready(scene);
        round(scene, &mut ready, false);
        let (mut given, mut unit) = (Vec::new(), Vec::new());
        for k in 0..rounds {
            let [g, u] = round(scene, &mut ready, k % 2 == 1);
            given.push(g);
            unit.push(u);
        }
        println!("{} {} {} {} {}", scene.name, scene.steps, median(given), median(unit), scene.what);
    }
}

fn once(scene: &Scene, unit: bool, all: bool) {
    let mut ready = ready(scene);
    let mut s = ready.reset();
    let steps = if all { scene.steps } else { 0 };
    if unit {
        unit_steps(&mut s, &mut ready.bench.memory, steps);
    } else {
        given_steps(&mut ready.bench.given.ppu, steps);
    }
}

/// An OAM write puts the byte that stands there. At the end the digests, of pictures and memory and of the state.
fn list(scene: &Scene, steps: bool) -> io::Result<()> {
    let ready = ready(scene);
    let each = if steps { [2, 4, 0, 0, 0, 0, 0, 0] } else { [6, 0, 0xFE, ready.memory.oam[0], 0, 0, 0, 0] };
    let mut out = BufWriter::new(io::stdout());
    for q in ready.calls.iter().chain(std::iter::repeat(&each).take(scene.steps as usize)) {
        out.write_all(q)?;
    }
    for op in [11, 12] {
        out.write_all(&[op, 0, 0, 0, 0, 0, 0, 0])?;
    }
    out.flush()
}

/// The edits of an asking. Each gives an entry another y, the dearest edit where sets are kept.
const EDITS: usize = 2_000;

/// OAM by the ys of its forty entries, before and after every edit.
struct Places {
    name: &'static str,
    what: &'static str,
    y: fn(&mut Random) -> u8,
}

const PLACES: [Places; 3] = [
    Places {
        name: "scattered",
        what: "scattered",
        y: |random| 1 + random.below(159) as u8,
    },
    // the four rows of scene b
    Places {
        name: "rows",
        what: "some ten a line",
        y: |random| 16 + 36 * random.below(4) as u8,
    },
    // line 64 has them all, at either height
    Places {
        name: "one",
        what: "forty on a line",
        y: |random| 73 + random.below(8) as u8,
    },
];

/// What all lines are asked after an edit: for the lists of their sprites, or for how many touch them and the first of those.
struct Asking {
    lists: bool,
    tall: u8,
    places: &'static Places,
}

/// OAM and the sets of the lines.
#[derive(Clone)]
struct Kept {
    oam: Vec<u8>,
    sets: Vec<u64>,
}

/// An address of OAM and a value.
type Edit = (u16, u8);

fn askings() -> Vec<Asking> {
    let mut all = Vec::new();
    for lists in [true, false] {
        for places in &PLACES {
            all.extend([8, 16].map(|tall| Asking {
                lists,
                tall,
                places,
            }));
        }
    }
    all
}

impl Asking {
    fn name(&self) -> String {
        let kind = if self.lists { "lists" } else { "counts" };
        format!("{}-{}-{}", kind, self.places.name, self.tall)
    }

    fn what(&self) -> String {
        let kind = if self.lists {
            "lists"
        } else {
            "count and first"
        };
        format!("{}, {}, height {}", kind, self.places.what, self.tall)
    }

    /// OAM with its sets, and the edits.
    fn ready(&self) -> (Kept, Vec<Edit>) {
        let mut random = Random::new(1);
        let mut kept = Kept {
            oam: vec![0; 160],
            sets: vec![0; 144],
        };
        fill(&mut random, &mut kept.oam);
        for entry in kept.oam.chunks_exact_mut(4) {
            entry[0] = (self.places.y)(&mut random);
        }
        let mut oam = kept.oam.clone();
        let mut edits = Vec::new();
        while edits.len() < EDITS {
            let (at, y) = (4 * random.below(40) as u16, (self.places.y)(&mut random));
            if oam[at as usize] != y {
                oam[at as usize] = y;
                edits.push((0xFE00 + at, y));
            }
        }
        let build = line_sets::build(&kept.oam, &mut kept.sets, self.tall);
        assert_eq!(build, Ok(()), "{}: the build is refused", self.name());
        (kept, edits)
    }

    fn run(&self, by_sets: bool, m: &mut Kept, edits: &[Edit]) -> u64 {
        match (self.lists, by_sets) {
            (true, false) => lists_by_scan(m, self.tall, edits),
            (true, true) => lists_by_sets(m, self.tall, edits),
            (false, false) => counts_by_scan(m, self.tall, edits),
            (false, true) => counts_by_sets(m, self.tall, edits),
        }
    }

    /// Ends with 1 unless every line is answered alike after every edit, and the sets are those of a build.
    fn compare(&self, kept: &Kept, edits: &[Edit]) {
        let (mut scan, mut m) = (kept.clone(), kept.clone());
        for (k, &(address, value)) in edits.iter().enumerate() {
            let wanted = number(&ports::write_oam(&mut scan.oam, address, value));
            let got = number(&line_sets::write_oam(&mut m.oam, &mut m.sets, self.tall, address, value));
            let build = line_sets::build(&scan.oam, &mut scan.sets, self.tall);
            assert_eq!(build, Ok(()), "{}: a build is refused", self.name());
            let same = wanted == got && scan.oam == m.oam && scan.sets == m.sets;
            let line = (0..144).find(|&line| {
                let (count, first) = count_by_scan(&scan.oam, line, self.tall);
                sprite::pick(&scan.oam, line, self.tall) != line_sets::pick(&m.oam, &m.sets, line)
                    || line_sets::count(&m.sets, line) != Ok(count)
                    || line_sets::first(&m.sets, line) != Ok(first)
            });
            let place = match line {
                Some(line) => format!("line {}", line),
                None if same => continue,
                None => "OAM or the sets".to_string(),
            };
            println!(
                "{}: the sides differ after edit {}: {}",
                self.name(),
                k,
                place
            );
            exit(1)
        }
    }
}

/// How many entries touch a line, and the first of them: no entry waits for the one before, so that the compiler can take many
/// at once. With `first` set where the count is still 0 it would take them one by one, and several times as long.
#[inline(always)]
fn count_by_scan(oam: &[u8], line: u8, tall: u8) -> (u8, Option<u8>) {
    let (mut count, mut first) = (0, 40);
    if oam.len() != 160 {
        return (count, None);
    }
    for i in 0..40u8 {
        let touches = Sprite::at(oam, i as usize).in_range(line, tall);
        count += touches as u8;
        first = first.min(if touches { i } else { 40 });
    }
    (
        count,
        if first < 40 {
            Some(first)
        } else {
            None
        },
    )
}

fn index(first: Option<u8>) -> u64 {
    first.unwrap_or(40) as u64
}

/// An answer in the sum, or the number of its refusal.
fn summed<T: Copy>(answer: &Result<T, Refusal>, value: impl Fn(T) -> u64) -> u64 {
    match *answer {
        Ok(answer) => value(answer),
        Err(why) => 1_000_000 * why.number() as u64,
    }
}

// Each side has its loop: an edit, and all lines. What is answered is summed up, and a refusal would be seen in the sum.

#[inline(never)]
fn lists_by_scan(m: &mut Kept, tall: u8, edits: &[Edit]) -> u64 {
    let mut sum = 0;
    for &(address, value) in edits {
        sum += 1_000_000 * number(&ports::write_oam(&mut hidden(m).oam, address, value)) as u64;
        for line in 0..144 {
            let mut t = sprite::pick(&hidden(m).oam, line, tall);
            sum += summed(hidden(&mut t), |selection| selection.count as u64);
        }
    }
    *hidden(&mut sum)
}

#[inline(never)]
fn lists_by_sets(m: &mut Kept, tall: u8, edits: &[Edit]) -> u64 {
    let mut sum = 0;
    for &(address, value) in edits {
        let Kept { oam, sets } = hidden(m);
        sum += 1_000_000 * number(&line_sets::write_oam(oam, sets, tall, address, value)) as u64;
        for line in 0..144 {
            let Kept { oam, sets } = hidden(m);
            let mut t = line_sets::pick(oam, sets, line);
            sum += summed(hidden(&mut t), |selection| selection.count as u64);
        }
    }
    *hidden(&mut sum)
}

#[inline(never)]
fn counts_by_scan(m: &mut Kept, tall: u8, edits: &[Edit]) -> u64 {
    let mut sum = 0;
    for &(address, value) in edits {
        sum += 1_000_000 * number(&ports::write_oam(&mut hidden(m).oam, address, value)) as u64;
        for line in 0..144 {
            let mut t = count_by_scan(&hidden(m).oam, line, tall);
            let (count, first) = *hidden(&mut t);
            sum += count as u64 + index(first);
        }
    }
    *hidden(&mut sum)
}

#[inline(never)]
fn counts_by_sets(m: &mut Kept, tall: u8, edits: &[Edit]) -> u64 {
    let mut sum = 0;
    for &(address, value) in edits {
        let Kept { oam, sets } = hidden(m);
        sum += 1_000_000 * number(&line_sets::write_oam(oam, sets, tall, address, value)) as u64;
        for line in 0..144 {
            let mut t = line_sets::count(&hidden(m).sets, line);
            sum += summed(hidden(&mut t), |count| count as u64);
            let mut t = line_sets::first(&hidden(m).sets, line);
            sum += summed(hidden(&mut t), index);
        }
    }
    *hidden(&mut sum)
}

fn lines(rounds: usize) {
    for asking in askings() {
        let (kept, edits) = asking.ready();
        asking.compare(&kept, &edits);
        let mut times = [Vec::new(), Vec::new()];
        // the first round is not measured
        for k in 0..=rounds {
            let mut sums = [0; 2];
            for side in [k % 2, 1 - k % 2] {
                let mut m = kept.clone();
                let began = Instant::now();
                sums[side] = asking.run(side == 1, &mut m, &edits);
                let time = began.elapsed();
                if k > 0 {
                    times[side].push(time);
                }
            }
            if sums[0] != sums[1] {
                println!(
                    "{}: the answers, summed up: scanning {}, the sets {}",
                    asking.name(),
                    sums[0],
                    sums[1]
                );
                exit(1)
            }
        }
        let [scan, sets] = times.map(median);
        println!(
            "{} {} {} {} {}",
            asking.name(),
            EDITS,
            scan,
            sets,
            asking.what()
        );
    }
}

fn edits(asking: &Asking, by_sets: bool, all: bool) {
    let (mut kept, edits) = asking.ready();
    let mut count = if all { edits.len() } else { 0 };
    let edits = &edits[..*hidden(&mut count)];
    asking.run(by_sets, &mut kept, edits);
}

fn usage() -> ! {
    eprintln!("usage: speed times ROUNDS | once SCENE given|unit all|none | list SCENE steps|writes");
    eprintln!("       speed lines ROUNDS | edits ASKING scan|sets all|none");
    exit(2)
}

fn scene(name: &str) -> &'static Scene {
    SCENES.iter().find(|scene| scene.name == name).unwrap_or_else(|| usage())
}

fn main() {
    let words: Vec<String> = std::env::args().skip(1).collect();
    let words: Vec<&str> = words.iter().map(String::as_str).collect();
    match words[..] {
        ["times", rounds] => match rounds.parse() {
            Ok(rounds) if rounds > 0 => times(rounds),
            _ => usage(),
        },
        ["lines", rounds] => match rounds.parse() {
            Ok(rounds) if rounds > 0 => lines(rounds),
            _ => usage(),
        },
        ["edits", name, side @ ("scan" | "sets"), part @ ("all" | "none")] => {
            let asking = askings().into_iter().find(|asking| asking.name() == name);
            edits(&asking.unwrap_or_else(|| usage()), side == "sets", part == "all")
        }
        ["once", name, side @ ("given" | "unit"), part @ ("all" | "none")] => {
            once(scene(name), side == "unit", part == "all")
        }
        ["list", name, kind @ ("steps" | "writes")] => {
            if let Err(error) = list(scene(name), kind == "steps") {
                eprintln!("speed: the list cannot be written: {}", error);
                exit(2)
            }
        }
        _ => usage(),
    }
}
