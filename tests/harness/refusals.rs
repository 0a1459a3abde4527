//! The table of refusals, said again in plain Rust, on every public call: wrong lengths, states out of order, steps,
//! addresses, moments. A refused call gives its number, leaves the state as given, and writes nothing.

use crate::bench::{self, caught, same, Bench, Memory, PICTURE};
use crate::order::in_order;
use crate::states;
use given::ppu::Ppu;
use rattle::hardware::Machine;
use rattle::ppu;
use rattle::refusals::{first, lowest, need, Refusal};
use rattle::state::State;

/// A public call with its arguments; `screen_buffer` has no number.
#[derive(Clone, Copy, Debug, PartialEq)]
enum Call {
    Start(bool, bool),
    Step(u8),
    WriteRegister(u16, u8),
    ReadRegister(u16),
    WriteVram(u16, u8),
    WriteOam(u16, u8),
    SetColour(bool),
    OamBug(u8),
    Pick(u8, u8),
    Screen,
    LockedWriteVram(u16, u8),
    LockedReadVram(u16),
    LockedWriteOam(u16, u8),
    LockedReadOam(u16),
}

use Call::*;

/// Every call once, with arguments that nothing refuses.
const ALL: [Call; 16] = [
    Start(false, true),
    Step(2),
    WriteRegister(0xFF43, 7),
    ReadRegister(0xFF69),
    WriteVram(0x9801, 5),
    WriteOam(0xFE9F, 6),
    SetColour(true),
    OamBug(0),
    OamBug(1),
    OamBug(2),
    Pick(143, 16),
    Screen,
    LockedWriteVram(0x9801, 5),
    LockedReadVram(0x9801),
    LockedWriteOam(0xFE9F, 6),
    LockedReadOam(0xFE9F),
];

/// What a call lends: VRAM, OAM, picture A, picture B.
fn lends(call: Call) -> [bool; 4] {
    match call {
        Start(..) | Step(_) => [true; 4],
        WriteRegister(..) | Screen => [false, false, true, true],
        WriteVram(..) | LockedWriteVram(..) | LockedReadVram(_) => [true, false, false, false],
        WriteOam(..) | OamBug(_) | Pick(..) | LockedWriteOam(..) | LockedReadOam(_) => {
            [false, true, false, false]
        }
        ReadRegister(_) | SetColour(_) => [false; 4],
    }
}

fn takes_state(call: Call) -> bool {
    !matches!(call, Start(..) | WriteOam(..) | Pick(..))
}

/// What 4 is about: an address that is listed, a line and height, a kind.
fn has_argument(call: Call) -> bool {
    const WRITABLE: [u16; 16] = [
        0xFF40, 0xFF41, 0xFF42, 0xFF43, 0xFF45, 0xFF47, 0xFF48, 0xFF49, 0xFF4A, 0xFF4B, 0xFF4F,
        0xFF68, 0xFF69, 0xFF6A, 0xFF6B, 0xFF6C,
    ];
    match call {
        WriteRegister(address, _) => WRITABLE.contains(&address),
        ReadRegister(address) => (0xFF68..=0xFF6B).contains(&address),
        WriteOam(address, _) | LockedWriteOam(address, _) | LockedReadOam(address) => {
            address & 0xFF < 0xA0
        }
        Pick(line, tall) => line <= 143 && (tall == 8 || tall == 16),
        OamBug(kind) => kind <= 2,
        _ => true,
    }
}

const LENGTHS: [usize; 4] = [16_384, 160, PICTURE, PICTURE];

/// The number of the table: the lowest that applies.
fn number(call: Call, s: &State, ordered: bool, m: &Memory) -> u8 {
    let lengths = [m.vram.len(), m.oam.len(), m.a.len(), m.b.len()];
    if (0..4).any(|k| lends(call)[k] && lengths[k] != LENGTHS[k]) {
        return 1;
    }
    if takes_state(call) && !ordered {
        return 2;
    }
    if let Step(cycles) = call {
        if cycles != 2 && (cycles != 4 || s.beam.cycle & 3 != 0) {
            return 3;
        }
    }
    if !has_argument(call) {
        return 4;
    }
    let bug = matches!(call, OamBug(_));
    if bug && s.regs.stat & 3 == 2 && (s.beam.cycle < 4 || s.beam.cycle > 83) {
        return 5;
    }
    0
}

/// Makes the call: its number, and what else it answers or leaves that a refusal fixes, as text.
fn make(call: Call, s: State, m: &mut Memory) -> (u8, String) {
    let mut after = s;
    let (number, told_more) = match call {
        Start(dmg, cgb) => {
            let machine = Machine { dmg, cgb };
            let t = ppu::start(machine, &mut m.vram, &mut m.oam, &mut m.a, &mut m.b);
            let (number, state) = match t {
                Ok(state) => (0, state),
                Err(refused) => (refused.why.number(), refused.state),
            };
            let fresh = Ppu::look_fresh(cgb, dmg).part_state(0, false, cgb);
            (
                number,
                told(states::plain(&state) == fresh, "the fresh state"),
            )
        }
        Step(cycles) => done(ppu::step(
            &mut after, &m.vram, &m.oam, &mut m.a, &mut m.b, cycles,
        )),
        WriteRegister(address, value) => done(ppu::write_register(
            &mut after, &mut m.a, &mut m.b, address, value,
        )),
        ReadRegister(address) => done(ppu::read_register(&s, address)),
        WriteVram(address, value) => done(ppu::write_vram(&s, &mut m.vram, address, value)),
        WriteOam(address, value) => done(ppu::write_oam(&mut m.oam, address, value)),
        SetColour(flag) => done(ppu::set_colour(&mut after, flag)),
        OamBug(kind) => done(ppu::oam_bug(&s, &mut m.oam, kind)),
        Pick(line, tall) => done(ppu::pick(&m.oam, line, tall)),
        LockedWriteVram(address, value) => {
            done(ppu::locked_write_vram(&s, &mut m.vram, address, value))
        }
        LockedWriteOam(address, value) => {
            done(ppu::locked_write_oam(&s, &mut m.oam, address, value))
        }
        LockedReadVram(address) => done(ppu::locked_read_vram(&s, &m.vram, address)),
        LockedReadOam(address) => done(ppu::locked_read_oam(&s, &m.oam, address)),
        Screen => {
            let part = ppu::screen_buffer(&s, &m.a, &m.b);
            let wanted = if s.beam.shown == 0 { &m.a } else { &m.b };
            // whole and unmoved where it is given; the number is that of an empty part
            let whole = std::ptr::eq(part, &wanted[..]) && !part.is_empty();
            let nothing = part.is_empty() && std::ptr::eq(part.as_ptr(), m.a.as_ptr());
            (
                (!whole) as u8,
                told(
                    whole || nothing,
                    "the shown picture or the empty part of picture A",
                ),
            )
        }
    };
    let moves = matches!(call, Step(_) | WriteRegister(..) | SetColour(_));
    let kept = after == s || (moves && number == 0);
    (number, told_more + &told(kept, "the state as given"))
}

/// The number of a call that says no more where it is refused.
fn done<T>(answer: Result<T, Refusal>) -> (u8, String) {
    (bench::number(&answer), String::new())
}

fn told(holds: bool, what: &str) -> String {
    if holds {
        String::new()
    } else {
        format!("not {}", what)
    }
}

/// Whether the memory is as it was.
fn untouched(m: &Memory, kept: &Memory) -> bool {
    m.vram == kept.vram && m.oam == kept.oam && m.a == kept.a && m.b == kept.b
}

/// One call: its number as the table has it, and nothing else where it refuses. The memory is the same after it.
fn check(
    bench: &mut Bench,
    call: Call,
    s: &State,
    m: &mut Memory,
    kept: &Memory,
) -> Result<u8, String> {
    let ordered = in_order(s);
    let number = number(call, s, ordered, m);
    let wanted = if call == Screen {
        number.min(1)
    } else {
        number
    };
    let (got, fault) = caught(|| make(call, *s, m))
        .map_err(|stop| format!("  {:?}: {}\n{}", call, stop, states::shown(s).join("\n")))?;
    let lengths = [m.vram.len(), m.oam.len(), m.a.len(), m.b.len()];
    let reads = matches!(
        call,
        ReadRegister(_) | SetColour(_) | Pick(..) | Screen | LockedReadVram(_) | LockedReadOam(_)
    );
    let clean = wanted != 0 || reads;
    let mut faults = vec![];
    if wanted != got {
        faults.push(format!("number: wanted {}, got {}", wanted, got));
    }
    if !fault.is_empty() {
        faults.push(fault);
    }
    if clean && !untouched(m, kept) {
        faults.push("a lent byte was changed".to_string());
    }
    if !clean {
        m.clone_from(kept);
    }
    if !faults.is_empty() {
        let from = states::shown(s).join("\n");
        return Err(format!(
            "  {:?} with lengths {:?}\n{}\n  {}",
            call,
            lengths,
            from,
            faults.join("; ")
        ));
    }
    bench.cases += 1;
    Ok(number)
}

/// How often each number was given.
#[derive(Default)]
pub struct Tally([u64; 6]);

impl Tally {
    pub fn add(&mut self, number: u8) {
        self.0[number as usize] += 1;
    }

    pub fn note(&self) -> String {
        let parts: Vec<String> = self
            .0
            .iter()
            .enumerate()
            .filter(|(_, &times)| times > 0)
            .map(|(number, &times)| format!("{}: {}", number, given::list::spaced(times)))
            .collect();
        parts.join(", ")
    }
}

/// A state in order that stands at a cycle and a mode.
fn standing(bench: &mut Bench, cycle: u16, mode: u8) -> State {
    at(states::in_order(&mut bench.random), cycle, mode)
}

/// The same at a cycle and a mode.
fn at(mut s: State, cycle: u16, mode: u8) -> State {
    s.beam.line %= 144;
    s.beam.cycle = cycle;
    s.regs.stat = s.regs.stat & 0x7C | mode;
    s
}

fn broken(s: &State, clause: usize) -> State {
    let mut out = *s;
    breaks(clause, &mut out);
    out
}

/// The number that a ladder of tests gives, 0 where each passed.
fn code(ladder: Result<(), u8>) -> u8 {
    ladder.err().unwrap_or(0)
}

/// The number of a refusal, 0 where there is none.
fn number_of(answer: Result<(), Refusal>) -> u8 {
    answer.err().map_or(0, |why| why.number())
}

/// A ladder over numbers: by a length, by the order of the state, its own.
fn rungs(sized: bool, ordered: bool, own: u8) -> Result<(), u8> {
    need(sized, 1)?;
    need(ordered, 2)?;
    need(own == 0, own)
}

/// Of two own numbers the lower, unless its test passed.
fn two_rungs(lower: u8, higher: u8) -> Result<(), u8> {
    need(lower == 0, lower)?;
    need(higher == 0, higher)
}

/// What lengths and order give, and what stands for a ladder's own number.
fn tests(number: u8) -> [(bool, bool, u8); 4] {
    [
        (false, false, 1),
        (false, true, 1),
        (true, false, 2),
        (true, true, number),
    ]
}

/// The ladder itself: lengths before the order of the state, that before the call's own test, of its two own numbers the lower
/// first; by the calls' own three functions on every refusal, and by tests one after the other on every number.
pub fn ladder(bench: &mut Bench) -> Result<(), String> {
    let mut hold = |wanted: u8, got: &dyn Fn() -> u8, inputs: &dyn Fn() -> String| {
        bench.cases += 1;
        same(wanted, got, inputs)
    };
    let causes = [
        Refusal::Length,
        Refusal::State,
        Refusal::Pace,
        Refusal::Argument,
        Refusal::Time,
    ];
    let mut answers = vec![Ok(())];
    for why in causes {
        answers.push(Err(why));
        for passed in [false, true] {
            hold(
                if passed { 0 } else { why.number() },
                &|| number_of(need(passed, why)),
                &|| format!("need: {:?}, passed {}", why, passed),
            )?;
        }
    }
    for own in &answers {
        for (sized, ordered, wanted) in tests(number_of(*own)) {
            hold(wanted, &|| number_of(lowest(sized, ordered, *own)), &|| {
                format!("lowest: sized {}, ordered {}, own {:?}", sized, ordered, own)
            })?;
        }
        for higher in &answers {
            let wanted = number_of(if own.is_err() { *own } else { *higher });
            hold(wanted, &|| number_of(first(*own, *higher)), &|| {
                format!("first: {:?} and {:?}", own, higher)
            })?;
        }
    }
    for number in 0..=255 {
        for passed in [false, true] {
            hold(
                if passed { 0 } else { number },
                &|| code(need(passed, number)),
                &|| format!("own number {}, passed {}", number, passed),
            )?;
        }
        for (sized, ordered, wanted) in tests(number) {
            hold(wanted, &|| code(rungs(sized, ordered, number)), &|| {
                format!("sized {}, ordered {}, own {}", sized, ordered, number)
            })?;
        }
        for higher in 0..=255 {
            let wanted = [higher, number][(number != 0) as usize];
            hold(wanted, &|| code(two_rungs(number, higher)), &|| {
                format!("own numbers {} and {}", number, higher)
            })?;
        }
    }
    Ok(())
}

/// Every wrong length of every buffer, each with each: 0, one short, one long; in order and not, paced and not.
pub fn lengths(bench: &mut Bench) -> Result<(), String> {
    let mut tally = Tally::default();
    let full = bench.memory.clone();
    let cut = |bytes: &Vec<u8>, kind: usize| {
        let mut bytes = bytes.clone();
        bytes.resize([bytes.len(), 0, bytes.len() - 1, bytes.len() + 1][kind], 9);
        bytes
    };
    let s = standing(bench, 8, 2);
    let states = [s, broken(&s, 0), standing(bench, 2, 2)];
    for kinds in 0..256usize {
        let kept = Memory {
            vram: cut(&full.vram, kinds & 3),
            oam: cut(&full.oam, kinds >> 2 & 3),
            a: cut(&full.a, kinds >> 4 & 3),
            b: cut(&full.b, kinds >> 6),
        };
        let mut m = kept.clone();
        let more = [
            Start(true, false),
            Step(3),
            Step(4),
            WriteRegister(0xFF44, 1),
            ReadRegister(0xFF40),
            WriteOam(0xFEA0, 1),
            LockedWriteOam(0xFEA0, 1),
            LockedReadOam(0xFEA0),
            OamBug(3),
            Pick(144, 8),
        ];
        for &call in ALL.iter().chain(&more) {
            for s in &states {
                let number = check(bench, call, s, &mut m, &kept)?;
                tally.add(number);
            }
        }
    }
    bench.note = tally.note();
    Ok(())
}

/// How many ways a clause is broken.
const CLAUSES: usize = 36;

/// Breaks one clause of "in order", each in one way or two: the least wrong value and the greatest.
fn breaks(clause: usize, s: &mut State) {
    let (b, r, p) = (&mut s.beam, &mut s.regs, &mut s.pipe);
    match clause {
        0 => b.cycle |= 1,
        1 => b.cycle = 456,
        2 => b.cycle = 65_534,
        3 => b.line = 154,
        4 => b.line = 255,
        5 => r.ly = 154,
        6 => r.ly = 255,
        7 => b.x = 160,
        8 => b.x = 255,
        9 => r.vbk = 2,
        10 => r.vbk = 255,
        11 => b.shown = 2,
        12 => b.shown = 255,
        13 => p.fetcher.delay = 9,
        14 => p.fetcher.delay = 255,
        15 => p.bg.len = 17,
        16 => p.bg.len = 255,
        17 => p.obj.len = 9,
        18 => p.obj.len = 255,
        19 => s.selection.count = 11,
        20 => s.selection.count = 255,
        21 => s.selection.slots[s.selection.count.clamp(1, 10) as usize - 1].index = 40,
        22 => s.selection.slots[0].index = 255,
        23 => {
            p.obj.pixels[(p.obj.head as usize + p.obj.len.clamp(1, 8) as usize - 1) % 8].index = 40
        }
        24 => p.obj.pixels[p.obj.head as usize % 8].obp = 2,
        25 => p.obj.pixels[p.obj.head as usize % 8].color = 4,
        26 => p.obj.pixels[p.obj.head as usize % 8].color = 255,
        27 => p.bg.pixels[(p.bg.head as usize + p.bg.len.clamp(1, 16) as usize - 1) % 16].color = 4,
        28 => p.bg.pixels[p.bg.head as usize % 16].color = 255,
        29 => p.fetcher.row[0] = 4,
        30 => p.fetcher.row[7] = 255,
        31 => s.palettes.bg.index = 64,
        32 => s.palettes.obj.index = 255,
        33 => r.stat |= 0x80,
        34 => {
            r.stat |= 3;
            b.line = 144;
        }
        _ => {
            r.stat |= 3;
            b.line = 153;
        }
    }
}

/// A state with every slot live, so that each clause is one to break.
fn lively(bench: &mut Bench) -> State {
    let mut s = states::in_order(&mut bench.random);
    let random = &mut bench.random;
    s.selection.count = 1 + random.below(10) as u8;
    for slot in &mut s.selection.slots {
        slot.index %= 40;
    }
    let (bg, obj) = (1 + random.below(16) as u8, 1 + random.below(8) as u8);
    s.pipe.bg = states::bg_queue(random, bg);
    s.pipe.obj = states::sprite_queue(random, obj);
    s.pipe.fetcher.row = s.pipe.fetcher.row.map(|color| color % 4);
    s.pipe.fetcher.waiting = Some(rattle::bg_attribs::BgAttribute {
        bits: random.byte(),
    });
    s
}

/// Each clause of "in order" broken alone and with each other, for every call; dead slots may hold anything.
pub fn disorder(bench: &mut Bench) -> Result<(), String> {
    let mut tally = Tally::default();
    let kept = bench.memory.clone();
    let mut m = kept.clone();
    for round in 0..4 {
        for first in 0..CLAUSES {
            for second in 0..=first {
                let s = lively(bench);
                if !in_order(&s) {
                    return Err("  a lively state is not in order".to_string());
                }
                let s = broken(&broken(&s, first), second);
                if in_order(&s) {
                    return Err(format!(
                        "  clauses {} and {} broken are in order",
                        first, second
                    ));
                }
                for call in ALL
                    .into_iter()
                    .chain([Step(5), WriteRegister(0, 0), ReadRegister(0)])
                {
                    let number = check(bench, call, &s, &mut m, &kept)?;
                    tally.add(number);
                }
            }
        }
        // dead slots may hold anything
        let mut s = lively(bench);
        s.selection.count = round;
        s.pipe.bg.len = round;
        s.pipe.obj.len = round;
        for k in round as usize..10 {
            s.selection.slots[k].index = 255;
        }
        for k in round as usize..16 {
            s.pipe.bg.pixels[(s.pipe.bg.head as usize + k) % 16].color = 255;
        }
        for k in round as usize..8 {
            s.pipe.obj.pixels[(s.pipe.obj.head as usize + k) % 8].obp = 255;
        }
        s.pipe.fetcher.waiting = None;
        s.pipe.fetcher.row = [255; 8];
        for call in ALL {
            let number = check(bench, call, &s, &mut m, &kept)?;
            tally.add(number);
        }
    }
    bench.note = tally.note();
    Ok(())
}

/// Every step from 0 to 255 at every even cycle, in order, and at a few out of order.
pub fn steps(bench: &mut Bench) -> Result<(), String> {
    let mut tally = Tally::default();
    let kept = bench.memory.clone();
    let mut m = kept.clone();
    for cycle in (0..456).step_by(2) {
        let mut s = standing(bench, cycle, 0);
        s.regs.lcdc = if cycle % 16 == 0 { 0 } else { 0x91 };
        for cycles in 0..=255 {
            let number = check(bench, Step(cycles), &s, &mut m, &kept)?;
            tally.add(number);
        }
    }
    for clause in 0..CLAUSES {
        let s = broken(&lively(bench), clause);
        for cycles in 0..=255 {
            let number = check(bench, Step(cycles), &s, &mut m, &kept)?;
            tally.add(number);
        }
    }
    bench.note = tally.note();
    Ok(())
}

/// Every address of a register write and read, of VRAM and of OAM, in order and not.
pub fn addresses(bench: &mut Bench) -> Result<(), String> {
    let mut tally = Tally::default();
    let kept = bench.memory.clone();
    let mut m = kept.clone();
    let s = lively(bench);
    let out = broken(&lively(bench), 34);
    for address in 0..=0xFFFF {
        let value = address as u8 ^ 0x5A;
        let calls = [
            WriteRegister(address, value),
            ReadRegister(address),
            WriteVram(address, value),
            WriteOam(address, value),
            LockedWriteVram(address, value),
            LockedReadVram(address),
            LockedWriteOam(address, value),
            LockedReadOam(address),
        ];
        for call in calls {
            for s in [&s, &out] {
                let number = check(bench, call, s, &mut m, &kept)?;
                tally.add(number);
            }
        }
    }
    bench.note = tally.note();
    Ok(())
}

/// The corruptions in every mode at every even cycle; every line and height of a pick.
pub fn moments(bench: &mut Bench) -> Result<(), String> {
    let mut tally = Tally::default();
    let kept = bench.memory.clone();
    let mut m = kept.clone();
    for mode in 0..4 {
        for cycle in (0..456).step_by(2) {
            let s = standing(bench, cycle, mode);
            for call in [OamBug(0), OamBug(1), OamBug(2), OamBug(3)] {
                for s in [s, broken(&s, 33)] {
                    let number = check(bench, call, &s, &mut m, &kept)?;
                    tally.add(number);
                }
            }
        }
    }
    let s = standing(bench, 0, 0);
    for line in 0..=255 {
        for tall in 0..=255 {
            let number = check(bench, Pick(line, tall), &s, &mut m, &kept)?;
            tally.add(number);
        }
    }
    bench.note = tally.note();
    Ok(())
}

/// Every kind of corruption with every cause of another refusal, and with all of them together: OAM of its length, empty, one
/// short, one long; a state in order, and each clause broken; moments in and outside mode 2, right, too early and too late.
pub fn kinds(bench: &mut Bench) -> Result<(), String> {
    let mut tally = Tally::default();
    let full = bench.memory.clone();
    for length in [160, 0, 159, 161] {
        let mut kept = full.clone();
        kept.oam.resize(length, 9);
        let mut m = kept.clone();
        for (cycle, mode) in [(8, 2), (2, 0), (2, 2), (84, 2)] {
            let s = at(lively(bench), cycle, mode);
            for clause in 0..=CLAUSES {
                let s = if clause < CLAUSES { broken(&s, clause) } else { s };
                if in_order(&s) != (clause == CLAUSES) {
                    return Err(format!("  clause {} broken is in order", clause));
                }
                for kind in 0..=255 {
                    let number = check(bench, OamBug(kind), &s, &mut m, &kept)?;
                    tally.add(number);
                }
            }
        }
    }
    bench.note = tally.note();
    Ok(())
}
