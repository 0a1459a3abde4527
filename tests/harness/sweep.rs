//! The sweep: one write of every register at every even cycle of four lines, and on to the end of the frame; or the display
//! off and on there. The answers are compared step by step, the state at every line's end and at the last, the pictures at the
//! last.

use crate::bench::{same, Bench, Given};
use crate::{runs, states, step};
use given::sweep::{self, CYCLES, FRAME, KINDS, LINES, WRITES};
use rattle::sprite::SelectedSprite;
use rattle::state::State;
use std::cell::Cell;

/// One in so many cases, and one in so many blankings.
const STRIDE: u64 = 101;
const BLANKINGS: u64 = 3;

/// A moment: the state and both pictures. VRAM and OAM stay.
struct Moment {
    state: State,
    a: Vec<u8>,
    b: Vec<u8>,
}

struct Sweep<'a> {
    bench: &'a mut Bench,
    slots: Cell<[SelectedSprite; 10]>,
    steps: u64,
    /// The mark of the last step, if it swapped.
    mark: Option<u8>,
}

/// What is done at a moment, by its number among those of all devices and lines.
type At<'f> = &'f mut dyn FnMut(&mut Sweep, &Moment, u64) -> Result<(), String>;

impl<'a> Sweep<'a> {
    fn new(bench: &'a mut Bench) -> Self {
        bench.given = Given::new();
        Sweep {
            bench,
            slots: Cell::new(rattle::sprite::blank()),
            steps: 0,
            mark: None,
        }
    }

    fn moment(&self, state: State) -> Moment {
        Moment {
            state,
            a: self.bench.memory.a.clone(),
            b: self.bench.memory.b.clone(),
        }
    }

    /// Both sides go back to a moment.
    fn back(&mut self, moment: &Moment) -> State {
        self.bench.memory.a.copy_from_slice(&moment.a);
        self.bench.memory.b.copy_from_slice(&moment.b);
        let [a, b] = self.bench.given.ppu.part_lcd().part_pictures();
        a.copy_from_slice(&moment.a);
        b.copy_from_slice(&moment.b);
        self.bench.set(&moment.state);
        moment.state
    }

    /// A call on both sides, all compared.
    fn call(&mut self, s: &State, q: [u8; 8]) -> Result<State, String> {
        let slots = &self.slots;
        let after = self
            .bench
            .compare_on(s, |g| g.answer(q), |s, m| runs::answer(s, m, slots, q));
        self.bench.cases -= after.is_ok() as u64;
        after
    }

    fn same_state(&mut self, s: &State) -> Result<(), String> {
        let wanted = self.bench.given.state();
        let got = states::plain(s);
        if wanted == got {
            return Ok(());
        }
        Err(states::differences(&wanted, &got).join("\n"))
    }

    /// A step on both sides; gives whether the pictures swapped. Closely, all is compared.
    fn step(&mut self, s: &mut State, close: bool) -> Result<bool, String> {
        let q = [
            2,
            if s.beam.cycle % 4 == 0 { 4 } else { 2 },
            0,
            0,
            0,
            0,
            0,
            0,
        ];
        let shown = s.beam.shown;
        if close {
            *s = self.call(s, q)?;
            return Ok(s.beam.shown != shown);
        }
        let wanted = self.bench.given.answer(q);
        let got = step::step(s, &mut self.bench.memory, q[1]);
        self.steps += 1;
        self.mark = (got[5] != 0).then(|| got[6]);
        if wanted != got {
            return Err(format!("  answer: wanted {:?}, got {:?}", wanted, got));
        }
        if s.beam.cycle == 0 {
            self.same_state(s)?;
        }
        Ok(got[5] != 0)
    }

    /// Calls at a moment, and steps until the pictures swap, a frame at most.
    fn to_swap(&mut self, moment: &Moment, calls: &[[u8; 8]], close: bool) -> Result<(), String> {
        let mut s = self.back(moment);
        for &q in calls {
            s = self.call(&s, q)?;
        }
        for _ in 0..=FRAME {
            let (line, cycle) = (s.beam.line, s.beam.cycle);
            let swapped = self
                .step(&mut s, close)
                .map_err(|found| format!("  then at line {line}, cycle {cycle}:\n{found}"))?;
            if swapped {
                break;
            }
        }
        self.same_state(&s)?;
        self.bench.compare_memory()
    }

    /// The same, and where a difference is found once more, closely, for the step and the smallest state that show it.
    fn case(&mut self, moment: &Moment, calls: &[[u8; 8]]) -> Result<(), String> {
        match self.to_swap(moment, calls, false) {
            Ok(()) => {
                self.bench.cases += 1;
                Ok(())
            }
            Err(found) => Err(self.to_swap(moment, calls, true).err().unwrap_or(found)),
        }
    }

    /// The writes at a moment whose numbers are asked for; `number` is that of the first.
    fn cases(&mut self, moment: &Moment, number: u64, stride: u64) -> Result<(), String> {
        let first = self.bench.seed % stride;
        for (write, at) in (0..WRITES.len()).zip(number..) {
            if at % stride != first {
                continue;
            }
            let s = &moment.state;
            let calls = sweep::write_calls(write, s.beam.line, s.beam.x);
            self.case(moment, &calls)
                .map_err(|found| format!("  case {at}: {}\n{found}", named(s, write)))?;
        }
        Ok(())
    }

    /// The display off and on at a moment: the first picture after it is whole but unseen if LCD x is 0, else torn.
    fn blanking(&mut self, moment: &Moment) -> Result<(), String> {
        let s = &moment.state;
        let at = format!("off and on at line {}, cycle {}, LCD x {}", s.beam.line, s.beam.cycle, s.beam.x);
        let calls = [s.regs.lcdc & 0x7F, s.regs.lcdc].map(|value| [3, 0x40, 0xFF, value, 0, 0, 0, 0]);
        self.case(moment, &calls).map_err(|found| format!("  {at}\n{found}"))?;
        let wanted = if s.beam.x == 0 { 2 } else { 0 };
        let got = self.mark;
        same(Some(wanted), || got, || format!("{at}: the mark of the next swap"))
    }

    /// Steps of 4 to a line.
    fn to_line(&mut self, mut s: State, line: u8) -> Result<State, String> {
        while s.beam.line != line {
            s = self.call(&s, [2, 4, 0, 0, 0, 0, 0, 0])?;
        }
        Ok(s)
    }

    /// Every even cycle of the four lines on a device.
    fn moments(&mut self, kind: usize, at: At) -> Result<(), String> {
        let mut s = self.bench.given.state();
        for q in sweep::prologue(self.bench.seed, kind) {
            s = self.call(&s, q)?;
        }
        for (i, &line) in LINES.iter().enumerate() {
            s = self.to_line(s, line)?;
            let first = ((kind * LINES.len() + i) * CYCLES) as u64;
            for number in (first..first + CYCLES as u64).step_by(2) {
                let base = self.moment(s);
                at(self, &base, number)?;
                s = self.back(&base);
                let next = self.call(&s, [2, 2, 0, 0, 0, 0, 0, 0])?;
                let between = self.moment(next);
                at(self, &between, number + 1)?;
                s = self.back(&base);
                s = self.call(&s, [2, 4, 0, 0, 0, 0, 0, 0])?;
            }
        }
        Ok(())
    }
}

/// A write by its device, value, address and moment.
fn named(s: &State, write: usize) -> String {
    let device = match (s.machine.dmg, s.regs.cgb) {
        (true, _) => "DMG",
        (_, true) => "colour mode",
        _ => "outside colour mode",
    };
    let (line, cycle) = (s.beam.line, s.beam.cycle);
    let [_, low, high, value, ..] = sweep::write_calls(write, line, s.beam.x)[0];
    format!("{device}, write of {value:02X} to {high:02X}{low:02X} at line {line}, cycle {cycle}")
}

pub fn sweep(bench: &mut Bench) -> Result<(), String> {
    let stride = bench.size.unwrap_or(STRIDE).max(1);
    let writes = WRITES.len() as u64;
    on_all(bench, sweep::CASES, &mut |sweep, moment, number| {
        sweep.cases(moment, number * writes, stride)
    })
}

pub fn blankings(bench: &mut Bench) -> Result<(), String> {
    let stride = bench.size.unwrap_or(BLANKINGS).max(1);
    let first = bench.seed % stride;
    let all = sweep::CASES / WRITES.len();
    on_all(bench, all, &mut |sweep, moment, number| {
        if number % stride == first {
            sweep.blanking(moment)?;
        }
        Ok(())
    })
}

/// The moments of all devices; `all` is how many cases there are.
fn on_all(bench: &mut Bench, all: usize, at: At) -> Result<(), String> {
    let mut sweep = Sweep::new(bench);
    for kind in 0..KINDS.len() {
        sweep.moments(kind, at)?;
    }
    let steps = given::list::spaced(sweep.steps);
    sweep.bench.note = format!("of {}, {} steps", given::list::spaced(all as u64), steps);
    sweep.bench.moved = 0;
    Ok(())
}
