//! The bench: the given machine and a Rattle state with its lent memory, run side by side and compared.

use crate::bytes::{set_bytes, shrink};
use crate::order::in_order;
use crate::states;
use given::list::Random;
use given::machine::Machine;
use given::ppu::Ppu;
use rattle::refusals::Refusal;
use rattle::state::State;
use std::cell::RefCell;
use std::fmt::Debug;
use std::ops::{Deref, DerefMut};
use std::panic::{catch_unwind, AssertUnwindSafe};

pub type Part = fn(&mut Bench) -> Result<(), String>;

thread_local! {
    static STOP: RefCell<String> = const { RefCell::new(String::new()) };
}

/// A side that stops (an overflow, an index past the end) is a difference, not the end of the run.
pub fn silence_stops() {
    std::panic::set_hook(Box::new(|info| {
        STOP.with(|stop| *stop.borrow_mut() = info.to_string().replace('\n', " "));
    }));
}

/// What the call answers, or why it stopped.
pub fn caught<T>(call: impl FnOnce() -> T) -> Result<T, String> {
    catch_unwind(AssertUnwindSafe(call))
        .map_err(|_| STOP.with(|stop| format!("it stopped: {}", stop.borrow())))
}

/// The number of a call in the table of refusals, 0 where it is done.
pub fn number<T>(answer: &Result<T, Refusal>) -> u8 {
    match answer {
        Ok(_) => 0,
        Err(why) => why.number(),
    }
}

/// The given machine with the count of stored places and the blanking, and beside it colour mode as the last start wanted it, which the
/// given text does not keep: a start sets it, and no other call.
pub struct Given {
    machine: Machine,
    cgb: bool,
}

impl Given {
    /// As after a start of a device that is not DMG, colour mode not wanted.
    pub fn new() -> Self {
        Given {
            machine: Machine::new(),
            cgb: false,
        }
    }

    pub fn answer(&mut self, request: [u8; 8]) -> [u8; 16] {
        if request[0] == 1 {
            self.cgb = request[2] != 0;
        }
        self.machine.answer(request)
    }

    pub fn set(&mut self, s: &State) {
        self.ppu.part_set(s);
        self.count = s.beam.count;
        self.blanked = s.beam.blanked;
        self.cgb = s.machine.cgb;
    }

    /// The state in its plain form.
    pub fn state(&self) -> State {
        self.ppu.part_state(self.count, self.blanked, self.cgb)
    }
}

impl Deref for Given {
    type Target = Machine;

    fn deref(&self) -> &Machine {
        &self.machine
    }
}

impl DerefMut for Given {
    fn deref_mut(&mut self) -> &mut Machine {
        &mut self.machine
    }
}

/// The lent memory.
#[derive(Clone)]
pub struct Memory {
    pub vram: Vec<u8>,
    pub oam: Vec<u8>,
    pub a: Vec<u8>,
    pub b: Vec<u8>,
}

pub struct Bench {
    pub random: Random,
    /// The seed of the run, and how large a part was asked to be.
    pub seed: u64,
    pub size: Option<u64>,
    pub given: Given,
    pub memory: Memory,
    pub cases: u64,
    /// The cases of `compare_after` that moved the state.
    pub moved: u64,
    /// The state of the Rattle side after the last case, and whether the given side stopped in it.
    after: Option<State>,
    stopped: bool,
    /// What the line of the part says beside the number of cases.
    pub note: String,
}

pub const PICTURE: usize = 3 * 160 * 144;
/// The whole memory is compared once in so many cases.
const WHOLE: u64 = 1024;

impl Bench {
    pub fn new(seed: u64) -> Self {
        let mut bench = Bench {
            random: Random::new(seed),
            seed,
            size: None,
            given: Given::new(),
            memory: Memory {
                vram: vec![0; 16384],
                oam: vec![0; 160],
                a: vec![0; PICTURE],
                b: vec![0; PICTURE],
            },
            cases: 0,
            moved: 0,
            after: None,
            stopped: false,
            note: String::new(),
        };
        bench.shuffle();
        bench
    }

    /// New random memory on both sides.
    pub fn shuffle(&mut self) {
        let memory = &mut self.memory;
        for bytes in [
            &mut memory.vram,
            &mut memory.oam,
            &mut memory.a,
            &mut memory.b,
        ] {
            fill(&mut self.random, bytes);
        }
        self.sync();
    }

    /// New random VRAM on both sides.
    pub fn shuffle_vram(&mut self) {
        fill(&mut self.random, &mut self.memory.vram);
        self.given
            .ppu
            .part_vram()
            .copy_from_slice(&self.memory.vram);
    }

    /// The given machine gets the memory of the Rattle side.
    pub fn sync(&mut self) {
        let ppu = &mut self.given.ppu;
        ppu.part_vram().copy_from_slice(&self.memory.vram);
        ppu.part_set_oam(&self.memory.oam);
        let [a, b] = ppu.part_lcd().part_pictures();
        a.copy_from_slice(&self.memory.a);
        b.copy_from_slice(&self.memory.b);
    }

    pub fn set(&mut self, s: &State) {
        self.given.set(s);
    }

    /// Runs both sides from one state and compares the answers, every field of the states, OAM and the drawn line;
    /// once in `WHOLE` cases all of the memory. Gives the state after it. A difference is told from the smallest state
    /// and memory that show it.
    pub fn compare_after<A: PartialEq + Debug>(
        &mut self,
        s: &State,
        given: impl Fn(&mut Given) -> A,
        rattle: impl Fn(&mut State, &mut Memory) -> A,
    ) -> Result<State, String> {
        self.set(s);
        self.compare_on(s, given, rattle)
    }

    /// The same, where the given side stands at that state already and goes on from it.
    pub fn compare_on<A: PartialEq + Debug>(
        &mut self,
        s: &State,
        given: impl Fn(&mut Given) -> A,
        rattle: impl Fn(&mut State, &mut Memory) -> A,
    ) -> Result<State, String> {
        let whole = self.cases % WHOLE == 0;
        let found = self.differs(s, &given, &rattle, whole);
        match self.after {
            Some(after) if found.is_empty() => {
                self.cases += 1;
                Ok(after)
            }
            _ => Err(self.smallest(s, found, &given, &rattle)),
        }
    }

    /// Compares what both sides make of some bytes and VRAM, and tells a difference from the smallest that show it.
    pub fn compare_bytes<T: PartialEq + Debug, const N: usize>(
        &mut self,
        inputs: [u8; N],
        shown: impl Fn([u8; N]) -> String,
        given: impl Fn(&mut Ppu, [u8; N]) -> T,
        rattle: impl Fn(&[u8], [u8; N]) -> T,
    ) -> Result<(), String> {
        let Bench {
            given: machine,
            memory,
            ..
        } = self;
        let ppu = &mut machine.ppu;
        let mut both =
            |vram: &[u8], inputs: [u8; N]| (given(ppu, inputs), caught(|| rattle(vram, inputs)));
        let (wanted, got) = both(&memory.vram, inputs);
        if got.as_ref() == Ok(&wanted) {
            self.cases += 1;
            return Ok(());
        }
        let mut vram = memory.vram.clone();
        let mut inputs = inputs;
        let mut both = |vram: &[u8], inputs: [u8; N]| {
            ppu.part_vram().copy_from_slice(vram);
            (given(ppu, inputs), caught(|| rattle(vram, inputs)))
        };
        for _ in 0..2 {
            shrink(&mut inputs, |inputs| {
                let (wanted, got) = both(&vram, inputs.try_into().unwrap());
                got != Ok(wanted)
            });
            shrink(&mut vram, |vram| {
                let (wanted, got) = both(vram, inputs);
                got != Ok(wanted)
            });
        }
        let (wanted, got) = both(&vram, inputs);
        let memory = set_bytes("VRAM", &vram).unwrap_or("  VRAM: all 0".to_string());
        Err(format!(
            "  {}\n{}\n  wanted: {:?}\n  got:    {}",
            shown(inputs),
            memory,
            wanted,
            told(&got)
        ))
    }

    /// The last look of a part: all of the memory.
    pub fn compare_memory(&mut self) -> Result<(), String> {
        let found = self.memory_differs(None);
        if found.is_empty() {
            Ok(())
        } else {
            Err(found.join("\n"))
        }
    }

    /// The differences after one case, a line each.
    fn differs<A: PartialEq + Debug>(
        &mut self,
        s: &State,
        given: &impl Fn(&mut Given) -> A,
        rattle: &impl Fn(&mut State, &mut Memory) -> A,
        whole: bool,
    ) -> Vec<String> {
        let mut state = *s;
        let got = caught(|| rattle(&mut state, &mut self.memory));
        let wanted = caught(|| given(&mut self.given));
        self.stopped = wanted.is_err();
        self.after = Some(state);
        let mut lines = Vec::new();
        if wanted != got {
            lines.push(format!(
                "  answer: wanted {}, got {}",
                told(&wanted),
                told(&got)
            ));
            if wanted.is_err() || got.is_err() {
                return lines;
            }
        }
        let wanted = self.given.state();
        let got = states::plain(&state);
        self.moved += (got != states::plain(s)) as u64;
        if wanted != got {
            lines.extend(states::differences(&wanted, &got));
        }
        let line = if whole { None } else { Some(s.beam.line) };
        lines.extend(self.memory_differs(line));
        lines
    }

    /// The places of the memory that differ: of the pictures only a line, if one is given, and then not VRAM.
    fn memory_differs(&mut self, line: Option<u8>) -> Vec<String> {
        let at = match line {
            None => 0..PICTURE,
            Some(line) if line < 144 => 480 * line as usize..480 * (line as usize + 1),
            Some(_) => 0..0,
        };
        let mut lines = Vec::new();
        let oam = self.given.ppu.look_oam();
        lines.extend(first_byte("OAM", 0, &oam, &self.memory.oam));
        let lcd = self.given.ppu.look_lcd();
        let (a, b) = (lcd.part_picture(0), lcd.part_picture(1));
        lines.extend(first_byte(
            "picture A",
            at.start,
            &a[at.clone()],
            &self.memory.a[at.clone()],
        ));
        lines.extend(first_byte(
            "picture B",
            at.start,
            &b[at.clone()],
            &self.memory.b[at.clone()],
        ));
        if line.is_none() {
            lines.extend(first_byte(
                "VRAM",
                0,
                self.given.ppu.part_vram(),
                &self.memory.vram,
            ));
        }
        lines
    }

    /// The difference from the smallest state and memory that still show one.
    fn smallest<A: PartialEq + Debug>(
        &mut self,
        s: &State,
        found: Vec<String>,
        given: &impl Fn(&mut Given) -> A,
        rattle: &impl Fn(&mut State, &mut Memory) -> A,
    ) -> String {
        let mut memory = self.memory.clone();
        memory.a.fill(85);
        memory.b.fill(85);
        let mut still = |s: &State, memory: &Memory| {
            self.memory.clone_from(memory);
            self.sync();
            self.set(s);
            let found = self.differs(s, given, rattle, true);
            // where the given side stops, nothing is wanted
            if self.stopped {
                Vec::new()
            } else {
                found
            }
        };
        let mut state = *s;
        let mut lines = still(&state, &memory);
        if lines.is_empty() {
            let head = "  (shown only beside the memory of this run)".to_string();
            return [vec![head], states::shown(s), found].concat().join("\n");
        }
        let ordered = in_order(&state);
        for _ in 0..2 {
            states::smaller(&mut state, |s| {
                (!ordered || in_order(s)) && !still(s, &memory).is_empty()
            });
            let mut trial = memory.clone();
            shrink(&mut memory.vram, |vram| {
                trial.vram.copy_from_slice(vram);
                !still(&state, &trial).is_empty()
            });
            trial.vram.copy_from_slice(&memory.vram);
            shrink(&mut memory.oam, |oam| {
                trial.oam.copy_from_slice(oam);
                !still(&state, &trial).is_empty()
            });
        }
        lines = still(&state, &memory);
        let memory = [
            set_bytes("VRAM", &memory.vram),
            set_bytes("OAM", &memory.oam),
        ];
        [
            states::shown(&state),
            memory.into_iter().flatten().collect(),
            lines,
        ]
        .concat()
        .join("\n")
    }
}

/// One comparison of a function: what it gives from these inputs.
pub fn same<T: PartialEq + Debug>(
    wanted: T,
    got: impl FnOnce() -> T,
    inputs: impl FnOnce() -> String,
) -> Result<(), String> {
    let got = caught(got);
    if got.as_ref() == Ok(&wanted) {
        return Ok(());
    }
    Err(format!(
        "  inputs: {}\n  wanted: {:?}\n  got:    {}",
        inputs(),
        wanted,
        told(&got)
    ))
}

fn told<T: Debug>(answer: &Result<T, String>) -> String {
    match answer {
        Ok(value) => format!("{:?}", value),
        Err(stop) => stop.clone(),
    }
}

pub fn fill(random: &mut Random, bytes: &mut [u8]) {
    for eight in bytes.chunks_mut(8) {
        let word = random.next().to_le_bytes();
        eight.copy_from_slice(&word[..eight.len()]);
    }
}

/// The first byte that is not as wanted, if there is one.
pub fn first_byte(name: &str, from: usize, wanted: &[u8], got: &[u8]) -> Option<String> {
    if wanted == got {
        return None;
    }
    let at = wanted.iter().zip(got).position(|(w, g)| w != g)?;
    Some(format!(
        "  {} byte {}: wanted {}, got {}",
        name,
        from + at,
        wanted[at],
        got[at]
    ))
}
