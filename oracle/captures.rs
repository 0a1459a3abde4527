//! Captures: the pictures of one by the given text, with the lines that the program `bench` prints, and the maker of random
//! captures. NOTES.md has the format.

use crate::list::{request, Random};
use crate::machine::{Machine, CORRUPTIONS};
use std::fs::{self, File};
use std::io::{self, BufWriter, Write};
use std::path::Path;

/// The ops of the protocol `machine` that a capture calls.
const START: u8 = 1;
const STEP: u8 = 2;
const WRITE: u8 = 3;
const VRAM: u8 = 5;
const OAM: u8 = 6;
const COLOUR: u8 = 7;
const CORRUPT: u8 = 8;

/// The most bytes of a line `vram` or `oam`, and the most digits of a decimal number.
const MOST_BYTES: usize = 8;
const MOST_DIGITS: usize = 10;

/// What a line calls.
enum Call {
    Start {
        dmg: bool,
        colour: bool,
    },
    Write {
        address: u16,
        value: u8,
    },
    Bytes {
        op: u8,
        address: u16,
        bytes: Vec<u8>,
        times: u32,
    },
    Step {
        cycles: u8,
        times: u32,
    },
    Corrupt {
        kind: u8,
    },
    Colour {
        on: bool,
    },
}

/// Bytes of two hexadecimal digits each.
fn hexadecimal(word: &[u8]) -> Option<Vec<u8>> {
    if word.len() % 2 != 0 {
        return None;
    }
    let digit = |byte: u8| (byte as char).to_digit(16).map(|digit| digit as u8);
    word.chunks_exact(2)
        .map(|two| Some(digit(two[0])? * 16 + digit(two[1])?))
        .collect()
}

/// One to ten decimal digits, as a number from `least` to `most`.
fn decimal(word: &[u8], least: u64, most: u64) -> Option<u64> {
    if word.len() > MOST_DIGITS || !word.iter().all(u8::is_ascii_digit) {
        return None;
    }
    let number = std::str::from_utf8(word).ok()?.parse().ok()?;
    (least <= number && number <= most).then(|| number)
}

/// Which of the names a word is.
fn named(word: &[u8], names: &[&str]) -> Option<usize> {
    names.iter().position(|name| name.as_bytes() == word)
}

/// The words of a line that are not yet read, from the left.
struct Words<'a> {
    left: Vec<&'a [u8]>,
}

impl<'a> Words<'a> {
    fn of(line: &'a [u8]) -> Self {
        let said = line.split(|&byte| byte == b'#').next().unwrap_or(line);
        let mut left: Vec<&[u8]> = said
            .split(|byte| b" \t\r".contains(byte))
            .filter(|word| !word.is_empty())
            .collect();
        left.reverse();
        Words { left }
    }

    /// The next argument as `read` takes it; `wrong` is what is said of one that it does not take.
    fn argument<T>(
        &mut self,
        read: impl Fn(&[u8]) -> Option<T>,
        wrong: &'static str,
    ) -> Result<T, &'static str> {
        let word = self.left.pop().ok_or("an argument is missing")?;
        read(word).ok_or(wrong)
    }

    fn address(&mut self) -> Result<u16, &'static str> {
        let read = |word: &[u8]| match hexadecimal(word)?[..] {
            [high, low] => Some(u16::from_be_bytes([high, low])),
            _ => None,
        };
        self.argument(read, "the address is not four hexadecimal digits")
    }

    fn value(&mut self) -> Result<u8, &'static str> {
        let read = |word: &[u8]| match hexadecimal(word)?[..] {
            [value] => Some(value),
            _ => None,
        };
        self.argument(read, "the value is not two hexadecimal digits")
    }

    fn cycles(&mut self) -> Result<u8, &'static str> {
        let read = |word: &[u8]| decimal(word, 0, 255).map(|cycles| cycles as u8);
        self.argument(read, "the cycles are no number from 0 to 255")
    }

    fn bytes(&mut self) -> Result<Vec<u8>, &'static str> {
        let read = |word: &[u8]| hexadecimal(word).filter(|bytes| bytes.len() <= MOST_BYTES);
        self.argument(read, "the bytes are not 2, 4, .. 16 hexadecimal digits")
    }

    /// How many times; once where the line ends before it.
    fn times(&mut self) -> Result<u32, &'static str> {
        if self.left.is_empty() {
            return Ok(1);
        }
        let read = |word: &[u8]| decimal(word, 1, u32::MAX as u64).map(|times| times as u32);
        self.argument(read, "the times are no number from 1 to 4294967295")
    }

    fn one_of(&mut self, names: &[&str], wrong: &'static str) -> Result<usize, &'static str> {
        self.argument(|word| named(word, names), wrong)
    }
}

/// What a line says: a call, nothing, or why it is wrong.
fn read_line(line: &[u8]) -> Result<Option<Call>, &'static str> {
    let mut words = Words::of(line);
    let name = match words.left.pop() {
        Some(name) => name,
        None => return Ok(None),
    };
    let call = match name {
        b"start" => Call::Start {
            dmg: words.one_of(&["cgb", "dmg"], "the device is neither dmg nor cgb")? == 1,
            colour: words.one_of(&["grey", "colour"], "the mode is neither colour nor grey")? == 1,
        },
        b"write" => Call::Write {
            address: words.address()?,
            value: words.value()?,
        },
        b"vram" | b"oam" => Call::Bytes {
            op: if name == b"vram" { VRAM } else { OAM },
            address: words.address()?,
            bytes: words.bytes()?,
            times: words.times()?,
        },
        b"step" => Call::Step {
            cycles: words.cycles()?,
            times: words.times()?,
        },
        b"corrupt" => Call::Corrupt {
            kind: words.one_of(
                &CORRUPTIONS,
                "the kind is none of write, read and read-write",
            )? as u8,
        },
        b"colour" => Call::Colour {
            on: words.one_of(&["off", "on"], "the switch is neither on nor off")? == 1,
        },
        _ => return Err("there is no call of that name"),
    };
    if !words.left.is_empty() {
        return Err("a word too many");
    }
    Ok(Some(call))
}

/// A picture as a PPM file.
pub fn write_ppm(out: &mut dyn Write, picture: &[u8]) -> io::Result<()> {
    out.write_all(b"P6 160 144 255\n")?;
    out.write_all(picture)?;
    out.flush()
}

/// The marks of a swap by their numbers: as `bench` names them, and what it puts behind the number of the file.
const MARKS: [(&str, &str); 3] = [("torn", "-torn"), ("whole", ""), ("unseen", "-unseen")];

/// Why a line of a capture is not done.
enum Stop {
    Wrong(String),
    Output(io::Error),
}

impl From<&str> for Stop {
    fn from(words: &str) -> Self {
        Stop::Wrong(words.to_string())
    }
}

impl From<io::Error> for Stop {
    fn from(error: io::Error) -> Self {
        Stop::Output(error)
    }
}

/// A capture being drawn.
struct Drawing<'a> {
    machine: Machine,
    started: bool,
    /// Steps since the last picture that asked for a VBlank and for a STAT interrupt.
    vblank: u64,
    stat: u64,
    /// The pictures so far, by their marks.
    pictures: [u64; 3],
    folder: &'a Path,
    out: &'a mut dyn Write,
}

impl Drawing<'_> {
    fn call(&mut self, bytes: &[u8]) -> Result<[u8; 16], Stop> {
        if !self.started {
            return Err("the first call is no start".into());
        }
        match self.machine.answer(request(bytes)) {
            answer if answer[0] == 0 => Ok(answer),
            answer => Err(Stop::Wrong(format!("refused {}", answer[0]))),
        }
    }

    fn perform(&mut self, call: Call) -> Result<(), Stop> {
        match call {
            Call::Start { dmg, colour } => {
                if self.started {
                    return Err("a second start".into());
                }
                self.started = true;
                self.call(&[START, dmg as u8, colour as u8])?;
            }
            Call::Write { address, value } => {
                let [low, high] = address.to_le_bytes();
                self.call(&[WRITE, low, high, value])?;
            }
            Call::Bytes {
                op,
                mut address,
                bytes,
                times,
            } => {
                for _ in 0..times {
                    for &value in &bytes {
                        let [low, high] = address.to_le_bytes();
                        self.call(&[op, low, high, value])?;
                        address = address.wrapping_add(1);
                    }
                }
            }
            Call::Step { cycles, times } => {
                for _ in 0..times {
                    self.step(cycles)?;
                }
            }
            Call::Corrupt { kind } => {
                self.call(&[CORRUPT, kind])?;
            }
            Call::Colour { on } => {
                self.call(&[COLOUR, on as u8])?;
            }
        }
        Ok(())
    }

    fn step(&mut self, cycles: u8) -> Result<(), Stop> {
        let answer = self.call(&[STEP, cycles])?;
        self.vblank += (answer[1] & 1) as u64;
        self.stat += (answer[1] >> 1 & 1) as u64;
        if answer[5] != 0 {
            self.picture(
                answer[6] as usize,
                u16::from_le_bytes([answer[8], answer[9]]),
            )?;
        }
        Ok(())
    }

    /// The line and the file of the picture that a swap shows.
    fn picture(&mut self, mark: usize, stored: u16) -> io::Result<()> {
        self.pictures[mark] += 1;
        let number: u64 = self.pictures.iter().sum();
        let (name, behind) = MARKS[mark];
        writeln!(
            self.out,
            "picture {} {}, {} of 23040 places stored, requests: {} vblank, {} stat, filed as picture-{:06}{}.png",
            number, name, stored, self.vblank, self.stat, number, behind
        )?;
        self.vblank = 0;
        self.stat = 0;
        let mut file = File::create(self.folder.join(format!("{:06}.ppm", number)))?;
        write_ppm(&mut file, self.machine.ppu.look_lcd().look_picture(0))
    }
}

/// Draws a capture: a PPM file for each picture into the folder, which is made where it is missing, and the lines of `bench`.
/// Ends with 1 where a line is wrong or refused.
pub fn draw(capture: &str, folder: &str, out: &mut dyn Write) -> io::Result<i32> {
    let text = fs::read(capture)?;
    fs::create_dir_all(folder)?;
    let mut drawing = Drawing {
        machine: Machine::new(),
        started: false,
        vblank: 0,
        stat: 0,
        pictures: [0; 3],
        folder: Path::new(folder),
        out,
    };
    for (k, line) in text.split(|&byte| byte == b'\n').enumerate() {
        let done = match read_line(line) {
            Ok(None) => Ok(()),
            Ok(Some(call)) => drawing.perform(call),
            Err(words) => Err(words.into()),
        };
        match done {
            Ok(()) => {}
            Err(Stop::Output(error)) => return Err(error),
            Err(Stop::Wrong(words)) => {
                drawing.out.flush()?;
                eprintln!("{}:{}: {}", capture, k + 1, words);
                return Ok(1);
            }
        }
    }
    let [torn, whole, unseen] = drawing.pictures;
    let all = torn + whole + unseen;
    writeln!(
        out,
        "done: {} pictures, {} whole, {} unseen, {} torn",
        all, whole, unseen, torn
    )?;
    out.flush()?;
    Ok(0)
}

/// The registers that a capture writes but LCDC, by the low bytes of their addresses.
const REGISTERS: [u8; 15] = [
    0x41, 0x42, 0x43, 0x45, 0x47, 0x48, 0x49, 0x4A, 0x4B, 0x4F, 0x68, 0x69, 0x6A, 0x6B, 0x6C,
];

/// The cycles of a frame.
const FRAME: u32 = 154 * 456;

/// A random capture being made; the machine beside it knows what is accepted.
struct Maker<'a> {
    random: Random,
    machine: Machine,
    left: u64,
    out: BufWriter<&'a mut dyn Write>,
}

impl Maker<'_> {
    /// A line of these words, unless all lines are made: with blanks, and perhaps a comment.
    fn line(&mut self, words: &[String]) -> io::Result<()> {
        if self.left == 0 {
            return Ok(());
        }
        self.left -= 1;
        let mut line = Vec::new();
        self.blanks(&mut line, 8);
        for (k, word) in words.iter().enumerate() {
            if k > 0 {
                line.push(self.random.of(b"    \t"));
                self.blanks(&mut line, 12);
            }
            line.extend_from_slice(word.as_bytes());
        }
        self.blanks(&mut line, 8);
        if self.random.once_in(8) {
            self.comment(&mut line);
        }
        // The last line may lack its end.
        if self.left > 0 || self.random.once_in(2) {
            line.extend_from_slice(if self.random.once_in(20) {
                b"\r\n"
            } else {
                b"\n"
            });
        }
        self.out.write_all(&line)
    }

    /// One to four blanks, once in `times`.
    fn blanks(&mut self, line: &mut Vec<u8>, times: u32) {
        if self.random.once_in(times) {
            for _ in 0..1 + self.random.below(4) {
                line.push(self.random.of(b"   \t\t\r"));
            }
        }
    }

    /// A comment: words of captures, or any bytes but the line's end.
    fn comment(&mut self, line: &mut Vec<u8>) {
        line.push(b'#');
        match self.random.below(4) {
            0 => {}
            1 => line.extend_from_slice(b" step 4 # start cgb colour"),
            _ => {
                for _ in 0..self.random.below(40) {
                    match self.random.byte() {
                        b'\n' => {}
                        byte => line.push(byte),
                    }
                }
            }
        }
    }

    /// Hexadecimal digits of either case.
    fn hex(&mut self, bytes: &[u8]) -> String {
        let upper = self.random.below(3);
        let digits: String = bytes.iter().map(|byte| format!("{:02X}", byte)).collect();
        digits
            .chars()
            .map(|digit| match upper {
                0 => digit,
                1 => digit.to_ascii_lowercase(),
                _ if self.random.once_in(2) => digit,
                _ => digit.to_ascii_lowercase(),
            })
            .collect()
    }

    /// A decimal number, once in eight with zeros before it.
    fn number(&mut self, number: u32) -> String {
        let digits = number.to_string();
        match self.random.below(8) {
            0 => {
                let width = digits.len()
                    + self.random.below((MOST_DIGITS - digits.len() + 1) as u32) as usize;
                format!("{:0width$}", number, width = width)
            }
            _ => digits,
        }
    }

    /// A line whose last argument is how many times, which may be left out for once.
    fn counted(&mut self, mut words: Vec<String>, times: u32) -> io::Result<()> {
        if times != 1 || self.random.once_in(2) {
            words.push(self.number(times));
        }
        self.line(&words)
    }

    /// Calls the machine, which takes what the maker makes.
    fn call(&mut self, bytes: &[u8]) {
        let answer = self.machine.answer(request(bytes));
        assert_eq!(answer[0], 0, "a call of a random capture is refused");
    }

    fn start(&mut self) -> io::Result<()> {
        let (dmg, colour) = (self.random.once_in(3), !self.random.once_in(3));
        self.call(&[START, dmg as u8, colour as u8]);
        let device = if dmg { "dmg" } else { "cgb" };
        let mode = if colour { "colour" } else { "grey" };
        self.line(&["start".into(), device.into(), mode.into()])
    }

    fn write(&mut self, low: u8, value: u8) -> io::Result<()> {
        self.call(&[WRITE, low, 0xFF, value]);
        let words = ["write".into(), self.hex(&[0xFF, low]), self.hex(&[value])];
        self.line(&words)
    }

    fn bytes(&mut self, op: u8, address: u16, bytes: &[u8], times: u32) -> io::Result<()> {
        let mut at = address;
        for _ in 0..times {
            for &value in bytes {
                let [low, high] = at.to_le_bytes();
                self.call(&[op, low, high, value]);
                at = at.wrapping_add(1);
            }
        }
        let name = if op == VRAM { "vram" } else { "oam" };
        let words = vec![
            name.into(),
            self.hex(&address.to_be_bytes()),
            self.hex(bytes),
        ];
        self.counted(words, times)
    }

    fn some_bytes(&mut self) -> Vec<u8> {
        (0..1 + self.random.below(MOST_BYTES as u32))
            .map(|_| self.random.byte())
            .collect()
    }

    fn vram(&mut self) -> io::Result<()> {
        let bytes = self.some_bytes();
        let address = match self.random.below(6) {
            0 => self.random.next() as u16,
            1 | 2 => 0x9800 + self.random.below(0x800) as u16,
            _ => 0x8000 + self.random.below(0x1800) as u16,
        };
        let times = match self.random.below(3) {
            0 => 1,
            1 => 1 + self.random.below(40),
            _ => 1 + self.random.below(1100),
        };
        self.bytes(VRAM, address, &bytes, times)
    }

    fn oam(&mut self) -> io::Result<()> {
        let mut bytes = self.some_bytes();
        let low = self.random.below(161 - bytes.len() as u32);
        if bytes.len() >= 4 && self.random.once_in(2) {
            bytes[0] = 16 + self.random.below(144) as u8;
            bytes[1] = self.random.below(168) as u8;
        }
        let most = (160 - low) / bytes.len() as u32;
        let times = if self.random.once_in(2) {
            1
        } else {
            1 + self.random.below(most)
        };
        let high = if self.random.once_in(8) {
            self.random.byte()
        } else {
            0xFE
        };
        self.bytes(OAM, u16::from_be_bytes([high, low as u8]), &bytes, times)
    }

    fn step(&mut self, cycles: u8, times: u32) -> io::Result<()> {
        if self.left == 0 {
            return Ok(());
        }
        for _ in 0..times {
            self.call(&[STEP, cycles]);
        }
        let words = vec!["step".into(), self.number(cycles as u32)];
        self.counted(words, times)
    }

    /// How long the next steps may be.
    fn length(&mut self) -> u8 {
        let even = self.machine.ppu.look_cycle() % 4 == 0;
        if even && !self.random.once_in(4) {
            4
        } else {
            2
        }
    }

    fn steps(&mut self) -> io::Result<()> {
        let length = self.length();
        let frame = FRAME / length as u32;
        let times = match self.random.below(8) {
            0 => 1,
            1 | 2 => 1 + self.random.below(100),
            3 | 4 => 1 + self.random.below(2000),
            5 => 1 + self.random.below(frame),
            6 => frame,
            _ => frame + self.random.below(frame),
        };
        self.step(length, times)
    }

    /// Steps into the middle of a line that is drawn.
    fn steps_into_line(&mut self) -> io::Result<()> {
        let ppu = &self.machine.ppu;
        let now = ppu.look_line() as u32 * 456 + ppu.look_cycle() as u32;
        let then = self.random.below(144) * 456 + 84 + self.random.below(180);
        let length = self.length();
        let times = (then + FRAME - now) % FRAME / length as u32;
        self.step(length, times.max(1))
    }

    fn lcdc(&mut self, on: u8) -> io::Result<()> {
        let value = self.random.byte() & 0x7F | self.random.of(&[0, 1, 3]);
        self.write(0x40, on | value)
    }

    fn register(&mut self) -> io::Result<()> {
        let low = self.random.of(&REGISTERS);
        let value = match low {
            0x45 | 0x4A => self.random.below(160) as u8,
            0x4B => self.random.below(175) as u8,
            _ => self.random.byte(),
        };
        self.write(low, value)
    }

    /// A switch-off, in mid line more often than not, and the switch-on soon after it.
    fn off_and_on(&mut self) -> io::Result<()> {
        if !self.random.once_in(3) {
            self.steps_into_line()?;
        }
        self.lcdc(0)?;
        match self.random.below(4) {
            0 => {
                let times = 1 + self.random.below(FRAME);
                self.step(4, times)?;
            }
            1 => self.vram()?,
            _ => {}
        }
        self.lcdc(0x80)
    }

    fn corrupt(&mut self) -> io::Result<()> {
        let (mode, cycle) = (
            self.machine.ppu.get_current_mode(),
            self.machine.ppu.look_cycle(),
        );
        if mode == 2 && !(4..=83).contains(&cycle) {
            return Ok(());
        }
        let kind = self.random.below(CORRUPTIONS.len() as u32) as u8;
        self.call(&[CORRUPT, kind]);
        self.line(&["corrupt".into(), CORRUPTIONS[kind as usize].into()])
    }

    fn colour(&mut self) -> io::Result<()> {
        let on = self.random.once_in(2);
        self.call(&[COLOUR, on as u8]);
        self.line(&["colour".into(), if on { "on" } else { "off" }.into()])
    }
}

/// A random capture of `count` lines, each call of which is accepted.
pub fn random(out: &mut dyn Write, seed: u64, count: u64) -> io::Result<()> {
    let mut maker = Maker {
        random: Random::new(seed),
        machine: Machine::new(),
        left: count,
        out: BufWriter::new(out),
    };
    maker.line(&[])?;
    maker.start()?;
    for bank in [1, 0] {
        maker.write(0x4F, bank)?;
        for _ in 0..5 {
            maker.vram()?;
            maker.oam()?;
        }
    }
    // The palettes of colour mode are black at the start.
    for low in [0x69, 0x6B] {
        for _ in 0..40 {
            let value = maker.random.byte();
            maker.write(low, value)?;
        }
    }
    maker.lcdc(0x80)?;
    while maker.left > 0 {
        match maker.random.below(24) {
            0 => maker.line(&[])?,
            1..=4 => maker.vram()?,
            5..=7 => maker.oam()?,
            8..=13 => maker.register()?,
            14 => maker.lcdc(0x80)?,
            15 => maker.off_and_on()?,
            16 => maker.colour()?,
            17 => maker.corrupt()?,
            _ => maker.steps()?,
        }
    }
    maker.out.flush()
}
