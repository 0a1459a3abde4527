//! The test oracle: the given picture unit behind two lists of requests, the input of a program and captures, and the makers
//! of these.

#![allow(dead_code, unused_macros)]

use std::io::{self, BufReader, BufWriter, Read, Write};

#[macro_use]
mod surroundings;
pub use surroundings::{memory, GameBoyConfig};

mod captures;
mod cases;
mod check;
mod leaves;
mod leaves_check;
mod leaves_lists;
mod list;
mod machine;
mod machine_lists;
mod missing;
mod ppu;
mod sprite_lists;
mod sweep;
mod sweep_check;

const USAGE: &str = "usage: oracle COMMAND
  leaves-answer             answers (8 bytes each) to the requests on standard input
  leaves-exhaustive         every input of the small parts
  leaves-random SEED COUNT  COUNT random requests
  leaves-sample             a short list of the sharpest inputs
  leaves-cases-list         the requests of the named cases of the small parts
  leaves-unknown            every unknown op, and places off the screen
  leaves-check [KIND]       counts over the requests on standard input; ends with 1 if one is
                            missing that a list of that KIND (cases, unknown, else any) must hold
  machine-answer            answers (16 bytes each) to the requests on standard input
  machine-random SEED COUNT COUNT random calls
  machine-sweep SEED STRIDE a write at every cycle, every STRIDE-th case
  machine-sample            at most 42,000 calls with the sharpest cases
  machine-cases             the named cases as text, checked; ends with 1 if a figure differs
  machine-cases-list        the calls of the named cases
  machine-writes            every address of VRAM, OAM and registers, every value of a register
  machine-locks             locked calls at every address of VRAM and OAM, in every mode
  machine-unknown           every unknown op, and every slot over 9
  torn-picture              the picture of the named case of that name, as a PPM file
  machine-check [KIND]      counts over the requests on standard input; ends with 1 if a state is
                            not in order, or if one is missing that a list of that KIND (random,
                            sweep, cases, sample, writes, locks, unknown) must hold
  sprite-lists              the answer to the input of the program sprite_lists on standard input
  sprite-lists-random SEED COUNT
                            a random input of it with COUNT edits
  sprite-lists-sample       such an input with 600 edits
  capture FILE FOLDER       draws the capture FILE: FOLDER/NNNNN.ppm for each picture, and the lines
                            of the program bench; ends with 1 if a line is wrong or refused
  capture-random SEED COUNT a random capture of COUNT lines
A list or an answer that cannot be written ends the oracle with 2.";

/// Standard output. What cannot be written ends the oracle at once: a maker that went on would only be slow.
struct Output<'a>(io::StdoutLock<'a>);

fn written<T>(result: io::Result<T>) -> io::Result<T> {
    if let Err(error) = &result {
        if error.kind() != io::ErrorKind::Interrupted {
            eprintln!("oracle: standard output cannot be written: {}", error);
            std::process::exit(2)
        }
    }
    result
}

impl Write for Output<'_> {
    fn write(&mut self, bytes: &[u8]) -> io::Result<usize> {
        written(self.0.write(bytes))
    }

    fn flush(&mut self) -> io::Result<()> {
        written(self.0.flush())
    }
}

/// Reads requests of eight bytes and hands them to `answer`, which writes.
fn answer_all<F>(mut answer: F) -> io::Result<()>
where
    F: FnMut([u8; 8], &mut dyn Write) -> io::Result<()>,
{
    let mut input = BufReader::with_capacity(1 << 16, io::stdin());
    let stdout = io::stdout();
    let mut output = BufWriter::with_capacity(1 << 16, Output(stdout.lock()));
    let mut chunk = vec![0; 1 << 16];
    let mut filled = 0;
    loop {
        let read = input.read(&mut chunk[filled..])?;
        if read == 0 {
            break;
        }
        filled += read;
        let whole = filled / 8 * 8;
        for request in chunk[..whole].chunks_exact(8) {
            let mut bytes = [0; 8];
            bytes.copy_from_slice(request);
            answer(bytes, &mut output)?;
        }
        chunk.copy_within(whole..filled, 0);
        filled -= whole;
    }
    output.flush()?;
    if filled != 0 {
        return Err(io::Error::new(
            io::ErrorKind::UnexpectedEof,
            "the requests are not a multiple of 8 bytes",
        ));
    }
    Ok(())
}

/// Reads requests of eight bytes and only takes them.
fn take_all<F: FnMut([u8; 8])>(mut take: F) -> io::Result<()> {
    answer_all(|request, _| {
        take(request);
        Ok(())
    })
}

fn number(word: Option<&String>) -> u64 {
    match word.and_then(|word| word.parse().ok()) {
        Some(value) => value,
        None => {
            eprintln!("{}", USAGE);
            std::process::exit(2)
        }
    }
}

fn run(words: &[String]) -> io::Result<i32> {
    let command = words.get(1).map(String::as_str).unwrap_or("");
    let stdout = io::stdout();
    let output = || BufWriter::with_capacity(1 << 16, Output(stdout.lock()));
    let kind = words.get(2).map(String::as_str).unwrap_or("");
    match command {
        "leaves-answer" => {
            let mut leaves = leaves::Leaves::new();
            answer_all(|request, out| out.write_all(&leaves.answer(request)))?;
        }
        "leaves-exhaustive" => leaves_lists::exhaustive(&mut output())?,
        "leaves-random" => {
            leaves_lists::random(&mut output(), number(words.get(2)), number(words.get(3)))?
        }
        "leaves-sample" => leaves_lists::sample(&mut output())?,
        "leaves-cases-list" => cases::leaves_list(&mut output())?,
        "leaves-unknown" => leaves_lists::unknown(&mut output())?,
        "leaves-check" if leaves_check::KINDS.contains(&kind) => {
            let mut check = leaves_check::LeavesCheck::new();
            take_all(|request| check.take(request))?;
            return check.print(kind, &mut output());
        }
        "machine-answer" => {
            let mut machine = machine::Machine::new();
            answer_all(|request, out| out.write_all(&machine.answer(request)))?;
        }
        "machine-random" => {
            machine_lists::random(&mut output(), number(words.get(2)), number(words.get(3)))?
        }
        "machine-sweep" => sweep::list(&mut output(), number(words.get(2)), number(words.get(3)))?,
        "machine-sample" => machine_lists::sample(&mut output())?,
        "machine-cases" => return cases::print(&mut output()),
        "machine-cases-list" => cases::list(&mut output())?,
        "machine-writes" => machine_lists::writes(&mut output())?,
        "machine-locks" => machine_lists::locks(&mut output())?,
        "machine-unknown" => machine_lists::unknown(&mut output())?,
        "torn-picture" => cases::torn_picture(&mut output())?,
        "machine-check" if check::KINDS.contains(&kind) => {
            let mut check = check::Check::default();
            take_all(|request| check.take(request))?;
            return check.print(kind, &mut output());
        }
        "sprite-lists" => sprite_lists::answer(io::stdin(), &mut output())?,
        "sprite-lists-random" => {
            sprite_lists::random(&mut output(), number(words.get(2)), number(words.get(3)))?
        }
        "sprite-lists-sample" => sprite_lists::sample(&mut output())?,
        "capture" if words.len() == 4 => return captures::draw(&words[2], &words[3], &mut output()),
        "capture-random" => {
            captures::random(&mut output(), number(words.get(2)), number(words.get(3)))?
        }
        _ => {
            eprintln!("{}", USAGE);
            return Ok(2);
        }
    }
    Ok(0)
}

fn main() {
    let words: Vec<String> = std::env::args().collect();
    match run(&words) {
        Ok(code) => std::process::exit(code),
        Err(error) => {
            eprintln!("oracle: {}", error);
            std::process::exit(2)
        }
    }
}
