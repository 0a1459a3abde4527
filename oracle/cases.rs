//! The named cases of document 01, with its figures checked against the machine, and those of docs/DIFFERENCES.md.

use crate::captures::write_ppm;
use crate::leaves::Leaves;
use crate::list::{request, List};
use crate::machine::{corrupt, CORRUPTIONS};
use crate::machine::{LOCKED_OAM_READ, LOCKED_OAM_WRITE, LOCKED_VRAM_READ, LOCKED_VRAM_WRITE};
use crate::machine_lists::Run;
use crate::memory::{InterruptManager, InterruptType};
use crate::ppu::parts::LCD_WIDTH;
use crate::ppu::Ppu;
use crate::surroundings::warnings;
use crate::GameBoyConfig;
use std::io::{self, Write};
use std::ops::{Deref, DerefMut};
use std::panic::{self, AssertUnwindSafe};

/// A name, what the document says, what came out.
struct Case {
    name: String,
    said: String,
    found: String,
}

fn case(name: &str, said: impl ToString, found: impl ToString) -> Case {
    Case {
        name: name.to_string(),
        said: said.to_string(),
        found: found.to_string(),
    }
}

/// A case where Pan Docs has another answer: both stand in it, and they must not be the same.
fn parting(name: &str, said: impl ToString, pan_docs: impl ToString, found: impl ToString) -> Case {
    let (said, pan_docs) = (said.to_string(), pan_docs.to_string());
    let differ = if said == pan_docs { ", which is no difference" } else { "" };
    Case {
        name: format!("Pan Docs, {}", name),
        said: format!("{} (Pan Docs: {}){}", said, pan_docs, differ),
        found: format!("{} (Pan Docs: {})", found.to_string(), pan_docs),
    }
}

/// Device and mode: (DMG, colour, name).
const DEVICES: [(u8, u8, &str); 3] = [
    (1, 0, "DMG"),
    (0, 0, "not DMG, outside colour mode"),
    (0, 1, "colour mode"),
];

const ON: u8 = 0x91;
const ON_WINDOW: u8 = 0xB1;
const ON_SPRITES: u8 = 0x93;

/// From a fresh start to line 0, cycle 0, in steps of 4.
const TO_LINE_0: u32 = 14;
/// A frame in steps of 4.
const FRAME: u32 = 17_556;
/// A line in steps of 2.
const LINE: u32 = 228;

/// A run, and the named cases that it has ended.
struct Named<'r, 'a> {
    run: &'r mut Run<'a>,
    cases: Vec<Case>,
}

impl<'r, 'a> Named<'r, 'a> {
    fn new(run: &'r mut Run<'a>) -> Self {
        Named {
            run,
            cases: Vec::new(),
        }
    }

    /// Ends a case. Its list ends with the digests of the state and of what is stored, so that a program which answers
    /// the list is held to all that the case left behind.
    fn end(&mut self, case: Case) {
        self.run.digests();
        self.cases.push(case);
    }
}

impl<'a> Deref for Named<'_, 'a> {
    type Target = Run<'a>;

    fn deref(&self) -> &Run<'a> {
        self.run
    }
}

impl<'a> DerefMut for Named<'_, 'a> {
    fn deref_mut(&mut self) -> &mut Run<'a> {
        self.run
    }
}

fn line_and_x(run: &mut Run) -> (u8, u8) {
    let look = run.call(&[15]);
    (look[1], look[4])
}

/// Steps of 4 until line 0 has ended mode 3; the mode 3 end.
fn mode_3_end(run: &mut Run, device: (u8, u8, &str), writes: &[(u8, u8)]) -> u16 {
    run.call(&[1, device.0, device.1]);
    for &(low, value) in writes {
        run.register(low, value);
    }
    let mut mode = 0;
    for _ in 0..TO_LINE_0 + 114 {
        let before = mode;
        mode = run.step(4)[2];
        if before == 3 && mode == 0 {
            let look = run.call(&[15]);
            return u16::from_le_bytes([look[6], look[7]]);
        }
    }
    0
}

fn place(run: &Run, other: usize, x: usize, y: usize) -> [u8; 3] {
    let first = (y * LCD_WIDTH + x) * 3;
    let bytes = &run.machine.ppu.look_lcd().look_picture(other)[first..first + 3];
    [bytes[0], bytes[1], bytes[2]]
}

/// Steps of 4.
fn steps(run: &mut Run, count: u32) {
    for _ in 0..count {
        run.step(4);
    }
}

/// Solid tile 1 and one sprite with it.
fn sprite_scene(run: &mut Run, y: u8, x: u8) {
    for k in 0..16 {
        run.vram(0x8010 + k, 0xFF);
    }
    for (k, &byte) in [y, x, 1, 0].iter().enumerate() {
        run.oam(k as u8, byte);
    }
    run.register(0x40, ON_SPRITES);
}

/// The cases that take a few lines of steps.
fn short_cases(run: &mut Named) {
    for device in DEVICES {
        let rows: [(&str, &[(u8, u8)], u16); 4] = [
            ("SCX 0, no window", &[], 252),
            ("SCX 7, no window", &[(0x43, 7)], 260),
            ("window, SCX 0, WX 87", &[(0x4B, 87), (0x40, ON_WINDOW)], 260),
            ("window, SCX 0, WX 88", &[(0x4B, 88), (0x40, ON_WINDOW)], 268),
        ];
        for (name, writes, said) in rows {
            let found = mode_3_end(run, device, writes);
            run.end(case(&format!("mode 3 end: {}, {}", name, device.2), said, found));
        }
    }

    // A blanking leaves LCD x, and sets line 0, cycle 4, mode 0, both pictures 255.
    run.call(&[1, 1, 0]);
    steps(run, TO_LINE_0 + 40);
    let before = line_and_x(run).1;
    run.register(0x40, ON & 0x7F);
    let look = run.call(&[15]);
    run.end(case(
        "blanking at line 0, cycle 160: line, cycle, LCD x, mode",
        format!("0 4 {} 0, x not 0", before),
        format!(
            "{} {} {} {}, x {}",
            look[1],
            look[2],
            look[4],
            look[5],
            if look[4] == 0 { "0" } else { "not 0" }
        ),
    ));
    let off = run.step(4);
    let refused = run.step(3);
    let look_off = run.call(&[15]);
    run.end(case(
        "a step of 4 and a step of 3 while off: numbers, and nothing changes",
        "0 3 true",
        format!("{} {} {}", off[0], refused[0], look == look_off),
    ));

    // The line after turning on draws the old selection.
    run.call(&[1, 1, 0]);
    sprite_scene(run, 16, 8);
    steps(run, TO_LINE_0 + 3);
    run.register(0x40, ON_SPRITES & 0x7F);
    run.oam(0, 0);
    for (k, byte) in [(4, 16), (5, 24), (6, 1), (7, 0)] {
        run.oam(k, byte);
    }
    run.register(0x40, ON_SPRITES);
    steps(run, 113);
    run.end(case(
        "line 0 after turning on: place 0 by the old selection, place 16 without the new one",
        "[0, 0, 0] [240, 240, 240]",
        format!("{:?} {:?}", place(run, 1, 0, 0), place(run, 1, 16, 0)),
    ));

    // A line that does not end.
    run.call(&[1, 1, 0]);
    for _ in 0..2 * 114 {
        if line_and_x(run).1 == 1 {
            break;
        }
        run.step(4);
    }
    run.register(0x40, ON & 0x7F);
    run.register(0x43, 1);
    run.register(0x4B, 8);
    run.register(0x4A, 0);
    run.register(0x40, ON_WINDOW);
    steps(run, 113);
    let (line, x) = line_and_x(run);
    run.end(case(
        "blanked at LCD x 1, then SCX 1, WX 8, WY 0, window on: line and LCD x at the line's end",
        "1 107",
        format!("{} {}", line, x),
    ));
    steps(run, 114);
    let (line, x) = line_and_x(run);
    run.end(case(
        "the line after it ends: line and LCD x",
        "2 0",
        format!("{} {}", line, x),
    ));

    // Fresh STAT: no coincidence. A step while off shows it.
    run.call(&[1, 0, 1]);
    run.digests();
    run.register(0x40, 0);
    let answer = run.step(2);
    run.end(case("start, LCDC 0, step 2: coincidence", 0, answer[3]));

    // P7, through the picture: rows of one line with a telling pattern 0 1 2 3 3 2 1 3.
    for (x, said) in [(3, "[2, 1, 3, 0, 0]"), (0, "[0, 0, 0, 0, 0]")] {
        run.call(&[1, 1, 0]);
        sprite_scene(run, 16, x);
        run.vram(0x8010, 0b0101_1011);
        run.vram(0x8011, 0b0011_1101);
        run.register(0x48, 0xE4);
        steps(run, TO_LINE_0 + 24);
        run.call(&[12]);
        steps(run, 90);
        let mut colours = Vec::new();
        for x in 0..5 {
            let shade = place(run, 1, x, 0)[0];
            colours.push([240, 168, 80, 0].iter().position(|&s| s == shade).unwrap_or(9));
        }
        run.end(case(&format!("P7: sprite x {}", x), said, format!("{:?}", colours)));
    }

    // Ten sprites of eleven on one line; the digest shows which.
    run.call(&[1, 0, 1]);
    for entry in 0..11 {
        run.oam(4 * entry, 16);
    }
    steps(run, TO_LINE_0 + 2);
    run.digests();

    // STAT bit 5 on lines 0 and 1, on both devices, in steps of 4 and of 2.
    for device in DEVICES {
        for cycles in [4, 2] {
            run.call(&[1, device.0, device.1]);
            run.register(0x45, 99);
            run.register(0x41, 0x20);
            steps(run, TO_LINE_0);
            for _ in 0..12 / cycles {
                run.step(cycles);
                run.call(&[12]);
            }
            run.digests();
        }
    }

    // A blanking keeps the sprite queue, and discards pop it.
    run.call(&[1, 1, 0]);
    sprite_scene(run, 16, 8);
    steps(run, TO_LINE_0 + 24);
    let before = run.machine.ppu.look_queues();
    run.register(0x40, ON_SPRITES & 0x7F);
    run.call(&[12]);
    run.register(0x43, 3);
    run.register(0x40, ON_SPRITES);
    steps(run, 20);
    let after = run.machine.ppu.look_queues();
    run.end(case(
        "blanked with sprite pixels queued, SCX 3, on, one step of mode 3: queues before and after",
        "(false, 15, 7) (false, 11, 3)",
        format!("{:?} {:?}", before, after),
    ));

    // LCDC bit 0 cleared in mid line outside colour mode: a queued background pixel that is
    // not 0 still hides a sprite behind it.
    run.call(&[1, 1, 0]);
    sprite_scene(run, 16, 10);
    run.oam(3, 0x80);
    for k in 0..8 {
        run.vram(0x8000 + 2 * k, 0xFF);
    }
    run.register(0x47, 0xE4);
    steps(run, TO_LINE_0 + 24);
    run.register(0x40, ON_SPRITES & 0xFE);
    steps(run, 90);
    run.end(case(
        "LCDC bit 0 cleared behind place 0: places 2, 7, 8, 16",
        "[168, 168, 168] [168, 168, 168] [168, 168, 168] [240, 240, 240]",
        format!(
            "{:?} {:?} {:?} {:?}",
            place(run, 1, 2, 0),
            place(run, 1, 7, 0),
            place(run, 1, 8, 0),
            place(run, 1, 16, 0)
        ),
    ));

    // Selected at height 16, drawn at height 8: row 8 is the next tile's row 0; flipped, row 7.
    for (flags, said) in [(0, "[240, 240, 240]"), (0x40, "[0, 0, 0]")] {
        run.call(&[1, 1, 0]);
        sprite_scene(run, 8, 8);
        run.oam(3, flags);
        run.register(0x40, ON_SPRITES | 4);
        steps(run, TO_LINE_0 + 2);
        run.register(0x40, ON_SPRITES);
        steps(run, 30);
        run.end(case(
            &format!("sprite of height 16 drawn at 8, flags {:02X}: place 0", flags),
            said,
            format!("{:?}", place(run, 1, 0, 0)),
        ));
    }

    // P9: STAT 03, write FF.
    run.call(&[1, 1, 0]);
    run.register(0x45, 99);
    steps(run, TO_LINE_0 + 21);
    let before = run.machine.ppu.look_stat();
    run.register(0x41, 0xFF);
    let after = run.machine.ppu.look_stat();
    run.end(case(
        "P9: STAT before and after",
        "03 7B",
        format!("{:02X} {:02X}", before, after),
    ));

    // P11, in row 1: mode 2, cycle 8.
    for (kind, said) in [(0, "033F"), (1, "0F3F")] {
        run.call(&[1, 1, 0]);
        for (address, byte) in [(0, 0x0F), (1, 0x0F), (4, 0x33), (5, 0x33), (8, 0xFF), (9, 0)] {
            run.oam(address, byte);
        }
        steps(run, TO_LINE_0 + 2);
        run.oam_bug(kind);
        let oam = run.machine.ppu.look_oam();
        let found = u16::from_le_bytes([oam[8], oam[9]]);
        let name = format!("P11: {}", CORRUPTIONS[kind as usize]);
        run.end(case(&name, said, format!("{:04X}", found)));
    }

    // The kinds of corruption in the rows where their rules change.
    run.call(&[1, 0, 1]);
    steps(run, TO_LINE_0 + 1);
    for row in 1..20u8 {
        run.step(4);
        if ![1, 3, 4, 18, 19].contains(&row) {
            continue;
        }
        for kind in [2, 0, 1] {
            for address in 8 * row.saturating_sub(2)..8 * row + 8 {
                run.oam(address, address.wrapping_mul(167) ^ (address >> 3) ^ kind);
            }
            run.oam_bug(kind);
            run.call(&[11]);
        }
    }
    run.digests();

    // The edges of refusal 5: mode 2 at cycle 2, 4, 80; a kind over 2 is refused by 4 at any moment.
    run.call(&[1, 0, 1]);
    steps(run, TO_LINE_0);
    let (mut numbers, mut no_kind) = (Vec::new(), Vec::new());
    for cycle in 1..42 {
        run.step(2);
        if [2, 4, 80, 82].contains(&(2 * cycle)) {
            let mode = run.machine.ppu.get_current_mode();
            numbers.push((2 * cycle, mode, run.oam_bug(2)));
            no_kind.push((2 * cycle, mode, run.oam_bug(3), run.oam_bug(255)));
        }
    }
    run.end(case(
        "corruption on line 0: cycle, mode, number",
        "[(2, 2, 5), (4, 2, 0), (80, 2, 0), (82, 3, 0)]",
        format!("{:?}", numbers),
    ));
    run.end(case(
        "corruption of kinds 3 and 255 on line 0: cycle, mode, numbers",
        "[(2, 2, 4, 4), (4, 2, 4, 4), (80, 2, 4, 4), (82, 3, 4, 4)]",
        format!("{:?}", no_kind),
    ));
}

/// Fresh to the first swap and to the first whole picture.
fn frame_case(run: &mut Named, device: (u8, u8, &str)) {
    run.call(&[1, device.0, device.1]);
    let mut found = Vec::new();
    for step in 1..=TO_LINE_0 + FRAME {
        let answer = run.step(4);
        if answer[5] != 0 {
            let count = u16::from_le_bytes([answer[8], answer[9]]);
            found.push((step, answer[6], count));
        }
    }
    run.end(case(
        &format!("swaps from a fresh start: step of 4, mark, count; {}", device.2),
        format!("{:?}", [(TO_LINE_0, 0, 0), (TO_LINE_0 + FRAME, 1, 23_040)]),
        format!("{:?}", found),
    ));
}

/// Switching off and on again and again, the fetch column grows while LCD x stays, and wraps.
fn column_case(run: &mut Named) {
    run.call(&[1, 0, 1]);
    for k in 0..0x400u16 {
        run.vram(0x9800 + k, (k ^ k >> 5) as u8);
        run.vram(0x8000 + 16 * (k & 255), k as u8);
    }
    run.register(0x40, ON_WINDOW);
    run.register(0x4B, 7);
    run.register(0x43, 7);
    steps(run, TO_LINE_0 + 24);
    let start = (run.machine.ppu.look_lcd().x(), run.machine.ppu.look_fetch_column());
    // Four draws, off, eight draws with one fetch, off.
    for _ in 0..255 {
        for count in [20, 21] {
            run.register(0x40, ON_WINDOW & 0x7F);
            run.register(0x40, ON_WINDOW);
            steps(run, count);
        }
        run.call(&[12]);
    }
    let end = (run.machine.ppu.look_lcd().x(), run.machine.ppu.look_fetch_column());
    run.end(case(
        "255 fetches by switching off and on: LCD x unmoved, fetch column 255 more modulo 256",
        format!("{:?}", (start.0, start.1.wrapping_add(255))),
        format!("{:?}", end),
    ));
}

/// The display off and on again.
fn off_and_on(run: &mut Run) {
    run.register(0x40, ON & 0x7F);
    run.register(0x40, ON);
}

/// Steps of 2 to column 100 of a line, or a line on; the column. With SCX 1 it is met, with SCX 0 it is 101.
fn to_column_100(run: &mut Run) -> u8 {
    for _ in 0..LINE {
        if line_and_x(run).1 >= 100 {
            break;
        }
        run.step(2);
    }
    line_and_x(run).1
}

/// Steps to the next swap: its mark and count. Without a swap in a frame the count is 0.
fn next_swap(run: &mut Run, cycles: u8) -> (u8, u16) {
    for _ in 0..FRAME * 4 / cycles as u32 {
        let answer = run.step(cycles);
        if answer[5] != 0 {
            return (answer[6], u16::from_le_bytes([answer[8], answer[9]]));
        }
    }
    (0, 0)
}

/// The torn picture: off and on at column 100 of line 0 of a dark picture. Line 0 of the next begins at column 100, white
/// before it, and its mark is no. Leaves the torn picture shown.
fn torn(run: &mut Run) -> (u8, u8, u16) {
    run.call(&[1, 1, 0]);
    for k in 0..16 {
        run.vram(0x8000 + k, 0xFF);
    }
    run.register(0x43, 1);
    steps(run, TO_LINE_0);
    let x = to_column_100(run);
    off_and_on(run);
    let (mark, count) = next_swap(run, 2);
    (x, mark, count)
}

/// The columns of a line of the shown picture that are white.
fn white(run: &Run, y: usize) -> Vec<usize> {
    (0..LCD_WIDTH).filter(|&x| place(run, 0, x, y) == [255; 3]).collect()
}

fn torn_case(run: &mut Named) {
    let figures = torn(run);
    let below = (1..144).map(|y| white(run, y).len()).sum::<usize>();
    run.end(case("torn picture: column of the switch-off, mark, count", "(100, 0, 22940)", format!("{:?}", figures)));
    run.end(case(
        "torn picture: line 0 is white in columns 0 to 99 and nowhere else, and no line below is",
        "true 0",
        format!("{} {}", white(run, 0).into_iter().eq(0..100), below),
    ));
    let next = next_swap(run, 4);
    run.end(case("the picture after the torn one: mark, count", "(1, 23040)", format!("{:?}", next)));
}

/// Whole, but unseen: the first picture after a blanking at LCD x 0, whatever came before that blanking.
fn unseen_cases(run: &mut Named) {
    run.call(&[1, 0, 1]);
    off_and_on(run);
    let pictures = [next_swap(run, 4), next_swap(run, 4)];
    run.end(case(
        "off and on below the picture: marks and counts of the next two pictures",
        "[(2, 23040), (1, 23040)]",
        format!("{:?}", pictures),
    ));

    // Line 0 is drawn at cycle 300, and LCD x is 0 again.
    let column: (&str, fn(&mut Run)) = ("at column 100", |run| assert_eq!(to_column_100(run), 100));
    let behind: (&str, fn(&mut Run)) = ("behind the line", |run| steps(run, 75));
    for (first, then, said) in [(column, behind, "(2, 23040)"), (behind, column, "(0, 22940)")] {
        run.call(&[1, 1, 0]);
        run.register(0x43, 1);
        steps(run, TO_LINE_0);
        for (_, go) in [first, then] {
            go(run);
            off_and_on(run);
        }
        let picture = next_swap(run, 4);
        let name = format!("off and on {}, then {}: mark and count of the next picture", first.0, then.0);
        run.end(case(&name, said, format!("{:?}", picture)));
    }
    run.register(0x40, ON & 0x7F);
    run.digests();
    run.call(&[1, 1, 0]);
    let blanked = run.machine.blanked;
    run.end(case("a start of a display that is off: blanked", false, blanked));
}

/// The torn picture as a PPM file.
pub fn torn_picture(out: &mut dyn Write) -> io::Result<()> {
    let mut sink = io::sink();
    let mut run = Run::new(&mut sink, u64::MAX, 0, 0);
    torn(&mut run);
    write_ppm(out, run.machine.ppu.look_lcd().look_picture(0))
}

/// The published crate's requests go nowhere here.
struct Nobody;

impl InterruptManager for Nobody {
    fn request_interrupt(&mut self, _interrupt: InterruptType) {}
}

/// Whether the given text stops in a call; its words are kept from standard error.
fn stops(call: impl FnOnce()) -> bool {
    let hook = panic::take_hook();
    panic::set_hook(Box::new(|_| {}));
    let stopped = panic::catch_unwind(AssertUnwindSafe(call)).is_err();
    panic::set_hook(hook);
    stopped
}

/// Calls the given text of the run's machine itself, past the refusals. It must leave the machine as it was: the call
/// stands in no list.
fn past_refusals<T>(run: &mut Run, call: impl FnOnce(&mut Ppu) -> T) -> T {
    let digests = |run: &mut Run| [11, 12].map(|op| run.machine.answer(request(&[op])));
    let before = digests(run);
    let found = call(&mut run.machine.ppu);
    assert!(digests(run) == before, "a call past the refusals changed the machine of the run");
    found
}

/// What docs/DIFFERENCES.md says of the published crate: the unit's answer, and what the given text itself does where it
/// is called past the oracle's refusals.
fn published_cases(run: &mut Named) {
    let dmg = GameBoyConfig { is_dmg: true };
    let colour = GameBoyConfig { is_dmg: false };

    run.call(&[1, 0, 1]);
    run.end(case(
        "published, STAT at the start: here; published",
        "01; 05",
        format!(
            "{:02X}; {:02X}",
            run.machine.ppu.look_stat(),
            Ppu::new_skip_boot_rom(true, colour).look_stat()
        ),
    ));

    run.call(&[1, 0, 1]);
    let three = run.step(3)[0];
    run.step(2);
    let four = run.step(4)[0];
    let mut free = Ppu::new_skip_boot_rom(true, colour);
    free.clock(&mut Nobody, 3);
    run.end(case(
        "published, a step of 3, and a step of 4 at cycle 402: numbers; published: the cycle after a step of 3",
        "3 3; 403",
        format!("{} {}; {}", three, four, free.look_cycle()),
    ));

    let number = run.call(&[6, 0xA0, 0xFE, 0])[0];
    let stopped = stops(|| Ppu::new_skip_boot_rom(true, colour).write_oam_no_lock(0xFEA0, 0));
    run.end(case(
        "published, an OAM write at FEA0: number; published stops",
        "4; true",
        format!("{}; {}", number, stopped),
    ));

    // The given text stops before it writes, so OAM stays as it was.
    run.call(&[1, 0, 1]);
    steps(run, TO_LINE_0);
    run.step(2);
    let numbers = [0, 1, 2].map(|kind| run.oam_bug(kind));
    let stopped = past_refusals(run, |ppu| [0, 1, 2].map(|kind| stops(|| corrupt(ppu, kind))));
    run.end(case(
        "published, a corruption in mode 2 at cycle 2: numbers; published stops",
        "[5, 5, 5]; [true, true, true]",
        format!("{:?}; {:?}", numbers, stopped),
    ));

    // Discard 1 is left over at LCD x 1, where the window is entered.
    run.call(&[1, 1, 0]);
    steps(run, TO_LINE_0 + 24);
    run.register(0x40, ON & 0x7F);
    run.register(0x43, 1);
    run.register(0x4B, 8);
    run.register(0x40, ON_WINDOW);
    steps(run, 19);
    let before = line_and_x(run).1;
    steps(run, 1);
    run.end(case(
        "published, 7 - WX passes a byte: LCD x before the step, WX, discard after it",
        format!("1 8 {}", (256 + 7 - 8) % 256),
        format!("{} 8 {}", before, run.machine.ppu.look_discard()),
    ));

    // Line 0 ends in the window, off, on, and again: the window row counts on.
    run.call(&[1, 1, 0]);
    run.register(0x4B, 7);
    run.register(0x40, ON_WINDOW);
    steps(run, TO_LINE_0 + 64);
    let mut rows = vec![run.machine.ppu.look_window_row()];
    for line in 2..=256 {
        run.register(0x40, ON_WINDOW & 0x7F);
        run.register(0x40, ON_WINDOW);
        steps(run, 63);
        if line >= 255 {
            rows.push(run.machine.ppu.look_window_row());
            run.digests();
        }
    }
    run.end(case(
        "published, the window row passes a byte: row after 1, 255 and 256 lines in the window",
        format!("{:?}", [1, 255, 256 % 256]),
        format!("{:?}", rows),
    ));

    // The warning belongs to lines below 144; a fresh start stands on line 153.
    let mut warned = Vec::new();
    for count in [0, TO_LINE_0] {
        run.call(&[1, 1, 0]);
        steps(run, count);
        let (line, before) = (line_and_x(run).0, warnings());
        run.register(0x40, ON & 0x7F);
        warned.push((line, warnings() - before));
        run.digests();
    }
    run.end(case(
        "published, the warning at a blanking: line, warnings printed by the published crate",
        "[(153, 0), (0, 1)]",
        format!("{:?}", warned),
    ));

    // A write to FF44 and the readers that 01 leaves out.
    run.call(&[1, 1, 0]);
    run.call(&[12]);
    let written = run.call(&[3, 0x44, 0xFF, 99])[0];
    run.call(&[12]);
    let cut = [0x40, 0x41, 0x42, 0x43, 0x44, 0x45, 0x47, 0x48, 0x49, 0x4A, 0x4B, 0x4F, 0x6C];
    let refused = cut.iter().filter(|&&low| run.call(&[4, low, 0xFF])[0] == 4).count();
    let mut free = Ppu::new_skip_boot_rom(false, dmg);
    free.write_ly(99);
    run.end(case(
        "published, write_ly and the readers of 13 registers: numbers; published: LY after it, LCDC, STAT, VBK, FF6C",
        "4, 13 refused by 4; 0 91 85 FE FF",
        format!(
            "{}, {} refused by 4; {} {:02X} {:02X} {:02X} {:02X}",
            written,
            refused,
            free.read_ly(),
            free.read_lcd_control(),
            free.read_lcd_status(),
            free.read_vram_bank(),
            free.read_sprite_priority_mode()
        ),
    ));

    // Mode 2: the published crate's locked entries, beside the one that 01 takes.
    run.call(&[1, 1, 0]);
    steps(run, TO_LINE_0 + 2);
    let number = run.call(&[6, 0, 0xFE, 0x12])[0];
    let byte = run.machine.ppu.look_oam()[0];
    past_refusals(run, |ppu| ppu.write_oam(0xFE00, 0x34));
    run.end(case(
        "published, an OAM write in mode 2: number, byte; published: byte after a locked write, byte read",
        "0 12; 12 FF",
        format!(
            "{} {:02X}; {:02X} {:02X}",
            number,
            byte,
            run.machine.ppu.look_oam()[0],
            run.machine.ppu.read_oam(0xFE00)
        ),
    ));

    // Calls that have no counterpart here.
    let new = Ppu::new(dmg);
    run.end(case(
        "published, Ppu::new: LCDC, STAT, line, cycle",
        "00 04 0 4",
        format!(
            "{:02X} {:02X} {} {}",
            new.read_lcd_control(),
            new.look_stat(),
            new.look_line(),
            new.look_cycle()
        ),
    ));
    let stopped = [dmg, colour].map(|config| {
        let mut ppu = Ppu::new_skip_boot_rom(!config.is_dmg, config);
        ppu.write_vram(0x8000, 0xFF);
        ppu.write_vram(0x8001, 0xFF);
        for _ in 0..TO_LINE_0 + 70 {
            ppu.clock(&mut Nobody, 4);
        }
        ppu.enter_stop_mode();
        let (shown, other) = (ppu.look_lcd().look_picture(0), ppu.look_lcd().look_picture(1));
        [shown[0], other[0], other[other.len() - 1]]
    });
    run.end(case(
        "published, enter_stop_mode behind a dark line 0: first byte shown, first and last byte of the other; DMG, not DMG",
        "[[255, 255, 255], [0, 0, 255]]",
        format!("{:?}", stopped),
    ));
}

/// The first bytes of places of a line of the picture not shown; outside colour mode 240, 168, 80, 0, white to black.
fn shades(run: &Run, y: usize, columns: &[usize]) -> Vec<u8> {
    columns.iter().map(|&x| place(run, 1, x, y)[0]).collect()
}

/// The mode 3 end, in steps of 2, of a line 0 with so many dots of mode 3.
fn end_after(dots: u16) -> u16 {
    80 + (dots - 1) / 2 * 2
}

/// On DMG: calls, then line 0 in steps of 2 to the end of mode 3; that end, 0 if a line of steps does not reach it.
fn end_in_twos(run: &mut Run, calls: impl Fn(&mut Run)) -> u16 {
    run.call(&[1, 1, 0]);
    calls(run);
    steps(run, TO_LINE_0 + 20);
    run.step(2);
    for _ in 0..LINE {
        if run.step(2)[2] != 3 {
            break;
        }
    }
    let look = run.call(&[15]);
    run.digests();
    u16::from_le_bytes([look[6], look[7]])
}

/// What docs/DIFFERENCES.md says of Pan Docs, in its order: each with the Rust's answer and the other.
fn pan_docs_cases(run: &mut Named) {
    // WY becomes 0 behind the start of mode 2 of line 0; the window map has a dark tile.
    run.call(&[1, 1, 0]);
    for (address, byte) in [(0x8010, 0xFF), (0x8011, 0xFF), (0x9C00, 1)] {
        run.vram(address, byte);
    }
    run.register(0x4B, 7);
    run.register(0x4A, 1);
    run.register(0x40, 0xF1);
    steps(run, TO_LINE_0 + 2);
    run.register(0x4A, 0);
    steps(run, 22);
    run.end(parting(
        "WY 0 written in mode 2 of line 0: place 0",
        "[0]",
        "[240]",
        format!("{:?}", shades(run, 0, &[0])),
    ));

    // On DMG: the attribute in bank 1 asks for bank 1, where tile 0 is dark.
    run.call(&[1, 1, 0]);
    run.register(0x4F, 1);
    for (address, byte) in [(0x9800, 8), (0x8000, 0xFF), (0x8001, 0xFF)] {
        run.vram(address, byte);
    }
    steps(run, TO_LINE_0 + 24);
    run.end(parting(
        "a tile attribute on DMG: place 0",
        "[0]",
        "[240]",
        format!("{:?}", shades(run, 0, &[0])),
    ));

    // A dark sprite in columns 4 to 11, the window from column 8 on, seen and not seen.
    for (control, name) in [
        (0xB3, "a sprite where the window starts"),
        (0xB2, "a sprite where a window starts that nobody sees"),
    ] {
        run.call(&[1, 1, 0]);
        sprite_scene(run, 16, 12);
        run.register(0x4B, 15);
        run.register(0x40, control);
        steps(run, TO_LINE_0 + 32);
        run.end(parting(
            &format!("{}: places 4, 7, 8, 11", name),
            "[0, 0, 240, 240]",
            "[0, 0, 0, 0]",
            format!("{:?}", shades(run, 0, &[4, 7, 8, 11])),
        ));
    }

    // Line 0 with LCDC bit 0 clear, line 1 with it set: the window's tile is dark in its row 1.
    run.call(&[1, 1, 0]);
    for (address, byte) in [(0x8012, 0xFF), (0x8013, 0xFF), (0x9C00, 1)] {
        run.vram(address, byte);
    }
    run.register(0x4B, 7);
    run.register(0x40, 0xF0);
    steps(run, TO_LINE_0 + 114);
    run.register(0x40, 0xF1);
    steps(run, 24);
    run.end(parting(
        "the window row behind a line with LCDC bit 0 clear: place 0 of line 1",
        "[0]",
        "[240]",
        format!("{:?}", shades(run, 1, &[0])),
    ));

    run.call(&[1, 1, 0]);
    run.register(0x47, 3);
    run.register(0x40, 0x90);
    steps(run, TO_LINE_0 + 24);
    run.end(parting(
        "LCDC bit 0 clear on DMG with BGP 03: place 0",
        "[0]",
        "[240]",
        format!("{:?}", shades(run, 0, &[0])),
    ));

    // Tile 1 is dark in bank 0 alone.
    run.call(&[1, 1, 0]);
    sprite_scene(run, 16, 8);
    run.oam(3, 8);
    steps(run, TO_LINE_0 + 24);
    run.end(parting(
        "OAM flag bit 3 on DMG: place 0",
        "[240]",
        "[0]",
        format!("{:?}", shades(run, 0, &[0])),
    ));

    // Entry 0 is black, entry 1 grey and one column further left.
    let mut found = Vec::new();
    for (x, column) in [(8, 0), (10, 2)] {
        run.call(&[1, 1, 0]);
        sprite_scene(run, 16, x);
        for (address, byte) in [(4, 16), (5, x - 1), (6, 1), (7, 0x10)] {
            run.oam(address, byte);
        }
        run.register(0x49, 0x55);
        steps(run, TO_LINE_0 + 25);
        run.digests();
        found.extend(shades(run, 0, &[column]));
    }
    run.end(parting(
        "sprites by coordinate: place 0 with x 8 before x 7, place 2 with x 10 before x 9",
        "[0, 168]",
        "[168, 168]",
        format!("{:?}", found),
    ));

    // In colour mode entry 0 is black, entry 1 red and one column further left.
    run.call(&[1, 0, 1]);
    sprite_scene(run, 16, 10);
    for (address, byte) in [(4, 16), (5, 9), (6, 1), (7, 1)] {
        run.oam(address, byte);
    }
    for (low, value) in [(0x6A, 0x8E), (0x6B, 0x1F), (0x6B, 0), (0x6C, 1)] {
        run.register(low, value);
    }
    steps(run, TO_LINE_0 + 25);
    run.end(parting(
        "FF6C 1 in colour mode: place 2 with x 10 before x 9",
        "[201]",
        "[0]",
        format!("{:?}", shades(run, 0, &[2])),
    ));

    // The window's first tile is dark.
    run.call(&[1, 1, 0]);
    for (address, byte) in [(0x8010, 0xFF), (0x8011, 0xFF), (0x8012, 0xFF), (0x8013, 0xFF), (0x9C00, 1)] {
        run.vram(address, byte);
    }
    run.register(0x4B, 166);
    run.register(0x40, 0xF1);
    steps(run, TO_LINE_0 + 2 * 114);
    run.end(parting(
        "WX 166: places 0, 158, 159 of line 1",
        "[240, 240, 0]",
        "[0, 240, 240]",
        format!("{:?}", shades(run, 1, &[0, 158, 159])),
    ));

    // Column 7 of the window's first tile is dark.
    let mut found = Vec::new();
    for scroll in [0, 3] {
        run.call(&[1, 1, 0]);
        for (address, byte) in [(0x8010, 1), (0x8011, 1), (0x9C00, 1)] {
            run.vram(address, byte);
        }
        run.register(0x4B, 0);
        run.register(0x43, scroll);
        run.register(0x40, 0xF1);
        steps(run, TO_LINE_0 + 26);
        run.digests();
        found.extend(shades(run, 0, &[0]));
    }
    run.end(parting(
        "WX 0: place 0 with SCX 0 and with SCX 3",
        "[0, 0]",
        "two that differ",
        format!("{:?}", found),
    ));

    // Mode 3: 175 dots and SCX modulo 8; with SCX 0 and the window 182 - WX, from WX 8 on 190 - (WX modulo 8); sprites
    // take none.
    let found = end_in_twos(run, |_| ());
    run.end(parting("the least mode 3: its end in steps of 2", end_after(175), end_after(172), found));
    let found = end_in_twos(run, |run| run.register(0x43, 7));
    run.end(parting("mode 3 with SCX 7: its end in steps of 2", end_after(175 + 7), end_after(172 + 7), found));
    let found = [0, 7, 8, 15].map(|x| {
        end_in_twos(run, |run| {
            run.register(0x4B, x);
            run.register(0x40, ON_WINDOW);
        })
    });
    run.end(parting(
        "mode 3 with the window at WX 0, 7, 8, 15: its end in steps of 2",
        format!("{:?}", [182, 182 - 7, 190, 190 - 7].map(end_after)),
        format!("{:?}", [172 + 6; 4].map(end_after)),
        format!("{:?}", found),
    ));
    let found = end_in_twos(run, |run| sprite_scene(run, 16, 8));
    run.end(parting(
        "mode 3 with a sprite: its end in steps of 2",
        end_after(175),
        format!("{} to {}", end_after(172 + 6), end_after(172 + 11)),
        found,
    ));

    // Row 0 of tile 0 has colour 1, row 1 colour 2; a row of both planes mixed would have 0 or 3.
    let mut mixed = 0;
    for half in 20..24 {
        run.call(&[1, 1, 0]);
        for (address, byte) in [(0x8000, 0xFF), (0x8003, 0xFF)] {
            run.vram(address, byte);
        }
        run.register(0x47, 0xE4);
        steps(run, TO_LINE_0 + 20);
        for _ in 0..half {
            run.step(2);
        }
        run.register(0x42, 1);
        for _ in half..80 {
            run.step(2);
        }
        run.digests();
        let columns: Vec<usize> = (0..80).collect();
        mixed += shades(run, 0, &columns).iter().filter(|&&shade| shade != 168 && shade != 80).count();
    }
    run.end(parting(
        "SCY written at cycles 120, 122, 124, 126: places of neither row",
        0,
        "8 or more, before CGB-D",
        mixed,
    ));

    // Entry 39 is on line 0 at height 16 alone, which comes behind cycle 4 and long before its turn.
    run.call(&[1, 1, 0]);
    for (address, byte) in [(0x8010, 0xFF), (0x8011, 0xFF)] {
        run.vram(address, byte);
    }
    run.oam(156, 8);
    run.oam(157, 8);
    run.register(0x40, ON_SPRITES);
    steps(run, TO_LINE_0 + 2);
    run.register(0x40, ON_SPRITES | 4);
    steps(run, 22);
    run.end(parting(
        "height 16 written at cycle 8, a sprite in entry 39: place 0",
        "[240]",
        "[0]",
        format!("{:?}", shades(run, 0, &[0])),
    ));

    run.call(&[1, 0, 1]);
    run.oam(2, 0x12);
    steps(run, TO_LINE_0 + 2);
    run.oam_bug(0);
    run.end(parting(
        "OAM corruption in colour mode: byte 10, over which byte 2 is copied",
        "12",
        "00",
        format!("{:02X}", run.machine.ppu.look_oam()[10]),
    ));

    run.call(&[1, 0, 1]);
    run.register(0x68, 0);
    steps(run, TO_LINE_0 + 21);
    let mode = run.machine.ppu.get_current_mode();
    run.register(0x69, 0xAA);
    steps(run, 50);
    let byte = run.call(&[4, 0x69, 0xFF])[1];
    run.end(parting(
        "palette data written in mode 3: the mode, the byte read in mode 0",
        "3 AA",
        "3 00",
        format!("{} {:02X}", mode, byte),
    ));

    run.call(&[1, 1, 0]);
    run.register(0x68, 0x80);
    run.register(0x69, 0x1F);
    run.register(0x69, 0);
    steps(run, TO_LINE_0 + 24);
    run.end(parting(
        "a palette written on DMG: place 0",
        "[201, 0, 46]",
        "[240, 240, 240]",
        format!("{:?}", place(run, 1, 0, 0)),
    ));

    run.call(&[1, 1, 0]);
    steps(run, TO_LINE_0 + 21);
    let mode = run.machine.ppu.get_current_mode();
    run.vram(0x8000, 0xFF);
    run.vram(0x8001, 0xFF);
    steps(run, 3);
    run.end(parting(
        "VRAM written in mode 3: the mode, place 0",
        "3 [0]",
        "3 [240]",
        format!("{} {:?}", mode, shades(run, 0, &[0])),
    ));

    run.call(&[1, 1, 0]);
    steps(run, TO_LINE_0 + 2);
    let mode = run.machine.ppu.get_current_mode();
    run.oam(0, 0x12);
    run.end(parting(
        "OAM written in mode 2: the mode, the byte",
        "2 12",
        "2 00",
        format!("{} {:02X}", mode, run.machine.ppu.look_oam()[0]),
    ));

    run.call(&[1, 1, 0]);
    run.register(0x41, 0);
    let answer = run.step(4);
    run.end(parting("STAT written in mode 1 on DMG: request bits", 0, 2, answer[1]));

    // Bit 5 and bit 6: mode 2 holds the level only at cycle 4, so that LY = LYC at cycle 12 finds it low.
    run.call(&[1, 1, 0]);
    run.register(0x45, 99);
    run.register(0x41, 0x60);
    steps(run, TO_LINE_0);
    let mut found = vec![run.step(4)[1], run.step(4)[1], run.step(4)[1]];
    run.register(0x45, 0);
    found.push(run.step(4)[1]);
    run.end(parting(
        "STAT bits 5 and 6 on DMG, LY = LYC from cycle 12 on: request bits at cycles 0, 4, 8, 12 of line 0",
        "[0, 2, 0, 2]",
        "[2, 0, 0, 0]",
        format!("{:?}", found),
    ));

    // Off and on, then a whole frame with STAT bit 5: its first line, lines 144 and 153, the picture shown at its end.
    run.call(&[1, 1, 0]);
    run.vram(0x8000, 0xFF);
    run.vram(0x8001, 0xFF);
    run.register(0x41, 0x20);
    steps(run, TO_LINE_0);
    run.register(0x40, ON & 0x7F);
    run.register(0x40, ON);
    let first = run.step(4)[2];
    steps(run, 144 * 114 - 2);
    let found = [run.step(4), run.step(4)].map(|answer| (answer[2], answer[1]));
    steps(run, 9 * 114 - 2);
    let last = [run.step(4), run.step(4), run.step(4)].map(|answer| answer[4]);
    steps(run, 114 - 4);
    let swapped = run.step(4)[5];
    run.end(parting("the first step after switching on: mode", 0, 2, first));
    run.end(parting(
        "STAT bit 5 on DMG, the first two steps of 4 of line 144: mode and request bits",
        "[(0, 0), (1, 3)]",
        "[(1, 1), (1, 0)]",
        format!("{:?}", found),
    ));
    run.end(parting(
        "the first three steps of 4 of line 153: LY",
        "[153, 0, 0]",
        "[153, 153, 153]",
        format!("{:?}", last),
    ));
    run.end(parting(
        "the swap after switching on: swapped, place 0 of line 0 as shown",
        "1 [0, 0, 0]",
        "1 [255, 255, 255]",
        format!("{} {:?}", swapped, place(run, 0, 0, 0)),
    ));
}

/// Whether OAM is closed, here by a locked read and in the published crate by its own read, of the byte 12 at FE00.
fn oam_locks(run: &mut Run) -> String {
    let told = |byte: u8| match byte {
        0x12 => "open",
        0xFF => "closed",
        _ => "neither",
    };
    let here = run.locked(LOCKED_OAM_READ, 0xFE00, 0)[1];
    format!("{} {}", told(here), told(run.machine.ppu.read_oam(0xFE00)))
}

/// The same now and after each of some steps.
fn oam_locks_by(run: &mut Run, count: u32, cycles: u8) -> String {
    let mut found = vec![oam_locks(run)];
    for _ in 0..count {
        run.step(cycles);
        found.push(oam_locks(run));
    }
    found.join(", ")
}

/// Request 12: the locked calls, and where the given text's lock of OAM parts from the lock by STAT.
fn lock_cases(run: &mut Named) {
    // Line 0 at cycles 4, 84 and 364, line 144, and there switched off: a write and a read of each memory.
    run.call(&[1, 1, 0]);
    let mut found = Vec::new();
    for (value, before) in [(1, TO_LINE_0 + 1), (2, 20), (3, 70), (4, 144 * 114), (5, 0)] {
        steps(run, before);
        if value == 5 {
            run.register(0x40, ON & 0x7F);
        }
        run.locked(LOCKED_VRAM_WRITE, 0x8000, value);
        run.locked(LOCKED_OAM_WRITE, 0xFE00, value);
        let vram = run.locked(LOCKED_VRAM_READ, 0x8000, 0)[1];
        let oam = run.locked(LOCKED_OAM_READ, 0xFE00, 0)[1];
        found.push(format!("{:02X} {:02X}", vram, oam));
    }
    run.end(case(
        "locks, writes of 1 to 5 in modes 2, 3, 0, 1 and off: VRAM and OAM read",
        "01 FF, FF FF, 03 03, 04 04, 05 05",
        found.join(", "),
    ));
    let numbers = [LOCKED_OAM_WRITE, LOCKED_OAM_READ].map(|op| run.locked(op, 0xFEA0, 0)[0]);
    run.end(case("locks, OAM at FEA0: numbers", "[4, 4]", format!("{:?}", numbers)));

    // Mode 3 of line 0 ends in the step at cycle 254, or at 252 in steps of 4.
    run.call(&[1, 1, 0]);
    run.oam(0, 0x12);
    steps(run, TO_LINE_0 + 20);
    for _ in 0..87 {
        run.step(2);
    }
    let found = oam_locks_by(run, 4, 2);
    run.end(case(
        "locks, OAM at cycles 254 to 262 of line 0, steps of 2: here, published",
        "closed closed, open closed, open closed, open closed, open open",
        found,
    ));
    run.call(&[1, 1, 0]);
    run.oam(0, 0x12);
    steps(run, TO_LINE_0 + 63);
    let found = oam_locks_by(run, 2, 4);
    run.end(case(
        "locks, OAM at cycles 252, 256, 260 of line 0: here, published",
        "closed closed, open closed, open open",
        found,
    ));
    steps(run, 49);
    let found = oam_locks_by(run, 1, 4);
    run.end(case(
        "locks, OAM on line 1 at cycles 0 and 4: here, published",
        "open closed, closed closed",
        found,
    ));
    steps(run, 143 * 114 - 1);
    let found = oam_locks_by(run, 3, 2);
    run.end(case(
        "locks, OAM on line 144 at cycles 0, 2, 4, 6: here, published",
        "open closed, open closed, open closed, open open",
        found,
    ));

    // Off in mode 0 behind mode 3, on again, and into mode 3 of line 0; off there, where the end of before is still kept.
    run.call(&[1, 1, 0]);
    run.oam(0, 0x12);
    steps(run, TO_LINE_0 + 70);
    let before = oam_locks(run);
    run.register(0x40, ON & 0x7F);
    let off = oam_locks_by(run, 1, 4);
    run.register(0x40, ON);
    let on = oam_locks(run);
    steps(run, 19);
    let last = oam_locks_by(run, 1, 4);
    run.register(0x40, ON & 0x7F);
    let again = oam_locks(run);
    run.end(case(
        "locks, OAM at cycle 280; off, off after a step; on at cycles 4, 80, 84 of line 0; off: here, published",
        "open open; open closed, open closed; open closed, open closed, closed closed; open closed",
        format!("{}; {}; {}, {}; {}", before, off, on, last, again),
    ));
    run.call(&[1, 1, 0]);
    run.oam(0, 0x12);
    steps(run, TO_LINE_0 + 2);
    run.register(0x40, ON & 0x7F);
    let scanned = oam_locks(run);
    run.register(0x40, ON);
    steps(run, 30);
    run.register(0x40, ON & 0x7F);
    let drawn = oam_locks(run);
    run.end(case(
        "locks, OAM off behind modes 2 and 3 of a first line: here, published",
        "open open, open open",
        format!("{}, {}", scanned, drawn),
    ));

    // Off at LCD x 159: mode 3 of the first line begins and ends in the step at cycle 80.
    run.call(&[1, 1, 0]);
    run.oam(0, 0x12);
    steps(run, TO_LINE_0 + 20);
    for _ in 0..87 {
        run.step(2);
    }
    run.register(0x40, ON & 0x7F);
    run.register(0x40, ON);
    steps(run, 19);
    let before = oam_locks(run);
    let mode = run.step(2)[2];
    let after = oam_locks_by(run, 3, 2);
    run.end(case(
        "locks, OAM at cycle 80 of a first line of one place; mode at 82; OAM at 82 to 88: here, published",
        "open open; 0; open closed, open closed, open closed, open open",
        format!("{}; {}; {}", before, mode, after),
    ));

    // Mode 3: the published crate has no lock of VRAM.
    run.call(&[1, 1, 0]);
    run.vram(0x8000, 0x12);
    steps(run, TO_LINE_0 + 21);
    run.locked(LOCKED_VRAM_WRITE, 0x8000, 0x34);
    let byte = run.locked(LOCKED_VRAM_READ, 0x8000, 0)[1];
    let kept = run.machine.ppu.look_vram()[0];
    run.end(case(
        "locks, VRAM in mode 3: byte read, byte kept; published: byte read",
        "FF 12; 12",
        format!("{:02X} {:02X}; {:02X}", byte, kept, run.machine.ppu.read_vram(0x8000)),
    ));
}

/// P1 to P6, P8, P10 and the picks of the example, by the protocol `leaves`. What a request leaves behind is read back by
/// requests that follow it: the slots of a pick, the palette port and its last colour.
fn leaf_cases(out: &mut dyn Write) -> io::Result<Vec<Case>> {
    let mut leaves = Leaves::new();
    let mut list = List::new(out, u64::MAX);
    let mut ask = |bytes: &[u8]| {
        list.put(request(bytes));
        leaves.answer(request(bytes))
    };
    let mut cases = Vec::new();
    for (name, colour, said) in [
        ("P1", [31, 31, 31], "[240, 240, 240]"),
        ("P2", [31, 0, 0], "[201, 0, 46]"),
        ("P3", [21, 21, 21], "[168, 168, 168]"),
    ] {
        let found = ask(&[10, colour[0], colour[1], colour[2]]);
        cases.push(case(name, said, format!("{:?}", &found[..3])));
    }
    for (name, y, line, height, said) in [
        ("P4: line 0", 16, 0, 8, 1),
        ("P4: line 7", 16, 7, 8, 1),
        ("P4: line 8", 16, 8, 8, 0),
        ("P5: y 8, height 8", 8, 0, 8, 0),
        ("P5: y 8, height 16", 8, 0, 16, 1),
        ("P5: y 0, height 8", 0, 0, 8, 0),
        ("P5: y 0, height 16", 0, 0, 16, 0),
    ] {
        cases.push(case(name, said, ask(&[3, y, line, height])[0]));
    }
    for entry in 0..40 {
        ask(&[5, 4 * entry, 16]);
    }
    let mut picked = vec![ask(&[6, 0, 8])[1]];
    for k in 0..10 {
        picked.push(ask(&[7, k])[0]);
    }
    cases.push(case("P6", "[10, 0, 1, 2, 3, 4, 5, 6, 7, 8, 9]", format!("{:?}", picked)));
    ask(&[12, 0xBF]);
    cases.push(case("P8: BF", 0, ask(&[13, 1])[0] & 0x3F));
    ask(&[15, 7, 3]);
    ask(&[12, 0x3F]);
    cases.push(case("P8: 3F", 63, ask(&[13, 2])[0] & 0x3F));
    ask(&[14]);
    ask(&[15, 7, 3]);
    let shades: Vec<u8> = (0..4).map(|colour| ask(&[17, 0xFC, colour])[0]).collect();
    cases.push(case("P10", "[0, 3, 3, 3]", format!("{:?}", shades)));
    for (address, byte) in [(8, 20), (9, 8), (10, 5), (11, 0)] {
        ask(&[5, address, byte]);
    }
    for entry in 0..40 {
        if entry != 2 {
            ask(&[5, 4 * entry, 0]);
        }
    }
    for (address, byte) in [(156, 13), (157, 0), (158, 1), (159, 128)] {
        ask(&[5, address, byte]);
    }
    let mut picked = format!("{:?}", &ask(&[6, 4, 8])[..2]);
    for k in 0..3 {
        picked.push_str(&format!(" {:?}", &ask(&[7, k])[..5]));
    }
    cases.push(case(
        "picks of the example: number and count, slots 0, 1, 2",
        "[0, 2] [2, 20, 8, 5, 0] [39, 13, 0, 1, 128] [0, 0, 0, 0, 0]",
        picked,
    ));
    list.finish()?;
    Ok(cases)
}

/// The short cases, into a list.
pub fn short(run: &mut Run) {
    short_cases(&mut Named::new(run));
}

fn all(out: &mut dyn Write) -> io::Result<Vec<Case>> {
    let mut run = Run::new(out, u64::MAX, 0, 0);
    let mut named = Named::new(&mut run);
    short_cases(&mut named);
    for device in DEVICES {
        frame_case(&mut named, device);
    }
    column_case(&mut named);
    torn_case(&mut named);
    unseen_cases(&mut named);
    published_cases(&mut named);
    pan_docs_cases(&mut named);
    lock_cases(&mut named);
    let cases = named.cases;
    run.finish()?;
    Ok(cases)
}

/// The calls of all cases on the machine.
pub fn list(out: &mut dyn Write) -> io::Result<()> {
    all(out).map(|_| ())
}

/// The requests of the leaf cases.
pub fn leaves_list(out: &mut dyn Write) -> io::Result<()> {
    leaf_cases(out).map(|_| ())
}

/// One line a case; the answer is 1 if a figure differs.
pub fn print(out: &mut dyn Write) -> io::Result<i32> {
    let mut cases = leaf_cases(&mut io::sink())?;
    cases.extend(all(&mut io::sink())?);
    let mut differing = 0;
    for case in &cases {
        if case.said == case.found {
            writeln!(out, "ok     {}: {}", case.name, case.found)?;
        } else {
            differing += 1;
            writeln!(
                out,
                "DIFFER {}: said {}, found {}",
                case.name, case.said, case.found
            )?;
        }
    }
    writeln!(out, "{} cases, {} differ", cases.len(), differing)?;
    out.flush()?;
    Ok((differing > 0) as i32)
}
