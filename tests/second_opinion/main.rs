//! Still scenes drawn by this unit and by mGBA, all places compared: second_opinion [SCENES [SEED]], or
//! second_opinion smallest [SEED] for the smallest scene of each cause. tests/second-opinion builds and runs it.

#[path = "../harness/bytes.rs"]
mod bytes;
mod causes;
mod compare;
#[path = "../../oracle/list.rs"]
#[allow(dead_code)]
mod list;
mod mgba;
mod scene;
mod smallest;
mod still;
mod unit;

use causes::CAUSES;
use list::spaced;
use scene::{Kind, Scene};

/// A raw colour as this unit stores it (01, "Mix").
pub fn mixed(raw: u16) -> [u8; 3] {
    let [r, g, b] = [raw & 31, raw >> 5 & 31, raw >> 10 & 31];
    let sums = [
        26 * r + 4 * g + 2 * b,
        24 * g + 8 * b,
        6 * r + 4 * g + 22 * b,
    ];
    sums.map(|sum| (sum.min(960) / 4) as u8)
}

const KINDS: [(Kind, &str); 3] = [
    (Kind::Dmg, "DMG"),
    (Kind::Colour, "colour mode"),
    (Kind::Plain, "colour device outside colour mode"),
];

#[derive(Default)]
struct Counts {
    scenes: u64,
    strict: u64,
    kinds: [u64; 3],
    places: u64,
    equal: u64,
    /// Places that differ, by cause; a place can have more than one. The last: only several causes together.
    causes: [u64; CAUSES.len() + 1],
}

impl Counts {
    /// Counts a scene; a place that is not explained ends it.
    fn take(&mut self, scene: &Scene) -> Result<(), String> {
        for place in compare::places(scene) {
            if !place.explained(scene) {
                return Err(place.told());
            }
            self.places += 1;
            if place.equal() {
                self.equal += 1;
                continue;
            }
            let causes = place.causes(scene);
            for cause in &causes {
                self.causes[*cause as usize] += 1;
            }
            self.causes[CAUSES.len()] += causes.is_empty() as u64;
        }
        self.scenes += 1;
        self.strict += scene.strict as u64;
        self.kinds[scene.kind as usize] += 1;
        Ok(())
    }

    fn print(&self) {
        println!("{:>14} scenes", spaced(self.scenes));
        for (kind, name) in KINDS {
            println!("{:>14} of them {name}", spaced(self.kinds[kind as usize]));
        }
        let strict = spaced(self.strict * 160 * 144);
        println!(
            "{:>14} scenes free of every cause, all their {strict} places equal",
            spaced(self.strict)
        );
        println!("{:>14} places compared", spaced(self.places));
        println!("{:>14} equal", spaced(self.equal));
        println!(
            "{:>14} differ by named causes, some by more than one:",
            spaced(self.places - self.equal)
        );
        for cause in CAUSES {
            println!(
                "{:>14} {}",
                spaced(self.causes[cause as usize]),
                cause.name()
            );
        }
        println!(
            "{:>14} several of these together, none alone",
            spaced(self.causes[CAUSES.len()])
        );
    }
}

fn usage() -> ! {
    eprintln!("usage: second-opinion [SCENES [SEED]] | smallest [SEED]");
    std::process::exit(2)
}

/// Tells the place that ends the run, and the smallest scene that has such a one.
fn fail(seed: u64, scene: &Scene, found: &str) -> ! {
    let class = if scene.strict {
        "free of every cause"
    } else {
        "some causes allowed"
    };
    println!("scene of seed {seed}, {:?}, {class}: {found}", scene.kind);
    println!(
        "the smallest scene found that shows such a place:\n{}",
        smallest::unexplained(scene)
    );
    println!("NOT agreed: a place that no named cause explains; seen again by: tests/second-opinion 1 {seed}");
    std::process::exit(1)
}

fn number(word: Option<&String>, otherwise: u64) -> u64 {
    word.map_or(otherwise, |word| word.parse().unwrap_or_else(|_| usage()))
}

fn main() {
    let words: Vec<String> = std::env::args().skip(1).collect();
    let seed = number(words.get(1), 1);
    println!("mGBA {}", mgba::version());
    if words.first().map(String::as_str) == Some("smallest") {
        return smallest::every_cause(seed);
    }
    let mut counts = Counts::default();
    for seed in seed..seed + number(words.first(), 200) {
        let scene = scene::scene(seed);
        if let Err(found) = counts.take(&scene) {
            fail(seed, &scene, &found);
        }
    }
    counts.print();
    println!("agreed: every place is equal, or differs by a named cause as the model of the scene has it for both sides");
}
