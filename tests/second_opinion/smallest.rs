//! The smallest scene that still shows something.

use crate::bytes::{set_bytes, shrink};
use crate::causes::{Cause, CAUSES};
use crate::compare::{places, Place};
use crate::list::Random;
use crate::scene::{with_causes, Kind, Scene, REGISTERS};

/// Clears bytes and bits of the scene, while it still shows a place of that sort; the display stays on.
fn smaller(scene: &mut Scene, shows: impl Fn(&Scene) -> bool) {
    for _ in 0..2 {
        let mut trial = scene.clone();
        shrink(&mut scene.oam, |bytes| {
            trial.oam.copy_from_slice(bytes);
            shows(&trial)
        });
        trial = scene.clone();
        shrink(&mut scene.values, |bytes| {
            trial.values.copy_from_slice(bytes);
            bytes[REGISTERS.len() - 1] >= 0x80 && shows(&trial)
        });
        trial = scene.clone();
        shrink(&mut scene.vram, |bytes| {
            trial.vram.copy_from_slice(bytes);
            shows(&trial)
        });
    }
}

/// The scene and one place of it, in lines.
fn told(scene: &Scene, place: &Place) -> String {
    let registers: Vec<String> = REGISTERS
        .iter()
        .zip(&scene.values)
        .filter(|(_, &value)| value != 0)
        .map(|(low, value)| format!("FF{low:02X} {value:02X}"))
        .collect();
    let ports = if scene.ports && !scene.colour() {
        ", colour palettes written"
    } else {
        ""
    };
    let lines = [
        Some(format!(
            "  {:?}, {}{ports}, the rest 0",
            scene.kind,
            registers.join(", ")
        )),
        set_bytes("OAM", &scene.oam),
        set_bytes("VRAM", &scene.vram),
        Some(format!("  {}", place.told())),
    ];
    lines.into_iter().flatten().collect::<Vec<_>>().join("\n")
}

/// The smallest scene with a place that the model does not foretell or, where it foretells all, that is not explained.
pub fn unexplained(scene: &Scene) -> String {
    let strange = |scene: &Scene| places(scene).into_iter().find(|place| !place.foretold());
    let unequal = |scene: &Scene| {
        let mut places = places(scene).into_iter();
        places.find(|place| !place.explained(scene))
    };
    let mut scene = scene.clone();
    let first: &dyn Fn(&Scene) -> Option<Place> = match strange(&scene) {
        Some(_) => &strange,
        None => &unequal,
    };
    smaller(&mut scene, |scene| first(scene).is_some());
    match first(&scene) {
        Some(place) => told(&scene, &place),
        None => "  (not shown a second time)".to_string(),
    }
}

/// The smallest scene in which a place differs by this cause alone, from the first random one that shows it.
fn by_cause(cause: Cause, seed: u64) -> Option<String> {
    let first = |scene: &Scene| {
        let alone = |place: &Place| !place.equal() && place.causes(scene) == [cause];
        places(scene).into_iter().find(alone)
    };
    let mut scene = (0..200)
        .map(|at| {
            let kind = [Kind::Dmg, Kind::Colour][at as usize % 2];
            with_causes(&mut Random::new(seed + at), kind, |allowed| {
                allowed == cause
            })
        })
        .find(|scene| first(scene).is_some())?;
    smaller(&mut scene, |scene| first(scene).is_some());
    Some(told(&scene, &first(&scene)?))
}

pub fn every_cause(seed: u64) {
    for cause in CAUSES {
        println!("{}:", cause.name());
        println!(
            "{}",
            by_cause(cause, seed).unwrap_or("  (no scene of 200 shows it)".to_string())
        );
    }
}
