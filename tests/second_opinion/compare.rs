//! One scene drawn by both sides, place by place.

use crate::causes::{Cause, CAUSES};
use crate::scene::Scene;
use crate::still::{Line, Ways};
use crate::{mgba, mixed, unit};

/// Both colours of a place, and what the model of the scene has there by either side's way.
pub struct Place {
    pub x: u8,
    pub y: u8,
    pub unit: [u8; 3],
    pub mgba: [u8; 3],
    pub model: [[u8; 3]; 2],
}

impl Place {
    pub fn equal(&self) -> bool {
        self.unit == self.mgba
    }

    pub fn told(&self) -> String {
        let Place {
            x, y, unit, mgba, ..
        } = self;
        let [ours, theirs] = self.model;
        format!("place ({x}, {y}): this unit {unit:?}, mGBA {mgba:?}; the model has {ours:?} and {theirs:?}")
    }

    /// Whether the place is as the model has it for both sides.
    pub fn foretold(&self) -> bool {
        [self.unit, self.mgba] == self.model
    }

    /// Whether the place is as it should be: foretold, and equal in a scene free of every cause.
    pub fn explained(&self, scene: &Scene) -> bool {
        self.foretold() && (self.equal() || !scene.strict)
    }

    /// The causes by which the two ways part here: taken the other way, any of them changes the place for one side.
    pub fn causes(&self, scene: &Scene) -> Vec<Cause> {
        let at = |ways| Line::new(scene, ways, self.y).place(self.x);
        let parts = |&cause: &Cause| {
            at(Ways::UNIT.but(cause)) != self.model[0] || at(Ways::MGBA.but(cause)) != self.model[1]
        };
        CAUSES.into_iter().filter(parts).collect()
    }
}

/// All places of the scene, line by line.
pub fn places(scene: &Scene) -> Vec<Place> {
    let unit = unit::picture(scene);
    let mgba = mgba::picture(scene);
    let mut places = Vec::with_capacity(160 * 144);
    for y in 0..144 {
        let lines = [Ways::UNIT, Ways::MGBA].map(|ways| Line::new(scene, ways, y));
        for x in 0..160 {
            let at = 160 * y as usize + x as usize;
            places.push(Place {
                x,
                y,
                unit: [unit[3 * at], unit[3 * at + 1], unit[3 * at + 2]],
                mgba: mixed(mgba[at]),
                model: [lines[0].place(x), lines[1].place(x)],
            });
        }
    }
    places
}
