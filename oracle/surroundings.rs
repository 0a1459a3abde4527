//! What the given text expects around it: its interrupt manager, its configuration, and no words on standard output.

use std::sync::atomic::{AtomicU32, Ordering};

// The given text prints a warning; standard output belongs to the answers, so it is counted instead.
macro_rules! println {
    ($($words:tt)*) => {
        crate::surroundings::warn()
    };
}

static WARNINGS: AtomicU32 = AtomicU32::new(0);

pub fn warn() {
    WARNINGS.fetch_add(1, Ordering::Relaxed);
}

/// The warnings that the given text would have printed so far.
pub fn warnings() -> u32 {
    WARNINGS.load(Ordering::Relaxed)
}

pub mod memory {
    pub enum InterruptType {
        Vblank,
        LcdStat,
    }

    pub trait InterruptManager {
        fn request_interrupt(&mut self, interrupt: InterruptType);
    }
}

#[derive(Clone, Copy, save_state::Savable)]
pub struct GameBoyConfig {
    pub is_dmg: bool,
}
