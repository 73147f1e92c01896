//! The generated text with its context trait implemented: the corrections of three signal paths, in
//! hundredths of a decibel.

extern crate alloc;

/// How many results an iterator term may give.
const MAX_ISLE_RETURNS: usize = 100;

#[allow(dead_code, unreachable_code, unreachable_patterns, unused_imports, unused_variables)]
mod isle {
    include!(concat!(env!("OUT_DIR"), "/isle.rs"));
}

use isle::{Context, Path, constructor_correction, constructor_corrections};

/// What a calibration measured.
struct Calibration {
    loss_per_step: i32,
    gains: [Option<i32>; 3],
}

impl Context for Calibration {
    fn attenuator_loss(&mut self, steps: u8) -> i32 {
        i32::from(steps) * self.loss_per_step
    }

    fn preamplifier_gain(&mut self, range: u8) -> Option<i32> {
        self.gains.get(usize::from(range)).copied().flatten()
    }
}

fn main() {
    let mut calibration = Calibration { loss_per_step: 1012, gains: [Some(-2040), None, Some(-1985)] };
    let paths = [
        Path::Through,
        Path::Attenuated { steps: 3 },
        Path::Preamplified(0),
        Path::Preamplified(1),
        Path::Preamplified(7),
    ];
    for path in &paths {
        let one = constructor_correction(&mut calibration, path);
        let mut all = Vec::new();
        constructor_corrections(&mut calibration, path, &mut all);
        println!("{path:?}: {one:?} {all:?}");
    }
}

#[test]
fn corrections() {
    let mut calibration = Calibration { loss_per_step: 1012, gains: [Some(-2040), None, None] };
    let mut correction = |path| constructor_correction(&mut calibration, &path);
    assert_eq!(correction(Path::Through), Some(0));
    assert_eq!(correction(Path::Attenuated { steps: 3 }), Some(3036));
    assert_eq!(correction(Path::Preamplified(0)), Some(-2040));
    assert_eq!(correction(Path::Preamplified(1)), None);
}
