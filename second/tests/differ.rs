//! Millions of calls by seed: against the proved implementation where it is
//! linked, and always against what must hold of the model.
//!
//! DIFFER_SEED sets the first seed, DIFFER_SCALE the number of calls in
//! percent. DIFFER_OWN_BITS=1 lets bits that do not count differ, and
//! DIFFER_TRACE=1 shows each step before it is taken.

use second::check::differ::{Differ, Mix};
use second::check::generate::{Generator, Start};
use second::check::random::Random;

fn setting(name: &str, default: u64) -> u64 {
    std::env::var(name).ok().and_then(|value| value.parse().ok()).unwrap_or(default)
}

fn differ() -> Differ {
    let mut differ = Differ::against_proved();
    differ.own_bits_only = setting("DIFFER_OWN_BITS", 0) != 0;
    differ.trace = setting("DIFFER_TRACE", 0) != 0;
    differ
}

#[test]
fn sequences() {
    let seed = setting("DIFFER_SEED", 1);
    let scale = setting("DIFFER_SCALE", 100);
    let mut differ = differ();

    // Start, mix, number of sequences, steps of each.
    let runs = [
        (Start::Reset, Mix::All, 2000, 2000),
        (Start::MadeUp, Mix::All, 15_000, 120),
        (Start::Reset, Mix::Images, 60, 300),
        (Start::MadeUp, Mix::Images, 60, 300),
    ];
    for (start, mix, sequences, steps) in runs {
        for number in 0..(sequences * scale).div_ceil(100) {
            if let Err(what) = differ.sequence(seed + number, start, mix, steps) {
                panic!("{what}");
            }
        }
    }

    println!("{}", differ.coverage.summary());
    assert_eq!(differ.coverage.unexpected_refusals(), [""; 0]);
    if scale >= 100 {
        assert_eq!(differ.coverage.missing(), [""; 0]);
        assert!(differ.coverage.calls >= 2_000_000, "{} calls", differ.coverage.calls);
    }
}

/// The most memory that can be lent, and a little more.
#[test]
fn largest_memory() {
    let lengths = [(4_194_304, 262_144), (4_194_308, 262_144), (4_194_304, 262_148)];
    let seed = setting("DIFFER_SEED", 1);
    for (ram, rom) in lengths {
        for start in [Start::Reset, Start::MadeUp] {
            let mut differ = differ();
            let (generator, world) = Generator::with_memory(Random::new(seed), start, ram, rom);
            if let Err((number, what)) = differ.steps(generator, world, (start, Mix::All), 60) {
                panic!("RAM {ram}, ROM {rom}, seed {seed}, {start:?}, step {number}: {what}");
            }
        }
    }
}
