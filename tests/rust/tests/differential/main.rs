//! The library against the reference, over generated inputs.
//!
//! SKOGMUND_SEED gives the seed and SKOGMUND_COUNT the number of inputs, from number SKOGMUND_FROM on; a difference is shown with
//! seed, number and input, and comes up again by its seed and number alone. A run that is long enough also has to have met every
//! refusal that each entry can meet, so that it can't pass by comparing nothing.
#![cfg(not(no_library))]

mod histories;
mod listings;
mod messages;
mod parts_shown;
mod reading;
mod shelves;
mod tally;
mod unpacking;

use skogmund_tests::generate::Rng;
use std::io::Write;
use std::time::Instant;
use tally::Tally;

const DEFAULT_COUNT: u64 = 250_000;
const DEFAULT_SEED: u64 = 20_240_307;
/// Below this some rare refusal may not come up.
const ENOUGH: u64 = 200_000;
/// A history is many calls.
const INPUTS_TO_A_HISTORY: u64 = 40;
/// A run ends after so many.
const MOST_DIFFERENCES: usize = 5;

fn one_input(rng: &mut Rng, tally: &mut Tally) -> Result<(), String> {
    match rng.below(23) {
        0..=5 => reading::one_reading(rng, tally),
        6..=8 => parts_shown::parts_of_a_section(rng, tally),
        9..=11 => unpacking::one_unpacking(rng, tally),
        12..=13 => listings::one_listing(rng, tally),
        14..=16 => messages::one_message(rng, tally),
        _ => shelves::calls_on_shelves(rng, tally),
    }
}

fn setting(name: &str, default: u64) -> u64 {
    match std::env::var(name) {
        Ok(given) => given
            .parse()
            .unwrap_or_else(|_| panic!("{name} is no number: {given}")),
        Err(_) => default,
    }
}

/// Which inputs to make.
struct Run {
    seed: u64,
    from: u64,
    count: u64,
    start: Instant,
}

impl Run {
    fn set() -> Run {
        Run {
            seed: setting("SKOGMUND_SEED", DEFAULT_SEED),
            from: setting("SKOGMUND_FROM", 0),
            count: setting("SKOGMUND_COUNT", DEFAULT_COUNT),
            start: Instant::now(),
        }
    }

    /// Shows the inputs that make a difference, up to so many, and gives their number.
    fn differences(&self, mut one: impl FnMut(&mut Rng) -> Result<(), String>) -> usize {
        let Run { seed, from, .. } = *self;
        (from..from + self.count)
            .filter_map(|input| {
                let said = one(&mut Rng::of_input(seed, input)).err()?;
                println!("SKOGMUND_SEED={seed} SKOGMUND_FROM={input} SKOGMUND_COUNT=1: {said}");
                Some(input)
            })
            .take(MOST_DIFFERENCES)
            .count()
    }

    /// One line on standard error itself, which is shown of a test that passes too; what `println!` prints is not.
    fn say(&self, what: &str) {
        let Run { seed, from, .. } = *self;
        let (count, seconds) = (self.count, self.start.elapsed().as_secs_f64());
        let line = format!("seed {seed}: {count} {what} from {from} on, {seconds:.1} s\n");
        // In one piece, since another test may write beside it.
        std::io::stderr().write_all(line.as_bytes()).ok();
    }
}

fn assert_none(differences: usize) {
    assert_eq!(differences, 0, "the library differs from what is owed");
}

#[test]
fn library_and_reference_agree() {
    let run = Run::set();
    let mut tally = Tally::default();
    let differences = run.differences(|rng| one_input(rng, &mut tally));
    tally.print();
    run.say(&format!("inputs ({} calls)", tally.calls));
    assert_none(differences);
    if run.count >= ENOUGH {
        let missing = tally.missing();
        assert!(missing.is_empty(), "never came up: {missing:?}");
    }
}

#[test]
fn every_slot_holds_the_greatest_card() {
    let mut run = Run::set();
    run.count = run.count.div_ceil(INPUTS_TO_A_HISTORY);
    let differences = run.differences(histories::one_history);
    run.say("histories");
    assert_none(differences);
}
