//! What tests lend to an entry or an engine, and what is said where it differs afterwards.
use crate::entries::Answer;
use crate::generate::damage::damage;
use crate::generate::Rng;
use std::fmt::Debug;
use std::hint::black_box;
use std::ops::{Deref, Range};

/// A lent buffer with a pattern in it and guards on both sides.
pub struct Lent<T> {
    before: Vec<T>,
    now: Vec<T>,
    guard: usize,
    places: usize,
}

/// Without a guard, one who reads past the end leaves the allocation, which valgrind sees; with a guard, one who writes there
/// is seen here. The lengths between make octets begin at any address.
const MOST_GUARD: usize = 8;

fn guard(rng: &mut Rng) -> usize {
    match rng.below(2) {
        0 => 0,
        _ => rng.within(1, MOST_GUARD),
    }
}

impl<T: Copy + PartialEq + Debug> Lent<T> {
    pub fn new(rng: &mut Rng, places: usize, of: fn(u64) -> T) -> Lent<T> {
        let (start, guard) = (rng.any(), guard(rng));
        let pattern = (0..(places + 2 * guard) as u64).map(|place| {
            of(start
                .wrapping_add(place)
                .wrapping_mul(0x9e37_79b9_7f4a_7c15)
                >> 17)
        });
        let before: Vec<T> = pattern.collect();
        Lent {
            now: before.clone(),
            before,
            guard,
            places,
        }
    }

    /// With this in it in place of the pattern.
    pub fn holding(rng: &mut Rng, contents: &[T], of: fn(u64) -> T) -> Lent<T> {
        let mut lent = Lent::new(rng, contents.len(), of);
        lent.lent().copy_from_slice(contents);
        lent.before.clone_from(&lent.now);
        lent
    }

    fn inside(&self) -> Range<usize> {
        self.guard..self.guard + self.places
    }

    pub fn lent(&mut self) -> &mut [T] {
        let inside = self.inside();
        &mut self.now[inside]
    }

    /// What was lent, as it is now.
    pub fn now(&self) -> &[T] {
        &self.now[self.inside()]
    }

    /// What was lent, as it was.
    pub fn before(&self) -> &[T] {
        &self.before[self.inside()]
    }

    /// What is wrong if it was not to be written to.
    pub fn change(&self, name: &str) -> Option<String> {
        self.difference(name, &[])
    }

    /// What is wrong if `written` should stand at the start of the lent places and all else be as it was.
    pub fn difference(&self, name: &str, written: &[T]) -> Option<String> {
        let owed = |at: usize| match at.checked_sub(self.guard) {
            Some(place) if place < written.len() => written[place],
            _ => self.before[at],
        };
        let wrong = (0..self.now.len()).find(|&at| self.now[at] != owed(at))?;
        let (place, now, owed) = (
            wrong as i64 - self.guard as i64,
            self.now[wrong],
            owed(wrong),
        );
        Some(format!(
            "{name} (of {} places, {} written by the reference) has at place {place} {now:?}, and by the reference {owed:?}",
            self.places,
            written.len()
        ))
    }
}

/// Enough places more often than not, else fewer or more.
pub fn places_about(rng: &mut Rng, enough: usize) -> usize {
    match rng.below(20) {
        0 => rng.below(enough),
        1 => enough - 1,
        2..=4 => enough + rng.within(1, 9),
        _ => enough,
    }
}

pub fn hex(octets: &[u8]) -> String {
    octets.iter().map(|octet| format!("{octet:02x}")).collect()
}

pub fn difference_of_answers(library: Answer, reference: Answer) -> Option<String> {
    (library != reference)
        .then(|| format!("answered by the library {library:?}, by the reference {reference:?}"))
}

/// The input and all that is wrong, if anything.
pub fn report(
    call: impl Fn() -> String,
    differences: impl IntoIterator<Item = Option<String>>,
) -> Result<(), String> {
    let found: Vec<String> = differences.into_iter().flatten().collect();
    match found.is_empty() {
        true => Ok(()),
        false => Err(format!("{}\n  {}", call(), found.join("\n  "))),
    }
}

/// Octets that are lent to be read only. Exactly as long as they say, so that a reader past the end is one past an allocation.
pub struct Exact {
    before: Vec<u8>,
    now: Box<[u8]>,
}

pub fn exact(octets: Vec<u8>) -> Exact {
    Exact {
        before: octets.clone(),
        now: octets.into_boxed_slice(),
    }
}

impl Deref for Exact {
    type Target = [u8];

    fn deref(&self) -> &[u8] {
        &self.now
    }
}

impl Exact {
    pub fn change(&self, name: &str) -> Option<String> {
        change_of(name, &self.before, &self.now)
    }
}

/// What is wrong if octets that are only to be read were written to.
pub fn change_of(name: &str, before: &[u8], now: &[u8]) -> Option<String> {
    // The compiler may take it for granted that what was lent so is as it was.
    let now = black_box(now);
    (before != now).then(|| format!("written to: {name}, now {}", hex(now)))
}

pub fn damaged_by_chance(rng: &mut Rng, mut s: Vec<u8>, chance: usize) -> Vec<u8> {
    while rng.percent(chance) {
        damage(rng, &mut s);
    }
    s
}
