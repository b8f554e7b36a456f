//! What came up in a run, and what has to.
use crate::messages;
use skogmund_tests::reference::shelf::Filed;
use skogmund_tests::reference::{grid, identification, product, Outcome, Refusal};
use std::collections::BTreeMap;

/// What came up, by entry: a refusal with its section, or a kind of answer.
#[derive(Default)]
pub struct Tally {
    refusals: BTreeMap<(&'static str, u8, u8), u64>,
    kinds: BTreeMap<String, u64>,
    pub calls: u64,
}

impl Tally {
    fn refusal(&mut self, entry: &'static str, refusal: Refusal) {
        let key = (entry, refusal.section, refusal.number);
        *self.refusals.entry(key).or_default() += 1;
    }

    pub fn kind(&mut self, kind: &str) {
        *self.kinds.entry(kind.to_string()).or_default() += 1;
    }

    pub fn length(&mut self, lent: &[u8]) {
        if lent.len() >= MANY_OCTETS {
            self.kind(LONG);
        }
    }

    pub fn outcome<T>(&mut self, entry: &'static str, outcome: &Outcome<T>) {
        if let Err(refusal) = outcome {
            self.refusal(entry, *refusal);
        }
    }

    /// What became of each filing of an entry.
    pub fn fates(&mut self, entry: &'static str, fates: &[Outcome<Filed>]) {
        for fate in fates {
            self.outcome(entry, fate);
            let became = match fate {
                Ok(Filed::Kept) => "kept",
                Ok(Filed::Passed) => "passed",
                Err(_) => "refused",
            };
            self.kind(&format!("{entry}: {became}"));
        }
    }

    pub fn print(&self) {
        println!("entry       section  refusal  times");
        for ((entry, section, number), times) in &self.refusals {
            println!("{entry:11} {section:7} {number:8} {times:6}");
        }
        for (kind, times) in &self.kinds {
            println!("{kind}: {times}");
        }
    }

    pub fn missing(&self) -> Vec<String> {
        let refusals = EVERY_REFUSAL.iter().flat_map(|(entry, section, numbers)| {
            numbers
                .iter()
                .filter(|number| !self.refusals.contains_key(&(*entry, *section, **number)))
                .map(move |number| format!("{entry}: {number} of section {section}"))
        });
        let kinds = every_kind()
            .into_iter()
            .filter(|kind| !self.kinds.contains_key(kind));
        refusals.chain(kinds).collect()
    }
}

/// What each entry can meet by document 01 and the header. The sections of a body are cut by their own lengths, so that 1, 2 and 3 can't
/// come up in a queue; those of a message by their numbers too, so that 4 can't come up there.
const EVERY_REFUSAL: &[(&str, u8, &[u8])] = &[
    ("read", 0, &[18]),
    ("read", 1, &[1, 2, 3, 4, 5, 6, 7, 8, 21]),
    ("read", 3, &[1, 2, 3, 4, 5, 6, 7, 8, 10, 11, 21, 13]),
    ("read", 4, &[1, 2, 3, 4, 5, 6, 7, 8, 9, 11, 21]),
    ("read", 5, &[1, 2, 3, 4, 5, 6, 7, 8, 21]),
    ("read", 7, &[1, 2, 3, 4]),
    ("part", 0, &[18]),
    ("part", 3, &[1, 2, 3, 4, 5, 6, 7, 8, 10, 11, 21, 13]),
    ("part", 4, &[1, 2, 3, 4, 5, 6, 7, 8, 9, 11, 21]),
    ("unpack", 0, &[18]),
    ("unpack", 5, &[1, 2, 3, 4, 5, 6, 7, 8, 21]),
    ("unpack", 7, &[1, 2, 3, 4, 15]),
    ("list", 0, &[2, 16, 18, 19, 20]),
    ("list", 1, &[4, 5, 6, 7, 8, 21, 17]),
    ("list", 3, &[4, 5, 6, 7, 8, 10, 11, 21, 13]),
    ("list", 4, &[4, 5, 6, 7, 8, 9, 11, 21]),
    ("list", 5, &[4, 5, 6, 7, 8, 21, 14]),
    ("list", 7, &[4, 15]),
    ("message", 0, &[2, 18, 22, 23, 24, 25]),
    ("message", 1, &[5, 6, 7, 8, 21]),
    ("message", 3, &[5, 6, 7, 8, 10, 11, 21, 13]),
    ("message", 4, &[5, 6, 7, 8, 9, 11, 21]),
    ("message", 5, &[5, 6, 7, 8, 21, 14]),
    ("message", 7, &[15]),
    ("empty", 0, &[18]),
    ("file", 0, &[16, 18, 19]),
    ("file", 1, &[1, 2, 3, 4, 5, 6, 7, 8, 21, 17]),
    ("file", 3, &[1, 2, 3, 4, 5, 6, 7, 8, 10, 11, 21, 13]),
    ("file", 4, &[1, 2, 3, 4, 5, 6, 7, 8, 9, 11, 21]),
    ("file", 5, &[1, 2, 3, 4, 5, 6, 7, 8, 21, 14]),
    ("file", 7, &[1, 2, 3, 4, 15]),
    ("file_queue", 0, &[2, 16, 18, 19, 20]),
    ("file_queue", 1, &[4, 5, 6, 7, 8, 21, 17]),
    ("file_queue", 3, &[4, 5, 6, 7, 8, 10, 11, 21, 13]),
    ("file_queue", 4, &[4, 5, 6, 7, 8, 9, 11, 21]),
    ("file_queue", 5, &[4, 5, 6, 7, 8, 21, 14]),
    ("file_queue", 7, &[4, 15]),
    ("join", 0, &[18]),
    ("slot", 0, &[16, 18]),
];

const KINDS: &[&str] = &[
    "read: another section number",
    "read: missing value",
    "read: accepted 1 without a template",
    "part: list of section 3 shown",
    "part: time range shown",
    "part: members shown",
    "part: coordinates shown",
    "part: empty part of an accepted section",
    "part: empty part of a refused section",
    "part: another part number",
    "unpack: row written",
    "unpack: row of no places",
    "list: kept",
    "list: passed",
    "list: refused",
    "list: text written",
    "file: kept",
    "file: passed",
    "file_queue: kept",
    "file_queue: passed",
    "file_queue: refused",
    "join: no slot changed",
    "join: a slot changed",
    "slot: empty",
    "slot: held",
    "shelf: as an entry writes it",
    "shelf: as no entry writes it",
    "shelf: too short",
    "shelf: too long",
    "shelf: too little beside it",
    GREATEST_PRODUCT,
    LONG,
];

/// The total's refusals that each section can have: 7 catches sections 1 and 5 that are too short.
const BY_TOTAL: &[(u8, u8)] = &[(11, 3), (11, 4), (21, 1), (21, 3), (21, 4), (21, 5)];

/// How far a section is from its total, or that it is as long as one may be.
pub const BY_ONE_OCTET: &str = "by one octet";
pub const AT_THE_LIMIT: &str = "of 65,536 octets";

pub fn total_kind(number: u8, section: u8, how: &str) -> String {
    format!("read: {number} of section {section} {how}")
}

/// The number of points that a section 3 states, beside Ni x Nj or the sum of its list.
#[derive(Clone, Copy, Debug, PartialEq)]
pub enum Beside {
    Equal,
    Above,
    Below,
    None,
}

pub fn points_kind(accepted: bool, has_list: bool, bit_8: bool, beside: Beside) -> String {
    let answer = if accepted { "accepted" } else { "13" };
    let list = if has_list { "a list" } else { "no list" };
    let bit = if bit_8 { "set" } else { "clear" };
    format!("read: {answer} with {list}, bit 8 {bit}, points {beside:?}")
}

/// Each list, bit and number of points, with the answer that document 01 has for it: the bit makes a difference without a list alone.
fn every_points_kind() -> Vec<String> {
    let mut kinds = vec![];
    for beside in [Beside::Equal, Beside::Above, Beside::Below, Beside::None] {
        let equal = beside == Beside::Equal;
        kinds.extend([true, false].map(|bit_8| points_kind(equal, true, bit_8, beside)));
        kinds.push(points_kind(true, false, true, beside));
        kinds.push(points_kind(equal, false, false, beside));
    }
    kinds
}

/// 13 where Ni x Nj has all 64 bits.
pub const GREATEST_PRODUCT: &str = "read: 13 for a product of all 64 bits";

/// Inputs of tens of thousands of octets.
const LONG: &str = "long inputs";
const MANY_OCTETS: usize = 40_000;

pub fn width_kind(bits: u64) -> String {
    format!("unpack: row of width {bits:2}")
}

pub fn template_kind(entry: &str, section: u8, template: u64) -> String {
    format!("{entry}: accepted {section}.{template}")
}

/// The kinds above, the total's refusals at their limits, the points, each width of a row, each template of a section and those of messages.
fn every_kind() -> Vec<String> {
    let named = KINDS.iter().map(|kind| kind.to_string());
    let read = every_template().map(|(section, template)| template_kind("read", section, template));
    let with_parts = every_template().filter(|(section, _)| matches!(section, 3 | 4));
    let shown = with_parts.map(|(section, template)| template_kind("part", section, template));
    let by_total = BY_TOTAL.iter().flat_map(|&(number, section)| {
        [BY_ONE_OCTET, AT_THE_LIMIT].map(|how| total_kind(number, section, how))
    });
    named
        .chain(by_total)
        .chain(every_points_kind())
        .chain((0..=32).map(width_kind))
        .chain(read)
        .chain(shown)
        .chain(messages::every_kind())
        .collect()
}

/// Section and number of each listed template; data has the packing's.
fn every_template() -> impl Iterator<Item = (u8, u64)> {
    let identifications = identification::WITH_TEMPLATE.iter();
    let grids = grid::TEMPLATES.iter().map(|listed| (3, listed.number));
    let products = product::TEMPLATES.iter().map(|listed| (4, listed.number));
    identifications
        .filter_map(|form| Some((1, form.template?)))
        .chain(grids)
        .chain(products)
        .chain([(5, 0), (7, 0)])
}
