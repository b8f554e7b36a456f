//! The stored cases: what the programs are run on, and what they must print. Expected is what the reference answers, and of messages that
//! an independent decoder has read what the decoder answers; never what the programs print. Where document 01 itself says what comes of
//! an input, or whoever chose it said so beforehand, the case holds that too.

mod answer;
mod asked;
mod build;
pub mod decoded;
pub mod demo;
mod messages;
mod queue_edges;
mod queue_records;
mod queues;
mod section1;
mod section3;
mod section4;
mod section5;
mod shelves;

pub use asked::Asked;
pub use messages::EXAMPLE_CONTENTS;
pub use queues::EXAMPLE_LISTING;

use crate::reference::{contents, explanation, listing};
use answer::Shelves;

/// What is asked of the program `cases`, and what it must print.
pub struct Case {
    pub shows: String,
    pub asked: Asked,
    pub printed: String,
}

/// Cases in their order, since each may change the shelves for those after it.
pub struct Cases {
    list: Vec<Case>,
    of: &'static str,
    shelves: Shelves,
}

impl Cases {
    fn new() -> Cases {
        Cases {
            list: vec![],
            of: "",
            shelves: Shelves::empty(),
        }
    }

    /// What the cases that follow are of; their headings begin with it.
    fn begin(&mut self, of: &'static str) {
        self.of = of;
    }

    /// A case of which the whole line is known.
    fn push(&mut self, shows: &str, asked: Asked, printed: String) {
        let shows = format!("{}{shows}", self.of);
        self.list.push(Case {
            shows,
            asked,
            printed,
        });
    }

    fn add(&mut self, shows: &str, asked: Asked) {
        let printed = self.shelves.answer(&asked);
        self.push(shows, asked, printed);
    }

    /// A case of which words that are printed are known beforehand.
    fn stated(&mut self, shows: &str, asked: Asked, stated: &str) {
        let answer = self.shelves.in_full(&asked) + " ";
        assert!(
            answer.contains(stated),
            "{shows}: the reference says {answer}"
        );
        self.add(shows, asked);
    }
}

/// What the reference answers where no shelf is asked for.
pub fn by_reference(asked: &Asked) -> String {
    Shelves::empty().answer(asked)
}

/// All cases of the program `cases`.
pub fn all() -> Vec<Case> {
    let mut cases = Cases::new();
    section1::add(&mut cases);
    section3::add(&mut cases);
    section4::add(&mut cases);
    section5::add(&mut cases);
    shelves::add(&mut cases);
    decoded::add(&mut cases);
    queues::add(&mut cases);
    messages::add(&mut cases);
    cases.list
}

/// The two files of the program `cases`. A heading, where it changes, is both a line of input and a line that is printed.
fn of_cases() -> [(String, Vec<u8>); 2] {
    let (mut stdin, mut stdout) = (String::new(), String::new());
    let mut heading = String::new();
    for case in all() {
        if case.shows != heading {
            heading = case.shows;
            stdin += &format!("# {heading}\n");
            stdout += &format!("# {heading}\n");
        }
        stdin += &format!("{}\n", case.asked.line());
        stdout += &format!("{}\n", case.printed);
    }
    // What is behind that is not read (`INPUT` of crates/cases).
    assert!(
        stdin.len() <= 3_000_000,
        "crates/cases has no room for all of its cases"
    );
    two_files("cases", stdin.into(), stdout)
}

fn two_files(program: &str, stdin: Vec<u8>, stdout: String) -> [(String, Vec<u8>); 2] {
    [
        (format!("crates/{program}/stdin"), stdin),
        (format!("crates/{program}/stdout"), stdout.into()),
    ]
}

/// Every file that is written, by its path in the repository.
pub fn files() -> Vec<(String, Vec<u8>)> {
    let (example, spoilt) = (queues::example(), demo::spoilt_records());
    let (listed, explained) = (listing(&example), explanation(&spoilt));
    let mut files = Vec::from(of_cases());
    files.extend(two_files("listing", example, listed));
    files.extend(two_files("explain", spoilt, explained));
    let message = messages::several_groups();
    let told = contents(&message);
    files.extend(two_files("fields", message, told));
    for (name, queue) in demo::files() {
        files.push((format!("demo/{name}"), queue));
    }
    files
}
