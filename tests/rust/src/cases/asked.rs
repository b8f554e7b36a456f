//! A case's line of input.

/// What a line asks for.
#[derive(Clone)]
pub enum Asked {
    /// A section of this number, to its reader.
    Section(u8, Vec<u8>),
    /// Sections 5 and 7, and the places of the row that they are unpacked into.
    Unpacking(Vec<u8>, Vec<u8>, usize),
    /// A field to a slot; no issue is named where it is `None`.
    Filing(u64, Option<u32>, [Vec<u8>; 5]),
    /// A field to a slot after a repair.
    BenchReload(u64, [Vec<u8>; 5]),
    /// The shelf emptied.
    Empty,
    /// The shelf and the other one changed over.
    ChangeOver,
    /// The other shelf joined in.
    Join,
    /// What the shelf holds.
    Show,
    /// The listing and the explanation of a queue.
    Queue(Vec<u8>),
    /// The contents of a message.
    Message(Vec<u8>),
}

pub fn hex(octets: &[u8]) -> String {
    octets.iter().map(|octet| format!("{octet:02x}")).collect()
}

/// Length and octets; those that equal the last one before them are left to the length.
fn run(octets: &[u8]) -> String {
    let Some(last) = octets.last() else {
        return "0".to_string();
    };
    let differs = octets.iter().rposition(|octet| octet != last);
    let written = differs.map_or(1, |at| at + 2);
    format!("{} {}", octets.len(), hex(&octets[..written]))
}

fn field(order: &str, slot: u64, issue_plus_1: u64, sections: &[Vec<u8>; 5]) -> String {
    let runs: Vec<String> = sections.iter().map(|section| run(section)).collect();
    format!("{order} {slot} {issue_plus_1} / {}", runs.join(" / "))
}

impl Asked {
    pub fn line(&self) -> String {
        match self {
            Asked::Section(section, s) => format!("{section} {}", run(s)),
            Asked::Unpacking(five, seven, places) => {
                format!("7 {} / {} / {places}", run(five), run(seven))
            }
            Asked::Filing(slot, issue, sections) => {
                let issue_plus_1 = issue.map_or(0, |issue| u64::from(issue) + 1);
                field("f", *slot, issue_plus_1, sections)
            }
            Asked::BenchReload(slot, sections) => field("b", *slot, 0, sections),
            Asked::Empty => "e".to_string(),
            Asked::ChangeOver => "x".to_string(),
            Asked::Join => "j".to_string(),
            Asked::Show => "s".to_string(),
            Asked::Queue(queue) => format!("q {}", run(queue)),
            Asked::Message(message) => format!("m {}", run(message)),
        }
    }
}
