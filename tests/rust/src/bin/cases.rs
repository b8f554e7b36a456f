//! Writes what the programs are run on and what they must print, worked out by the reference and from an independent decoder's answers
//! (`skogmund_tests::cases`), and the demonstration queues.
//!
//!   cases            writes stdin and stdout of crates/cases, crates/listing, crates/explain and crates/fields, and demo/
//!   cases --check    only says whether they are as they would be written; the status is 1 where they are not
use skogmund_tests::cases::files;
use std::path::PathBuf;
use std::process::ExitCode;
use std::{env, fs};

fn in_repository(name: &str) -> PathBuf {
    let package = PathBuf::from(env!("CARGO_MANIFEST_DIR"));
    package.join("../..").join(name)
}

fn check() -> ExitCode {
    let is_stale = |name: &str, octets: Vec<u8>| fs::read(in_repository(name)).ok() != Some(octets);
    let files = files().into_iter();
    let stale = files.filter_map(|(name, octets)| is_stale(&name, octets).then_some(name));
    let stale: Vec<String> = stale.collect();
    if stale.is_empty() {
        println!("as written");
        return ExitCode::SUCCESS;
    }
    println!("stale: {}", stale.join(" "));
    ExitCode::FAILURE
}

fn write() -> ExitCode {
    for (name, octets) in files() {
        if let Err(error) = fs::write(in_repository(&name), &octets) {
            eprintln!("{name}: {error}");
            return ExitCode::FAILURE;
        }
        println!("{} octets: {name}", octets.len());
    }
    ExitCode::SUCCESS
}

fn main() -> ExitCode {
    let words: Vec<String> = env::args().skip(1).collect();
    let words: Vec<&str> = words.iter().map(String::as_str).collect();
    match words[..] {
        [] => write(),
        ["--check"] => check(),
        _ => {
            eprintln!("usage: cases, or cases --check");
            ExitCode::from(2)
        }
    }
}
