//! Links `libskogmund.a` and `libunpacking.a` from the directory in SKOGMUND_LIB, or else from the one in which `tools/library` writes
//! them, for x86-64. Without both the cfg `no_library` leaves out what needs them, so that the reference's own tests still run.
use std::env;
use std::path::PathBuf;

const LIBRARIES: [&str; 2] = ["skogmund", "unpacking"];

fn library_directory() -> PathBuf {
    let package =
        PathBuf::from(env::var_os("CARGO_MANIFEST_DIR").expect("cargo names the package"));
    match env::var_os("SKOGMUND_LIB") {
        // A relative directory is the package's, not that of whoever called cargo.
        Some(named) => package.join(named),
        None => package.join("../../target/staticlib"),
    }
}

fn main() {
    let directory = library_directory();
    let archive = |library: &str| directory.join(format!("lib{library}.a"));
    println!("cargo::rustc-check-cfg=cfg(no_library)");
    println!("cargo::rerun-if-env-changed=SKOGMUND_LIB");
    for library in LIBRARIES {
        println!("cargo::rerun-if-changed={}", archive(library).display());
    }
    let named = env::var_os("SKOGMUND_LIB").is_some();
    match LIBRARIES.iter().find(|library| !archive(library).is_file()) {
        None => {
            println!("cargo::rustc-link-search=native={}", directory.display());
            for library in LIBRARIES {
                println!("cargo::rustc-link-lib=static={library}");
            }
        }
        // Whoever names a directory wants its libraries tested.
        Some(library) if named => {
            println!("cargo::error=no lib{library}.a in the directory of SKOGMUND_LIB")
        }
        Some(library) => {
            println!(
                "cargo::warning=no lib{library}.a for this processor: only the reference is tested"
            );
            println!("cargo::rustc-cfg=no_library");
        }
    }
}
