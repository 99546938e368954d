//! Links the archive that MONITOR_LIB names; without it, the one that `make
//! lib` built. A relative path starts at this package's folder.

use std::env;
use std::fs;
use std::path::Path;

const BUILT: &str = "../../target/staticlib/libmonitor.a";

fn main() {
    println!("cargo:rerun-if-env-changed=MONITOR_LIB");
    match env::var("MONITOR_LIB") {
        Ok(archive) if !archive.is_empty() => link(&archive),
        _ => link(BUILT),
    }
}

/// Copies the archive under a name of its own, whatever it was called, and
/// links the copy.
fn link(archive: &str) {
    println!("cargo:rerun-if-changed={archive}");
    let folder = env::var("OUT_DIR").expect("cargo gives OUT_DIR");
    let copy = Path::new(&folder).join("libmonitor_under_test.a");
    if let Err(problem) = fs::copy(archive, &copy) {
        panic!("{archive}: {problem}. `make lib` builds the archive, or MONITOR_LIB names it.");
    }
    println!("cargo:rustc-link-search=native={folder}");
    println!("cargo:rustc-link-lib=static=monitor_under_test");
    println!("cargo:rustc-env=LIBRARY_UNDER_TEST={archive}");
}
