//! The tests are of an archive that is named, BARRIER_LIB_DIR=/whole/path: the
//! proved one, say. Without the name barrier_engine compiles the C, and a run
//! would show that of the C and seem to show it of the archive.

use std::env;
use std::process::exit;

fn main() {
    println!("cargo:rerun-if-env-changed=BARRIER_LIB_DIR");
    if env::var("DEP_BARRIER_ENGINE_FROM").as_deref() != Ok("archive") {
        eprintln!("Name the folder of the archive that is tested: BARRIER_LIB_DIR=/whole/path");
        exit(1);
    }
}
