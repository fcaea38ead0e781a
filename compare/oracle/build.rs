// SPDX-License-Identifier: Apache-2.0 AND BSD-3-Clause
//! Finds mem.rs where the variable MEM_RS says, so that none of its text stands in this repository.

use std::env;
use std::path::Path;
use std::process::exit;

fn main() {
    println!("cargo:rerun-if-env-changed=MEM_RS");
    let named = env::var("MEM_RS").unwrap_or_else(|_| "../shared/docs/src/mem.rs.txt".to_string());
    let manifest = env::var("CARGO_MANIFEST_DIR").expect("cargo sets it");
    let root = Path::new(&manifest).join("../..");
    let file = root.join(&named); // an absolute name stays as it is
    let file = file.canonicalize().unwrap_or_else(|e| {
        eprintln!("MEM_RS names {named}, taken from the repository's root: {e}");
        exit(1)
    });
    println!("cargo:rerun-if-changed={}", file.display());
    println!("cargo:rustc-env=MEM_RS_FILE={}", file.display());
}
