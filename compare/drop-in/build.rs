// SPDX-License-Identifier: Apache-2.0 AND BSD-3-Clause
//! Has the drop-in stand where ../oracle has mem.rs.

use std::env;
use std::path::Path;

fn main() {
    let manifest = env::var("CARGO_MANIFEST_DIR").expect("cargo sets it");
    let file = Path::new(&manifest).join("../../bindings/drop-in/mem.rs");
    println!("cargo:rerun-if-changed={}", file.display());
    println!("cargo:rustc-env=MEM_RS_FILE={}", file.display());
}
