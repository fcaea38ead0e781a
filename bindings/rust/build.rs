// SPDX-License-Identifier: Apache-2.0 AND BSD-3-Clause
//! Links the static library, libjambcopper.a, which bin/library proves and writes to target/staticlib of the repository.
//! JAMBCOPPER_LIB names another folder that has it: a path from the repository's root, or an absolute one.
//! It is for x86-64.
//!
//! compare/both has this script too.

use std::env;
use std::path::PathBuf;

fn main() {
    println!("cargo:rerun-if-env-changed=JAMBCOPPER_LIB");
    // Each crate with this script lies two folders below the root.
    let root = PathBuf::from(env::var_os("CARGO_MANIFEST_DIR").unwrap()).join("../..");
    let named = env::var_os("JAMBCOPPER_LIB").filter(|named| !named.is_empty());
    let folder = root.join(named.unwrap_or_else(|| "target/staticlib".into()));
    let library = folder.join("libjambcopper.a");
    assert!(
        library.exists(),
        "{} is not there: run bin/library, or have JAMBCOPPER_LIB name its folder from the repository's root",
        library.display()
    );
    let machine = env::var("CARGO_CFG_TARGET_ARCH").unwrap_or_default();
    if machine != "x86_64" {
        println!("cargo:warning=libjambcopper.a is for x86-64, and no program for {machine} can link it: see bin/x86-cargo");
    }
    println!("cargo:rerun-if-changed={}", library.display());
    println!("cargo:rustc-link-search=native={}", folder.display());
    println!("cargo:rustc-link-lib=static=jambcopper");
}
