// SPDX-License-Identifier: Apache-2.0 AND BSD-3-Clause
//! Reads a trace on the standard input and prints what the unchanged mem.rs does.
//!
//! Ends with 0 when the whole trace was run; with 3, and the reason on the standard error, at the
//! first line that lies outside what can be compared.

use std::io;
use std::process::exit;

use oracle::trace::{replay, Run};

fn main() {
    let lines = io::stdin().lines().map(|line| line.expect("text"));
    let step = |run: &mut Run, op| (run.step(op), true);
    if let Err(outside) = replay(lines, step, |line| println!("{line}")) {
        eprintln!("{outside}");
        exit(3)
    }
}
