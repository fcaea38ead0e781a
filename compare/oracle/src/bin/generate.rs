// SPDX-License-Identifier: Apache-2.0 AND BSD-3-Clause
//! Writes random traces and what mem.rs prints for each; see `--help`.

use std::collections::BTreeSet;
use std::env;
use std::fs;
use std::path::Path;
use std::process::exit;

use oracle::chains::chain;
use oracle::generate::{trace, Trace, LONG, SHORT};
use oracle::lines::{traces_of, with_reasons};
use oracle::random::Random;
use oracle::trace::replayed;

const HELP: &str = "\
generate files SEED COUNT DIR    COUNT traces as DIR/SEED.in and DIR/SEED.rust, seeds counting up
generate sample EDGES SEED COUNT the traces of the file EDGES, then short random ones chosen for their
                                 variety, COUNT together, on the standard output
generate reasons FILE            the sample of the file, with the reason of each response by its lines and answers
                                 alone, likewise
generate reasons TRACE ANSWERS   the answers of a trace, likewise
generate chains SEED COUNT       COUNT chains, each with its outcome on the next line, likewise";

/// Candidates for each trace of a sample.
const CANDIDATES: u64 = 100;

fn main() {
    let args: Vec<String> = env::args().skip(1).collect();
    let args: Vec<&str> = args.iter().map(|arg| arg.as_str()).collect();
    match args[..] {
        ["files", seed, count, dir] => files(number(seed), number(count), Path::new(dir)),
        ["sample", edges, seed, count] => sample(edges, number(seed), number(count)),
        ["reasons", file] => {
            for (input, output) in traces_of(&read(file)) {
                print_trace(&input, &reasons(&input, &output));
            }
        }
        ["reasons", trace, answers] => {
            let split =
                |text: String| -> Vec<String> { text.lines().map(str::to_string).collect() };
            let (input, output) = (split(read(trace)), split(read(answers)));
            print!("{}", lines(&reasons(&input, &output)));
        }
        ["chains", seed, count] => chains(number(seed), number(count)),
        _ => {
            eprintln!("{HELP}");
            exit(2)
        }
    }
}

fn number(text: &str) -> u64 {
    text.parse().unwrap_or_else(|_| {
        eprintln!("{text} is no number\n{HELP}");
        exit(2)
    })
}

fn read(file: &str) -> String {
    fs::read_to_string(file).unwrap_or_else(|e| panic!("{file}: {e}"))
}

/// The answers with their reasons.
fn reasons(input: &[String], output: &[String]) -> Vec<String> {
    with_reasons(input, output).unwrap_or_else(|wrong| {
        eprintln!("{wrong}");
        exit(1)
    })
}

fn lines(of: &[String]) -> String {
    of.iter().map(|line| format!("{line}\n")).collect()
}

fn files(seed: u64, count: u64, dir: &Path) {
    fs::create_dir_all(dir).expect("the folder can be made");
    for seed in seed..seed + count {
        let made = trace(seed, LONG);
        for (end, text) in [("in", &made.input), ("rust", &made.output)] {
            let file = dir.join(format!("{seed}.{end}"));
            fs::write(file, lines(text)).expect("the file can be written");
        }
    }
}

fn print_trace(input: &[String], output: &[String]) {
    print!("{}--\n{}\n", lines(input), lines(output));
}

/// Traces written by hand, an empty line between them; a line with `#` is a remark.
fn edges(file: &str) -> Vec<Vec<String>> {
    let text = read(file);
    let trace = |block: &str| {
        let lines = block.lines().filter(|line| !line.starts_with('#'));
        lines.map(str::to_string).collect()
    };
    text.split_terminator("\n\n").map(trace).collect()
}

/// After the traces by hand takes, again and again, the candidate that shows most new things for
/// its bytes.
fn sample(file: &str, seed: u64, count: u64) {
    let edges = edges(file);
    for input in &edges {
        let output = replayed(input).unwrap_or_else(|e| panic!("{}: {e}", input.join("\n")));
        assert_eq!(
            input.len(),
            output.len(),
            "goes on past a refusal: {input:?}"
        );
        print_trace(input, &output);
    }
    let count = count - edges.len() as u64;
    let seeds = seed..seed + CANDIDATES * count;
    let mut candidates: Vec<Trace> = seeds.map(|seed| trace(seed, SHORT)).collect();
    let mut shown = BTreeSet::new();
    for _ in 0..count {
        let worth = |t: &Trace| {
            let new = t.kinds.iter().filter(|&kind| !shown.contains(kind)).count();
            new * 1_000_000 / (t.bytes() + 200)
        };
        let best = (0..candidates.len()).max_by_key(|&i| (worth(&candidates[i]), usize::MAX - i));
        let chosen = candidates.swap_remove(best.expect("more candidates than traces"));
        print_trace(&chosen.input, &chosen.output);
        shown.extend(chosen.kinds);
    }
}

fn chains(seed: u64, count: u64) {
    let mut random = Random::new(seed);
    for _ in 0..count {
        let case = chain(&mut random);
        println!("{case}\n{}", case.served());
    }
}
