// SPDX-License-Identifier: Apache-2.0 AND BSD-3-Clause
//! Holds a program that reads traces against mem.rs; see `--help`.

use std::env;
use std::fs;
use std::io::Write;
use std::process::{exit, Command, Stdio};

use oracle::chains::Chain;
use oracle::generate::{trace, LONG};
use oracle::lines::{traces_of, with_reasons};
use oracle::trace::{replayed, without_why};

const HELP: &str = "\
compare sample FILE                         mem.rs prints what the sample says
compare sample FILE PROGRAM [ARG..]         so does PROGRAM, which reads a trace on its input
compare reasons FILE..                      each response of the samples has the reason that lines and answers tell
compare chains FILE                         mem.rs serves each chain as the file says
compare random SEED COUNT PROGRAM [ARG..]   PROGRAM and mem.rs print the same, seeds counting up
The reason, why=N, is a model's: mem.rs has none. What differs in it alone is told apart.";

fn main() {
    let args: Vec<String> = env::args().skip(1).collect();
    let args: Vec<&str> = args.iter().map(|arg| arg.as_str()).collect();
    let same = match args[..] {
        ["sample", file] => sample(file, |input| replayed(input).unwrap_or_else(|e| vec![e])),
        ["reasons", ref files @ ..] if !files.is_empty() => reasons(files),
        ["chains", file] => chains(file),
        ["sample", file, ref program @ ..] => sample(file, |input| printed(program, input)),
        ["random", seed, count, ref program @ ..] if !program.is_empty() => {
            random(number(seed), number(count), |input| printed(program, input))
        }
        _ => {
            eprintln!("{HELP}");
            exit(2)
        }
    };
    exit(i32::from(!same))
}

fn number(text: &str) -> u64 {
    text.parse().unwrap_or_else(|_| {
        eprintln!("{text} is no number\n{HELP}");
        exit(2)
    })
}

fn split(text: &str) -> Vec<String> {
    text.lines().map(str::to_string).collect()
}

/// What a program prints for a trace.
fn printed(program: &[&str], input: &[String]) -> Vec<String> {
    let mut child = Command::new(program[0])
        .args(&program[1..])
        .stdin(Stdio::piped())
        .stdout(Stdio::piped())
        .spawn()
        .unwrap_or_else(|e| panic!("{}: {e}", program[0]));
    let mut text = input.join("\n");
    text.push('\n');
    let mut stdin = child.stdin.take().expect("piped");
    // A program may end before it has read everything. Its output is taken while it is fed.
    let feeder = std::thread::spawn(move || stdin.write_all(text.as_bytes()).is_ok());
    let output = child.wait_with_output().expect("the program ends");
    feeder.join().expect("fed");
    split(&String::from_utf8_lossy(&output.stdout))
}

/// How two outputs differ: in what mem.rs prints, or in the reason alone, which it has not.
#[derive(Clone, Copy, PartialEq, Eq)]
enum Differs {
    Lines,
    ReasonAlone,
}

fn differs(one: &[String], other: &[String]) -> Option<Differs> {
    let lines = |of: &[String]| -> Vec<String> {
        let lines = of.iter().map(|line| without_why(line).to_string());
        lines.collect()
    };
    if one == other {
        None
    } else if lines(one) == lines(other) {
        Some(Differs::ReasonAlone)
    } else {
        Some(Differs::Lines)
    }
}

/// Shows a trace on which two outputs differ.
fn show(input: &[String], rust: &[String], theirs: &[String]) {
    println!("{}", input.join("\n"));
    let lines = rust.len().max(theirs.len());
    let none = "(nothing)".to_string();
    for i in 0..lines {
        let (rust, theirs) = (rust.get(i).unwrap_or(&none), theirs.get(i).unwrap_or(&none));
        if rust == theirs {
            println!("    {rust}");
        } else {
            println!("  < {rust}\n  > {theirs}");
        }
    }
}

fn sample(file: &str, run: impl Fn(&[String]) -> Vec<String>) -> bool {
    let text = fs::read_to_string(file).unwrap_or_else(|e| panic!("{file}: {e}"));
    let (mut traces, mut differ, mut reasons) = (0, 0, 0);
    for (input, expected) in traces_of(&text) {
        let got = run(&input);
        traces += 1;
        match differs(&expected, &got) {
            None => continue,
            Some(Differs::Lines) => differ += 1,
            Some(Differs::ReasonAlone) => reasons += 1,
        }
        show(&input, &expected, &got);
    }
    println!("{traces} traces of the sample, {differ} differ; {reasons} in why= alone");
    (differ, reasons) == (0, 0)
}

fn reasons(files: &[&str]) -> bool {
    let (mut responses, mut differ) = (0, 0);
    for file in files {
        let text = fs::read_to_string(file).unwrap_or_else(|e| panic!("{file}: {e}"));
        for (input, output) in traces_of(&text) {
            let told = with_reasons(&input, &output).unwrap_or_else(|e| vec![e]);
            responses += told.iter().filter(|line| line.contains(" why=")).count();
            if told != output {
                differ += 1;
                show(&input, &told, &output);
            }
        }
    }
    println!("{responses} reasons by lines and answers alone, {differ} traces differ");
    differ == 0
}

fn chains(file: &str) -> bool {
    let text = fs::read_to_string(file).unwrap_or_else(|e| panic!("{file}: {e}"));
    let lines: Vec<&str> = text.lines().collect();
    let (mut chains, mut differ) = (0, 0);
    for pair in lines.chunks_exact(2) {
        let case = Chain::parse(pair[0]).expect("base, table, head and memory");
        let served = case.served().to_string();
        chains += 1;
        if served != pair[1] {
            differ += 1;
            println!("{case}\n  < {}\n  > {served}", pair[1]);
        }
    }
    println!("{chains} chains, {differ} differ");
    differ == 0
}

/// Any device that answers a trace can be `run`: a program, or one linked into this one.
fn random(seed: u64, count: u64, run: impl Fn(&[String]) -> Vec<String>) -> bool {
    for seed in seed..seed + count {
        let made = trace(seed, LONG);
        if let Some(how) = differs(&made.output, &run(&made.input)) {
            let how_much = match how {
                Differs::Lines => "differs",
                Differs::ReasonAlone => "differs in why= alone",
            };
            println!("seed {seed} {how_much}; made shorter, `<` mem.rs, `>` the other:");
            let input = shorter(made.input, how, &run);
            let rust = replayed(&input).expect("a trace that can be compared");
            show(&input, &rust, &run(&input));
            return false;
        }
    }
    println!("{count} random traces from seed {seed}, 0 differ, 0 in why= alone");
    true
}

/// Leaves lines out, as long as the outputs still differ so.
fn shorter(
    mut input: Vec<String>,
    how: Differs,
    run: impl Fn(&[String]) -> Vec<String>,
) -> Vec<String> {
    let differs = |input: &[String]| match replayed(input) {
        Ok(rust) => differs(&rust, &run(input)) == Some(how),
        Err(_) => false,
    };
    let mut at = input.len();
    while at > 1 {
        at -= 1;
        if at >= input.len() || input[at].starts_with("op=host") {
            continue;
        }
        // A line goes with the answers to its questions.
        let answers = input[at + 1..]
            .iter()
            .take_while(|line| line.starts_with("op=host"));
        let end = at + 1 + answers.count();
        let mut without = input.clone();
        without.drain(at..end);
        if differs(&without) {
            input = without;
        }
    }
    input
}
