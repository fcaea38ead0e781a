// SPDX-License-Identifier: Apache-2.0 AND BSD-3-Clause
//! Random runs on mem.rs and the proved device at once; see `--help`.

use std::env;
use std::process::exit;
use std::time::{Duration, Instant};

use both::pair::{chain, Call, Pair, Seen};
use both::rings::{Layout, Put};
use oracle::chains;
use oracle::generate::{first_line, granted, host_answer, next_op, start, LONG};
use oracle::random::Random;
use oracle::trace::{First, Op};

const HELP: &str = "\
both [--queue] [--drop-in] SEED SECONDS    runs from SEED on until the time is over; ends at the first difference
both [--queue] [--drop-in] SEED            the run of this seed alone
--queue: requests are served from ring to ring
--drop-in: the drop-in takes part, and is held against both";

/// What runs are about.
#[derive(Clone, Copy)]
struct Kind {
    queue: bool,
    drop_in: bool,
}

/// The devices of a run: where their rings lie, if they are served from ring to ring, and whether the drop-in is among them.
#[derive(Clone, Copy)]
struct Devices {
    layout: Option<Layout>,
    drop_in: bool,
}

impl Devices {
    fn make(self, first: &First) -> Result<Option<Pair>, String> {
        Pair::make(first, self.layout, self.drop_in)
    }
}

/// Calls of a run after placing, and chains of a run of chains.
const CALLS: u64 = 400;
const CHAINS: u64 = 50;

/// A call with the host's answers to its questions.
type Line = (Call, Vec<(bool, u64)>);

fn main() {
    let mut args: Vec<String> = env::args().skip(1).collect();
    let mut given = |flag: &str| {
        let found = args.iter().position(|arg| arg == flag);
        found.map(|at| args.remove(at)).is_some()
    };
    let kind = Kind {
        queue: given("--queue"),
        drop_in: given("--drop-in"),
    };
    let args: Option<Vec<u64>> = args.iter().map(|arg| arg.parse().ok()).collect();
    let (seed, seconds) = match args.as_deref() {
        Some(&[seed]) => (seed, 0),
        Some(&[seed, seconds]) => (seed, seconds),
        _ => {
            eprintln!("{HELP}");
            exit(2)
        }
    };
    let began = Instant::now();
    let (mut calls, mut runs) = (0, 0);
    let mut seen = Seen::new();
    for seed in seed.. {
        match run(seed, kind, &mut seen) {
            Ok(done) => calls += done,
            Err(said) => {
                println!("seed {seed} differs:\n{said}");
                exit(1)
            }
        }
        runs += 1;
        if began.elapsed() >= Duration::from_secs(seconds) {
            break;
        }
    }
    let took = began.elapsed().as_secs();
    println!("{calls} calls compared in {runs} runs from seed {seed}, 0 differ ({took} s)");
    for ((what, number), count) in seen {
        println!("  {count:9} {what} {number}");
    }
}

/// The calls of one seed; where they differ, what and after which ones.
fn run(seed: u64, kind: Kind, seen: &mut Seen) -> Result<u64, String> {
    let mut random = Random::new(seed);
    let layout = kind.queue.then(|| Layout::any(&mut random));
    let devices = Devices {
        layout,
        drop_in: kind.drop_in,
    };
    if !kind.queue && random.chance(10) {
        return run_chains(&mut random, kind.drop_in, seen);
    }
    let mut first = first_line(&mut random);
    let mut lines = Vec::new();
    let said = match run_calls(&mut random, &mut first, devices, &mut lines, seen) {
        Ok(calls) => return Ok(calls),
        Err(said) => said,
    };
    let (said, lines) = shorter(&first, devices, said, lines);
    let mut text = format!("{first}\n");
    if let Some(layout) = layout {
        text += &format!("{layout:?}\n");
    }
    for (call, answers) in &lines {
        text += &format!("{call}\n");
        for &(ok, addr) in answers {
            text += &format!("{}\n", Op::Host { ok, addr });
        }
    }
    Err(text + &said)
}

fn run_chains(random: &mut Random, drop_in: bool, seen: &mut Seen) -> Result<u64, String> {
    let mut calls = 0;
    for _ in 0..CHAINS {
        let case = chains::chain(random);
        let done = chain(&case, drop_in, seen);
        calls += done.map_err(|said| format!("{case}\n{said}"))?;
    }
    Ok(calls)
}

/// Makes, places and drives both devices, and writes each call down before it is made.
fn run_calls(
    random: &mut Random,
    first: &mut First,
    devices: Devices,
    lines: &mut Vec<Line>,
    seen: &mut Seen,
) -> Result<u64, String> {
    let layout = devices.layout;
    let Some(mut pair) = devices.make(first)? else {
        *seen.entry(("make, number", 1)).or_default() += 1;
        return Ok(1);
    };
    first.addr = start(random, &mut pair.rust);
    if random.chance(10) {
        let (slots, bytes) = random.pick(&[(1, 0), (-1, 0), (0, 4 << 20), (0, -1), (600, 1)]);
        step(random, &mut pair, placing(first, slots, bytes), lines)?;
    }
    step(random, &mut pair, placing(first, 0, 0), lines)?;
    let calls = if pair.placed() {
        random.below(CALLS)
    } else {
        0
    };
    let wakes = layout.map_or(0, |_| random.pick(&[100, 20, 1]));
    for done in 0..calls {
        if pair.over() {
            break;
        }
        let call = match random.chance(10) {
            true => read(random),
            false => next_call(random, &mut pair, layout, wakes, done < 2),
        };
        step(random, &mut pair, call, lines)?;
        if layout.is_some() && random.chance(wakes) {
            step(random, &mut pair, Call::Wake, lines)?;
        }
    }
    for (&what, count) in &pair.seen {
        *seen.entry(what).or_default() += count;
    }
    Ok(pair.calls)
}

/// A line; with rings a request is a chain that is made available. An unplug-all wakes, so where wakes are rare it is too.
fn next_call(
    random: &mut Random,
    pair: &mut Pair,
    layout: Option<Layout>,
    wakes: u64,
    early: bool,
) -> Call {
    loop {
        let (op, _) = next_op(random, &mut pair.rust, LONG, early);
        return match (op, layout) {
            (Op::UnplugAll, Some(_)) if !random.chance(wakes) => continue,
            (Op::Size { .. }, _) | (_, None) => Call::Op(op),
            (_, Some(layout)) => Call::Put(Put::any(random, op, &layout)),
        };
    }
}

fn read(random: &mut Random) -> Call {
    let (offset, length) = (random.below(64), random.below(80) as usize);
    Call::Read {
        offset: random.pick(&[0, 8, 55, 56, 57, u64::MAX, 1 << 32, offset, offset]),
        length: random.pick(&[0, 1, 8, 56, 57, length, length]),
    }
}

fn placing(first: &First, slots: i64, bytes: i64) -> Call {
    Call::Place {
        start: first.addr,
        slots,
        bytes,
    }
}

fn step(
    random: &mut Random,
    pair: &mut Pair,
    call: Call,
    lines: &mut Vec<Line>,
) -> Result<(), String> {
    let mut answers = Vec::new();
    let granted = match call {
        Call::Op(op) => granted(random, op, LONG),
        Call::Put(put) if put.is_last() => granted(random, Op::UnplugAll, LONG),
        _ => false,
    };
    let done = pair.step(call, &mut |want| {
        let answer = host_answer(random, want, granted);
        answers.push(answer);
        answer
    });
    lines.push((call, answers));
    done
}

/// What differs first, and the calls up to there.
type Differs = (String, Vec<Line>);

/// The same calls with the same answers; a question too many is answered by failure.
fn replayed(first: &First, devices: Devices, lines: &[Line]) -> Result<(), Differs> {
    let made = devices.make(first).map_err(|said| (said, Vec::new()))?;
    let Some(mut pair) = made else {
        return Ok(());
    };
    let mut run = Vec::new();
    for (call, answers) in lines {
        if !pair.placed() && !matches!(call, Call::Place { .. }) {
            return Ok(());
        }
        let (mut answers, mut used) = (answers.iter().copied(), Vec::new());
        let done = pair.step(*call, &mut |_| {
            let answer = answers.next().unwrap_or((false, 0));
            used.push(answer);
            answer
        });
        run.push((*call, used));
        if let Err(said) = done {
            return Err((said, run));
        }
        if pair.over() {
            return Ok(());
        }
    }
    Ok(())
}

/// The shortest prefix is what was written down; calls in it that are not needed are left out.
fn shorter(first: &First, devices: Devices, mut said: String, mut lines: Vec<Line>) -> Differs {
    for at in (0..lines.len()).rev() {
        let mut without = lines.clone();
        if at < without.len() {
            without.remove(at);
        }
        if let Err(differs) = replayed(first, devices, &without) {
            (said, lines) = differs;
        }
    }
    (said, lines)
}
