// SPDX-License-Identifier: Apache-2.0 AND BSD-3-Clause
//! The library's calls on a queue against a model of them: after each, its number and every word and byte that was lent.
//! `queue_model CALLS SEED` makes so many calls, and `queue_model --guest CALLS SEED` as many of those for a guest that runs; the
//! tests make a few.

#![allow(clippy::incompatible_msrv)] // which is the library's

use std::env;
use std::fmt;
use std::process::exit;

mod chain;
mod fence;
mod inputs;
mod queue;
#[path = "../../../compare/oracle/src/random.rs"]
mod random;
mod regions;
mod running;
#[allow(dead_code)] // the config's part, and the driver's
#[path = "../src/sys.rs"]
mod sys;
mod tally;
#[path = "../../../compare/oracle/src/why.rs"]
mod why;

use fence::Fence;
use inputs::Guest;
use queue::{Held, Memory, Told, ANSWER_WHY};
use random::Random;
use tally::{Calls, Outcomes, Tally, ENDED, SERVED, TOLD};

fn main() {
    let args: Vec<String> = env::args().skip(1).collect();
    let guest = args.first().is_some_and(|arg| arg == "--guest");
    let numbers = args[usize::from(guest)..].iter();
    let numbers: Option<Vec<u64>> = numbers.map(|arg| arg.parse().ok()).collect();
    let Some(&[calls, seed]) = numbers.as_deref() else {
        eprintln!("queue_model [--guest] CALLS SEED");
        exit(2)
    };
    let run = if guest { running::run } else { run };
    let tally = run(calls, seed);
    println!("{tally}");
    exit(i32::from(tally.differ > 0))
}

#[test]
fn the_library_is_the_model() {
    let tally = run(20_000, 1);
    println!("{tally}");
    assert_eq!(tally.differ, 0);
    assert_eq!(tally.missing(), Vec::new());
}

/// A call on a queue.
#[derive(Clone, Copy, Debug)]
enum Call {
    Make([u64; 3]),
    Serve,
    Answer(bool, u64),
}

impl Call {
    fn any(random: &mut Random, held: &Held) -> Call {
        let pending = held.record.get(11).is_some_and(|&pending| pending != 0);
        let any = random.next();
        let host = random.pick(&[0x7f00_0000_0000, 0, u64::MAX, any]);
        match random.below(100) {
            0 => Call::Make([any, random.next(), random.next()]),
            1..=5 => Call::Answer(random.chance(50), host),
            6..=79 if pending => Call::Answer(random.chance(80), host),
            _ => Call::Serve,
        }
    }

    /// Which of [`CALLS`] it is.
    fn which(self) -> usize {
        match self {
            Call::Make(_) => 0,
            Call::Serve => 1,
            Call::Answer(..) => 2,
        }
    }

    fn by_model(self, held: &mut Held, memory: &mut Memory) -> Told {
        match self {
            Call::Make(parts) => queue::make(&mut held.queue, parts),
            Call::Serve => queue::serve(held, memory),
            Call::Answer(ok, host) => queue::serve_answer(held, memory, ok, host),
        }
    }
}

/// The library, each slice between fences of its own.
struct Library([Fence; 6]);

impl Library {
    fn call(&mut self, call: Call, held: &mut Held, memory: &mut Memory, at_end: bool) -> u64 {
        let [record, queue, bitmap, table, answer, mem] = &mut self.0;
        let record = record.lay(&held.record, at_end);
        let queue = queue.lay(&held.queue, at_end);
        let bitmap = bitmap.lay(&held.bitmap, at_end);
        let table = table.lay(&held.table, at_end);
        let answer = answer.lay(&held.answer, at_end);
        let mem = mem.lay(&memory.bytes, at_end);
        let device = sys::Lent {
            record,
            bitmap,
            table,
        };
        let number = match call {
            Call::Make([descriptors, available, used]) => {
                sys::queue_make(queue, descriptors, available, used)
            }
            Call::Serve => device.serve(queue, mem, memory.base, answer),
            Call::Answer(ok, host) => {
                device.serve_answer(queue, mem, memory.base, ok, host, answer)
            }
        };
        held.record.copy_from_slice(record);
        held.queue.copy_from_slice(queue);
        held.bitmap.copy_from_slice(bitmap);
        held.table.copy_from_slice(table);
        held.answer.copy_from_slice(answer);
        memory.bytes.copy_from_slice(mem);
        number
    }
}

/// The outcomes of each call: a number, or that of an answer; that of a response is by its reason.
const MAKE: Outcomes = &[(16, "made"), (12, "12")];
const EMPTY: Outcomes = &[(23, "empty")];
const SERVE: Outcomes = &[
    (20, "unserved"),
    (18, "discard"),
    (12, "12"),
    (7, "7"),
    (5, "5"),
    (11, "11"),
    (14, "14"),
    (15, "15"),
];
const ANSWER: Outcomes = &[
    (18, "discard"),
    (19, "sized"),
    (12, "12"),
    (8, "8"),
    (11, "11"),
    (14, "14"),
    (9, "9"),
    (10, "10"),
];
const CALLS: Calls = &[
    ("make", &[MAKE]),
    ("serve", &[EMPTY, SERVED, SERVE]),
    ("answer", &[ENDED, ANSWER]),
];

fn outcome(told: &Told) -> usize {
    match *told {
        Err(number) => number as usize,
        Ok(words) if words[0] == sys::KIND_SERVED => tally::why(words[ANSWER_WHY]),
        Ok(words) => TOLD + words[0] as usize,
    }
}

fn run(calls: u64, seed: u64) -> Tally {
    let mut random = Random::new(seed);
    let mut library = Library(std::array::from_fn(|_| Fence::new()));
    let mut tally = Tally::new("queue", seed, CALLS);
    while tally.calls < calls {
        let mut guest = Guest::any(&mut random);
        let turns = random.pick(&[40, 100, 300]).min(calls - tally.calls);
        for _ in 0..turns {
            turn(&mut random, &mut library, &mut guest, &mut tally);
        }
    }
    tally
}

/// One call on one device of the guest, by the library and by the model. What was spoiled for it is mostly mended behind it.
fn turn(random: &mut Random, library: &mut Library, guest: &mut Guest, tally: &mut Tally) {
    let which = random.below(guest.devices.len() as u64) as usize;
    let (held, memory) = (&mut guest.devices[which], &mut guest.memory);
    inputs::between(random, memory, held);
    let whole = (held.clone(), memory.clone());
    let spoiled = random.pick(&[0, 0, 0, 0, 0, 0, 0, 1, 1, 3]);
    for _ in 0..spoiled {
        inputs::spoil(random, memory, held);
    }

    let call = Call::any(random, held);
    let (mut modelled, mut modelled_memory) = (held.clone(), memory.clone());
    let told = call.by_model(&mut modelled, &mut modelled_memory);
    let queue = held.queue.clone();
    let number = library.call(call, held, memory, random.chance(70));
    tally.calls += 1;
    tally.count(call.which(), outcome(&told));
    let modelled = (told.err().unwrap_or(0), modelled, modelled_memory);
    if (number, &*held, &*memory) != (modelled.0, &modelled.1, &modelled.2) {
        tally.differ += 1;
        if tally.differ <= 3 {
            eprintln!(
                "call {} differs: {call:?} with the queue {queue:?}",
                tally.calls
            );
            eprintln!("  number {number}, by the model {}", modelled.0);
            tell("record", &held.record, &modelled.1.record);
            tell("queue", &held.queue, &modelled.1.queue);
            tell("bitmap", &held.bitmap, &modelled.1.bitmap);
            tell("table", &held.table, &modelled.1.table);
            tell("answer", &held.answer, &modelled.1.answer);
            tell("memory", &memory.bytes, &modelled.2.bytes);
        }
    }
    if matches!(call, Call::Make(_)) || spoiled > 0 && random.chance(99) {
        (*held, *memory) = whole;
    }
}

/// Says where two slices differ first.
fn tell<T: PartialEq + fmt::Debug>(name: &str, given: &[T], modelled: &[T]) {
    if let Some(at) = (0..given.len()).find(|&at| given[at] != modelled[at]) {
        eprintln!(
            "  {name} at {at}: {:?}, by the model {:?}",
            given[at], modelled[at]
        );
    }
}
