// SPDX-License-Identifier: Apache-2.0 AND BSD-3-Clause
//! The calls for a guest that runs against the direct ones, on the same bytes: as one region and as several that touch they must
//! tell and leave the same, with holes what the model does, and with a guest that writes over what has been read the same again.

use std::ops::Range;

use jambcopper::guest::GuestMemory;
use jambcopper::{Answer, Device, Error, HostAnswer, HostCall, Queue};

use crate::inputs::{self, Guest, FREE_BYTES};
use crate::queue::{self, Held, Memory, Told};
use crate::random::Random;
use crate::regions::{cut, whole, without, Access, Ground, Watched};
use crate::sys::{PENDING_CREATE, PENDING_NOTHING, QUEUE_WORDS};
use crate::tally::{self, Calls, Outcomes, Tally, ENDED, SERVED, TOLD};

/// Outcomes beside the refusals and the answers: a chain that is no request, by its reason; a response that was not delivered; an
/// answer to another question.
const REASON: usize = 32;
const LENGTH_0: usize = 60;
const WRONG: usize = 61;

const EMPTY: Outcomes = &[(TOLD + 7, "empty")];
const SERVE: Outcomes = &[
    (LENGTH_0, "undelivered"),
    (TOLD + 2, "discard"),
    (REASON, "unknown"),
    (REASON + 21, "21"),
    (REASON + 22, "22"),
    (REASON + 23, "23"),
    (REASON + 24, "24"),
    (REASON + 25, "25"),
    (REASON + 26, "26"),
    (REASON + 27, "27"),
    (12, "12"),
    (7, "7"),
    (5, "5"),
    (14, "14"),
    (15, "15"),
];
const ANSWER: Outcomes = &[
    (LENGTH_0, "undelivered"),
    (TOLD + 2, "discard"),
    (TOLD + 3, "sized"),
    (12, "12"),
    (8, "8"),
    (14, "14"),
    (9, "9"),
    (10, "10"),
    (WRONG, "wrong"),
];

/// What came up in memory: accesses that lay on one another, accesses that went from region to region, holes that made a call tell
/// something else, and calls with a guest that wrote meanwhile.
const OVERLAPS: usize = 0;
const CROSSINGS: usize = 1;
const HOLES: usize = 2;
const CHANGED: usize = 3;
const MEMORY: Outcomes = &[
    (OVERLAPS, "overlaps"),
    (CROSSINGS, "crossings"),
    (HOLES, "holes"),
    (CHANGED, "changed"),
];
const CALLS: Calls = &[
    ("serve", &[EMPTY, SERVED, SERVE]),
    ("answer", &[ENDED, ANSWER]),
    ("memory", &[MEMORY]),
    ("by holes, serve", &[SERVE_HOLES]),
    ("answer", &[ANSWER_HOLES]),
];

/// What only a hole brings about, where the direct call tells something else.
const SERVE_HOLES: Outcomes = &[
    (LENGTH_0, "undelivered"),
    (REASON + 21, "21"),
    (REASON + 24, "24"),
    (14, "14"),
];
const ANSWER_HOLES: Outcomes = &[(LENGTH_0, "undelivered"), (14, "14")];

#[test]
fn a_running_guest_is_served_as_a_quiet_one() {
    let tally = run(20_000, 1);
    println!("{tally}");
    assert_eq!(tally.differ, 0);
    assert_eq!(tally.missing(), Vec::new());
}

pub fn run(calls: u64, seed: u64) -> Tally {
    let mut random = Random::new(seed);
    let mut ground = Ground::new();
    let mut tally = Tally::new("guest", seed, CALLS);
    while tally.calls < calls {
        let mut guest = Guest::any(&mut random);
        for _ in 0..random.pick(&[40, 100, 300]) {
            if tally.calls < calls {
                turn(&mut random, &mut ground, &mut guest, &mut tally);
            }
        }
    }
    tally
}

/// A call on a queue.
#[derive(Clone, Copy, Debug)]
enum Call {
    Serve,
    Answer(HostAnswer),
}

impl Call {
    fn any(random: &mut Random, pending: u64) -> Call {
        let any = random.next();
        let host = random.pick(&[0x7f00_0000_0000, 0, u64::MAX, any]);
        let (to_create, to_discard) = (HostAnswer::Created(host), HostAnswer::Discarded);
        let right = match pending {
            PENDING_CREATE => to_create,
            _ => to_discard,
        };
        let given = random.pick(&[right, right, right, right, HostAnswer::Failed]);
        match random.below(100) {
            0 => Call::Answer(random.pick(&[to_create, to_discard])),
            1..=5 => Call::Answer(given),
            6..=79 if pending != PENDING_NOTHING => Call::Answer(given),
            _ => Call::Serve,
        }
    }

    /// Which of [`CALLS`] it is.
    fn which(self) -> usize {
        match self {
            Call::Serve => 0,
            Call::Answer(_) => 1,
        }
    }

    fn by_model(self, held: &mut Held, memory: &mut Memory) -> Told {
        let (ok, host) = match self {
            Call::Serve => return queue::serve(held, memory),
            Call::Answer(HostAnswer::Created(host)) => (true, host),
            Call::Answer(HostAnswer::Discarded) => (true, 0),
            Call::Answer(HostAnswer::Failed) => (false, 0),
        };
        queue::serve_answer(held, memory, ok, host)
    }
}

/// A device with its queue, what it has told last, and guest memory.
#[derive(Clone, Debug, PartialEq, Eq)]
struct Machine {
    device: Device,
    queue: Queue,
    bytes: Vec<u8>,
    told: Result<Option<Answer>, Error>,
}

impl Machine {
    /// Of what a host holds, where that is a device and a queue.
    fn of(held: &Held, memory: &Memory) -> Option<Machine> {
        let record = held.record.first_chunk()?;
        let queue = held.queue.first_chunk()?;
        Some(Machine {
            device: Device::from_parts(record, &held.bitmap, &held.table).ok()?,
            queue: Queue::from_words(queue).ok()?,
            bytes: memory.bytes.clone(),
            told: Ok(None),
        })
    }

    fn direct(mut self, call: Call, base: u64) -> Machine {
        let Machine {
            device,
            queue,
            bytes,
            ..
        } = &mut self;
        self.told = match call {
            Call::Serve => device.serve(queue, bytes, base),
            Call::Answer(given) => device.serve_answer(queue, bytes, base, given).map(Some),
        };
        self
    }

    fn running(mut self, call: Call, mem: &impl GuestMemory) -> Machine {
        let Machine { device, queue, .. } = &mut self;
        self.told = match call {
            Call::Serve => device.serve_guest(queue, mem),
            Call::Answer(given) => device.serve_guest_answer(queue, mem, given).map(Some),
        };
        self
    }

    /// What it has told as the model tells it.
    fn words(&self) -> Told {
        Ok(match self.told.map_err(|error| error as u64)? {
            None => [7, 0, 0, 0, 0, 0, 0, 0, 0],
            Some(Answer::Wants(HostCall::Create { guest, size, slot })) => {
                [1, 0, guest, size, slot, 0, 0, 0, 0]
            }
            Some(Answer::Wants(HostCall::Discard { offset, size, host })) => {
                [2, 0, offset, size, host, 0, 0, 0, 0]
            }
            Some(Answer::Sized) => [3, 0, 0, 0, 0, 0, 0, 0, 0],
            Some(Answer::Unserved { reason }) => [4, 0, 0, 0, 0, 0, 0, 0, reason],
            Some(Answer::Served {
                resp_type,
                state,
                length,
                why,
            }) => [
                5,
                0,
                0,
                0,
                0,
                resp_type.into(),
                state.into(),
                length.into(),
                why.map_or(0, |why| why as u64),
            ],
        })
    }

    fn outcome(&self) -> usize {
        match self.words() {
            Err(u64::MAX) => WRONG,
            Err(number) => number as usize,
            Ok([4, .., reason]) => REASON + reason as usize,
            Ok([5, .., 0, _]) => LENGTH_0,
            Ok([5, .., why]) => tally::why(why),
            Ok([kind, ..]) => TOLD + kind as usize,
        }
    }

    /// Whether the model has told and left the same.
    fn is(&self, told: &Told, held: &Held, memory: &Memory) -> bool {
        let left = (
            self.device.record()[..] == held.record,
            self.device.bitmap() == held.bitmap,
        );
        let words = self.queue.words()[..] == held.queue[..QUEUE_WORDS];
        self.words() == *told
            && left == (true, true)
            && self.device.table() == held.table
            && words
            && self.bytes == memory.bytes
    }

    /// The host holds it from now on.
    fn store(&self, held: &mut Held, memory: &mut Memory) {
        held.record.copy_from_slice(self.device.record());
        held.bitmap.copy_from_slice(self.device.bitmap());
        held.table.copy_from_slice(self.device.table());
        held.queue[..QUEUE_WORDS].copy_from_slice(self.queue.words());
        memory.bytes.copy_from_slice(&self.bytes);
    }
}

/// One call on one device of the guest, the direct way and each other. What was spoiled for it is mostly mended behind it.
fn turn(random: &mut Random, ground: &mut Ground, guest: &mut Guest, tally: &mut Tally) {
    let which = random.below(guest.devices.len() as u64) as usize;
    let (held, memory) = (&mut guest.devices[which], &mut guest.memory);
    inputs::between(random, memory, held);
    let sound = (held.clone(), memory.clone());
    let spoiled = random.pick(&[0, 0, 0, 0, 0, 0, 0, 1, 1, 3]);
    for _ in 0..spoiled {
        inputs::spoil(random, memory, held);
    }
    if let Some(machine) = Machine::of(held, memory) {
        let call = Call::any(random, held.record[11]);
        let direct = machine.clone().direct(call, memory.base);
        let mut turn = Turn {
            random,
            ground,
            memory,
            call,
            machine,
            direct,
            differs: Vec::new(),
        };
        turn.all(held, tally);
        let differs = turn.differs;
        turn.direct.store(held, memory);
        if !differs.is_empty() {
            tally.differ += 1;
            if tally.differ <= 3 {
                eprintln!("call {} differs: {call:?}: {differs:?}", tally.calls);
            }
        }
    }
    if spoiled > 0 && random.chance(99) {
        (*held, *memory) = sound;
    }
}

/// A call, and what the direct way made of it.
struct Turn<'a> {
    random: &'a mut Random,
    ground: &'a mut Ground,
    memory: &'a Memory,
    call: Call,
    machine: Machine,
    direct: Machine,
    /// The ways that made something else of it.
    differs: Vec<&'static str>,
}

impl Turn<'_> {
    fn all(&mut self, held: &Held, tally: &mut Tally) {
        tally.calls += 1;
        tally.count(self.call.which(), self.direct.outcome());
        let log = self.one_region();
        let overlaps = |nth: usize| log[..nth].iter().any(|other| log[nth].overlaps(other));
        let overlapping = (0..log.len()).any(overlaps);
        if self.several_regions(&log) {
            tally.count(2, CROSSINGS);
        }
        if let Some(outcome) = self.holes(held) {
            tally.count(2, HOLES);
            tally.count(3 + self.call.which(), outcome);
        }
        if overlapping {
            tally.count(2, OVERLAPS);
        } else {
            tally.count(2, CHANGED);
            self.changing();
        }
    }

    /// All of memory as one region. What was read and written of it.
    fn one_region(&mut self) -> Vec<Access> {
        let laid = self
            .ground
            .lay(self.random, self.memory, &whole(self.memory));
        let watched = Watched::new(&laid.mem, None);
        let mut after = self.machine.clone().running(self.call, &watched);
        after.bytes = laid.bytes(after.bytes);
        let log = watched.log();
        if after != self.direct {
            self.differs.push("one region");
        }
        log
    }

    /// Memory in several regions that touch. Whether one of the accesses goes from one into another.
    fn several_regions(&mut self, log: &[Access]) -> bool {
        let parts = cut(self.random, whole(self.memory));
        let laid = self.ground.lay(self.random, self.memory, &parts);
        let mut after = self.machine.clone().running(self.call, &laid.mem);
        after.bytes = laid.bytes(after.bytes);
        if after != self.direct {
            self.differs.push("several regions");
        }
        let ends = parts.iter();
        let mut ends = ends.map(|part| u128::from(self.memory.base) + part.end as u128);
        ends.any(|end| {
            log.iter()
                .any(|access| u128::from(access.addr) < end && end < access.end())
        })
    }

    /// Memory with holes, against the model. The outcome, where it is not what the direct call tells.
    fn holes(&mut self, held: &Held) -> Option<usize> {
        let count = 1 + self.random.below(3);
        let holes: Vec<_> = (0..count).filter_map(|_| self.hole()).collect();
        let parts = cut(self.random, without(whole(self.memory), &holes));
        let laid = self.ground.lay(self.random, self.memory, &parts);
        let mut after = self.machine.clone().running(self.call, &laid.mem);
        after.bytes = laid.bytes(after.bytes);
        if after.told == Err(Error::WrongAnswer) {
            return None;
        }
        let (mut held, mut memory) = (held.clone(), self.memory.clone());
        memory.holes = holes;
        let told = self.call.by_model(&mut held, &mut memory);
        if !after.is(&told, &held, &memory) {
            self.differs.push("holes");
        }
        let outcome = after.outcome();
        (outcome != self.direct.outcome()).then_some(outcome)
    }

    /// Bytes that are no guest memory: mostly where no ring is.
    fn hole(&mut self) -> Option<Range<usize>> {
        let length = self.memory.bytes.len();
        let size = self.random.pick(&[1, 2, 10, 24, 100]);
        let free = length.saturating_sub(FREE_BYTES as usize);
        let from = self.random.pick(&[free, free, free, free, 0]);
        let room = length.checked_sub(from + size).filter(|&room| room > 0)?;
        let at = from + self.random.below(room as u64) as usize;
        Some(at..at + size)
    }

    /// A guest that writes over what has been read. What the call wrote must be the same.
    fn changing(&mut self) {
        let laid = self
            .ground
            .lay(self.random, self.memory, &whole(self.memory));
        let guest = Random::new(self.random.next());
        let watched = Watched::new(&laid.mem, Some(guest));
        let mut after = self.machine.clone().running(self.call, &watched);
        for Access { addr, bytes, .. } in watched.log().iter().filter(|access| access.written) {
            let at = (addr - self.memory.base) as usize;
            after.bytes[at..at + bytes.len()].copy_from_slice(bytes);
        }
        if after != self.direct {
            self.differs.push("a guest that writes");
        }
    }
}
