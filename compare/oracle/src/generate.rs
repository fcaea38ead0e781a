// SPDX-License-Identifier: Apache-2.0 AND BSD-3-Clause
//! Random traces that lean to the edges, written while they drive mem.rs.
//!
//! Every trace stays where the rules and mem.rs agree: at most 1 TiB, MiB numbers whose bytes are below 2^64,
//! an aligned start whose region (several regions: whose rows) ends below 2^64, and host addresses whose
//! mappings do too. It ends at the first unplug-all that is refused: behind it request 5/12 has other
//! answers than mem.rs.

use std::cell::RefCell;
use std::collections::BTreeSet;
use std::rc::Rc;

use crate::host::Answer;
use crate::random::Random;
use crate::rust::{Config, Rust, BLOCK, MAP_REGION};
use crate::trace::{without_why, First, Op, Outcome, Run, Want, MAX_SLOT};

const MIB: u64 = 1 << 20;
const GIB: u64 = 1 << 30;
const MAX_CAPACITY_MIB: u64 = 1 << 20;

/// How long a trace may be.
#[derive(Clone, Copy, Debug)]
pub struct Limits {
    /// Lines after the first that are no host answers.
    pub ops: u64,
    /// Plugged blocks up to which an unplug-all is asked for: each costs two lines.
    pub unplug_all: usize,
    /// Of a hundred unplug-alls those whose every discard the host grants. The others are refused at
    /// one of their blocks more often than not, and that ends the run.
    pub granted: u64,
}

/// For traces that are run and compared.
pub const LONG: Limits = Limits {
    ops: 40,
    unplug_all: 200,
    granted: 85,
};

/// For traces that are kept as a sample.
pub const SHORT: Limits = Limits {
    ops: 9,
    unplug_all: 6,
    granted: 50,
};

/// A trace, what mem.rs printed as far as it is compared, and the kinds of thing that happened.
#[derive(Clone, Debug, Default)]
pub struct Trace {
    pub input: Vec<String>,
    pub output: Vec<String>,
    pub kinds: BTreeSet<String>,
}

impl Trace {
    /// Bytes of both parts, without the reasons: so a sample's choice is that of mem.rs alone.
    pub fn bytes(&self) -> usize {
        let lines = self.input.iter().chain(&self.output);
        lines.map(|line| without_why(line).len() + 1).sum()
    }

    fn happened(&mut self, kind: String) {
        self.kinds.insert(kind);
    }
}

/// The host of a generated trace: chooses an answer and writes it down.
struct Host {
    random: Random,
    trace: Trace,
    /// The questions of the line that is being run, with their answers, for the trace's kinds.
    asked: String,
    /// Whether it grants every discard of that line.
    granted: bool,
}

impl Host {
    fn answer(&mut self, want: Want) -> Answer {
        self.trace.output.push(want.to_string());
        let kind = match want {
            Want::Create { size, .. } => format!("create {}", size.div_ceil(MAP_REGION)),
            Want::Discard { .. } => "discard".to_string(),
        };
        let (ok, addr) = host_answer(&mut self.random, want, self.granted);
        let line = Op::Host { ok, addr };
        self.trace.input.push(line.to_string());
        self.asked += &format!("{kind} {} ", u8::from(ok));
        ok.then_some(addr)
    }
}

/// Whether the host grants every discard of a line.
pub fn granted(random: &mut Random, op: Op, limits: Limits) -> bool {
    op == Op::UnplugAll && random.chance(limits.granted)
}

/// A host's answer: success or not, and a host address that the mapping fits behind.
pub fn host_answer(random: &mut Random, want: Want, granted: bool) -> (bool, u64) {
    match want {
        Want::Create { size, .. } => {
            let rows = size.div_ceil(MAP_REGION);
            let highest = u64::MAX - (rows * MAP_REGION).max(size);
            let addr = random.pick(&[
                140_737_488_355_328,
                140_737_488_355_328 + 3 * GIB,
                4096,
                0,
                1,
                highest,
                highest - 4095,
            ]);
            (!random.chance(12), addr)
        }
        Want::Discard { .. } => {
            let addr = random.pick(&[0, 0, 0, 4096, u64::MAX]);
            (granted || !random.chance(15), addr)
        }
    }
}

/// One trace, the same for the same seed and limits.
pub fn trace(seed: u64, limits: Limits) -> Trace {
    let mut random = Random::new(seed);
    let host = Rc::new(RefCell::new(Host {
        random: Random::new(random.next()),
        trace: Trace::default(),
        asked: String::new(),
        granted: false,
    }));
    let asked = host.clone();
    let answers = Rc::new(RefCell::new(move |want| asked.borrow_mut().answer(want)));

    let mut first = first_line(&mut random);
    let made = Run::make(&first, answers);
    if let Ok(mut run) = made {
        first.addr = start(&mut random, &mut run.device);
        host.borrow_mut().trace.input.push(first.to_string());
        drive(&mut random, &first, run, &host, limits);
    } else if let Err(refused) = made {
        let trace = &mut host.borrow_mut().trace;
        trace.input.push(first.to_string());
        trace.output.push(refused.to_string());
        trace.happened(format!("make {refused}"));
    }
    let trace = host.borrow().trace.clone();
    trace
}

fn drive(random: &mut Random, first: &First, mut run: Run, host: &RefCell<Host>, limits: Limits) {
    let placed = run.place(first);
    note(
        host,
        &placed,
        format!("place multi={}", u8::from(first.multi)),
    );
    if let Outcome::Refuse(_) = placed {
        return;
    }
    let mut before = String::new();
    for done in 0..1 + random.below(limits.ops) {
        let (op, kind) = next_op(random, &mut run.device, limits, done < 2);
        host.borrow_mut().trace.input.push(op.to_string());
        host.borrow_mut().asked.clear();
        host.borrow_mut().granted = granted(random, op, limits);
        let old = run.device.config();
        let (outcome, goes_on) = run.compared(op);
        let multi = u8::from(run.device.multi());
        let usable = grown(&old, &run.device.config());
        let kind = format!("multi={multi} {kind} {usable}");
        let after = note(host, &outcome, kind);
        host.borrow_mut()
            .trace
            .happened(format!("{before} then {after}"));
        before = after;
        if !goes_on {
            return;
        }
    }
}

/// What became of the usable size: where its end lies before and after, and the region's end.
fn grown(old: &Config, new: &Config) -> String {
    let place = |usable: u64| match (usable, usable % MAP_REGION) {
        (0, _) => "none",
        _ if usable == new.region => "region",
        (_, 0) => "border",
        _ => "inside",
    };
    if old.usable == new.usable {
        return String::new();
    }
    let rows = (new.usable / MAP_REGION - old.usable / MAP_REGION).min(2);
    let end = u8::from(new.region % MAP_REGION == 0);
    let (from, to) = (place(old.usable), place(new.usable));
    format!("{from}-{to} rows={rows} end={end}")
}

/// Writes an outcome down; gives its kind without the classes of address and count.
fn note(host: &RefCell<Host>, outcome: &Outcome, kind: String) -> String {
    let mut host = host.borrow_mut();
    host.trace.output.push(outcome.to_string());
    let answer = match outcome {
        Outcome::Sized { .. } => "sized".to_string(),
        Outcome::Response { resp, state, .. } => format!("resp={resp} state={state}"),
        Outcome::Refuse(n) => format!("refuse={n}"),
    };
    let whole = format!("{kind} {} {answer}", host.asked);
    host.trace.happened(whole);
    let op = kind.split(' ').nth(1).unwrap_or("");
    format!("{op} {} {answer}", host.asked)
}

pub fn first_line(random: &mut Random) -> First {
    let boot = match random.below(3) {
        0 => GIB,
        1 => random.pick(&[
            0,
            64 * GIB - 1,
            64 * GIB,
            64 * GIB + 1,
            64 * GIB + 64 * MIB,
            64 * GIB + 128 * MIB,
            64 * GIB + 256 * MIB,
            64 * GIB + 512 * MIB,
            65 * GIB,
            66 * GIB,
            128 * GIB,
            u64::MAX,
            1 << 63,
        ]),
        _ => 64 * GIB + random.below(1 << 12) * 64 * MIB,
    };
    let capacity_mib = match random.below(4) {
        0 => 256 * (1 + random.below(40)),
        1 => random.pick(&[
            0,
            1,
            4,
            255,
            256,
            257,
            512,
            1024,
            2047,
            2048,
            2049,
            2304,
            4095,
            4096,
            4097,
            6144,
            8192,
            65_536,
            MAX_CAPACITY_MIB - 1,
            MAX_CAPACITY_MIB,
        ]),
        2 => 1 + random.below(16_384),
        _ => 1 + random.below(MAX_CAPACITY_MIB),
    };
    let requested_mib = match random.below(8) {
        0 => 0,
        1 => random.pick(&[4, 16, 1788, 1792, 1796, 2044, 2048]),
        2 | 3 => 4 * random.below(1 + capacity_mib / 4),
        4 | 5 => capacity_mib / 4 * 4,
        6 => capacity_mib / 8 * 4,
        _ => random.pick(&[
            1,
            3,
            capacity_mib,
            capacity_mib + 4,
            capacity_mib.div_ceil(256) * 256,
            capacity_mib.div_ceil(256) * 256 + 4,
            capacity_mib.div_ceil(4096) * 4096,
            (1 << 44) - 4,
        ]),
    };
    First {
        capacity_mib,
        requested_mib,
        multi: random.chance(60),
        node: random.chance(30).then(|| random.pick(&[0, 1, 65_535])),
        boot,
        addr: 4 * GIB,
        slot: random.pick(&[0, 1, 1, 7, 1000, MAX_SLOT - 1, MAX_SLOT]),
    }
}

/// A start that the rules take: aligned, and with room for the region or for its rows.
pub fn start(random: &mut Random, device: &mut Rust) -> u64 {
    let (alignment, slots) = device.requirements();
    let region = device.config().region;
    let span = match slots {
        1 => region,
        _ => slots as u64 * MAP_REGION,
    };
    let highest = (u64::MAX - span) / alignment * alignment;
    let starts = [
        4 * GIB,
        4 * GIB,
        0,
        alignment,
        6 * GIB,
        highest,
        highest - alignment,
    ];
    let start = random.pick(&starts);
    assert!(start % alignment == 0 && start <= highest);
    start
}

/// Any line; one of the early ones is mostly a plug that succeeds, so that there is something to unplug.
pub fn next_op(
    random: &mut Random,
    device: &mut Rust,
    limits: Limits,
    early: bool,
) -> (Op, String) {
    let config = device.config();
    let blocks = device.blocks();
    let set = plugged_blocks(&blocks);
    let choice = match early && random.chance(50) {
        true => 20,
        false => random.below(100),
    };
    match choice {
        0..=19 => {
            let (addr, blocks, kind) = range(random, &config, &set, 10);
            (Op::Plug { addr, blocks }, format!("plug {kind}"))
        }
        20..=39 => {
            let (addr, blocks, kind) = free(random, &config, &blocks);
            (Op::Plug { addr, blocks }, format!("plug {kind}"))
        }
        40..=59 => {
            let (addr, blocks, kind) = range(random, &config, &set, 75);
            (Op::Unplug { addr, blocks }, format!("unplug {kind}"))
        }
        60..=77 => {
            let (addr, blocks, kind) = range(random, &config, &set, 50);
            (Op::State { addr, blocks }, format!("state {kind}"))
        }
        78..=86 if set.len() <= limits.unplug_all => {
            let most = set.len().min(3);
            (Op::UnplugAll, format!("unplug_all {most}"))
        }
        _ => size(random, device, &config),
    }
}

/// The plugged blocks, lowest first; stretches without one are passed over at once.
fn plugged_blocks(blocks: &[bool]) -> Vec<usize> {
    let stretches = blocks.chunks(64).zip((0..).step_by(64));
    let some = stretches.filter(|(stretch, _)| stretch.iter().fold(false, |any, &b| any | b));
    some.flat_map(|(stretch, first)| (first..).zip(stretch))
        .filter(|&(_, &plugged)| plugged)
        .map(|(block, _)| block)
        .collect()
}

fn size(random: &mut Random, device: &mut Rust, config: &Config) -> (Op, String) {
    let (alignment, _) = device.requirements();
    let (requested, region) = (config.requested / MIB, config.region / MIB);
    let extent = 2 * alignment / MIB;
    // The size whose usable end is a 2 GiB border.
    let border = (2048 * (1 + random.below(1 + region / 2048))).saturating_sub(extent);
    let choices = [
        ("none", 0),
        ("same", requested),
        ("more", requested + 4),
        ("less", requested.saturating_sub(4)),
        ("whole", region),
        ("above", region + 4),
        ("odd", random.pick(&[1, 2, 3, 5, requested + 1])),
        ("border", border),
        ("border", border + 4),
        ("border", border.saturating_sub(4)),
        ("any", 4 * random.below(1 + region / 4)),
        ("huge", (1 << 44) - 4),
    ];
    let (kind, mib) = random.pick(&choices);
    (Op::Size { mib }, format!("size {kind}"))
}

/// An address and a count of blocks; `plugged` of a hundred begin at a plugged block.
fn range(random: &mut Random, config: &Config, set: &[usize], plugged: u64) -> (u64, u16, String) {
    let (mut addr, mut place) = address(random, config, set, plugged);
    if random.chance(6) {
        addr = addr.wrapping_add(random.pick(&[1, 4096, 2 * MIB, BLOCK - 1]));
        place = "odd";
    }
    let (blocks, count) = count(random, config, set, addr);
    (addr, blocks, format!("{place} {count}"))
}

/// A range that can mostly be plugged: unplugged blocks, inside what is usable and requested.
fn free(random: &mut Random, config: &Config, blocks: &[bool]) -> (u64, u16, String) {
    let usable = (config.usable / BLOCK) as usize;
    let near = random.pick(&[4, 16, 512, usize::MAX]).min(usable);
    let (first, place) = match random.below(3) {
        0 => (random.below(1 + near as u64) as usize, "free"),
        1 => (usable - random.below(1 + near as u64) as usize, "free-high"),
        _ => {
            // Around a 2 GiB border.
            let border = 512 * random.below(1 + usable as u64 / 512) as usize;
            (
                (border + random.below(4) as usize).saturating_sub(2),
                "free-border",
            )
        }
    };
    let rest = &blocks[first.min(usable)..usable];
    let gap = rest.iter().take_while(|&&plugged| !plugged).count() as u64;
    let room = config.requested.saturating_sub(config.plugged) / BLOCK;
    // All that can be plugged from here on, and what of it lies before the next border, which one plug of several regions must not cross.
    let all = gap.min(room).min(65_535);
    let most = all.min(512 - first as u64 % 512);
    let (count, kind) = match random.below(5) {
        0 => (1, "one"),
        1 => (2.min(most), "two"),
        2 => (1 + random.below(1 + most.min(6)), "some"),
        3 => (most, "most"),
        _ => (all, "all"),
    };
    let addr = config.start.wrapping_add(first as u64 * BLOCK);
    (addr, count as u16, format!("{place} {kind}"))
}

fn address(
    random: &mut Random,
    config: &Config,
    set: &[usize],
    plugged: u64,
) -> (u64, &'static str) {
    let start = config.start;
    let at = |offset: u64| start.wrapping_add(offset);
    if !set.is_empty() && random.chance(plugged) {
        return (at(random.pick(set) as u64 * BLOCK), "plugged");
    }
    let usable = config.usable / BLOCK;
    let border = MAP_REGION * (1 + random.below(1 + config.region / MAP_REGION));
    let choices = [
        (at(0), "start"),
        (at(0u64.wrapping_sub(BLOCK)), "below"),
        (at(BLOCK * random.below(1 + usable)), "any"),
        (at(BLOCK * random.below(1 + usable.min(8))), "low"),
        (at(BLOCK * random.below(1 + usable.min(8))), "low"),
        (at(config.usable.wrapping_sub(BLOCK)), "last"),
        (at(config.usable), "end"),
        (at(config.region - BLOCK), "region"),
        (at(config.region), "past"),
        (at(border), "border"),
        (at(border - BLOCK), "border-1"),
        (at(border - 2 * BLOCK), "border-2"),
        (0u64.wrapping_sub(random.pick(&[1, 2, 3]) * BLOCK), "high"),
        (0, "zero"),
    ];
    random.pick(&choices)
}

fn count(random: &mut Random, config: &Config, set: &[usize], addr: u64) -> (u16, &'static str) {
    let offset = addr.wrapping_sub(config.start);
    let first = (offset / BLOCK) as usize;
    // Plugged blocks without a gap from this one on.
    let run = match set.binary_search(&first) {
        Ok(at) => (at..set.len())
            .take_while(|&i| set[i] - set[at] == i - at)
            .count() as u64,
        Err(_) => 1,
    };
    let to_end = config.usable.saturating_sub(offset) / BLOCK;
    let to_border = (MAP_REGION - offset % MAP_REGION) / BLOCK;
    let room = config.requested.saturating_sub(config.plugged) / BLOCK;
    let choices = [
        (1, "one"),
        (1, "one"),
        (2, "two"),
        (3, "three"),
        (run, "run"),
        (run + 1, "run+1"),
        (0, "none"),
        (to_end, "to-end"),
        (to_end + 1, "to-end+1"),
        (to_border, "to-border"),
        (to_border + 1, "to-border+1"),
        (room, "room"),
        (room + 1, "room+1"),
        (65_535, "most"),
    ];
    let (blocks, kind) = random.pick(&choices);
    (blocks.min(65_535) as u16, kind)
}
