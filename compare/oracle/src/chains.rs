// SPDX-License-Identifier: Apache-2.0 AND BSD-3-Clause
//! One chain in one small guest memory, served by a fresh device of mem.rs; random ones at the edges.
//!
//! The device is that of the whole example (R12.12): 256 MiB at 4 GiB, 16 MiB requested, nothing plugged.
//! The cases stay where the rules and mem.rs agree: a table address that is a multiple of 16, a head below
//! 128, no indirect flag that the walk meets, a response wholly inside or wholly outside.

use std::fmt;

use crate::guest::{request, Descriptor, Guest, INDIRECT, NEXT, RINGS, WRITE};
use crate::host::answering;
use crate::random::Random;
use crate::rust::{Rust, BLOCK};
use crate::stand_ins::log;
use crate::why::Asked;

const GIB: u64 = 1 << 30;
const START: u64 = 4 * GIB;
const HOST: u64 = 140_737_488_355_328;

/// Guest memory, the table's address and a head.
#[derive(Clone, Debug, PartialEq, Eq)]
pub struct Chain {
    pub base: u64,
    pub table: u64,
    pub head: u16,
    pub memory: Vec<u8>,
}

/// What became of it.
#[derive(Clone, Debug, PartialEq, Eq)]
pub struct Served {
    pub length: u32,
    /// The reason (R1.21 to R1.26), by the error that mem.rs logs.
    pub reason: u64,
    pub plugged: u64,
    pub memory: Vec<u8>,
}

fn hex(bytes: &[u8]) -> String {
    bytes.iter().map(|byte| format!("{byte:02x}")).collect()
}

fn unhex(text: &str) -> Option<Vec<u8>> {
    let pairs = (0..text.len()).step_by(2);
    pairs
        .map(|at| u8::from_str_radix(text.get(at..at + 2)?, 16).ok())
        .collect()
}

impl fmt::Display for Chain {
    fn fmt(&self, f: &mut fmt::Formatter<'_>) -> fmt::Result {
        let (base, table, head) = (self.base, self.table, self.head);
        write!(
            f,
            "base={base} table={table} head={head} memory={}",
            hex(&self.memory)
        )
    }
}

impl fmt::Display for Served {
    fn fmt(&self, f: &mut fmt::Formatter<'_>) -> fmt::Result {
        let (length, reason, plugged) = (self.length, self.reason, self.plugged);
        write!(
            f,
            "length={length} reason={reason} plugged={plugged} memory={}",
            hex(&self.memory)
        )
    }
}

impl Chain {
    pub fn parse(line: &str) -> Option<Chain> {
        let mut parts = line.split(' ');
        let mut value = |key: &str| parts.next()?.strip_prefix(key)?.strip_prefix('=');
        Some(Chain {
            base: value("base")?.parse().ok()?,
            table: value("table")?.parse().ok()?,
            head: value("head")?.parse().ok()?,
            memory: unhex(value("memory")?)?,
        })
    }

    /// What mem.rs does with it.
    pub fn served(&self) -> Served {
        let guest = Guest::new(self.base, self.memory.len(), self.table).expect("below 2^64");
        guest.write(self.base, &self.memory);
        let mut device = Rust::make(256, 16, false, None, GIB).expect("the example");
        answering(|_| Some(HOST), || device.place_at(START, 1)).expect("placed");
        assert!(device.activate(guest));
        log::take();
        let (_, length) = device.serve(self.head);
        let said = log::take();
        let memory = device.guest().read(self.base, self.memory.len());
        Served {
            length,
            reason: reason(&said),
            plugged: device.config().plugged,
            memory,
        }
    }

    /// The request behind the head, of a chain that is one.
    pub fn asked(&self) -> Option<Asked> {
        let first = self.descriptor(self.head)?;
        let at = self.place(first.addr, 24)?;
        let bytes = &self.memory[at..at + 24];
        let addr = u64::from_le_bytes(bytes[8..16].try_into().unwrap());
        let number = |at: usize| u16::from_le_bytes([bytes[at], bytes[at + 1]]);
        Asked::of(number(0), addr, number(16))
    }

    /// Where `length` bytes from a guest address on lie in the memory, if they all do.
    fn place(&self, addr: u64, length: u64) -> Option<usize> {
        let at = addr.checked_sub(self.base)?;
        let end = at.checked_add(length)?;
        (end <= self.memory.len() as u64).then_some(at as usize)
    }

    fn descriptor(&self, index: u16) -> Option<Descriptor> {
        let addr = self.table.checked_add(16 * u64::from(index))?;
        let at = self.place(addr, 16).filter(|_| index < 128)?;
        let bytes = &self.memory[at..at + 16];
        Some(Descriptor {
            addr: u64::from_le_bytes(bytes[0..8].try_into().unwrap()),
            len: u32::from_le_bytes(bytes[8..12].try_into().unwrap()),
            flags: u16::from_le_bytes(bytes[12..14].try_into().unwrap()),
            next: u16::from_le_bytes(bytes[14..16].try_into().unwrap()),
        })
    }

    /// True where the rules and mem.rs are to agree.
    fn comparable(&self) -> bool {
        let first = self.descriptor(self.head);
        let second = first
            .filter(|d| d.flags & NEXT != 0)
            .and_then(|d| self.descriptor(d.next));
        let direct = [first, second]
            .iter()
            .flatten()
            .all(|d| d.flags & INDIRECT == 0);
        let status = second.map_or(0, |d| d.addr);
        let some = (0..10).any(|i| {
            status
                .checked_add(i)
                .is_some_and(|at| self.place(at, 1).is_some())
        });
        direct && (!some || self.place(status, 10).is_some())
    }
}

/// The reason for the error that a message names.
fn reason(said: &str) -> u64 {
    let names = [
        ("DescriptorChainTooShort", 21),
        ("UnexpectedWriteOnlyDescriptor", 22),
        ("InvalidRequest", 23),
        ("GuestMemory(", 24),
        ("UnexpectedReadOnlyDescriptor", 25),
        ("DescriptorLengthTooSmall", 26),
    ];
    let parse = said.contains("failed parse");
    let found = names.iter().find(|(name, _)| parse && said.contains(name));
    found.map_or(0, |&(_, number)| number)
}

/// A random case that can be compared.
pub fn chain(random: &mut Random) -> Chain {
    loop {
        let case = any(random);
        if case.comparable() {
            return case;
        }
    }
}

fn any(random: &mut Random) -> Chain {
    let length = 112 + random.pick(&[0, 0, 1, 7, 16, 40]);
    let base = random.pick(&[
        0,
        4096,
        4096,
        4096,
        4097,
        RINGS - 8192,
        u64::MAX - length,
        u64::MAX - length - 15,
        (1 << 32) - 64,
    ]);
    let end = base + length;
    // The table begins at the memory's first multiple of 16, or so far below it that an index below
    // 128 still reaches inside.
    let lowest = base.next_multiple_of(16);
    let below = random.pick(&[0, 0, 0, 1, 100, 120]);
    let table = lowest.checked_sub(16 * below).unwrap_or(lowest);
    let skipped = (lowest - table) / 16;

    // Two descriptors of one slot, the request of two and the response of one, in any order.
    let mut slots = [0; 4];
    let mut next_slot = 0;
    let turn = random.below(4) as usize;
    for i in 0..4 {
        let part = (i + turn) % 4;
        slots[part] = next_slot;
        next_slot += if part == 2 { 2 } else { 1 };
    }
    let mut head = (skipped + slots[0]) as u16;
    let mut first = Descriptor {
        addr: lowest + 16 * slots[2] + random.below(9),
        len: 24,
        flags: NEXT,
        next: (skipped + slots[1]) as u16,
    };
    let mut second = Descriptor {
        addr: lowest + 16 * slots[3] + random.below(7),
        len: 10,
        flags: WRITE,
        next: 0,
    };
    let kind = random.pick(&[0, 0, 0, 0, 1, 2, 3, 3, 4, 5, 65_535]);
    let addr = random.pick(&[START, START, START, START + BLOCK, START - BLOCK, START + 1]);
    let asked = request(kind, addr, random.pick(&[1, 1, 1, 4, 5, 0]));
    let written = (head, first.next);

    // Up to two things are turned towards an edge.
    let edge = |random: &mut Random, length: u64| {
        let past = (end - length).saturating_add(1);
        random.pick(&[
            base,
            base.wrapping_sub(1),
            end - length,
            past,
            end,
            u64::MAX,
            0,
        ])
    };
    for _ in 0..random.below(3) {
        match random.below(12) {
            0 => first.addr = edge(random, 24),
            1 => first.len = random.pick(&[23, 25, 0, 10, u32::MAX]),
            2 => first.flags = random.pick(&[0, WRITE, NEXT | WRITE, NEXT | 8, 0xfff9]),
            3 => first.next = random.pick(&[128, 129, 65_535, 127, head, first.next + 1]),
            4 | 5 => second.addr = edge(random, 10),
            6 => second.len = random.pick(&[9, 0, 1]),
            7 => second.len = random.pick(&[11, 4096, u32::MAX]),
            8 => second.flags = random.pick(&[0, NEXT, 1]),
            9 => second.flags = random.pick(&[WRITE | NEXT, WRITE | 8, 0xfffa]),
            10 => second.next = random.pick(&[128, 65_535, head]),
            _ => head = random.pick(&[0, 127, head + 1, first.next]).min(127),
        }
    }
    let mut case = Chain {
        base,
        table,
        head,
        memory: (0..length).map(|i| 0x50 + (i % 7) as u8).collect(),
    };
    put(&mut case, first.addr, &asked);
    put_descriptor(&mut case, written.0, first);
    put_descriptor(&mut case, written.1, second);
    case
}

/// Writes bytes where they lie inside, and otherwise nothing.
fn put(case: &mut Chain, addr: u64, bytes: &[u8]) {
    if let Some(at) = case.place(addr, bytes.len() as u64) {
        case.memory[at..at + bytes.len()].copy_from_slice(bytes);
    }
}

fn put_descriptor(case: &mut Chain, index: u16, d: Descriptor) {
    let mut bytes = [0; 16];
    bytes[0..8].copy_from_slice(&d.addr.to_le_bytes());
    bytes[8..12].copy_from_slice(&d.len.to_le_bytes());
    bytes[12..14].copy_from_slice(&d.flags.to_le_bytes());
    bytes[14..16].copy_from_slice(&d.next.to_le_bytes());
    if let Some(addr) = case.table.checked_add(16 * u64::from(index)) {
        put(case, addr, &bytes);
    }
}
