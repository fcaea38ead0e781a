// SPDX-License-Identifier: Apache-2.0 AND BSD-3-Clause
//! Guests with their devices, and what guest and host do between calls, right and wrong: by chance, and again with the same seed.

use jambcopper::driver::{Request, REQUEST_BYTES};

use crate::queue::{Held, Memory};
use crate::random::Random;
use crate::sys::{self, PENDING_DISCARD, PENDING_NOTHING, QUEUE_WORDS, RECORD_WORDS};

const BLOCK: u64 = 4 << 20;
const BORDER: u64 = 512; // the first block of the second map region
const START: u64 = 4 << 30;
const HOST: u64 = 0x7f00_0000_0000;

/// The parts of a queue, in the order of its words, and their sizes.
const DESCRIPTORS: usize = 0;
const AVAILABLE: usize = 1;
const USED: usize = 2;
const SIZES: [u64; 3] = [2048, 262, 1030];

/// Where the parts of most queues lie, in so many bytes for each queue; and what is free behind all of them.
const APART: [u64; 3] = [0, 2048, 2312];
const QUEUE_BYTES: u64 = 3344;
pub const FREE_BYTES: u64 = 2000;

/// A guest, with its devices.
pub struct Guest {
    pub memory: Memory,
    pub devices: Vec<Held>,
}

impl Guest {
    pub fn any(random: &mut Random) -> Guest {
        let devices = random.pick(&[1, 1, 1, 2, 3]);
        let length = devices * QUEUE_BYTES + FREE_BYTES + random.below(64);
        let base = match random.below(20) {
            0 => 0,
            1 => 0u64.wrapping_sub(length), // ends at 2^64
            2 => 1u64.wrapping_sub(length), // goes a byte past it
            3 => 0u64.wrapping_sub(random.below(length)),
            4 => random.next(),
            _ => 1 << 30,
        };
        let bytes = bytes(random, length as usize);
        let mut memory = Memory {
            bytes,
            base,
            holes: Vec::new(),
        };
        let devices = 0..devices;
        let devices = devices.map(|nth| device(random, &mut memory, nth));
        let devices = devices.collect();
        Guest { memory, devices }
    }
}

/// Zeros, or any bytes.
fn bytes(random: &mut Random, length: usize) -> Vec<u8> {
    if random.chance(50) {
        return vec![0; length];
    }
    (0..length).map(|_| random.next() as u8).collect()
}

/// A device, mostly placed, with its queue.
fn device(random: &mut Random, memory: &mut Memory, nth: u64) -> Held {
    let capacity = random.pick(&[256, 256, 512, 2304, 4096, 4096]);
    let any = 4 * random.below(capacity / 4);
    let requested = random.pick(&[16, 64, 128, capacity, capacity, any]);
    let several = random.chance(60);
    let mut record = vec![0; RECORD_WORDS];
    sys::make(&mut record, capacity, requested, several, false, 0, 1 << 30);
    let rows = match record[8] {
        1 => record[3].div_ceil(2 << 30) as usize,
        _ => 1,
    };
    let spare = random.pick(&[0, 0, 0, 2]);
    let mut held = Held {
        bitmap: bytes(random, (record[3] / BLOCK / 8) as usize + spare),
        table: vec![random.next(); 3 * rows + spare],
        queue: queue(random, memory, nth),
        answer: Vec::new(),
        record,
    };
    if random.chance(95) {
        place(random, &mut held);
    }
    if random.chance(10) {
        // Blocks that no plug has set, and any plugged size.
        held.bitmap[..8].fill(random.next() as u8);
        held.record[5] = BLOCK * random.below(40);
    }
    held
}

/// Places it, and mostly answers the creation.
fn place(random: &mut Random, held: &mut Held) {
    let slots: Vec<u32> = (1..=held.table.len() as u32 / 3).collect();
    let size = held.record[3];
    held.device().place(START, size, &slots, &mut []);
    if random.chance(95) {
        let (ok, top) = (random.chance(95), 0u64.wrapping_sub(size));
        let host = random.pick(&[HOST, HOST, HOST, HOST, top - 1, top]);
        held.device().host_answer(&mut [], 0, ok, host, &mut []);
    }
}

/// A queue with its parts apart, or anywhere; the guest's index begins where the device's stands.
fn queue(random: &mut Random, memory: &mut Memory, nth: u64) -> Vec<u64> {
    let apart = random.chance(60);
    let mut part = |part: usize| match apart {
        true => memory.base.wrapping_add(nth * QUEUE_BYTES + APART[part]),
        false => address(random, memory, SIZES[part]),
    };
    let [descriptors, available, used] = [part(DESCRIPTORS), part(AVAILABLE), part(USED)];
    let edges = [0, 0, 1, 126, 127, 128, 65_408, 65_530, 65_534, 65_535];
    let (edge, other, any) = (
        random.pick(&edges),
        random.pick(&edges),
        random.next() as u16,
    );
    let next = random.pick(&[edge, edge, any]);
    let next_used = random.pick(&[next, other]);
    poke(memory, available.wrapping_add(2), &next.to_le_bytes());
    let mut words = vec![
        descriptors,
        available,
        used,
        next.into(),
        next_used.into(),
        0,
    ];
    words.resize(QUEUE_WORDS + random.pick(&[0, 0, 0, 2]), random.next());
    words
}

/// A guest address for so many bytes: mostly inside, else at an edge or anywhere.
fn address(random: &mut Random, memory: &Memory, size: u64) -> u64 {
    let (base, length) = (i128::from(memory.base), memory.bytes.len() as i128);
    let (size, part) = (i128::from(size), i128::from(random.below(size)));
    let to_top = (1 << 64) - base;
    let offset = match random.below(40) {
        0 => 0,
        1 => -1,
        2 => length - size,
        3 => length - size + 1,
        4 => to_top - size,
        5 => to_top - part,
        6 => random.next().into(),
        _ => random.below((length - size).max(0) as u64 + 1).into(),
    };
    (base + offset) as u64
}

/// What a guest writes; what is not inside goes nowhere.
fn poke(memory: &mut Memory, addr: u64, bytes: &[u8]) {
    for (i, &byte) in (0..).zip(bytes) {
        let at = addr.wrapping_add(i).wrapping_sub(memory.base);
        if let Some(there) = memory.bytes.get_mut(at as usize) {
            *there = byte;
        }
    }
}

/// Two bytes that a guest reads.
fn peek(memory: &Memory, addr: u64) -> u16 {
    let byte = |i: u64| {
        let at = addr.wrapping_add(i).wrapping_sub(memory.base);
        memory.bytes.get(at as usize).copied().unwrap_or(0)
    };
    u16::from_le_bytes([byte(0), byte(1)])
}

/// The queue's words, where there are enough.
fn words(held: &Held) -> [u64; QUEUE_WORDS] {
    held.queue.first_chunk().copied().unwrap_or_default()
}

/// The guest puts a chain into the available ring: mostly a good one.
fn put(random: &mut Random, memory: &mut Memory, held: &Held) {
    let queue = words(held);
    let (any, next) = (random.next() as u16, random.below(128) as u16);
    let head = match random.below(30) {
        0 => 127,
        1 => random.pick(&[128, 129, 32_768, 65_535, any]),
        _ => any % 128,
    };
    let (request, status) = (
        spot(random, memory, &queue, 24),
        spot(random, memory, &queue, 10),
    );
    let asked = request_bytes(random, held);
    poke(memory, request, &asked);

    let (mut first, mut second) = ((24u32, 1u16, next), (10, 2, 0));
    match random.below(40) {
        0 => first.0 = random.pick(&[0, 23, 25]),
        1 => first.1 = random.pick(&[0, 2, 3, 4, 5]),
        2 => first.2 = random.pick(&[head, 128, 65_535]),
        3 => second.0 = random.pick(&[0, 9]),
        4 => second.1 = random.pick(&[0, 1, 4, 6]),
        5 => second = (4096, 3, next),
        _ => (),
    }
    for (at, addr, (length, flags, next)) in [(head, request, first), (next, status, second)] {
        let at = queue[DESCRIPTORS].wrapping_add(16 * u64::from(at));
        poke(memory, at, &addr.to_le_bytes());
        poke(memory, at.wrapping_add(8), &length.to_le_bytes());
        poke(memory, at.wrapping_add(12), &flags.to_le_bytes());
        poke(memory, at.wrapping_add(14), &next.to_le_bytes());
    }

    let at = queue[AVAILABLE].wrapping_add(2);
    let mut index = peek(memory, at);
    if index.wrapping_sub(queue[3] as u16) >= 128 && random.chance(50) {
        // The ring is full, or the index was lost: the guest begins where the device stands.
        index = queue[3] as u16;
    }
    let entry = at.wrapping_add(2 + 2 * u64::from(index % 128));
    poke(memory, entry, &head.to_le_bytes());
    poke(memory, at, &index.wrapping_add(1).to_le_bytes());
}

/// Where a request or a response goes: mostly where nothing else is, else onto a part of the queue, or anywhere.
fn spot(random: &mut Random, memory: &Memory, queue: &[u64; QUEUE_WORDS], size: u64) -> u64 {
    let part = random.below(3) as usize;
    match random.below(60) {
        0 => address(random, memory, size),
        1 => queue[part].wrapping_add(random.below(SIZES[part])),
        2 => queue[AVAILABLE].wrapping_add(random.below(8)),
        3 => queue[USED].wrapping_add(random.below(8)),
        4 => {
            // On the next element.
            let element = queue[USED].wrapping_add(4 + 8 * (queue[4] % 128));
            element.wrapping_sub(random.below(10))
        }
        _ => {
            let free = (memory.bytes.len() as u64).saturating_sub(FREE_BYTES);
            let offset = free + random.below(FREE_BYTES - size);
            memory.base.wrapping_add(offset)
        }
    }
}

/// A request, mostly one that may be granted.
fn request_bytes(random: &mut Random, held: &Held) -> [u8; REQUEST_BYTES] {
    let any = random.next();
    let none = random.pick(&[4, any as u16]);
    let request_type = random.pick(&[0, 0, 0, 0, 0, 0, 1, 1, 1, 2, 3, 3, 3, none]);
    // A block that is plugged, for an unplug, else one that is not, where one is found soon.
    let plugged = |block: u64| {
        let byte = held.bitmap.get(block as usize / 8).copied().unwrap_or(0);
        byte >> (block % 8) & 1 == 1
    };
    // Of a device with several regions often one about the first border.
    let several = held.record.get(8) == Some(&1);
    let (from, among) = match several && random.chance(60) {
        true => (BORDER - 8, 16),
        false => (0, 64),
    };
    let mut block = from + random.below(among);
    for _ in 0..8 {
        if plugged(block) == (request_type == 1) {
            break;
        }
        block = from + random.below(among);
    }
    let usable = held.record.get(4).copied().unwrap_or(0);
    let end = START.wrapping_add(usable);
    let top = 0u64.wrapping_sub(BLOCK);
    let edge = random.pick(&[START - BLOCK, end, end.wrapping_sub(BLOCK), top]);
    let addr = START + BLOCK * block;
    let addr = random.pick(&[addr, addr, addr, addr, addr, addr, edge, addr + 1, any]);
    let blocks = random.pick(&[1, 1, 1, 1, 2, 3, 9, 0, any as u16]);
    let request = Request {
        request_type,
        addr,
        blocks,
    };
    request.to_bytes()
}

/// What guest and host do between calls: requests, other bytes, a change of size, calls that go past the queue.
pub fn between(random: &mut Random, memory: &mut Memory, held: &mut Held) {
    let pending = held.record.get(11).copied().unwrap_or(PENDING_NOTHING);
    let base = memory.base;
    let requests = match random.below(200) {
        0 => 120,
        n => n % 5 % 3,
    };
    for _ in 0..requests {
        put(random, memory, held);
    }
    match random.below(100) {
        0..=2 => rewrite(random, memory, held),
        3..=5 => {
            let mib = random.pick(&[0, 16, 64, 256, 1792, 2304, 4096]);
            held.device().set_requested_size(mib, &mut []);
        }
        6 => {
            let (table, head) = (words(held)[DESCRIPTORS], random.below(128) as u16);
            let mem = &mut memory.bytes;
            held.device().request(mem, base, table, head, &mut []);
        }
        7 if pending != PENDING_NOTHING => {
            let mem = &mut memory.bytes;
            held.device().host_answer(mem, base, true, HOST, &mut []);
        }
        // At last a host places what is not placed,
        8..=17 if pending == PENDING_NOTHING && held.record.get(10) == Some(&0) => {
            place(random, held);
        }
        // and makes good for a head that it has lost.
        18..=47 if pending < PENDING_DISCARD => set(&mut held.queue, 5, 0),
        _ => (),
    }
    let length = random.pick(&[9, 9, 9, 9, 9, 9, 0, 1, 8, 12]);
    held.answer = vec![random.next(); length];
}

/// The guest writes over a part of its queue.
fn rewrite(random: &mut Random, memory: &mut Memory, held: &Held) {
    let part = random.below(3) as usize;
    let addr = words(held)[part].wrapping_add(random.below(SIZES[part]));
    let length = random.pick(&[1, 8, 64, 300]);
    let noise = bytes(random, length);
    poke(memory, addr, &noise);
}

/// Sets a word, where there is one.
fn set(words: &mut [u64], at: usize, word: u64) {
    if let Some(there) = words.get_mut(at) {
        *there = word;
    }
}

/// One thing that is wrong in what a call is lent, or in where the guest's index stands.
pub fn spoil(random: &mut Random, memory: &mut Memory, held: &mut Held) {
    let (any, part) = (random.next(), random.below(3) as usize);
    let queue = words(held);
    let length = memory.bytes.len();
    match random.below(18) {
        0 => {
            // Memory that ends in a part, or just with it.
            let end = queue[part].wrapping_add(SIZES[part] - random.below(3));
            let end = end.wrapping_sub(memory.base) as usize;
            memory
                .bytes
                .truncate(random.pick(&[end, end, any as usize % (length + 1)]));
        }
        1 => {
            let (base, top) = (memory.base, 0u64.wrapping_sub(length as u64));
            let inside = queue[part].wrapping_add(1);
            let (below, above) = (base.wrapping_sub(1), base.wrapping_add(1));
            memory.base = random.pick(&[below, above, inside, top, any]);
        }
        2 => {
            let need = held.record.get(3).map_or(0, |size| size / BLOCK / 8);
            let short = (need as usize).saturating_sub(1);
            held.bitmap.truncate(random.pick(&[0, short, short]));
        }
        3 => {
            let short = held.table.len().saturating_sub(1);
            held.table.truncate(random.pick(&[0, 2, short, short]));
        }
        4 => held.queue.truncate(any as usize % QUEUE_WORDS),
        5 => held.record.truncate(any as usize % RECORD_WORDS),
        6 => {
            let word = random.pick(&[65_535, 65_536, 65_537, any % 65_536, 1 << 32, u64::MAX]);
            set(&mut held.queue, random.pick(&[3, 4, 5]), word);
        }
        7 => {
            let (there, other) = (
                address(random, memory, SIZES[part]),
                queue[any as usize % 3],
            );
            let near = other.wrapping_add(any % 64);
            let word = random.pick(&[there, there, other, near, u64::MAX, 0]);
            set(&mut held.queue, part, word);
        }
        8 => {
            let word = random.pick(&[0, 1, 2, 3, BLOCK, any % 64 * BLOCK, any, u64::MAX]);
            set(&mut held.record, random.below(15) as usize, word);
        }
        9 => set(&mut held.record, 5, BLOCK * (any % 3)),
        10 | 11 => {
            let ahead = random.pick(&[0, 1, 127, 128, 129, 130, 32_768, 65_535, any as u16]);
            let index = (queue[3] as u16).wrapping_add(ahead);
            poke(
                memory,
                queue[AVAILABLE].wrapping_add(2),
                &index.to_le_bytes(),
            );
        }
        12 => {
            let taken = random.pick(&[1, 128, 129, 65_536, any % 65_537]);
            set(&mut held.queue, 5, taken);
        }
        13..=16 => {
            // A row of which somebody else wrote whether it is mapped, and where.
            let row = 3 * random.below(2) as usize;
            let near_top = 0u64.wrapping_sub(any % 64 * BLOCK);
            let host = random.pick(&[HOST, near_top, near_top, u64::MAX, any]);
            set(&mut held.table, row + 1, random.pick(&[0, 1, 1, any]));
            set(&mut held.table, row + 2, host);
        }
        _ => rewrite(random, memory, held),
    }
}
