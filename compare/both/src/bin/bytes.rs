// SPDX-License-Identifier: Apache-2.0 AND BSD-3-Clause
//! Raw random bytes through every export of the static library; run it under valgrind.
//!
//! Each slice is a block of the heap of just its own length, so that memcheck sees a byte read or
//! written outside. A call that is refused must leave every slice but the answer and the scratch as it was. A response
//! must have a reason, 1 to 11, exactly where it is ERROR.
//! `bytes SEED SECONDS` runs until the time is over.

use std::env;
use std::process::exit;
use std::time::{Duration, Instant};

use both::sys;
use oracle::guest::request;
use oracle::random::Random;
use oracle::rust::ERROR;

const MIB: u64 = 1 << 20;
const GIB: u64 = 1 << 30;

/// Guest memory begins here where it is not anywhere.
const BASE: u64 = 4096;

/// Where the rings are in it, behind the chain, and where the used ring ends.
const AVAILABLE: u64 = 544;
const USED: u64 = 808;
const RINGS_END: u64 = 1838;

fn main() {
    let args: Option<Vec<u64>> = env::args().skip(1).map(|arg| arg.parse().ok()).collect();
    let Some(&[seed, seconds]) = args.as_deref() else {
        eprintln!("bytes SEED SECONDS");
        exit(2)
    };
    let mut random = Random::new(seed);
    let began = Instant::now();
    let mut numbers = [[0u64; 20]; 19];
    let mut reasons = [0u64; 12];
    let mut calls = 0;
    while began.elapsed() < Duration::from_secs(seconds) {
        let mut lent = Lent::any(&mut random);
        for _ in 0..8 {
            let before = lent.clone();
            let (export, number) = lent.call(&mut random);
            assert!(number <= 19, "{export}: {number}");
            if number != 0 && number != 10 {
                lent.answer.clone_from(&before.answer);
                assert!(
                    lent == before,
                    "{export}: refused, and yet something changed"
                );
            }
            let told = (number, export, &*lent.answer);
            if let (0, 3 | 4 | 8 | 9, &[5, _, _, _, _, resp, _, _, why, ..]) = told {
                let error = resp == u64::from(ERROR);
                assert!(
                    why <= 11 && (why != 0) == error,
                    "{export}: type {resp}, why {why}"
                );
                reasons[why as usize] += 1;
            }
            numbers[export][number as usize] += 1;
            calls += 1;
        }
    }
    println!("{calls} calls from seed {seed}; by export, how many gave 0 to 19:");
    let names = [
        "make",
        "place",
        "size",
        "request",
        "host_answer",
        "read_config",
        "write_config",
        "queue_make",
        "serve",
        "serve_answer",
        "write_request",
        "read_response",
        "driver_config",
        "plan",
        "save_length",
        "save",
        "restore",
        "old_to_new",
        "new_to_old",
    ];
    for (name, numbers) in names.iter().zip(numbers) {
        println!("{name:13} {numbers:?}");
    }
    println!("responses by their reason, 0 to 11: {reasons:?}");
}

/// A number at an edge, a small one, or any.
fn number(random: &mut Random) -> u64 {
    let any = random.next();
    let small = any % 600;
    let edges = [
        0,
        1,
        2,
        3,
        4 * MIB,
        128 * MIB,
        256 * MIB,
        2 * GIB,
        GIB << 10,
        4 * GIB,
        BASE,
        1 << 63,
        u64::MAX,
        u64::MAX - 4 * MIB + 1,
    ];
    match any >> 62 {
        0 => any,
        1 => small,
        2 => small.wrapping_mul(4 * MIB),
        _ => random.pick(&edges),
    }
}

fn length(random: &mut Random, right: usize) -> usize {
    let any = random.below(64) as usize;
    random.pick(&[
        right,
        right,
        right,
        right,
        right.saturating_sub(1),
        right + 3,
        0,
        any,
    ])
}

fn bytes(random: &mut Random, length: usize) -> Box<[u8]> {
    let shape = random.below(3);
    (0..length)
        .map(|_| match shape {
            0 => 0,
            1 => 0xff,
            _ => random.next() as u8,
        })
        .collect()
}

fn words(random: &mut Random, length: usize) -> Box<[u64]> {
    (0..length).map(|_| number(random)).collect()
}

/// Everything that is lent, each as a block of the heap of its own.
#[derive(Clone, PartialEq, Eq)]
struct Lent {
    record: Box<[u64]>,
    queue: Box<[u64]>,
    bitmap: Box<[u8]>,
    table: Box<[u64]>,
    memory: Box<[u8]>,
    answer: Box<[u64]>,
    slots: Box<[u32]>,
}

impl Lent {
    /// A record that is good, good but for a word or two, or of any words; and slices to it.
    fn any(random: &mut Random) -> Lent {
        let mut record = words(random, 15);
        let capacity = random.pick(&[256, 512, 2048, 2304, 4096, 8192]);
        let multi = random.chance(50);
        let requested = 4 * random.below(1 + capacity / 4);
        sys::make(
            &mut record,
            capacity,
            requested,
            multi,
            random.chance(50),
            random.next() as u16,
            number(random),
        );
        let blocks = record[3] / (4 * MIB);
        let rows = match record[8] {
            1 => record[3].div_ceil(2 * GIB),
            _ => 1,
        };
        match random.below(8) {
            0 => record = words(random, 15),
            1 => {
                let short = length(random, 15);
                record = record[..short.min(15)].into();
            }
            2 => {
                // As if placed, with its bits and rows as they come.
                record[2] = 4 * GIB;
                record[4] = record[3];
                record[10] = 1;
            }
            _ => (),
        }
        for _ in 0..random.pick(&[0, 0, 0, 0, 1, 2]) {
            let at = random.below(15) as usize;
            if let Some(word) = record.get_mut(at) {
                *word = number(random);
            }
        }
        let bitmap = length(random, blocks.div_ceil(8) as usize);
        let table = length(random, 3 * rows as usize);
        let answer = length(random, 9);
        let slots = random.pick(&[rows, rows, rows, rows + 1, 0]);
        Lent {
            record,
            queue: queue(random),
            bitmap: bytes(random, bitmap),
            table: words(random, table),
            memory: guest(random),
            answer: words(random, answer),
            slots: (0..slots).map(|_| random.next() as u32).collect(),
        }
    }

    /// One export with whatever comes; gives which one, and its number.
    fn call(&mut self, random: &mut Random) -> (usize, u64) {
        let Lent {
            record,
            queue,
            bitmap,
            table,
            memory,
            answer,
            slots,
        } = self;
        let base = random.pick(&[BASE, BASE, BASE, BASE, 0, u64::MAX - 511, u64::MAX]);
        let (any, other) = (number(random), number(random));
        let export = random.pick(&[
            0, 1, 1, 2, 3, 3, 3, 4, 4, 4, 5, 6, 7, 8, 8, 8, 9, 9, 9, 10, 11, 12, 13, 13, 14, 15,
            15, 16, 16, 17, 17, 18, 18,
        ]);
        let size = random.pick(&[record.get(3).copied().unwrap_or(0), other]);
        let device = sys::Lent {
            record,
            bitmap,
            table,
        };
        let number = match export {
            0 => sys::make(
                &mut words(random, device.record.len()),
                any,
                other,
                random.chance(50),
                random.chance(50),
                any as u16,
                number(random),
            ),
            1 => {
                let start = random.pick(&[4 * GIB, 4 * GIB, 0, any]);
                device.place(start, size, slots, answer)
            }
            2 => device.set_requested_size(random.pick(&[4 * (any % 1024), any]), answer),
            3 => {
                let descriptors = random.pick(&[base, base, base, any]);
                let head = random.pick(&[0, 0, 0, 1, 127, 128, any as u16]);
                device.request(memory, base, descriptors, head, answer)
            }
            4 => device.host_answer(memory, base, random.chance(80), any, answer),
            5 => {
                let size = length(random, 56);
                let mut data = bytes(random, size);
                sys::read_config(device.record, random.pick(&[any % 70, any]), &mut data)
            }
            7 => {
                let size = length(random, 6);
                sys::queue_make(&mut words(random, size), any, other, base)
            }
            8 => device.serve(queue, memory, base, answer),
            9 => device.serve_answer(queue, memory, base, random.chance(80), any, answer),
            10 => {
                let size = length(random, 24);
                let mut data = bytes(random, size);
                lend(&mut data, |data| {
                    sys::driver_write_request(data, any as u16, other, (any >> 16) as u16)
                })
            }
            11 => {
                let (size, room) = (length(random, 10), length(random, 2));
                let mut data = bytes(random, size);
                for (at, byte) in data.iter_mut().enumerate() {
                    if random.chance(95) {
                        *byte = u8::from(at % 8 == 0) * random.below(4) as u8;
                    }
                }
                lend(&mut words(random, room), |response| {
                    sys::driver_read_response(&data, response)
                })
            }
            12 => {
                let room = length(random, 7);
                let data = config(random, device.record);
                lend(&mut words(random, room), |config| {
                    sys::driver_read_config(&data, config)
                })
            }
            13 => {
                let room = length(random, 2);
                let data = config(random, device.record);
                lend(&mut words(random, room), |plug| {
                    sys::driver_plan(&data, device.bitmap, plug)
                })
            }
            14 => {
                let room = length(random, 1);
                lend(&mut words(random, room), |length| {
                    sys::save_length(device.record, device.bitmap, length)
                })
            }
            15 => {
                let mut due = [0];
                sys::save_length(device.record, device.bitmap, &mut due);
                let (size, room) = (length(random, due[0] as usize), length(random, 1));
                lend(&mut words(random, room), |length| {
                    lend(&mut bytes(random, size), |text| {
                        sys::save(device.record, device.bitmap, text, length)
                    })
                })
            }
            16 => {
                let text = text(random, device.record);
                let mut record: Box<[u64]> = (&*device.record).into();
                let mut bitmap: Box<[u8]> = (&*device.bitmap).into();
                if random.chance(50) {
                    bitmap.fill(0);
                }
                lend(&mut record, |record| {
                    lend(&mut bitmap, |bitmap| sys::restore(record, bitmap, &text))
                })
            }
            17 => {
                let (fields, old) = old_form(random, device.record);
                let most = 122 + 13 * old.len();
                let (size, room) = (length(random, most), length(random, 1));
                let mut scratch = scratch(random);
                lend(&mut words(random, room), |length| {
                    lend(&mut bytes(random, size), |text| {
                        sys::old_to_new(&fields, &old, &mut scratch, text, length)
                    })
                })
            }
            18 => {
                let blocks = device.record.get(3).map_or(0, |region| region / (4 * MIB));
                let (size, room) = (length(random, blocks.min(4096) as usize), length(random, 6));
                let text = text(random, device.record);
                let mut scratch = scratch(random);
                lend(&mut words(random, room), |fields| {
                    lend(&mut bytes(random, size), |old| {
                        sys::new_to_old(&text, &mut scratch, old, fields)
                    })
                })
            }
            _ => {
                let size = length(random, 56);
                sys::write_config(device.record, any, &bytes(random, size))
            }
        };
        (export, number)
    }
}

/// A call that is lent a slice, which it leaves as it was where it refuses.
fn lend<T: Clone + PartialEq>(slice: &mut Box<[T]>, call: impl FnOnce(&mut [T]) -> u64) -> u64 {
    let before = slice.clone();
    let number = call(slice);
    assert!(
        number == 0 || *slice == before,
        "refused, and yet something changed"
    );
    number
}

/// Scratch for a move, mostly of the bytes that it needs.
fn scratch(random: &mut Random) -> Box<[u8]> {
    let size = length(random, sys::SAVE_SCRATCH);
    bytes(random, size)
}

/// Old bytes for a record's region, and the fields to them: mostly of a state.
fn old_form(random: &mut Random, record: &[u64]) -> (Box<[u64]>, Box<[u8]>) {
    let &[block, _, start, region, usable, _, requested, ..] = record else {
        return (words(random, 6), bytes(random, 64));
    };
    let blocks = (region / (4 * MIB)).min(4096) as usize;
    let size = length(random, blocks);
    let kind = random.below(4);
    let mut old: Box<[u8]> = (0..size)
        .map(|at| {
            let inside = (at as u64) < usable / (4 * MIB);
            u8::from(inside && (kind == 0 || kind == 1 && at % 2 == 1 || random.chance(30)))
        })
        .collect();
    let plugged = 4 * MIB * old.iter().map(|byte| u64::from(*byte)).sum::<u64>();
    let mut fields = vec![block, start, region, requested, usable, plugged];
    if random.chance(10) {
        let at = random.below(64) as usize;
        if let Some(byte) = old.get_mut(at) {
            *byte = random.next() as u8;
        }
    }
    if random.chance(10) {
        fields[random.below(6) as usize] = number(random);
    }
    fields.truncate(random.pick(&[6, 6, 6, 6, 6, 5, 0]));
    (fields.into(), old)
}

/// The text of a state in a record's region, some of its bytes changed; or any bytes.
fn text(random: &mut Random, record: &[u64]) -> Box<[u8]> {
    let size = random.below(200) as usize;
    let mut text = bytes(random, size);
    let (fields, old) = old_form(random, record);
    let mut room = vec![0; 122 + 13 * old.len()];
    let mut length = [0];
    let mut scratch = vec![0; sys::SAVE_SCRATCH];
    if sys::old_to_new(&fields, &old, &mut scratch, &mut room, &mut length) == 0 {
        text = room[..length[0] as usize].into();
    }
    for _ in 0..random.pick(&[0, 0, 0, 1, 2]) {
        let at = random.below(1 + text.len() as u64) as usize;
        let any = random.next() as u8;
        let byte = random.pick(&[b'0', b'1', b'3', b'9', b',', b'\n', any]);
        match text.get_mut(at) {
            Some(there) => *there = byte,
            None => text = text[..at / 2].into(),
        }
    }
    if random.chance(5) {
        text = [&b"form=3\n"[..], &text].concat().into();
    }
    text
}

/// The config of a record, where it is one, some of its bytes changed; else any bytes.
fn config(random: &mut Random, record: &[u64]) -> Box<[u8]> {
    let size = length(random, 56);
    let mut data = bytes(random, size);
    sys::read_config(record, 0, &mut data);
    for _ in 0..random.pick(&[0, 0, 0, 1]) {
        let at = random.below(64) as usize;
        if let Some(byte) = data.get_mut(at) {
            *byte = random.next() as u8;
        }
    }
    data
}

/// A queue whose rings are behind the chain, some of its words changed; or any words.
fn queue(random: &mut Random) -> Box<[u64]> {
    let size = length(random, 6);
    let mut queue = words(random, size);
    if random.chance(80) {
        let good = [BASE, BASE + AVAILABLE, BASE + USED, 0, 0, 0];
        for (word, good) in queue.iter_mut().zip(good) {
            *word = good;
        }
        let at = random.below(12) as usize;
        if let Some(word) = queue.get_mut(at) {
            *word = number(random);
        }
    }
    queue
}

/// Guest memory: a chain of two descriptors with a request, some of its bytes changed, mostly with rings behind it that
/// have its head; or any bytes.
fn guest(random: &mut Random) -> Box<[u8]> {
    let rings = random.chance(70);
    let size = match rings {
        true => RINGS_END - 1 + random.below(8),
        false => 512 + random.below(32),
    };
    let mut memory = bytes(random, size as usize);
    if random.chance(20) {
        return memory[..random.below(64) as usize].into();
    }
    if rings {
        let at = AVAILABLE as usize;
        let index = random.pick(&[0, 1, 1, 1, 128, 129, 255]);
        memory[at + 2..at + 6].copy_from_slice(&[index, 0, 0, 0]);
    }
    let first = descriptor(BASE + 256, 24, 1, 1);
    let second = descriptor(BASE + 512, 10, 2, 0);
    let addr = 4 * GIB + 4 * MIB * random.below(8);
    let asked = request(random.below(5) as u16, addr, random.below(6) as u16);
    memory[..16].copy_from_slice(&first);
    memory[16..32].copy_from_slice(&second);
    memory[256..280].copy_from_slice(&asked);
    for _ in 0..random.pick(&[0, 0, 0, 1, 3]) {
        let at = random.pick(&[0, 16, 256]) + random.below(24) as usize;
        memory[at] = random.next() as u8;
    }
    memory
}

fn descriptor(addr: u64, len: u32, flags: u16, next: u16) -> [u8; 16] {
    let mut bytes = [0; 16];
    bytes[..8].copy_from_slice(&addr.to_le_bytes());
    bytes[8..12].copy_from_slice(&len.to_le_bytes());
    bytes[12..14].copy_from_slice(&flags.to_le_bytes());
    bytes[14..].copy_from_slice(&next.to_le_bytes());
    bytes
}
