// SPDX-License-Identifier: Apache-2.0 AND BSD-3-Clause
//! A chain in guest memory with holes, by the words of docs/RULES.md, R9. What the device does with its request is the library's
//! matter, which gets the request as a chain in a small memory of its own.

use crate::queue::{Held, Memory, Told, UNSERVED};
use crate::sys::{ANSWER_LENGTH, ANSWER_WORDS, KIND_SERVED, REQUEST_BYTES, RESPONSE_BYTES};
use crate::why::Asked;

/// The record's word that has the status address while a discard is pending.
const STATUS: usize = 14;

/// The small memory, as R12.9 has it: two descriptors, the request at 64 and the response at 96.
const REQUEST_AT: usize = 64;
const RESPONSE_AT: usize = 96;
const SMALL: usize = 128;

/// A descriptor (R9.2).
struct Descriptor {
    addr: u64,
    length: u32,
    flags: u16,
    next: u16,
}

impl Descriptor {
    fn bytes(&self) -> Vec<u8> {
        let mut bytes = self.addr.to_le_bytes().to_vec();
        bytes.extend(self.length.to_le_bytes());
        bytes.extend(self.flags.to_le_bytes());
        bytes.extend(self.next.to_le_bytes());
        bytes
    }

    /// R9.3: "where its index is 128 or more, or where its 16 bytes are not inside".
    fn find(memory: &Memory, table: u64, index: u16) -> Option<Descriptor> {
        if index >= 128 {
            return None;
        }
        let at = memory.place(table.checked_add(16 * u64::from(index))?, 16)?;
        let words: Vec<u64> = (0..8).map(|n| memory.read(at + 2 * n).into()).collect();
        Some(Descriptor {
            addr: words[0] | words[1] << 16 | words[2] << 32 | words[3] << 48,
            length: (words[4] | words[5] << 16) as u32,
            flags: words[6] as u16,
            next: words[7] as u16,
        })
    }

    fn follows(&self) -> bool {
        self.flags & 1 != 0
    }

    fn writable(&self) -> bool {
        self.flags & 2 != 0
    }

    fn indirect(&self) -> bool {
        self.flags & 4 != 0
    }
}

/// The request's bytes and the status address, or the reason: R9.4 and R9.5.
fn walk(memory: &Memory, table: u64, head: u16) -> Result<(Vec<u8>, u64), u64> {
    let first = Descriptor::find(memory, table, head).ok_or(21u64)?;
    if first.indirect() {
        return Err(27);
    }
    if first.writable() {
        return Err(22);
    }
    if first.length != 24 {
        return Err(23);
    }
    let at = memory.place(first.addr, 24).ok_or(24u64)?;
    let second = first.follows().then_some(first.next);
    let second = second.and_then(|next| Descriptor::find(memory, table, next));
    let second = second.ok_or(21u64)?;
    if second.indirect() {
        return Err(27);
    }
    if !second.writable() {
        return Err(25);
    }
    if second.length < 10 {
        return Err(26);
    }
    Ok((memory.bytes[at..at + REQUEST_BYTES].to_vec(), second.addr))
}

/// The request of a chain, where it has a known type.
pub fn asked(memory: &Memory, table: u64, head: u16) -> Option<Asked> {
    let (bytes, _) = walk(memory, table, head).ok()?;
    let number = |at: usize| u16::from_le_bytes([bytes[at], bytes[at + 1]]);
    let addr = u64::from_le_bytes(bytes[8..16].try_into().ok()?);
    Asked::of(number(0), addr, number(16))
}

/// What the device tells of a chain.
pub fn request(held: &mut Held, memory: &mut Memory, table: u64, head: u16) -> Told {
    // 12, 7, 5 and 11 come before the chain is looked at.
    held.clone().request(&mut Memory::default(), 0, 0)?;
    let (request, status) = match walk(memory, table, head) {
        Ok(found) => found,
        Err(reason) => return Ok([UNSERVED, 0, 0, 0, 0, 0, 0, 0, reason]),
    };
    let mut small = small(&request);
    let mut told = held.request(&mut small, 0, 0)?;
    if held.discarding() {
        held.record[STATUS] = status;
    }
    deliver(&mut told, &small, memory, status);
    Ok(told)
}

/// What the device tells of a host's answer.
pub fn host_answer(held: &mut Held, memory: &mut Memory, ok: bool, host: u64) -> Told {
    let mut small = small(&[]);
    if !held.discarding() {
        return held.host_answer(&mut small, ok, host);
    }
    let status = held.record[STATUS];
    held.record[STATUS] = RESPONSE_AT as u64;
    let told = held.host_answer(&mut small, ok, host);
    if held.discarding() {
        held.record[STATUS] = status;
    }
    let mut told = told?;
    deliver(&mut told, &small, memory, status);
    Ok(told)
}

/// The small memory with a request.
fn small(request: &[u8]) -> Memory {
    let mut small = Memory {
        bytes: vec![0; SMALL],
        ..Memory::default()
    };
    let first = (REQUEST_AT, REQUEST_BYTES, 1, 1);
    let second = (RESPONSE_AT, RESPONSE_BYTES, 2, 0);
    for (at, (addr, length, flags, next)) in [(0, first), (16, second)] {
        let descriptor = Descriptor {
            addr: addr as u64,
            length: length as u32,
            flags,
            next,
        };
        small.write(at, &descriptor.bytes());
    }
    small.write(REQUEST_AT, request);
    small
}

/// R9.10: the response is written, or the length is 0.
fn deliver(told: &mut [u64; ANSWER_WORDS], small: &Memory, memory: &mut Memory, status: u64) {
    if told[0] != KIND_SERVED {
        return;
    }
    match memory.place(status, RESPONSE_BYTES as u64) {
        Some(at) => memory.write(at, &small.bytes[RESPONSE_AT..][..RESPONSE_BYTES]),
        None => told[ANSWER_LENGTH] = 0,
    }
}
