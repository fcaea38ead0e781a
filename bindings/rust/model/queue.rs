// SPDX-License-Identifier: Apache-2.0 AND BSD-3-Clause
//! The split queue by the words of Virtio 1.2 (docs/STANDARD.md, Q1 to Q7) and of docs/RULES.md, R13. The device's own part is the
//! library's `request` and `host_answer`, but for the reason of a response, which a model of it works out (`why.rs`).

use std::ops::Range;

use crate::chain;
use crate::sys::{self, ANSWER_LENGTH, ANSWER_WORDS, KIND_EMPTY, KIND_SERVED};
use crate::sys::{PENDING_DISCARD, PENDING_DISCARD_ONE};
use crate::why;

/// What a call tells: the words of its answer, or the number of its refusal.
pub type Told = Result<[u64; ANSWER_WORDS], u64>;

/// The kind of answer, word 0, to a chain that is no request.
pub const UNSERVED: u64 = 4;

/// The word of an answer that has a response's reason, and those of a record with the pending call and its first block.
pub const ANSWER_WHY: usize = 8;
const PENDING: usize = 11;
const FIRST: usize = 12;

/// "Queue size 128", and the sizes of the rings (Q1).
const SIZE: u16 = 128;
const AVAILABLE_BYTES: u64 = 6 + 2 * SIZE as u64;
const USED_BYTES: u64 = 6 + 8 * SIZE as u64;

/// Guest memory, and the guest address of its first byte.
#[derive(Clone, Debug, Default, PartialEq, Eq)]
pub struct Memory {
    pub bytes: Vec<u8>,
    pub base: u64,
    /// Bytes that are no guest memory.
    pub holes: Vec<Range<usize>>,
}

impl Memory {
    /// Where bytes at a guest address stand, if all of them are inside; no byte past 2^64 - 1 is.
    pub fn place(&self, addr: u64, size: u64) -> Option<usize> {
        let (base, addr) = (u128::from(self.base), u128::from(addr));
        let end = (base + self.bytes.len() as u128).min(1 << 64);
        let inside = base <= addr && addr + u128::from(size) <= end;
        let at = inside.then(|| (addr - base) as usize)?;
        let behind = at + size as usize;
        let holed = self
            .holes
            .iter()
            .any(|hole| hole.start < behind && at < hole.end);
        (!holed).then_some(at)
    }

    pub fn read(&self, at: usize) -> u16 {
        u16::from_le_bytes([self.bytes[at], self.bytes[at + 1]])
    }

    pub fn write(&mut self, at: usize, bytes: &[u8]) {
        self.bytes[at..at + bytes.len()].copy_from_slice(bytes);
    }
}

/// What a host holds for a device, and lends with guest memory: any words and bytes.
#[derive(Clone, Debug, PartialEq, Eq)]
pub struct Held {
    pub record: Vec<u64>,
    pub queue: Vec<u64>,
    pub bitmap: Vec<u8>,
    pub table: Vec<u64>,
    pub answer: Vec<u64>,
}

impl Held {
    pub fn device(&mut self) -> sys::Lent<'_> {
        sys::Lent {
            record: &mut self.record,
            bitmap: &mut self.bitmap,
            table: &mut self.table,
        }
    }

    /// What the device itself tells of a chain.
    pub fn request(&mut self, memory: &mut Memory, table: u64, head: u16) -> Told {
        if !memory.holes.is_empty() {
            return chain::request(self, memory, table, head);
        }
        let mut words = [0; ANSWER_WORDS];
        let asked = chain::asked(memory, table, head);
        let before = asked.map(|asked| (self.clone(), asked));
        let Memory { bytes, base, .. } = memory;
        match self.device().request(bytes, *base, table, head, &mut words) {
            0 => Ok(with_why(words, || {
                let (held, asked) = before?;
                held.with_device(|device| device.why(asked, &[]))
            })),
            number => Err(number),
        }
    }

    /// What the device itself tells of a host's answer.
    pub fn host_answer(&mut self, memory: &mut Memory, ok: bool, host: u64) -> Told {
        if !memory.holes.is_empty() {
            return chain::host_answer(self, memory, ok, host);
        }
        let mut words = [0; ANSWER_WORDS];
        let before = self.discarding().then(|| self.clone());
        let Memory { bytes, base, .. } = memory;
        match self
            .device()
            .host_answer(bytes, *base, ok, host, &mut words)
        {
            0 => Ok(with_why(words, || before?.why_ended(ok))),
            number => Err(number),
        }
    }

    /// Why the request that waits for a discard ends with the host's answer, if it does.
    fn why_ended(&self, ok: bool) -> Option<u64> {
        if !ok || self.record[PENDING] == PENDING_DISCARD {
            return Some(why::of_discard(ok));
        }
        self.with_device(|device| device.of_unplug_all(self.record[FIRST] + 1, &[]))
    }

    /// The device as the model of reasons takes it, of a record that the library has taken.
    fn with_device<T>(&self, ask: impl FnOnce(why::Device) -> T) -> T {
        let record = &self.record;
        ask(why::Device {
            start: record[2],
            usable: record[4],
            plugged: record[5],
            requested: record[6],
            several: record[8] == 1,
            blocks: record[3] / record[0],
            is_plugged: &|block| self.bitmap[block as usize / 8] >> (block % 8) & 1 == 1,
            host: &|row| {
                let row = &self.table[3 * row as usize..];
                (row[1] != 0).then_some(row[2])
            },
        })
    }

    /// The queue of the words. 12: "too few, or one out of its bounds", or a head is out while no discard is pending.
    fn queue(&self) -> Result<Queue, u64> {
        Queue::of(&self.queue)
            .filter(|queue| queue.taken.is_none() || self.discarding())
            .ok_or(12)
    }

    /// Whether a discard is pending.
    pub fn discarding(&self) -> bool {
        let pending = self.record.get(11).copied();
        pending.is_some_and(|pending| pending == PENDING_DISCARD || pending == PENDING_DISCARD_ONE)
    }

    /// Writes the answer's words, as far as there is room.
    fn tell(&mut self, told: Told) -> Told {
        let words = told.unwrap_or_else(|number| [0, number, 0, 0, 0, 0, 0, 0, 0]);
        for (word, told) in self.answer.iter_mut().zip(words) {
            *word = told;
        }
        told
    }
}

/// A response's reason is the model's. Where that finds none, it is one that the library never gives.
fn with_why(
    mut words: [u64; ANSWER_WORDS],
    why: impl FnOnce() -> Option<u64>,
) -> [u64; ANSWER_WORDS] {
    if words[0] == KIND_SERVED {
        words[ANSWER_WHY] = why().unwrap_or(u64::MAX);
    }
    words
}

/// Where the guest has its queue, and where the device stands in it.
struct Queue {
    descriptors: u64,
    available: u64,
    used: u64,
    next_available: u16,
    next_used: u16,
    taken: Option<u16>,
}

impl Queue {
    fn of(words: &[u64]) -> Option<Queue> {
        let &[descriptors, available, used, next_available, next_used, taken] =
            words.first_chunk()?;
        let taken = match taken {
            0 => None,
            _ => Some((taken - 1).try_into().ok()?),
        };
        Some(Queue {
            descriptors,
            available,
            used,
            next_available: next_available.try_into().ok()?,
            next_used: next_used.try_into().ok()?,
            taken,
        })
    }

    /// The words that a call changes.
    fn store(&self, words: &mut [u64]) {
        words[3] = self.next_available.into();
        words[4] = self.next_used.into();
        words[5] = self.taken.map_or(0, |head| u64::from(head) + 1);
    }

    /// Where both rings stand. 14: "A ring not wholly inside guest memory".
    fn rings(&self, memory: &Memory) -> Result<(usize, usize), u64> {
        let available = memory.place(self.available, AVAILABLE_BYTES).ok_or(14u64)?;
        let used = memory.place(self.used, USED_BYTES).ok_or(14u64)?;
        Ok((available, used))
    }

    /// "Every taken head is reported used exactly once .. when its request has ended": id and length (Q2, Q6), then the index (Q7).
    fn report_where_ended(&mut self, told: &[u64; ANSWER_WORDS], memory: &mut Memory, used: usize) {
        let length = match told[0] {
            UNSERVED => 0,
            KIND_SERVED => told[ANSWER_LENGTH] as u32,
            _ => return,
        };
        let head = self.taken.take().expect("a head is out");
        let element = used + 4 + 8 * usize::from(self.next_used % SIZE);
        memory.write(element, &u32::from(head).to_le_bytes());
        memory.write(element + 4, &length.to_le_bytes());
        self.next_used = self.next_used.wrapping_add(1);
        memory.write(used + 2, &self.next_used.to_le_bytes());
    }
}

/// `jambcopper_queue_make`.
pub fn make(words: &mut [u64], [descriptors, available, used]: [u64; 3]) -> Told {
    *words.first_chunk_mut().ok_or(12u64)? = [descriptors, available, used, 0, 0, 0];
    Ok([0; ANSWER_WORDS])
}

/// `jambcopper_serve`.
pub fn serve(held: &mut Held, memory: &mut Memory) -> Told {
    let told = serve_next(held, memory);
    held.tell(told)
}

fn serve_next(held: &mut Held, memory: &mut Memory) -> Told {
    let mut queue = held.queue()?;
    // 12, 7, 5 and 11 are the device's: in no memory a chain is missing, so that this does nothing else.
    held.clone().request(&mut Memory::default(), 0, 0)?;
    let (available, used) = queue.rings(memory)?;
    // Q5: the index, then the entry. 15: "more than 128 ahead"
    let ahead = memory
        .read(available + 2)
        .wrapping_sub(queue.next_available);
    if ahead > SIZE {
        return Err(15);
    }
    if ahead == 0 {
        return Ok([KIND_EMPTY, 0, 0, 0, 0, 0, 0, 0, 0]);
    }
    // Q3: entry n stands at n modulo the size.
    let head = memory.read(available + 4 + 2 * usize::from(queue.next_available % SIZE));
    let told = held.request(memory, queue.descriptors, head)?;
    queue.next_available = queue.next_available.wrapping_add(1);
    queue.taken = Some(head);
    queue.report_where_ended(&told, memory, used);
    queue.store(&mut held.queue);
    Ok(told)
}

/// `jambcopper_serve_answer`.
pub fn serve_answer(held: &mut Held, memory: &mut Memory, ok: bool, host: u64) -> Told {
    let told = answer(held, memory, ok, host);
    held.tell(told)
}

fn answer(held: &mut Held, memory: &mut Memory, ok: bool, host: u64) -> Told {
    let mut queue = held.queue()?;
    if queue.taken.is_none() {
        return held.host_answer(memory, ok, host);
    }
    // 12, 8 and 11 are the device's; 14 comes behind them.
    held.clone().host_answer(&mut Memory::default(), ok, host)?;
    let (_, used) = queue.rings(memory)?;
    let told = held.host_answer(memory, ok, host)?;
    queue.report_where_ended(&told, memory, used);
    queue.store(&mut held.queue);
    Ok(told)
}
