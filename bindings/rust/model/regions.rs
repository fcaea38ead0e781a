// SPDX-License-Identifier: Apache-2.0 AND BSD-3-Clause
//! Guest memory as regions of the host, whole, cut and with holes, and what is read and written of it.

use std::cell::RefCell;
use std::ops::Range;
use std::slice::from_raw_parts;

use jambcopper::guest::{GuestMemory, Regions};

use crate::fence::Fence;
use crate::queue::Memory;
use crate::random::Random;

/// The most regions that memory is cut into.
const MOST: usize = 10;

/// Room for the regions, each between fences of its own.
pub struct Ground(Vec<Fence>);

/// Guest memory laid down in the room, and where each region of it is.
pub struct Laid {
    pub mem: Regions,
    at: Vec<(Range<usize>, *const u8)>,
}

impl Ground {
    pub fn new() -> Ground {
        Ground((0..MOST).map(|_| Fence::new()).collect())
    }

    /// Lays down the parts of guest memory, which begin or end where the processor stops every access.
    pub fn lay(&mut self, random: &mut Random, memory: &Memory, parts: &[Range<usize>]) -> Laid {
        let mut laid = Laid {
            mem: Regions::new(),
            at: Vec::new(),
        };
        // In any order: it must not matter.
        let first = random.below(parts.len().max(1) as u64) as usize;
        let (behind, front) = (&parts[first..], &parts[..first]);
        for (part, fence) in behind.iter().chain(front).zip(&mut self.0) {
            let bytes = fence.lay(&memory.bytes[part.clone()], random.chance(70));
            let guest = memory.base.wrapping_add(part.start as u64);
            // SAFETY: the fence's room stays, and is lent to nobody else until the next lay.
            unsafe { laid.mem.add(guest, bytes.as_mut_ptr(), bytes.len()) }.expect("a region");
            laid.at.push((part.clone(), bytes.as_ptr()));
        }
        laid
    }
}

impl Laid {
    /// All of the memory, from what the regions have now.
    pub fn bytes(&self, mut bytes: Vec<u8>) -> Vec<u8> {
        for (part, at) in &self.at {
            // SAFETY: the fence's room, which nobody writes now.
            let there = unsafe { from_raw_parts(*at, part.len()) };
            bytes[part.clone()].copy_from_slice(there);
        }
        bytes
    }
}

/// All of guest memory as one region; what would pass 2^64 - 1 is none.
pub fn whole(memory: &Memory) -> Vec<Range<usize>> {
    let room = 0u64.wrapping_sub(memory.base);
    let length = match room {
        0 => memory.bytes.len(),
        _ => memory.bytes.len().min(room as usize),
    };
    Vec::from_iter((length > 0).then_some(0..length))
}

/// The parts, some of them cut in two.
pub fn cut(random: &mut Random, mut parts: Vec<Range<usize>>) -> Vec<Range<usize>> {
    for _ in 0..random.below(6) {
        let Some(longest) = (0..parts.len()).max_by_key(|&nth| parts[nth].len()) else {
            break;
        };
        let part = parts[longest].clone();
        if part.len() < 2 || parts.len() == MOST {
            break;
        }
        let at = part.start + 1 + random.below(part.len() as u64 - 1) as usize;
        parts.splice(longest..=longest, [part.start..at, at..part.end]);
    }
    parts
}

/// The parts without the holes.
pub fn without(parts: Vec<Range<usize>>, holes: &[Range<usize>]) -> Vec<Range<usize>> {
    holes.iter().fold(parts, |parts, hole| {
        let around = |part: Range<usize>| {
            [
                part.start..part.end.min(hole.start),
                part.start.max(hole.end)..part.end,
            ]
        };
        let parts = parts.into_iter().flat_map(around);
        parts.filter(|part| !part.is_empty()).collect()
    })
}

/// What was read or written, and where.
#[derive(Clone, Debug)]
pub struct Access {
    pub written: bool,
    pub addr: u64,
    pub bytes: Vec<u8>,
}

impl Access {
    pub fn end(&self) -> u128 {
        u128::from(self.addr) + self.bytes.len() as u128
    }

    pub fn overlaps(&self, other: &Access) -> bool {
        u128::from(self.addr) < other.end() && u128::from(other.addr) < self.end()
    }
}

/// Guest memory that is watched and, where there is a guest that does so, changed behind each read.
pub struct Watched<'a> {
    mem: &'a Regions,
    log: RefCell<Vec<Access>>,
    guest: Option<RefCell<Random>>,
}

impl<'a> Watched<'a> {
    pub fn new(mem: &'a Regions, guest: Option<Random>) -> Watched<'a> {
        Watched {
            mem,
            log: RefCell::default(),
            guest: guest.map(RefCell::new),
        }
    }

    pub fn log(self) -> Vec<Access> {
        self.log.into_inner()
    }

    fn noted(&self, done: bool, written: bool, addr: u64, bytes: &[u8]) -> bool {
        if !done {
            return false;
        }
        if let (false, Some(guest)) = (written, &self.guest) {
            let mut guest = guest.borrow_mut();
            let noise: Vec<u8> = bytes.iter().map(|_| guest.next() as u8).collect();
            assert!(self.mem.write(addr, &noise));
        }
        let bytes = bytes.to_vec();
        self.log.borrow_mut().push(Access {
            written,
            addr,
            bytes,
        });
        true
    }
}

impl GuestMemory for Watched<'_> {
    fn contains(&self, addr: u64, size: u64) -> bool {
        self.mem.contains(addr, size)
    }

    fn read(&self, addr: u64, into: &mut [u8]) -> bool {
        let done = self.mem.read(addr, into);
        self.noted(done, false, addr, into)
    }

    fn write(&self, addr: u64, bytes: &[u8]) -> bool {
        let done = self.mem.write(addr, bytes);
        self.noted(done, true, addr, bytes)
    }
}
