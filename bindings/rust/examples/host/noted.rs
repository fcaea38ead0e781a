// SPDX-License-Identifier: Apache-2.0 AND BSD-3-Clause
//! Guest memory that notes what a call reads and writes, and the head and the chain that the call has read so.

use std::cell::RefCell;
use std::collections::VecDeque;

use jambcopper::driver::{Request, REQUEST_BYTES, RESPONSE_BYTES};
use jambcopper::guest::{GuestMemory, Regions};
use jambcopper::{Answer, Error, Queue};

use crate::account::Asked;

const QUEUE_SIZE: u16 = 128;
const AVAILABLE_BYTES: u64 = 262;
const USED_BYTES: u64 = 1030;

/// The flags of a descriptor.
const NEXT: u16 = 1;
const WRITE: u16 = 2;
const INDIRECT: u16 = 4;

/// Bytes, and their guest address.
pub type Access = (u64, Vec<u8>);

pub struct Noted<'a> {
    memory: &'a Regions,
    read: RefCell<VecDeque<Access>>,
    written: RefCell<Vec<Access>>,
}

impl Noted<'_> {
    pub fn new(memory: &Regions) -> Noted<'_> {
        Noted {
            memory,
            read: RefCell::default(),
            written: RefCell::default(),
        }
    }

    /// What was read and not looked at, and what was written.
    pub fn rest(self) -> (Vec<Access>, Vec<Access>) {
        (self.read.into_inner().into(), self.written.into_inner())
    }

    /// The bytes of the next read, which must be the one of so many bytes at a guest address, where they are inside.
    fn next<const N: usize>(&self, addr: u64) -> Option<[u8; N]> {
        if !self.contains(addr, N as u64) {
            return None;
        }
        let (at, bytes) = self.read.borrow_mut().pop_front()?;
        bytes.try_into().ok().filter(|_| at == addr)
    }

    /// Address, length, flags and next of a descriptor, where the table has it.
    fn descriptor(&self, table: u64, index: u16) -> Option<(u64, u32, u16, u16)> {
        if index >= QUEUE_SIZE {
            return None;
        }
        let bytes = self.next(table.checked_add(16 * u64::from(index))?)?;
        let word = u128::from_le_bytes(bytes);
        let (flags, next) = (word >> 96, word >> 112);
        Some((word as u64, (word >> 64) as u32, flags as u16, next as u16))
    }

    fn request(&self, addr: u64) -> Option<Request> {
        let bytes: [u8; REQUEST_BYTES] = self.next(addr)?;
        let [kind, addr, blocks] = [0, 8, 16].map(|at| {
            let word = bytes[at..at + 8].try_into().expect("8 bytes");
            u64::from_le_bytes(word)
        });
        Some(Request {
            request_type: kind as u16,
            addr,
            blocks: blocks as u16,
        })
    }
}

impl GuestMemory for Noted<'_> {
    fn contains(&self, addr: u64, size: u64) -> bool {
        self.memory.contains(addr, size)
    }

    fn read(&self, addr: u64, into: &mut [u8]) -> bool {
        let read = self.memory.read(addr, into);
        if read {
            self.read.borrow_mut().push_back((addr, into.to_vec()));
        }
        read
    }

    fn write(&self, addr: u64, bytes: &[u8]) -> bool {
        self.written.borrow_mut().push((addr, bytes.to_vec()));
        self.memory.write(addr, bytes)
    }
}

/// A head that was taken, and its chain: a request, or the reason why it is none.
pub struct Taken {
    head: u16,
    pub chain: Result<Asked, u64>,
}

impl Taken {
    /// R13: the head that a call takes, if the ring has one, by what it has read.
    pub fn of(noted: &Noted, queue: &Queue) -> Result<Option<Taken>, Error> {
        let (available, next) = (queue.available(), queue.next_available());
        let inside =
            noted.contains(available, AVAILABLE_BYTES) && noted.contains(queue.used(), USED_BYTES);
        if !inside {
            return Err(Error::RingOutside);
        }
        let number = |at: u64| {
            let bytes = noted.next(available + at);
            bytes.map(u16::from_le_bytes).ok_or(Error::RingOutside)
        };
        match number(2)?.wrapping_sub(next) {
            0 => return Ok(None),
            1..=QUEUE_SIZE => {}
            _ => return Err(Error::BadIndex),
        }
        let head = number(4 + 2 * u64::from(next % QUEUE_SIZE))?;
        let chain = chain(noted, queue.descriptors(), head);
        Ok(Some(Taken { head, chain }))
    }

    /// What is written where an answer ends the request: the response, then the used element, then the index.
    pub fn writes(&self, before: &Queue, answer: &Answer) -> Vec<Access> {
        let mut writes = Vec::new();
        let length = match (*answer, self.chain) {
            (
                Answer::Served {
                    resp_type,
                    state,
                    length,
                    ..
                },
                Ok((_, status)),
            ) if length > 0 => {
                let padded = u64::from(resp_type).to_le_bytes();
                writes.push((status, [&padded[..], &state.to_le_bytes()].concat()));
                length
            }
            _ => 0,
        };
        let (used, index) = (before.used(), before.next_used());
        let element = u64::from(self.head) | u64::from(length) << 32;
        let at = used + 4 + 8 * u64::from(index % QUEUE_SIZE);
        writes.push((at, element.to_le_bytes().to_vec()));
        writes.push((used + 2, index.wrapping_add(1).to_le_bytes().to_vec()));
        writes
    }
}

/// R9: the request and where its response goes, or a reason.
fn chain(noted: &Noted, table: u64, head: u16) -> Result<Asked, u64> {
    let first = noted.descriptor(table, head);
    let (addr, length, flags, next) = first.ok_or(21u64)?;
    refuse(flags & INDIRECT != 0, 27)?;
    refuse(flags & WRITE != 0, 22)?;
    refuse(length != REQUEST_BYTES as u32, 23)?;
    let request = noted.request(addr).ok_or(24u64)?;
    refuse(flags & NEXT == 0, 21)?;
    // The head again, which is not writable.
    refuse(next == head, 25)?;
    let second = noted.descriptor(table, next);
    let (status, length, flags, _) = second.ok_or(21u64)?;
    refuse(flags & INDIRECT != 0, 27)?;
    refuse(flags & WRITE == 0, 25)?;
    refuse(length < RESPONSE_BYTES as u32, 26)?;
    Ok((request, status))
}

fn refuse(test: bool, reason: u64) -> Result<(), u64> {
    if test {
        return Err(reason);
    }
    Ok(())
}
