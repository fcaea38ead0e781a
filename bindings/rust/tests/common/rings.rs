// SPDX-License-Identifier: Apache-2.0 AND BSD-3-Clause
//! A guest with a queue in its memory, the device on it, and what the guest does.

use jambcopper::driver::{Request, REQUEST_BYTES, RESPONSE_BYTES};
use jambcopper::{Answer, Device, Error, HostAnswer, Queue};

use crate::common::{placed, BASE};

/// Where the parts of the queue lie in guest memory; behind them an exchange for each two descriptors.
pub const AVAILABLE: usize = 2048;
pub const USED: usize = 2312;
pub const EXCHANGES: usize = 3344;
pub const EXCHANGE: usize = REQUEST_BYTES + RESPONSE_BYTES;
pub const MEMORY: usize = EXCHANGES + 64 * EXCHANGE;

/// A guest with its queue, and the device on it.
#[derive(Clone, Debug, PartialEq, Eq)]
pub struct Machine {
    pub device: Device,
    pub queue: Queue,
    pub mem: Vec<u8>,
}

impl Machine {
    pub fn new() -> Machine {
        Machine {
            device: placed(),
            queue: Queue::new(BASE, BASE + AVAILABLE as u64, BASE + USED as u64),
            mem: vec![0; MEMORY],
        }
    }

    /// With words of the queue changed.
    pub fn with(mut self, words: &[(usize, u64)]) -> Machine {
        let mut all = *self.queue.words();
        for &(at, word) in words {
            all[at] = word;
        }
        self.queue = Queue::from_words(&all).unwrap();
        self
    }

    pub fn put(&mut self, at: usize, bytes: &[u8]) {
        self.mem[at..at + bytes.len()].copy_from_slice(bytes);
    }

    pub fn get(&self, at: usize) -> u16 {
        u16::from_le_bytes([self.mem[at], self.mem[at + 1]])
    }

    pub fn descriptor(&mut self, index: u16, addr: usize, length: u32, flags: u16, next: u16) {
        let at = 16 * usize::from(index);
        self.put(at, &(BASE + addr as u64).to_le_bytes());
        self.put(at + 8, &length.to_le_bytes());
        self.put(at + 12, &flags.to_le_bytes());
        self.put(at + 14, &next.to_le_bytes());
    }

    /// Lays down a request from an even descriptor on.
    pub fn lay(&mut self, head: u16, request: Request) {
        let at = EXCHANGES + EXCHANGE * usize::from(head / 2);
        self.put(at, &request.to_bytes());
        self.descriptor(head, at, 24, 1, head + 1);
        self.descriptor(head + 1, at + REQUEST_BYTES, 10, 2, 0);
    }

    /// Puts a head into the available ring: the entry, then the index.
    pub fn offer(&mut self, head: u16) {
        let index = self.get(AVAILABLE + 2);
        let entry = AVAILABLE + 4 + 2 * usize::from(index % 128);
        self.put(entry, &head.to_le_bytes());
        self.put(AVAILABLE + 2, &index.wrapping_add(1).to_le_bytes());
    }

    pub fn ask(&mut self, head: u16, request: Request) {
        self.lay(head, request);
        self.offer(head);
    }

    pub fn used_index(&self) -> u16 {
        self.get(USED + 2)
    }

    /// Id and length of the element that the used ring has for an index.
    pub fn used(&self, index: u16) -> (u32, u32) {
        let at = USED + 4 + 8 * usize::from(index % 128);
        let word = |at: usize| u32::from_le_bytes(self.mem[at..at + 4].try_into().unwrap());
        (word(at), word(at + 4))
    }

    pub fn serve(&mut self) -> Result<Option<Answer>, Error> {
        self.device.serve(&mut self.queue, &mut self.mem, BASE)
    }

    pub fn answer(&mut self, told: HostAnswer) -> Result<Answer, Error> {
        self.device
            .serve_answer(&mut self.queue, &mut self.mem, BASE, told)
    }

    /// Both calls are refused so, and all is as before.
    pub fn refuses(&mut self, serve: Error, answer: Error) {
        let before = self.clone();
        assert_eq!(self.serve(), Err(serve));
        assert_eq!(self.answer(HostAnswer::Failed), Err(answer));
        assert_eq!(*self, before);
    }
}
