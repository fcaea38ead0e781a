// SPDX-License-Identifier: Apache-2.0 AND BSD-3-Clause
//! The guest's side: one stretch of memory with the descriptors, and the two rings away from it or in it.

use std::sync::Arc;

use vm_memory::{Bytes, GuestAddress, GuestMemoryMmap};

/// Where the rings lie that have a place of their own: away from any image that a caller may choose.
pub const RINGS: u64 = 0x6000_0000_0000_0000;

const RING_BYTES: usize = 4096;

/// Descriptor flags.
pub const NEXT: u16 = 1;
pub const WRITE: u16 = 2;
pub const INDIRECT: u16 = 4;

#[derive(Clone, Copy, Debug)]
pub struct Descriptor {
    pub addr: u64,
    pub len: u32,
    pub flags: u16,
    pub next: u16,
}

/// Guest memory of `length` bytes from `base` on, with the addresses of the queue's three parts.
#[derive(Clone)]
pub struct Guest {
    pub memory: Arc<GuestMemoryMmap>,
    pub base: u64,
    pub length: usize,
    pub table: u64,
    pub available: u64,
    pub used: u64,
    pub(crate) made_available: u16,
}

impl Guest {
    /// With the rings away from the range. None where vm-memory does not take it.
    pub fn new(base: u64, length: usize, table: u64) -> Option<Guest> {
        let mut ranges = [
            (GuestAddress(base), length),
            (GuestAddress(RINGS), RING_BYTES),
        ];
        ranges.sort();
        Some(Guest {
            memory: Arc::new(GuestMemoryMmap::from_ranges(&ranges).ok()?),
            base,
            length,
            table,
            available: RINGS,
            used: RINGS + 2048,
            made_available: 0,
        })
    }

    /// With the rings in the range.
    pub fn with_rings(
        base: u64,
        length: usize,
        table: u64,
        available: u64,
        used: u64,
    ) -> Option<Guest> {
        let ranges = [(GuestAddress(base), length)];
        Some(Guest {
            memory: Arc::new(GuestMemoryMmap::from_ranges(&ranges).ok()?),
            base,
            length,
            table,
            available,
            used,
            made_available: 0,
        })
    }

    /// Both rings begin at this index.
    pub fn begin_at(&mut self, index: u16) {
        self.made_available = index;
        self.write(self.available + 2, &index.to_le_bytes());
        self.write(self.used + 2, &index.to_le_bytes());
    }

    pub fn write(&self, addr: u64, bytes: &[u8]) {
        let done = self.memory.write_slice(bytes, GuestAddress(addr));
        done.expect("the driver writes inside its own memory")
    }

    pub fn read(&self, addr: u64, length: usize) -> Vec<u8> {
        let mut bytes = vec![0; length];
        let done = self.memory.read_slice(&mut bytes, GuestAddress(addr));
        done.expect("the driver reads inside its own memory");
        bytes
    }

    pub fn describe(&self, index: u16, d: Descriptor) {
        self.describe_at(self.table + 16 * u64::from(index), d);
    }

    pub fn describe_at(&self, addr: u64, d: Descriptor) {
        self.write(addr, &d.addr.to_le_bytes());
        self.write(addr + 8, &d.len.to_le_bytes());
        self.write(addr + 12, &d.flags.to_le_bytes());
        self.write(addr + 14, &d.next.to_le_bytes());
    }

    /// Puts a head into the available ring.
    pub fn make_available(&mut self, head: u16) {
        let element = self.available + 4 + 2 * u64::from(self.made_available % 128);
        self.write(element, &head.to_le_bytes());
        self.made_available = self.made_available.wrapping_add(1);
        self.write(self.available + 2, &self.made_available.to_le_bytes());
    }

    /// The used ring's index.
    pub fn used_index(&self) -> u16 {
        u16::from_le_bytes(self.read(self.used + 2, 2).try_into().unwrap())
    }

    /// Whether all that was made available is used.
    pub fn all_used(&self) -> bool {
        self.used_index() == self.made_available
    }

    /// The newest element of the used ring: its head and length.
    pub fn last_used(&self) -> (u32, u32) {
        self.used_at(self.used_index().wrapping_sub(1))
    }

    /// The used ring's element of an index: its head and length.
    pub fn used_at(&self, index: u16) -> (u32, u32) {
        let element = self.used + 4 + 8 * u64::from(index % 128);
        let word = |at| u32::from_le_bytes(self.read(at, 4).try_into().unwrap());
        (word(element), word(element + 4))
    }
}

/// The 24 bytes of a request.
pub fn request(kind: u16, addr: u64, blocks: u16) -> [u8; 24] {
    let mut bytes = [0; 24];
    bytes[0..2].copy_from_slice(&kind.to_le_bytes());
    bytes[8..16].copy_from_slice(&addr.to_le_bytes());
    bytes[16..18].copy_from_slice(&blocks.to_le_bytes());
    bytes
}
