// SPDX-License-Identifier: Apache-2.0 AND BSD-3-Clause
//! Stand-in for virtio-queue 0.7: a split queue, its available ring and the walk along a chain.
//!
//! As in 0.7: an index at or past the table's length ends a chain, an indirect descriptor is
//! followed once, a chain's length is not summed up, a table address that is no multiple of 16 is
//! not taken, and a head at or past the queue's size is not put into the used ring.

use std::fmt;
use std::num::Wrapping;
use std::ops::{Deref, DerefMut};
use std::sync::{Arc, Mutex, MutexGuard};

use vm_memory::{ByteValued, Bytes, GuestAddress, GuestMemory};

const NEXT: u16 = 1;
const WRITE: u16 = 2;
const INDIRECT: u16 = 4;

/// Bytes of a descriptor.
const DESCRIPTOR_SIZE: u64 = 16;

#[derive(Debug)]
pub enum Error {
    QueueNotReady,
    AddressOverflow,
    InvalidDescriptorIndex,
    GuestMemory,
}

impl fmt::Display for Error {
    fn fmt(&self, f: &mut fmt::Formatter<'_>) -> fmt::Result {
        write!(f, "{self:?}")
    }
}

#[repr(C)]
#[derive(Clone, Copy, Debug, Default)]
pub struct Descriptor {
    addr: u64,
    len: u32,
    flags: u16,
    next: u16,
}

// SAFETY: four numbers without a gap.
unsafe impl ByteValued for Descriptor {}

impl Descriptor {
    pub fn addr(&self) -> GuestAddress {
        GuestAddress(self.addr)
    }

    pub fn len(&self) -> u32 {
        self.len
    }

    pub fn is_write_only(&self) -> bool {
        self.flags & WRITE != 0
    }
}

pub struct DescriptorChain<M> {
    mem: M,
    table: GuestAddress,
    table_size: u16,
    head_index: u16,
    next_index: u16,
    /// Descriptors that may still come, so that a ring of them ends.
    left: u16,
    indirect: bool,
}

impl<M> DescriptorChain<M> {
    pub fn head_index(&self) -> u16 {
        self.head_index
    }

    fn enter(&mut self, table: Descriptor) -> Option<()> {
        let length = u64::from(table.len);
        if self.indirect || length % DESCRIPTOR_SIZE != 0 {
            return None;
        }
        self.table = table.addr();
        self.table_size = u16::try_from(length / DESCRIPTOR_SIZE).ok()?;
        self.next_index = 0;
        self.left = self.table_size;
        self.indirect = true;
        Some(())
    }
}

impl<M> Iterator for DescriptorChain<M>
where
    M: Deref,
    M::Target: GuestMemory + Sized,
{
    type Item = Descriptor;

    fn next(&mut self) -> Option<Descriptor> {
        if self.left == 0 || self.next_index >= self.table_size {
            return None;
        }
        let offset = u64::from(self.next_index) * DESCRIPTOR_SIZE;
        let addr = GuestAddress(self.table.0.checked_add(offset)?);
        let descriptor: Descriptor = self.mem.read_obj(addr).ok()?;
        if descriptor.flags & INDIRECT != 0 {
            self.enter(descriptor)?;
            return self.next();
        }
        if descriptor.flags & NEXT != 0 {
            self.next_index = descriptor.next;
            self.left -= 1;
        } else {
            self.left = 0;
        }
        Some(descriptor)
    }
}

pub struct AvailIter<'b, M> {
    mem: M,
    desc_table: GuestAddress,
    avail_ring: GuestAddress,
    size: u16,
    last: Wrapping<u16>,
    next_avail: &'b mut Wrapping<u16>,
}

impl<M> Iterator for AvailIter<'_, M>
where
    M: Clone + Deref,
    M::Target: GuestMemory + Sized,
{
    type Item = DescriptorChain<M>;

    fn next(&mut self) -> Option<DescriptorChain<M>> {
        if *self.next_avail == self.last {
            return None;
        }
        let offset = 4 + 2 * u64::from(self.next_avail.0 % self.size);
        let addr = GuestAddress(self.avail_ring.0.checked_add(offset)?);
        let head_index: u16 = self.mem.read_obj(addr).ok()?;
        *self.next_avail += Wrapping(1);
        Some(DescriptorChain {
            mem: self.mem.clone(),
            table: self.desc_table,
            table_size: self.size,
            head_index,
            next_index: head_index,
            left: self.size,
            indirect: false,
        })
    }
}

#[derive(Debug, Default)]
pub struct Queue {
    size: u16,
    ready: bool,
    desc_table: GuestAddress,
    avail_ring: GuestAddress,
    used_ring: GuestAddress,
    next_avail: Wrapping<u16>,
    next_used: Wrapping<u16>,
}

impl Queue {
    pub fn ready(&self) -> bool {
        self.ready
    }

    pub fn desc_table(&self) -> u64 {
        self.desc_table.0
    }

    pub fn avail_ring(&self) -> u64 {
        self.avail_ring.0
    }

    pub fn used_ring(&self) -> u64 {
        self.used_ring.0
    }

    pub fn next_avail(&self) -> u16 {
        self.next_avail.0
    }

    pub fn set_next_avail(&mut self, next_avail: u16) {
        self.next_avail = Wrapping(next_avail);
    }

    pub fn next_used(&self) -> u16 {
        self.next_used.0
    }

    pub fn set_next_used(&mut self, next_used: u16) {
        self.next_used = Wrapping(next_used);
    }

    fn add_used<M: GuestMemory>(
        &mut self,
        mem: &M,
        head_index: u16,
        len: u32,
    ) -> Result<(), Error> {
        if head_index >= self.size {
            return Err(Error::InvalidDescriptorIndex);
        }
        let at = |offset: u64| {
            let addr = self.used_ring.0.checked_add(offset);
            addr.map(GuestAddress).ok_or(Error::AddressOverflow)
        };
        let element = 4 + 8 * u64::from(self.next_used.0 % self.size);
        let put =
            |done: Result<(), vm_memory::GuestMemoryError>| done.map_err(|_| Error::GuestMemory);
        put(mem.write_obj(u32::from(head_index), at(element)?))?;
        put(mem.write_obj(len, at(element + 4)?))?;
        put(mem.write_obj((self.next_used + Wrapping(1)).0, at(2)?))?;
        self.next_used += Wrapping(1);
        Ok(())
    }
}

pub trait QueueOwnedT {
    fn iter<M>(&mut self, mem: M) -> Result<AvailIter<'_, M>, Error>
    where
        M: Deref,
        M::Target: GuestMemory + Sized;
}

impl QueueOwnedT for Queue {
    fn iter<M>(&mut self, mem: M) -> Result<AvailIter<'_, M>, Error>
    where
        M: Deref,
        M::Target: GuestMemory + Sized,
    {
        if !self.ready || self.avail_ring == GuestAddress(0) {
            return Err(Error::QueueNotReady);
        }
        let idx = self
            .avail_ring
            .0
            .checked_add(2)
            .ok_or(Error::AddressOverflow)?;
        let last: u16 = mem
            .read_obj(GuestAddress(idx))
            .map_err(|_| Error::GuestMemory)?;
        Ok(AvailIter {
            mem,
            desc_table: self.desc_table,
            avail_ring: self.avail_ring,
            size: self.size,
            last: Wrapping(last),
            next_avail: &mut self.next_avail,
        })
    }
}

pub trait QueueGuard<'a> {
    type G: DerefMut<Target = Queue>;
}

pub trait QueueT: for<'a> QueueGuard<'a> {
    fn lock(&mut self) -> <Self as QueueGuard<'_>>::G;
    fn size(&self) -> u16;
    fn set_desc_table_address(&mut self, addr: GuestAddress);
    fn set_rings(&mut self, avail: GuestAddress, used: GuestAddress);
    fn set_ready(&mut self, ready: bool);
    fn set_next_avail(&mut self, next_avail: u16);
    fn set_next_used(&mut self, next_used: u16);
    fn add_used<M: GuestMemory>(&mut self, mem: &M, head: u16, len: u32) -> Result<(), Error>;
}

#[derive(Clone)]
pub struct QueueSync {
    state: Arc<Mutex<Queue>>,
}

impl QueueSync {
    pub fn new(size: u16) -> Self {
        let queue = Queue {
            size,
            ..Queue::default()
        };
        QueueSync {
            state: Arc::new(Mutex::new(queue)),
        }
    }
}

impl<'a> QueueGuard<'a> for QueueSync {
    type G = MutexGuard<'a, Queue>;
}

impl QueueT for QueueSync {
    fn lock(&mut self) -> MutexGuard<'_, Queue> {
        self.state.lock().unwrap()
    }

    fn size(&self) -> u16 {
        self.state.lock().unwrap().size
    }

    fn set_desc_table_address(&mut self, addr: GuestAddress) {
        if addr.0 % DESCRIPTOR_SIZE == 0 {
            self.lock().desc_table = addr;
        }
    }

    fn set_rings(&mut self, avail: GuestAddress, used: GuestAddress) {
        let mut queue = self.lock();
        queue.avail_ring = avail;
        queue.used_ring = used;
    }

    fn set_ready(&mut self, ready: bool) {
        self.lock().ready = ready;
    }

    fn set_next_avail(&mut self, next_avail: u16) {
        self.lock().set_next_avail(next_avail)
    }

    fn set_next_used(&mut self, next_used: u16) {
        self.lock().set_next_used(next_used)
    }

    fn add_used<M: GuestMemory>(&mut self, mem: &M, head: u16, len: u32) -> Result<(), Error> {
        self.lock().add_used(mem, head, len)
    }
}
