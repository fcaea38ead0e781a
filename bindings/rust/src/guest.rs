// SPDX-License-Identifier: Apache-2.0 AND BSD-3-Clause
//! Serving a guest that runs: guest memory that vCPUs write at any time, in several regions.
//!
//! [`Device::serve_guest`] and [`Device::serve_guest_answer`] are [`Device::serve`] and [`Device::serve_answer`] for
//! such memory: a [`GuestMemory`], as [`Regions`] is one. They copy what a call reads into a private memory, each byte
//! once, call the proved function on that, and copy back what it has written.
//!
//! ```
//! use jambcopper::driver::Request;
//! use jambcopper::guest::{GuestMemory, Regions};
//! use jambcopper::{Answer, Device, Error, HostAnswer, Queue};
//! # let mut device = Device::new(256, 16, false, None, 1 << 30)?;
//! # device.place(1 << 32, 256 << 20, &[1])?;
//! # device.host_answer(&mut [], 0, HostAnswer::Created(0x7fff_0000_0000))?;
//!
//! // Two regions with a hole between them. A host has them from mmap.
//! let (mut low, mut high) = (vec![0u64; 512], vec![0u64; 512]);
//! let mut mem = Regions::new();
//! // SAFETY: both stay where they are as long as `mem` is used, and nothing else touches them but as guest memory.
//! unsafe {
//!     mem.add(1 << 30, low.as_mut_ptr().cast(), 4096).unwrap();
//!     mem.add(3 << 30, high.as_mut_ptr().cast(), 4096).unwrap();
//! }
//!
//! // The guest has its queue in the low region, and a request and the room for its response in the high one.
//! let (table, available, used) = (1 << 30, (1 << 30) + 2048, (1 << 30) + 2312);
//! let (request, response) = (3 << 30, (3 << 30) + 24);
//! let mut queue = Queue::new(table, available, used);
//! let descriptor = |addr: u64, length: u32, flags: u16, next: u16| {
//!     [&addr.to_le_bytes()[..], &length.to_le_bytes(), &flags.to_le_bytes(), &next.to_le_bytes()].concat()
//! };
//! mem.write(table, &descriptor(request, 24, 1, 1));
//! mem.write(table + 16, &descriptor(response, 10, 2, 0));
//! mem.write(request, &Request::plug(1 << 32, 2).to_bytes());
//! mem.write_index(available + 2, 1);
//!
//! while let Some(mut answer) = device.serve_guest(&mut queue, &mem)? {
//!     while let Answer::Wants(_) = answer {
//!         // The host gives back the memory that is named, and says so.
//!         answer = device.serve_guest_answer(&mut queue, &mem, HostAnswer::Discarded)?;
//!     }
//!     // The request has ended and its head is in the used ring: here the host notifies the guest.
//! }
//! assert_eq!((mem.read_index(used + 2), device.plugged_size()), (Some(1), 8 << 20));
//! # Ok::<(), Error>(())
//! ```
//!
//! # What is read, and what is written
//!
//! [`Device::serve_guest`] reads, in this order and each of them once:
//!
//! 1. the available ring's index, one access where it lies at an even address, with an acquire fence behind it, so that
//!    what the guest wrote before it is seen;
//! 2. the ring's next entry, where the index is 1 to 128 ahead;
//! 3. the descriptor of that head;
//! 4. the 24 bytes of the request, where that descriptor is of a request;
//! 5. the descriptor behind it, where the request is inside and the first names one that is not itself.
//!
//! All of it is read before the device is asked, also where that then refuses the call.
//!
//! Where the request has ended, the 10 bytes of the response are written, then the 8 of the used element, then, behind
//! a release fence, the used ring's index, one access where it lies at an even address. Nothing else is written.
//! [`Device::serve_guest_answer`] reads nothing and writes the same. A refused call writes nothing and changes nothing.
//!
//! # Why the guest cannot bring about another result
//!
//! All that is proved is proved of a slice that nobody else writes during a call. Here that slice is the private memory,
//! which no guest knows, and it is whole before the proved function is called. So whatever the guest writes meanwhile,
//! the result is the proved function's on the bytes that were read: what the guest has changed behind a read is not
//! seen in this call, and what it has changed before one is as if it had always been there. What is written back is
//! what the proved function has written. Where a guest lets two things lie on one byte, as a request on its ring, the
//! byte is read once for each, and may be another each time; in the private memory these are two bytes.
//!
//! What is assumed: that memory which [`GuestMemory::contains`] has named stays guest memory until the call returns; and
//! the translation, which is this:
//!
//! - The rings and the descriptor table have places of their own in the private memory, and so have the request and the
//!   response: the private addresses of these stand in the copies of the queue's words and of the two descriptors.
//!   Index, heads, flags, lengths and links are the guest's.
//! - What is not wholly inside guest memory gets a private address that is outside too: a ring (then the call is refused
//!   with 14), the table where the head's descriptor is outside (21), a request (24), a response (the length is 0).
//!   Where the second descriptor alone is outside, the copy of the first names 128, which is none (21).
//! - The record of a device that waits for a discard has the response's guest address. It is translated just before the
//!   proved function is called and put back just after, so that the parts that a host saves are the same as ever.
//!
//! `bin/queue --guest` holds both calls against [`Device::serve`] and [`Device::serve_answer`] on quiet memory, in one
//! and in several regions, with random and hostile rings.
//!
//! # With vm-memory
//!
//! The types of the crate vm-memory need these lines, which are generic over its trait:
//!
//! ```ignore
//! use std::sync::atomic::Ordering::Relaxed;
//! use vm_memory::{Bytes, GuestAddress, GuestMemory};
//!
//! struct Vm<'a, M>(&'a M);
//!
//! impl<M: GuestMemory> jambcopper::guest::GuestMemory for Vm<'_, M> {
//!     fn contains(&self, addr: u64, size: u64) -> bool {
//!         self.0.check_range(GuestAddress(addr), size as usize)
//!     }
//!     fn read(&self, addr: u64, into: &mut [u8]) -> bool {
//!         self.0.read_slice(into, GuestAddress(addr)).is_ok()
//!     }
//!     fn write(&self, addr: u64, bytes: &[u8]) -> bool {
//!         // Without the test, a range that is partly outside would be written in part.
//!         let addr = GuestAddress(addr);
//!         self.0.check_range(addr, bytes.len()) && self.0.write_slice(bytes, addr).is_ok()
//!     }
//!     fn read_index(&self, addr: u64) -> Option<u16> {
//!         // At an odd address, which no ring of a driver has, there is no load.
//!         let addr = GuestAddress(addr);
//!         let index = self.0.load(addr, Relaxed).or_else(|_| self.0.read_obj(addr));
//!         index.ok().map(u16::from_le)
//!     }
//!     fn write_index(&self, addr: u64, index: u16) -> bool {
//!         let (addr, index) = (GuestAddress(addr), index.to_le());
//!         let stored = self.0.store(index, addr, Relaxed);
//!         stored.or_else(|_| self.0.write_obj(index, addr)).is_ok()
//!     }
//! }
//! ```

use std::fmt;
use std::mem::MaybeUninit;
use std::sync::atomic::{fence, AtomicU16, AtomicU32, AtomicU64, AtomicU8, Ordering};

use crate::sys::{self, Lent, ANSWER_WORDS, QUEUE_WORDS, REQUEST_BYTES, RESPONSE_BYTES};
use crate::{Answer, Device, Error, HostAnswer, Queue};

/// Guest memory that vCPUs may write at any time.
///
/// What one call has named inside, by [`GuestMemory::contains`] or by a read, must stay inside until the device's call
/// returns: a write behind it that is refused nevertheless is lost, as if the guest had written over it.
pub trait GuestMemory {
    /// Whether `size` bytes from a guest address on are all guest memory. None that would lie past 2^64 - 1 is.
    fn contains(&self, addr: u64, size: u64) -> bool;

    /// Copies bytes out of guest memory: all of them, or false. The copy is what counts: it must not change any more.
    fn read(&self, addr: u64, into: &mut [u8]) -> bool;

    /// Copies bytes into guest memory: all of them, or none and false.
    fn write(&self, addr: u64, bytes: &[u8]) -> bool;

    /// Reads the index of a ring, 16 bits little-endian, in one access where the address is even.
    fn read_index(&self, addr: u64) -> Option<u16> {
        let mut bytes = [0; 2];
        self.read(addr, &mut bytes)
            .then(|| u16::from_le_bytes(bytes))
    }

    /// Writes the index of a ring, 16 bits little-endian, in one access where the address is even.
    fn write_index(&self, addr: u64, index: u16) -> bool {
        self.write(addr, &index.to_le_bytes())
    }
}

impl Device {
    /// As [`Device::serve`], for a guest that runs: the module [`crate::guest`] says what is read and written.
    pub fn serve_guest<M: GuestMemory + ?Sized>(
        &mut self,
        queue: &mut Queue,
        mem: &M,
    ) -> Result<Option<Answer>, Error> {
        let mut private = Private::new(queue, mem);
        let status = private.copy_chain(mem, queue).unwrap_or(OUTSIDE);
        let told = self.words_told(|device, answer| private.serve(device, answer))?;
        if told[0] == sys::KIND_DISCARD {
            self.record[STATUS] = status;
        }
        private.give_back(mem, queue, status, &told);
        Ok((told[0] != sys::KIND_EMPTY).then(|| Answer::of(&told)))
    }

    /// As [`Device::serve_answer`], for a guest that runs: the module [`crate::guest`] says what is written.
    pub fn serve_guest_answer<M: GuestMemory + ?Sized>(
        &mut self,
        queue: &mut Queue,
        mem: &M,
        told: HostAnswer,
    ) -> Result<Answer, Error> {
        let (ok, host) = self.given(told)?;
        let mut private = Private::new(queue, mem);
        let status = self.record[STATUS];
        if self.is_discarding() {
            self.record[STATUS] = response_address(mem, status);
        }
        let told = self.words_told(|device, answer| private.serve_answer(device, ok, host, answer));
        if self.is_discarding() {
            self.record[STATUS] = status;
        }
        let told = told?;
        private.give_back(mem, queue, status, &told);
        Ok(Answer::of(&told))
    }

    /// Whether a discard is pending.
    fn is_discarding(&self) -> bool {
        matches!(
            self.record[11],
            sys::PENDING_DISCARD | sys::PENDING_DISCARD_ONE
        )
    }
}

/// The record's word that has the response's guest address while a discard is pending.
const STATUS: usize = 14;

/// The queue's words: the guest addresses of its parts, and from the next available index on those that a call changes.
const DESCRIPTORS: usize = 0;
const AVAILABLE: usize = 1;
const USED: usize = 2;
const NEXT_AVAILABLE: usize = 3;

const QUEUE_SIZE: u16 = 128;
const AVAILABLE_BYTES: u64 = 262;
const USED_BYTES: u64 = 1030;
const DESCRIPTOR_BYTES: usize = 16;
const ELEMENT_BYTES: usize = 8;

/// Where a ring has its index, and where its entries begin.
const INDEX: usize = 2;
const ENTRIES: usize = 4;

/// The flags of a descriptor.
const NEXT: u16 = 1;
const WRITE: u16 = 2;
const INDIRECT: u16 = 4;

/// The private memory, whose addresses begin at 0: where its parts lie, and an address that is not inside.
const AVAILABLE_AT: usize = 0;
const USED_AT: usize = 264;
const TABLE_AT: usize = 1296;
const REQUEST_AT: usize = 3344;
const RESPONSE_AT: usize = 3368;
const PRIVATE_BYTES: usize = RESPONSE_AT + RESPONSE_BYTES;
const OUTSIDE: u64 = u64::MAX;

/// The private memory of one call, and the queue's words with addresses in it. Only what is copied is ever written or
/// read, so the rest is left as it is.
struct Private {
    words: [u64; QUEUE_WORDS],
    bytes: [MaybeUninit<u8>; PRIVATE_BYTES],
}

impl Private {
    /// Without a descriptor table yet.
    #[inline]
    fn new<M: GuestMemory + ?Sized>(queue: &Queue, mem: &M) -> Private {
        let mut words = queue.words;
        words[DESCRIPTORS] = OUTSIDE;
        words[AVAILABLE] = address(
            mem.contains(queue.available(), AVAILABLE_BYTES),
            AVAILABLE_AT,
        );
        words[USED] = address(mem.contains(queue.used(), USED_BYTES), USED_AT);
        Private {
            words,
            bytes: [MaybeUninit::uninit(); PRIVATE_BYTES],
        }
    }

    /// Copies the next head and its chain, as far as the proved function will look at it, and gives the guest address of
    /// the response, where it has got so far.
    fn copy_chain<M: GuestMemory + ?Sized>(&mut self, mem: &M, queue: &Queue) -> Option<u64> {
        let head = self.copy_head(mem, queue)?;
        let mut first = Descriptor::read(mem, queue, head)?;
        self.words[DESCRIPTORS] = TABLE_AT as u64;
        let status = self.copy_rest(mem, queue, head, &mut first);
        self.put_descriptor(head, &first);
        status
    }

    /// Copies the available ring's index and, where it is ahead, the next entry: the head.
    fn copy_head<M: GuestMemory + ?Sized>(&mut self, mem: &M, queue: &Queue) -> Option<u16> {
        if self.words[AVAILABLE] == OUTSIDE || self.words[USED] == OUTSIDE {
            return None;
        }
        let index = self.copy_u16(mem, queue, INDEX)?;
        fence(Ordering::Acquire);
        let next = queue.next_available();
        if !(1..=QUEUE_SIZE).contains(&index.wrapping_sub(next)) {
            return None;
        }
        self.copy_u16(mem, queue, ENTRIES + 2 * usize::from(next % QUEUE_SIZE))
    }

    /// Copies 16 bits of the available ring. Where they cannot be read, the ring is not inside.
    fn copy_u16<M: GuestMemory + ?Sized>(
        &mut self,
        mem: &M,
        queue: &Queue,
        at: usize,
    ) -> Option<u16> {
        let number = mem.read_index(queue.available() + at as u64);
        match number {
            Some(number) => self.put(AVAILABLE_AT + at, number.to_le_bytes()),
            None => self.words[AVAILABLE] = OUTSIDE,
        }
        number
    }

    /// Copies the request and the second descriptor, where the first is of a request, and translates the first.
    fn copy_rest<M: GuestMemory + ?Sized>(
        &mut self,
        mem: &M,
        queue: &Queue,
        head: u16,
        first: &mut Descriptor,
    ) -> Option<u64> {
        let other = first.flags() & (WRITE | INDIRECT) != 0;
        if other || first.length() != REQUEST_BYTES as u32 {
            return None;
        }
        let mut request = [0; REQUEST_BYTES];
        let inside = mem.read(first.addr, &mut request);
        first.addr = address(inside, REQUEST_AT);
        self.put(REQUEST_AT, request);
        let next = first.next();
        if !inside || first.flags() & NEXT == 0 || next == head {
            return None;
        }
        match Descriptor::read(mem, queue, next) {
            None => {
                first.set_next(QUEUE_SIZE);
                None
            }
            Some(mut second) => {
                let status = second.addr;
                second.addr = response_address(mem, status);
                self.put_descriptor(next, &second);
                Some(status)
            }
        }
    }

    fn serve(&mut self, device: Lent, answer: &mut [u64; ANSWER_WORDS]) -> u64 {
        // SAFETY: `copy_chain` has copied what the call reads.
        unsafe { device.serve_at(&mut self.words, &mut self.bytes, 0, answer) }
    }

    fn serve_answer(
        &mut self,
        device: Lent,
        ok: bool,
        host: u64,
        answer: &mut [u64; ANSWER_WORDS],
    ) -> u64 {
        // SAFETY: the call reads nothing of the memory.
        unsafe { device.serve_answer_at(&mut self.words, &mut self.bytes, 0, ok, host, answer) }
    }

    /// Gives the queue the words that have changed, and then the guest what the call has written: the response where it
    /// was delivered, and the head where it was reported, its element first and then the index.
    fn give_back<M: GuestMemory + ?Sized>(
        &self,
        mem: &M,
        queue: &mut Queue,
        status: u64,
        told: &[u64; ANSWER_WORDS],
    ) {
        let before = queue.next_used();
        queue.words[NEXT_AVAILABLE..].copy_from_slice(&self.words[NEXT_AVAILABLE..]);
        if told[0] == sys::KIND_SERVED && told[sys::ANSWER_LENGTH] != 0 {
            // SAFETY: a response that is delivered is written, here to its private place.
            let response: [u8; RESPONSE_BYTES] = unsafe { self.written(RESPONSE_AT) };
            mem.write(status, &response);
        }
        if queue.next_used() != before {
            let at = ENTRIES + ELEMENT_BYTES * usize::from(before % QUEUE_SIZE);
            // SAFETY: a head that is reported is written, its element and the index.
            let (element, index): ([u8; ELEMENT_BYTES], _) =
                unsafe { (self.written(USED_AT + at), self.written(USED_AT + INDEX)) };
            mem.write(queue.used() + at as u64, &element);
            fence(Ordering::Release);
            mem.write_index(queue.used() + INDEX as u64, u16::from_le_bytes(index));
        }
    }

    /// Puts a descriptor into the private table.
    fn put_descriptor(&mut self, index: u16, descriptor: &Descriptor) {
        let at = TABLE_AT + DESCRIPTOR_BYTES * usize::from(index);
        self.put(at, descriptor.addr.to_le_bytes());
        self.put(at + 8, descriptor.rest.to_le_bytes());
    }

    fn put<const N: usize>(&mut self, at: usize, bytes: [u8; N]) {
        self.bytes[at..at + N].copy_from_slice(&bytes.map(MaybeUninit::new));
    }

    /// Bytes of the private memory.
    ///
    /// # Safety
    /// They are written.
    unsafe fn written<const N: usize>(&self, at: usize) -> [u8; N] {
        self.bytes[at..at + N].as_ptr().cast::<[u8; N]>().read()
    }
}

/// The private address of what is inside, or one that is not.
fn address(inside: bool, at: usize) -> u64 {
    if inside {
        at as u64
    } else {
        OUTSIDE
    }
}

/// The private address of a response.
fn response_address<M: GuestMemory + ?Sized>(mem: &M, guest: u64) -> u64 {
    address(mem.contains(guest, RESPONSE_BYTES as u64), RESPONSE_AT)
}

/// A descriptor: its address, and in one word its length, flags and next.
struct Descriptor {
    addr: u64,
    rest: u64,
}

impl Descriptor {
    /// Reads one, where the table has that index and the descriptor is inside.
    fn read<M: GuestMemory + ?Sized>(mem: &M, queue: &Queue, index: u16) -> Option<Descriptor> {
        if index >= QUEUE_SIZE {
            return None;
        }
        let offset = DESCRIPTOR_BYTES as u64 * u64::from(index);
        let mut bytes = [0; DESCRIPTOR_BYTES];
        if !mem.read(queue.descriptors().checked_add(offset)?, &mut bytes) {
            return None;
        }
        let all = u128::from_le_bytes(bytes);
        Some(Descriptor {
            addr: all as u64,
            rest: (all >> 64) as u64,
        })
    }

    fn length(&self) -> u32 {
        self.rest as u32
    }

    fn flags(&self) -> u16 {
        (self.rest >> 32) as u16
    }

    fn next(&self) -> u16 {
        (self.rest >> 48) as u16
    }

    fn set_next(&mut self, next: u16) {
        self.rest = self.rest << 16 >> 16 | u64::from(next) << 48;
    }
}

/// Guest memory of several regions: each a guest address, how many bytes, and where the process has them mapped.
///
/// Regions may touch, and a range may go from one into the next; between others there are holes. Bytes are loaded and
/// stored by relaxed atomic accesses, as wide as the host address and the length allow, up to 8 bytes.
#[derive(Debug, Default)]
pub struct Regions {
    /// By guest address, none on another.
    regions: Vec<Region>,
}

#[derive(Debug)]
struct Region {
    guest: u64,
    size: usize,
    host: *mut u8,
}

// SAFETY: who adds a region promises that its bytes may be loaded and stored by any thread, and they are so by atomic
// accesses alone.
unsafe impl Send for Region {}
// SAFETY: as above.
unsafe impl Sync for Region {}

/// Why a region is not added: it is empty, it would pass 2^64 - 1, or it lies on another.
#[derive(Clone, Copy, Debug, PartialEq, Eq, Hash)]
pub struct BadRegion;

impl fmt::Display for BadRegion {
    fn fmt(&self, f: &mut fmt::Formatter<'_>) -> fmt::Result {
        f.write_str("a region that is empty, passes 2^64 - 1, or lies on another")
    }
}

impl std::error::Error for BadRegion {}

/// So many regions are looked through; of more, the one is searched by halving.
const FEW: usize = 8;

impl Regions {
    /// No memory yet.
    pub const fn new() -> Regions {
        Regions {
            regions: Vec::new(),
        }
    }

    /// Adds `size` bytes of guest memory from the guest address `guest` on, which the process has mapped from `host` on.
    /// [`BadRegion`] where there are none, the last would lie past 2^64 - 1, or one is in another region already.
    ///
    /// # Safety
    ///
    /// As long as these regions are used, all of these bytes stay mapped, readable and writable, and the process reads
    /// and writes them only as guest memory: by atomic or volatile accesses, not through references to plain bytes. Any
    /// thread may do so.
    pub unsafe fn add(&mut self, guest: u64, host: *mut u8, size: usize) -> Result<(), BadRegion> {
        let last = (size as u64).checked_sub(1).ok_or(BadRegion)?;
        let last = guest.checked_add(last).ok_or(BadRegion)?;
        let at = self.regions.partition_point(|region| region.guest <= guest);
        let (below, above) = self.regions.split_at(at);
        let in_below = |below: &Region| guest - below.guest < below.size as u64;
        let in_above = |above: &Region| above.guest <= last;
        if below.last().map_or(false, in_below) || above.first().map_or(false, in_above) {
            return Err(BadRegion);
        }
        self.regions.insert(at, Region { guest, size, host });
        Ok(())
    }

    /// The regions from the one on that has a guest address, and the address's offset in that one.
    #[inline]
    fn from(&self, addr: u64) -> Option<(&[Region], usize)> {
        let has = |region: &Region| addr.wrapping_sub(region.guest) < region.size as u64;
        let nth = if self.regions.len() <= FEW {
            self.regions.iter().position(has)?
        } else {
            let behind = self.regions.partition_point(|region| region.guest <= addr);
            behind
                .checked_sub(1)
                .filter(|&nth| has(&self.regions[nth]))?
        };
        let found = &self.regions[nth..];
        Some((found, (addr - found[0].guest) as usize))
    }

    /// Where the process has a range, if one region has all of it.
    #[inline]
    fn whole(&self, addr: u64, size: u64) -> Option<*mut u8> {
        let (found, offset) = self.from(addr)?;
        // SAFETY: the offset is inside the region.
        (size <= (found[0].size - offset) as u64).then(|| unsafe { found[0].host.add(offset) })
    }

    /// Whether a range lies in regions that touch.
    #[cold]
    fn touching(&self, addr: u64, size: u64) -> bool {
        let pieces = self.pieces(addr, size);
        pieces.map(|(_, piece)| piece as u64).sum::<u64>() == size
    }

    /// Reads a range of regions that touch.
    #[cold]
    fn read_across(&self, addr: u64, into: &mut [u8]) -> bool {
        if !self.touching(addr, into.len() as u64) {
            return false;
        }
        let mut rest = into;
        for (from, piece) in self.pieces(addr, rest.len() as u64) {
            let (into, behind) = rest.split_at_mut(piece);
            // SAFETY: the piece is in its region.
            unsafe { load(from, into) };
            rest = behind;
        }
        true
    }

    /// Writes a range of regions that touch.
    #[cold]
    fn write_across(&self, addr: u64, bytes: &[u8]) -> bool {
        if !self.touching(addr, bytes.len() as u64) {
            return false;
        }
        let mut rest = bytes;
        for (to, piece) in self.pieces(addr, rest.len() as u64) {
            let (bytes, behind) = rest.split_at(piece);
            // SAFETY: the piece is in its region.
            unsafe { store(to, bytes) };
            rest = behind;
        }
        true
    }

    /// The pieces of a range, region by region: where the process has each, and how many bytes. The last is the one
    /// before a hole, where there is one.
    fn pieces(&self, addr: u64, size: u64) -> impl Iterator<Item = (*mut u8, usize)> + '_ {
        let (found, offset) = self.from(addr).unwrap_or((&[], 0));
        let (mut next, mut left) = (addr, size);
        let mut offset = offset;
        found.iter().map_while(move |region| {
            if left == 0 || next != region.guest + offset as u64 {
                return None;
            }
            let piece = left.min((region.size - offset) as u64);
            // SAFETY: the offset is inside the region.
            let at = unsafe { region.host.add(offset) };
            next = next.wrapping_add(piece);
            left -= piece;
            offset = 0;
            Some((at, piece as usize))
        })
    }
}

impl GuestMemory for Regions {
    #[inline]
    fn contains(&self, addr: u64, size: u64) -> bool {
        self.whole(addr, size).is_some() || self.touching(addr, size)
    }

    #[inline]
    fn read(&self, addr: u64, into: &mut [u8]) -> bool {
        match self.whole(addr, into.len() as u64) {
            None => self.read_across(addr, into),
            Some(from) => {
                // SAFETY: so many bytes are in the region.
                unsafe { load(from, into) };
                true
            }
        }
    }

    #[inline]
    fn write(&self, addr: u64, bytes: &[u8]) -> bool {
        match self.whole(addr, bytes.len() as u64) {
            None => self.write_across(addr, bytes),
            Some(to) => {
                // SAFETY: so many bytes are in the region.
                unsafe { store(to, bytes) };
                true
            }
        }
    }
}

/// How many bytes each access takes: 8, 4, 2 or 1, which both the address and the length are a multiple of.
#[inline]
fn width(at: *const u8, length: usize) -> usize {
    1 << (at as usize | length | 8).trailing_zeros()
}

/// Copies bytes out of guest memory, each loaded once.
///
/// # Safety
/// As many bytes from there on are in a region.
#[inline]
unsafe fn load(from: *const u8, into: &mut [u8]) {
    match width(from, into.len()) {
        8 => load_by(from, into, |at| {
            (*at.cast::<AtomicU64>()).load(RELAXED).to_ne_bytes()
        }),
        4 => load_by(from, into, |at| {
            (*at.cast::<AtomicU32>()).load(RELAXED).to_ne_bytes()
        }),
        2 => load_by(from, into, |at| {
            (*at.cast::<AtomicU16>()).load(RELAXED).to_ne_bytes()
        }),
        _ => load_by(from, into, |at| [(*at.cast::<AtomicU8>()).load(RELAXED)]),
    }
}

#[inline]
fn load_by<const N: usize>(from: *const u8, into: &mut [u8], one: impl Fn(*const u8) -> [u8; N]) {
    for (nth, part) in into.chunks_exact_mut(N).enumerate() {
        part.copy_from_slice(&one(from.wrapping_add(N * nth)));
    }
}

/// Copies bytes into guest memory.
///
/// # Safety
/// As many bytes from there on are in a region.
#[inline]
unsafe fn store(to: *mut u8, bytes: &[u8]) {
    match width(to, bytes.len()) {
        8 => store_by(to, bytes, |at, part| {
            (*at.cast::<AtomicU64>()).store(u64::from_ne_bytes(part), RELAXED)
        }),
        4 => store_by(to, bytes, |at, part| {
            (*at.cast::<AtomicU32>()).store(u32::from_ne_bytes(part), RELAXED)
        }),
        2 => store_by(to, bytes, |at, part| {
            (*at.cast::<AtomicU16>()).store(u16::from_ne_bytes(part), RELAXED)
        }),
        _ => store_by(to, bytes, |at, [byte]| {
            (*at.cast::<AtomicU8>()).store(byte, RELAXED)
        }),
    }
}

#[inline]
fn store_by<const N: usize>(to: *mut u8, bytes: &[u8], one: impl Fn(*mut u8, [u8; N])) {
    for (nth, part) in bytes.chunks_exact(N).enumerate() {
        one(to.wrapping_add(N * nth), part.try_into().expect("N bytes"));
    }
}

const RELAXED: Ordering = Ordering::Relaxed;
