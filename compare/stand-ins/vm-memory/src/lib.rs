// SPDX-License-Identifier: Apache-2.0 AND BSD-3-Clause
//! Stand-in for vm-memory 0.10.0: the part that mem.rs and its driver use, under the same names.
//!
//! It keeps two habits of the crate that can be seen from outside: an object that lies partly
//! inside is written as far as it goes before the error is given, and no region holds the byte at
//! 2^64 - 1. It does not ask that a host address be a multiple of the page size.

use std::fmt;
use std::mem::size_of;
use std::ops::Deref;
use std::sync::atomic::Ordering;
use std::sync::{Arc, Mutex};

#[derive(Clone, Copy, Debug, Default, PartialEq, Eq, PartialOrd, Ord)]
pub struct GuestAddress(pub u64);

#[derive(Clone, Copy, Debug, Default, PartialEq, Eq, PartialOrd, Ord)]
pub struct MemoryRegionAddress(pub u64);

pub type GuestUsize = u64;

#[derive(Debug)]
pub enum Error {
    InvalidGuestAddress(GuestAddress),
    PartialBuffer { expected: usize, completed: usize },
    HostAddressNotAvailable,
}

pub use Error as GuestMemoryError;

impl fmt::Display for Error {
    fn fmt(&self, f: &mut fmt::Formatter<'_>) -> fmt::Result {
        write!(f, "{self:?}")
    }
}

impl std::error::Error for Error {}

type Result<T> = std::result::Result<T, Error>;

/// A value that is its bytes.
///
/// # Safety
/// Every pattern of bytes must be a value of the type.
pub unsafe trait ByteValued: Copy + Default + Send + Sync {
    fn as_slice(&self) -> &[u8] {
        // SAFETY: the bytes of a plain value, for as long as it is lent.
        unsafe { std::slice::from_raw_parts(self as *const Self as *const u8, size_of::<Self>()) }
    }

    fn as_mut_slice(&mut self) -> &mut [u8] {
        // SAFETY: as above, and every pattern of bytes is a value.
        unsafe { std::slice::from_raw_parts_mut(self as *mut Self as *mut u8, size_of::<Self>()) }
    }
}

unsafe impl ByteValued for u16 {}
unsafe impl ByteValued for u32 {}
unsafe impl ByteValued for u64 {}

/// A number that is loaded and stored whole.
pub trait AtomicAccess: ByteValued {}

impl AtomicAccess for u16 {}

pub trait Bytes<A> {
    type E;

    /// Writes as many bytes as lie inside, from the first on, and says how many.
    fn write(&self, buf: &[u8], addr: A) -> std::result::Result<usize, Self::E>;
    fn read(&self, buf: &mut [u8], addr: A) -> std::result::Result<usize, Self::E>;
    fn write_slice(&self, buf: &[u8], addr: A) -> std::result::Result<(), Self::E>;
    fn read_slice(&self, buf: &mut [u8], addr: A) -> std::result::Result<(), Self::E>;

    fn write_obj<T: ByteValued>(&self, val: T, addr: A) -> std::result::Result<(), Self::E> {
        self.write_slice(val.as_slice(), addr)
    }

    fn read_obj<T: ByteValued>(&self, addr: A) -> std::result::Result<T, Self::E> {
        let mut val = T::default();
        self.read_slice(val.as_mut_slice(), addr).map(|()| val)
    }

    /// Memory is behind a lock, which orders more than any `order` asks.
    #[inline(always)]
    fn load<T: AtomicAccess>(&self, addr: A, _order: Ordering) -> std::result::Result<T, Self::E> {
        let mut val = T::default();
        self.read_slice(val.as_mut_slice(), addr).map(|()| val)
    }

    #[inline(always)]
    fn store<T: AtomicAccess>(
        &self,
        val: T,
        addr: A,
        _order: Ordering,
    ) -> std::result::Result<(), Self::E> {
        self.write_slice(val.as_slice(), addr)
    }
}

/// A mapping of the host: its address and, where the driver itself is to use it, its bytes.
pub struct MmapRegion {
    host: u64,
    size: usize,
    bytes: Mutex<Vec<u8>>,
}

impl MmapRegion {
    /// A mapping at an answered address.
    ///
    /// # Safety
    /// None is needed here: nothing is read or written at the address.
    pub unsafe fn build_raw(addr: *mut u8, size: usize, _prot: i32, _flags: i32) -> Result<Self> {
        Ok(MmapRegion {
            host: addr as u64,
            size,
            bytes: Mutex::new(Vec::new()),
        })
    }
}

#[allow(clippy::len_without_is_empty)] // as the crate has it
pub trait GuestMemoryRegion: Bytes<MemoryRegionAddress, E = Error> {
    fn len(&self) -> GuestUsize;
    fn start_addr(&self) -> GuestAddress;
    fn get_host_address(&self, addr: MemoryRegionAddress) -> Result<*mut u8>;
}

pub struct GuestRegionMmap {
    start: u64,
    mapping: MmapRegion,
}

impl GuestRegionMmap {
    pub fn new(mapping: MmapRegion, guest_base: GuestAddress) -> Result<Self> {
        match guest_base.0.checked_add(mapping.size as u64) {
            Some(_) => Ok(GuestRegionMmap {
                start: guest_base.0,
                mapping,
            }),
            None => Err(Error::InvalidGuestAddress(guest_base)),
        }
    }

    /// The place of a guest address in the region.
    fn place(&self, addr: u64) -> Option<usize> {
        let at = addr.checked_sub(self.start)? as usize;
        (at < self.mapping.size).then_some(at)
    }
}

impl GuestMemoryRegion for GuestRegionMmap {
    #[inline]
    fn len(&self) -> GuestUsize {
        self.mapping.size as u64
    }

    #[inline]
    fn start_addr(&self) -> GuestAddress {
        GuestAddress(self.start)
    }

    fn get_host_address(&self, addr: MemoryRegionAddress) -> Result<*mut u8> {
        if addr.0 < self.mapping.size as u64 {
            Ok(self.mapping.host.wrapping_add(addr.0) as *mut u8)
        } else {
            Err(Error::HostAddressNotAvailable)
        }
    }
}

impl Bytes<MemoryRegionAddress> for GuestRegionMmap {
    type E = Error;

    fn write(&self, buf: &[u8], addr: MemoryRegionAddress) -> Result<usize> {
        let mut bytes = self.mapping.bytes.lock().unwrap();
        let to = bytes.get_mut(addr.0 as usize..);
        let to = to.ok_or(Error::HostAddressNotAvailable)?;
        let count = buf.len().min(to.len());
        to[..count].copy_from_slice(&buf[..count]);
        Ok(count)
    }

    fn read(&self, buf: &mut [u8], addr: MemoryRegionAddress) -> Result<usize> {
        let bytes = self.mapping.bytes.lock().unwrap();
        let from = bytes.get(addr.0 as usize..);
        let from = from.ok_or(Error::HostAddressNotAvailable)?;
        let count = buf.len().min(from.len());
        buf[..count].copy_from_slice(&from[..count]);
        Ok(count)
    }

    // What lies in the region, as mostly, is put in place where it is called: the crate finds no more here than an offset.
    #[inline(always)]
    fn write_slice(&self, buf: &[u8], addr: MemoryRegionAddress) -> Result<()> {
        let at = addr.0 as usize;
        if let Some(to) = self
            .mapping
            .bytes
            .lock()
            .unwrap()
            .get_mut(at..at + buf.len())
        {
            to.copy_from_slice(buf);
            return Ok(());
        }
        whole(buf.len(), self.write(buf, addr)?)
    }

    #[inline(always)]
    fn read_slice(&self, buf: &mut [u8], addr: MemoryRegionAddress) -> Result<()> {
        let at = addr.0 as usize;
        if let Some(from) = self.mapping.bytes.lock().unwrap().get(at..at + buf.len()) {
            buf.copy_from_slice(from);
            return Ok(());
        }
        whole(buf.len(), self.read(buf, addr)?)
    }
}

pub trait GuestMemory {
    type R: GuestMemoryRegion;

    /// The region that has an address.
    fn find_region(&self, addr: GuestAddress) -> Option<&Self::R>;

    /// Hands each stretch of `count` bytes from `addr` on to `f`, region by region, until the first
    /// hole; gives the number of bytes handed on.
    fn stretches(&self, count: usize, addr: GuestAddress, f: impl FnMut(usize, &mut [u8]))
        -> usize;

    /// Whether all of these bytes are guest memory.
    fn check_range(&self, base: GuestAddress, len: usize) -> bool {
        self.stretches(len, base, |_, _| ()) == len
    }
}

impl<T: GuestMemory> Bytes<GuestAddress> for T {
    type E = Error;

    fn write(&self, buf: &[u8], addr: GuestAddress) -> Result<usize> {
        match self.stretches(buf.len(), addr, |done, part| {
            part.copy_from_slice(&buf[done..done + part.len()])
        }) {
            0 => Err(Error::InvalidGuestAddress(addr)),
            n => Ok(n),
        }
    }

    fn read(&self, buf: &mut [u8], addr: GuestAddress) -> Result<usize> {
        match self.stretches(buf.len(), addr, |done, part| {
            buf[done..done + part.len()].copy_from_slice(part)
        }) {
            0 => Err(Error::InvalidGuestAddress(addr)),
            n => Ok(n),
        }
    }

    fn write_slice(&self, buf: &[u8], addr: GuestAddress) -> Result<()> {
        whole(buf.len(), self.write(buf, addr)?)
    }

    fn read_slice(&self, buf: &mut [u8], addr: GuestAddress) -> Result<()> {
        whole(buf.len(), self.read(buf, addr)?)
    }
}

fn whole(expected: usize, completed: usize) -> Result<()> {
    if completed == expected {
        Ok(())
    } else {
        Err(Error::PartialBuffer {
            expected,
            completed,
        })
    }
}

pub struct GuestMemoryMmap {
    regions: Vec<GuestRegionMmap>,
}

impl GuestMemoryMmap {
    pub fn from_ranges(ranges: &[(GuestAddress, usize)]) -> Result<Self> {
        let regions = ranges.iter().map(|&(start, size)| {
            let mapping = MmapRegion {
                host: 0,
                size,
                bytes: Mutex::new(vec![0; size]),
            };
            GuestRegionMmap::new(mapping, start)
        });
        Ok(GuestMemoryMmap {
            regions: regions.collect::<Result<Vec<_>>>()?,
        })
    }
}

impl GuestMemory for GuestMemoryMmap {
    type R = GuestRegionMmap;

    fn find_region(&self, addr: GuestAddress) -> Option<&GuestRegionMmap> {
        self.regions.iter().find(|r| r.place(addr.0).is_some())
    }

    fn stretches(
        &self,
        count: usize,
        addr: GuestAddress,
        mut f: impl FnMut(usize, &mut [u8]),
    ) -> usize {
        let mut done = 0;
        while done < count {
            let Some(cur) = addr.0.checked_add(done as u64) else {
                break;
            };
            let found = self.regions.iter().find_map(|r| Some((r, r.place(cur)?)));
            let Some((region, at)) = found else { break };
            let part = (count - done).min(region.mapping.size - at);
            let mut bytes = region.mapping.bytes.lock().unwrap();
            f(done, &mut bytes[at..at + part]);
            done += part;
        }
        done
    }
}

pub trait GuestAddressSpace {
    type M: GuestMemory;
    type T: Clone + Deref<Target = Self::M>;

    fn memory(&self) -> Self::T;
}

impl<M: GuestMemory> GuestAddressSpace for Arc<M> {
    type M = M;
    type T = Self;

    fn memory(&self) -> Self {
        self.clone()
    }
}
