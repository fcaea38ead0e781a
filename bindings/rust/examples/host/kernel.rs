// SPDX-License-Identifier: Apache-2.0 AND BSD-3-Clause
//! What the kernel gives a host: memory by memfd, and events by eventfd.

use std::ffi::c_void;
use std::fs::File;
use std::io::{self, Read, Write};
use std::os::fd::{AsRawFd, FromRawFd};
use std::os::raw::{c_char, c_int, c_short, c_uint, c_ulong};
use std::os::unix::fs::MetadataExt;
use std::ptr::null_mut;
use std::slice::from_raw_parts;
use std::sync::atomic::AtomicU8;

const CLOSE_ON_EXEC: c_int = 0o2000000; // EFD_CLOEXEC
const MFD_CLOEXEC: c_uint = 1;
const PROT_READ_WRITE: c_int = 3;
const MAP_SHARED: c_int = 1;
const PUNCH_HOLE_KEEP_SIZE: c_int = 3;
const POLLIN: c_short = 1;

#[repr(C)]
struct PollFd {
    fd: c_int,
    events: c_short,
    revents: c_short,
}

extern "C" {
    fn memfd_create(name: *const c_char, flags: c_uint) -> c_int;
    fn mmap(
        at: *mut c_void,
        bytes: usize,
        prot: c_int,
        flags: c_int,
        fd: c_int,
        from: i64,
    ) -> *mut c_void;
    fn munmap(at: *mut c_void, bytes: usize) -> c_int;
    fn fallocate(fd: c_int, mode: c_int, offset: i64, bytes: i64) -> c_int;
    fn eventfd(count: c_uint, flags: c_int) -> c_int;
    fn poll(fds: *mut PollFd, count: c_ulong, milliseconds: c_int) -> c_int;
}

/// A new file descriptor as a file, or what errno says.
fn file(fd: c_int) -> io::Result<File> {
    if fd < 0 {
        return Err(io::Error::last_os_error());
    }
    // SAFETY: the descriptor is new, and nothing else owns it.
    Ok(unsafe { File::from_raw_fd(fd) })
}

/// Memory of a memfd, mapped. The kernel holds none of it until it is touched.
pub struct Memory {
    file: File,
    at: *mut u8,
    size: usize,
}

// SAFETY: the mapping stays until the value is dropped, and its bytes are reached as atomics.
unsafe impl Send for Memory {}
// SAFETY: as above.
unsafe impl Sync for Memory {}

impl Memory {
    pub fn new(size: usize) -> io::Result<Memory> {
        // SAFETY: the name ends with a zero.
        let file = file(unsafe { memfd_create(c"memory".as_ptr(), MFD_CLOEXEC) })?;
        file.set_len(size as u64)?;
        let fd = file.as_raw_fd();
        // SAFETY: a new mapping, which nothing else knows.
        let at = unsafe { mmap(null_mut(), size, PROT_READ_WRITE, MAP_SHARED, fd, 0) };
        if at as isize == -1 {
            return Err(io::Error::last_os_error());
        }
        let at = at.cast();
        Ok(Memory { file, at, size })
    }

    pub fn at(&self) -> *mut u8 {
        self.at
    }

    pub fn size(&self) -> usize {
        self.size
    }

    pub fn bytes(&self) -> &[AtomicU8] {
        // SAFETY: so many bytes are mapped as long as the value lives, and whoever reaches them does so as atomics.
        unsafe { from_raw_parts(self.at.cast(), self.size) }
    }

    /// How many bytes the kernel holds (st_blocks).
    pub fn held(&self) -> io::Result<u64> {
        Ok(self.file.metadata()?.blocks() * 512)
    }

    /// Gives bytes back to the kernel: a hole in the memfd is one in every mapping of it.
    pub fn give_back(&self, offset: u64, size: u64) -> io::Result<()> {
        let fd = self.file.as_raw_fd();
        // SAFETY: a call on a descriptor of ours; what it takes reads as zeros from then on.
        let done = unsafe { fallocate(fd, PUNCH_HOLE_KEEP_SIZE, offset as i64, size as i64) };
        if done != 0 {
            return Err(io::Error::last_os_error());
        }
        Ok(())
    }
}

impl Drop for Memory {
    fn drop(&mut self) {
        // SAFETY: the mapping is this value's own, which nothing borrows any more.
        unsafe { munmap(self.at.cast(), self.size) };
    }
}

/// An eventfd: signals that nobody has waited for yet are one.
pub struct Event(File);

impl Event {
    pub fn new() -> io::Result<Event> {
        // SAFETY: it takes numbers.
        Ok(Event(file(unsafe { eventfd(0, CLOSE_ON_EXEC) })?))
    }

    pub fn signal(&self) -> io::Result<()> {
        (&self.0).write_all(&1u64.to_ne_bytes())
    }

    /// Waits for a signal, and takes it.
    pub fn wait(&self) -> io::Result<()> {
        (&self.0).read_exact(&mut [0; 8])
    }

    /// Waits for a signal, for so many milliseconds at most, and takes it: whether there was one.
    pub fn wait_for(&self, milliseconds: c_int) -> io::Result<bool> {
        let mut fd = PollFd {
            fd: self.0.as_raw_fd(),
            events: POLLIN,
            revents: 0,
        };
        // SAFETY: one such struct is lent.
        let ready = unsafe { poll(&mut fd, 1, milliseconds) };
        if ready < 0 {
            return Err(io::Error::last_os_error());
        }
        if ready > 0 {
            self.wait()?;
        }
        Ok(ready > 0)
    }
}
