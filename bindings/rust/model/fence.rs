// SPDX-License-Identifier: Apache-2.0 AND BSD-3-Clause
//! Slices that end, or begin, where memory ends: a call that touches a byte beside one is stopped by the processor.

use std::ffi::c_void;
use std::ptr::null_mut;
use std::slice::from_raw_parts_mut;

/// A multiple of the page of any processor.
const PAGE: usize = 65_536;

const PROT_NONE: i32 = 0;
const PROT_READ_WRITE: i32 = 3;
const MAP_PRIVATE_ANONYMOUS: i32 = 0x22;

extern "C" {
    fn mmap(
        at: *mut c_void,
        bytes: usize,
        prot: i32,
        flags: i32,
        fd: i32,
        from: i64,
    ) -> *mut c_void;
    fn mprotect(at: *mut c_void, bytes: usize, prot: i32) -> i32;
}

/// A page of room, with a page on either side that nobody may touch.
pub struct Fence {
    room: *mut u8,
}

impl Fence {
    pub fn new() -> Fence {
        // SAFETY: a new mapping, which nothing else knows.
        unsafe {
            let at = mmap(
                null_mut(),
                3 * PAGE,
                PROT_NONE,
                MAP_PRIVATE_ANONYMOUS,
                -1,
                0,
            );
            assert!(at as isize != -1, "mmap");
            let room = at.cast::<u8>().add(PAGE);
            assert_eq!(mprotect(room.cast(), PAGE, PROT_READ_WRITE), 0, "mprotect");
            Fence { room }
        }
    }

    /// Lays down a copy, at the room's end or at its beginning.
    pub fn lay<T: Copy>(&mut self, copy: &[T], at_end: bool) -> &mut [T] {
        let bytes = size_of_val(copy);
        assert!(bytes <= PAGE);
        // SAFETY: the bytes are inside the room, which this borrows; pages are aligned for any T here, and so is their end less
        // whole Ts, whose sizes are powers of two.
        let laid = unsafe {
            let at = self.room.add(if at_end { PAGE - bytes } else { 0 });
            from_raw_parts_mut(at.cast(), copy.len())
        };
        laid.copy_from_slice(copy);
        laid
    }
}
