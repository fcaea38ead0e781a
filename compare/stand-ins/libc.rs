// SPDX-License-Identifier: Apache-2.0 AND BSD-3-Clause
//! Stand-in for libc: the two host calls of mem.rs, of which one is asked of the driver.

#![allow(non_camel_case_types, non_upper_case_globals)]

use crate::host::{ask, Question};

pub use std::ffi::c_void;

pub type c_int = i32;
pub type size_t = usize;
pub type off64_t = i64;

pub const MADV_REMOVE: c_int = 9;
pub const FALLOC_FL_KEEP_SIZE: c_int = 1;
pub const FALLOC_FL_PUNCH_HOLE: c_int = 2;

/// The discard: 0 where the driver answers success.
///
/// # Safety
/// Nothing is done at the address.
pub unsafe fn madvise(addr: *mut c_void, size: size_t, advice: c_int) -> c_int {
    assert_eq!(advice, MADV_REMOVE);
    let asked = Question::Discard {
        host: addr as u64,
        size: size as u64,
    };
    match ask(asked) {
        Some(_) => 0,
        None => -1,
    }
}

/// Never called: mem.rs has no host file.
///
/// # Safety
/// Nothing is done.
pub unsafe fn fallocate64(_: c_int, _: c_int, _: off64_t, _: off64_t) -> c_int {
    unreachable!("mem.rs has no host file")
}
