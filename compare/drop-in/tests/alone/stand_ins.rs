// SPDX-License-Identifier: Apache-2.0 AND BSD-3-Clause
//! The stand-ins of compare/, but for libc: here its calls are written down, and fail where a test says so.

#![allow(dead_code, unused_imports, unused_macros)] // no test needs all of them

#[path = "../../../stand-ins/dbs.rs"]
pub mod dbs;
#[path = "../../../stand-ins/device.rs"]
pub mod device;
#[path = "../../../stand-ins/log.rs"]
pub(crate) mod log;
#[path = "../../../stand-ins/virtio_queue.rs"]
pub mod virtio_queue;

#[allow(non_camel_case_types)]
pub mod libc {
    use std::cell::RefCell;

    pub use std::ffi::c_void;

    pub type c_int = i32;
    pub type size_t = usize;
    pub type off64_t = i64;

    pub const MADV_REMOVE: c_int = 9;
    pub const FALLOC_FL_KEEP_SIZE: c_int = 1;
    pub const FALLOC_FL_PUNCH_HOLE: c_int = 2;

    /// A call of the host.
    #[derive(Clone, Copy, Debug, PartialEq, Eq)]
    pub enum Call {
        Madvise(u64, usize, c_int),
        Fallocate(c_int, c_int, i64, i64),
    }

    #[derive(Default)]
    struct Host {
        calls: Vec<Call>,
        failing: Option<Call>,
    }

    thread_local! {
        static HOST: RefCell<Host> = RefCell::default();
    }

    /// From now on this call fails, and no other.
    pub fn fail(call: Option<Call>) {
        HOST.with(|host| host.borrow_mut().failing = call);
    }

    /// The calls since they were last taken.
    pub fn take() -> Vec<Call> {
        HOST.with(|host| std::mem::take(&mut host.borrow_mut().calls))
    }

    fn made(call: Call) -> c_int {
        HOST.with(|host| {
            let mut host = host.borrow_mut();
            host.calls.push(call);
            -c_int::from(host.failing == Some(call))
        })
    }

    pub unsafe fn madvise(addr: *mut c_void, size: size_t, advice: c_int) -> c_int {
        made(Call::Madvise(addr as u64, size, advice))
    }

    pub unsafe fn fallocate64(fd: c_int, mode: c_int, offset: off64_t, size: off64_t) -> c_int {
        made(Call::Fallocate(fd, mode, offset, size))
    }
}
