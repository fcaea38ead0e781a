// SPDX-License-Identifier: Apache-2.0 AND BSD-3-Clause
//! Stand-ins of the crates that mem.rs needs, each no more than mem.rs or the drop-in names of it.

pub mod dbs;
pub mod device;
pub mod libc;
pub(crate) mod log;
pub mod virtio_queue;
