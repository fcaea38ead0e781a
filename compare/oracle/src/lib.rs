// SPDX-License-Identifier: Apache-2.0 AND BSD-3-Clause
//! The unchanged mem.rs, taken from where MEM_RS says, and a driver that speaks the house form.

#[path = "../../stand-ins/mod.rs"]
pub mod stand_ins;

/// mem.rs itself, its crates' names bound to the stand-ins.
#[allow(warnings)]
mod mem {
    use crate::stand_ins::dbs::{
        dbs_device, dbs_interrupt, dbs_utils, kvm_ioctls, virtio_bindings,
    };
    use crate::stand_ins::{libc, log, virtio_queue};

    include!(env!("MEM_RS_FILE"));
}

// The names that mem.rs takes from the root of its own crate.
pub(crate) use stand_ins::device;
pub(crate) use stand_ins::device::{
    ActivateError, ActivateResult, DbsGuestAddressSpace, Error, Result, VirtioSharedMemoryList,
    TYPE_MEM,
};

pub mod chains;
pub mod generate;
pub mod guest;
pub mod host;
pub mod lines;
pub mod random;
pub mod rust;
pub mod trace;
pub mod why;
