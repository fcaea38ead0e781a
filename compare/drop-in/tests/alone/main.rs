// SPDX-License-Identifier: Apache-2.0 AND BSD-3-Clause
//! The drop-in alone, over the stand-ins, with a host that does what a test says: what the comparison with mem.rs leaves out.

mod stand_ins;

#[allow(dead_code)] // what only a VMM calls
mod mem {
    use crate::stand_ins::dbs::{dbs_device, dbs_interrupt, dbs_utils, kvm_ioctls};
    use crate::stand_ins::{libc, log, virtio_queue};

    include!(env!("MEM_RS_FILE"));

    mod cases;
}

// The names that it takes from the root of its own crate.
pub(crate) use stand_ins::device;
pub(crate) use stand_ins::device::{
    ActivateError, ActivateResult, DbsGuestAddressSpace, Error, Result, VirtioSharedMemoryList,
    TYPE_MEM,
};
