// SPDX-License-Identifier: Apache-2.0 AND BSD-3-Clause
//! What mem.rs asks of the host, and who answers it.

use std::cell::RefCell;
use std::sync::Arc;

use vm_memory::{GuestAddress, GuestRegionMmap, GuestUsize, MmapRegion};

use crate::mem::MemRegionFactory;
use crate::Error;

/// A question to the host, as mem.rs puts it.
#[derive(Clone, Copy, Debug, PartialEq, Eq)]
pub enum Question {
    Create { guest: u64, size: u64, slot: u32 },
    Discard { host: u64, size: u64 },
}

/// Success with a host address, or failure. A discard's address says nothing.
pub type Answer = Option<u64>;

type Answerer = Box<dyn FnMut(Question) -> Answer>;

thread_local! {
    static ANSWERER: RefCell<Option<Answerer>> = const { RefCell::new(None) };
}

/// Runs `call` with `answerer` as the host of this thread.
pub fn answering<T>(
    answerer: impl FnMut(Question) -> Answer + 'static,
    call: impl FnOnce() -> T,
) -> T {
    ANSWERER.with(|a| *a.borrow_mut() = Some(Box::new(answerer)));
    let out = call();
    ANSWERER.with(|a| *a.borrow_mut() = None);
    out
}

/// Puts a question to the host of this thread.
pub fn ask(question: Question) -> Answer {
    ANSWERER.with(|a| {
        let mut answerer = a.borrow_mut();
        let answerer = answerer.as_mut().expect("nobody answers for the host here");
        answerer(question)
    })
}

/// Creates regions by asking.
pub struct Factory;

impl MemRegionFactory for Factory {
    fn create_region(
        &mut self,
        guest_addr: GuestAddress,
        region_len: GuestUsize,
        kvm_slot: u32,
    ) -> std::result::Result<Arc<GuestRegionMmap>, Error> {
        let asked = Question::Create {
            guest: guest_addr.0,
            size: region_len,
            slot: kvm_slot,
        };
        let host = ask(asked).ok_or(Error::InternalError)?;
        // SAFETY: the address is only ever counted with; nothing is read or written there.
        let mapping = unsafe { MmapRegion::build_raw(host as *mut u8, region_len as usize, 0, 0) };
        let mapping = mapping.expect("an address that this vm-memory takes");
        // mem.rs takes nothing but the host address from the region, so it is based at 0: then
        // vm-memory has no say in where the device may lie.
        let region = GuestRegionMmap::new(mapping, GuestAddress(0));
        Ok(Arc::new(region.expect("a region based at 0")))
    }

    fn restore_region_addr(&self, _: GuestAddress) -> std::result::Result<*mut u8, Error> {
        unreachable!("mem.rs does not ask for it")
    }

    fn get_host_numa_node_id(&self) -> Option<u32> {
        None
    }

    fn set_host_numa_node_id(&mut self, _: Option<u32>) {}
}
