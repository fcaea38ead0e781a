// SPDX-License-Identifier: Apache-2.0 AND BSD-3-Clause
//! Stand-in for the files around mem.rs in its crate (device.rs and lib.rs): what mem.rs names of them.

use std::any::Any;
use std::io;
use std::sync::Arc;

use vm_memory::{GuestAddressSpace, GuestMemory, GuestMemoryRegion, GuestRegionMmap};

use crate::stand_ins::dbs::dbs_device::resources::{DeviceResources, ResourceConstraint};
use crate::stand_ins::dbs::dbs_interrupt::InterruptNotifier;
use crate::stand_ins::dbs::dbs_utils::epoll_manager::{
    EpollManager, EpollSubscriber, SubscriberId,
};
use crate::stand_ins::dbs::kvm_ioctls::VmFd;
use crate::stand_ins::virtio_queue::{QueueSync, QueueT};

pub const TYPE_MEM: u32 = 24;

pub trait DbsGuestAddressSpace: GuestAddressSpace + 'static + Clone + Send + Sync {}

impl<T> DbsGuestAddressSpace for T where T: GuestAddressSpace + 'static + Clone + Send + Sync {}

#[derive(Debug, thiserror::Error)]
pub enum ActivateError {
    InvalidParam,
    InternalError,
}

pub type ActivateResult = std::result::Result<(), ActivateError>;

#[derive(Debug, thiserror::Error)]
pub enum Error {
    InvalidInput,
    InvalidResource,
    InternalError,
    IOError(io::Error),
    VirtioMemError(crate::mem::MemError),
}

impl From<crate::mem::MemError> for Error {
    fn from(e: crate::mem::MemError) -> Self {
        Error::VirtioMemError(e)
    }
}

pub type Result<T> = std::result::Result<T, Error>;

pub struct EventFd;

pub struct VirtioQueueConfig<Q: QueueT = QueueSync> {
    pub queue: Q,
    pub eventfd: Arc<EventFd>,
    pub notifier: Arc<dyn InterruptNotifier>,
}

impl<Q: QueueT> VirtioQueueConfig<Q> {
    pub fn queue_mut(&mut self) -> &mut Q {
        &mut self.queue
    }

    /// Panics where the used ring cannot take the head, as device.rs does.
    pub fn add_used<M: GuestMemory>(&mut self, mem: &M, desc_index: u16, len: u32) {
        self.queue
            .add_used(mem, desc_index, len)
            .unwrap_or_else(|_| panic!("head {desc_index} cannot be added to the used ring"))
    }

    /// The size that the guest has set up, which here is all that a queue has.
    pub fn actual_size(&self) -> u16 {
        self.queue.size()
    }

    pub fn consume_event(&self) -> Result<u64> {
        Ok(1)
    }

    pub fn notify(&self) -> Result<()> {
        self.notifier.notify().map_err(Error::IOError)
    }
}

pub struct VirtioDeviceConfig<
    AS: GuestAddressSpace,
    Q: QueueT = QueueSync,
    R: GuestMemoryRegion = GuestRegionMmap,
> {
    pub vm_as: AS,
    pub queues: Vec<VirtioQueueConfig<Q>>,
    pub device_change_notifier: Arc<dyn InterruptNotifier>,
    pub shm_regions: Option<VirtioSharedMemoryList<R>>,
}

impl<AS: GuestAddressSpace, Q: QueueT, R: GuestMemoryRegion> VirtioDeviceConfig<AS, Q, R> {
    pub fn lock_guest_memory(&self) -> AS::T {
        self.vm_as.memory()
    }
}

pub struct VirtioSharedMemoryList<R: GuestMemoryRegion> {
    pub mmap_region: Arc<R>,
}

pub trait VirtioDevice<AS: GuestAddressSpace, Q: QueueT, R: GuestMemoryRegion>: Send {
    fn device_type(&self) -> u32;
    fn queue_max_sizes(&self) -> &[u16];
    fn get_avail_features(&self, page: u32) -> u32;
    fn set_acked_features(&mut self, page: u32, value: u32);
    fn read_config(&mut self, offset: u64, data: &mut [u8]);
    fn write_config(&mut self, offset: u64, data: &[u8]);
    fn activate(&mut self, config: VirtioDeviceConfig<AS, Q, R>) -> ActivateResult;
    fn remove(&mut self);
    fn get_resource_requirements(&self, requests: &mut Vec<ResourceConstraint>, generic: bool);
    fn set_resource(
        &mut self,
        vm_fd: Arc<VmFd>,
        resource: DeviceResources,
    ) -> Result<Option<VirtioSharedMemoryList<R>>>;
    fn as_any(&self) -> &dyn Any;
    fn as_any_mut(&mut self) -> &mut dyn Any;
}

pub struct VirtioDeviceInfo {
    avail_features: u64,
    pub queue_sizes: Arc<Vec<u16>>,
    epoll_manager: EpollManager,
}

impl VirtioDeviceInfo {
    pub fn new(
        _driver_name: String,
        avail_features: u64,
        queue_sizes: Arc<Vec<u16>>,
        _config_space: Vec<u8>,
        epoll_manager: EpollManager,
    ) -> Self {
        VirtioDeviceInfo {
            avail_features,
            queue_sizes,
            epoll_manager,
        }
    }

    pub fn get_avail_features(&self, page: u32) -> u32 {
        match page {
            0 => self.avail_features as u32,
            1 => (self.avail_features >> 32) as u32,
            _ => 0,
        }
    }

    pub fn set_acked_features(&mut self, _page: u32, _value: u32) {}

    pub fn check_queue_sizes<Q: QueueT>(&self, queues: &[VirtioQueueConfig<Q>]) -> ActivateResult {
        if queues.len() == self.queue_sizes.len() {
            Ok(())
        } else {
            Err(ActivateError::InvalidParam)
        }
    }

    pub fn register_event_handler(&self, handler: EpollSubscriber) -> SubscriberId {
        self.epoll_manager.add_subscriber(handler)
    }

    pub fn remove_event_handler(&mut self, id: SubscriberId) -> Result<EpollSubscriber> {
        let removed = self.epoll_manager.remove_subscriber(id);
        removed.map_err(|()| Error::InternalError)
    }
}
