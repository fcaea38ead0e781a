// SPDX-License-Identifier: Apache-2.0 AND BSD-3-Clause
// A proved virtio-mem device in the place of src/mem.rs of dbs-virtio-devices 0.3.1, over the crate `jambcopper`.
//
// The names and the layout of the interface are the original's, as its licence allows (NOTICE); the text is new. What the
// device answers is the proved library's. Here are its locks, its event loop, its notifications and its log, and the calls by
// which the host does what the device asks. README.md beside this file says how to put it in, and what differs.

use std::any::Any;
use std::cell::{Cell, UnsafeCell};
use std::io;
use std::marker::PhantomData;
use std::ops::Deref;
use std::os::unix::io::RawFd;
use std::sync::atomic::Ordering;
use std::sync::{Arc, LockResult, Mutex, MutexGuard};

use dbs_device::resources::{DeviceResources, ResourceConstraint};
use dbs_interrupt::{InterruptNotifier, NoopNotifier};
use dbs_utils::epoll_manager::{
    EpollManager, EventOps, EventSet, Events, MutEventSubscriber, SubscriberId,
};
use jambcopper::guest::GuestMemory as GuestBytes;
use jambcopper::{Answer, Device, Error as Refusal, HostAnswer, HostCall, Queue};
use kvm_ioctls::VmFd;
use log::{debug, error, info, trace, warn};
use virtio_queue::{QueueSync, QueueT};
use vm_memory::{
    Bytes, GuestAddress, GuestAddressSpace, GuestMemory, GuestMemoryError, GuestMemoryRegion,
    GuestRegionMmap, GuestUsize, MemoryRegionAddress,
};

use crate::device::{VirtioDevice, VirtioDeviceConfig, VirtioDeviceInfo};
use crate::{
    ActivateError, ActivateResult, DbsGuestAddressSpace, Error, Result, VirtioSharedMemoryList,
    TYPE_MEM,
};

/// The block: what is plugged and unplugged.
pub const VIRTIO_MEM_DEFAULT_BLOCK_SIZE: u64 = jambcopper::BLOCK_SIZE;

/// What the device's start is a multiple of, where the guest has booted with less than 64 GiB. With more the alignment follows
/// the boot memory, up to 2 GiB.
pub const VIRTIO_MEM_DEFAULT_BLOCK_ALIGNMENT: u64 = 128 << 20;

const MEM_DRIVER_NAME: &str = "virtio-mem";

const QUEUE_SIZE: u16 = 128;
const QUEUE_SIZES: &[u16] = &[QUEUE_SIZE];

/// Where a ring has its index.
const INDEX: u64 = 2;

/// Bytes of a request.
const REQUEST_BYTES: usize = 24;

/// Why the device cannot do what it should.
#[derive(Debug, thiserror::Error)]
pub enum MemError {
    /// The request does not lie in guest memory.
    #[error("guest memory cannot be accessed: {0}")]
    GuestMemory(GuestMemoryError),
    /// The request's descriptor is one for the device to write.
    #[error("the request's descriptor is write-only")]
    UnexpectedWriteOnlyDescriptor,
    /// The response's descriptor is one for the device to read.
    #[error("the response's descriptor is read-only")]
    UnexpectedReadOnlyDescriptor,
    /// A chain has no two descriptors.
    #[error("a descriptor is missing")]
    DescriptorChainTooShort,
    /// The response's descriptor has no room for it.
    #[error("the response's descriptor is too short")]
    DescriptorLengthTooSmall,
    /// A chain is no request.
    #[error("the chain is no request")]
    InvalidRequest,
    /// The usable size cannot grow, for this reason.
    #[error("the usable size cannot grow: {0}")]
    RsizeUsabeRegionFail(String),
}

impl MemError {
    /// The error for a reason (docs/RULES.md, R1.21 to R1.27) for which a chain is used with length 0.
    fn of_reason(reason: u64) -> MemError {
        match reason {
            21 => MemError::DescriptorChainTooShort,
            22 => MemError::UnexpectedWriteOnlyDescriptor,
            24 => MemError::GuestMemory(GuestMemoryError::PartialBuffer {
                expected: REQUEST_BYTES,
                completed: 0,
            }),
            25 => MemError::UnexpectedReadOnlyDescriptor,
            26 => MemError::DescriptorLengthTooSmall,
            _ => MemError::InvalidRequest,
        }
    }
}

/// What an operation of the device gives.
pub type MemResult<T> = std::result::Result<T, MemError>;

/// The hook by which the VMM creates the device's memory.
pub trait MemRegionFactory: Send {
    /// Maps memory at a guest address, as a memory slot of KVM.
    fn create_region(
        &mut self,
        guest_addr: GuestAddress,
        region_len: GuestUsize,
        kvm_slot: u32,
    ) -> std::result::Result<Arc<GuestRegionMmap>, Error>;

    /// Where memory that was created before lies on the host. The device does not call it.
    fn restore_region_addr(&self, guest_addr: GuestAddress) -> std::result::Result<*mut u8, Error>;

    /// The host's NUMA node that memory is created on. The device does not call it.
    fn get_host_numa_node_id(&self) -> Option<u32>;

    /// Sets the host's NUMA node. The device does not call it.
    fn set_host_numa_node_id(&mut self, host_numa_node_id: Option<u32>);
}

/// The proved device, which a [`Mem`] and its handler share.
type Shared = Arc<Mutex<Device>>;

fn locked(device: &Shared) -> MutexGuard<'_, Device> {
    device.lock().expect("whoever locked the device went on")
}

/// The error for a refusal: of a device that is made, placed or given a size.
fn refused(why: Refusal) -> Error {
    match why {
        Refusal::BadSize | Refusal::TooLarge | Refusal::NotPlaced | Refusal::Placed => {
            Error::InvalidInput
        }
        Refusal::BadRange | Refusal::BadStart => Error::InvalidResource,
        Refusal::BadHost => MemError::RsizeUsabeRegionFail(why.to_string()).into(),
        _ => Error::InternalError,
    }
}

/// Guest memory as vm-memory has it, for one wake. The available ring's index is read once, so that a wake serves what waited when
/// it began. A queue and its requests mostly lie in one region, so the last that was found is kept.
struct Guest<'a, M: GuestMemory> {
    mem: &'a M,
    last: Cell<Option<&'a M::R>>,
    available: u64,
    index: Option<u16>,
}

impl<'a, M: GuestMemory> Guest<'a, M> {
    /// With the guest address of the available ring.
    fn new(mem: &'a M, available: u64) -> Self {
        let mut guest = Guest {
            mem,
            last: Cell::new(None),
            available,
            index: None,
        };
        guest.index = guest.load(available.wrapping_add(INDEX));
        guest
    }

    #[inline(always)]
    fn load(&self, addr: u64) -> Option<u16> {
        let (region, at) = self.region(addr, 2)?;
        region.load(at, Ordering::Acquire).ok().map(u16::from_le)
    }

    /// The region that has all of these bytes, if one has, and where it has them.
    #[inline(always)]
    fn region(&self, addr: u64, size: u64) -> Option<(&'a M::R, MemoryRegionAddress)> {
        let has = |region: &'a M::R| {
            let offset = addr.wrapping_sub(region.start_addr().0);
            let left = region.len().checked_sub(offset)?;
            (size <= left).then_some((region, MemoryRegionAddress(offset)))
        };
        self.last.get().and_then(has).or_else(|| {
            self.last.set(self.mem.find_region(GuestAddress(addr)));
            self.last.get().and_then(has)
        })
    }

    /// Whether guest memory has all of these bytes, in several regions too.
    fn check_range(&self, addr: u64, size: u64) -> bool {
        match usize::try_from(size) {
            Ok(size) => self.mem.check_range(GuestAddress(addr), size),
            Err(_) => false,
        }
    }
}

impl<M: GuestMemory> GuestBytes for Guest<'_, M> {
    #[inline]
    fn contains(&self, addr: u64, size: u64) -> bool {
        self.region(addr, size).is_some() || self.check_range(addr, size)
    }

    #[inline(always)]
    fn read(&self, addr: u64, into: &mut [u8]) -> bool {
        match self.region(addr, into.len() as u64) {
            Some((region, at)) => region.read_slice(into, at).is_ok(),
            None => self.mem.read_slice(into, GuestAddress(addr)).is_ok(),
        }
    }

    #[inline(always)]
    fn write(&self, addr: u64, bytes: &[u8]) -> bool {
        let size = bytes.len() as u64;
        match self.region(addr, size) {
            Some((region, at)) => region.write_slice(bytes, at).is_ok(),
            // vm-memory writes what lies inside before it gives an error.
            None => {
                self.check_range(addr, size)
                    && self.mem.write_slice(bytes, GuestAddress(addr)).is_ok()
            }
        }
    }

    #[inline]
    fn read_index(&self, addr: u64) -> Option<u16> {
        if addr == self.available.wrapping_add(INDEX) {
            return self.index;
        }
        self.load(addr)
    }

    #[inline]
    fn write_index(&self, addr: u64, index: u16) -> bool {
        match self.region(addr, 2) {
            Some((region, at)) => region.store(index.to_le(), at, Ordering::Release).is_ok(),
            None => false,
        }
    }
}

/// A row of the map table: its memory slot and, where it is mapped, its host and its guest address.
type Row = (u32, Option<(u64, u64)>);

/// The map table, read out of the device when it is locked.
pub(crate) struct MapRegions(Shared);

impl MapRegions {
    #[allow(dead_code)] // for whoever looks into a handler, as tests do
    pub(crate) fn lock(&self) -> LockResult<Vec<Row>> {
        let device = locked(&self.0);
        let guests = (device.start()..).step_by(jambcopper::MAP_REGION_SIZE as usize);
        let rows = device.table().chunks_exact(jambcopper::ROW_WORDS);
        let row = |(row, guest): (&[u64], u64)| {
            let mapped = row[1] != 0;
            (row[0] as u32, mapped.then_some((row[2], guest)))
        };
        Ok(rows.zip(guests).map(row).collect())
    }
}

/// Each block, true where it is plugged: unpacked when it is looked at, and forgotten when the queue is served, by which alone
/// the blocks of a placed device change.
pub(crate) struct MemState {
    device: Shared,
    blocks: UnsafeCell<Option<Vec<bool>>>,
}

impl MemState {
    fn new(device: Shared) -> MemState {
        let blocks = UnsafeCell::new(None);
        MemState { device, blocks }
    }

    fn forget(&mut self) {
        *self.blocks.get_mut() = None;
    }

    fn unpacked(&self) -> Vec<bool> {
        let device = locked(&self.device);
        let bitmap = device.bitmap();
        let plugged = |block: usize| bitmap[block / 8] >> (block % 8) & 1 == 1;
        (0..8 * bitmap.len()).map(plugged).collect()
    }
}

impl Deref for MemState {
    type Target = [bool];

    fn deref(&self) -> &[bool] {
        let blocks = self.blocks.get();
        // SAFETY: an `UnsafeCell` is not shared by threads, and nothing in these calls comes back here. What is written is lent
        // only behind that, and stays as it is until `forget`, which nobody can call who has it lent.
        unsafe {
            if (*blocks).is_none() {
                *blocks = Some(self.unpacked());
            }
            (*blocks).as_deref().unwrap_or_default()
        }
    }
}

/// Serves the queue of an activated device, in the event loop.
pub(crate) struct MemEpollHandler<
    AS: GuestAddressSpace,
    Q: QueueT + Send = QueueSync,
    R: GuestMemoryRegion = GuestRegionMmap,
> {
    pub(crate) config: VirtioDeviceConfig<AS, Q, R>,
    device: Shared,
    #[allow(dead_code)] // for whoever looks into a handler, as tests do
    pub(crate) multi_region: bool,
    #[allow(dead_code)] // likewise
    pub(crate) map_regions: MapRegions,
    pub(crate) mem_state: MemState,
    host_fd: Option<RawFd>,
    id: String,
}

impl<AS: DbsGuestAddressSpace, Q: QueueT + Send, R: GuestMemoryRegion> MemEpollHandler<AS, Q, R> {
    /// Serves the heads that wait now, and says whether any is in the used ring. A head that comes later has its own event.
    fn process_queue(&mut self, queue_index: usize) -> bool {
        self.mem_state.forget();
        let memory = self.config.lock_guest_memory();
        let mut ring = self.config.queues[queue_index].queue_mut().lock();
        if !ring.ready() || ring.avail_ring() == 0 {
            error!(target: MEM_DRIVER_NAME, "{}: the queue is not ready", self.id);
            return false;
        }
        let begun = ring.next_used();
        let words = [
            ring.desc_table(),
            ring.avail_ring(),
            ring.used_ring(),
            u64::from(ring.next_avail()),
            u64::from(begun),
            0,
        ];
        let mut serving = Serving {
            device: locked(&self.device),
            queue: Queue::from_words(&words).expect("two indices, and no head out"),
            mem: Guest::new(memory.deref(), ring.avail_ring()),
            host_fd: self.host_fd,
            id: &self.id,
        };
        if let Err(why) = serving.serve() {
            error!(target: MEM_DRIVER_NAME, "{}: the queue is not served: {}", self.id, why);
        }
        ring.set_next_avail(serving.queue.next_available());
        ring.set_next_used(serving.queue.next_used());
        serving.queue.next_used() != begun
    }
}

/// One wake's way through the queue: the device, its queue, and what its host does.
struct Serving<'a, M: GuestMemory> {
    device: MutexGuard<'a, Device>,
    queue: Queue,
    mem: Guest<'a, M>,
    host_fd: Option<RawFd>,
    id: &'a str,
}

impl<M: GuestMemory> Serving<'_, M> {
    /// Serves as many heads as wait when it begins. Heads that were served before a refusal stay served.
    fn serve(&mut self) -> std::result::Result<(), Refusal> {
        for _ in 0..self.waiting() {
            match self.device.serve_guest(&mut self.queue, &self.mem)? {
                Some(answer) => self.end(answer)?,
                None => break,
            }
        }
        Ok(())
    }

    /// Answers what the device asks until the request has ended.
    fn end(&mut self, mut answer: Answer) -> std::result::Result<(), Refusal> {
        while let Answer::Wants(asked) = answer {
            let told = self.carry_out(asked);
            let (queue, mem) = (&mut self.queue, &self.mem);
            answer = self.device.serve_guest_answer(queue, mem, told)?;
        }
        self.say(answer);
        Ok(())
    }

    /// How many heads wait. It is 1 where that cannot be read or is more than a queue has: then the device refuses.
    fn waiting(&self) -> u16 {
        let next = self.queue.next_available();
        let ahead = self.mem.index.map(|index| index.wrapping_sub(next));
        ahead.filter(|&ahead| ahead <= QUEUE_SIZE).unwrap_or(1)
    }

    /// Does what the device asks of its host, and gives the host's answer.
    fn carry_out(&self, asked: HostCall) -> HostAnswer {
        let done = match asked {
            HostCall::Discard { offset, size, host } => self.discard(offset, size, host),
            // No request asks for one.
            HostCall::Create { .. } => Err(io::ErrorKind::Unsupported.into()),
        };
        match done {
            Ok(()) => HostAnswer::Discarded,
            Err(why) => {
                error!(target: MEM_DRIVER_NAME, "{}: memory is not given back, {:?}: {}", self.id, asked, why);
                HostAnswer::Failed
            }
        }
    }

    /// Gives memory of the region back to the host.
    fn discard(&self, offset: u64, size: u64, host: u64) -> io::Result<()> {
        if let Some(fd) = self.host_fd {
            let hole = libc::FALLOC_FL_PUNCH_HOLE | libc::FALLOC_FL_KEEP_SIZE;
            let (offset, size) = (offset as libc::off64_t, size as libc::off64_t);
            // SAFETY: it takes numbers alone, and frees what the guest has given up.
            succeeded(unsafe { libc::fallocate64(fd, hole, offset, size) })?;
        }
        let (host, size) = (host as *mut libc::c_void, size as libc::size_t);
        // SAFETY: the factory mapped the region's memory there, and the range is blocks of it that the guest has given up.
        succeeded(unsafe { libc::madvise(host, size, libc::MADV_REMOVE) })
    }

    /// Logs what became of a chain, and which ERROR it was.
    fn say(&self, answer: Answer) {
        if let Answer::Served { why: Some(why), .. } = answer {
            debug!(target: MEM_DRIVER_NAME, "{}: ERROR: {}", self.id, why);
        }
        match answer {
            Answer::Unserved { reason: 0 } => {
                debug!(target: MEM_DRIVER_NAME, "{}: a request of no known type", self.id);
            }
            Answer::Unserved { reason } => {
                debug!(target: MEM_DRIVER_NAME, "{}: failed parse: {:?}", self.id, MemError::of_reason(reason));
            }
            Answer::Served { length: 0, .. } => {
                debug!(target: MEM_DRIVER_NAME, "{}: a response that does not lie in guest memory", self.id);
            }
            _ => {
                trace!(target: MEM_DRIVER_NAME, "{}: {:?}, plugged 0x{:x}", self.id, answer, self.device.plugged_size());
            }
        }
    }
}

/// What a call of the C library says by its number.
fn succeeded(number: libc::c_int) -> io::Result<()> {
    match number {
        0 => Ok(()),
        _ => Err(io::Error::last_os_error()),
    }
}

impl<AS: DbsGuestAddressSpace, Q: QueueT + Send, R: GuestMemoryRegion> MutEventSubscriber
    for MemEpollHandler<AS, Q, R>
{
    fn process(&mut self, events: Events, _ops: &mut EventOps) {
        trace!(target: MEM_DRIVER_NAME, "{}: an event", self.id);
        let index = events.data() as usize;
        let queue = self.config.queues.get(index);
        match queue.map(|queue| queue.consume_event()) {
            None => {
                error!(target: MEM_DRIVER_NAME, "{}: an event of queue {}, which is not there", self.id, index)
            }
            Some(Err(why)) => {
                error!(target: MEM_DRIVER_NAME, "{}: the queue's event cannot be read: {:?}", self.id, why)
            }
            Some(Ok(_)) => {
                if self.process_queue(index) {
                    if let Err(why) = self.config.queues[index].notify() {
                        error!(target: MEM_DRIVER_NAME, "{}: the guest is not notified: {}", self.id, why);
                    }
                }
            }
        }
    }

    fn init(&mut self, ops: &mut EventOps) {
        trace!(target: MEM_DRIVER_NAME, "{}: its events are added", self.id);
        for (index, queue) in self.config.queues.iter().enumerate() {
            let events = Events::with_data(queue.eventfd.as_ref(), index as u32, EventSet::IN);
            ops.add(events).unwrap_or_else(|_| {
                panic!(
                    "{MEM_DRIVER_NAME}: {}: the queue's event cannot be added",
                    self.id
                )
            });
        }
    }
}

/// The virtio-mem device, by which a guest gets memory and gives it back.
pub struct Mem<AS: GuestAddressSpace> {
    pub(crate) device_info: VirtioDeviceInfo,
    device: Shared,
    factory: Arc<Mutex<dyn MemRegionFactory>>,
    host_fd: Option<RawFd>,
    device_change_notifier: Arc<dyn InterruptNotifier>,
    subscriber_id: Option<SubscriberId>,
    id: String,
    phantom: PhantomData<AS>,
}

impl<AS: GuestAddressSpace> Mem<AS> {
    /// Makes a device of `capacity` MiB, rounded up to twice the alignment, of which the guest may have `requested_size_mib`;
    /// `boot_mem_byte` decides the alignment. Several regions are kept only above 2 GiB.
    #[allow(clippy::too_many_arguments)]
    pub fn new(
        id: String,
        capacity: u64,
        requested_size_mib: u64,
        multi_region: bool,
        numa_node_id: Option<u16>,
        epoll_mgr: EpollManager,
        factory: Arc<Mutex<dyn MemRegionFactory>>,
        boot_mem_byte: u64,
    ) -> Result<Self> {
        let device = Device::new(
            capacity,
            requested_size_mib,
            multi_region,
            numa_node_id,
            boot_mem_byte,
        )
        .map_err(refused)?;
        info!(target: MEM_DRIVER_NAME, "{}: made, on node {:?}: {:?}", id, numa_node_id, device);
        let features = |page| u64::from(device.get_avail_features(page));
        let mut config = vec![0; jambcopper::driver::CONFIG_BYTES];
        device.read_config(0, &mut config);
        let device_info = VirtioDeviceInfo::new(
            MEM_DRIVER_NAME.to_string(),
            features(0) | features(1) << 32,
            Arc::new(QUEUE_SIZES.to_vec()),
            config,
            epoll_mgr,
        );
        Ok(Mem {
            device_info,
            device: Arc::new(Mutex::new(device)),
            factory,
            host_fd: None,
            device_change_notifier: Arc::new(NoopNotifier::new()),
            subscriber_id: None,
            id,
            phantom: PhantomData,
        })
    }

    /// Sets how many MiB the guest is asked to have, and tells the guest; also where memory could not be created for it, since
    /// the new size stands then too.
    pub fn set_requested_size(&self, requested_size_mb: u64) -> Result<()> {
        let mut device = locked(&self.device);
        let asked = device
            .set_requested_size(requested_size_mb)
            .map_err(refused)?;
        let sized = self.created(&mut device, asked);
        info!(target: MEM_DRIVER_NAME, "{}: {} MiB requested, {:?}: {:?}", self.id, requested_size_mb, sized, device);
        drop(device);
        let told = self.device_change_notifier.notify();
        if let Err(why) = &told {
            error!(target: MEM_DRIVER_NAME, "{}: the guest is not told of its new size: {}", self.id, why);
        }
        sized.and(told.map_err(Error::IOError))
    }

    /// Has the factory create what the device asks for, if it asks. Where it cannot, its error is given.
    fn created(&self, device: &mut Device, asked: Answer) -> Result<()> {
        let (guest, size, slot) = match asked {
            Answer::Wants(HostCall::Create { guest, size, slot }) => (guest, size, slot),
            _ => return Ok(()),
        };
        let created = self.create(guest, size, slot as u32).and_then(|host| {
            let told = HostAnswer::Created(host);
            device.host_answer(&mut [], 0, told).map_err(refused)
        });
        if created.is_err() {
            let ended = device.host_answer(&mut [], 0, HostAnswer::Failed);
            debug_assert_eq!(ended, Err(Refusal::CreationFailed));
        }
        created.map(|_| ())
    }

    /// The host address of a region that the factory creates.
    fn create(&self, guest: u64, size: u64, slot: u32) -> Result<u64> {
        let mut factory = self
            .factory
            .lock()
            .expect("whoever locked the factory went on");
        let region = factory.create_region(GuestAddress(guest), size, slot)?;
        let host = region
            .get_host_address(MemoryRegionAddress(0))
            .map_err(|why| MemError::RsizeUsabeRegionFail(format!("{why:?}")))?;
        info!(target: MEM_DRIVER_NAME, "{}: slot {} has 0x{:x} bytes at 0x{:x}, on the host at {:?}", self.id, slot, size, guest, host);
        Ok(host as u64)
    }
}

impl<AS, Q, R> VirtioDevice<AS, Q, R> for Mem<AS>
where
    AS: DbsGuestAddressSpace,
    Q: QueueT + Send + 'static,
    R: GuestMemoryRegion + Sync + Send + 'static,
{
    fn device_type(&self) -> u32 {
        TYPE_MEM
    }

    fn queue_max_sizes(&self) -> &[u16] {
        QUEUE_SIZES
    }

    fn get_avail_features(&self, page: u32) -> u32 {
        self.device_info.get_avail_features(page)
    }

    fn set_acked_features(&mut self, page: u32, value: u32) {
        trace!(target: MEM_DRIVER_NAME, "{}: the guest takes features 0x{:x} of page {}", self.id, value, page);
        self.device_info.set_acked_features(page, value)
    }

    fn read_config(&mut self, offset: u64, data: &mut [u8]) {
        trace!(target: MEM_DRIVER_NAME, "{}: {} bytes of config are read from {} on", self.id, data.len(), offset);
        locked(&self.device).read_config(offset, data)
    }

    fn write_config(&mut self, _offset: u64, _data: &[u8]) {
        debug!(target: MEM_DRIVER_NAME, "{}: a write of the config, which does nothing", self.id);
    }

    fn activate(&mut self, config: VirtioDeviceConfig<AS, Q, R>) -> ActivateResult {
        trace!(target: MEM_DRIVER_NAME, "{}: it is activated", self.id);
        self.device_info.check_queue_sizes(&config.queues)?;
        let sizes = config.queues.iter().map(|queue| queue.actual_size());
        if !sizes.eq(QUEUE_SIZES.iter().copied()) {
            error!(target: MEM_DRIVER_NAME, "{}: not activated: it has one queue, of {} entries", self.id, QUEUE_SIZE);
            return Err(ActivateError::InvalidParam);
        }
        self.device_change_notifier = config.device_change_notifier.clone();
        let device = locked(&self.device);
        if !device.is_placed() {
            error!(target: MEM_DRIVER_NAME, "{}: not activated: it is not placed", self.id);
            return Err(ActivateError::InternalError);
        }
        let handler = Box::new(MemEpollHandler {
            config,
            device: self.device.clone(),
            multi_region: device.map_regions() > 1,
            map_regions: MapRegions(self.device.clone()),
            mem_state: MemState::new(self.device.clone()),
            host_fd: self.host_fd,
            id: self.id.clone(),
        });
        drop(device);
        self.subscriber_id = Some(self.device_info.register_event_handler(handler));
        Ok(())
    }

    fn remove(&mut self) {
        let removed = self.subscriber_id.take();
        match removed.map(|id| self.device_info.remove_event_handler(id)) {
            None => (),
            Some(Ok(_)) => {
                debug!(target: MEM_DRIVER_NAME, "{}: its event handler is removed", self.id)
            }
            Some(Err(why)) => {
                warn!(target: MEM_DRIVER_NAME, "{}: its event handler cannot be removed: {:?}", self.id, why)
            }
        }
    }

    fn get_resource_requirements(
        &self,
        requests: &mut Vec<ResourceConstraint>,
        use_generic_irq: bool,
    ) {
        trace!(target: MEM_DRIVER_NAME, "{}: its resources are asked for", self.id);
        let device = locked(&self.device);
        requests.push(ResourceConstraint::LegacyIrq { irq: None });
        if use_generic_irq {
            // One for each queue, and one for changes of the config.
            let size = QUEUE_SIZES.len() as u32 + 1;
            requests.push(ResourceConstraint::GenericIrq { size });
        }
        requests.push(ResourceConstraint::MemAddress {
            range: None,
            align: device.alignment(),
            size: device.region_size(),
        });
        for _ in 0..device.map_regions() {
            requests.push(ResourceConstraint::KvmMemSlot {
                slot: None,
                size: 1,
            });
        }
    }

    fn set_resource(
        &mut self,
        _vm_fd: Arc<VmFd>,
        resource: DeviceResources,
    ) -> Result<Option<VirtioSharedMemoryList<R>>> {
        trace!(target: MEM_DRIVER_NAME, "{}: it is placed", self.id);
        let ranges = resource.get_mem_address_ranges();
        let slots = resource.get_kvm_mem_slots();
        let (start, size) = match ranges[..] {
            [range] => range,
            _ => {
                error!(target: MEM_DRIVER_NAME, "{}: {} ranges of addresses, and it has one", self.id, ranges.len());
                return Err(Error::InvalidResource);
            }
        };
        let mut device = locked(&self.device);
        let placed = device.place(start, size, &slots).map_err(refused);
        let placed = placed.and_then(|asked| self.created(&mut device, asked));
        info!(target: MEM_DRIVER_NAME, "{}: placed, {:?}: {:?}", self.id, placed, device);
        placed.map(|()| None)
    }

    fn as_any(&self) -> &dyn Any {
        self
    }

    fn as_any_mut(&mut self) -> &mut dyn Any {
        self
    }
}
