// SPDX-License-Identifier: Apache-2.0 AND BSD-3-Clause
//! The device of mem.rs as one value: made, placed, asked, and looked into.

use std::sync::{Arc, Mutex};

use vm_memory::{GuestAddress, GuestMemoryMmap, GuestRegionMmap};

use crate::device::{EventFd, VirtioDevice, VirtioDeviceConfig, VirtioQueueConfig};
use crate::guest::{request, Descriptor, Guest, NEXT, WRITE};
use crate::host::Factory;
use crate::mem::{Mem, MemEpollHandler};
use crate::stand_ins::dbs::dbs_device::resources::{DeviceResources, ResourceConstraint};
use crate::stand_ins::dbs::dbs_interrupt::NoopNotifier;
use crate::stand_ins::dbs::dbs_utils::epoll_manager::{EpollManager, EventOps, EventSet, Events};
use crate::stand_ins::dbs::kvm_ioctls::VmFd;
use crate::stand_ins::virtio_queue::{QueueSync, QueueT};
use crate::why::{self, Asked};
use crate::Error;

type Space = Arc<GuestMemoryMmap>;
type Handler = MemEpollHandler<Space, QueueSync, GuestRegionMmap>;

pub const QUEUE_SIZE: u16 = 128;

/// Blocks of 4 MiB.
pub const BLOCK: u64 = 4 << 20;

/// Map regions of 2 GiB.
pub const MAP_REGION: u64 = 2 << 30;

/// Request types.
pub const PLUG: u16 = 0;
pub const UNPLUG: u16 = 1;
pub const UNPLUG_ALL: u16 = 2;
pub const STATE: u16 = 3;

/// The response type that refuses.
pub const ERROR: u16 = 3;

/// The numbers of the config that can change or that a caller wants to see.
#[derive(Clone, Copy, Debug, PartialEq, Eq)]
pub struct Config {
    pub node: u16,
    pub start: u64,
    pub region: u64,
    pub usable: u64,
    pub plugged: u64,
    pub requested: u64,
}

impl Config {
    /// Why a request ends as it does, by the model, with these answers of the host to its discards. The device has this
    /// config, these blocks and rows.
    pub fn why(
        &self,
        several: bool,
        blocks: &[bool],
        rows: &[(u32, Option<u64>)],
        asked: Asked,
        granted: &[bool],
    ) -> Option<u64> {
        let device = why::Device {
            start: self.start,
            usable: self.usable,
            plugged: self.plugged,
            requested: self.requested,
            several,
            blocks: blocks.len() as u64,
            is_plugged: &|block| blocks[block as usize],
            host: &|row| rows[row as usize].1,
        };
        device.why(asked, granted)
    }
}

/// What became of a chain: the used length, and the response where its bytes lie inside.
#[derive(Clone, Copy, Debug, PartialEq, Eq)]
pub struct Served {
    pub length: u32,
    pub resp: u16,
    pub state: u16,
}

pub struct Rust {
    mem: Mem<Space>,
    epoll: EpollManager,
    /// Bound once the device is activated.
    guest: Option<Guest>,
}

/// The queue of a guest, from where its rings stand.
pub fn queue(guest: &Guest) -> QueueSync {
    let mut queue = QueueSync::new(QUEUE_SIZE);
    queue.set_desc_table_address(GuestAddress(guest.table));
    queue.set_rings(GuestAddress(guest.available), GuestAddress(guest.used));
    queue.set_next_avail(guest.made_available);
    queue.set_next_used(guest.made_available);
    queue.set_ready(true);
    queue
}

/// The trait with its parameters, so that calls need not name them.
trait Device: VirtioDevice<Space, QueueSync, GuestRegionMmap> {}
impl Device for Mem<Space> {}

/// The number for an error of mem.rs.
fn number(e: Error) -> u64 {
    match e {
        Error::InvalidInput => 1,
        Error::InvalidResource => 3,
        _ => 10,
    }
}

impl Rust {
    pub fn make(
        capacity_mib: u64,
        requested_mib: u64,
        multi: bool,
        node: Option<u16>,
        boot: u64,
    ) -> Result<Rust, u64> {
        let epoll = EpollManager::default();
        let mem = Mem::new(
            "oracle".to_string(),
            capacity_mib,
            requested_mib,
            multi,
            node,
            epoll.clone(),
            Arc::new(Mutex::new(Factory)),
            boot,
        );
        Ok(Rust {
            mem: mem.map_err(number)?,
            epoll,
            guest: None,
        })
    }

    fn device(&mut self) -> &mut dyn Device {
        &mut self.mem
    }

    /// What the device asks for: its alignment and its number of slots.
    pub fn requirements(&mut self) -> (u64, usize) {
        let mut wanted = Vec::new();
        self.device().get_resource_requirements(&mut wanted, false);
        let mut alignment = 0;
        let mut slots = 0;
        for constraint in wanted {
            match constraint {
                ResourceConstraint::MemAddress { align, .. } => alignment = align,
                ResourceConstraint::KvmMemSlot { .. } => slots += 1,
                _ => (),
            }
        }
        (alignment, slots)
    }

    pub fn features(&mut self) -> u64 {
        let page = |device: &mut dyn Device, n| u64::from(device.get_avail_features(n));
        page(self.device(), 0) | page(self.device(), 1) << 32
    }

    pub fn place(&mut self, start: u64, size: u64, slots: &[u32]) -> Result<(), u64> {
        let resources = DeviceResources {
            ranges: vec![(start, size)],
            slots: slots.to_vec(),
        };
        let placed = self.device().set_resource(Arc::new(VmFd), resources);
        placed.map(|_| ()).map_err(number)
    }

    /// Placing as the trace program does it: the range of the region's own size, slots counted up.
    pub fn place_at(&mut self, start: u64, slot: u32) -> Result<(), u64> {
        let (_, count) = self.requirements();
        let slots: Vec<u32> = (0..count as u32).map(|i| slot + i).collect();
        let region = self.config().region;
        self.place(start, region, &slots)
    }

    pub fn set_requested_size(&mut self, mib: u64) -> Result<(), u64> {
        self.mem.set_requested_size(mib).map_err(number)
    }

    pub fn read_config(&mut self, offset: u64, data: &mut [u8]) {
        self.device().read_config(offset, data)
    }

    pub fn config(&mut self) -> Config {
        let mut bytes = [0; 56];
        self.read_config(0, &mut bytes);
        let number = |at: usize| u64::from_le_bytes(bytes[at..at + 8].try_into().unwrap());
        Config {
            node: number(8) as u16,
            start: number(16),
            region: number(24),
            usable: number(32),
            plugged: number(40),
            requested: number(48),
        }
    }

    /// Binds the guest's memory and a queue of 128. False where mem.rs refuses.
    pub fn activate(&mut self, guest: Guest) -> bool {
        let queue = queue(&guest);
        let config = VirtioDeviceConfig {
            vm_as: guest.memory.clone(),
            queues: vec![VirtioQueueConfig {
                queue,
                eventfd: Arc::new(EventFd),
                notifier: Arc::new(NoopNotifier::new()),
            }],
            device_change_notifier: Arc::new(NoopNotifier::new()),
            shm_regions: None,
        };
        let done = self.device().activate(config).is_ok();
        if done {
            self.guest = Some(guest);
        }
        done
    }

    pub fn guest(&mut self) -> &mut Guest {
        self.guest.as_mut().expect("activated")
    }

    /// Wakes the device for one head of the available ring; gives its element of the used ring.
    pub fn serve(&mut self, head: u16) -> (u32, u32) {
        self.guest().make_available(head);
        self.wake();
        self.guest().last_used()
    }

    /// Wakes the device as its event loop would.
    pub fn wake(&mut self) {
        self.epoll.with_last(|handler| {
            let events = Events::with_data(&EventFd, 0, EventSet::IN);
            handler.process(events, &mut EventOps)
        });
    }

    /// Writes a request as a chain of two descriptors, its 24 bytes and 10 bytes after the table;
    /// gives where those two lie.
    pub fn write_request(&mut self, kind: u16, addr: u64, blocks: u16) -> (u64, u64) {
        let guest = self.guest();
        let (req, resp) = (guest.table + 2048, guest.table + 2048 + 32);
        let first = Descriptor {
            addr: req,
            len: 24,
            flags: NEXT,
            next: 1,
        };
        let second = Descriptor {
            addr: resp,
            len: 10,
            flags: WRITE,
            next: 0,
        };
        guest.describe(0, first);
        guest.describe(1, second);
        guest.write(req, &request(kind, addr, blocks));
        guest.write(resp, &[0xee; 10]);
        (req, resp)
    }

    /// One request, written and served.
    pub fn request(&mut self, kind: u16, addr: u64, blocks: u16) -> Served {
        let (_, resp) = self.write_request(kind, addr, blocks);
        let (_, length) = self.serve(0);
        let bytes = self.guest().read(resp, 10);
        Served {
            length,
            resp: u16::from_le_bytes([bytes[0], bytes[1]]),
            state: u16::from_le_bytes([bytes[8], bytes[9]]),
        }
    }

    /// The handler that mem.rs made, lent to `f`.
    fn with_handler<T>(&self, f: impl FnOnce(&Handler) -> T) -> T {
        self.epoll.with_last(|subscriber| {
            let handler: *const _ = subscriber.as_ref();
            // SAFETY: `activate` is the only one that adds a subscriber, and this is its type.
            f(unsafe { &*handler.cast::<Handler>() })
        })
    }

    /// Each block's state: true is plugged.
    pub fn blocks(&self) -> Vec<bool> {
        self.with_blocks(|blocks| blocks.to_vec())
    }

    /// The same, lent to `f`.
    pub fn with_blocks<T>(&self, f: impl FnOnce(&[bool]) -> T) -> T {
        self.with_handler(|handler| f(&handler.mem_state))
    }

    /// The size of the blocks that are plugged.
    pub fn plugged_by_blocks(&self) -> u64 {
        let count = |blocks: &[bool]| blocks.iter().filter(|&&plugged| plugged).count();
        self.with_blocks(count) as u64 * BLOCK
    }

    /// Each row's slot and host address.
    pub fn rows(&self) -> Vec<(u32, Option<u64>)> {
        self.with_handler(|handler| {
            let rows = handler.map_regions.lock().unwrap();
            rows.iter()
                .map(|&(slot, at)| (slot, at.map(|(host, _)| host)))
                .collect()
        })
    }

    pub fn multi(&self) -> bool {
        self.with_handler(|handler| handler.multi_region)
    }

    /// Why a request that comes now ends as it does, by the model.
    pub fn why(&mut self, asked: Asked, granted: &[bool]) -> Option<u64> {
        let (config, several, rows) = (self.config(), self.multi(), self.rows());
        self.with_blocks(|blocks| config.why(several, blocks, &rows, asked, granted))
    }
}
