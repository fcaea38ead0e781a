// SPDX-License-Identifier: Apache-2.0 AND BSD-3-Clause
//! The cases: the host's errors, notifications, queues that are not served, activations, and what differs from mem.rs.

use std::sync::atomic::AtomicU32;

use jambcopper::driver::Request;
use vm_memory::{GuestMemoryMmap, MmapRegion};

use super::*;
use crate::device::{EventFd, VirtioQueueConfig};
use libc::Call;

const MIB: u64 = 1 << 20;
const GIB: u64 = 1 << 30;
const BLOCK: u64 = VIRTIO_MEM_DEFAULT_BLOCK_SIZE;
const START: u64 = 4 * GIB;
const HOST: u64 = 0x7f00_0000_0000;

/// Guest memory: a region at 0, two that touch, with the queue and the request in the first of them, and one behind a hole.
const BASE: u64 = 0x1000;
const BORDER: u64 = 0x3000;
const HOLE: u64 = 0x4000;
const BEHIND: u64 = 0x8000;
const RANGES: [(GuestAddress, usize); 4] = [
    (GuestAddress(0), 0x800),
    (GuestAddress(BASE), (BORDER - BASE) as usize),
    (GuestAddress(BORDER), (HOLE - BORDER) as usize),
    (GuestAddress(BEHIND), 0x1000),
];
const AVAILABLE: u64 = BASE + 2048;
const USED: u64 = BASE + 2560;
const REQUEST: u64 = BASE + 0x1000;
const RESPONSE: u64 = REQUEST + 32;

type Space = Arc<GuestMemoryMmap>;

/// A factory that maps at a host address, or fails with an error of its own.
struct Factory {
    host: Option<u64>,
    empty: bool,
    asked: Vec<(u64, u64, u32)>,
}

impl MemRegionFactory for Factory {
    fn create_region(
        &mut self,
        guest: GuestAddress,
        size: GuestUsize,
        slot: u32,
    ) -> std::result::Result<Arc<GuestRegionMmap>, Error> {
        self.asked.push((guest.0, size, slot));
        let own = || Error::IOError(io::Error::other("the factory's own"));
        let host = self.host.ok_or_else(own)?;
        let size = if self.empty { 0 } else { size as usize };
        // SAFETY: nothing is read or written at the address.
        let mapping = unsafe { MmapRegion::build_raw(host as *mut u8, size, 0, 0) };
        let region = GuestRegionMmap::new(mapping.expect("taken"), GuestAddress(0));
        Ok(Arc::new(region.expect("a region based at 0")))
    }

    fn restore_region_addr(&self, _: GuestAddress) -> std::result::Result<*mut u8, Error> {
        unreachable!("the device does not ask for it")
    }

    fn get_host_numa_node_id(&self) -> Option<u32> {
        unreachable!("the device does not ask for it")
    }

    fn set_host_numa_node_id(&mut self, _: Option<u32>) {
        unreachable!("the device does not set it")
    }
}

/// Counts, and fails where it is told to.
#[derive(Default)]
struct Notifier {
    count: AtomicU32,
    fails: bool,
}

impl Notifier {
    fn told(&self) -> u32 {
        self.count.swap(0, Ordering::Relaxed)
    }
}

impl InterruptNotifier for Notifier {
    fn notify(&self) -> io::Result<()> {
        self.count.fetch_add(1, Ordering::Relaxed);
        match self.fails {
            true => Err(io::Error::other("no interrupt")),
            false => Ok(()),
        }
    }
}

/// A device with its factory, its event loop, its guest's memory and queue, and who is notified.
struct Rig {
    device: Mem<Space>,
    factory: Arc<Mutex<Factory>>,
    epoll: EpollManager,
    mem: Space,
    queue: QueueSync,
    notifier: Arc<Notifier>,
    changes: Arc<Notifier>,
}

/// The trait with its parameters, so that calls need not name them.
trait AsDevice: VirtioDevice<Space, QueueSync, GuestRegionMmap> {}
impl AsDevice for Mem<Space> {}

impl Rig {
    fn new(capacity: u64, requested: u64, several: bool) -> Rig {
        let epoll = EpollManager::default();
        let factory = Arc::new(Mutex::new(Factory {
            host: Some(HOST),
            empty: false,
            asked: Vec::new(),
        }));
        let given = factory.clone();
        let device = Mem::new(
            "test".into(),
            capacity,
            requested,
            several,
            None,
            epoll.clone(),
            given,
            GIB,
        );
        let mut rig = Rig {
            device: device.expect("made"),
            factory,
            epoll,
            mem: Arc::new(GuestMemoryMmap::from_ranges(&RANGES).expect("below 2^64")),
            queue: QueueSync::new(128),
            notifier: Arc::default(),
            changes: Arc::default(),
        };
        rig.set_up(AVAILABLE, USED);
        rig
    }

    /// A placed and activated device of one region of 256 MiB, 16 MiB requested.
    fn placed() -> Rig {
        let mut rig = Rig::new(256, 16, false);
        rig.place(START, 1).expect("placed");
        rig.activate().expect("activated");
        rig
    }

    fn device(&mut self) -> &mut dyn AsDevice {
        &mut self.device
    }

    fn set_up(&mut self, available: u64, used: u64) {
        self.queue.set_desc_table_address(GuestAddress(BASE));
        self.queue
            .set_rings(GuestAddress(available), GuestAddress(used));
        self.queue.set_ready(true);
    }

    fn place(&mut self, start: u64, slot: u32) -> Result<()> {
        let device = locked(&self.device.device);
        let (size, count) = (device.region_size(), device.map_regions() as u32);
        drop(device);
        let resources = DeviceResources {
            ranges: vec![(start, size)],
            slots: (slot..slot + count).collect(),
        };
        let placed = self.device().set_resource(Arc::new(VmFd), resources);
        placed.map(|_| ())
    }

    fn queue_config(&self, queue: QueueSync) -> VirtioQueueConfig {
        VirtioQueueConfig {
            queue,
            eventfd: Arc::new(EventFd),
            notifier: self.notifier.clone(),
        }
    }

    fn activate(&mut self) -> ActivateResult {
        let queues = vec![self.queue_config(self.queue.clone())];
        self.activate_with(queues)
    }

    fn activate_with(&mut self, queues: Vec<VirtioQueueConfig>) -> ActivateResult {
        let config = VirtioDeviceConfig {
            vm_as: self.mem.clone(),
            queues,
            device_change_notifier: self.changes.clone(),
            shm_regions: None,
        };
        self.device().activate(config)
    }

    fn write(&self, addr: u64, bytes: &[u8]) {
        let done = self.mem.write_slice(bytes, GuestAddress(addr));
        done.expect("inside")
    }

    fn read<const N: usize>(&self, addr: u64) -> [u8; N] {
        let mut bytes = [0; N];
        let done = self.mem.read_slice(&mut bytes, GuestAddress(addr));
        done.expect("inside");
        bytes
    }

    fn index(&self, ring: u64) -> u16 {
        u16::from_le_bytes(self.read(ring + INDEX))
    }

    /// Puts a head into the available ring.
    fn make_available(&self, head: u16) {
        let index = self.index(AVAILABLE);
        let entry = AVAILABLE + 4 + 2 * u64::from(index % 128);
        self.write(entry, &head.to_le_bytes());
        let next = index.wrapping_add(1);
        self.write(AVAILABLE + INDEX, &next.to_le_bytes());
    }

    /// Describes a request there as the chain of head 0, its response there.
    fn describe(&self, request: Request, at: u64, response: u64) {
        for (nth, addr, length, flags) in [(0, at, 24u32, 1u16), (1, response, 10, 2)] {
            let descriptor = BASE + 16 * nth;
            self.write(descriptor, &addr.to_le_bytes());
            self.write(descriptor + 8, &length.to_le_bytes());
            self.write(descriptor + 12, &flags.to_le_bytes());
            self.write(descriptor + 14, &1u16.to_le_bytes());
        }
        self.write(at, &request.to_bytes());
    }

    /// The head and the length of the newest used element.
    fn last_used(&self) -> (u32, u32) {
        let newest = self.index(USED).wrapping_sub(1);
        let element = USED + 4 + 8 * u64::from(newest % 128);
        let word = |at| u32::from_le_bytes(self.read(at));
        (word(element), word(element + 4))
    }

    /// Wakes the device; gives how often the guest was notified.
    fn wake(&self) -> u32 {
        self.epoll.with_last(|handler| {
            let events = Events::with_data(&EventFd, 0, EventSet::IN);
            handler.process(events, &mut EventOps)
        });
        self.notifier.told()
    }

    /// One request, served; gives the response's type.
    fn request(&self, request: Request) -> u16 {
        self.describe(request, REQUEST, RESPONSE);
        self.make_available(0);
        assert_eq!(self.wake(), 1);
        assert_eq!(self.last_used(), (0, 10));
        u16::from_le_bytes(self.read(RESPONSE))
    }

    fn word(&mut self, at: u64) -> u64 {
        let mut bytes = [0; 8];
        self.device().read_config(at, &mut bytes);
        u64::from_le_bytes(bytes)
    }

    fn start(&mut self) -> u64 {
        self.word(16)
    }

    fn plugged(&mut self) -> u64 {
        self.word(40)
    }

    fn requested(&mut self) -> u64 {
        self.word(48)
    }

    fn set_host(&self, host: Option<u64>) {
        self.factory.lock().unwrap().host = host;
    }

    fn asked(&self) -> Vec<(u64, u64, u32)> {
        std::mem::take(&mut self.factory.lock().unwrap().asked)
    }
}

/// It is the factory's own error.
fn own(done: Result<()>) {
    assert!(
        matches!(&done, Err(Error::IOError(e)) if e.to_string() == "the factory's own"),
        "{done:?}"
    );
}

#[test]
fn sizes_that_cannot_be_are_invalid_input() {
    for (capacity, requested) in [(0, 0), (256, 257), (256, 2), (1_048_577, 0), (1 << 44, 0)] {
        let made = Mem::<Space>::new(
            "test".into(),
            capacity,
            requested,
            false,
            None,
            EpollManager::default(),
            Rig::new(256, 0, false).factory,
            GIB,
        );
        assert!(matches!(made.err(), Some(Error::InvalidInput)));
    }
    let rig = Rig::placed();
    for mib in [260, 2, 1 << 44] {
        let done = rig.device.set_requested_size(mib);
        assert!(matches!(done, Err(Error::InvalidInput)));
    }
}

#[test]
fn where_the_factory_fails_its_error_is_the_callers_and_placing_may_be_tried_again() {
    let mut rig = Rig::new(256, 16, false);
    rig.set_host(None);
    own(rig.place(START, 1));
    assert!(matches!(rig.activate(), Err(ActivateError::InternalError)));
    rig.set_host(Some(HOST));
    rig.place(START + GIB, 7).expect("placed");
    let asked = [(START, 256 * MIB, 1), (START + GIB, 256 * MIB, 7)];
    assert_eq!(rig.asked(), asked);
    rig.activate().expect("activated");
}

#[test]
fn where_a_size_change_cannot_create_the_new_size_stands_and_the_guest_is_told() {
    let mut rig = Rig::new(4096, 0, true);
    rig.place(START, 1).expect("placed");
    rig.activate().expect("activated");
    assert_eq!(rig.asked(), []);
    rig.set_host(None);
    own(rig.device.set_requested_size(16));
    assert_eq!((rig.requested(), rig.changes.told()), (16 * MIB, 1));
    rig.set_host(Some(HOST));
    rig.device.set_requested_size(20).expect("created");
    assert_eq!((rig.requested(), rig.changes.told()), (20 * MIB, 1));
    assert_eq!(rig.asked(), [(START, 2 * GIB, 1); 2]);
}

#[test]
fn a_host_address_that_cannot_be_fails_as_a_creation() {
    for (host, empty) in [(u64::MAX - 4095, false), (HOST, true)] {
        let mut rig = Rig::new(256, 16, false);
        rig.set_host(Some(host));
        rig.factory.lock().unwrap().empty = empty;
        let done = rig.place(START, 1);
        let MemError::RsizeUsabeRegionFail(_) = (match done {
            Err(Error::VirtioMemError(why)) => why,
            other => panic!("{other:?}"),
        }) else {
            panic!("another error")
        };
        rig.set_host(Some(HOST));
        rig.factory.lock().unwrap().empty = false;
        rig.place(START, 1).expect("nothing is pending any more");
    }
}

#[test]
fn a_change_that_the_guest_is_not_told_of_is_an_error() {
    let mut rig = Rig::new(256, 16, false);
    rig.place(START, 1).expect("placed");
    rig.changes = Arc::new(Notifier {
        fails: true,
        ..Notifier::default()
    });
    rig.activate().expect("activated");
    let done = rig.device.set_requested_size(20);
    assert!(matches!(done, Err(Error::IOError(_))));
    assert_eq!((rig.requested(), rig.changes.told()), (20 * MIB, 1));
}

#[test]
fn resources_that_do_not_fit_are_invalid() {
    let mut rig = Rig::new(256, 16, false);
    let region = 256 * MIB;
    let bad = [
        (vec![], vec![1]),
        (vec![(START, region), (2 * START, region)], vec![1]),
        (vec![(START, region - 1)], vec![1]),
        (vec![(START, region)], vec![]),
        (vec![(START, region)], vec![1, 2]),
        (vec![(START + 1, region)], vec![1]),
    ];
    for (ranges, slots) in bad {
        let resources = DeviceResources { ranges, slots };
        let done = rig.device().set_resource(Arc::new(VmFd), resources);
        assert!(matches!(done.err(), Some(Error::InvalidResource)));
    }
    assert_eq!(rig.asked(), []);
}

#[test]
fn placing_twice_and_a_size_before_placing_are_refused_and_change_nothing() {
    let mut rig = Rig::new(256, 0, false);
    let done = rig.device.set_requested_size(16);
    assert!(matches!(done, Err(Error::InvalidInput)));
    assert_eq!((rig.requested(), rig.changes.told()), (0, 0));
    rig.place(START, 1).expect("placed");
    let done = rig.place(2 * START, 2);
    assert!(matches!(done, Err(Error::InvalidInput)));
    assert_eq!(rig.start(), START);
    assert_eq!(rig.asked(), [(START, 256 * MIB, 1)]);
}

#[test]
fn what_is_not_placed_or_has_another_queue_is_not_activated() {
    let mut rig = Rig::new(4096, 16, true);
    assert!(matches!(rig.activate(), Err(ActivateError::InternalError)));
    rig.set_host(None);
    own(rig.place(START, 1));
    assert!(matches!(rig.activate(), Err(ActivateError::InternalError)));
    rig.set_host(Some(HOST));
    rig.place(START, 1).expect("placed");
    let two = vec![
        rig.queue_config(rig.queue.clone()),
        rig.queue_config(rig.queue.clone()),
    ];
    for queues in [vec![], two, vec![rig.queue_config(QueueSync::new(64))]] {
        let done = rig.activate_with(queues);
        assert!(matches!(done, Err(ActivateError::InvalidParam)));
    }
    rig.activate().expect("activated");
}

#[test]
fn activated_again_it_has_what_was_plugged() {
    let mut rig = Rig::placed();
    assert_eq!(rig.request(Request::plug(START, 2)), 0);
    rig.device().remove();
    rig.activate().expect("activated again");
    assert_eq!(rig.plugged(), 2 * BLOCK);
    assert_eq!(rig.request(Request::plug(START, 1)), 3);
    assert_eq!(rig.request(Request::unplug(START, 2)), 0);
    assert_eq!(rig.plugged(), 0);
}

#[test]
fn a_wake_notifies_once_for_what_waited_and_not_at_all_for_nothing() {
    let rig = Rig::placed();
    assert_eq!(rig.wake(), 0);
    rig.describe(Request::plug(START, 1), REQUEST, RESPONSE);
    for _ in 0..128 {
        rig.make_available(0);
    }
    assert_eq!((rig.wake(), rig.index(USED)), (1, 128));
    assert_eq!((rig.wake(), rig.index(USED)), (0, 128));
}

#[test]
fn a_bad_head_is_used_with_length_0() {
    for head in [128, 129, 65_535] {
        let rig = Rig::placed();
        rig.make_available(head);
        rig.describe(Request::plug(START, 1), REQUEST, RESPONSE);
        rig.make_available(0);
        assert_eq!((rig.wake(), rig.index(USED)), (1, 2));
        let first: [u8; 8] = rig.read(USED + 4);
        assert_eq!(first, u64::from(head).to_le_bytes());
        assert_eq!(rig.last_used(), (0, 10));
    }
}

#[test]
fn an_index_too_far_ahead_is_not_served_and_does_not_stick() {
    let mut rig = Rig::placed();
    rig.describe(Request::plug(START, 1), REQUEST, RESPONSE);
    for index in [129u16, 40_000, 65_535] {
        rig.write(AVAILABLE + INDEX, &index.to_le_bytes());
        assert_eq!((rig.wake(), rig.index(USED)), (0, 0));
    }
    rig.write(AVAILABLE + INDEX, &1u16.to_le_bytes());
    assert_eq!((rig.wake(), rig.index(USED)), (1, 1));
    assert_eq!(rig.plugged(), BLOCK);
}

#[test]
fn a_queue_outside_of_memory_or_not_ready_is_not_served_and_does_not_stick() {
    let mut rig = Rig::placed();
    rig.describe(Request::plug(START, 1), REQUEST, RESPONSE);
    rig.make_available(0);
    rig.write(INDEX, &1u16.to_le_bytes());
    let outside = [
        (HOLE - 260, USED),
        (AVAILABLE, HOLE - 1028),
        (HOLE, USED),
        (AVAILABLE, u64::MAX - 1),
        (u64::MAX - 1, USED),
        (0, USED),
    ];
    for (available, used) in outside {
        rig.set_up(available, used);
        assert_eq!((rig.wake(), rig.index(USED)), (0, 0));
    }
    rig.set_up(AVAILABLE, USED);
    rig.queue.set_ready(false);
    assert_eq!((rig.wake(), rig.index(USED)), (0, 0));
    rig.queue.set_ready(true);
    assert_eq!((rig.wake(), rig.plugged()), (1, BLOCK));
}

#[test]
fn an_event_of_no_queue_is_none() {
    let rig = Rig::placed();
    rig.describe(Request::plug(START, 1), REQUEST, RESPONSE);
    rig.make_available(0);
    rig.epoll.with_last(|handler| {
        let events = Events::with_data(&EventFd, 1, EventSet::IN);
        handler.process(events, &mut EventOps)
    });
    assert_eq!((rig.notifier.told(), rig.index(USED)), (0, 0));
}

#[test]
fn requests_and_responses_may_lie_across_regions_that_touch_and_not_across_a_hole() {
    let mut rig = Rig::placed();
    let rows = [
        (BORDER - 20, BORDER + 100, 10, BLOCK),
        (BORDER + 100, BORDER - 3, 10, 2 * BLOCK),
        (BEHIND, HOLE - 10, 10, 3 * BLOCK),
        (BEHIND, HOLE - 9, 0, 4 * BLOCK),
        (BEHIND, BEHIND - 1, 0, 5 * BLOCK),
    ];
    rig.device.set_requested_size(20).expect("sized");
    rig.write(HOLE - 9, &[0xee; 9]);
    for (nth, (request, response, length, plugged)) in rows.into_iter().enumerate() {
        let block = START + nth as u64 * BLOCK;
        rig.describe(Request::plug(block, 1), request, response);
        rig.make_available(0);
        assert_eq!(rig.wake(), 1);
        assert_eq!((rig.last_used(), rig.plugged()), ((0, length), plugged));
        if length > 0 {
            assert_eq!(rig.read::<10>(response), [0; 10]);
            rig.write(HOLE - 9, &[0xee; 9]);
        }
        assert_eq!(rig.read::<9>(HOLE - 9), [0xee; 9]);
    }
    rig.describe(Request::unplug_all(), REQUEST, RESPONSE);
    rig.write(BASE, &(HOLE - 23).to_le_bytes());
    rig.make_available(0);
    assert_eq!((rig.wake(), rig.last_used()), (1, (0, 0)));
}

#[test]
fn what_is_not_wholly_inside_is_not_written_at_all() {
    let rig = Rig::placed();
    let guest = Guest::new(&*rig.mem, AVAILABLE);
    assert!(GuestBytes::write(&guest, BORDER - 4, &[0xee; 8]));
    assert_eq!(rig.read::<8>(BORDER - 4), [0xee; 8]);
    assert!(!GuestBytes::write(&guest, HOLE - 4, &[0xee; 8]));
    assert_eq!(rig.read::<4>(HOLE - 4), [0; 4]);
}

#[test]
fn what_waited_when_a_wake_began_is_served_whatever_is_written_meanwhile() {
    let rig = Rig::placed();
    rig.describe(Request::plug(START, 1), REQUEST, AVAILABLE);
    rig.make_available(0);
    rig.make_available(0);
    assert_eq!((rig.wake(), rig.index(USED)), (1, 2));
    assert_eq!(rig.index(AVAILABLE), 0);
}

#[test]
fn rings_may_lie_across_regions_that_touch() {
    let mut rig = Rig::placed();
    rig.describe(Request::plug(START, 1), REQUEST, RESPONSE);
    let (available, used) = (BORDER - 4, BORDER - 512);
    rig.set_up(available, used);
    rig.write(available + INDEX, &[1, 0]);
    assert_eq!((rig.wake(), rig.plugged()), (1, BLOCK));
    assert_eq!(rig.index(used), 1);
}

#[test]
fn a_discard_is_fallocate_where_there_is_a_file_and_then_madvise() {
    let mut rig = Rig::new(256, 16, false);
    rig.device.host_fd = Some(5);
    rig.place(START, 1).expect("placed");
    rig.activate().expect("activated");
    let (offset, size) = (BLOCK as i64, 2 * BLOCK as i64);
    let hole = Call::Fallocate(5, 3, offset, size);
    let remove = Call::Madvise(HOST + BLOCK, 2 * BLOCK as usize, libc::MADV_REMOVE);
    assert_eq!(rig.request(Request::plug(START + BLOCK, 2)), 0);
    assert_eq!(libc::take(), []);
    for (failing, made) in [(hole, vec![hole]), (remove, vec![hole, remove])] {
        libc::fail(Some(failing));
        assert_eq!(rig.request(Request::unplug(START + BLOCK, 2)), 3);
        assert_eq!((libc::take(), rig.plugged()), (made, 2 * BLOCK));
    }
    libc::fail(None);
    assert_eq!(rig.request(Request::unplug(START + BLOCK, 2)), 0);
    assert_eq!((libc::take(), rig.plugged()), (vec![hole, remove], 0));
}

#[test]
fn an_unplug_all_that_the_host_refuses_takes_off_what_it_has_cleared() {
    let mut rig = Rig::placed();
    assert_eq!(rig.request(Request::plug(START, 2)), 0);
    let block = |nth| Call::Madvise(HOST + nth * BLOCK, BLOCK as usize, libc::MADV_REMOVE);
    libc::fail(Some(block(1)));
    assert_eq!(rig.request(Request::unplug_all()), 3);
    assert_eq!(
        (libc::take(), rig.plugged()),
        (vec![block(0), block(1)], BLOCK)
    );
    assert_eq!(rig.request(Request::plug(START + 2 * BLOCK, 3)), 0);
    libc::fail(None);
}

#[test]
fn the_log_says_which_error_it_was() {
    let rig = Rig::placed();
    log::take();
    for (request, told, said) in [
        (Request::plug(START, 1), 0, None),
        (
            Request::plug(START + 1, 1),
            3,
            Some("the address is no multiple of 4 MiB (1)"),
        ),
        (
            Request::plug(START, 1),
            3,
            Some("a block is plugged already or, for an unplug, is not plugged (7)"),
        ),
        (Request::plug(START + 1, 65), 1, None), // NACK
        (
            Request::state(START - BLOCK, 1),
            3,
            Some("the range begins below the start of the region (4)"),
        ),
    ] {
        assert_eq!(rig.request(request), told);
        let logged = log::take();
        let logged = logged.split_once("ERROR: ").map(|(_, why)| why);
        assert_eq!(logged, said, "{request:?}");
    }
    libc::fail(Some(Call::Madvise(HOST, BLOCK as usize, libc::MADV_REMOVE)));
    assert_eq!(rig.request(Request::unplug_all()), 3);
    assert!(log::take().ends_with("the host could not discard the memory (11)"));
    libc::fail(None);
    libc::take();
}

#[test]
fn what_a_handler_shows_is_the_devices() {
    let mut rig = Rig::new(4096, 4096, true);
    rig.place(START, 3).expect("placed");
    rig.activate().expect("activated");
    let shown = |rig: &Rig| {
        rig.epoll.with_last(|subscriber| {
            let handler: *const _ = subscriber.as_ref();
            // SAFETY: `activate` is the only one that adds a subscriber, and this is its type.
            let handler =
                unsafe { &*handler.cast::<MemEpollHandler<Space, QueueSync, GuestRegionMmap>>() };
            let plugged = handler.mem_state.iter().filter(|&&block| block).count();
            let rows = handler.map_regions.lock().unwrap();
            (handler.mem_state.len(), plugged, handler.mem_state[3], rows)
        })
    };
    let second = 2 * GIB;
    let rows = vec![
        (3, Some((HOST, START))),
        (4, Some((HOST + second, START + second))),
    ];
    assert_eq!(shown(&rig), (1024, 0, false, rows.clone()));
    assert_eq!(rig.request(Request::plug(START + 3 * BLOCK, 1)), 0);
    assert_eq!(shown(&rig), (1024, 1, true, rows));
}

#[test]
fn a_config_write_does_nothing() {
    let mut rig = Rig::placed();
    rig.device().write_config(48, &[0xff; 8]);
    assert_eq!(rig.requested(), 16 * MIB);
}
