// SPDX-License-Identifier: Apache-2.0 AND BSD-3-Clause
//! The host: the device's thread, the device's memory, changes of its size, and what a guest reaches of all that.

use std::io;
use std::sync::atomic::{AtomicBool, AtomicU8, Ordering};
use std::sync::{Condvar, Mutex, MutexGuard};

use jambcopper::driver::CONFIG_BYTES;
use jambcopper::guest::Regions;
use jambcopper::{Answer, Device, Error, HostAnswer, HostCall, Queue};

use crate::audit::{Audited, Tally};
use crate::kernel::{Event, Memory};

/// Where the device's region begins.
pub const START: u64 = 0x1_0000_0000;

/// The guest addresses of the guest's own memory, in two regions of this size with a hole between them. The size is a
/// multiple of the page of any processor.
pub const RAM: [u64; 2] = [0x4000_0000, 0x4010_0000];
pub const RAM_SIZE: usize = 65_536;

const PAGE: usize = 4096;

/// Whether the host does what it is asked.
pub type Willing = Box<dyn FnMut(HostCall) -> bool + Send>;

/// A host with one device, for a guest with its own threads.
pub struct Host {
    ram: [Memory; 2],
    regions: Regions,
    /// The guest tells the device that there are requests.
    pub kick: Event,
    /// The device tells the guest that requests have ended.
    pub notify: Event,
    /// The host tells the guest that its config has changed, or that the queue has stalled.
    pub config_changed: Event,
    stalled: AtomicBool,
    ending: AtomicBool,
    kept: Mutex<Kept>,
    /// Told where a host call is no longer pending.
    idle: Condvar,
    /// The device's memory, and its guest address.
    mapped: Mutex<Vec<(u64, Memory)>>,
    willing: Mutex<Willing>,
}

/// The device and its queue, which go together. A host of yours has a [`Device`] here, whose methods these are.
struct Kept {
    device: Audited,
    /// Where it lies, once the guest has set it up.
    queue: Queue,
    ready: bool,
}

impl Host {
    /// A host that has placed its device.
    pub fn new(capacity_mib: u64, requested_mib: u64, several: bool) -> io::Result<Host> {
        let device = Device::new(capacity_mib, requested_mib, several, None, 1 << 30);
        let device = Audited::new(device.map_err(io::Error::other)?);
        let (queue, ready) = (Queue::new(0, 0, 0), false);
        let ram = [Memory::new(RAM_SIZE)?, Memory::new(RAM_SIZE)?];
        let host = Host {
            regions: regions(&ram)?,
            ram,
            kick: Event::new()?,
            notify: Event::new()?,
            config_changed: Event::new()?,
            stalled: AtomicBool::new(false),
            ending: AtomicBool::new(false),
            kept: Mutex::new(Kept {
                device,
                queue,
                ready,
            }),
            idle: Condvar::new(),
            mapped: Mutex::default(),
            willing: Mutex::new(Box::new(|_| true)),
        };
        host.place().map_err(io::Error::other)?;
        Ok(host)
    }

    fn place(&self) -> Result<(), Error> {
        let kept = &mut *self.lock();
        let (size, rows) = (kept.device.region_size(), kept.device.map_regions());
        let slots: Vec<u32> = (1..).take(rows).collect();
        let placed = kept.device.place(START, size, &slots);
        self.create_all(kept, placed)
    }

    /// The device's thread: it serves the queue when the guest kicks, until the host ends.
    pub fn run(&self) -> io::Result<()> {
        loop {
            self.kick.wait()?;
            if self.ending.load(Ordering::Acquire) {
                return Ok(());
            }
            self.serve_all()?;
        }
    }

    /// Ends the device's thread.
    pub fn end(&self) -> io::Result<()> {
        self.ending.store(true, Ordering::Release);
        self.kick.signal()
    }

    /// Serves the queue until it is empty. A ring that cannot be served stalls the queue, until the guest sets it up anew.
    fn serve_all(&self) -> io::Result<()> {
        loop {
            let served = {
                let kept = &mut *self.lock();
                if !kept.ready {
                    return Ok(());
                }
                kept.device.serve_guest(&mut kept.queue, &self.regions)
            };
            match served {
                Ok(None) => return Ok(()),
                Ok(Some(answer)) => self.answer_all(answer).map_err(io::Error::other)?,
                Err(Error::RingOutside | Error::BadIndex) => {
                    self.stalled.store(true, Ordering::Release);
                    return self.config_changed.signal();
                }
                // A size change has its creation answered before it gives the lock back.
                Err(refused) => return Err(io::Error::other(refused)),
            }
            self.notify.signal()?;
        }
    }

    /// Answers what a request asks, until it has ended. Between a question and its answer the lock is free: the guest
    /// reads its config meanwhile, and size changes are refused.
    fn answer_all(&self, mut answer: Answer) -> Result<(), Error> {
        while let Answer::Wants(call) = answer {
            let told = self.answer(call);
            let kept = &mut *self.lock();
            let next = kept
                .device
                .serve_guest_answer(&mut kept.queue, &self.regions, told);
            answer = next?;
            self.idle.notify_all();
        }
        Ok(())
    }

    /// Answers the creation that a placing or a size change asks for, if it does.
    fn create_all(&self, kept: &mut Kept, answer: Result<Answer, Error>) -> Result<(), Error> {
        let mut answer = answer?;
        while let Answer::Wants(call) = answer {
            let told = self.answer(call);
            answer = kept
                .device
                .serve_guest_answer(&mut kept.queue, &self.regions, told)?;
        }
        Ok(())
    }

    /// Does what the device asks, if the host is willing and the kernel can.
    fn answer(&self, call: HostCall) -> HostAnswer {
        if !self.willing.lock().unwrap()(call) {
            return HostAnswer::Failed;
        }
        let done = match call {
            HostCall::Create { guest, size, .. } => self.create(guest, size),
            HostCall::Discard { size, host, .. } => self.discard(host, size),
        };
        done.unwrap_or_else(|error| {
            eprintln!("host: {call:?}: {error}");
            HostAnswer::Failed
        })
    }

    fn create(&self, guest: u64, size: u64) -> io::Result<HostAnswer> {
        let memory = Memory::new(size as usize)?;
        let at = memory.at() as u64;
        self.mapped.lock().unwrap().push((guest, memory));
        Ok(HostAnswer::Created(at))
    }

    fn discard(&self, host: u64, size: u64) -> io::Result<HostAnswer> {
        let mapped = self.mapped.lock().unwrap();
        let held = mapped.iter().find_map(|(_, memory)| {
            let offset = host.checked_sub(memory.at() as u64)?;
            (offset < memory.size() as u64).then_some((memory, offset))
        });
        let (memory, offset) = held.ok_or_else(|| io::Error::other("no such memory"))?;
        memory.give_back(offset, size)?;
        Ok(HostAnswer::Discarded)
    }

    /// Says whether the host does from now on what it is asked.
    pub fn set_willing(&self, willing: impl FnMut(HostCall) -> bool + Send + 'static) {
        *self.willing.lock().unwrap() = Box::new(willing);
    }

    /// Changes the requested size, in MiB, and tells the guest: at once, so that it is refused while a host call is
    /// pending.
    pub fn resize_now(&self, mib: u64) -> Result<(), Error> {
        self.resize_kept(self.lock(), mib)
    }

    /// Changes the requested size as soon as no host call is pending.
    pub fn resize(&self, mib: u64) -> Result<(), Error> {
        self.resize_kept(self.lock_idle(), mib)
    }

    fn resize_kept(&self, mut kept: MutexGuard<Kept>, mib: u64) -> Result<(), Error> {
        let sized = kept.device.set_requested_size(mib);
        let resized = self.create_all(&mut kept, sized);
        if matches!(resized, Ok(()) | Err(Error::CreationFailed)) {
            self.config_changed.signal().expect("an event");
        }
        resized
    }

    fn lock(&self) -> MutexGuard<'_, Kept> {
        self.kept.lock().unwrap()
    }

    /// The lock at a time when no host call is pending.
    fn lock_idle(&self) -> MutexGuard<'_, Kept> {
        let pending = |kept: &mut Kept| kept.device.is_pending();
        self.idle.wait_while(self.lock(), pending).unwrap()
    }

    /// How many bytes the kernel holds of the device's memory.
    pub fn held(&self) -> io::Result<u64> {
        let mapped = self.mapped.lock().unwrap();
        mapped.iter().map(|(_, memory)| memory.held()).sum()
    }

    /// How many bytes of the device's memory are mapped.
    pub fn mapped(&self) -> u64 {
        let mapped = self.mapped.lock().unwrap();
        mapped.iter().map(|(_, memory)| memory.size() as u64).sum()
    }

    /// What the account of the device's calls says.
    pub fn with_tally<T>(&self, of: impl FnOnce(&Tally) -> T) -> T {
        of(self.lock().device.tally())
    }

    // What the guest reaches.

    /// The guest's own memory.
    pub fn memory(&self) -> &Regions {
        &self.regions
    }

    /// The bytes of a region of the guest's own memory.
    pub fn ram(&self, region: usize) -> &[AtomicU8] {
        self.ram[region].bytes()
    }

    /// The guest reads its config.
    pub fn read_config(&self) -> [u8; CONFIG_BYTES] {
        let mut config = [0; CONFIG_BYTES];
        self.lock().device.read_config(0, &mut config);
        config
    }

    /// The guest takes its queue back: it is not served any more.
    pub fn stop_queue(&self) {
        self.lock_idle().ready = false;
    }

    /// The guest has set up its queue, at first or anew: where the descriptor table, the available and the used ring are.
    pub fn start_queue(&self, [descriptors, available, used]: [u64; 3]) {
        let mut kept = self.lock_idle();
        kept.queue = Queue::new(descriptors, available, used);
        kept.ready = true;
        self.stalled.store(false, Ordering::Release);
    }

    /// Whether the guest must set up its queue anew.
    pub fn is_stalled(&self) -> bool {
        self.stalled.load(Ordering::Acquire)
    }

    /// The guest writes to each page of some of the device's memory.
    pub fn touch(&self, addr: u64, size: u64) {
        for page in (addr..addr + size).step_by(PAGE) {
            let mapped = self.mapped.lock().unwrap();
            let byte = mapped.iter().find_map(|(guest, memory)| {
                let offset = page.checked_sub(*guest)?;
                memory.bytes().get(offset as usize)
            });
            let byte = byte.expect("what is plugged is mapped");
            byte.store(0x5a, Ordering::Relaxed);
        }
    }
}

fn regions(ram: &[Memory; 2]) -> io::Result<Regions> {
    let mut regions = Regions::new();
    for (guest, memory) in RAM.into_iter().zip(ram) {
        // SAFETY: the host keeps the memory beside the regions, and its bytes are reached as atomics alone.
        unsafe { regions.add(guest, memory.at(), memory.size()) }.map_err(io::Error::other)?;
    }
    Ok(regions)
}
