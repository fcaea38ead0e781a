// SPDX-License-Identifier: Apache-2.0 AND BSD-3-Clause
//! A guest that runs: what a call reads and writes and in which order, what it makes of bytes that change meanwhile, and memory in
//! several regions.

use std::cell::{Cell, RefCell};
use std::collections::{BTreeMap, BTreeSet};
use std::ops::RangeInclusive;

use jambcopper::driver::Request;
use jambcopper::guest::{BadRegion, GuestMemory, Regions};
use jambcopper::{Answer, Device, Error, HostAnswer, Queue, Why, BLOCK_SIZE};

mod common;
#[allow(dead_code)] // what the direct calls' tests need more
#[path = "common/rings.rs"]
mod rings;

use common::{again, discard, in_vain, served, BASE, START};
use rings::{Machine, AVAILABLE, EXCHANGE, EXCHANGES, MEMORY, USED};

/// What was read or written: where, counted from the memory's beginning, and the bytes.
#[derive(Clone, Debug, PartialEq, Eq)]
enum Access {
    Read(usize, Vec<u8>),
    Write(usize, Vec<u8>),
}

/// Guest memory that notes what is read and written, and that a guest may turn into another behind each read.
struct Noted<'a> {
    bytes: RefCell<Vec<u8>>,
    log: RefCell<Vec<Access>>,
    turn: &'a dyn Fn(&mut Vec<u8>),
}

impl<'a> Noted<'a> {
    fn new(bytes: &[u8], turn: &'a dyn Fn(&mut Vec<u8>)) -> Noted<'a> {
        Noted {
            bytes: RefCell::new(bytes.to_vec()),
            log: RefCell::default(),
            turn,
        }
    }
}

impl GuestMemory for Noted<'_> {
    fn contains(&self, addr: u64, size: u64) -> bool {
        let room = (BASE + MEMORY as u64).saturating_sub(size);
        (BASE..=room).contains(&addr)
    }

    fn read(&self, addr: u64, into: &mut [u8]) -> bool {
        if !self.contains(addr, into.len() as u64) {
            return false;
        }
        let at = (addr - BASE) as usize;
        let mut bytes = self.bytes.borrow_mut();
        into.copy_from_slice(&bytes[at..at + into.len()]);
        self.log.borrow_mut().push(Access::Read(at, into.to_vec()));
        (self.turn)(&mut bytes);
        true
    }

    fn write(&self, addr: u64, bytes: &[u8]) -> bool {
        let at = (addr - BASE) as usize;
        self.bytes.borrow_mut()[at..at + bytes.len()].copy_from_slice(bytes);
        let write = Access::Write(at, bytes.to_vec());
        self.log.borrow_mut().push(write);
        self.contains(addr, bytes.len() as u64)
    }
}

/// A call with an answer of the host, or the next head's.
fn call<M: GuestMemory>(
    machine: &mut Machine,
    mem: &M,
    given: Option<HostAnswer>,
) -> Result<Option<Answer>, Error> {
    let Machine { device, queue, .. } = machine;
    match given {
        None => device.serve_guest(queue, mem),
        Some(given) => device.serve_guest_answer(queue, mem, given).map(Some),
    }
}

/// The direct call.
fn direct(machine: &mut Machine, given: Option<HostAnswer>) -> Result<Option<Answer>, Error> {
    match given {
        None => machine.serve(),
        Some(given) => machine.answer(given).map(Some),
    }
}

/// What a call for a running guest reads and writes, as where and how many bytes; it tells and leaves what the direct one does.
fn accesses(
    machine: &mut Machine,
    given: Option<HostAnswer>,
) -> (Vec<[usize; 2]>, Vec<[usize; 2]>) {
    let mut running = machine.clone();
    let mem = Noted::new(&machine.mem, &|_| ());
    let told = call(&mut running, &mem, given);
    assert_eq!(told, direct(machine, given));
    running.mem = mem.bytes.into_inner();
    assert_eq!(running, *machine);
    let (mut reads, mut writes) = (Vec::new(), Vec::new());
    for access in mem.log.into_inner() {
        match access {
            Access::Read(at, bytes) => {
                assert!(writes.is_empty(), "a read behind a write");
                reads.push([at, bytes.len()]);
            }
            Access::Write(at, bytes) => writes.push([at, bytes.len()]),
        }
    }
    (reads, writes)
}

/// What is read of a good chain, and what is written when its request has ended: the nth entry of each ring, and the head.
fn reads(nth: usize, head: usize) -> Vec<[usize; 2]> {
    vec![
        [AVAILABLE + 2, 2],
        [AVAILABLE + 4 + 2 * nth, 2],
        [16 * head, 16],
        [EXCHANGES + EXCHANGE * head / 2, 24],
        [16 * head + 16, 16],
    ]
}

fn writes(nth: usize, head: usize) -> Vec<[usize; 2]> {
    vec![
        [EXCHANGES + EXCHANGE * head / 2 + 24, 10],
        [USED + 4 + 8 * nth, 8],
        [USED + 2, 2],
    ]
}

#[test]
fn each_byte_is_read_once_and_the_index_is_written_last() {
    let mut machine = Machine::new();
    assert_eq!(
        accesses(&mut machine, None),
        (vec![[AVAILABLE + 2, 2]], vec![])
    );
    machine.ask(0, Request::plug(START, 2));
    machine.ask(6, Request::unplug_all());
    assert_eq!(accesses(&mut machine, None), (reads(0, 0), writes(0, 0)));

    // A head that is out: nothing is written before its request has ended, and then nothing is read.
    assert_eq!(accesses(&mut machine, None), (reads(1, 6), vec![]));
    let discarded = Some(HostAnswer::Discarded);
    assert_eq!(accesses(&mut machine, discarded), (vec![], vec![]));
    assert_eq!(accesses(&mut machine, discarded), (vec![], writes(1, 6)));
    assert_eq!(machine.used(1), (6, 10));
}

#[test]
fn no_more_is_read_than_the_proved_function_looks_at() {
    let until = |count: usize| reads(0, 0)[..count].to_vec();
    let used = vec![[USED + 4, 8], [USED + 2, 2]];
    // The descriptors' lengths, flags and links, and how much is read.
    for (first, second, read) in [
        ((24, 5, 1), (10, 2, 0), 3),   // indirect
        ((24, 3, 1), (10, 2, 0), 3),   // write-only
        ((23, 1, 1), (10, 2, 0), 3),   // no request's length
        ((24, 0, 1), (10, 2, 0), 4),   // no second
        ((24, 1, 0), (10, 2, 0), 4),   // the second is the first
        ((24, 1, 128), (10, 2, 0), 4), // the second is none of the table
        ((24, 1, 1), (10, 0, 0), 5),   // not writable
        ((24, 1, 1), (9, 2, 0), 5),    // too short
    ] {
        let mut machine = Machine::new();
        machine.ask(0, Request::plug(START, 1));
        let at = EXCHANGES;
        machine.descriptor(0, at, first.0, first.1, first.2);
        if first.2 == 1 {
            machine.descriptor(1, at + 24, second.0, second.1, second.2);
        }
        let told = accesses(&mut machine, None);
        assert_eq!(told, (until(read), used.clone()), "{first:?} {second:?}");
    }

    // A request outside, a head that is none, an index too far ahead, and rings that are outside.
    let mut machine = Machine::new();
    machine.ask(0, Request::plug(START, 1));
    machine.descriptor(0, MEMORY - 23, 24, 1, 1);
    assert_eq!(accesses(&mut machine, None), (until(3), used.clone()));
    let mut machine = Machine::new();
    machine.offer(128);
    assert_eq!(accesses(&mut machine, None), (until(2), used));
    machine.put(AVAILABLE + 2, &130u16.to_le_bytes());
    assert_eq!(accesses(&mut machine, None), (until(1), vec![]));
    for word in [1, 2] {
        let mut machine = Machine::new().with(&[(word, BASE - 1)]);
        assert_eq!(accesses(&mut machine, None), (vec![], vec![]));
    }

    // A response outside: the request has taken effect.
    let mut machine = Machine::new();
    machine.ask(0, Request::plug(START, 1));
    machine.descriptor(1, MEMORY - 9, 10, 2, 0);
    let (read, written) = accesses(&mut machine, None);
    assert_eq!((read, written.len()), (reads(0, 0), 2));
    assert_eq!(
        (machine.used(0), machine.device.plugged_size()),
        ((0, 0), 4 << 20)
    );
}

#[test]
fn what_is_pending_has_the_guests_address() {
    let mut machine = Machine::new();
    machine.ask(0, Request::plug(START, 2));
    machine.ask(2, Request::unplug_all());
    machine.serve().unwrap();
    let mut direct = machine.clone();
    assert_eq!(direct.serve(), Ok(Some(discard(0))));
    let mem = Noted::new(&machine.mem, &|_| ());
    assert_eq!(call(&mut machine, &mem, None), Ok(Some(discard(0))));
    // A host that restarts may go on either way.
    machine.device = again(&machine.device);
    assert_eq!(machine, direct);
    let discarded = HostAnswer::Discarded;
    assert_eq!(
        call(&mut machine, &mem, Some(discarded)),
        Ok(Some(discard(1)))
    );
    assert_eq!(direct.answer(discarded), Ok(discard(1)));
    assert_eq!(machine, direct);
    assert_eq!(machine.answer(discarded), Ok(served(0, 0)));
    assert_eq!(
        call(&mut direct, &mem, Some(discarded)),
        Ok(Some(served(0, 0)))
    );
    direct.mem = mem.bytes.into_inner();
    assert_eq!(machine, direct);
}

/// Memory with a request from a head on, which stands in every entry of the available ring.
fn image(head: u16, request: Request, index: u16) -> Vec<u8> {
    let mut machine = Machine::new();
    machine.lay(head, request);
    let entries: Vec<u8> = (0..128).flat_map(|_| head.to_le_bytes()).collect();
    machine.put(AVAILABLE + 4, &entries);
    machine.put(AVAILABLE + 2, &index.to_le_bytes());
    machine.mem
}

#[test]
fn a_result_is_that_of_the_bytes_that_were_read() {
    let images = [
        image(0, Request::plug(START + BLOCK_SIZE, 1), 1),
        image(0, Request::unplug_all(), 128),
        image(2, Request::state(START, 2), 500),
        vec![0xff; MEMORY],
        vec![0; MEMORY],
    ];
    let mut told_of = Vec::new();
    // Each of the five reads finds the image that a digit names.
    for case in 0..images.len().pow(5) {
        let mut machine = Machine::new();
        machine.ask(126, Request::plug(START, 1));
        machine.serve().unwrap();
        machine = machine.with(&[(3, 0), (4, 0)]);

        let left = Cell::new(case);
        let turn = |bytes: &mut Vec<u8>| {
            bytes.copy_from_slice(&images[left.get() % images.len()]);
            left.set(left.get() / images.len());
        };
        let mut first = vec![0; MEMORY];
        turn(&mut first);
        let mem = Noted::new(&first, &turn);
        let mut running = machine.clone();
        let told = call(&mut running, &mem, None);

        // The proved function on a quiet memory that has those bytes where they were read.
        machine.mem = vec![0; MEMORY];
        for access in mem.log.borrow().iter() {
            if let Access::Read(at, bytes) = access {
                machine.put(*at, bytes);
            }
        }
        let mut written = machine.mem.clone();
        assert_eq!(told, machine.serve(), "case {case}");
        for access in mem.log.borrow().iter() {
            if let Access::Write(at, bytes) = access {
                written[*at..*at + bytes.len()].copy_from_slice(bytes);
            }
        }
        running.mem = written;
        assert_eq!(running, machine, "case {case}");
        if !told_of.contains(&told) {
            told_of.push(told);
        }
    }
    // Empty, refused, no request, a plug, one of no blocks, an unplug-all and a state were among them.
    for told in [
        Ok(None),
        Err(Error::BadIndex),
        Ok(Some(Answer::Unserved { reason: 21 })),
        Ok(Some(served(0, 0))),
        Ok(Some(in_vain(Why::ZeroBlocks))),
        Ok(Some(discard(0))),
        Ok(Some(served(0, 2))),
    ] {
        assert!(told_of.contains(&told), "{told:?}");
    }
}

/// A ring whose index cannot be read, although it is said to be inside.
struct NoIndex;

impl GuestMemory for NoIndex {
    fn contains(&self, _: u64, _: u64) -> bool {
        true
    }

    fn read(&self, _: u64, _: &mut [u8]) -> bool {
        false
    }

    fn write(&self, _: u64, _: &[u8]) -> bool {
        unreachable!("nothing is written")
    }
}

#[test]
fn a_ring_that_cannot_be_read_is_not_inside() {
    let mut machine = Machine::new();
    let before = machine.clone();
    assert_eq!(call(&mut machine, &NoIndex, None), Err(Error::RingOutside));
    assert_eq!(machine, before);
}

/// Regions of host memory: each a guest address and its bytes.
fn regions(parts: &mut [(u64, Vec<u8>)]) -> Regions {
    let mut mem = Regions::new();
    for (guest, bytes) in parts {
        // SAFETY: the bytes stay where they are as long as the test uses the regions, and are read again behind that alone.
        unsafe { mem.add(*guest, bytes.as_mut_ptr(), bytes.len()) }.unwrap();
    }
    mem
}

/// Each range is read and written where all of its bytes are in the regions, and there alone.
fn ranges_are_right(mut parts: Vec<(u64, Vec<u8>)>) {
    let mem = regions(&mut parts);
    let mut bytes: BTreeMap<u64, u8> = BTreeMap::new();
    for (guest, part) in &parts {
        bytes.extend((0..).zip(part).map(|(n, &byte)| (guest + n, byte)));
    }
    let edges: BTreeSet<u64> = bytes.keys().copied().flat_map(around).collect();
    for (start, size) in edges
        .into_iter()
        .flat_map(|start| (1..20).map(move |size| (start, size)))
    {
        let addrs = (0..size).map(|n| start.checked_add(n));
        let there: Option<Vec<u64>> = addrs
            .map(|addr| addr.filter(|addr| bytes.contains_key(addr)))
            .collect();
        let (mut read, written) = (vec![0x55; size as usize], any(start, size));
        assert_eq!(
            mem.contains(start, size),
            there.is_some(),
            "{size} at {start}"
        );
        assert_eq!(
            mem.read(start, &mut read),
            there.is_some(),
            "{size} at {start}"
        );
        assert_eq!(
            mem.write(start, &written),
            there.is_some(),
            "{size} at {start}"
        );
        for (n, addr) in there.unwrap_or_default().into_iter().enumerate() {
            assert_eq!(
                bytes.insert(addr, written[n]),
                Some(read[n]),
                "{size} at {start}"
            );
        }
    }
    parts.sort();
    let left = parts.into_iter().flat_map(|(_, part)| part);
    assert!(left.eq(bytes.into_values()));
}

fn around(addr: u64) -> RangeInclusive<u64> {
    addr.saturating_sub(3)..=addr.saturating_add(3)
}

/// Bytes that are others for each range.
fn any(start: u64, size: u64) -> Vec<u8> {
    (0..size)
        .map(|n| start.wrapping_mul(31).wrapping_add(7 * n + size) as u8)
        .collect()
}

#[test]
fn a_range_may_go_through_regions_that_touch_and_not_over_a_hole() {
    let top = (u64::MAX - 9, vec![0xff; 10]);
    ranges_are_right(vec![
        (1024, vec![1; 8]),
        (2000, vec![2; 3]),
        (1000, vec![3; 24]),
        top.clone(),
    ]);
    // Many, each with the next, and not in order.
    let many = (0..12).map(|nth| (1000 + 7 * (nth * 5 % 12), vec![nth as u8; 7]));
    ranges_are_right(many.chain([top]).collect());
    ranges_are_right(vec![(0, vec![1; 40])]);
    ranges_are_right(vec![]);
}

#[test]
fn a_table_does_not_go_on_at_0() {
    // Descriptor 1 would lie at 2^64, and there is guest memory at 0.
    let mut machine = Machine::new().with(&[(0, 0u64.wrapping_sub(16))]);
    machine.lay(0, Request::state(START, 1));
    machine.offer(1);
    let mut parts = [
        (0, machine.mem[..2048].to_vec()),
        (BASE, machine.mem.clone()),
    ];
    let told = call(&mut machine, &regions(&mut parts), None);
    assert_eq!(told, Ok(Some(Answer::Unserved { reason: 21 })));
}

#[test]
fn regions_do_not_lie_on_one_another() {
    let mut parts = [(1000, vec![0; 10]), (1020, vec![0; 10])];
    let mut mem = regions(&mut parts);
    let mut more = [0u8; 64];
    for (guest, size, added) in [
        (1000, 1, false),
        (995, 6, false),
        (1009, 1, false),
        (990, 64, false),
        (1015, 6, false),
        (1010, 0, false),
        (u64::MAX, 2, false),
        (995, 5, true),
        (1010, 10, true),
        (u64::MAX, 1, true),
        (u64::MAX, 1, false),
    ] {
        // SAFETY: as above.
        let told = unsafe { mem.add(guest, more.as_mut_ptr(), size) };
        let expected = if added { Ok(()) } else { Err(BadRegion) };
        assert_eq!(told, expected, "{guest} {size}");
    }
    assert!(mem.contains(995, 35) && !mem.contains(994, 2) && !mem.contains(1029, 2));
    assert!(mem.contains(u64::MAX, 1) && !mem.contains(u64::MAX, 2));
}

/// Whether a type is `Sync`: where it is, both implementations are there, and the call below is ambiguous and does not compile.
trait Ambiguous<A> {
    fn not_sync() {}
}
struct IsSync;
impl<T> Ambiguous<()> for T {}
impl<T: Sync> Ambiguous<IsSync> for T {}

fn is_send<T: Send>() {}

fn is_sync<T: Sync>() {}

#[test]
fn a_device_and_its_queue_go_from_thread_to_thread_and_are_not_shared() {
    is_send::<Device>();
    is_send::<Queue>();
    <Device as Ambiguous<_>>::not_sync();
    <Queue as Ambiguous<_>>::not_sync();
    // Behind a lock they are, and so is guest memory.
    is_sync::<std::sync::Mutex<(Device, Queue)>>();
    is_send::<Regions>();
    is_sync::<Regions>();
}
