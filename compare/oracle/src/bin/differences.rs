// SPDX-License-Identifier: Apache-2.0 AND BSD-3-Clause
//! Runs each known difference between mem.rs and the proved device on its smallest input, and each
//! point that docs/RULES.md marks as one although mem.rs in a release build answers the same.
//!
//! Each asserts what the Rust does; a line says so in words. What rests on a stand-in and
//! not on the crate itself is marked: it shows how mem.rs behaves over such a crate, no more.

use std::cell::RefCell;
use std::panic::{catch_unwind, AssertUnwindSafe};
use std::rc::Rc;

use oracle::guest::{request, Descriptor, Guest, INDIRECT, NEXT, WRITE};
use oracle::host::{answering, Answer, Question};
use oracle::rust::{Rust, BLOCK, ERROR, MAP_REGION, PLUG, STATE, UNPLUG, UNPLUG_ALL};

const GIB: u64 = 1 << 30;
const MIB: u64 = 1 << 20;
const BOOT: u64 = GIB;
const HOST: u64 = 140_737_488_355_328;

/// 2^44 MiB is 2^64 bytes.
const WRAP_MIB: u64 = 1 << 44;

/// Who answers for guest memory here.
const VM_MEMORY: &str = if cfg!(feature = "real-vm-memory") {
    "vm-memory 0.10.0"
} else {
    "a stand-in of vm-memory 0.10.0"
};

const VIRTIO_QUEUE: &str = "a stand-in of virtio-queue 0.7";

type Asked = Rc<RefCell<Vec<Question>>>;

/// Runs a call whose every question gets `answer`; gives the questions too.
fn with_host<T>(answer: Answer, call: impl FnOnce() -> T) -> (T, Vec<Question>) {
    let asked: Asked = Rc::default();
    let seen = asked.clone();
    let answerer = move |question| {
        seen.borrow_mut().push(question);
        answer
    };
    let out = answering(answerer, call);
    let asked = asked.borrow().clone();
    (out, asked)
}

/// A placed single region of 256 MiB at 4 GiB, 16 MiB requested, with this guest.
fn placed(guest: Guest) -> Rust {
    let mut device = Rust::make(256, 16, false, None, BOOT).unwrap();
    with_host(Some(HOST), || device.place_at(4 * GIB, 1).unwrap());
    assert!(device.activate(guest));
    device
}

fn small_guest() -> Guest {
    Guest::new(4096, 4096, 4096).unwrap()
}

/// Two descriptors for a plug of the first block: 24 bytes at 6144, the response at `status`.
fn describe_plug(guest: &Guest, status: u64, status_length: u32) {
    let first = Descriptor {
        addr: 6144,
        len: 24,
        flags: NEXT,
        next: 1,
    };
    let second = Descriptor {
        addr: status,
        len: status_length,
        flags: WRITE,
        next: 0,
    };
    guest.describe(0, first);
    guest.describe(1, second);
    guest.write(6144, &request(PLUG, 4 * GIB, 1));
}

fn capacity_wraps() -> String {
    let mut device = Rust::make(WRAP_MIB + 1, 0, false, None, BOOT).unwrap();
    assert_eq!(device.config().region, 256 * MIB);
    "capacity_mib=17592186044417 makes a region of 256 MiB (here: 2)".into()
}

fn capacity_above_a_tib() -> String {
    let mut device = Rust::make(1_048_577, 0, false, None, BOOT).unwrap();
    assert_eq!(device.config().region, 1_048_832 * MIB);
    "capacity_mib=1048577 makes a region of 1,048,832 MiB (here: 2)".into()
}

fn capacity_rounds_to_nothing() -> String {
    assert_eq!(
        Rust::make(WRAP_MIB - 1, 0, false, None, BOOT).err(),
        Some(1)
    );
    "capacity_mib=17592186044415 rounds past 2^64 to 0, hence InvalidInput (here: 2)".into()
}

fn requested_wraps() -> String {
    let mut device = Rust::make(256, WRAP_MIB, false, None, BOOT).unwrap();
    assert_eq!(device.config().requested, 0);
    "requested_mib=17592186044416 of 256 is taken as 0 (here: 1)".into()
}

fn size_wraps() -> String {
    let mut device = placed(small_guest());
    assert_eq!(device.set_requested_size(WRAP_MIB + 4), Ok(()));
    assert_eq!(device.config().requested, 4 * MIB);
    "op=size mib=17592186044420 sets 4 MiB (here: 1)".into()
}

fn start_misaligned() -> String {
    let mut device = Rust::make(256, 16, false, None, BOOT).unwrap();
    let (done, _) = with_host(Some(HOST), || device.place_at(4 * GIB + 1, 1));
    assert_eq!(done, Ok(()));
    assert!(device.activate(small_guest()));
    let served = device.request(PLUG, 4 * GIB + BLOCK, 1);
    assert_eq!((served.resp, device.blocks()[0]), (0, true));
    "start 4 GiB + 1 is taken; a plug at 4 GiB + 4 MiB then plugs block 0 (here: 4)".into()
}

fn start_past_the_end() -> String {
    let mut device = Rust::make(256, 16, false, None, BOOT).unwrap();
    let start = 0u64.wrapping_sub(128 * MIB);
    let (done, _) = with_host(Some(HOST), || device.place_at(start, 1));
    assert_eq!(done, Ok(()));
    assert!(device.activate(small_guest()));
    assert_eq!(device.request(PLUG, start, 1).resp, 3);
    assert_eq!(state(&mut device, 0, 1), (ERROR, 1));
    "start 2^64 - 128 MiB with a region of 256 MiB is taken; a plug at the start is ERROR, and a \
     state at address 0 is that of block 32 (here: 4)"
        .into()
}

fn rows_past_the_end() -> String {
    let mut device = Rust::make(2304, 16, true, None, BOOT).unwrap();
    let start = 0u64.wrapping_sub(2432 * MIB);
    let (done, _) = with_host(Some(HOST), || device.place_at(start, 1));
    assert_eq!(done, Ok(()));
    assert!(device.activate(small_guest()));
    assert_eq!(device.request(PLUG, start, 1).resp, 0);
    "several regions, 2,304 MiB at 2^64 - 2,432 MiB: taken and in use (here: 4, two rows of 2 GiB)"
        .into()
}

fn size_before_placing_single() -> String {
    let mut device = Rust::make(256, 0, false, None, BOOT).unwrap();
    assert_eq!(device.set_requested_size(16), Ok(()));
    assert_eq!(device.config().usable, 256 * MIB);
    assert!(!device.activate(small_guest()));
    "single region: size 16 before placing is done, usable 256 MiB, no row (here: 5)".into()
}

fn size_before_placing_several() -> String {
    let mut device = Rust::make(2304, 0, true, None, BOOT).unwrap();
    assert_eq!(device.set_requested_size(4), Ok(()));
    let (done, asked) = with_host(Some(HOST), || device.place_at(4 * GIB, 1));
    assert_eq!((done, asked.len()), (Ok(()), 0));
    assert_eq!(device.config().usable, 260 * MIB);
    assert!(device.activate(small_guest()));
    assert_eq!(device.rows(), [(1, None), (2, None)]);
    assert_eq!(device.request(PLUG, 4 * GIB, 1).resp, 3);
    "several regions, 2,304 MiB, requested 0: size 4, then placing: no creation is asked, usable \
     is 260 MiB, both rows stay unmapped, a plug of the first block is ERROR (here: 5)"
        .into()
}

fn request_before_placing() -> String {
    let mut device = Rust::make(256, 16, false, None, BOOT).unwrap();
    assert!(!device.activate(small_guest()));
    "an unplaced device is not activated, so no request reaches it (here: 5)".into()
}

fn placed_twice() -> String {
    let mut device = Rust::make(256, 16, false, None, BOOT).unwrap();
    with_host(Some(HOST), || device.place_at(4 * GIB, 1).unwrap());
    let (done, asked) = with_host(Some(HOST), || device.place_at(8 * GIB, 2));
    assert_eq!((done, asked.len()), (Ok(()), 0));
    assert_eq!(device.config().start, 8 * GIB);
    assert!(device.activate(small_guest()));
    assert_eq!(device.rows(), [(1, Some(HOST))]);
    "placed at 4 GiB and again at 8 GiB: start is 8 GiB, nothing is created there, the row is the \
     first one's (here: 6)"
        .into()
}

fn placed_again_after_failure_several() -> String {
    let mut device = Rust::make(2304, 16, true, None, BOOT).unwrap();
    let (done, _) = with_host(None, || device.place_at(4 * GIB, 1));
    assert_eq!(done, Err(10));
    let (done, asked) = with_host(Some(HOST), || device.place_at(8 * GIB, 10));
    assert_eq!(done, Ok(()));
    let create = Question::Create {
        guest: 8 * GIB,
        size: MAP_REGION,
        slot: 1,
    };
    assert_eq!(asked, [create]);
    assert!(device.activate(small_guest()));
    assert_eq!(device.rows(), [(1, Some(HOST)), (2, None)]);
    "several regions: placing with slots from 1 fails, placing again with slots from 10 asks for \
     slot 1 (here: rows are written anew)"
        .into()
}

fn failed_single_placing() -> String {
    let mut device = Rust::make(256, 16, false, None, BOOT).unwrap();
    let (done, _) = with_host(None, || device.place_at(4 * GIB, 1));
    assert_eq!(done, Err(10));
    assert_eq!(device.config().start, 4 * GIB);
    assert!(!device.activate(small_guest()));
    "single region: after a failed creation the start stands, there is no row, and activation is \
     refused (here: the row stays as placing wrote it)"
        .into()
}

fn activated_after_failed_placing() -> String {
    let mut device = Rust::make(2304, 16, true, None, BOOT).unwrap();
    let (done, _) = with_host(None, || device.place_at(4 * GIB, 1));
    assert_eq!(done, Err(10));
    assert!(device.activate(small_guest()));
    assert_eq!(device.request(PLUG, 4 * GIB, 1).resp, 3);
    "several regions: after a failed creation the device is activated, and a plug is ERROR (the \
     drop-in: not activated)"
        .into()
}

fn activated_again() -> String {
    let mut device = placed(small_guest());
    assert_eq!(device.request(PLUG, 4 * GIB, 2).resp, 0);
    assert!(device.activate(small_guest()));
    assert_eq!(device.config().plugged, 2 * BLOCK);
    assert_eq!(device.plugged_by_blocks(), 0);
    assert_eq!(device.request(PLUG, 4 * GIB, 2).resp, 0);
    assert_eq!(device.config().plugged, 4 * BLOCK);
    "plug of 2 blocks, then activated again: no block is plugged, plugged stays 8388608, and the same \
     plug is ACK with plugged 16777216 (the drop-in: both stay plugged, and that plug is ERROR)"
        .into()
}

fn host_address_wraps() -> String {
    let mut device = Rust::make(256, 16, false, None, BOOT).unwrap();
    let host = 0u64.wrapping_sub(4096);
    let (done, _) = with_host(Some(host), || device.place_at(4 * GIB, 1));
    assert_eq!(done, Ok(()));
    assert!(device.activate(small_guest()));
    assert_eq!(device.request(PLUG, 4 * GIB + BLOCK, 1).resp, 0);
    let (served, asked) = with_host(Some(0), || device.request(UNPLUG, 4 * GIB + BLOCK, 1));
    let discard = Question::Discard {
        host: BLOCK - 4096,
        size: BLOCK,
    };
    assert_eq!((served.resp, asked), (0, vec![discard]));
    "creation answered with 2^64 - 4096 is taken; an unplug of block 1 discards at 4190208 (here: 9)"
        .into()
}

fn refused_unplug_all() -> String {
    let mut device = placed(small_guest());
    assert_eq!(device.request(PLUG, 4 * GIB, 2).resp, 0);
    let mut answers = [Some(0), None].into_iter();
    let served = answering(
        move |_| answers.next().unwrap(),
        || device.request(UNPLUG_ALL, 0, 0),
    );
    assert_eq!(served.resp, ERROR);
    assert_eq!(device.config().plugged, 2 * BLOCK);
    assert_eq!(device.plugged_by_blocks(), BLOCK);
    assert_eq!(device.request(PLUG, 4 * GIB + 2 * BLOCK, 3).resp, 1);
    "plug of 2 blocks, unplug-all, the second discard fails: ERROR, plugged 8388608 with one block \
     plugged, and a plug of 3 blocks is NACK (request 5/12: plugged 4194304, and the plug is ACK)"
        .into()
}

/// The response's type and state for a state request.
fn state(device: &mut Rust, addr: u64, blocks: u16) -> (u16, u16) {
    let served = device.request(STATE, addr, blocks);
    (served.resp, served.state)
}

fn state_of_no_blocks() -> String {
    let mut device = placed(small_guest());
    assert_eq!(state(&mut device, 4 * GIB, 0), (ERROR, 0));
    "state of 0 blocks at the start: ERROR with state 0, plugged, although no block is (here: the same)"
        .into()
}

fn state_below_the_start() -> String {
    let mut device = placed(small_guest());
    assert_eq!(state(&mut device, 4 * GIB - BLOCK, 1), (ERROR, 0));
    "state of 1 block below the start: the subtraction wraps past every block, ERROR with state 0 \
     (here: the same, and nothing wraps)"
        .into()
}

fn state_behind_the_region() -> String {
    let mut device = placed(small_guest());
    assert_eq!(state(&mut device, 4 * GIB + 256 * MIB, 1), (ERROR, 0));
    "state of 1 block at the region's end: no block is there, ERROR with state 0 (here: the same)"
        .into()
}

fn head_of_128() -> String {
    let mut device = placed(small_guest());
    let panicked = catch_unwind(AssertUnwindSafe(|| device.serve(128)));
    assert!(panicked.is_err());
    format!("a head of 128 panics in add_used (here: 21) [{VIRTIO_QUEUE}]")
}

fn index_too_far_ahead() -> String {
    let guest = small_guest();
    describe_plug(&guest, 6176, 10);
    let mut device = placed(guest);
    let guest = device.guest();
    guest.write(guest.available + 2, &129u16.to_le_bytes());
    device.wake();
    assert_eq!(device.guest().used_index(), 129);
    format!("an available index 129 ahead: 129 heads are served (here: 15) [{VIRTIO_QUEUE}]")
}

fn used_ring_outside() -> String {
    let mut guest = small_guest();
    guest.used = 16;
    describe_plug(&guest, 6176, 10);
    let mut device = placed(guest);
    device.guest().make_available(0);
    let panicked = catch_unwind(AssertUnwindSafe(|| device.wake()));
    assert!(panicked.is_err());
    format!(
        "a used ring outside of guest memory: it panics in add_used (here: 14) [{VIRTIO_QUEUE}]"
    )
}

fn indirect_is_followed() -> String {
    let guest = small_guest();
    describe_plug(&guest, 6176, 10);
    let pair: Vec<u8> = guest.read(4096, 32);
    guest.write(7168, &pair);
    let table = Descriptor {
        addr: 7168,
        len: 32,
        flags: INDIRECT,
        next: 0,
    };
    guest.describe(0, table);
    let mut device = placed(guest);
    assert_eq!(device.serve(0), (0, 10));
    assert!(device.blocks()[0]);
    format!("a first descriptor with the indirect flag is followed: ACK, length 10 (here: 27) [{VIRTIO_QUEUE}]")
}

fn long_chain() -> String {
    let guest = small_guest();
    describe_plug(&guest, 6176, u32::MAX);
    let mut device = placed(guest);
    assert_eq!(device.serve(0), (0, 10));
    format!("24 + (2^32 - 1) bytes of chain are served: ACK, length 10 (here the same; virtio-queue from 0.8 on ends the chain) [{VIRTIO_QUEUE}]")
}

fn table_misaligned() -> String {
    let mut guest = small_guest();
    guest.table = 4096 + 8;
    describe_plug(&guest, 6176, 10);
    let mut device = placed(guest);
    assert_eq!(device.serve(0), (0, 0));
    assert!(!device.blocks()[0]);
    format!("a table at 4104 is not taken, so the chain is read at 0: length 0 (here: served, length 10) [{VIRTIO_QUEUE}]")
}

fn response_partly_inside() -> String {
    let guest = small_guest();
    let status = 8192 - 4;
    describe_plug(&guest, status, 10);
    guest.write(status, &[0xee; 4]);
    let mut device = placed(guest);
    assert_eq!(device.serve(0), (0, 0));
    assert!(device.blocks()[0]);
    assert_eq!(device.guest().read(status, 4), [0; 4]);
    format!("a response with 4 of 10 bytes inside: those 4 are written, length 0, the block is plugged (here: none is written) [{VM_MEMORY}]")
}

fn last_byte() -> String {
    let base = 0u64.wrapping_sub(4096);
    assert!(Guest::new(base, 4096, base).is_none());
    assert!(Guest::new(base, 4095, base).is_some());
    format!("memory that reaches 2^64 - 1 cannot be made, one byte less can (here: that byte may be inside) [{VM_MEMORY}]")
}

fn main() {
    std::panic::set_hook(Box::new(|info| {
        // The one panic that is looked for is silent.
        let words = info.payload().downcast_ref::<String>().map_or("", |s| s);
        if !words.starts_with("head ") {
            eprintln!("{info}");
        }
    }));
    let differences: &[(&str, fn() -> String)] = &[
        ("capacity-wraps", capacity_wraps),
        ("capacity-above-a-tib", capacity_above_a_tib),
        ("capacity-rounds-to-nothing", capacity_rounds_to_nothing),
        ("requested-wraps", requested_wraps),
        ("size-wraps", size_wraps),
        ("start-misaligned", start_misaligned),
        ("start-past-the-end", start_past_the_end),
        ("rows-past-the-end", rows_past_the_end),
        ("size-before-placing-single", size_before_placing_single),
        ("size-before-placing-several", size_before_placing_several),
        ("request-before-placing", request_before_placing),
        ("placed-twice", placed_twice),
        (
            "placed-again-after-failure",
            placed_again_after_failure_several,
        ),
        ("failed-single-placing", failed_single_placing),
        (
            "activated-after-failed-placing",
            activated_after_failed_placing,
        ),
        ("activated-again", activated_again),
        ("host-address-wraps", host_address_wraps),
        ("refused-unplug-all", refused_unplug_all),
        ("state-of-no-blocks", state_of_no_blocks),
        ("state-below-the-start", state_below_the_start),
        ("state-behind-the-region", state_behind_the_region),
        ("head-of-128", head_of_128),
        ("index-too-far-ahead", index_too_far_ahead),
        ("used-ring-outside", used_ring_outside),
        ("indirect-is-followed", indirect_is_followed),
        ("long-chain", long_chain),
        ("table-misaligned", table_misaligned),
        ("response-partly-inside", response_partly_inside),
        ("last-byte", last_byte),
    ];
    for (name, run) in differences {
        println!("{name}: {}", run());
    }
    println!("{} differences hold", differences.len());
}
