// SPDX-License-Identifier: Apache-2.0 AND BSD-3-Clause
//! Which ERROR it was: each reason at its edge and next to it, those of a spoiled table too, and what the eleven say.

use jambcopper::driver::{Request, Response};
use jambcopper::{Answer, Device, HostAnswer, Why, BLOCK_SIZE};

#[allow(dead_code)] // what the queue's tests need more
mod common;
#[allow(dead_code)]
#[path = "common/rings.rs"]
mod rings;

use common::{in_vain, served, HOST, START};
use rings::{Machine, MEMORY};

/// The blocks of the device below, and how many of them are usable.
const BLOCKS: u64 = 256;
const USABLE: u64 = 80;

fn address(block: u64) -> u64 {
    START + block * BLOCK_SIZE
}

/// A guest with a device at 4 GiB, all of whose creations are granted.
fn guest(capacity: u64, requested: u64, several: bool) -> Machine {
    let mut device = Device::new(capacity, requested, several, None, 1 << 30).unwrap();
    let (size, rows) = (device.region_size(), device.map_regions() as u32);
    let slots: Vec<u32> = (1..=rows).collect();
    device.place(START, size, &slots).unwrap();
    let created = device.host_answer(&mut [], 0, HostAnswer::Created(HOST));
    assert_eq!(created, Ok(Answer::Sized));
    Machine {
        device,
        ..Machine::new()
    }
}

fn ask(machine: &mut Machine, request: Request) -> Answer {
    machine.ask(0, request);
    machine.serve().unwrap().unwrap()
}

/// The reason, and that the response's type goes with it.
fn why(told: Answer) -> Option<Why> {
    match told {
        Answer::Served { resp_type, why, .. } => {
            assert_eq!(why.is_some(), resp_type == Response::ERROR, "{told:?}");
            why
        }
        _ => panic!("not ended: {told:?}"),
    }
}

#[test]
fn the_range_at_its_edges() {
    let top = 0u64.wrapping_sub(BLOCK_SIZE);
    let ranges = [
        (START + 1, 1, Some(Why::Alignment)),
        (START + BLOCK_SIZE - 1, 1, Some(Why::Alignment)),
        (START + 1, 0, Some(Why::Alignment)),
        (START, 0, Some(Why::ZeroBlocks)),
        (top, 0, Some(Why::ZeroBlocks)),
        (top, 1, Some(Why::Overflow)),
        (top - BLOCK_SIZE, 2, Some(Why::Overflow)),
        (top - BLOCK_SIZE, 1, Some(Why::PastUsable)),
        (START - BLOCK_SIZE, 1, Some(Why::BelowStart)),
        (START - BLOCK_SIZE, 82, Some(Why::BelowStart)),
        (address(USABLE), 1, Some(Why::PastUsable)),
        (address(BLOCKS), 1, Some(Why::PastUsable)),
        (address(USABLE - 1), 2, Some(Why::EndPastUsable)),
        (START, 81, Some(Why::EndPastUsable)),
        (START, 80, None),
        (address(USABLE - 1), 1, None),
    ];
    for (addr, blocks, expected) in ranges {
        let mut machine = guest(1024, 64, false);
        let state = ask(&mut machine, Request::state(addr, blocks));
        assert_eq!(why(state), expected, "state {addr} {blocks}");
        // Nothing is plugged.
        let unplug = ask(&mut machine, Request::unplug(addr, blocks));
        let in_vain = expected.or(Some(Why::BlockState));
        assert_eq!(why(unplug), in_vain, "unplug {addr} {blocks}");
        // A plug of more than is requested, 16 blocks, is NACK before its range is looked at.
        let plug = ask(&mut machine, Request::plug(addr, blocks));
        let nack = blocks > 16;
        assert_eq!(plug == served(Response::NACK, 0), nack);
        assert_eq!(
            why(plug),
            expected.filter(|_| !nack),
            "plug {addr} {blocks}"
        );
    }
}

#[test]
fn blocks_in_the_wrong_state_and_a_border() {
    // 512 blocks a map region: the border is before block 512.
    let mut machine = guest(4096, 4096, true);
    for (request, expected) in [
        (Request::plug(address(511), 2), Some(Why::CrossedBorder)),
        (Request::plug(address(512), 1), None),
        (Request::plug(address(511), 2), Some(Why::BlockState)),
        (Request::plug(address(510), 2), None),
        (Request::unplug(address(509), 2), Some(Why::BlockState)),
        (Request::unplug(address(511), 2), Some(Why::CrossedBorder)),
        (Request::unplug(address(511), 3), Some(Why::BlockState)),
        (Request::state(address(509), 5), None),
    ] {
        assert_eq!(why(ask(&mut machine, request)), expected, "{request:?}");
    }
}

#[test]
fn a_discard_that_fails() {
    let mut machine = guest(1024, 64, false);
    assert_eq!(ask(&mut machine, Request::plug(START, 3)), served(0, 0));
    machine.ask(2, Request::unplug(START, 2));
    machine.serve().unwrap();
    let failed = machine.answer(HostAnswer::Failed);
    assert_eq!(failed, Ok(in_vain(Why::FailedDiscard)));
    for granted in 0..3 {
        let mut machine = machine.clone();
        machine.ask(2, Request::unplug_all());
        machine.serve().unwrap();
        for _ in 0..granted {
            machine.answer(HostAnswer::Discarded).unwrap();
        }
        let failed = machine.answer(HostAnswer::Failed);
        assert_eq!(failed, Ok(in_vain(Why::FailedDiscard)));
    }
}

/// The guest with the words of a row of the map table and the first bits of the bitmap as somebody else wrote them.
fn spoiled(machine: &Machine, row: usize, mapped: u64, host: u64, bits: &[u8]) -> Machine {
    let mut table = machine.device.table().to_vec();
    table[3 * row + 1] = mapped;
    table[3 * row + 2] = host;
    let mut bitmap = machine.device.bitmap().to_vec();
    bitmap[..bits.len()].copy_from_slice(bits);
    let device = Device::from_parts(machine.device.record(), &bitmap, &table).unwrap();
    Machine {
        device,
        ..machine.clone()
    }
}

#[test]
fn a_map_table_that_somebody_else_wrote() {
    let last = u64::MAX - BLOCK_SIZE; // from which one block does not pass 2^64 - 1
    let mut single = guest(1024, 64, false);
    assert_eq!(ask(&mut single, Request::plug(START, 2)), served(0, 0));
    let rows = [
        (0, last, 1, Some(Why::UnmappedRow)),
        (0, last + 1, 1, Some(Why::UnmappedRow)),
        (1, last, 1, None),
        (1, last + 1, 1, Some(Why::HostSum)),
        (1, last - BLOCK_SIZE, 2, None),
        (1, last - BLOCK_SIZE + 1, 2, Some(Why::HostSum)),
    ];
    for (mapped, host, blocks, expected) in rows {
        // A plug of blocks from 2 on, and an unplug of those from 0 on: the offset counts.
        let plugged_from = host.wrapping_sub(2 * BLOCK_SIZE);
        let mut plug = spoiled(&single, 0, mapped, plugged_from, &[]);
        assert_eq!(
            why(ask(&mut plug, Request::plug(address(2), blocks))),
            expected
        );
        let mut unplug = spoiled(&single, 0, mapped, host, &[]);
        // The state of blocks looks at no row.
        assert_eq!(ask(&mut unplug, Request::state(START, 2)), served(0, 0));
        let told = ask(&mut unplug, Request::unplug(START, blocks));
        match expected {
            Some(expected) => assert_eq!(told, in_vain(expected)),
            None => assert!(matches!(told, Answer::Wants(_)), "{told:?}"),
        }
    }

    // The second of several rows; the border comes before the row.
    let mut several = guest(4096, 4096, true);
    let blocks = [address(511), address(512)];
    for addr in blocks {
        assert_eq!(ask(&mut several, Request::plug(addr, 1)), served(0, 0));
    }
    let mut several = spoiled(&several, 1, 0, HOST, &[]);
    let both = ask(&mut several, Request::unplug(address(511), 2));
    assert_eq!(both, in_vain(Why::CrossedBorder));
    let second = ask(&mut several, Request::unplug(address(512), 1));
    assert_eq!(second, in_vain(Why::UnmappedRow));
    // An unplug-all comes to it behind a block that it gives back.
    let first = ask(&mut several, Request::unplug_all());
    assert!(matches!(first, Answer::Wants(_)), "{first:?}");
    let ended = several.answer(HostAnswer::Discarded);
    assert_eq!(ended, Ok(in_vain(Why::UnmappedRow)));
    let host = u64::MAX - BLOCK_SIZE + 1;
    let mut several = spoiled(&several, 1, 1, host, &[]);
    let ended = ask(&mut several, Request::unplug_all());
    assert_eq!(ended, in_vain(Why::HostSum));
}

#[test]
fn an_unplug_all_of_a_block_past_the_usable_end() {
    let machine = guest(1024, 64, false);
    for (block, expected) in [
        (USABLE - 1, None),
        (USABLE, Some(Why::PastUsable)),
        (BLOCKS - 1, Some(Why::PastUsable)),
    ] {
        let mut bits = [0; (BLOCKS / 8) as usize];
        bits[block as usize / 8] = 1 << (block % 8);
        let mut spoiled = spoiled(&machine, 0, 1, HOST, &bits);
        let told = ask(&mut spoiled, Request::unplug_all());
        match expected {
            Some(expected) => assert_eq!(told, in_vain(expected)),
            None => assert!(matches!(told, Answer::Wants(_)), "{told:?}"),
        }
    }
}

#[test]
fn a_response_that_is_not_delivered_has_its_reason() {
    let mut machine = Machine::new();
    machine.ask(0, Request::plug(START + 1, 1));
    machine.descriptor(1, MEMORY - 9, 10, 2, 0);
    let told = Answer::Served {
        resp_type: Response::ERROR,
        state: 0,
        length: 0,
        why: Some(Why::Alignment),
    };
    assert_eq!(machine.serve(), Ok(Some(told)));
}

#[test]
fn the_eleven_have_their_numbers_and_words() {
    let all = [
        Why::Alignment,
        Why::ZeroBlocks,
        Why::Overflow,
        Why::BelowStart,
        Why::PastUsable,
        Why::EndPastUsable,
        Why::BlockState,
        Why::CrossedBorder,
        Why::UnmappedRow,
        Why::HostSum,
        Why::FailedDiscard,
    ];
    for (number, why) in (1u64..).zip(all) {
        assert_eq!(why as u64, number);
        assert!(why.to_string().ends_with(&format!(" ({number})")));
    }
    assert_eq!(
        Why::FailedDiscard.to_string(),
        "the host could not discard the memory (11)"
    );
}
