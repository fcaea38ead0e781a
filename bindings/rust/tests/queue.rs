// SPDX-License-Identifier: Apache-2.0 AND BSD-3-Clause
//! A guest's queue over the static library: which head is taken, what is refused, and what stands in the used ring.

use jambcopper::driver::Request;
use jambcopper::{Answer, Device, Error, HostAnswer, Queue, Why, BLOCK_SIZE, QUEUE_WORDS};

mod common;
#[path = "common/rings.rs"]
mod rings;

use common::{again, discard, in_vain, placed, served, BASE, HOST, START};
use rings::{Machine, AVAILABLE, MEMORY, USED};

#[test]
fn the_next_head_by_how_far_the_index_is_ahead() {
    for next in [0, 1, 127, 128, 32_767, 65_408, 65_534, 65_535u16] {
        for (ahead, told) in [
            (0, Ok(None)),
            (1, Ok(Some(served(0, 1)))),
            (127, Ok(Some(served(0, 1)))),
            (128, Ok(Some(served(0, 1)))),
            (129, Err(Error::BadIndex)),
            (32_768, Err(Error::BadIndex)),
            (65_535, Err(Error::BadIndex)),
        ] {
            // Head 2 is a request, and stands where the next head is; all other entries have none.
            let next_used = next.wrapping_add(7);
            let mut machine = Machine::new().with(&[(3, next.into()), (4, next_used.into())]);
            machine.lay(2, Request::state(START, 1));
            machine.put(AVAILABLE + 4, &[0xff; 256]);
            machine.put(AVAILABLE + 4 + 2 * usize::from(next % 128), &[2, 0]);
            let index = next.wrapping_add(ahead);
            machine.put(AVAILABLE + 2, &index.to_le_bytes());

            let before = machine.clone();
            assert_eq!(machine.serve(), told, "{ahead} ahead of {next}");
            if !matches!(told, Ok(Some(_))) {
                assert_eq!(machine, before);
                continue;
            }
            let queue = &machine.queue;
            assert_eq!(queue.next_available(), next.wrapping_add(1));
            assert_eq!(queue.next_used(), next_used.wrapping_add(1));
            assert_eq!(queue.taken(), None);
            assert_eq!(machine.used(next_used), (2, 10));
            assert_eq!(machine.used_index(), next_used.wrapping_add(1));
        }
    }
}

#[test]
fn a_bad_index_does_not_stick() {
    let mut machine = Machine::new();
    machine.ask(0, Request::state(START, 1));
    machine.put(AVAILABLE + 2, &129u16.to_le_bytes());
    assert_eq!(machine.serve(), Err(Error::BadIndex));
    machine.put(AVAILABLE + 2, &1u16.to_le_bytes());
    assert_eq!(machine.serve(), Ok(Some(served(0, 1))));
    assert_eq!(machine.serve(), Ok(None));
}

/// Where memory lies, where the two rings are, and whether both are inside.
const RINGS: [(u64, u64, u64, bool); 14] = {
    let (end, top) = (BASE + MEMORY as u64, 0u64.wrapping_sub(MEMORY as u64));
    let (available, used) = (BASE + AVAILABLE as u64, BASE + USED as u64);
    [
        (BASE, BASE, used, true),
        (BASE, BASE - 1, used, false),
        (BASE, end - 262, used, true),
        (BASE, end - 261, used, false),
        (BASE, available, BASE, true),
        (BASE, available, BASE - 1, false),
        (BASE, available, end - 1030, true),
        (BASE, available, end - 1029, false),
        (BASE, u64::MAX, used, false),
        (BASE, available, u64::MAX, false),
        (top, 0u64.wrapping_sub(262), top, true),
        (top, top, 0u64.wrapping_sub(1030), true),
        // The last byte of memory is past 2^64 - 1.
        (top + 1, 0u64.wrapping_sub(261), top + 1, false),
        (top + 1, top + 1, 0u64.wrapping_sub(1029), false),
    ]
};

#[test]
fn both_rings_lie_inside() {
    for (base, available, used, inside) in RINGS {
        let mut machine = Machine::new().with(&[(1, available), (2, used)]);
        let before = machine.clone();
        let told = machine
            .device
            .serve(&mut machine.queue, &mut machine.mem, base);
        let expected = if inside {
            Ok(None)
        } else {
            Err(Error::RingOutside)
        };
        assert_eq!(told, expected, "{available:#x} {used:#x} from {base:#x}");
        assert_eq!(machine, before);
    }
}

#[test]
fn both_rings_lie_inside_when_the_host_answers() {
    for (base, available, used, inside) in RINGS {
        let mut machine = Machine::new();
        machine.ask(0, Request::plug(START, 1));
        machine.ask(2, Request::unplug(START, 1));
        machine.serve().unwrap();
        assert_eq!(machine.serve(), Ok(Some(discard(0))));
        machine = machine.with(&[(1, available), (2, used)]);
        let before = machine.clone();
        let (queue, mem) = (&mut machine.queue, &mut machine.mem);
        let told = machine
            .device
            .serve_answer(queue, mem, base, HostAnswer::Discarded);
        if inside {
            assert!(matches!(told, Ok(Answer::Served { .. })));
            assert_eq!(
                (machine.queue.taken(), machine.queue.next_used()),
                (None, 2)
            );
        } else {
            assert_eq!(told, Err(Error::RingOutside));
            assert_eq!(machine, before);
            // It does not stick: with the rings where they were, the request ends.
            let words = [(1, BASE + AVAILABLE as u64), (2, BASE + USED as u64)];
            machine = machine.with(&words);
            assert_eq!(machine.answer(HostAnswer::Discarded), Ok(served(0, 0)));
            assert_eq!((machine.used(1), machine.used_index()), ((2, 10), 2));
        }
    }
}

#[test]
fn every_head_is_reported_with_its_length() {
    for (head, told, length) in [
        (0, served(0, 1), 10),
        (126, served(0, 1), 10),
        (127, Answer::Unserved { reason: 22 }, 0), // the second descriptor of the chain from 126 on
        (128, Answer::Unserved { reason: 21 }, 0),
        (65_535, Answer::Unserved { reason: 21 }, 0),
        (2, Answer::Unserved { reason: 0 }, 0), // a type that is none
        (4, in_vain(Why::Alignment), 10),
    ] {
        let mut machine = Machine::new();
        machine.lay(0, Request::state(START, 1));
        machine.lay(126, Request::state(START, 1));
        let none = Request {
            request_type: 4,
            ..Request::state(START, 1)
        };
        machine.lay(2, none);
        machine.lay(4, Request::plug(START + 1, 1));
        machine.offer(head);
        assert_eq!(machine.serve(), Ok(Some(told)), "head {head}");
        assert_eq!(machine.used(0), (head.into(), length));
        assert_eq!((machine.used_index(), machine.queue.taken()), (1, None));
    }
}

#[test]
fn heads_come_back_once_and_in_order_past_both_wraps() {
    let mut machine = Machine::new().with(&[(4, 1000)]);
    for slot in 0..64 {
        machine.lay(2 * slot, Request::state(START, 1));
    }
    let (mut asked, mut seen) = (0u32, 0u32);
    let head = |nth: u32| (nth * 7 % 64 * 2) as u16;
    for turn in 0..2_100 {
        let batch = turn % 64 + 1;
        (asked..asked + batch).for_each(|nth| machine.offer(head(nth)));
        asked += batch;
        while let Some(answer) = machine.serve().unwrap() {
            assert_eq!(answer, served(0, 1));
        }
        assert_eq!(machine.used_index(), (1000 + asked) as u16);
        while seen < asked {
            let element = machine.used((1000 + seen) as u16);
            assert_eq!(element, (head(seen).into(), 10), "request {seen}");
            seen += 1;
        }
    }
    assert!(seen > 65_536);
}

#[test]
fn an_unplug_all_is_reported_when_it_has_ended() {
    let mut machine = Machine::new();
    machine.ask(0, Request::plug(START, 3));
    machine.ask(2, Request::unplug_all());
    machine.ask(4, Request::state(START, 1));
    assert_eq!(machine.serve(), Ok(Some(served(0, 0))));
    assert_eq!(machine.serve(), Ok(Some(discard(0))));
    for block in 1..3 {
        assert_eq!((machine.queue.taken(), machine.used_index()), (Some(2), 1));
        // No second head is taken, and a host that restarts goes on.
        let before = machine.clone();
        assert_eq!(machine.serve(), Err(Error::Pending));
        assert_eq!(machine, before);
        machine.device = again(&machine.device);
        machine.queue = Queue::from_words(machine.queue.words()).unwrap();
        assert_eq!(machine.answer(HostAnswer::Discarded), Ok(discard(block)));
    }
    assert_eq!(machine.answer(HostAnswer::Discarded), Ok(served(0, 0)));
    assert_eq!((machine.used(1), machine.used_index()), ((2, 10), 2));
    assert_eq!(machine.serve(), Ok(Some(served(0, 1))));
    assert_eq!((machine.used(2), machine.used_index()), ((4, 10), 3));
    assert_eq!(machine.serve(), Ok(None));
}

#[test]
fn a_creation_is_answered_without_memory() {
    let mut device = Device::new(256, 16, false, None, 1 << 30).unwrap();
    let mut queue = Queue::new(1, 2, 3);
    let told = device.serve(&mut queue, &mut [], 0);
    assert_eq!(told, Err(Error::NotPlaced)); // before 14
    device.place(START, 256 << 20, &[1]).unwrap();
    let told = device.serve(&mut queue, &mut [], 0);
    assert_eq!(told, Err(Error::Pending));
    let wrong = device.serve_answer(&mut queue, &mut [], 0, HostAnswer::Discarded);
    assert_eq!(wrong, Err(Error::WrongAnswer));
    let told = device.serve_answer(&mut queue, &mut [], 0, HostAnswer::Created(HOST));
    assert_eq!(told, Ok(Answer::Sized));
    assert_eq!((queue, device), (Queue::new(1, 2, 3), placed()));
}

#[test]
fn a_head_is_out_only_while_a_discard_is_pending() {
    let mut machine = Machine::new();
    machine.ask(0, Request::plug(START, 1));
    machine.ask(2, Request::unplug(START, 1));
    machine.serve().unwrap();
    machine.serve().unwrap();
    let wrong = machine.answer(HostAnswer::Created(HOST));
    assert_eq!(wrong, Err(Error::WrongAnswer));
    // An answer past the queue ends the request, and its head is lost.
    let told = machine
        .device
        .host_answer(&mut machine.mem, BASE, HostAnswer::Discarded);
    assert_eq!(told, Ok(served(0, 0)));
    assert_eq!((machine.queue.taken(), machine.used_index()), (Some(2), 1));
    machine.refuses(Error::BadRecord, Error::BadRecord);

    // With a creation pending it is 12 too, and not 7.
    machine = Machine::new().with(&[(5, 1)]);
    machine.device = Device::new(256, 16, false, None, 1 << 30).unwrap();
    machine.device.place(START, 256 << 20, &[1]).unwrap();
    machine.refuses(Error::BadRecord, Error::BadRecord);
}

#[test]
fn an_unplug_of_more_than_is_plugged_takes_no_head() {
    let mut machine = Machine::new();
    machine.ask(0, Request::plug(START, 2));
    machine.serve().unwrap();
    machine.ask(2, Request::unplug(START, 2));
    let mut record = *machine.device.record();
    record[5] = BLOCK_SIZE;
    machine.device =
        Device::from_parts(&record, machine.device.bitmap(), machine.device.table()).unwrap();
    machine.refuses(Error::BadRecord, Error::NotPending);
}

#[test]
fn the_response_is_written_before_the_head_is_reported() {
    // A response of NACK on the used ring: its first two bytes stay, and the rest is the index and the element.
    let mut machine = Machine::new();
    machine.ask(0, Request::plug(START, 5));
    machine.descriptor(1, USED, 10, 2, 0);
    assert_eq!(machine.serve(), Ok(Some(served(1, 0))));
    assert_eq!(
        machine.mem[USED..USED + 12],
        [1, 0, 1, 0, 0, 0, 0, 0, 10, 0, 0, 0]
    );
}

#[test]
fn words_that_are_no_queue_are_refused() {
    let words = |at: usize, word: u64| {
        let mut words = [0; QUEUE_WORDS];
        words[at] = word;
        words
    };
    for (at, most) in [(3, 65_535), (4, 65_535), (5, 65_536)] {
        let queue = Queue::from_words(&words(at, most)).unwrap();
        assert_eq!(queue.words(), &words(at, most));
        for word in [most + 1, 1 << 32, u64::MAX] {
            let none = Queue::from_words(&words(at, word));
            assert_eq!(none, Err(Error::BadRecord));
        }
    }
    let queue = Queue::from_words(&[u64::MAX, 1, 2, 65_535, 3, 65_536]).unwrap();
    assert_eq!(
        (queue.descriptors(), queue.available(), queue.used()),
        (u64::MAX, 1, 2)
    );
    assert_eq!(
        (queue.next_available(), queue.next_used(), queue.taken()),
        (65_535, 3, Some(65_535))
    );
}
