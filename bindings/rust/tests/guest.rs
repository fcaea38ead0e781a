// SPDX-License-Identifier: Apache-2.0 AND BSD-3-Clause
//! A guest over the static library: the whole example (R12.12), the refusals at the binding's edge, a restart, and a guest
//! that plans.

use jambcopper::driver::{plan, Config, Request, Response, CONFIG_BYTES, RESPONSE_BYTES};
use jambcopper::{
    Answer, Device, Error, HostAnswer, HostCall, Why, BLOCK_SIZE, RECORD_WORDS, ROW_WORDS,
};

mod common;

use common::{again, discard, in_vain, placed, served, BASE, HOST, START};

const REQUEST: usize = 2048;
const RESPONSE: usize = 2072;

/// Guest memory with the descriptors of one request at its start.
fn chain(request: Request) -> Vec<u8> {
    let mut mem = vec![0; RESPONSE + RESPONSE_BYTES];
    let mut put = |at: usize, bytes: &[u8]| mem[at..at + bytes.len()].copy_from_slice(bytes);
    put(0, &(BASE + REQUEST as u64).to_le_bytes());
    put(8, &24u32.to_le_bytes());
    put(12, &1u16.to_le_bytes());
    put(14, &1u16.to_le_bytes());
    put(16, &(BASE + RESPONSE as u64).to_le_bytes());
    put(24, &10u32.to_le_bytes());
    put(28, &2u16.to_le_bytes());
    put(REQUEST, &request.to_bytes());
    mem
}

fn send(device: &mut Device, mem: &mut [u8]) -> Answer {
    device.request(mem, BASE, BASE, 0).unwrap()
}

fn ask(device: &mut Device, request: Request) -> Answer {
    send(device, &mut chain(request))
}

#[test]
fn the_whole_example() {
    let mut device = placed();
    assert_eq!(ask(&mut device, Request::plug(START, 2)), served(0, 0));
    assert_eq!(device.plugged_size(), 8_388_608);
    assert_eq!(
        ask(&mut device, Request::plug(START + 2 * BLOCK_SIZE, 3)),
        served(1, 0)
    );
    assert_eq!(
        ask(&mut device, Request::state(START + BLOCK_SIZE, 2)),
        served(0, 2)
    );

    let mut mem = chain(Request::unplug_all());
    assert_eq!(send(&mut device, &mut mem), discard(0));
    assert_eq!(device.set_requested_size(20), Err(Error::Pending));
    assert_eq!(
        device.host_answer(&mut mem, BASE, HostAnswer::Discarded),
        Ok(discard(1))
    );
    assert_eq!((device.plugged_size(), device.bitmap()[0]), (4_194_304, 2));
    assert_eq!(
        device.host_answer(&mut mem, BASE, HostAnswer::Failed),
        Ok(in_vain(Why::FailedDiscard))
    );
    let response = Response {
        resp_type: Response::ERROR,
        state: 0,
    };
    assert_eq!(Response::read(&mem[RESPONSE..]), Ok(response));
    assert_eq!((device.plugged_size(), device.bitmap()[0]), (4_194_304, 2));

    assert_eq!(device.set_requested_size(20), Ok(Answer::Sized));
    assert_eq!(
        (device.requested_size(), device.usable_size()),
        (20_971_520, 268_435_456)
    );
}

#[test]
fn several_regions_are_created_as_they_are_needed() {
    let mut device = Device::new(8192, 1788, true, Some(3), 1 << 30).unwrap();
    assert_eq!(
        (
            device.map_regions(),
            device.get_avail_features(0),
            device.get_avail_features(1)
        ),
        (4, 1, 1)
    );
    let first = HostCall::Create {
        guest: START,
        size: 2 << 30,
        slot: 7,
    };
    assert_eq!(
        device.place(START, 8 << 30, &[7, 8, 9, 10]),
        Ok(Answer::Wants(first))
    );
    assert_eq!(
        device.host_answer(&mut [], 0, HostAnswer::Created(HOST)),
        Ok(Answer::Sized)
    );
    let second = HostCall::Create {
        guest: START + (2 << 30),
        size: 2 << 30,
        slot: 8,
    };
    let before = device.clone();
    assert_eq!(device.set_requested_size(1792), Ok(Answer::Wants(second)));
    assert_eq!(
        device.host_answer(&mut [], 0, HostAnswer::Failed),
        Err(Error::CreationFailed)
    );
    assert!(!device.is_pending());
    // The new requested size stands; usable size and map do not change.
    assert_eq!(device.requested_size(), 1792 << 20);
    assert_eq!(
        (device.usable_size(), device.table(), device.bitmap()),
        (before.usable_size(), before.table(), before.bitmap())
    );
}

#[test]
fn a_placing_that_failed_is_tried_again() {
    let mut device = Device::new(256, 16, false, None, 1 << 30).unwrap();
    assert_eq!((device.start(), device.is_placed()), (0, false));
    device.place(START, 256 << 20, &[1]).unwrap();
    assert_eq!(
        device.host_answer(&mut [], 0, HostAnswer::Failed),
        Err(Error::CreationFailed)
    );
    // Not placed; the start, the row and the bitmap are as placing wrote them.
    assert_eq!(
        (device.start(), device.is_placed(), device.is_pending()),
        (START, false, false)
    );
    assert_eq!(
        (device.table(), device.bitmap()),
        (&[1, 0, 0][..], &[0; 8][..])
    );
    assert_eq!(device.usable_size(), 0);

    device.place(2 * START, 256 << 20, &[9]).unwrap();
    assert_eq!(
        device.host_answer(&mut [], 0, HostAnswer::Created(HOST)),
        Ok(Answer::Sized)
    );
    assert_eq!((device.start(), device.is_placed()), (2 * START, true));
    assert_eq!(device.table(), [9, 1, HOST]);
}

#[test]
fn the_config_reads_as_the_guest_sees_it() {
    let mut device = placed();
    let mut config = [0xaa; CONFIG_BYTES + 4];
    device.read_config(0, &mut config);
    let read = Config {
        block_size: BLOCK_SIZE,
        node_id: 0,
        start: START,
        region_size: 256 << 20,
        usable_size: 256 << 20,
        plugged_size: 0,
        requested_size: 16 << 20,
    };
    assert_eq!(Config::read(&config), Ok(read));
    assert_eq!(config[CONFIG_BYTES..], [0xaa; 4]);
    let before = device.clone();
    device.write_config(40, &[1; 8]);
    assert_eq!(device, before);
}

#[test]
fn refusals_change_nothing() {
    assert_eq!(Device::new(0, 0, false, None, 0), Err(Error::BadSize));
    assert_eq!(
        Device::new(1_048_577, 0, false, None, 0),
        Err(Error::TooLarge)
    );
    let mut device = Device::new(256, 16, false, None, 0).unwrap();
    let before = device.clone();
    assert_eq!(device.set_requested_size(4), Err(Error::NotPlaced));
    assert_eq!(device.place(START, 1, &[1]), Err(Error::BadRange));
    assert_eq!(
        device.place(START + 1, 256 << 20, &[1]),
        Err(Error::BadStart)
    );
    assert_eq!(
        device.host_answer(&mut [], 0, HostAnswer::Discarded),
        Err(Error::NotPending)
    );
    assert_eq!(device, before);
    assert_eq!(device.request(&mut [], 0, 0, 0), Err(Error::NotPlaced));
    assert_eq!(
        placed().request(&mut [], 0, 0, 0),
        Ok(Answer::Unserved { reason: 21 })
    );
}

/// The answer is refused, and the device and the guest's bytes are as before.
fn refuses(device: &mut Device, mem: &mut [u8], told: HostAnswer) {
    let before = (device.clone(), mem.to_vec());
    assert_eq!(device.host_answer(mem, BASE, told), Err(Error::WrongAnswer));
    assert_eq!((&*device, &*mem), (&before.0, &before.1[..]));
}

#[test]
fn an_answer_to_another_question_is_refused() {
    let mut device = Device::new(256, 16, false, None, 1 << 30).unwrap();
    device.place(START, 256 << 20, &[1]).unwrap();
    refuses(&mut device, &mut [], HostAnswer::Discarded);
    assert_eq!(
        device.host_answer(&mut [], 0, HostAnswer::Created(HOST)),
        Ok(Answer::Sized)
    );

    ask(&mut device, Request::plug(START, 2));
    for request in [Request::unplug(START, 1), Request::unplug_all()] {
        let mut mem = chain(request);
        assert!(matches!(send(&mut device, &mut mem), Answer::Wants(_)));
        refuses(&mut device, &mut mem, HostAnswer::Created(HOST));
        assert_eq!(
            device.host_answer(&mut mem, BASE, HostAnswer::Discarded),
            Ok(served(0, 0))
        );
    }
    assert_eq!((device.plugged_size(), device.bitmap()[0]), (0, 0));

    assert_eq!(
        Error::WrongAnswer.to_string(),
        "an answer to another kind of question than the pending one"
    );
}

#[test]
fn a_host_restarts_in_the_middle_of_an_unplug_all() {
    // Not placed yet, and with the creation of its placing pending.
    let mut device = again(&Device::new(256, 16, false, None, 1 << 30).unwrap());
    device.place(START, 256 << 20, &[1]).unwrap();
    let mut device = again(&device);
    assert!(device.is_pending() && !device.is_placed());
    device
        .host_answer(&mut [], 0, HostAnswer::Created(HOST))
        .unwrap();
    assert_eq!(device.table(), [1, 1, HOST]);

    // Three blocks: one is discarded, the second is asked for, and the host restarts.
    ask(&mut device, Request::plug(START, 3));
    let mut mem = chain(Request::unplug_all());
    send(&mut device, &mut mem);
    let asked = device.host_answer(&mut mem, BASE, HostAnswer::Discarded);
    assert_eq!(asked, Ok(discard(1)));
    let mut one = device.clone();
    let mut other = again(&device);
    drop(device);

    // Both go on alike.
    assert_eq!(other.set_requested_size(20), Err(Error::Pending));
    let ends = |device: &mut Device| {
        let mut mem = mem.clone();
        let next = device.host_answer(&mut mem, BASE, HostAnswer::Discarded);
        assert_eq!(next, Ok(discard(2)));
        let end = device.host_answer(&mut mem, BASE, HostAnswer::Discarded);
        assert_eq!(end, Ok(served(0, 0)));
        mem
    };
    assert_eq!(ends(&mut one), ends(&mut other));
    assert_eq!(one, other);
    assert_eq!((other.plugged_size(), other.bitmap()[0]), (0, 0));
}

#[test]
fn a_restarted_host_has_its_memory_elsewhere() {
    let mut device = placed();
    ask(&mut device, Request::plug(START, 1));
    let mut table = device.table().to_vec();
    table[2] = HOST + (1 << 40);
    let mut device = Device::from_parts(device.record(), device.bitmap(), &table).unwrap();
    assert_eq!(
        ask(&mut device, Request::unplug(START, 1)),
        Answer::Wants(HostCall::Discard {
            offset: 0,
            size: BLOCK_SIZE,
            host: HOST + (1 << 40),
        })
    );
}

#[test]
fn parts_that_do_not_fit_are_refused() {
    let device = placed();
    let (record, bitmap, table) = (device.record(), device.bitmap(), device.table());
    assert_eq!((bitmap.len(), table.len()), (8, ROW_WORDS));

    // 12: words that are no record, or none of the shape; before 11.
    let with = |words: &[(usize, u64)]| {
        let mut record = *record;
        for &(at, word) in words {
            record[at] = word;
        }
        record
    };
    let no_records = [
        [0; RECORD_WORDS],
        with(&[(0, BLOCK_SIZE + 1)]),        // another block size
        with(&[(3, 256 << 20 | 1)]),         // a region that is no multiple
        with(&[(8, 2)]),                     // a flag of 2
        with(&[(12, 1)]),                    // a first row with nothing pending
        with(&[(11, 4)]),                    // a kind that is none
        with(&[(11, 1), (12, 1), (13, 0)]),  // a creation from row 1 to row 0
        with(&[(11, 2), (12, 65), (13, 0)]), // a discard of no blocks from behind the region on
        with(&[(11, 2), (12, 0), (13, 1)]),  // an unplug of more than is plugged
        with(&[(11, 3), (12, 64)]),          // a block behind the region
    ];
    for record in no_records {
        assert_eq!(
            Device::from_parts(&record, bitmap, table),
            Err(Error::BadRecord)
        );
        assert_eq!(Device::from_parts(&record, &[], &[]), Err(Error::BadRecord));
    }
    // A discard of no blocks at the region's end is of the shape.
    let at_the_end = with(&[(11, 2), (12, 64), (13, 0)]);
    assert!(Device::from_parts(&at_the_end, bitmap, table).is_ok());

    // 11: a byte too few, a word too few.
    let short = [(&bitmap[..7], table), (bitmap, &table[..2])];
    for (bitmap, table) in short {
        assert_eq!(
            Device::from_parts(record, bitmap, table),
            Err(Error::ShortTable)
        );
    }
    // Several regions: a row for each of two, 2,304 MiB.
    let several = Device::new(2304, 16, true, None, 1 << 30).unwrap();
    let (record, bitmap, table) = (several.record(), several.bitmap(), several.table());
    assert_eq!((bitmap.len(), table.len()), (72, 2 * ROW_WORDS));
    assert_eq!(
        Device::from_parts(record, bitmap, &table[..2 * ROW_WORDS - 1]),
        Err(Error::ShortTable)
    );
    assert_eq!(
        Device::from_parts(record, bitmap, table),
        Ok(several.clone())
    );
}

#[test]
fn longer_parts_are_kept_whole() {
    let device = placed();
    let bitmap = [device.bitmap(), &[0xa5; 3]].concat();
    let table = [device.table(), &[7; ROW_WORDS + 1]].concat();
    let mut device = Device::from_parts(device.record(), &bitmap, &table).unwrap();
    assert_eq!((device.bitmap(), device.table()), (&bitmap[..], &table[..]));

    // All that the device does leaves what lies behind the need as it was.
    ask(&mut device, Request::plug(START, 4));
    let mut mem = chain(Request::unplug_all());
    let mut answer = send(&mut device, &mut mem);
    while answer != served(0, 0) {
        answer = device
            .host_answer(&mut mem, BASE, HostAnswer::Discarded)
            .unwrap();
    }
    assert_eq!((device.bitmap(), device.table()), (&bitmap[..], &table[..]));
    again(&device);
}

/// Capacity and requested size in MiB, whether there are several regions, plugs beforehand (block and how many), and the
/// plugs that are planned until 17.
type Driven = (u64, u64, bool, &'static [(u64, u16)], &'static [(u64, u16)]);

const DRIVEN: [Driven; 7] = [
    (256, 16, false, &[], &[(0, 4)]),
    (256, 16, false, &[(1, 1)], &[(0, 1), (2, 2)]),
    (256, 16, false, &[(0, 1), (2, 3)], &[]),
    (
        256,
        256,
        false,
        &[(1, 1), (3, 2), (62, 1)],
        &[(0, 1), (2, 1), (5, 57), (63, 1)],
    ),
    (4096, 4096, false, &[], &[(0, 512), (512, 512)]),
    (
        4096,
        4096,
        true,
        &[(510, 1), (512, 1)],
        &[(0, 510), (511, 1), (513, 511)],
    ),
    (4096, 2056, true, &[(570, 1)], &[(0, 512), (512, 1)]),
];

/// The guest plugs, is acknowledged, and believes in the blocks: which is the first, and how many.
fn plug(device: &mut Device, believed: &mut [u8], request: Request) -> (u64, u16) {
    let mut mem = chain(request);
    assert_eq!(send(device, &mut mem), served(0, 0));
    let response = Response::read(&mem[RESPONSE..]).unwrap();
    assert_eq!(response.resp_type, Response::ACK);
    let first = (request.addr - START) / BLOCK_SIZE;
    for block in first..first + u64::from(request.blocks) {
        believed[block as usize / 8] |= 1 << (block % 8);
    }
    (first, request.blocks)
}

#[test]
fn a_guest_plans_until_there_is_no_plug() {
    for (capacity, requested, several, before, planned) in DRIVEN {
        let mut device = Device::new(capacity, requested, several, None, 1 << 30).unwrap();
        let slots: Vec<u32> = (0..device.map_regions() as u32).collect();
        device.place(START, capacity << 20, &slots).unwrap();
        device
            .host_answer(&mut [], 0, HostAnswer::Created(HOST))
            .unwrap();
        let mut believed = vec![0; device.bitmap().len()];
        for &(first, blocks) in before {
            let request = Request::plug(START + first * BLOCK_SIZE, blocks);
            plug(&mut device, &mut believed, request);
        }

        let mut config = [0; CONFIG_BYTES];
        let mut plugs = Vec::new();
        let end = loop {
            device.read_config(0, &mut config);
            match plan(&config, &believed) {
                Ok(request) => plugs.push(plug(&mut device, &mut believed, request)),
                Err(end) => break end,
            }
        };
        assert_eq!((&plugs[..], end), (planned, Error::NoPlug));
        assert_eq!(device.bitmap(), believed);
        // All that the guest is asked to have is plugged.
        assert_eq!(device.plugged_size(), requested << 20);
        assert_eq!(
            Config::read(&config).unwrap().plugged_size,
            device.plugged_size()
        );
    }
}
