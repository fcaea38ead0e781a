// SPDX-License-Identifier: Apache-2.0 AND BSD-3-Clause
//! A device of 256 MiB at 4 GiB in one region, of which the guest may have 16 MiB, and what it answers.

use jambcopper::driver::Response;
use jambcopper::{Answer, Device, HostAnswer, HostCall, Why, BLOCK_SIZE};

pub const BASE: u64 = 0x4000_0000;
pub const START: u64 = 4_294_967_296;
pub const HOST: u64 = 140_737_488_355_328;

pub fn placed() -> Device {
    let mut device = Device::new(256, 16, false, None, 1 << 30).unwrap();
    device.place(START, 256 << 20, &[1]).unwrap();
    device
        .host_answer(&mut [], 0, HostAnswer::Created(HOST))
        .unwrap();
    device
}

/// ACK or NACK.
pub fn served(resp_type: u16, state: u16) -> Answer {
    Answer::Served {
        resp_type,
        state,
        length: 10,
        why: None,
    }
}

/// ERROR, of any request but that for a state.
pub fn in_vain(why: Why) -> Answer {
    Answer::Served {
        resp_type: Response::ERROR,
        state: 0,
        length: 10,
        why: Some(why),
    }
}

pub fn discard(block: u64) -> Answer {
    let offset = block * BLOCK_SIZE;
    Answer::Wants(HostCall::Discard {
        offset,
        size: BLOCK_SIZE,
        host: HOST + offset,
    })
}

/// The device made again of its parts.
pub fn again(device: &Device) -> Device {
    let made = Device::from_parts(device.record(), device.bitmap(), device.table()).unwrap();
    assert_eq!(&made, device);
    made
}
