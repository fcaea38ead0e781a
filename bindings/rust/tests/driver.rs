// SPDX-License-Identifier: Apache-2.0 AND BSD-3-Clause
//! The guest's side over the static library: what is written, what is read, and what is proposed; and what is refused.

use jambcopper::driver::{
    plan, Config, Request, Response, CONFIG_BYTES, REQUEST_BYTES, RESPONSE_BYTES,
};
use jambcopper::{Error, BLOCK_SIZE};

const START: u64 = 1 << 32;

#[test]
fn a_request_is_written_with_zero_padding() {
    let other = Request {
        request_type: 0xfedc,
        addr: 0x0123_4567_89ab_cdef,
        blocks: 0x1357,
    };
    // The bytes of the type, of the address and of the blocks; all others are zero.
    for (request, request_type, addr, blocks) in [
        (
            Request::plug(START, 2),
            [0, 0],
            [0, 0, 0, 0, 1, 0, 0, 0],
            [2, 0],
        ),
        (
            Request::unplug(1 << 63, 256),
            [1, 0],
            [0, 0, 0, 0, 0, 0, 0, 0x80],
            [0, 1],
        ),
        (Request::unplug_all(), [2, 0], [0; 8], [0, 0]),
        (
            Request::state(u64::MAX, u16::MAX),
            [3, 0],
            [0xff; 8],
            [0xff, 0xff],
        ),
        (
            other,
            [0xdc, 0xfe],
            [0xef, 0xcd, 0xab, 0x89, 0x67, 0x45, 0x23, 0x01],
            [0x57, 0x13],
        ),
    ] {
        let mut expected = [0; REQUEST_BYTES];
        expected[..2].copy_from_slice(&request_type);
        expected[8..16].copy_from_slice(&addr);
        expected[16..18].copy_from_slice(&blocks);
        assert_eq!(request.to_bytes(), expected);
        for length in 0..REQUEST_BYTES + 9 {
            let mut bytes = vec![0xaa; length];
            let (written, rest) = match length.checked_sub(REQUEST_BYTES) {
                Some(rest) => (Ok(()), [&expected[..], &vec![0xaa; rest]].concat()),
                None => (Err(Error::BadBytes), bytes.clone()),
            };
            assert_eq!(request.write(&mut bytes), written, "{length} bytes");
            assert_eq!(bytes, rest, "{length} bytes");
        }
    }
}

#[test]
fn a_response_is_read_or_refused() {
    let good = [3, 0, 0, 0, 0, 0, 0, 0, 2, 0];
    // One byte of an ERROR with mixed state is another.
    for (at, byte, read) in [
        (0, 0, Ok((Response::ACK, Response::MIXED))),
        (0, 1, Ok((Response::NACK, Response::MIXED))),
        (0, 2, Ok((Response::BUSY, Response::MIXED))),
        (0, 3, Ok((Response::ERROR, Response::MIXED))),
        (0, 4, Err(Error::BadBytes)),
        (0, 255, Err(Error::BadBytes)),
        (1, 1, Err(Error::BadBytes)),
        (2, 1, Err(Error::BadBytes)),
        (3, 1, Err(Error::BadBytes)),
        (4, 1, Err(Error::BadBytes)),
        (5, 1, Err(Error::BadBytes)),
        (6, 1, Err(Error::BadBytes)),
        (7, 128, Err(Error::BadBytes)),
        (8, 0, Ok((Response::ERROR, Response::PLUGGED))),
        (8, 1, Ok((Response::ERROR, Response::UNPLUGGED))),
        (8, 3, Err(Error::BadBytes)),
        (9, 1, Err(Error::BadBytes)),
    ] {
        let mut bytes = good;
        bytes[at] = byte;
        let read = read.map(|(resp_type, state)| Response { resp_type, state });
        assert_eq!(Response::read(&bytes), read, "byte {at} is {byte}");
        let longer = [&bytes[..], &[0xff; 3]].concat();
        assert_eq!(Response::read(&longer), read, "byte {at} is {byte}");
    }
    for length in 0..RESPONSE_BYTES {
        assert_eq!(Response::read(&good[..length]), Err(Error::BadBytes));
    }
}

/// The bytes of a config with these words: block size, node, start, region, usable, plugged and requested size.
fn config(words: [u64; 7]) -> Vec<u8> {
    words.iter().flat_map(|word| word.to_le_bytes()).collect()
}

#[test]
fn a_config_is_read_or_refused() {
    // Any fields are read, a device's or not.
    for words in [[0, 0, 0, 0, 0, 0, 0], [1, 2, 3, 4, 5, 6, 7], {
        let top = u64::MAX;
        [top, 65_535, top - 1, top - 2, top - 3, top - 4, top - 5]
    }] {
        let bytes = config(words);
        let read = |bytes: &[u8]| {
            Config::read(bytes).map(|c| {
                let (block, node, region) = (c.block_size, c.node_id.into(), c.region_size);
                let (usable, plugged, requested) =
                    (c.usable_size, c.plugged_size, c.requested_size);
                [block, node, c.start, region, usable, plugged, requested]
            })
        };
        assert_eq!(read(&bytes), Ok(words));
        assert_eq!(read(&[&bytes[..], &[0xff; 3]].concat()), Ok(words));
        for length in 0..CONFIG_BYTES {
            assert_eq!(Config::read(&bytes[..length]), Err(Error::BadBytes));
        }
        for padding in 10..16 {
            let mut bytes = bytes.clone();
            bytes[padding] = 1;
            assert_eq!(Config::read(&bytes), Err(Error::BadBytes), "byte {padding}");
        }
    }
}

/// Region, usable, plugged and requested size in blocks; runs of plugged blocks, by the first and how many; and the plug.
type Plan = (
    u64,
    u64,
    u64,
    u64,
    &'static [(u64, u64)],
    Result<(u64, u16), Error>,
);

const PLANS: [Plan; 21] = [
    (64, 64, 0, 64, &[], Ok((0, 64))),
    // up to the spent requested size,
    (64, 64, 0, 4, &[], Ok((0, 4))),
    (64, 64, 3, 4, &[(0, 3)], Ok((3, 1))),
    (64, 64, 4, 4, &[(0, 4)], Err(Error::NoPlug)),
    (64, 64, 5, 4, &[(0, 5)], Err(Error::NoPlug)),
    (64, 64, 0, 0, &[], Err(Error::NoPlug)),
    // the next plugged block, from the lowest free one on,
    (64, 64, 1, 64, &[(5, 1)], Ok((0, 5))),
    (64, 64, 3, 64, &[(0, 3)], Ok((3, 61))),
    (64, 64, 4, 64, &[(0, 3), (7, 1)], Ok((3, 4))),
    (64, 64, 63, 64, &[(1, 63)], Ok((0, 1))),
    (64, 64, 63, 64, &[(0, 63)], Ok((63, 1))),
    (64, 64, 0, 64, &[(0, 64)], Err(Error::NoPlug)),
    // the usable end, in the middle of a byte,
    (64, 12, 0, 64, &[], Ok((0, 12))),
    (64, 12, 11, 64, &[(0, 11), (12, 52)], Ok((11, 1))),
    (64, 12, 12, 64, &[(0, 12)], Err(Error::NoPlug)),
    (64, 0, 0, 64, &[], Err(Error::NoPlug)),
    // or the 2 GiB border of offsets.
    (1024, 1024, 0, 1024, &[], Ok((0, 512))),
    (1024, 1024, 511, 1024, &[(0, 511)], Ok((511, 1))),
    (1024, 1024, 512, 1024, &[(0, 512)], Ok((512, 512))),
    (1024, 1024, 513, 1024, &[(0, 513)], Ok((513, 511))),
    (1024, 1024, 0, 511, &[], Ok((0, 511))),
];

#[test]
fn the_plug_that_is_proposed() {
    for (region, usable, plugged, requested, runs, proposed) in PLANS {
        let bytes = |blocks: u64| blocks * BLOCK_SIZE;
        let words = [
            BLOCK_SIZE,
            7,
            START,
            bytes(region),
            bytes(usable),
            bytes(plugged),
            bytes(requested),
        ];
        let mut bitmap = vec![0; region as usize / 8];
        for &(first, count) in runs {
            set(&mut bitmap, first, count);
        }
        let proposed = proposed.map(|(first, blocks)| Request::plug(START + bytes(first), blocks));
        let case = (region, usable, plugged, requested, runs);
        assert_eq!(plan(&config(words), &bitmap), proposed, "{case:?}");
        // What lies behind the need is not looked at, and a byte less is too short.
        let longer = ([config(words), vec![1; 3]], [bitmap.clone(), vec![0; 3]]);
        assert_eq!(plan(&longer.0.concat(), &longer.1.concat()), proposed);
        bitmap.pop();
        assert_eq!(plan(&config(words), &bitmap), Err(Error::ShortTable));
    }
}

fn set(bitmap: &mut [u8], first: u64, count: u64) {
    (first..first + count).for_each(|block| bitmap[block as usize / 8] |= 1 << (block % 8));
}

#[test]
fn the_order_of_refusals() {
    const MIB: u64 = 1 << 20;
    let good = [BLOCK_SIZE, 0, START, 256 * MIB, 256 * MIB, 0, 16 * MIB];
    let with = |at: usize, word: u64| {
        let mut words = good;
        words[at] = word;
        config(words)
    };
    // 12: one word that no device's config has; 0 otherwise.
    let top = 0u64.wrapping_sub(256 * MIB);
    for (at, word, shaped) in [
        (0, BLOCK_SIZE, true),
        (0, BLOCK_SIZE / 2, false),
        (0, BLOCK_SIZE + 1, false),
        (0, 0, false),
        (1, 65_535, true),
        (2, 0, true),
        (2, 128 * MIB, true),
        (2, 64 * MIB, false),
        (2, START + 1, false),
        (2, top - 128 * MIB, true),
        (2, top, false),
        (2, u64::MAX, false),
        (3, 512 * MIB, true),
        (3, 384 * MIB, false),
        (3, 256 * MIB + 1, false),
        (3, 1 << 40, true),
        (3, (1 << 40) + 256 * MIB, false),
        (3, 0, false),
        (4, 4 * MIB, true),
        (4, 2 * MIB, false),
        (4, 260 * MIB, false),
        (5, 12 * MIB, true),
        (5, 12 * MIB - 1, false),
        (5, 260 * MIB, false),
        (6, 256 * MIB, true),
        (6, 256 * MIB - 1, false),
        (6, 260 * MIB, false),
    ] {
        let bytes = with(at, word);
        let told = plan(&bytes, &[0; 32_768]);
        let case = format!("word {at} is {word}");
        assert_eq!(told.is_ok(), shaped, "{case}: {told:?}");
        // 12 before 11, before 17.
        let (short, full) = if shaped {
            (Error::ShortTable, Error::NoPlug)
        } else {
            (Error::BadRecord, Error::BadRecord)
        };
        assert_eq!(plan(&bytes, &[0; 7]), Err(short), "{case}");
        assert_eq!(plan(&bytes, &[0xff; 7]), Err(short), "{case}");
        assert_eq!(plan(&bytes, &[0xff; 32_768]), Err(full), "{case}");
        // 16 before all of them.
        for bitmap in [&[][..], &[0xff; 8], &[0; 8]] {
            for length in 0..CONFIG_BYTES {
                assert_eq!(plan(&bytes[..length], bitmap), Err(Error::BadBytes));
            }
            for padding in 10..16 {
                let mut bytes = bytes.clone();
                bytes[padding] = 0x80;
                assert_eq!(plan(&bytes, bitmap), Err(Error::BadBytes));
            }
        }
    }
    assert_eq!(Error::BadBytes as u64, 16);
    assert_eq!(Error::NoPlug as u64, 17);
    assert_eq!(Error::NoPlug.to_string(), "no plug to propose (17)");
}
