// SPDX-License-Identifier: Apache-2.0 AND BSD-3-Clause
//! Save records over the static library: a device saved, restored and used again; the old form moved there and back; and
//! what is refused.

mod common;

use common::{again, discard, in_vain, placed, served, BASE, HOST, START};
use jambcopper::driver::{Request, Response};
use jambcopper::save::{new_to_old, old_to_new, Fields};
use jambcopper::{Answer, Device, Error, HostAnswer, Why, BLOCK_SIZE};

const MIB: u64 = 1 << 20;
const TIB: u64 = 1 << 40;

/// What the device answers a request, which lies with its chain in guest memory of its own.
fn ask(device: &mut Device, request: Request) -> Answer {
    let mut mem = vec![0; 66];
    for (at, addr, len, flags, next) in
        [(0, BASE + 32, 24u32, 1u16, 1u16), (16, BASE + 56, 10, 2, 0)]
    {
        mem[at..at + 8].copy_from_slice(&u64::to_le_bytes(addr));
        mem[at + 8..at + 12].copy_from_slice(&len.to_le_bytes());
        mem[at + 12..at + 14].copy_from_slice(&flags.to_le_bytes());
        mem[at + 14..at + 16].copy_from_slice(&next.to_le_bytes());
    }
    request.write(&mut mem[32..]).unwrap();
    device.request(&mut mem, BASE, BASE, 0).unwrap()
}

fn answer(device: &mut Device, told: HostAnswer) -> Answer {
    device.host_answer(&mut [0; 66], BASE, told).unwrap()
}

fn address(block: u64) -> u64 {
    START + block * BLOCK_SIZE
}

const ACK: Answer = Answer::Served {
    resp_type: Response::ACK,
    state: 0,
    length: 10,
    why: None,
};

/// The device of the tests with blocks 1 and 6 to 7 plugged.
fn used() -> Device {
    let mut device = placed();
    assert_eq!(ask(&mut device, Request::plug(address(1), 1)), ACK);
    assert_eq!(ask(&mut device, Request::plug(address(6), 2)), ACK);
    device
}

const TEXT: &str =
    "form=2\nstart=4294967296\nregion=268435456\nrequested=16777216\nusable=268435456\n\
                    plugged=12582912\nrun=1,1\nrun=6,2\n";

#[test]
fn a_device_is_saved_restored_and_used_again() {
    let saved = used();
    assert_eq!(saved.save().unwrap(), TEXT);
    assert_eq!(placed().save().unwrap().lines().last(), Some("plugged=0"));

    // On a device like it that asked for another size, the requested size goes along.
    let mut device = placed();
    device.set_requested_size(128).unwrap();
    device.restore(TEXT.as_bytes()).unwrap();
    assert_eq!(device, saved);
    assert_eq!(again(&device).save().unwrap(), TEXT);

    // Both are used alike from there on.
    for mut device in [saved, device] {
        let full = ask(&mut device, Request::plug(address(10), 2));
        assert_eq!(full, served(Response::NACK, 0));
        assert_eq!(
            ask(&mut device, Request::plug(address(6), 1)),
            in_vain(Why::BlockState)
        );
        assert_eq!(ask(&mut device, Request::plug(address(8), 1)), ACK);
        assert!(device
            .save()
            .unwrap()
            .ends_with("\nplugged=16777216\nrun=1,1\nrun=6,3\n"));
        let asked = ask(&mut device, Request::unplug(address(8), 1));
        assert_eq!(asked, discard(8));
        assert_eq!(device.save(), Err(Error::Pending));
        assert_eq!(answer(&mut device, HostAnswer::Discarded), ACK);
        assert_eq!(device.save().unwrap(), TEXT);
        let asked = ask(&mut device, Request::unplug_all());
        assert_eq!(asked, discard(1));
        assert_eq!(answer(&mut device, HostAnswer::Discarded), discard(6));
        assert_eq!(answer(&mut device, HostAnswer::Discarded), discard(7));
        assert_eq!(answer(&mut device, HostAnswer::Discarded), ACK);
        let none = TEXT.replace("12582912\nrun=1,1\nrun=6,2", "0");
        assert_eq!(device.save().unwrap(), none);
        device.restore(TEXT.as_bytes()).unwrap();
        assert_eq!(device.save().unwrap(), TEXT);
    }
}

#[test]
fn a_device_with_several_regions_is_restored() {
    // 8 GiB at an alignment of 1 GiB: rows and usable size stay as placing left them.
    let mut device = Device::new(8192, 4096, true, Some(1), 65 << 30).unwrap();
    assert_eq!((device.alignment(), device.map_regions()), (1 << 30, 4));
    device.place(1 << 36, 8 << 30, &[1, 2, 3, 4]).unwrap();
    device
        .host_answer(&mut [], 0, HostAnswer::Created(HOST))
        .unwrap();
    let (usable, table) = (device.usable_size(), device.table().to_vec());
    let text = format!(
        "form=2\nstart={}\nregion={}\nrequested=0\nusable={usable}\nplugged={}\nrun=511,2\n",
        1u64 << 36,
        8u64 << 30,
        2 * BLOCK_SIZE
    );
    device.restore(text.as_bytes()).unwrap();
    assert_eq!(device.save().unwrap(), text);
    assert_eq!((device.usable_size(), device.table()), (usable, &table[..]));
    assert_eq!(
        (device.requested_size(), device.plugged_size()),
        (0, 2 * BLOCK_SIZE)
    );
    assert_eq!((device.bitmap()[63], device.bitmap()[64]), (0x80, 1));
}

#[test]
fn what_a_text_cannot_be_laid_on() {
    let refuses = |mut device: Device, why: Error, when: &str| {
        let before = device.clone();
        assert_eq!(device.restore(TEXT.as_bytes()), Err(why), "{when}");
        assert_eq!(device, before, "{when}");
    };
    let mut unplaced = Device::new(256, 16, false, None, 1 << 30).unwrap();
    refuses(unplaced.clone(), Error::BadSave, "not placed");
    unplaced.place(START, 256 << 20, &[1]).unwrap();
    refuses(unplaced, Error::Pending, "a host call is pending");
    refuses(used(), Error::BadSave, "blocks are plugged");

    // A word of the record is another, or a bit is set: block size 12, the others 18, and 12 before 18.
    let good = placed();
    for (at, word, why) in [
        (0, 2 * BLOCK_SIZE, Error::BadRecord),
        (2, START + 128 * MIB, Error::BadSave),
        (4, 252 * MIB, Error::BadSave),
        (5, BLOCK_SIZE, Error::BadSave),
        (10, 0, Error::BadSave),
    ] {
        let mut record = *good.record();
        record[at] = word;
        match Device::from_parts(&record, good.bitmap(), good.table()) {
            Ok(device) => refuses(device, why, &format!("word {at} is {word}")),
            Err(found) => assert_eq!(found, why, "word {at}"),
        }
    }
    for block in [0, 1, 63] {
        let mut bitmap = good.bitmap().to_vec();
        bitmap[block / 8] |= 1 << (block % 8);
        let device = Device::from_parts(good.record(), &bitmap, good.table()).unwrap();
        assert_eq!(
            device.save(),
            Err(Error::BadSave),
            "block {block} is set and not counted"
        );
        refuses(device, Error::BadSave, "a block is set");
    }
    let mut larger = Device::new(512, 16, false, None, 1 << 30).unwrap();
    larger.place(START, 512 << 20, &[1]).unwrap();
    larger
        .host_answer(&mut [], 0, HostAnswer::Created(HOST))
        .unwrap();
    refuses(larger, Error::BadSave, "another region");
}

#[test]
fn what_is_no_text() {
    let without = |line: &str| TEXT.replace(line, "");
    let refused = [
        String::new(),
        "form=2\n".into(),
        "form=2".into(),
        without("form=2\n"),
        without("start=4294967296\n"),
        without("plugged=12582912\n"),
        without("run=6,2\n"),
        TEXT.trim_end().into(),
        format!("{TEXT}\n"),
        format!("{TEXT}run=9,0\n"),
        format!("{TEXT}other=1\n"),
        format!(" {TEXT}"),
        TEXT.replace('\n', "\r\n"),
        TEXT.replace("form=2", "form=0"),
        TEXT.replace("form=2", "form=1"),
        TEXT.replace("form=2", "form=02"),
        TEXT.replace("form=2", "form=18446744073709551616"),
        TEXT.replace("form=2\n", "form=3"),
        TEXT.replace("start=4294967296", "start=4294967297"),
        TEXT.replace("start=4294967296", "start=04294967296"),
        TEXT.replace("start=4294967296", "start=18446744073441116160"),
        TEXT.replace("region=268435456", "region=134217728"),
        TEXT.replace("requested=16777216", "requested=16777217"),
        TEXT.replace("usable=268435456", "usable=29360128"),
        TEXT.replace("usable=268435456", "usable=272629760"),
        TEXT.replace("plugged=12582912", "plugged=8388608"),
        TEXT.replace("run=1,1\nrun=6,2", "run=6,2\nrun=1,1"),
        TEXT.replace("run=1,1\nrun=6,2", "run=6,1\nrun=7,2"),
        TEXT.replace("run=1,1\nrun=6,2", "run=1,1\nrun=1,2"),
        TEXT.replace("run=6,2", "run=63,2"),
        TEXT.replace("run=6,2", "run=6,+2"),
        TEXT.replace("run=1,1\n", "run=0,0\nrun=1,1\n"),
    ];
    for text in refused {
        assert_ne!(text, TEXT);
        assert_eq!(new_to_old(text.as_bytes()), Err(Error::BadSave), "{text:?}");
        assert_eq!(
            placed().restore(text.as_bytes()),
            Err(Error::BadSave),
            "{text:?}"
        );
    }
    // A later form is refused by name, whatever follows.
    for later in ["3", "10", "18446744073709551615"] {
        for rest in ["", "start=1\n", &TEXT[7..], "\n\0\u{e9}"] {
            let text = format!("form={later}\n{rest}");
            assert_eq!(
                new_to_old(text.as_bytes()),
                Err(Error::LaterForm),
                "{text:?}"
            );
            assert_eq!(
                placed().restore(text.as_bytes()),
                Err(Error::LaterForm),
                "{text:?}"
            );
        }
    }
    assert_eq!((Error::BadSave as u64, Error::LaterForm as u64), (18, 19));
    assert_eq!(
        Error::LaterForm.to_string(),
        "a save record of a later form (19)"
    );
}

/// The fields of [`TEXT`] and its old bytes.
fn old_form() -> (Fields, Vec<u8>) {
    let mut old = vec![0; 64];
    for block in [1, 6, 7] {
        old[block] = 1;
    }
    let fields = Fields {
        block_size: BLOCK_SIZE,
        start: START,
        region_size: 256 * MIB,
        requested_size: 16 * MIB,
        usable_size: 256 * MIB,
        plugged_size: 12 * MIB,
    };
    (fields, old)
}

#[test]
fn the_old_form_is_moved_there_and_back() {
    let (fields, old) = old_form();
    assert_eq!(old_to_new(&fields, &old).unwrap(), TEXT);
    assert_eq!(new_to_old(TEXT.as_bytes()).unwrap(), (fields, old));
    // The text of a device is moved as any other.
    let (of_device, _) = new_to_old(used().save().unwrap().as_bytes()).unwrap();
    assert_eq!(of_device, fields);

    // 1 TiB with none, all, the first, the last and every other block: the last is the longest text.
    let last = 262_143;
    for plugs in [
        |_| 0,
        |_| 1,
        |block| u8::from(block == 0),
        |block| u8::from(block == 262_143),
        |block: usize| (block % 2) as u8,
    ] {
        let old: Vec<u8> = (0..=last).map(plugs).collect();
        let blocks = old.iter().filter(|byte| **byte == 1).count() as u64;
        let fields = Fields {
            start: 0u64.wrapping_sub(TIB + 128 * MIB),
            region_size: TIB,
            requested_size: TIB,
            usable_size: TIB,
            plugged_size: blocks * BLOCK_SIZE,
            ..fields
        };
        let text = old_to_new(&fields, &old).unwrap();
        match blocks {
            0 => assert!(text.ends_with("\nplugged=0\n")),
            131_072 => assert_eq!(text.len(), 1_648_502),
            _ => assert!(text.ends_with(&format!(
                "\nrun={},{blocks}\n",
                if old[0] == 1 { 0 } else { last }
            ))),
        }
        assert_eq!(new_to_old(text.as_bytes()).unwrap(), (fields, old));
    }
}

#[test]
fn old_bytes_that_have_no_text() {
    let (fields, old) = old_form();
    let refuses = |fields: Fields, old: &[u8], why: &str| {
        assert_eq!(old_to_new(&fields, old), Err(Error::BadSave), "{why}");
    };
    refuses(fields, &old[..63], "a byte too few");
    refuses(fields, &[&old[..], &[0]].concat(), "a byte too many");
    refuses(fields, &[], "no byte");
    refuses(
        fields,
        &vec![0; 300_000],
        "more bytes than any region has blocks",
    );
    for byte in [2, 0x80, 0xff] {
        let mut old = old.clone();
        old[1] = byte;
        refuses(fields, &old, "a byte above 1");
    }
    let refuses = |fields: Fields| refuses(fields, &old, &format!("{fields:?}"));
    for block_size in [0, 1, 2 * BLOCK_SIZE, u64::MAX] {
        refuses(Fields {
            block_size,
            ..fields
        });
    }
    for start in [1, START + 64 * MIB, 0u64.wrapping_sub(256 * MIB), u64::MAX] {
        refuses(Fields { start, ..fields });
    }
    for region_size in [0, 128 * MIB, 256 * MIB + 1, 512 * MIB, 2 * TIB, u64::MAX] {
        refuses(Fields {
            region_size,
            ..fields
        });
    }
    for requested_size in [1, 260 * MIB, u64::MAX] {
        refuses(Fields {
            requested_size,
            ..fields
        });
    }
    // The last plugged block is the eighth.
    for usable_size in [0, 28 * MIB, 33 * MIB, 260 * MIB, u64::MAX] {
        refuses(Fields {
            usable_size,
            ..fields
        });
    }
    for plugged_size in [0, 8 * MIB, 12 * MIB + 1, 16 * MIB, u64::MAX] {
        refuses(Fields {
            plugged_size,
            ..fields
        });
    }
    let usable_size = 32 * MIB;
    assert!(old_to_new(
        &Fields {
            usable_size,
            ..fields
        },
        &old
    )
    .is_ok());
}
