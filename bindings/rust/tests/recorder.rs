// SPDX-License-Identifier: Apache-2.0 AND BSD-3-Clause
//! The recorder: the whole example of docs/RULES.md (R12.12) is written down as it stands there, what has no line is left out, and
//! what cannot be written down stops it and nothing else.

use std::io::{self, Write};
use std::sync::{Arc, Mutex};

use jambcopper::driver::Request;
use jambcopper::guest::Regions;
use jambcopper::recorder::{Recorder, Stopped};
use jambcopper::{Answer, Device, Error, HostAnswer, BLOCK_SIZE};

#[allow(dead_code)] // what the queue's tests need more
mod common;
#[allow(dead_code)]
#[path = "common/rings.rs"]
mod rings;

use common::{BASE, HOST, START};
use rings::{Machine, AVAILABLE, MEMORY};

/// What is written, for the test to read; after so many bytes there is no room any more.
#[derive(Clone)]
struct Paper(Arc<Mutex<Vec<u8>>>, usize);

impl Paper {
    fn new(room: usize) -> Paper {
        Paper(Arc::default(), room)
    }

    fn text(&self) -> String {
        String::from_utf8(self.0.lock().unwrap().clone()).unwrap()
    }
}

impl Write for Paper {
    fn write(&mut self, bytes: &[u8]) -> io::Result<usize> {
        let mut written = self.0.lock().unwrap();
        if written.len() + bytes.len() > self.1 {
            return Err(io::ErrorKind::WriteZero.into());
        }
        written.extend(bytes);
        Ok(bytes.len())
    }

    fn flush(&mut self) -> io::Result<()> {
        Ok(())
    }
}

/// A guest whose device is recorded.
struct Desk {
    recorder: Recorder,
    machine: Machine,
    lines: Paper,
    answers: Paper,
}

impl Desk {
    /// The device is made, and not placed.
    fn with_room(lines: Paper, answers: Paper) -> Desk {
        let mut recorder = Recorder::with_answers(lines.clone(), answers.clone());
        let mut machine = Machine::new();
        machine.device = recorder.make(256, 16, false, None, 1 << 30).unwrap();
        Desk {
            recorder,
            machine,
            lines,
            answers,
        }
    }

    fn new() -> Desk {
        Desk::with_room(Paper::new(1 << 20), Paper::new(1 << 20))
    }

    fn place(&mut self) -> Result<Answer, Error> {
        let device = &mut self.machine.device;
        self.recorder.place(device, START, 256 << 20, &[1])
    }

    fn size(&mut self, mib: u64) -> Result<Answer, Error> {
        self.recorder
            .set_requested_size(&mut self.machine.device, mib)
    }

    fn created(&mut self, given: HostAnswer) -> Result<Answer, Error> {
        let device = &mut self.machine.device;
        self.recorder.host_answer(device, &mut [], 0, given)
    }

    /// Guest memory; from the recorded call on it is the machine's again.
    fn regions(&mut self) -> Regions {
        let mut mem = Regions::new();
        // SAFETY: the memory stays where it is, and is touched as guest memory alone while these regions are used.
        unsafe { mem.add(BASE, self.machine.mem.as_mut_ptr(), MEMORY) }.unwrap();
        mem
    }

    fn serve(&mut self) -> Result<Option<Answer>, Error> {
        let mem = self.regions();
        let Machine { device, queue, .. } = &mut self.machine;
        self.recorder.serve_guest(device, queue, &mem)
    }

    fn answer(&mut self, given: HostAnswer) -> Result<Answer, Error> {
        let mem = self.regions();
        let Machine { device, queue, .. } = &mut self.machine;
        self.recorder.serve_guest_answer(device, queue, &mem, given)
    }

    fn ask(&mut self, request: Request) -> Result<Option<Answer>, Error> {
        self.machine.ask(0, request);
        self.serve()
    }

    /// Plays the guest and the host of the whole example.
    fn example(&mut self) {
        self.place().unwrap();
        self.created(HostAnswer::Created(HOST)).unwrap();
        self.ask(Request::plug(START, 2)).unwrap();
        self.ask(Request::plug(START + 2 * BLOCK_SIZE, 3)).unwrap();
        self.ask(Request::state(START + BLOCK_SIZE, 2)).unwrap();
        self.ask(Request::unplug_all()).unwrap();
        self.answer(HostAnswer::Discarded).unwrap();
        self.answer(HostAnswer::Failed).unwrap();
        self.size(20).unwrap();
    }

    /// What was written is the example, whose files end without a newline.
    fn wrote_the_example(&self) {
        let (lines, answers) = (self.lines.text(), self.answers.text());
        let expected = include_str!("../../../crates/trace/stdin").trim_end();
        assert_eq!(lines, format!("{expected}\n"));
        let expected = include_str!("../../../crates/trace/stdout").trim_end();
        assert_eq!(answers, format!("{expected}\n"));
    }
}

#[test]
fn the_whole_example_is_written_as_it_stands() {
    let mut desk = Desk::new();
    desk.example();
    desk.wrote_the_example();
    desk.recorder.finish().unwrap();
}

#[test]
fn every_request_has_its_numbers() {
    let mut desk = Desk::new();
    desk.place().unwrap();
    desk.created(HostAnswer::Created(HOST)).unwrap();
    for (op, request_type) in [("plug", 0), ("unplug", 1), ("state", 3)] {
        for (addr, blocks) in [(0, 0), (u64::MAX, 65_535), (0x0102_0304_0506_0708, 0x090a)] {
            let request = Request {
                request_type,
                addr,
                blocks,
            };
            desk.ask(request).unwrap();
            let line = format!("op={op} addr={addr} blocks={blocks}");
            assert_eq!(desk.lines.text().lines().last(), Some(&*line));
        }
    }
    let all = Request {
        request_type: 2,
        addr: 7,
        blocks: 8,
    };
    desk.ask(all).unwrap();
    assert_eq!(desk.lines.text().lines().last(), Some("op=unplug_all"));
    desk.size(u64::MAX).unwrap_err();
    let line = format!("op=size mib={}", u64::MAX);
    assert_eq!(desk.lines.text().lines().last(), Some(&*line));
    desk.recorder.finish().unwrap();
}

#[test]
fn what_has_no_line_is_left_out() {
    let mut desk = Desk::new();
    // Before the placing: what is refused, and a placing that is.
    assert_eq!(desk.size(8), Err(Error::NotPlaced));
    assert_eq!(desk.created(HostAnswer::Failed), Err(Error::NotPending));
    assert_eq!(desk.serve(), Err(Error::NotPlaced));
    let device = &mut desk.machine.device;
    let told = desk.recorder.place(device, START + 1, 256 << 20, &[1]);
    assert_eq!(told, Err(Error::BadStart));
    assert_eq!((desk.lines.text(), desk.answers.text()), Default::default());

    desk.place().unwrap();
    assert_eq!(desk.serve(), Err(Error::Pending));
    assert_eq!(desk.created(HostAnswer::Discarded), Err(Error::WrongAnswer));
    desk.created(HostAnswer::Created(HOST)).unwrap();
    assert_eq!(desk.place(), Err(Error::Placed));
    desk.ask(Request::plug(START, 2)).unwrap();
    desk.ask(Request::plug(START + 2 * BLOCK_SIZE, 3)).unwrap();
    assert_eq!(desk.serve(), Ok(None));
    let unknown = Request {
        request_type: 4,
        ..Request::state(START, 1)
    };
    assert_eq!(desk.ask(unknown), Ok(Some(Answer::Unserved { reason: 0 })));
    desk.machine.offer(128);
    assert_eq!(desk.serve(), Ok(Some(Answer::Unserved { reason: 21 })));
    let index = desk.machine.get(AVAILABLE + 2);
    desk.machine
        .put(AVAILABLE + 2, &(index + 129).to_le_bytes());
    assert_eq!(desk.serve(), Err(Error::BadIndex));
    desk.machine.put(AVAILABLE + 2, &index.to_le_bytes());
    // A response that is not delivered: the request has its line all the same.
    desk.machine.ask(0, Request::state(START + BLOCK_SIZE, 2));
    desk.machine.descriptor(1, MEMORY, 10, 2, 0);
    let told = desk.serve().unwrap().unwrap();
    assert!(matches!(told, Answer::Served { length: 0, .. }), "{told:?}");

    desk.ask(Request::unplug_all()).unwrap();
    assert_eq!(desk.serve(), Err(Error::Pending));
    let rings = *desk.machine.queue.words();
    desk.machine = desk.machine.with(&[(1, 0)]);
    assert_eq!(desk.answer(HostAnswer::Discarded), Err(Error::RingOutside));
    desk.machine = desk.machine.with(&[(1, rings[1])]);
    let wrong = desk.answer(HostAnswer::Created(HOST));
    assert_eq!(wrong, Err(Error::WrongAnswer));
    desk.answer(HostAnswer::Discarded).unwrap();
    desk.answer(HostAnswer::Failed).unwrap();
    desk.size(20).unwrap();
    desk.wrote_the_example();
    desk.recorder.finish().unwrap();
}

/// The recorder has stopped, and the device has gone on.
fn stopped(desk: Desk, lines: usize) -> Stopped {
    assert_eq!(desk.lines.text().lines().count(), lines);
    assert!(desk.recorder.stopped().is_some());
    desk.recorder.finish().unwrap_err()
}

#[test]
fn slots_that_do_not_count_up_have_no_line() {
    for (slots, written) in [
        ([7, 8], true),
        ([4_294_966_000, 4_294_966_001], true),
        ([7, 9], false),
        ([8, 7], false),
        ([4_294_966_001, 4_294_966_002], false),
        ([u32::MAX, 0], false),
    ] {
        let lines = Paper::new(1 << 20);
        let mut recorder = Recorder::new(lines.clone());
        let mut device = recorder.make(4096, 0, true, Some(3), 1 << 30).unwrap();
        let told = recorder.place(&mut device, START, 4 << 30, &slots);
        assert_eq!(told, Ok(Answer::Sized));
        let line = format!(
            "capacity_mib=4096 requested_mib=0 multi=1 node=3 boot=1073741824 addr={START} slot={}\n",
            slots[0]
        );
        assert_eq!(lines.text(), if written { line } else { String::new() });
        let stopped = recorder.finish();
        assert_eq!(matches!(stopped, Err(Stopped::Slots)), !written);
    }
}

#[test]
fn a_second_placing_has_no_line() {
    let mut desk = Desk::new();
    desk.place().unwrap();
    assert_eq!(desk.created(HostAnswer::Failed), Err(Error::CreationFailed));
    assert_eq!(desk.size(8), Err(Error::NotPlaced));
    assert!(desk.recorder.stopped().is_none());
    desk.place().unwrap();
    assert_eq!(desk.created(HostAnswer::Created(HOST)), Ok(Answer::Sized));
    assert!(desk.machine.device.is_placed());
    assert!(matches!(stopped(desk, 3), Stopped::PlacedAgain));
}

#[test]
fn a_call_that_was_not_seen_stops_it() {
    let mut desk = Desk::new();
    desk.place().unwrap();
    desk.created(HostAnswer::Created(HOST)).unwrap();
    desk.machine.device.set_requested_size(8).unwrap();
    assert_eq!(desk.size(12), Ok(Answer::Sized));
    assert!(matches!(stopped(desk, 2), Stopped::Unseen));

    // A device that the recorder has not made.
    let mut desk = Desk::new();
    desk.machine.device = Device::new(512, 16, false, None, 1 << 30).unwrap();
    desk.recorder
        .place(&mut desk.machine.device, START, 512 << 20, &[1])
        .unwrap();
    assert!(matches!(stopped(desk, 0), Stopped::Unseen));

    // A second device that it has made.
    let mut desk = Desk::new();
    desk.place().unwrap();
    desk.machine.device = desk.recorder.make(512, 16, false, None, 1 << 30).unwrap();
    desk.recorder
        .place(&mut desk.machine.device, START, 512 << 20, &[1])
        .unwrap();
    assert!(matches!(stopped(desk, 1), Stopped::Unseen));
}

#[test]
fn a_line_that_cannot_be_written_stops_it() {
    let whole = include_str!("../../../crates/trace/stdin");
    for room in [0, 100, 200, 250] {
        let full = Paper::new(room);
        let mut desk = Desk::with_room(full, Paper::new(1 << 20));
        desk.example();
        assert_eq!(desk.machine.device.requested_size(), 20 << 20);
        let written = desk.lines.text();
        assert!(whole.starts_with(&written));
        let lines = written.lines().count();
        assert_eq!(desk.answers.text().lines().count(), lines);
        let why = stopped(desk, lines);
        assert!(matches!(why, Stopped::Unwritten(_)), "{why}");
    }
}
