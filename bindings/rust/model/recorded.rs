// SPDX-License-Identifier: Apache-2.0 AND BSD-3-Clause
//! Random runs of a device under the recorder, for bin/replayed: `recorded_runs FOLDER COUNT SEED` writes, for each n below COUNT,
//! FOLDER/n.trace and what was answered, FOLDER/n.out.

use std::env;
use std::fs::File;
use std::io::BufWriter;
use std::path::Path;
use std::process::exit;

use jambcopper::driver::Request;
use jambcopper::guest::{GuestMemory, Regions};
use jambcopper::recorder::Recorder;
use jambcopper::{Answer, Device, Error, HostAnswer, HostCall, Queue};
use jambcopper::{BLOCK_SIZE, MAP_REGION_SIZE};

#[path = "../../../compare/oracle/src/random.rs"]
mod random;

use random::Random;

/// Where the guest has its memory: its queue in the low region, requests and responses in both.
const LOW: u64 = 1 << 30;
const HIGH: u64 = 3 << 30;
const REGION: u64 = 8192;
const AVAILABLE: u64 = LOW + 2048;
const USED: u64 = LOW + 2312;
const FREE: u64 = 4096;

const HOST: u64 = 0x7f00_0000_0000;

fn main() {
    let args: Vec<String> = env::args().skip(1).collect();
    let numbers: Option<Vec<u64>> = args.iter().skip(1).map(|arg| arg.parse().ok()).collect();
    let Some(&[count, seed]) = numbers.as_deref() else {
        eprintln!("recorded_runs FOLDER COUNT SEED");
        exit(2)
    };
    let mut random = Random::new(seed);
    for nth in 0..count {
        let file = |kind: &str| {
            let path = Path::new(&args[0]).join(format!("{nth}.{kind}"));
            BufWriter::new(File::create(path).expect("a file"))
        };
        let recorder = Recorder::with_answers(file("trace"), file("out"));
        run(&mut random, recorder);
    }
}

/// A device that is recorded, on the queue of a guest.
struct Run<'a> {
    random: &'a mut Random,
    recorder: Recorder,
    device: Device,
    queue: Queue,
    mem: Regions,
    asked: u16,
    /// What the host has been asked and has not answered.
    question: Option<HostCall>,
}

fn run(random: &mut Random, mut recorder: Recorder) {
    let (mut low, mut high) = (vec![0u64; 1024], vec![0u64; 1024]);
    let mut mem = Regions::new();
    for (guest, bytes) in [(LOW, &mut low), (HIGH, &mut high)] {
        // SAFETY: both stay until the run has ended, and are touched as guest memory alone.
        unsafe { mem.add(guest, bytes.as_mut_ptr().cast(), REGION as usize) }.expect("a region");
    }
    let device = make(random, &mut recorder);
    let mut run = Run {
        random,
        recorder,
        device,
        queue: Queue::new(LOW, AVAILABLE, USED),
        mem,
        asked: 0,
        question: None,
    };
    run.place();
    for _ in 0..run.random.pick(&[50, 200, 400]) {
        run.step();
    }
    run.recorder.finish().expect("all of it is written down");
}

fn make(random: &mut Random, recorder: &mut Recorder) -> Device {
    let capacity = random.pick(&[1, 256, 256, 512, 2304, 4096, 8192]);
    let any = 4 * random.below(capacity / 4 + 1);
    let requested = random.pick(&[0, any, any, any]);
    let node = random.pick(&[None, None, Some(0), Some(65_535)]);
    let boot = random.pick(&[0, 1 << 30, 1 << 30, 64 << 30, 65 << 30]);
    let several = random.chance(60);
    let device = recorder.make(capacity, requested, several, node, boot);
    device.expect("a device that can be made")
}

impl Run<'_> {
    /// Places the device, sometimes at a start that is refused first.
    fn place(&mut self) {
        let (alignment, size) = (self.device.alignment(), self.device.region_size());
        let covered = size.max(MAP_REGION_SIZE * self.device.map_regions() as u64);
        let last = (u64::MAX - covered) / alignment;
        let nth = self.random.pick(&[0, 1, 2, 33, last]);
        let slot = self.random.pick(&[0, 1, 7, 4_294_966_000]);
        let slots: Vec<u32> = (slot..).take(self.device.map_regions()).collect();
        let wrong = self.random.below(alignment).max(1);
        if self.random.chance(20) {
            let told = self.recorder.place(&mut self.device, wrong, size, &slots);
            assert_eq!(told, Err(Error::BadStart));
        }
        let start = nth * alignment;
        let told = self.recorder.place(&mut self.device, start, size, &slots);
        self.hear(told.expect("a placing that is not refused"));
        if self.question.is_some() && self.random.chance(90) {
            self.give(HostAnswer::Created(HOST));
        }
    }

    /// Keeps what the host is asked.
    fn hear(&mut self, answer: Answer) {
        self.question = match answer {
            Answer::Wants(question) => Some(question),
            _ => None,
        };
    }

    fn step(&mut self) {
        let pending = self.question.is_some();
        match self.random.below(100) {
            0..=9 => {
                let any = self.random.below(9000);
                let mib = self.random.pick(&[4 * (any % 64), 4 * any, any, 256, 2304]);
                let told = self.recorder.set_requested_size(&mut self.device, mib);
                if let Ok(answer) = told {
                    self.hear(answer);
                }
            }
            10 => self.give(HostAnswer::Failed),
            11 => self.give(HostAnswer::Discarded),
            12 => self.give(HostAnswer::Created(u64::MAX - (3 << 20))),
            13..=85 if pending => self.answer(),
            86..=90 => self.serve(),
            _ => {
                self.ask();
                self.serve();
            }
        }
    }

    /// The host does what it was asked, mostly.
    fn answer(&mut self) {
        let right = match self.question {
            Some(HostCall::Create { slot, .. }) => HostAnswer::Created(HOST + (slot << 36)),
            _ => HostAnswer::Discarded,
        };
        let given = self
            .random
            .pick(&[right, right, right, right, HostAnswer::Failed]);
        self.give(given);
    }

    /// An answer, by the queue or, where no head is out, past it.
    fn give(&mut self, given: HostAnswer) {
        let Run {
            recorder,
            device,
            queue,
            mem,
            ..
        } = self;
        let told = if queue.taken().is_none() && self.random.chance(50) {
            recorder.host_answer(device, &mut [], 0, given)
        } else {
            recorder.serve_guest_answer(device, queue, mem, given)
        };
        match told {
            Ok(answer) => self.hear(answer),
            Err(Error::CreationFailed) => self.question = None,
            Err(_) => (),
        }
    }

    /// The device goes over the queue until it is empty, waits for the host, or refuses.
    fn serve(&mut self) {
        loop {
            let Run {
                recorder,
                device,
                queue,
                mem,
                ..
            } = self;
            match recorder.serve_guest(device, queue, mem) {
                Ok(Some(answer)) => self.hear(answer),
                Ok(None) | Err(_) => return,
            }
        }
    }

    /// The guest puts a request into the available ring, unless that is full: mostly a good one, now and then a bad chain.
    fn ask(&mut self) {
        if self.asked.wrapping_sub(self.queue.next_used()) == 128 {
            return;
        }
        let head = 2 * self.random.below(64);
        let (request, response) = (self.spot(24), self.spot(10));
        let outside = self.random.chance(3);
        let response = if outside { HIGH - 5 } else { response };
        let asked = self.request();
        self.mem.write(request, &asked.to_bytes());
        let length = self.random.pick(&[24, 24, 24, 24, 24, 24, 24, 24, 24, 23]);
        let flags = self.random.pick(&[1, 1, 1, 1, 1, 1, 1, 1, 1, 0, 5]);
        self.descriptor(head, request, length, flags, head + 1);
        self.descriptor(head + 1, response, 10, 2, 0);
        let entry = AVAILABLE + 4 + 2 * u64::from(self.asked % 128);
        self.mem.write_index(entry, head as u16);
        self.asked = self.asked.wrapping_add(1);
        self.mem.write_index(AVAILABLE + 2, self.asked);
    }

    /// Where so many bytes may lie.
    fn spot(&mut self, size: u64) -> u64 {
        let region = self.random.pick(&[LOW, HIGH]);
        region + FREE + self.random.below(REGION - FREE - size)
    }

    fn descriptor(&self, nth: u64, addr: u64, length: u32, flags: u16, next: u64) {
        let at = LOW + 16 * nth;
        self.mem.write(at, &addr.to_le_bytes());
        self.mem.write(at + 8, &length.to_le_bytes());
        self.mem.write(at + 12, &flags.to_le_bytes());
        self.mem.write(at + 14, &(next as u16).to_le_bytes());
    }

    /// Any request, mostly of blocks near the start or a 2 GiB border.
    fn request(&mut self) -> Request {
        let any = self.random.next();
        let border = self.random.pick(&[0, 0, 0, 0, 500, 1012]);
        let block = border + self.random.below(24);
        let addr = self.device.start().wrapping_add(BLOCK_SIZE * block);
        let addr = self.random.pick(&[
            addr,
            addr,
            addr,
            addr,
            addr,
            addr,
            addr,
            addr.wrapping_add(1),
            any,
        ]);
        let request_type = self
            .random
            .pick(&[0, 0, 0, 0, 0, 0, 1, 1, 1, 2, 3, 3, any as u16]);
        let blocks = self.random.pick(&[1, 1, 1, 2, 2, 4, 9, 0, any as u16]);
        Request {
            request_type,
            addr,
            blocks,
        }
    }
}
