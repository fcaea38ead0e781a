// SPDX-License-Identifier: Apache-2.0 AND BSD-3-Clause
//! The guest's driver: its queue in the one region of its memory, its requests in the other.

use std::io;
use std::sync::atomic::{fence, Ordering};
use std::sync::mpsc::{channel, Receiver, Sender};

use jambcopper::driver::{plan, Config, Request, Response, REQUEST_BYTES, RESPONSE_BYTES};
use jambcopper::guest::GuestMemory;
use jambcopper::{Error, BLOCK_SIZE};

use crate::host::{Host, RAM, START};
use crate::kernel::Event;

const QUEUE_SIZE: u16 = 128;

/// Where the descriptor table, the available and the used ring lie, and where the used ring ends.
pub const QUEUE: [u64; 3] = [RAM[0], RAM[0] + 2048, RAM[0] + 2312];
pub const QUEUE_BYTES: usize = 2312 + 1030;

/// Each two descriptors have a request and room for its response, so many bytes apart.
pub const EXCHANGES: usize = QUEUE_SIZE as usize / 2;
pub const EXCHANGE_BYTES: usize = 40;

/// So many milliseconds a guest waits for an event that must come.
const PATIENCE: i32 = 60_000;

/// The flags of a descriptor.
const NEXT: u16 = 1;
const WRITE: u16 = 2;

/// A driver. Both indices count what it has ever put in or taken out, and wrap.
pub struct Driver<'a> {
    host: &'a Host,
    queue: [u64; 3],
    put: u16,
    taken: u16,
    /// The blocks that it takes for plugged.
    believed: Vec<u8>,
}

impl Driver<'_> {
    /// A driver that has set up its queue.
    pub fn new(host: &Host) -> Driver<'_> {
        let mut driver = Driver {
            host,
            queue: QUEUE,
            put: 0,
            taken: 0,
            believed: Vec::new(),
        };
        let blocks = driver.config().region_size / BLOCK_SIZE;
        driver.believed = vec![0; blocks.div_ceil(8) as usize];
        driver.set_up(QUEUE);
        driver
    }

    /// Sets up an empty queue, and tells the host where it is.
    pub fn set_up(&mut self, queue: [u64; 3]) {
        let [_, available, used] = queue;
        (self.queue, self.put, self.taken) = (queue, 0, 0);
        self.host.stop_queue();
        self.host.memory().write_index(available + 2, 0);
        self.host.memory().write_index(used + 2, 0);
        self.host.start_queue(queue);
    }

    pub fn config(&self) -> Config {
        Config::read(&self.host.read_config()).expect("a config")
    }

    /// Puts a request into the available ring: a chain of two descriptors, the entry, then the index.
    pub fn put(&mut self, request: Request) {
        let memory = self.host.memory();
        let [descriptors, available, _] = self.queue;
        let (head, there) = exchange(self.put);
        let response = there + REQUEST_BYTES as u64;
        memory.write(there, &request.to_bytes());
        memory.write(response, &[0xff; RESPONSE_BYTES]); // which is none
        let at = descriptors + 16 * u64::from(head);
        memory.write(at, &descriptor(there, REQUEST_BYTES, NEXT, head + 1));
        memory.write(at + 16, &descriptor(response, RESPONSE_BYTES, WRITE, 0));
        let entry = available + 4 + 2 * u64::from(self.put % QUEUE_SIZE);
        memory.write(entry, &head.to_le_bytes());
        self.put = self.put.wrapping_add(1);
        fence(Ordering::Release);
        memory.write_index(available + 2, self.put);
    }

    /// Takes the next element out of the used ring, if it has one: the response to the oldest request.
    pub fn take(&mut self) -> Option<Response> {
        let memory = self.host.memory();
        let [.., used] = self.queue;
        if memory.read_index(used + 2) == Some(self.taken) {
            return None;
        }
        fence(Ordering::Acquire);
        let (head, there) = exchange(self.taken);
        let (mut element, mut response) = ([0; 8], [0; RESPONSE_BYTES]);
        memory.read(
            used + 4 + 8 * u64::from(self.taken % QUEUE_SIZE),
            &mut element,
        );
        memory.read(there + REQUEST_BYTES as u64, &mut response);
        let reported = u64::from(head) | (RESPONSE_BYTES as u64) << 32;
        assert_eq!(
            u64::from_le_bytes(element),
            reported,
            "the head, and a response"
        );
        self.taken = self.taken.wrapping_add(1);
        Some(Response::read(&response).expect("a response"))
    }

    /// Leaves what is in the used ring, whatever it is.
    pub fn skip(&mut self) {
        let [.., used] = self.queue;
        self.taken = self.host.memory().read_index(used + 2).unwrap_or(0);
    }

    /// Asks, and waits for the response.
    pub fn ask(&mut self, request: Request) -> io::Result<Response> {
        Ok(self.ask_all(&[request])?[0])
    }

    /// Asks all at once, and waits for the responses.
    pub fn ask_all(&mut self, requests: &[Request]) -> io::Result<Vec<Response>> {
        requests.iter().for_each(|&request| self.put(request));
        self.host.kick.signal()?;
        let mut responses = Vec::new();
        while responses.len() < requests.len() {
            match self.take() {
                Some(response) => responses.push(response),
                None => wait(&self.host.notify)?,
            }
        }
        Ok(responses)
    }

    /// Asks for blocks to be plugged or unplugged, and believes what is acknowledged: the response's type.
    pub fn change(&mut self, request: Request) -> io::Result<u16> {
        let Response { resp_type, .. } = self.ask(request)?;
        match (resp_type, request.request_type) {
            (Response::ACK, Request::UNPLUG_ALL) => self.believed.fill(0),
            (Response::ACK, _) => {
                let first = (request.addr - START) / BLOCK_SIZE;
                for block in first..first + u64::from(request.blocks) {
                    self.believe(block, request.request_type == Request::PLUG);
                }
            }
            _ => {}
        }
        Ok(resp_type)
    }

    /// Asks for each block below the usable end whether it is plugged, and believes it.
    pub fn learn(&mut self) -> io::Result<()> {
        self.believed.fill(0);
        for block in 0..self.config().usable_size / BLOCK_SIZE {
            let response = self.ask(Request::state(START + block * BLOCK_SIZE, 1))?;
            self.believe(block, response.state == Response::PLUGGED);
        }
        Ok(())
    }

    fn believe(&mut self, block: u64, plugged: bool) {
        let (byte, bit) = (block as usize / 8, 1 << (block % 8));
        match plugged {
            true => self.believed[byte] |= bit,
            false => self.believed[byte] &= !bit,
        }
    }

    /// The plug that is proposed, if there is one.
    pub fn plan(&self) -> Option<Request> {
        match plan(&self.host.read_config(), &self.believed) {
            Ok(plug) => Some(plug),
            Err(Error::NoPlug) => None,
            Err(other) => panic!("no plan: {other}"),
        }
    }

    /// Has plugged what it is asked to have, as often as that changes, until that is so many bytes.
    pub fn follow(&mut self, last: u64) -> io::Result<()> {
        while self.settle()? != last {
            wait(&self.host.config_changed)?;
        }
        Ok(())
    }

    /// Plugs what is proposed, and touches each block; unplugs the highest block where it has too many. How many bytes it
    /// is asked to have, and has.
    fn settle(&mut self) -> io::Result<u64> {
        loop {
            let config = self.config();
            if config.plugged_size > config.requested_size {
                let last = self.plugged().last().expect("a plugged block");
                self.change(Request::unplug(START + last * BLOCK_SIZE, 1))?;
            } else if config.plugged_size == config.requested_size {
                return Ok(config.requested_size);
            } else if let Some(plug) = self.plan() {
                if self.change(plug)? == Response::ACK {
                    let end = plug.addr + u64::from(plug.blocks) * BLOCK_SIZE;
                    let blocks = (plug.addr..end).step_by(BLOCK_SIZE as usize);
                    blocks.for_each(|block| self.host.touch(block, 1));
                }
            }
        }
    }

    /// Touches every page of what is plugged.
    pub fn touch_all(&self) {
        self.plugged().for_each(|block| self.touch(block, 1));
    }

    /// Touches every page of some blocks.
    pub fn touch(&self, first: u64, blocks: u64) {
        self.host
            .touch(START + first * BLOCK_SIZE, blocks * BLOCK_SIZE);
    }

    /// The plugged blocks, as it believes.
    fn plugged(&self) -> impl Iterator<Item = u64> + '_ {
        let plugged = |&block: &u64| self.believed[block as usize / 8] >> (block % 8) & 1 != 0;
        (0..8 * self.believed.len() as u64).filter(plugged)
    }
}

/// Waits for an event, as long as a guest has patience.
fn wait(event: &Event) -> io::Result<()> {
    match event.wait_for(PATIENCE)? {
        true => Ok(()),
        false => Err(io::ErrorKind::TimedOut.into()),
    }
}

/// The head of the nth request, and where it lies.
fn exchange(nth: u16) -> (u16, u64) {
    let exchange = usize::from(nth) % EXCHANGES;
    (
        2 * exchange as u16,
        RAM[1] + (exchange * EXCHANGE_BYTES) as u64,
    )
}

fn descriptor(addr: u64, length: usize, flags: u16, next: u16) -> [u8; 16] {
    let behind = length as u64 | u64::from(flags) << 32 | u64::from(next) << 48;
    (u128::from(addr) | u128::from(behind) << 64).to_le_bytes()
}

/// What a guest's thread is given to do.
type Work = Box<dyn FnOnce(&mut Driver) + Send>;

/// The guest's thread as its host's operator has it: what it is given to do, its driver does there.
pub struct Guest(Sender<Work>);

impl Guest {
    pub fn new() -> (Guest, Receiver<Work>) {
        let (give, given) = channel();
        (Guest(give), given)
    }

    /// Starts some work, whose result comes when it has ended.
    pub fn start<T: Send + 'static>(
        &self,
        work: impl FnOnce(&mut Driver) -> T + Send + 'static,
    ) -> Receiver<T> {
        let (tell, told) = channel();
        let work = move |driver: &mut Driver| drop(tell.send(work(driver)));
        self.0.send(Box::new(work)).expect("a guest");
        told
    }

    /// Has some work done.
    pub fn run<T: Send + 'static>(
        &self,
        work: impl FnOnce(&mut Driver) -> T + Send + 'static,
    ) -> T {
        self.start(work).recv().expect("a guest")
    }
}
