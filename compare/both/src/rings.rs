// SPDX-License-Identifier: Apache-2.0 AND BSD-3-Clause
//! The queue of a run that is served from ring to ring: where its parts lie, and chains to be made available, good and bad.

use std::fmt;

use oracle::chains::Chain;
use oracle::guest::{request, Descriptor, Guest, NEXT, WRITE};
use oracle::random::Random;
use oracle::rust::{PLUG, STATE, UNPLUG, UNPLUG_ALL};
use oracle::trace::Op;

use crate::drop_in::DropIn;
use crate::sys::{self, QUEUE_WORDS};

/// Chains that the table has room for, two descriptors each, and the bytes that each has for its request and its response.
const CHAINS: u64 = 64;
const BUFFER: u64 = 64;

/// What a request's ignored bytes are filled with.
const NOISE: u8 = 0xa5;

/// Lent behind the queue's words, and never to be touched.
const SPARE: u64 = 0xcc;

/// Guest memory, the queue's three parts and the chains' buffers in it, and the index at which both sides begin.
#[derive(Clone, Copy, Debug)]
pub struct Layout {
    pub base: u64,
    pub length: usize,
    table: u64,
    available: u64,
    used: u64,
    buffers: u64,
    index: u16,
}

impl Layout {
    /// The four parts in any order, aligned as the standard says, the last of them up to the memory's end.
    pub fn any(random: &mut Random) -> Layout {
        let sizes = [2048, 262, 1030, CHAINS * BUFFER];
        let alignments = [16, 2, 4, 1];
        let mut order = [0, 1, 2, 3];
        for left in (1..4).rev() {
            order.swap(left, random.below(left as u64 + 1) as usize);
        }
        let (mut at, mut end) = ([0; 4], 0u64);
        for part in order {
            at[part] = (end + random.below(64)).next_multiple_of(alignments[part]);
            end = at[part] + sizes[part];
        }
        let base = random.pick(&[4096, 4096, 16, (1 << 32) - 4096, u64::MAX - 15 - (1 << 14)]);
        let index = random.next() as u16;
        Layout {
            base,
            length: end as usize,
            table: base + at[0],
            available: base + at[1],
            used: base + at[2],
            buffers: base + at[3],
            index: random.pick(&[0, 65_535, 65_500, 65_408, 32_767, index]),
        }
    }

    pub fn guest(&self) -> Guest {
        let (base, length) = (self.base, self.length);
        let guest = Guest::with_rings(base, length, self.table, self.available, self.used);
        let mut guest = guest.expect("a range below 2^64");
        guest.begin_at(self.index);
        guest
    }

    /// A head as a chain in guest memory.
    pub fn chain(&self, head: u16, memory: &[u8]) -> Chain {
        Chain {
            base: self.base,
            table: self.table,
            head,
            memory: memory.to_vec(),
        }
    }

    /// Has the drop-in activated with such a guest.
    pub fn activate(&self, device: &mut DropIn) {
        let rings = [self.table, self.available, self.used];
        device.activate_with_rings(self.base, self.length, rings, self.index);
    }

    /// The proved device's queue with no head out, both indices here, and a word lent behind it.
    pub fn words(&self, index: u16) -> [u64; QUEUE_WORDS + 1] {
        let index = u64::from(index);
        let (table, available, used) = (self.table, self.available, self.used);
        [table, available, used, index, index, 0, SPARE]
    }
}

/// The proved device's queue, with a word behind it, and the heads that wait in the available ring.
pub struct Rings {
    pub layout: Layout,
    pub words: [u64; QUEUE_WORDS + 1],
    pub waiting: Vec<u16>,
}

impl Rings {
    pub fn new(layout: Layout) -> Rings {
        let mut words = [SPARE; QUEUE_WORDS + 1];
        let number = sys::queue_make(&mut words, layout.table, layout.available, layout.used);
        assert_eq!((number, words), (0, layout.words(0)));
        Rings {
            layout,
            words: layout.words(layout.index),
            waiting: Vec::new(),
        }
    }
}

/// A chain to be made available: its head, its two descriptors with their indices, and its request with its place.
#[derive(Clone, Copy, Debug)]
pub struct Put {
    head: u16,
    first: (u16, Descriptor),
    second: (u16, Descriptor),
    at: u64,
    kind: u16,
    addr: u64,
    blocks: u16,
}

impl Put {
    /// A chain of this request; one of four departs from a good one somewhere, where mem.rs and the rules agree.
    pub fn any(random: &mut Random, op: Op, layout: &Layout) -> Put {
        let (kind, addr, blocks) = match op {
            Op::Plug { addr, blocks } => (PLUG, addr, blocks),
            Op::Unplug { addr, blocks } => (UNPLUG, addr, blocks),
            Op::State { addr, blocks } => (STATE, addr, blocks),
            Op::UnplugAll => (UNPLUG_ALL, 0, 0),
            Op::Size { .. } | Op::Host { .. } => panic!("no request: {op}"),
        };
        // The last place is for unplug-alls, and no other head leads there.
        let last = CHAINS - 1;
        let place = if kind == UNPLUG_ALL {
            last
        } else {
            random.below(last)
        };
        let turn = random.below(2) as u16;
        let (one, two) = (2 * place as u16 + turn, 2 * place as u16 + 1 - turn);
        let at = layout.buffers + BUFFER * place + random.below(9);
        let mut put = Put {
            head: one,
            first: (
                one,
                Descriptor {
                    addr: at,
                    len: 24,
                    flags: NEXT,
                    next: two,
                },
            ),
            second: (
                two,
                Descriptor {
                    addr: at + 24 + random.below(9),
                    len: 10,
                    flags: WRITE,
                    next: 0,
                },
            ),
            at,
            kind,
            addr,
            blocks,
        };
        if kind != UNPLUG_ALL && random.chance(25) {
            put.turn_bad(random, layout);
        }
        put
    }

    fn turn_bad(&mut self, random: &mut Random, layout: &Layout) {
        let (base, end) = (layout.base, layout.base + layout.length as u64);
        let (first, second) = (&mut self.first.1, &mut self.second.1);
        match random.below(11) {
            0 => self.kind = random.pick(&[4, 5, 65_535]),
            1 => first.addr = random.pick(&[base - 1, end - 23, end, u64::MAX, 0]),
            2 => first.len = random.pick(&[0, 10, 23, 25, u32::MAX]),
            3 => first.flags = random.pick(&[0, WRITE, NEXT | WRITE, NEXT | 8, 0xfff9]),
            4 => first.next = random.pick(&[128, 129, 65_535]),
            // Wholly outside, or on a request: its own, or another's, whose type stays.
            5 => second.addr = random.pick(&[end, u64::MAX, base - 10]),
            6 => second.addr = random.pick(&[self.at, layout.buffers + BUFFER * (CHAINS - 2) + 9]),
            7 => second.len = random.pick(&[0, 1, 9, 11, 4096, u32::MAX]),
            8 => second.flags = random.pick(&[0, NEXT]),
            9 => second.flags = random.pick(&[WRITE | NEXT, WRITE | 8, 0xfffa]),
            _ => self.head = random.below(2 * (CHAINS - 1)) as u16,
        }
    }

    /// Writes the chain and puts its head into the available ring; gives the head.
    pub fn write(&self, guest: &mut Guest) -> u16 {
        let mut bytes = request(self.kind, self.addr, self.blocks);
        bytes[2..8].fill(NOISE);
        bytes[18..].fill(NOISE);
        guest.write(self.at, &bytes);
        guest.describe(self.first.0, self.first.1);
        guest.describe(self.second.0, self.second.1);
        guest.make_available(self.head);
        self.head
    }

    /// An unplug-all is the last that one wake serves: behind one that is refused mem.rs answers otherwise (request 5/12).
    pub fn is_last(&self) -> bool {
        self.kind == UNPLUG_ALL
    }
}

impl fmt::Display for Put {
    fn fmt(&self, f: &mut fmt::Formatter<'_>) -> fmt::Result {
        let Put {
            head,
            first,
            second,
            at,
            kind,
            addr,
            blocks,
        } = self;
        write!(f, "(available head={head} type={kind} addr={addr} blocks={blocks} at={at} descriptors {first:?} {second:?})")
    }
}
