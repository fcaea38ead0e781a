// SPDX-License-Identifier: Apache-2.0 AND BSD-3-Clause
//! An account of a device, kept by docs/RULES.md from its requests and from the host's answers: which blocks are plugged
//! by what was acknowledged, the sizes, and what each answer must be.

use std::ops::Range;

use jambcopper::driver::{Request, Response, RESPONSE_BYTES};
use jambcopper::guest::GuestMemory;
use jambcopper::{Answer, Device, Error, HostAnswer, HostCall, Why, BLOCK_SIZE, MAP_REGION_SIZE};

const MIB: u64 = 1 << 20;

/// A request, and where its response goes.
pub type Asked = (Request, u64);

/// A response's type, and why it is ERROR.
type Verdict = (u16, Option<Why>);

const ACK: Verdict = (Response::ACK, None);

/// What a device must be.
pub struct Account {
    start: u64,
    region: u64,
    alignment: u64,
    rows: u64,
    slots: Vec<u32>,
    usable: u64,
    requested: u64,
    blocks: Vec<bool>,
    /// What the host has created: guest address, size and host address.
    created: Vec<(u64, u64, u64)>,
    pending: Option<Pending>,
}

/// What the host is asked: to create memory, or to discard blocks for a request.
enum Pending {
    Create { guest: u64, size: u64 },
    Discard(Range<usize>, Asked),
}

impl Account {
    /// Of a device that is made, and not placed yet.
    pub fn new(device: &Device) -> Account {
        Account {
            start: 0,
            region: device.region_size(),
            alignment: device.alignment(),
            rows: device.map_regions() as u64,
            slots: Vec::new(),
            usable: 0,
            requested: device.requested_size(),
            blocks: vec![false; (device.region_size() / BLOCK_SIZE) as usize],
            created: Vec::new(),
            pending: None,
        }
    }

    /// Usable, plugged and requested size.
    pub fn sizes(&self) -> [u64; 3] {
        [self.usable, self.plugged(), self.requested]
    }

    pub fn has_blocks_of(&self, bitmap: &[u8]) -> bool {
        let bit = |block: usize| bitmap[block / 8] >> (block % 8) & 1 != 0;
        (0..8 * bitmap.len())
            .all(|block| bit(block) == self.blocks.get(block).copied().unwrap_or(false))
    }

    /// R5: a legal placing.
    pub fn placed(&mut self, start: u64, slots: &[u32]) -> Result<Answer, Error> {
        self.start = start;
        self.slots = slots.to_vec();
        if self.rows > 1 {
            return Ok(self.grown());
        }
        Ok(self.wants_creation(0, self.region))
    }

    /// R6: a size change.
    pub fn resized(&mut self, mib: u64) -> Result<Answer, Error> {
        if self.pending.is_some() {
            return Err(Error::Pending);
        }
        if mib > self.region / MIB || !is_whole(mib * MIB) {
            return Err(Error::BadSize);
        }
        self.requested = mib * MIB;
        Ok(self.grown())
    }

    /// R10: the request of a head that was taken.
    pub fn asked(&mut self, asked: Asked, memory: &impl GuestMemory) -> Answer {
        let (request, _) = asked;
        match request.request_type {
            Request::PLUG => match self.change(&request) {
                Ok(blocks) => {
                    self.blocks[blocks].fill(true);
                    served(memory, asked, ACK, 0)
                }
                Err(verdict) => served(memory, asked, verdict, 0),
            },
            Request::UNPLUG => match self.change(&request) {
                Ok(blocks) => self.wants_discard(blocks, asked),
                Err(verdict) => served(memory, asked, verdict, 0),
            },
            Request::UNPLUG_ALL => self.unplug_next(asked, memory),
            Request::STATE => {
                let verdict = self.range(&request).map_or_else(error, |_| ACK);
                served(memory, asked, verdict, self.state(&request))
            }
            _ => Answer::Unserved { reason: 0 },
        }
    }

    /// R11: the host's answer to what it was asked.
    pub fn answered(
        &mut self,
        told: HostAnswer,
        memory: &impl GuestMemory,
    ) -> Result<Answer, Error> {
        match (self.pending.take().ok_or(Error::NotPending)?, told) {
            (Pending::Create { guest, size }, HostAnswer::Created(host)) => {
                self.created.push((guest, size, host));
                Ok(self.grown())
            }
            (Pending::Create { .. }, _) => Err(Error::CreationFailed),
            (Pending::Discard(blocks, asked), HostAnswer::Discarded) => {
                self.blocks[blocks].fill(false);
                Ok(match asked.0.request_type {
                    Request::UNPLUG_ALL => self.unplug_next(asked, memory),
                    _ => served(memory, asked, ACK, 0),
                })
            }
            (Pending::Discard(_, asked), _) => {
                Ok(served(memory, asked, error(Why::FailedDiscard), 0))
            }
        }
    }

    pub fn is_pending(&self) -> bool {
        self.pending.is_some()
    }

    fn plugged(&self) -> u64 {
        self.blocks.iter().filter(|&&plugged| plugged).count() as u64 * BLOCK_SIZE
    }

    /// Wants the memory from a row on, up to an offset.
    fn wants_creation(&mut self, row: u64, end: u64) -> Answer {
        let offset = row * MAP_REGION_SIZE;
        let (guest, size) = (self.start + offset, end - offset);
        let slot = u64::from(self.slots[row as usize]);
        self.pending = Some(Pending::Create { guest, size });
        Answer::Wants(HostCall::Create { guest, size, slot })
    }

    fn wants_discard(&mut self, blocks: Range<usize>, asked: Asked) -> Answer {
        let offset = blocks.start as u64 * BLOCK_SIZE;
        let size = blocks.len() as u64 * BLOCK_SIZE;
        let host = self.host(offset).expect("what is usable is created");
        self.pending = Some(Pending::Discard(blocks, asked));
        Answer::Wants(HostCall::Discard { offset, size, host })
    }

    /// The next block of an unplug-all, or its end.
    fn unplug_next(&mut self, asked: Asked, memory: &impl GuestMemory) -> Answer {
        match self.blocks.iter().position(|&plugged| plugged) {
            Some(block) => self.wants_discard(block..block + 1, asked),
            None => served(memory, asked, ACK, 0),
        }
    }

    /// The host address of an offset whose memory is created.
    fn host(&self, offset: u64) -> Option<u64> {
        let addr = self.start + offset;
        let holds = |&&(guest, size, _): &&(u64, u64, u64)| (guest..guest + size).contains(&addr);
        let &(guest, _, host) = self.created.iter().find(holds)?;
        Some(host + (addr - guest))
    }

    /// The usable size is worked out, where what it needs is created.
    fn grown(&mut self) -> Answer {
        let new = match self.requested {
            0 => 0,
            requested => self.region.min(requested + 2 * self.alignment),
        };
        if new > self.usable {
            let row = |size: u64| (size / MAP_REGION_SIZE).min(self.rows - 1);
            let (mut needed, last) = (row(self.usable)..=row(new), row(new));
            if let Some(row) = needed.find(|row| self.host(row * MAP_REGION_SIZE).is_none()) {
                return self.wants_creation(row, self.region.min((last + 1) * MAP_REGION_SIZE));
            }
            self.usable = new;
        }
        Answer::Sized
    }

    /// The blocks of a request, where test (b) passes; or which part of it fails first.
    fn range(&self, request: &Request) -> Result<Range<usize>, Why> {
        let size = u64::from(request.blocks) * BLOCK_SIZE;
        refuse(!is_whole(request.addr), Why::Alignment)?;
        refuse(size == 0, Why::ZeroBlocks)?;
        let end = request.addr.checked_add(size).ok_or(Why::Overflow)?;
        let offset = request.addr.checked_sub(self.start);
        let offset = offset.ok_or(Why::BelowStart)?;
        refuse(offset >= self.usable, Why::PastUsable)?;
        refuse(end > self.start + self.usable, Why::EndPastUsable)?;
        let first = (offset / BLOCK_SIZE) as usize;
        Ok(first..first + usize::from(request.blocks))
    }

    /// The blocks that a plug changes, or an unplug whose discard is granted; or what it is answered else.
    fn change(&self, request: &Request) -> Result<Range<usize>, Verdict> {
        let size = u64::from(request.blocks) * BLOCK_SIZE;
        let plugs = request.request_type == Request::PLUG;
        if plugs && self.plugged() + size > self.requested {
            return Err((Response::NACK, None));
        }
        self.legal(request, plugs).map_err(error)
    }

    /// The same, behind test (a).
    fn legal(&self, request: &Request, plugs: bool) -> Result<Range<usize>, Why> {
        let blocks = self.range(request)?;
        let row = |block: usize| block as u64 * BLOCK_SIZE / MAP_REGION_SIZE;
        let crosses = self.rows > 1 && row(blocks.start) != row(blocks.end - 1);
        refuse(
            self.blocks[blocks.clone()].contains(&plugs),
            Why::BlockState,
        )?;
        refuse(crosses, Why::CrossedBorder)?;
        Ok(blocks)
    }

    /// The state of such blocks of a request as there are.
    fn state(&self, request: &Request) -> u16 {
        let offset = request.addr.checked_sub(self.start);
        let first = offset.map_or(self.blocks.len(), |offset| {
            (offset / BLOCK_SIZE).min(self.blocks.len() as u64) as usize
        });
        let end = self.blocks.len().min(first + usize::from(request.blocks));
        let blocks = &self.blocks[first..end];
        match (blocks.contains(&true), blocks.contains(&false)) {
            (_, false) => Response::PLUGGED,
            (false, true) => Response::UNPLUGGED,
            (true, true) => Response::MIXED,
        }
    }
}

/// Whether a size or an address is a whole number of blocks.
fn is_whole(size: u64) -> bool {
    size / BLOCK_SIZE * BLOCK_SIZE == size
}

fn refuse(refused: bool, why: Why) -> Result<(), Why> {
    if refused {
        Err(why)
    } else {
        Ok(())
    }
}

fn error(why: Why) -> Verdict {
    (Response::ERROR, Some(why))
}

/// The end of a request, with a response where there is room for it.
fn served(memory: &impl GuestMemory, (_, status): Asked, verdict: Verdict, state: u16) -> Answer {
    let inside = memory.contains(status, RESPONSE_BYTES as u64);
    let (resp_type, why) = verdict;
    Answer::Served {
        resp_type,
        state,
        length: if inside { RESPONSE_BYTES as u32 } else { 0 },
        why,
    }
}
