// SPDX-License-Identifier: Apache-2.0 AND BSD-3-Clause
//! Which ERROR it was: a model of the reasons 1 to 11, by the words of request 8/12, with numbers that do not wrap. It
//! knows neither mem.rs, which has no reason, nor the proved device.

/// Blocks of 4 MiB, and map regions of 2 GiB.
const BLOCK: u128 = 4 << 20;
const MAP_REGION: u128 = 2 << 30;

/// The largest address.
const LAST: u128 = u64::MAX as u128;

/// "alignment, zero blocks, overflow, below start, at or past the usable end, end past the usable end", then "wrong
/// block state, crossed border, unmapped row, host sum and failed discard": "1 to 11 in the order just given, 0 for ACK
/// and NACK".
const NONE: u64 = 0;
const ALIGNMENT: u64 = 1;
const ZERO_BLOCKS: u64 = 2;
const OVERFLOW: u64 = 3;
const BELOW_START: u64 = 4;
const PAST_USABLE: u64 = 5;
const END_PAST_USABLE: u64 = 6;
const BLOCK_STATE: u64 = 7;
const CROSSED_BORDER: u64 = 8;
const UNMAPPED_ROW: u64 = 9;
const HOST_SUM: u64 = 10;
const FAILED_DISCARD: u64 = 11;

/// A request.
#[derive(Clone, Copy, Debug, PartialEq, Eq)]
pub enum Asked {
    Plug { addr: u64, blocks: u16 },
    Unplug { addr: u64, blocks: u16 },
    UnplugAll,
    State { addr: u64, blocks: u16 },
}

impl Asked {
    /// By the request's type, where it has one.
    pub fn of(kind: u16, addr: u64, blocks: u16) -> Option<Asked> {
        match kind {
            0 => Some(Asked::Plug { addr, blocks }),
            1 => Some(Asked::Unplug { addr, blocks }),
            2 => Some(Asked::UnplugAll),
            3 => Some(Asked::State { addr, blocks }),
            _ => None,
        }
    }
}

/// A device as it is when a request comes.
pub struct Device<'a> {
    pub start: u64,
    pub usable: u64,
    pub plugged: u64,
    pub requested: u64,
    /// Whether it has several map regions.
    pub several: bool,
    /// The blocks of its region.
    pub blocks: u64,
    pub is_plugged: &'a dyn Fn(u64) -> bool,
    /// Where a row is mapped.
    pub host: &'a dyn Fn(u64) -> Option<u64>,
}

impl Device<'_> {
    /// Why a request has ended as it has, 0 to 11, where the host has given these answers to its discards. None where
    /// it has not ended with them: one more discard would be asked for.
    pub fn why(&self, asked: Asked, granted: &[bool]) -> Option<u64> {
        match asked {
            Asked::Plug { blocks, .. } if self.is_nack(blocks) => Some(NONE),
            Asked::Plug { addr, blocks } => Some(self.of_change(addr, blocks, true)),
            Asked::State { addr, blocks } => Some(self.of_range(addr, blocks)),
            Asked::Unplug { addr, blocks } => match self.of_change(addr, blocks, false) {
                NONE => granted.first().map(|&granted| of_discard(granted)),
                why => Some(why),
            },
            Asked::UnplugAll => self.of_unplug_all(0, granted),
        }
    }

    /// The same of an unplug-all that has come to this block.
    pub fn of_unplug_all(&self, from: u64, granted: &[bool]) -> Option<u64> {
        let mut granted = granted.iter();
        for block in (from..self.blocks).filter(|&block| (self.is_plugged)(block)) {
            let addr = u128::from(self.start) + u128::from(block) * BLOCK;
            let why = match u64::try_from(addr) {
                Ok(addr) => self.of_change(addr, 1, false),
                Err(_) => OVERFLOW,
            };
            if why != NONE {
                return Some(why);
            }
            match granted.next() {
                Some(true) => (),
                Some(false) => return Some(FAILED_DISCARD),
                None => return None,
            }
        }
        Some(NONE)
    }

    /// NACK comes before the range is looked at.
    fn is_nack(&self, blocks: u16) -> bool {
        u128::from(self.plugged) + size(blocks) > u128::from(self.requested)
    }

    fn of_range(&self, addr: u64, blocks: u16) -> u64 {
        let (addr, start) = (u128::from(addr), u128::from(self.start));
        let (end, usable_end) = (addr + size(blocks), start + u128::from(self.usable));
        let parts = [
            (addr % BLOCK != 0, ALIGNMENT),
            (blocks == 0, ZERO_BLOCKS),
            (end > LAST, OVERFLOW),
            (addr < start, BELOW_START),
            (addr >= usable_end, PAST_USABLE),
            (end > usable_end, END_PAST_USABLE),
        ];
        first_of(&parts)
    }

    /// Of a plug or an unplug of these blocks.
    fn of_change(&self, addr: u64, blocks: u16, plug: bool) -> u64 {
        let why = self.of_range(addr, blocks);
        if why != NONE {
            return why;
        }
        // A good range lies behind the start and has a block.
        let offset = u128::from(addr) - u128::from(self.start);
        let (first, last) = (offset, offset + size(blocks) - 1);
        let mut range = (first / BLOCK) as u64..=(last / BLOCK) as u64;
        let (row, inside) = match self.several {
            true => (first / MAP_REGION, first % MAP_REGION),
            false => (0, first),
        };
        let host = (self.host)(row as u64);
        let sum = u128::from(host.unwrap_or(0)) + inside + size(blocks);
        let crossed = self.several && first / MAP_REGION != last / MAP_REGION;
        let parts = [
            (
                range.any(|block| (self.is_plugged)(block) == plug),
                BLOCK_STATE,
            ),
            (crossed, CROSSED_BORDER),
            (host.is_none(), UNMAPPED_ROW),
            (sum > LAST, HOST_SUM),
        ];
        first_of(&parts)
    }
}

/// Of a discard that the host was asked for last.
pub fn of_discard(granted: bool) -> u64 {
    if granted {
        NONE
    } else {
        FAILED_DISCARD
    }
}

fn size(blocks: u16) -> u128 {
    u128::from(blocks) * BLOCK
}

/// The first that has failed is told.
fn first_of(parts: &[(bool, u64)]) -> u64 {
    let failed = parts.iter().find(|(failed, _)| *failed);
    failed.map_or(NONE, |&(_, why)| why)
}
