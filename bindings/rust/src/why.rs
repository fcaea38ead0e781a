// SPDX-License-Identifier: Apache-2.0 AND BSD-3-Clause
//! Why a request is answered with ERROR.

use std::fmt;

/// Why a request is answered with ERROR: the first of these that applies, in their order. As a number (`as u64`) it is
/// the library's, and what the trace program prints as `why=`.
///
/// The guest reads ERROR and no reason. A plug that would pass the requested size is NACK, wherever its range is, and
/// has no reason. A request for the state of blocks has the first six alone.
#[derive(Clone, Copy, Debug, PartialEq, Eq, Hash)]
#[repr(u64)]
pub enum Why {
    /// The address is not a multiple of 4 MiB.
    Alignment = 1,
    /// The request is for no blocks.
    ZeroBlocks = 2,
    /// The address plus the size passes 2^64 - 1.
    Overflow = 3,
    /// The range begins below the start of the region.
    BelowStart = 4,
    /// The range begins at or past the end of the usable size.
    PastUsable = 5,
    /// The range begins inside the usable size and ends past it.
    EndPastUsable = 6,
    /// A block of the range is plugged already or, for an unplug, is not plugged.
    BlockState = 7,
    /// The range crosses a 2 GiB border of offsets, in a device with several map regions.
    CrossedBorder = 8,
    /// The range's row of the map table is not mapped. No device in a run has such a row: it was made of parts
    /// ([`crate::Device::from_parts`]) that no device has left.
    UnmappedRow = 9,
    /// The row's host address, plus the range's offset and size, passes 2^64 - 1. No device in a run has such a row
    /// either.
    HostSum = 10,
    /// The host could not discard the memory. For an unplug-all: that of one of its blocks.
    FailedDiscard = 11,
}

impl Why {
    /// The reason of a number, and none for 0.
    #[inline]
    pub(crate) fn of(number: u64) -> Option<Why> {
        Some(match number {
            0 => return None,
            1 => Why::Alignment,
            2 => Why::ZeroBlocks,
            3 => Why::Overflow,
            4 => Why::BelowStart,
            5 => Why::PastUsable,
            6 => Why::EndPastUsable,
            7 => Why::BlockState,
            8 => Why::CrossedBorder,
            9 => Why::UnmappedRow,
            10 => Why::HostSum,
            11 => Why::FailedDiscard,
            _ => unreachable!("the library says why with 0 to 11"),
        })
    }
}

impl fmt::Display for Why {
    fn fmt(&self, f: &mut fmt::Formatter<'_>) -> fmt::Result {
        let what = match self {
            Why::Alignment => "the address is no multiple of 4 MiB",
            Why::ZeroBlocks => "the request is for no blocks",
            Why::Overflow => "the address plus the size passes 2^64 - 1",
            Why::BelowStart => "the range begins below the start of the region",
            Why::PastUsable => "the range begins at or past the end of the usable size",
            Why::EndPastUsable => "the range ends past the end of the usable size",
            Why::BlockState => "a block is plugged already or, for an unplug, is not plugged",
            Why::CrossedBorder => "the range crosses a 2 GiB border of several map regions",
            Why::UnmappedRow => "the range's row of the map table is not mapped",
            Why::HostSum => "a host address from which the range would pass 2^64 - 1",
            Why::FailedDiscard => "the host could not discard the memory",
        };
        write!(f, "{what} ({})", *self as u64)
    }
}
