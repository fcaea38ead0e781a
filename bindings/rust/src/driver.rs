// SPDX-License-Identifier: Apache-2.0 AND BSD-3-Clause
//! The guest's side: a driver's requests, the responses and the config that it reads, and a planner.
//!
//! Nothing here knows a device. A test guest is written with it, and a driver can be: it lays down a [`Request`], reads
//! the [`Response`] and its [`Config`], and asks [`plan`] for the next plug.
//!
//! ```
//! use jambcopper::driver::{plan, Config, Request, Response, CONFIG_BYTES};
//! use jambcopper::Error;
//! # use jambcopper::{Answer, Device, HostAnswer};
//! # let base = 1 << 30;
//! # let mut device = Device::new(256, 16, false, None, 1 << 30)?;
//! # device.place(1 << 32, 256 << 20, &[1])?;
//! # device.host_answer(&mut [], 0, HostAnswer::Created(0x7fff_0000_0000))?;
//! # // Two descriptors, the request behind them at 32, and the response at 56.
//! # let mut ask = |device: &mut Device, request: Request| -> Result<Response, Error> {
//! #     let mut mem = vec![0; 66];
//! #     for (at, addr, len, flags, next) in [(0, base + 32, 24u32, 1u16, 1u16), (16, base + 56, 10, 2, 0)] {
//! #         mem[at..at + 8].copy_from_slice(&u64::to_le_bytes(addr));
//! #         mem[at + 8..at + 12].copy_from_slice(&len.to_le_bytes());
//! #         mem[at + 12..at + 14].copy_from_slice(&flags.to_le_bytes());
//! #         mem[at + 14..at + 16].copy_from_slice(&next.to_le_bytes());
//! #     }
//! #     request.write(&mut mem[32..])?;
//! #     device.request(&mut mem, base, base, 0)?;
//! #     Response::read(&mem[56..])
//! # };
//!
//! // A device of 256 MiB at 4 GiB, of which the guest may have 16 MiB: four blocks. The guest plugs the second one.
//! let response = ask(&mut device, Request::plug((1 << 32) + (4 << 20), 1))?;
//! assert_eq!(response.resp_type, Response::ACK);
//! let mut bitmap = [0; 8];
//! bitmap[0] = 0b10;
//!
//! // From now on it plans: by its config, and by the bitmap that it believes in.
//! let mut config = [0; CONFIG_BYTES];
//! let mut asked = Vec::new();
//! loop {
//!     device.read_config(0, &mut config);
//!     let request = match plan(&config, &bitmap) {
//!         Ok(request) => request,
//!         Err(Error::NoPlug) => break,
//!         Err(other) => return Err(other),
//!     };
//!     assert_eq!(ask(&mut device, request)?.resp_type, Response::ACK);
//!     let first = (request.addr - (1 << 32)) / (4 << 20);
//!     (first..first + u64::from(request.blocks)).for_each(|block| bitmap[block as usize / 8] |= 1 << (block % 8));
//!     asked.push((first, request.blocks));
//! }
//!
//! // One block up to the plugged one, and two behind it: the requested size is spent.
//! assert_eq!(asked, [(0, 1), (2, 2)]);
//! let config = Config::read(&config)?;
//! assert_eq!((config.plugged_size, config.requested_size), (16 << 20, 16 << 20));
//! # Ok::<(), Error>(())
//! ```

use crate::sys::{self, CONFIG_WORDS, PLUG_WORDS, RESPONSE_WORDS};
use crate::Error;

/// The bytes of a request, `struct virtio_mem_req`.
pub const REQUEST_BYTES: usize = sys::REQUEST_BYTES;

/// The bytes of a response, `struct virtio_mem_resp`.
pub const RESPONSE_BYTES: usize = sys::RESPONSE_BYTES;

/// The bytes of the config space, `struct virtio_mem_config`.
pub const CONFIG_BYTES: usize = sys::CONFIG_BYTES;

/// What a guest asks of the device.
#[derive(Clone, Copy, Debug, PartialEq, Eq, Hash)]
pub struct Request {
    /// [`Request::PLUG`], [`Request::UNPLUG`], [`Request::UNPLUG_ALL`] or [`Request::STATE`]; any other number can be
    /// written too, and the device does not serve it.
    pub request_type: u16,
    /// The guest address of the first block.
    pub addr: u64,
    /// How many blocks.
    pub blocks: u16,
}

impl Request {
    /// The type that asks for blocks to be plugged.
    pub const PLUG: u16 = 0;
    /// The type that asks for blocks to be unplugged.
    pub const UNPLUG: u16 = 1;
    /// The type that asks for every plugged block to be unplugged.
    pub const UNPLUG_ALL: u16 = 2;
    /// The type that asks whether blocks are plugged.
    pub const STATE: u16 = 3;

    /// Plug so many blocks from a guest address on.
    pub const fn plug(addr: u64, blocks: u16) -> Request {
        Request {
            request_type: Request::PLUG,
            addr,
            blocks,
        }
    }

    /// Unplug so many blocks from a guest address on.
    pub const fn unplug(addr: u64, blocks: u16) -> Request {
        Request {
            request_type: Request::UNPLUG,
            addr,
            blocks,
        }
    }

    /// Unplug every plugged block.
    pub const fn unplug_all() -> Request {
        Request {
            request_type: Request::UNPLUG_ALL,
            addr: 0,
            blocks: 0,
        }
    }

    /// Ask for the state of so many blocks from a guest address on.
    pub const fn state(addr: u64, blocks: u16) -> Request {
        Request {
            request_type: Request::STATE,
            addr,
            blocks,
        }
    }

    /// Writes the request to the front of the bytes, its padding zero; the bytes behind it stay. [`Error::BadBytes`]
    /// where they are fewer than [`REQUEST_BYTES`], and then nothing is written.
    pub fn write(&self, bytes: &mut [u8]) -> Result<(), Error> {
        Error::check(sys::driver_write_request(
            bytes,
            self.request_type,
            self.addr,
            self.blocks,
        ))
    }

    /// The bytes of the request.
    pub fn to_bytes(&self) -> [u8; REQUEST_BYTES] {
        let mut bytes = [0; REQUEST_BYTES];
        let written = self.write(&mut bytes);
        debug_assert_eq!(written, Ok(()));
        bytes
    }
}

/// What the device has answered a guest.
#[derive(Clone, Copy, Debug, PartialEq, Eq, Hash)]
pub struct Response {
    /// [`Response::ACK`], [`Response::NACK`], [`Response::BUSY`] or [`Response::ERROR`].
    pub resp_type: u16,
    /// To [`Request::state`]: [`Response::PLUGGED`], [`Response::UNPLUGGED`] or [`Response::MIXED`].
    pub state: u16,
}

impl Response {
    /// The type that says that what was asked is done.
    pub const ACK: u16 = 0;
    /// The type that says that the requested size has no room for a plug.
    pub const NACK: u16 = 1;
    /// The type that says that the device cannot serve the request now. This device never answers so.
    pub const BUSY: u16 = 2;
    /// The type that says that the request is not legal, or that the host could not do what it takes.
    pub const ERROR: u16 = 3;

    /// The state where every block is plugged.
    pub const PLUGGED: u16 = 0;
    /// The state where no block is plugged.
    pub const UNPLUGGED: u16 = 1;
    /// The state where some blocks are plugged and some are not.
    pub const MIXED: u16 = 2;

    /// Reads the response at the front of the bytes. [`Error::BadBytes`] where they are fewer than [`RESPONSE_BYTES`],
    /// the type is above 3, the state above 2, or a byte of the padding, 2 to 7, is not zero.
    pub fn read(bytes: &[u8]) -> Result<Response, Error> {
        let mut words = [0; RESPONSE_WORDS];
        Error::check(sys::driver_read_response(bytes, &mut words))?;
        let [resp_type, state] = words;
        Ok(Response {
            resp_type: resp_type as u16,
            state: state as u16,
        })
    }
}

/// The config space as a guest reads it.
#[derive(Clone, Copy, Debug, PartialEq, Eq, Hash)]
pub struct Config {
    /// The size of a block in bytes.
    pub block_size: u64,
    /// The NUMA node; 0 where none was given.
    pub node_id: u16,
    /// The guest address of the region.
    pub start: u64,
    /// The region's size in bytes.
    pub region_size: u64,
    /// How many bytes from the start on the guest may plug.
    pub usable_size: u64,
    /// How many bytes are plugged.
    pub plugged_size: u64,
    /// How many bytes the guest is asked to have.
    pub requested_size: u64,
}

impl Config {
    /// Reads the config at the front of the bytes. [`Error::BadBytes`] where they are fewer than [`CONFIG_BYTES`], or a
    /// byte of the padding, 10 to 15, is not zero. Whether a device can have that config is not tested: [`plan`] does.
    pub fn read(bytes: &[u8]) -> Result<Config, Error> {
        let mut words = [0; CONFIG_WORDS];
        Error::check(sys::driver_read_config(bytes, &mut words))?;
        let [block_size, node, start, region_size, usable_size, plugged_size, requested_size] =
            words;
        Ok(Config {
            block_size,
            node_id: node as u16,
            start,
            region_size,
            usable_size,
            plugged_size,
            requested_size,
        })
    }
}

/// Proposes a plug, from the bytes of the config and the bitmap that the guest believes in, where block 8j+k is bit k of
/// byte j, set when plugged.
///
/// It starts at the lowest free block, and takes all blocks up to the next plugged one, the next 2 GiB border of offsets,
/// the usable end or the spent requested size, whichever is first. A device with that config and bitmap, its memory
/// mapped and no host call pending, acknowledges it.
///
/// [`Error::BadBytes`] as where a [`Config`] is read; then [`Error::BadRecord`] where no device has that config; then
/// [`Error::ShortTable`] where the bitmap has fewer bits than the region has blocks; then [`Error::NoPlug`] exactly
/// where no plug of one block is legal: no block below the usable end is free, or the requested size is spent.
pub fn plan(config: &[u8], bitmap: &[u8]) -> Result<Request, Error> {
    let mut words = [0; PLUG_WORDS];
    Error::check(sys::driver_plan(config, bitmap, &mut words))?;
    let [addr, blocks] = words;
    Ok(Request::plug(addr, blocks as u16))
}
