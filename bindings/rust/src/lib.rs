// SPDX-License-Identifier: Apache-2.0 AND BSD-3-Clause
//! A proved virtio-mem device.
//!
//! [`Device`] keeps the device's record, its bitmap and its map table, and lends them to the proved functions of the
//! static library; its methods are named as those are in `bindings/c/jambcopper.h`. It never calls back: where the host
//! must create or discard memory, a call answers [`Answer::Wants`], and the host answers by [`Device::host_answer`].
//! [`Queue`] is the guest's queue, which [`Device::serve`] goes over; [`guest`] serves one whose guest runs meanwhile.
//! [`driver`] is the guest's side: its requests, the responses and the config that it reads, and a planner. [`save`] has
//! save records: a device as text, and the old form. [`recorder`] writes down what is asked of a device, as a trace.
//!
//! ```
//! use jambcopper::{Answer, Device, Error, HostAnswer, HostCall};
//!
//! // 256 MiB in one region at 4 GiB, of which the guest may have 16 MiB; the boot memory is 1 GiB.
//! let mut device = Device::new(256, 16, false, None, 1 << 30)?;
//! let asked = device.place(1 << 32, 256 << 20, &[1])?;
//! assert_eq!(asked, Answer::Wants(HostCall::Create { guest: 1 << 32, size: 256 << 20, slot: 1 }));
//!
//! // The host has mapped the memory, and says where.
//! assert_eq!(device.host_answer(&mut [], 0, HostAnswer::Created(0x7fff_0000_0000))?, Answer::Sized);
//! assert_eq!(device.usable_size(), 256 << 20);
//!
//! // 17 MiB are no whole blocks of 4 MiB.
//! assert_eq!(device.set_requested_size(17), Err(Error::BadSize));
//! assert_eq!(Error::BadSize as u64, 1);
//! # Ok::<(), Error>(())
//! ```
//!
//! # Guest memory must not change during a call
//!
//! [`Device::serve`], [`Device::serve_answer`], [`Device::request`] and [`Device::host_answer`] are lent guest memory as
//! a slice. No vCPU may write that memory before the call returns: a call may read a byte twice, and what is proved of
//! it does not hold where the byte has changed in between. It would break Rust's own rule for a `&mut` slice too.
//!
//! Where vCPUs run, and where guest memory is in several regions, [`Device::serve_guest`] and
//! [`Device::serve_guest_answer`] stand in their place: they work on a private copy of what they read.
//!
//! # What the host must do
//!
//! Beside answering, it notifies the guest when a request has ended, and tells it that its config has changed when a
//! size change has ended ([`Device::set_requested_size`]). A host that goes over the rings itself, with
//! [`Device::request`], puts each chain that has ended on the used ring with the length of the answer.
//!
//! A guest whose request is refused reads ERROR and no more. The answer tells the host which ERROR it was: [`Why`].
//!
//! # Threads
//!
//! A [`Device`] and a [`Queue`] are [`Send`] and not [`Sync`]. A call takes both by `&mut`, so that one thread at a time
//! is in one, and they may go on to another thread between two calls. They are not shared, since what they have between
//! two calls may be half of a request: after a question a head is out, and an unplug-all gives up its blocks one by one.
//! So device and queue belong behind one lock, which is held from a question to its answer where another thread is not
//! to see that: `Mutex<(Device, Queue)>` is `Sync`. [`guest::Regions`] are both, as guest memory is everyone's. The
//! library has no state of its own, so that devices are independent of one another.
//!
//! # Platform
//!
//! The static library is for x86-64, with the C calling convention of Linux, and so is this crate. The crate's own code
//! takes no other system for granted than `std` does.
//!
//! # Rust version
//!
//! Rust 1.63 or later, which Debian 12 has. The crate's tests were run with 1.63 and 1.95; the programs of
//! `model/` and `examples/` take a later one, of which 1.95 was tried.
//!
//! # Licence
//!
//! Apache-2.0 AND BSD-3-Clause, as that of the module from which the device was ported: LICENSE and NOTICE in the root of
//! the repository.

#![warn(missing_docs)]

use std::cell::Cell;
use std::fmt;
use std::marker::PhantomData;

pub mod driver;
pub mod guest;
mod queue;
pub mod recorder;
pub mod save;
mod sys;
mod why;

pub use queue::Queue;
use sys::{Lent, ANSWER_WORDS};
pub use why::Why;

/// The words of a record. `bindings/c/jambcopper.h` says what each one is.
pub const RECORD_WORDS: usize = sys::RECORD_WORDS;

/// The words of a queue. `bindings/c/jambcopper.h` says what each one is.
pub const QUEUE_WORDS: usize = sys::QUEUE_WORDS;

/// The words of a row of the map table: its memory slot, whether it is mapped (0 no, else yes), and its host address.
pub const ROW_WORDS: usize = 3;

/// The block: what is plugged and unplugged.
pub const BLOCK_SIZE: u64 = 4 << 20;

/// The map region: what one row of the map table maps, where a device has several.
pub const MAP_REGION_SIZE: u64 = 2 << 30;

/// Why a call is refused. All but [`Error::CreationFailed`] change nothing. As a number (`as u64`) an error is the
/// number that the library returns, but for [`Error::WrongAnswer`], which this crate finds itself.
#[derive(Clone, Copy, Debug, PartialEq, Eq, Hash)]
#[repr(u64)]
pub enum Error {
    /// Capacity 0, requested above the region, or requested not a multiple of 4 MiB.
    BadSize = 1,
    /// Capacity above 1,048,576 MiB.
    TooLarge = 2,
    /// The slot count is wrong, or the range's size is not the region's.
    BadRange = 3,
    /// The start is not a multiple of the alignment, or the range passes 2^64 - 1.
    BadStart = 4,
    /// A request or a size change before placing.
    NotPlaced = 5,
    /// Placed already.
    Placed = 6,
    /// A host call is pending.
    Pending = 7,
    /// A host answer while no host call is pending.
    NotPending = 8,
    /// The host address, plus the size asked, passes 2^64 - 1. The call stays pending.
    BadHost = 9,
    /// The host could not create. Nothing is pending any more. [`Device::set_requested_size`] and [`Device::place`] say
    /// what they leave then.
    CreationFailed = 10,
    /// The bitmap or the map table is too short.
    ShortTable = 11,
    /// The record or the queue is not of the stated shape, a head is out while no discard is pending, or an otherwise
    /// legal unplug is larger than the plugged size. For [`driver::plan`]: no device has that config.
    BadRecord = 12,
    /// The available or the used ring is not wholly inside guest memory.
    RingOutside = 14,
    /// The available ring's index is more than 128 ahead of the next head.
    BadIndex = 15,
    /// Bytes that are no response or no config, or too few for a request to be written.
    BadBytes = 16,
    /// No plug to propose: no plug of one block is legal.
    NoPlug = 17,
    /// A text or old bytes that are no save record, a state that has none, or a device that one cannot be laid on.
    BadSave = 18,
    /// A save record of a later form.
    LaterForm = 19,
    /// The host's answer is to another kind of question than the pending one: [`HostAnswer::Discarded`] to a creation,
    /// or [`HostAnswer::Created`] to a discard. The call stays pending. The library has no number for it, since it is
    /// told only whether the host did what was asked.
    WrongAnswer = u64::MAX,
}

impl Error {
    /// The error of a number, and none for 0.
    fn check(number: u64) -> Result<(), Error> {
        Err(match number {
            0 => return Ok(()),
            1 => Error::BadSize,
            2 => Error::TooLarge,
            3 => Error::BadRange,
            4 => Error::BadStart,
            5 => Error::NotPlaced,
            6 => Error::Placed,
            7 => Error::Pending,
            8 => Error::NotPending,
            9 => Error::BadHost,
            10 => Error::CreationFailed,
            11 => Error::ShortTable,
            12 => Error::BadRecord,
            14 => Error::RingOutside,
            15 => Error::BadIndex,
            16 => Error::BadBytes,
            17 => Error::NoPlug,
            18 => Error::BadSave,
            19 => Error::LaterForm,
            _ => unreachable!("the library refuses with 1 to 12 and 14 to 19"),
        })
    }
}

impl fmt::Display for Error {
    fn fmt(&self, f: &mut fmt::Formatter<'_>) -> fmt::Result {
        let what = match self {
            Error::BadSize => {
                "capacity 0, or a requested size that is too large or no multiple of 4 MiB"
            }
            Error::TooLarge => "capacity above 1 TiB",
            Error::BadRange => "wrong slot count, or a range that has not the region's size",
            Error::BadStart => "a start that is not aligned, or a range that passes 2^64 - 1",
            Error::NotPlaced => "the device is not placed yet",
            Error::Placed => "the device is placed already",
            Error::Pending => "a host call is pending",
            Error::NotPending => "no host call is pending",
            Error::BadHost => "a host address from which the memory would pass 2^64 - 1",
            Error::CreationFailed => "the host could not create the memory",
            Error::ShortTable => "bitmap or map table too short",
            Error::BadRecord => {
                "no record, queue or config of a device, or an unplug of more than is plugged"
            }
            Error::RingOutside => "a ring that is not wholly inside guest memory",
            Error::BadIndex => "an available index more than 128 ahead",
            Error::BadBytes => "bytes that are no response or no config, or too few for a request",
            Error::NoPlug => "no plug to propose",
            Error::BadSave => "no save record, or a device that it cannot be laid on",
            Error::LaterForm => "a save record of a later form",
            Error::WrongAnswer => {
                return f.write_str("an answer to another kind of question than the pending one")
            }
        };
        write!(f, "{what} ({})", *self as u64)
    }
}

impl std::error::Error for Error {}

/// What the host is asked.
#[derive(Clone, Copy, Debug, PartialEq, Eq, Hash)]
pub enum HostCall {
    /// Map `size` bytes at a guest address, as the memory slot `slot`.
    Create {
        /// The guest address.
        guest: u64,
        /// How many bytes.
        size: u64,
        /// The memory slot.
        slot: u64,
    },
    /// Give back the `size` bytes at a host address.
    Discard {
        /// Where in the region.
        offset: u64,
        /// How many bytes.
        size: u64,
        /// The host address.
        host: u64,
    },
}

/// What the host answers.
#[derive(Clone, Copy, Debug, PartialEq, Eq, Hash)]
pub enum HostAnswer {
    /// To [`HostCall::Create`]: the memory is mapped, from this host address on.
    Created(u64),
    /// To [`HostCall::Discard`]: the memory is given back.
    Discarded,
    /// To either: the host could not.
    Failed,
}

/// What a call is answered where it is not refused.
#[derive(Clone, Copy, Debug, PartialEq, Eq, Hash)]
pub enum Answer {
    /// The host is asked, and the call goes on with its answer.
    Wants(HostCall),
    /// The usable size is worked out.
    Sized,
    /// The chain is no request and is used with length 0: the reason is 21 to 27, or 0 for an unknown type.
    Unserved {
        /// Why.
        reason: u64,
    },
    /// The request has ended, and the chain is used with the length.
    Served {
        /// The response's type: 0 ACK, 1 NACK, 3 ERROR.
        resp_type: u16,
        /// The response's state: 0 plugged, 1 unplugged, 2 mixed.
        state: u16,
        /// 10, or 0 where the response could not be delivered.
        length: u32,
        /// Why the type is ERROR; none where it is not. The guest is not told.
        why: Option<Why>,
    },
}

impl Answer {
    /// The words of an answer that is not refused.
    #[inline]
    fn of(words: &[u64; ANSWER_WORDS]) -> Answer {
        let [kind, _, address, size, place, resp_type, state, length, reason] = *words;
        match kind {
            1 => Answer::Wants(HostCall::Create {
                guest: address,
                size,
                slot: place,
            }),
            2 => Answer::Wants(HostCall::Discard {
                offset: address,
                size,
                host: place,
            }),
            3 => Answer::Sized,
            4 => Answer::Unserved { reason },
            5 => Answer::Served {
                resp_type: resp_type as u16,
                state: state as u16,
                length: length as u32,
                why: Why::of(reason),
            },
            _ => unreachable!("the device answers with 1 to 5"),
        }
    }
}

/// A virtio-mem device with its bitmap and its map table.
#[derive(Clone, PartialEq, Eq)]
pub struct Device {
    record: [u64; RECORD_WORDS],
    bitmap: Vec<u8>,
    table: Vec<u64>,
    not_shared: NotShared,
}

/// Makes a type `Send` and not `Sync`: see the crate's documentation.
type NotShared = PhantomData<Cell<()>>;

impl Device {
    /// Makes a device from sizes in MiB; `boot` is the boot memory's size in bytes, which decides the alignment.
    /// Several regions are kept only if the region exceeds 2 GiB.
    pub fn new(
        capacity_mib: u64,
        requested_mib: u64,
        several: bool,
        node: Option<u16>,
        boot: u64,
    ) -> Result<Device, Error> {
        let mut record = [0; RECORD_WORDS];
        Error::check(sys::make(
            &mut record,
            capacity_mib,
            requested_mib,
            several,
            node.is_some(),
            node.unwrap_or(0),
            boot,
        ))?;
        let mut device = Device {
            record,
            bitmap: Vec::new(),
            table: Vec::new(),
            not_shared: PhantomData,
        };
        device.bitmap = vec![0; device.bitmap_bytes()];
        device.table = vec![0; ROW_WORDS * device.map_regions()];
        Ok(device)
    }

    /// Makes a device of the parts that [`Device::record`], [`Device::bitmap`] and [`Device::table`] give. So a host
    /// can restart: it saves the parts after a call, makes the device of them again and goes on, with a pending host
    /// call too. What the host was asked is not among the parts, so a host that has not answered yet keeps the
    /// [`HostCall`] beside them. Where memory lies at another host address than before, that address is put into its
    /// row, the third word, first.
    ///
    /// [`Error::BadRecord`] where the words are no record of the stated shape, then [`Error::ShortTable`] where the
    /// bitmap has fewer bytes than the region needs, one for 8 blocks, or the table fewer rows than there are map
    /// regions. Other contents are taken as they are; what lies behind the need is kept, and never touched.
    pub fn from_parts(
        record: &[u64; RECORD_WORDS],
        bitmap: &[u8],
        table: &[u64],
    ) -> Result<Device, Error> {
        // A config read that reads nothing: the library tests the record, and changes nothing.
        Error::check(sys::read_config(record, 0, &mut []))?;
        let device = Device {
            record: *record,
            bitmap: bitmap.to_vec(),
            table: table.to_vec(),
            not_shared: PhantomData,
        };
        let short =
            bitmap.len() < device.bitmap_bytes() || table.len() / ROW_WORDS < device.map_regions();
        if short {
            return Err(Error::ShortTable);
        }
        Ok(device)
    }

    /// Places the device at a range of guest addresses, with a memory slot for each map region. The bitmap is cleared,
    /// the rows are written, and the creation that must be first is asked for, if there is one.
    ///
    /// Where that creation fails ([`Error::CreationFailed`]) the device is not placed; the start that was given, the
    /// rows and the bitmap stay as placing wrote them, and placing may be tried again.
    pub fn place(&mut self, start: u64, size: u64, slots: &[u32]) -> Result<Answer, Error> {
        self.told(|device, answer| device.place(start, size, slots, answer))
    }

    /// Changes the requested size, in MiB. The usable size grows with it, which may ask for a creation. Where that
    /// fails ([`Error::CreationFailed`]) the new requested size stands, and the usable size and the map table do not
    /// change.
    ///
    /// The guest reads both sizes in its config, and the host must tell it that they have changed, by a configuration
    /// change notification: where the answer is [`Answer::Sized`], now; where it is [`Answer::Wants`], when that is
    /// answered, also where it failed.
    pub fn set_requested_size(&mut self, requested_mib: u64) -> Result<Answer, Error> {
        self.told(|device, answer| device.set_requested_size(requested_mib, answer))
    }

    /// Takes the next head of the guest's queue and serves its chain; `None` where the available ring has no head, and
    /// then nothing has changed. `mem` is guest memory from the guest address `base` on, one slice that has the rings,
    /// the descriptors, the requests and the responses. No vCPU may write it during the call.
    ///
    /// Where the answer is [`Answer::Served`] or [`Answer::Unserved`] the head is in the used ring, and the host notifies
    /// the guest. Where it is [`Answer::Wants`] the head is out, and the host answers by [`Device::serve_answer`]. Where
    /// the call is refused no head was taken; [`Error::RingOutside`] and [`Error::BadIndex`] do not stick. See [`Queue`].
    pub fn serve(
        &mut self,
        queue: &mut Queue,
        mem: &mut [u8],
        base: u64,
    ) -> Result<Option<Answer>, Error> {
        let words =
            self.words_told(|device, answer| device.serve(&mut queue.words, mem, base, answer))?;
        Ok((words[0] != sys::KIND_EMPTY).then(|| Answer::of(&words)))
    }

    /// The host's answer to what it was asked, as [`Device::host_answer`] takes it. Where it ends the request of the head
    /// that is out, the head is then in the used ring, and the host notifies the guest. [`Error::RingOutside`] comes only
    /// while a head is out: the question stays pending, and the head out. With none out, as for a creation, no ring is
    /// tested or touched.
    pub fn serve_answer(
        &mut self,
        queue: &mut Queue,
        mem: &mut [u8],
        base: u64,
        told: HostAnswer,
    ) -> Result<Answer, Error> {
        let (ok, host) = self.given(told)?;
        self.told(|device, answer| {
            device.serve_answer(&mut queue.words, mem, base, ok, host, answer)
        })
    }

    /// Serves one chain, for a host that goes over the rings itself: `mem` is guest memory from the guest address `base`
    /// on, `descriptors` the guest address of the table of 128 descriptors, and `head` the chain's first. No vCPU may
    /// write `mem` during the call.
    pub fn request(
        &mut self,
        mem: &mut [u8],
        base: u64,
        descriptors: u64,
        head: u16,
    ) -> Result<Answer, Error> {
        self.told(|device, answer| device.request(mem, base, descriptors, head, answer))
    }

    /// The host's answer to what it was asked. Guest memory, which no vCPU may write during the call, is for the
    /// response to an unplug; a creation does not look at it. Each block of an unplug-all is unplugged, and its size
    /// taken off the plugged size, as its discard is answered; where a discard fails the request ends with ERROR, and
    /// the blocks before it stay unplugged.
    ///
    /// An answer to another kind of question than the pending one is [`Error::WrongAnswer`], and the call stays
    /// pending.
    ///
    /// While a head of a [`Queue`] is out the host answers by [`Device::serve_answer`]: this call would end the request
    /// and not report the head, and the next call with the queue would be [`Error::BadRecord`].
    pub fn host_answer(
        &mut self,
        mem: &mut [u8],
        base: u64,
        told: HostAnswer,
    ) -> Result<Answer, Error> {
        let (ok, host) = self.given(told)?;
        self.told(|device, answer| device.host_answer(mem, base, ok, host, answer))
    }

    /// Whether the host did what was asked, and its host address, where the answer is to the pending question.
    fn given(&self, told: HostAnswer) -> Result<(bool, u64), Error> {
        match (told, self.record[11]) {
            (HostAnswer::Created(_), sys::PENDING_DISCARD | sys::PENDING_DISCARD_ONE)
            | (HostAnswer::Discarded, sys::PENDING_CREATE) => Err(Error::WrongAnswer),
            (HostAnswer::Created(host), _) => Ok((true, host)),
            (HostAnswer::Discarded, _) => Ok((true, 0)),
            (HostAnswer::Failed, _) => Ok((false, 0)),
        }
    }

    /// What a call tells of this device.
    fn told(
        &mut self,
        call: impl FnOnce(Lent, &mut [u64; ANSWER_WORDS]) -> u64,
    ) -> Result<Answer, Error> {
        Ok(Answer::of(&self.words_told(call)?))
    }

    /// The words of what a call tells.
    fn words_told(
        &mut self,
        call: impl FnOnce(Lent, &mut [u64; ANSWER_WORDS]) -> u64,
    ) -> Result<[u64; ANSWER_WORDS], Error> {
        let mut answer = [0; ANSWER_WORDS];
        let lent = Lent {
            record: &mut self.record,
            bitmap: &mut self.bitmap,
            table: &mut self.table,
        };
        Error::check(call(lent, &mut answer))?;
        Ok(answer)
    }

    /// Saves the device: its text, as the module [`save`] describes it. What the map table has is not in it.
    ///
    /// [`Error::Pending`] while a host call is pending; [`Error::BadSave`] where the bitmap has another number of blocks
    /// than the plugged size says, or one at or past the usable size, as only a spoiled one has.
    pub fn save(&self) -> Result<String, Error> {
        let mut length = [0];
        Error::check(sys::save_length(&self.record, &self.bitmap, &mut length))?;
        let mut text = vec![0; length[0] as usize];
        Error::check(sys::save(
            &self.record,
            &self.bitmap,
            &mut text,
            &mut length,
        ))?;
        Ok(save::string(text, length))
    }

    /// Restores the device from the text of one: sets the blocks, and the requested and the plugged size. The host is
    /// asked for nothing, and no usable size is worked out.
    ///
    /// [`Error::Pending`] while a host call is pending; [`Error::LaterForm`] and [`Error::BadSave`] as where a text is
    /// read; [`Error::BadSave`] too where the device is not placed, has a block plugged or a plugged size, or has another
    /// start, another region or a smaller usable size than the text. It may have several regions, and any alignment.
    pub fn restore(&mut self, text: &[u8]) -> Result<(), Error> {
        Error::check(sys::restore(&mut self.record, &mut self.bitmap, text))
    }

    /// Reads the config space from `offset` on: up to its end or the buffer's; the rest of the buffer stays.
    pub fn read_config(&self, offset: u64, data: &mut [u8]) {
        let number = sys::read_config(&self.record, offset, data);
        debug_assert_eq!(number, 0);
    }

    /// A write of the config space, which does nothing.
    pub fn write_config(&mut self, offset: u64, data: &[u8]) {
        let number = sys::write_config(&self.record, offset, data);
        debug_assert_eq!(number, 0);
    }

    /// The feature bits to offer, 32 a page.
    pub fn get_avail_features(&self, page: u32) -> u32 {
        match page {
            0 => self.record[9] as u32,
            1 => (self.record[9] >> 32) as u32,
            _ => 0,
        }
    }

    /// The guest address of the region: 0 when made, then as [`Device::place`] wrote it, also where its creation has
    /// failed. [`Device::is_placed`] says whether the device is placed.
    pub fn start(&self) -> u64 {
        self.record[2]
    }

    /// The region's size in bytes.
    pub fn region_size(&self) -> u64 {
        self.record[3]
    }

    /// How many bytes from the start on the guest may plug.
    pub fn usable_size(&self) -> u64 {
        self.record[4]
    }

    /// How many bytes are plugged: the block size for each plugged block, while the host is asked too.
    pub fn plugged_size(&self) -> u64 {
        self.record[5]
    }

    /// How many bytes the guest is asked to have.
    pub fn requested_size(&self) -> u64 {
        self.record[6]
    }

    /// What the start must be a multiple of.
    pub fn alignment(&self) -> u64 {
        self.record[7]
    }

    /// How many map regions there are: so many slots does [`Device::place`] take.
    pub fn map_regions(&self) -> usize {
        if self.record[8] == 1 {
            pieces(self.region_size(), MAP_REGION_SIZE)
        } else {
            1
        }
    }

    /// Whether the device is placed.
    pub fn is_placed(&self) -> bool {
        self.record[10] == 1
    }

    /// Whether a host call is pending.
    pub fn is_pending(&self) -> bool {
        self.record[11] != sys::PENDING_NOTHING
    }

    /// The record, to save: see [`Device::from_parts`].
    pub fn record(&self) -> &[u64; RECORD_WORDS] {
        &self.record
    }

    /// The plugged blocks: block 8j+k is bit k of byte j.
    pub fn bitmap(&self) -> &[u8] {
        &self.bitmap
    }

    /// The map table, [`ROW_WORDS`] words a row.
    pub fn table(&self) -> &[u64] {
        &self.table
    }

    /// How many bytes of bitmap the region needs.
    fn bitmap_bytes(&self) -> usize {
        pieces(self.region_size(), 8 * BLOCK_SIZE)
    }
}

/// How many pieces of a size a region has, the last perhaps a part of one. No record has a region above 1 TiB.
fn pieces(region: u64, size: u64) -> usize {
    ((region + size - 1) / size) as usize
}

impl fmt::Debug for Device {
    fn fmt(&self, f: &mut fmt::Formatter<'_>) -> fmt::Result {
        f.debug_struct("Device")
            .field("start", &self.start())
            .field("region_size", &self.region_size())
            .field("usable_size", &self.usable_size())
            .field("plugged_size", &self.plugged_size())
            .field("requested_size", &self.requested_size())
            .field("alignment", &self.alignment())
            .field("map_regions", &self.map_regions())
            .field("placed", &self.is_placed())
            .field("pending", &self.is_pending())
            .finish_non_exhaustive()
    }
}
