// SPDX-License-Identifier: Apache-2.0 AND BSD-3-Clause
//! What was asked of a device, written down as a trace, so that a ticket has a file to send.
//!
//! A [`Recorder`] makes the calls in a host's place: its methods are the device's, with the device as the first argument,
//! and give what those give. Beside that it writes each call as a line of the trace program (docs/RULES.md, R12), and
//! where it is asked to the answer as that program prints it. `bin/trace FILE` replays the lines on the proved device, and
//! prints the same answers.
//!
//! ```
//! use jambcopper::recorder::Recorder;
//! use jambcopper::{Error, HostAnswer};
//! # let folder = std::env::temp_dir();
//! # let named = |name: &str| folder.join(format!("{}-{name}", std::process::id()));
//!
//! # let lines = std::fs::File::create(named("builder.trace")).unwrap();
//! # let answers = std::fs::File::create(named("builder.out")).unwrap();
//! // let lines = File::create("builder.trace")?; let answers = File::create("builder.out")?;
//! let mut recorder = Recorder::with_answers(lines, answers);
//! let mut device = recorder.make(256, 16, false, None, 1 << 30)?;
//! recorder.place(&mut device, 1 << 32, 256 << 20, &[1])?;
//! recorder.host_answer(&mut device, &mut [], 0, HostAnswer::Created(0x7fff_0000_0000))?;
//! assert_eq!(recorder.set_requested_size(&mut device, 18), Err(Error::BadSize));
//! recorder.finish().expect("all of it is written down");
//!
//! assert_eq!(
//!     std::fs::read_to_string(named("builder.trace")).unwrap(),
//!     "capacity_mib=256 requested_mib=16 multi=0 node=none boot=1073741824 addr=4294967296 slot=1\n\
//!      op=host ok=1 addr=140733193388032\n\
//!      op=size mib=18\n"
//! );
//! assert_eq!(
//!     std::fs::read_to_string(named("builder.out")).unwrap(),
//!     "want=create guest=4294967296 size=268435456 slot=1\n\
//!      sized=0 requested=16777216 usable=268435456\n\
//!      refuse=1\n"
//! );
//! # std::fs::remove_file(named("builder.trace")).unwrap();
//! # std::fs::remove_file(named("builder.out")).unwrap();
//! # Ok::<(), Error>(())
//! ```
//!
//! # What is left out
//!
//! A trace has no line for a call that is not one of the device's own, so these are not in it. None of them changes the
//! device:
//!
//! - an empty ring, a chain that is no request, and a request of an unknown type;
//! - what the queue refuses: a call while the host has not answered (7), a device that is not placed (5), rings that are
//!   outside (14), an index that is too far ahead (15), and a queue that is none (12);
//! - a host's answer to another question ([`Error::WrongAnswer`]), and one that cannot be reported (14);
//! - a making or a placing that is refused, and all that is refused before a placing that is not.
//!
//! A response that could not be delivered is in the answers as if it had been: the request has taken effect.
//!
//! # What cannot be written down
//!
//! Then the recorder stops: the lines up to there stand, no more is written, the device's calls go on, and
//! [`Recorder::stopped`] says why. A trace begins with the making, so a device that was restored or made of its parts
//! has none, and neither has one that the host serves by [`crate::Device::request`].

use std::cell::Cell;
use std::fmt;
use std::io::{self, Write};

use crate::driver::{Request, REQUEST_BYTES};
use crate::guest::GuestMemory;
use crate::{Answer, Device, Error, HostAnswer, HostCall, Queue, RECORD_WORDS};

/// The largest slot that a trace begins with (R12.4).
const LAST_SLOT: u32 = 4_294_966_000;

/// Why a recorder has stopped.
#[derive(Debug)]
pub enum Stopped {
    /// A line, or an answer, could not be written.
    Unwritten(io::Error),
    /// The device was placed with slots that do not count up, or from one above 4,294,966,000 on.
    Slots,
    /// The device was placed again, since the creation of its placing had failed.
    PlacedAgain,
    /// The device is not as the recorder's last call left it, or is another.
    Unseen,
}

impl fmt::Display for Stopped {
    fn fmt(&self, f: &mut fmt::Formatter<'_>) -> fmt::Result {
        match self {
            Stopped::Unwritten(error) => write!(f, "the trace cannot be written: {error}"),
            Stopped::Slots => f.write_str("a trace has no slots that do not count up"),
            Stopped::PlacedAgain => f.write_str("a trace has no second placing"),
            Stopped::Unseen => f.write_str("the device was changed by a call that was not seen"),
        }
    }
}

impl std::error::Error for Stopped {}

/// Writes down the calls of one device: see [`crate::recorder`].
pub struct Recorder {
    lines: Box<dyn Write + Send>,
    answers: Option<Box<dyn Write + Send>>,
    /// The first line's beginning, of a device that is made and not placed yet.
    made: Option<String>,
    /// The record as the last call has left it.
    left: Option<[u64; RECORD_WORDS]>,
    begun: bool,
    stopped: Option<Stopped>,
}

impl Recorder {
    /// Writes the lines of a trace, each in one piece when its call has been answered.
    pub fn new(lines: impl Write + Send + 'static) -> Recorder {
        Recorder {
            lines: Box::new(lines),
            answers: None,
            made: None,
            left: None,
            begun: false,
            stopped: None,
        }
    }

    /// As [`Recorder::new`], and writes the answers too, a line for each line.
    pub fn with_answers(
        lines: impl Write + Send + 'static,
        answers: impl Write + Send + 'static,
    ) -> Recorder {
        Recorder {
            answers: Some(Box::new(answers)),
            ..Recorder::new(lines)
        }
    }

    /// As [`Device::new`]: the device whose calls are to be written down.
    pub fn make(
        &mut self,
        capacity_mib: u64,
        requested_mib: u64,
        several: bool,
        node: Option<u16>,
        boot: u64,
    ) -> Result<Device, Error> {
        let device = Device::new(capacity_mib, requested_mib, several, node, boot)?;
        let multi = u8::from(several);
        let node = node.map_or("none".to_string(), |node| node.to_string());
        if !self.begun {
            self.made = Some(format!(
                "capacity_mib={capacity_mib} requested_mib={requested_mib} multi={multi} node={node} boot={boot}"
            ));
            self.left = Some(*device.record());
        }
        Ok(device)
    }

    /// As [`Device::place`].
    pub fn place(
        &mut self,
        device: &mut Device,
        start: u64,
        size: u64,
        slots: &[u32],
    ) -> Result<Answer, Error> {
        let told = self.see(device, |device| device.place(start, size, slots))?;
        let count_up = slots
            .windows(2)
            .all(|two| two[0].checked_add(1) == Some(two[1]));
        match (self.made.take(), slots) {
            (None, _) => self.stop(Stopped::PlacedAgain),
            (Some(made), &[slot, ..]) if count_up && slot <= LAST_SLOT => {
                self.begun = true;
                self.note(
                    format_args!("{made} addr={start} slot={slot}"),
                    Ok(told),
                    device,
                );
            }
            _ => self.stop(Stopped::Slots),
        }
        Ok(told)
    }

    /// As [`Device::set_requested_size`].
    pub fn set_requested_size(
        &mut self,
        device: &mut Device,
        requested_mib: u64,
    ) -> Result<Answer, Error> {
        let told = self.see(device, |device| device.set_requested_size(requested_mib));
        self.note(format_args!("op=size mib={requested_mib}"), told, device);
        told
    }

    /// As [`Device::serve_guest`].
    pub fn serve_guest<M: GuestMemory + ?Sized>(
        &mut self,
        device: &mut Device,
        queue: &mut Queue,
        mem: &M,
    ) -> Result<Option<Answer>, Error> {
        let heard = Overheard {
            mem,
            request: Cell::new(None),
        };
        let told = self.see(device, |device| device.serve_guest(queue, &heard));
        let taken = matches!(told, Ok(Some(Answer::Served { .. } | Answer::Wants(_))));
        if let (true, Ok(Some(answer)), Some(request)) = (taken, told, heard.request.get()) {
            self.note(format_args!("{}", Asked(request)), Ok(answer), device);
        }
        told
    }

    /// As [`Device::serve_guest_answer`].
    pub fn serve_guest_answer<M: GuestMemory + ?Sized>(
        &mut self,
        device: &mut Device,
        queue: &mut Queue,
        mem: &M,
        given: HostAnswer,
    ) -> Result<Answer, Error> {
        let told = self.see(device, |device| {
            device.serve_guest_answer(queue, mem, given)
        });
        self.note_given(given, told, device);
        told
    }

    /// As [`Device::host_answer`], for a creation: while no head is out.
    pub fn host_answer(
        &mut self,
        device: &mut Device,
        mem: &mut [u8],
        base: u64,
        given: HostAnswer,
    ) -> Result<Answer, Error> {
        let told = self.see(device, |device| device.host_answer(mem, base, given));
        self.note_given(given, told, device);
        told
    }

    /// Why nothing is written any more, where that is so.
    pub fn stopped(&self) -> Option<&Stopped> {
        self.stopped.as_ref()
    }

    /// Ends the trace: all that was asked is in it, or why it is not.
    pub fn finish(mut self) -> Result<(), Stopped> {
        let writers = [Some(&mut self.lines), self.answers.as_mut()];
        let flushed = writers
            .into_iter()
            .flatten()
            .try_for_each(|writer| writer.flush());
        match self.stopped {
            Some(stopped) => Err(stopped),
            None => flushed.map_err(Stopped::Unwritten),
        }
    }

    /// The first reason counts.
    fn stop(&mut self, why: Stopped) {
        self.stopped.get_or_insert(why);
    }

    /// Makes a call on the device, if that is as the last call has left it; else it is made and no longer seen.
    fn see<T>(
        &mut self,
        device: &mut Device,
        call: impl FnOnce(&mut Device) -> Result<T, Error>,
    ) -> Result<T, Error> {
        if self.left.as_ref() != Some(device.record()) {
            self.stop(Stopped::Unseen);
        }
        let told = call(device);
        self.left = Some(*device.record());
        told
    }

    /// A host's answer, where it has come to the device.
    fn note_given(&mut self, given: HostAnswer, told: Result<Answer, Error>, device: &Device) {
        // The queue's refusals have no line, and nor has an answer to another question.
        if let Err(Error::WrongAnswer | Error::RingOutside | Error::BadRecord) = told {
            return;
        }
        let (ok, addr) = match given {
            HostAnswer::Created(host) => (1, host),
            HostAnswer::Discarded => (1, 0),
            HostAnswer::Failed => (0, 0),
        };
        self.note(format_args!("op=host ok={ok} addr={addr}"), told, device);
    }

    /// Writes a line and its answer.
    fn note(&mut self, line: fmt::Arguments, told: Result<Answer, Error>, device: &Device) {
        if !self.begun || self.stopped.is_some() {
            return;
        }
        let mut written = self.lines.write_all(format!("{line}\n").as_bytes());
        if let (Ok(()), Some(answers)) = (&written, &mut self.answers) {
            written = answers.write_all(format!("{}\n", Printed(told, device)).as_bytes());
        }
        if let Err(error) = written {
            self.stop(Stopped::Unwritten(error));
        }
    }
}

impl fmt::Debug for Recorder {
    fn fmt(&self, f: &mut fmt::Formatter<'_>) -> fmt::Result {
        f.debug_struct("Recorder")
            .field("begun", &self.begun)
            .field("stopped", &self.stopped)
            .finish_non_exhaustive()
    }
}

/// The bytes of a request, as the line of a trace.
struct Asked([u8; REQUEST_BYTES]);

impl fmt::Display for Asked {
    fn fmt(&self, f: &mut fmt::Formatter<'_>) -> fmt::Result {
        // The type, the address and the number of blocks stand at 0, 8 and 16, and only those are looked at.
        let word = |at: usize| u64::from_le_bytes(std::array::from_fn(|nth| self.0[at + nth]));
        let (addr, blocks) = (word(8), word(16) as u16);
        let op = match word(0) as u16 {
            Request::UNPLUG_ALL => return f.write_str("op=unplug_all"),
            Request::PLUG => "plug",
            Request::UNPLUG => "unplug",
            _ => "state",
        };
        write!(f, "op={op} addr={addr} blocks={blocks}")
    }
}

/// What a call told of a device, as the trace program prints it (R12.6).
struct Printed<'a>(Result<Answer, Error>, &'a Device);

impl fmt::Display for Printed<'_> {
    fn fmt(&self, f: &mut fmt::Formatter<'_>) -> fmt::Result {
        let Printed(told, device) = self;
        let (requested, usable) = (device.requested_size(), device.usable_size());
        match told {
            Ok(Answer::Wants(HostCall::Create { guest, size, slot })) => {
                write!(f, "want=create guest={guest} size={size} slot={slot}")
            }
            Ok(Answer::Wants(HostCall::Discard { offset, size, host })) => {
                write!(f, "want=discard offset={offset} size={size} host={host}")
            }
            Ok(Answer::Sized) => write!(f, "sized=0 requested={requested} usable={usable}"),
            Ok(Answer::Served {
                resp_type,
                state,
                why,
                ..
            }) => {
                let plugged = device.plugged_size();
                let why = why.map_or(0, |why| why as u64);
                write!(
                    f,
                    "resp={resp_type} state={state} plugged={plugged} usable={usable} why={why}"
                )
            }
            Ok(Answer::Unserved { .. }) => unreachable!("no line has such an answer"),
            Err(error) => write!(f, "refuse={}", *error as u64),
        }
    }
}

/// Guest memory, and the request that was read of it.
struct Overheard<'a, M: ?Sized> {
    mem: &'a M,
    request: Cell<Option<[u8; REQUEST_BYTES]>>,
}

impl<M: GuestMemory + ?Sized> GuestMemory for Overheard<'_, M> {
    fn contains(&self, addr: u64, size: u64) -> bool {
        self.mem.contains(addr, size)
    }

    fn read(&self, addr: u64, into: &mut [u8]) -> bool {
        let read = self.mem.read(addr, into);
        // Nothing else that a call reads has so many bytes.
        if let Ok(request) = <[u8; REQUEST_BYTES]>::try_from(&*into) {
            self.request.set(read.then_some(request));
        }
        read
    }

    fn write(&self, addr: u64, bytes: &[u8]) -> bool {
        self.mem.write(addr, bytes)
    }

    fn read_index(&self, addr: u64) -> Option<u16> {
        self.mem.read_index(addr)
    }

    fn write_index(&self, addr: u64, index: u16) -> bool {
        self.mem.write_index(addr, index)
    }
}
