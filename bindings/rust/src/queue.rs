// SPDX-License-Identifier: Apache-2.0 AND BSD-3-Clause
//! The guest's queue, as the words that the library takes.

use std::fmt;
use std::marker::PhantomData;

use crate::sys::{self, QUEUE_WORDS};
use crate::{Error, NotShared};

/// The guest's split queue of 128: where its three parts lie, and where the device stands in it.
///
/// A host makes it when the guest has set up its queue, keeps it beside the device, and lends both to each call. Where
/// the guest resets the device the host makes it anew, and answers what is pending before that.
///
/// ```
/// use jambcopper::driver::Request;
/// use jambcopper::{Answer, Device, Error, HostAnswer, Queue};
/// # fn ask(mem: &mut [u8], nth: u16, request: Request) {
/// #     let mut put = |at: usize, bytes: &[u8]| mem[at..at + bytes.len()].copy_from_slice(bytes);
/// #     let (first, there) = (2 * nth, 3344 + 40 * u64::from(nth));
/// #     for (at, addr, len, flags) in [(first, there, 24u32, 1u16), (first + 1, there + 24, 10, 2)] {
/// #         let at = 16 * usize::from(at);
/// #         put(at, &((1 << 30) + addr).to_le_bytes());
/// #         put(at + 8, &len.to_le_bytes());
/// #         put(at + 12, &flags.to_le_bytes());
/// #         put(at + 14, &(first + 1).to_le_bytes());
/// #     }
/// #     put(there as usize, &request.to_bytes());
/// #     put(2048 + 4 + 2 * usize::from(nth), &first.to_le_bytes());
/// #     put(2048 + 2, &(nth + 1).to_le_bytes());
/// # }
/// # let mut device = Device::new(256, 16, false, None, 1 << 30)?;
/// # device.place(1 << 32, 256 << 20, &[1])?;
/// # device.host_answer(&mut [], 0, HostAnswer::Created(0x7fff_0000_0000))?;
///
/// // The guest's memory lies at 1 GiB: descriptors, available ring, used ring, and then its requests.
/// let base = 1 << 30;
/// let mut mem = vec![0; 4096];
/// let mut queue = Queue::new(base, base + 2048, base + 2312);
///
/// // The guest puts two requests into the ring, heads 0 and 2: a plug of two blocks, and an unplug-all.
/// ask(&mut mem, 0, Request::plug(1 << 32, 2));
/// ask(&mut mem, 1, Request::unplug_all());
///
/// // It notifies the host, which serves the queue until it is empty.
/// let mut asked = 0;
/// while let Some(mut answer) = device.serve(&mut queue, &mut mem, base)? {
///     while let Answer::Wants(_) = answer {
///         // The host gives back the memory that is named, here a block at a time, and says so.
///         asked += 1;
///         answer = device.serve_answer(&mut queue, &mut mem, base, HostAnswer::Discarded)?;
///     }
///     // The request has ended and its head is in the used ring: here the host notifies the guest.
/// }
///
/// // Index 2, head 0 with length 10, head 2 with length 10.
/// assert_eq!(mem[2312..2332], [0, 0, 2, 0, 0, 0, 0, 0, 10, 0, 0, 0, 2, 0, 0, 0, 10, 0, 0, 0]);
/// assert_eq!((asked, device.plugged_size()), (2, 0));
/// # Ok::<(), Error>(())
/// ```
#[derive(Clone, PartialEq, Eq)]
pub struct Queue {
    pub(crate) words: [u64; QUEUE_WORDS],
    not_shared: NotShared,
}

impl Queue {
    /// Makes a queue from the guest addresses of its parts: the descriptor table, the available and the used ring. Both
    /// indices are 0, and no head is out. Rings that do not lie inside guest memory are refused when they are served.
    pub fn new(descriptors: u64, available: u64, used: u64) -> Queue {
        let mut words = [0; QUEUE_WORDS];
        let number = sys::queue_make(&mut words, descriptors, available, used);
        debug_assert_eq!(number, 0);
        Queue {
            words,
            not_shared: PhantomData,
        }
    }

    /// Makes a queue of the words that [`Queue::words`] gives, so that a host can restart: they are saved and put back
    /// with the device's own parts ([`crate::Device::from_parts`]). [`Error::BadRecord`] where an index is above 65,535,
    /// or the head that is out, plus 1, above 65,536.
    pub fn from_words(words: &[u64; QUEUE_WORDS]) -> Result<Queue, Error> {
        let [_, _, _, next_available, next_used, taken] = *words;
        if next_available > 65_535 || next_used > 65_535 || taken > 65_536 {
            return Err(Error::BadRecord);
        }
        Ok(Queue {
            words: *words,
            not_shared: PhantomData,
        })
    }

    /// The words, to save: see [`Queue::from_words`].
    pub fn words(&self) -> &[u64; QUEUE_WORDS] {
        &self.words
    }

    /// The guest address of the descriptor table.
    pub fn descriptors(&self) -> u64 {
        self.words[0]
    }

    /// The guest address of the available ring.
    pub fn available(&self) -> u64 {
        self.words[1]
    }

    /// The guest address of the used ring.
    pub fn used(&self) -> u64 {
        self.words[2]
    }

    /// The index of the next head to take.
    pub fn next_available(&self) -> u16 {
        self.words[3] as u16
    }

    /// The index of the next element of the used ring.
    pub fn next_used(&self) -> u16 {
        self.words[4] as u16
    }

    /// The head that is out: its request has asked the host something, and has not ended.
    pub fn taken(&self) -> Option<u16> {
        self.words[5].checked_sub(1).map(|head| head as u16)
    }
}

impl fmt::Debug for Queue {
    fn fmt(&self, f: &mut fmt::Formatter<'_>) -> fmt::Result {
        f.debug_struct("Queue").field("words", &self.words).finish()
    }
}
