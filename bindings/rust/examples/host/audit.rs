// SPDX-License-Identifier: Apache-2.0 AND BSD-3-Clause
//! A device whose calls are held against an account: what each reads, answers and writes, and what it leaves.

use std::collections::BTreeMap;
use std::fmt::{self, Debug};
use std::ops::Deref;

use jambcopper::driver::{Config, CONFIG_BYTES};
use jambcopper::guest::Regions;
use jambcopper::{Answer, Device, Error, HostAnswer, Queue, BLOCK_SIZE};

use crate::account::Account;
use crate::noted::{Noted, Taken};

/// So many wrong calls are told one by one.
const TOLD: u64 = 10;

/// A device with its account. Its methods are the device's.
pub struct Audited {
    device: Device,
    account: Account,
    /// The head that is out.
    out: Option<Taken>,
    tally: Tally,
}

impl Deref for Audited {
    type Target = Device;

    fn deref(&self) -> &Device {
        &self.device
    }
}

impl Audited {
    /// Of a device that is made, and not placed yet.
    pub fn new(device: Device) -> Audited {
        Audited {
            account: Account::new(&device),
            device,
            out: None,
            tally: Tally::default(),
        }
    }

    pub fn place(&mut self, start: u64, size: u64, slots: &[u32]) -> Result<Answer, Error> {
        let told = self.device.place(start, size, slots);
        let expected = self.account.placed(start, slots);
        self.hold("place", &told, &expected);
        told
    }

    pub fn set_requested_size(&mut self, mib: u64) -> Result<Answer, Error> {
        let told = self.device.set_requested_size(mib);
        let expected = self.account.resized(mib);
        self.hold("size", &told, &expected);
        told
    }

    pub fn serve_guest(
        &mut self,
        queue: &mut Queue,
        memory: &Regions,
    ) -> Result<Option<Answer>, Error> {
        let noted = Noted::new(memory);
        let (before, plugged) = (queue.clone(), self.plugged_size());
        let told = self.device.serve_guest(queue, &noted);
        let expected = self.taken(&noted, &before);
        self.hold("serve", &told, &expected);
        self.hold_accesses(noted, &before, told.ok().flatten());
        let more = self.plugged_size().saturating_sub(plugged);
        self.tally.count("blocks-plugged", more / BLOCK_SIZE);
        told
    }

    pub fn serve_guest_answer(
        &mut self,
        queue: &mut Queue,
        memory: &Regions,
        answer: HostAnswer,
    ) -> Result<Answer, Error> {
        let noted = Noted::new(memory);
        let (before, plugged) = (queue.clone(), self.plugged_size());
        let told = self.device.serve_guest_answer(queue, &noted, answer);
        let expected = self.account.answered(answer, memory);
        self.hold("answer", &told, &expected);
        self.hold_accesses(noted, &before, told.ok());
        let fewer = plugged.saturating_sub(self.plugged_size());
        self.tally.count("blocks-unplugged", fewer / BLOCK_SIZE);
        told
    }

    pub fn tally(&self) -> &Tally {
        &self.tally
    }

    /// What a call must answer, by what it has read.
    fn taken(&mut self, noted: &Noted, before: &Queue) -> Result<Option<Answer>, Error> {
        if self.account.is_pending() {
            return Err(Error::Pending);
        }
        let Some(taken) = Taken::of(noted, before)? else {
            return Ok(None);
        };
        let answer = match taken.chain {
            Ok(asked) => self.account.asked(asked, noted),
            Err(reason) => Answer::Unserved { reason },
        };
        self.out = Some(taken);
        Ok(Some(answer))
    }

    /// Holds what a call told, and the device behind it, against the account.
    fn hold<T: PartialEq + Debug>(
        &mut self,
        call: &str,
        told: &Result<T, Error>,
        expected: &Result<T, Error>,
    ) {
        if let Err(refused) = told {
            self.tally
                .count(&format!("{call}-refused-{}", *refused as u64), 1);
        }
        if told != expected {
            self.tally.wrong(call, told, expected);
        }
        let (says, sizes) = (sizes(&self.device), self.account.sizes());
        if says != sizes {
            self.tally.wrong(call, &says, &sizes);
        }
        if !self.account.has_blocks_of(self.device.bitmap()) {
            self.tally
                .wrong(call, &self.device.bitmap(), &"what was acknowledged");
        }
    }

    /// Holds what a call wrote against what its answer says; and it has read nothing but what was looked at.
    fn hold_accesses(&mut self, noted: Noted, before: &Queue, told: Option<Answer>) {
        let mut writes = Vec::new();
        if let Some(answer @ (Answer::Served { .. } | Answer::Unserved { .. })) = told {
            if let Some(taken) = self.out.take() {
                self.tally.ended(&taken, &answer);
                writes = taken.writes(before, &answer);
            }
        }
        let (expected, accessed) = ((Vec::new(), writes), noted.rest());
        if accessed != expected {
            self.tally.wrong("accesses", &accessed, &expected);
        }
    }
}

/// Usable, plugged and requested size, as the guest reads them.
fn sizes(device: &Device) -> [u64; 3] {
    let mut bytes = [0; CONFIG_BYTES];
    device.read_config(0, &mut bytes);
    let config = Config::read(&bytes).expect("the config of a device");
    [
        config.usable_size,
        config.plugged_size,
        config.requested_size,
    ]
}

/// How often each answer and refusal came up, and how much was wrong.
#[derive(Default)]
pub struct Tally {
    counts: BTreeMap<String, u64>,
    wrong: u64,
}

impl Tally {
    pub fn count_of_wrong(&self) -> u64 {
        self.wrong
    }

    /// Counts what is wrong, and tells it on the standard error.
    pub fn wrong(&mut self, what: &str, is: &dyn Debug, must_be: &dyn Debug) {
        self.wrong += 1;
        if self.wrong <= TOLD {
            eprintln!("host: {what}: {is:?}, and not {must_be:?}");
        }
    }

    fn count(&mut self, what: &str, times: u64) {
        *self.counts.entry(what.to_string()).or_default() += times;
    }

    /// A request that has ended, or a chain that is none.
    fn ended(&mut self, taken: &Taken, answer: &Answer) {
        self.count("answers", 1);
        match (taken.chain, *answer) {
            (
                Ok((request, _)),
                Answer::Served {
                    resp_type,
                    length,
                    why,
                    ..
                },
            ) => {
                let asked =
                    ["plug", "unplug", "unplug-all", "state"][usize::from(request.request_type)];
                let told = ["ACK", "NACK", "BUSY", "ERROR"][usize::from(resp_type)];
                self.count(&format!("{asked}-{told}"), 1);
                self.count("undelivered", u64::from(length == 0));
                if let Some(why) = why {
                    self.count(&format!("why-{:02}", why as u64), 1);
                }
            }
            (_, Answer::Unserved { reason }) => self.count(&format!("unserved-{reason}"), 1),
            _ => {}
        }
    }
}

impl fmt::Display for Tally {
    fn fmt(&self, f: &mut fmt::Formatter<'_>) -> fmt::Result {
        for (what, times) in &self.counts {
            write!(f, "{what}={times} ")?;
        }
        write!(f, "wrong={}", self.wrong)
    }
}
