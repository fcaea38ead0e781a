// SPDX-License-Identifier: Apache-2.0 AND BSD-3-Clause
//! The proved device as one value, driven through the exports of the static library.

use oracle::rust::{BLOCK, ERROR, MAP_REGION};
use oracle::trace::{First, Want};
use oracle::why::{Asked, Device};

use crate::sys::{self, Lent, ANSWER_WORDS, RECORD_WORDS};

/// Lent behind what is needed, and never to be touched.
const SPARE: u8 = 0xcc;
const SPARE_BYTES: usize = 8;
const SPARE_WORDS: usize = 3;

/// What a call tells: its number, and the words of its answer.
#[derive(Clone, Copy, Debug, PartialEq, Eq)]
pub struct Told {
    pub number: u64,
    pub words: [u64; ANSWER_WORDS],
}

impl Told {
    /// The question, where there is one.
    pub fn want(&self) -> Option<Want> {
        let [kind, _, address, size, place, ..] = self.words;
        match kind {
            1 => Some(Want::Create {
                guest: address,
                size,
                slot: place as u32,
            }),
            2 => Some(Want::Discard {
                offset: address,
                size,
                host: place,
            }),
            _ => None,
        }
    }

    /// True where the usable size was worked out.
    pub fn sized(&self) -> bool {
        self.words[0] == 3
    }

    /// True where the available ring has no head.
    pub fn empty(&self) -> bool {
        (self.number, self.words) == (0, [7, 0, 0, 0, 0, 0, 0, 0, 0])
    }

    /// Whether the reason of a response, where it is one, is the model's, and goes with its type.
    pub fn why_is(&self, due: Option<u64>) -> Result<(), String> {
        let [kind, .., resp, _, _, why] = self.words;
        let fits = (why == 0) == (resp != u64::from(ERROR));
        match kind == 5 && (due != Some(why) || !fits) {
            true => Err(format!(
                "why: the model {due:?}, proved {why} with the type {resp}"
            )),
            false => Ok(()),
        }
    }

    /// Used length and reason, where the chain is done with.
    pub fn used(&self) -> Option<(u32, u64)> {
        match self.words[0] {
            4 => Some((0, self.words[8])),
            5 => Some((self.words[7] as u32, 0)),
            _ => None,
        }
    }
}

/// Record, bitmap and map table, the last two with some more behind.
#[derive(Clone)]
pub struct Proved {
    pub record: [u64; RECORD_WORDS],
    bitmap: Vec<u8>,
    table: Vec<u64>,
}

impl Proved {
    pub fn make(first: &First) -> Result<Proved, u64> {
        let mut record = [0; RECORD_WORDS];
        let number = sys::make(
            &mut record,
            first.capacity_mib,
            first.requested_mib,
            first.multi,
            first.node.is_some(),
            first.node.unwrap_or(0),
            first.boot,
        );
        if number != 0 {
            return Err(number);
        }
        let mut made = Proved {
            record,
            bitmap: Vec::new(),
            table: Vec::new(),
        };
        let bytes = (made.region() / BLOCK / 8) as usize;
        made.bitmap = vec![SPARE; bytes + SPARE_BYTES];
        made.table = vec![u64::from(SPARE); 3 * made.map_regions() + SPARE_WORDS];
        Ok(made)
    }

    pub fn region(&self) -> u64 {
        self.record[3]
    }

    pub fn alignment(&self) -> u64 {
        self.record[7]
    }

    pub fn features(&self) -> u64 {
        self.record[9]
    }

    pub fn map_regions(&self) -> usize {
        match self.record[8] {
            1 => self.region().div_ceil(MAP_REGION) as usize,
            _ => 1,
        }
    }

    /// A byte for each 8 blocks.
    pub fn bitmap(&self) -> &[u8] {
        &self.bitmap[..self.bitmap.len() - SPARE_BYTES]
    }

    /// Each row's slot and host address.
    pub fn rows(&self) -> impl Iterator<Item = (u64, Option<u64>)> + '_ {
        let rows = self.table[..self.table.len() - SPARE_WORDS].chunks_exact(3);
        rows.map(|row| (row[0], (row[1] != 0).then_some(row[2])))
    }

    /// Why a request that comes now ends as it does, by the model, with these answers of the host to its discards.
    pub fn why(&self, asked: Asked, granted: &[bool]) -> Option<u64> {
        let device = Device {
            start: self.record[2],
            usable: self.record[4],
            plugged: self.record[5],
            requested: self.record[6],
            several: self.record[8] == 1,
            blocks: self.region() / BLOCK,
            is_plugged: &|block| self.bitmap[block as usize / 8] >> (block % 8) & 1 == 1,
            host: &|row| self.rows().nth(row as usize)?.1,
        };
        device.why(asked, granted)
    }

    /// True where what was lent behind the need is as it was.
    pub fn spared(&self) -> bool {
        let bytes = &self.bitmap[self.bitmap.len() - SPARE_BYTES..];
        let words = &self.table[self.table.len() - SPARE_WORDS..];
        bytes.iter().all(|&byte| byte == SPARE)
            && words.iter().all(|&word| word == u64::from(SPARE))
    }

    /// What the device is lent, for one call.
    #[inline]
    pub fn lent(&mut self) -> Lent<'_> {
        Lent {
            record: &mut self.record,
            bitmap: &mut self.bitmap,
            table: &mut self.table,
        }
    }

    fn told(&mut self, call: impl FnOnce(Lent, &mut [u64; ANSWER_WORDS]) -> u64) -> Told {
        let mut words = [0; ANSWER_WORDS];
        let number = call(self.lent(), &mut words);
        Told { number, words }
    }

    pub fn place(&mut self, start: u64, size: u64, slots: &[u32]) -> Told {
        self.told(|device, words| device.place(start, size, slots, words))
    }

    pub fn set_requested_size(&mut self, mib: u64) -> Told {
        self.told(|device, words| device.set_requested_size(mib, words))
    }

    pub fn request(&mut self, memory: &mut [u8], base: u64, table: u64, head: u16) -> Told {
        self.told(|device, words| device.request(memory, base, table, head, words))
    }

    pub fn host_answer(&mut self, memory: &mut [u8], base: u64, ok: bool, host: u64) -> Told {
        self.told(|device, words| device.host_answer(memory, base, ok, host, words))
    }

    pub fn serve(&mut self, queue: &mut [u64], memory: &mut [u8], base: u64) -> Told {
        self.told(|device, words| device.serve(queue, memory, base, words))
    }

    pub fn serve_answer(
        &mut self,
        queue: &mut [u64],
        memory: &mut [u8],
        base: u64,
        ok: bool,
        host: u64,
    ) -> Told {
        self.told(|device, words| device.serve_answer(queue, memory, base, ok, host, words))
    }

    pub fn read_config(&self, offset: u64, data: &mut [u8]) -> u64 {
        sys::read_config(&self.record, offset, data)
    }
}
