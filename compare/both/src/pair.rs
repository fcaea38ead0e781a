// SPDX-License-Identifier: Apache-2.0 AND BSD-3-Clause
//! One device on each side, given the same calls, and the drop-in as a third where it is asked for; what differs after a call is said
//! in words.

use std::cell::RefCell;
use std::collections::{BTreeMap, VecDeque};
use std::fmt;
use std::rc::Rc;

use oracle::chains::Chain;
use oracle::guest::Guest;
use oracle::host::{answering, Answer, Question};
use oracle::rust::{Rust, BLOCK, ERROR, MAP_REGION, PLUG, QUEUE_SIZE, STATE, UNPLUG, UNPLUG_ALL};
use oracle::trace::{First, Op, Want};
use oracle::why::Asked;

use crate::drop_in::{self, DropIn};
use crate::proved::{Proved, Told};
use crate::rings::{Layout, Put, Rings};

/// Guest memory of a run, with the table at its start.
const BASE: u64 = 4096;
const LENGTH: usize = 4096;

/// What a request's ignored bytes and a config read's buffer are filled with.
const NOISE: u8 = 0xa5;

/// A call of a run: placing, a line of the house form, a read of the config, or in a run with rings a chain that is made available,
/// and a wake.
#[derive(Clone, Copy, Debug)]
pub enum Call {
    /// With so many slots and bytes more than the device asks for.
    Place {
        start: u64,
        slots: i64,
        bytes: i64,
    },
    Op(Op),
    Read {
        offset: u64,
        length: usize,
    },
    Put(Put),
    Wake,
}

impl fmt::Display for Call {
    fn fmt(&self, f: &mut fmt::Formatter<'_>) -> fmt::Result {
        match self {
            Call::Place {
                start,
                slots,
                bytes,
            } => write!(
                f,
                "(place addr={start} slots={slots:+} from the count, size={bytes:+} from the region)"
            ),
            Call::Op(op) => write!(f, "{op}"),
            Call::Read { offset, length } => {
                write!(f, "(config read offset={offset} length={length})")
            }
            Call::Put(put) => write!(f, "{put}"),
            Call::Wake => write!(f, "(wake)"),
        }
    }
}

/// The host: success or not, and a host address.
pub type Host<'a> = &'a mut dyn FnMut(Want) -> (bool, u64);

/// The questions that the proved device asked in a call, with their answers.
type Questions = Vec<(Want, bool, u64)>;

/// How often each call had each outcome: its number, its response's type, or the host's success.
pub type Seen = BTreeMap<(&'static str, u64), u64>;

pub struct Pair {
    pub rust: Rust,
    pub proved: Proved,
    /// Where it takes part.
    drop_in: Option<DropIn>,
    first_slot: u32,
    memory: Vec<u8>,
    /// Where requests are served from ring to ring.
    rings: Option<Rings>,
    placed: bool,
    over: bool,
    /// The first reason of a step that is not the model's: told when all else has been compared.
    why: Result<(), String>,
    /// Calls of the exports so far, without the reads that compare.
    pub calls: u64,
    pub seen: Seen,
}

fn same<T: PartialEq + fmt::Debug>(what: &str, rust: T, proved: T) -> Result<(), String> {
    same_of("mem.rs", rust, "proved", proved).map_err(|said| format!("{what}: {said}"))
}

fn same_of<T: PartialEq + fmt::Debug>(
    one: &str,
    first: T,
    other: &str,
    second: T,
) -> Result<(), String> {
    match first == second {
        true => Ok(()),
        false => Err(format!("{one} {first:?}, {other} {second:?}")),
    }
}

/// Where the second differs first from the first.
fn difference(memory: &[u8], other: &[u8]) -> Option<usize> {
    (0..memory.len()).find(|&at| memory[at] != other[at])
}

impl Pair {
    /// Both made, or both refused with the same number, and the drop-in, if it takes part, likewise. With a layout requests are served
    /// from ring to ring.
    pub fn make(
        first: &First,
        layout: Option<Layout>,
        drop_in: bool,
    ) -> Result<Option<Pair>, String> {
        let drop_in = drop_in.then(|| DropIn::make(first));
        let (capacity, requested) = (first.capacity_mib, first.requested_mib);
        let rust = Rust::make(capacity, requested, first.multi, first.node, first.boot);
        let (mut rust, proved) = match (rust, Proved::make(first)) {
            (Ok(rust), Ok(proved)) => (rust, proved),
            (rust, proved) => {
                let number = rust.err();
                same("make", number, proved.err())?;
                if let Some(made) = drop_in {
                    same_of("mem.rs", number, "the drop-in", made.err())?;
                }
                return Ok(None);
            }
        };
        let shape = (proved.alignment(), proved.map_regions());
        same("alignment and slots", rust.requirements(), shape)?;
        same("features", rust.features(), proved.features())?;
        let mut drop_in = match drop_in {
            Some(made) => Some(made.map_err(|number| format!("make: the drop-in {number}"))?),
            None => None,
        };
        if let Some(device) = &mut drop_in {
            let rust = (shape, rust.features());
            same_of("mem.rs", rust, "the drop-in", device.shape())?;
        }
        let mut pair = Pair {
            rust,
            proved,
            drop_in,
            first_slot: first.slot as u32,
            memory: vec![0; LENGTH],
            rings: layout.map(Rings::new),
            placed: false,
            over: false,
            why: Ok(()),
            calls: 1,
            seen: Seen::from([(("make, number", 0), 1)]),
        };
        pair.compare()?;
        Ok(Some(pair))
    }

    pub fn placed(&self) -> bool {
        self.placed
    }

    /// An unplug-all was refused. mem.rs keeps the plugged size of the blocks that it has cleared,
    /// so no further call is compared (request 5/12).
    pub fn over(&self) -> bool {
        self.over
    }

    fn saw(&mut self, what: &'static str, outcome: u64) {
        *self.seen.entry((what, outcome)).or_default() += 1;
    }

    /// One call on both sides. The host is asked by the proved device; mem.rs must ask the same.
    pub fn step(&mut self, call: Call, host: Host) -> Result<(), String> {
        match call {
            Call::Place {
                start,
                slots,
                bytes,
            } => self.place(start, slots, bytes, host)?,
            Call::Read { offset, length } => return self.read(offset, length),
            Call::Put(put) => self.put(put, host)?,
            Call::Wake => {
                self.wake(host)?;
            }
            Call::Op(Op::Size { mib }) => {
                let told = self.proved.set_requested_size(mib);
                let (told, asked) = self.answered(told, host)?;
                let rust = self.scripted(asked.clone(), |rust| rust.set_requested_size(mib))?;
                self.also(asked, rust, |device| device.set_requested_size(mib))?;
                self.saw("size, number", told.number);
                sized(rust, told)?;
            }
            Call::Op(Op::Plug { addr, blocks }) => self.request(PLUG, addr, blocks, host)?,
            Call::Op(Op::Unplug { addr, blocks }) => self.request(UNPLUG, addr, blocks, host)?,
            Call::Op(Op::State { addr, blocks }) => self.request(STATE, addr, blocks, host)?,
            Call::Op(Op::UnplugAll) => self.request(UNPLUG_ALL, 0, 0, host)?,
            Call::Op(Op::Host { .. }) => panic!("answers come from the host"),
        }
        self.compare()?;
        std::mem::replace(&mut self.why, Ok(()))
    }

    /// The reason of a response is held against the model's.
    fn hold_why(&mut self, told: &Told, due: Option<u64>) {
        let held = told.why_is(due);
        if self.why.is_ok() {
            self.why = held;
        }
    }

    fn place(&mut self, start: u64, slots: i64, bytes: i64, host: Host) -> Result<(), String> {
        let count = (self.proved.map_regions() as i64 + slots).max(0) as u32;
        let slots: Vec<u32> = (0..count).map(|i| self.first_slot + i).collect();
        let size = self.proved.region().wrapping_add_signed(bytes);
        let told = self.proved.place(start, size, &slots);
        let (told, asked) = self.answered(told, host)?;
        let rust = self.scripted(asked.clone(), |rust| rust.place(start, size, &slots))?;
        self.also(asked, rust, |device| device.place(start, size, &slots))?;
        self.placed = rust.is_ok();
        self.saw("place, number", told.number);
        sized(rust, told)?;
        if self.placed {
            let guest = match &self.rings {
                Some(rings) => rings.layout.guest(),
                None => Guest::new(BASE, LENGTH, BASE).expect("a small range"),
            };
            assert!(
                self.rust.activate(guest),
                "mem.rs activates a placed device"
            );
            if let Some(device) = &mut self.drop_in {
                match &self.rings {
                    Some(rings) => rings.layout.activate(device),
                    None => device.activate(BASE, LENGTH),
                }
            }
        }
        Ok(())
    }

    fn read(&mut self, offset: u64, length: usize) -> Result<(), String> {
        let (mut rust, mut proved) = (vec![NOISE; length], vec![NOISE; length]);
        self.rust.read_config(offset, &mut rust);
        let number = self.proved.read_config(offset, &mut proved);
        self.calls += 1;
        self.saw("config read, number", number);
        same("config read", (0, &rust), (number, &proved))?;
        self.also(Vec::new(), rust, |device| {
            let mut data = vec![NOISE; length];
            device.read_config(offset, &mut data);
            data
        })
    }

    fn request(&mut self, kind: u16, addr: u64, blocks: u16, host: Host) -> Result<(), String> {
        let (req, _) = self.rust.write_request(kind, addr, blocks);
        let guest = self.rust.guest();
        guest.write(req + 2, &[NOISE; 6]);
        guest.write(req + 18, &[NOISE; 6]);
        self.memory = guest.read(BASE, LENGTH);
        let before = self.memory.clone();
        let told = self.proved.request(&mut self.memory, BASE, BASE, 0);
        let (told, asked) = self.answered(told, host)?;
        // mem.rs is as it was before the request, and has no reason: it is the model's of that.
        let due = Asked::of(kind, addr, blocks);
        let due = due.and_then(|due| self.rust.why(due, &granted(&asked)));
        let (head, length) = self.scripted(asked.clone(), |rust| rust.serve(0))?;
        let used = told.used().map(|(length, _)| length);
        same("used length", (0, Some(length)), (told.number, used))?;
        let memory = self.rust.guest().read(BASE, LENGTH);
        if memory != self.memory {
            let at = req as usize + 32 - BASE as usize..req as usize + 42 - BASE as usize;
            same("response", &memory[at.clone()], &self.memory[at])?;
            return Err("guest memory differs".to_string());
        }
        self.also(asked, ((head, length), None), |device| {
            device.give(&before);
            (device.serve(), difference(&memory, &device.memory()))
        })?;
        let names = [
            "plug, response",
            "unplug, response",
            "unplug-all, response",
            "state, response",
        ];
        self.saw(names[usize::from(kind)], told.words[5]);
        if blocks >= 512 {
            let name = match kind {
                PLUG => "plug of 512 blocks and more, response",
                UNPLUG => "unplug of 512 blocks and more, response",
                _ => "state of 512 blocks and more, response",
            };
            self.saw(name, told.words[5]);
        }
        self.over = kind == UNPLUG_ALL && told.words[5] == u64::from(ERROR);
        let (kind, state) = (told.words[5] as u16, told.words[6] as u16);
        let at = req as usize + 32 - BASE as usize;
        let word = |at: usize| u16::from_le_bytes([memory[at], memory[at + 1]]);
        same("answer", (word(at), word(at + 8)), (kind, state))?;
        self.saw("response, why", told.words[8]);
        self.hold_why(&told, due);
        Ok(())
    }

    /// Makes a chain available; where the ring is full, or nothing may come behind, the devices are woken.
    fn put(&mut self, put: Put, host: Host) -> Result<(), String> {
        let head = put.write(self.rust.guest());
        let rings = self.rings.as_mut().expect("a run with rings");
        rings.waiting.push(head);
        if put.is_last() || rings.waiting.len() == usize::from(QUEUE_SIZE) {
            let refused = self.wake(host)?;
            self.over = put.is_last() && refused;
        }
        Ok(())
    }

    /// Both devices serve every head that waits: mem.rs in one wake, the proved device with a call for each until no head is there.
    /// Gives whether the last one's response is ERROR.
    fn wake(&mut self, host: Host) -> Result<bool, String> {
        let rings = self.rings.as_mut().expect("a run with rings");
        let heads = std::mem::take(&mut rings.waiting);
        let Layout { base, length, .. } = rings.layout;
        self.memory = self.rust.guest().read(base, length);
        let before = self.memory.clone();
        let (mut used, mut questions) = (Vec::new(), Vec::new());
        let mut refused = false;
        loop {
            let rings = self.rings.as_mut().expect("a run with rings");
            // mem.rs will serve all heads at once. So the model has the proved device as it was before each.
            let device = self.proved.clone();
            let chain = heads.get(used.len());
            let chain = chain.map(|&head| rings.layout.chain(head, &self.memory));
            let told = self.proved.serve(&mut rings.words, &mut self.memory, base);
            let (told, asked) = self.answered(told, host)?;
            if told.empty() {
                break;
            }
            let (Some((length, reason)), Some(&head)) = (told.used(), heads.get(used.len())) else {
                return Err(format!("serve, {} heads waited: {told:?}", heads.len()));
            };
            match reason {
                0 if told.words[0] == 5 => {
                    self.saw("head, response", told.words[5]);
                    self.saw("head, why", told.words[8]);
                }
                _ => self.saw("head, reason", reason),
            }
            let due = chain.and_then(|chain| chain.asked());
            let due = due.and_then(|due| device.why(due, &granted(&asked)));
            self.hold_why(&told, due);
            self.saw("head, used length", length.into());
            refused = told.words[5] == u64::from(ERROR);
            used.push((u32::from(head), length));
            questions.extend(asked);
        }
        same("heads taken", heads.len(), used.len())?;
        self.scripted(questions.clone(), |rust| rust.wake())?;
        let guest = self.rust.guest();
        let index = guest.used_index();
        let newest = (1..=used.len() as u16).rev();
        let elements = newest.map(|back| guest.used_at(index.wrapping_sub(back)));
        same("used", elements.collect(), used)?;
        let memory = guest.read(base, length);
        if let Some(at) = difference(&memory, &self.memory) {
            let what = format!("guest memory at {}", base + at as u64);
            same(&what, memory[at], self.memory[at])?;
        }
        self.also(questions, None, |device| {
            device.give(&before);
            device.wake();
            difference(&memory, &device.memory())
        })?;
        let rings = self.rings.as_ref().expect("a run with rings");
        same("queue", rings.layout.words(index), rings.words)?;
        // By the greatest power of 2 up to their number.
        let count = heads.len().checked_ilog2().map_or(0, |log| 1 << log);
        self.saw("wake, heads from", count);
        if usize::from(index) < heads.len() {
            self.saw("wake, index at or past 65,536", 0);
        }
        Ok(refused)
    }

    /// While the host is asked no head is taken, and nothing changes.
    fn serves_none(&mut self) -> Result<(), String> {
        let Some(rings) = &mut self.rings else {
            return Ok(());
        };
        let before = (self.proved.record, rings.words, self.memory.clone());
        let told = self
            .proved
            .serve(&mut rings.words, &mut self.memory, rings.layout.base);
        self.calls += 1;
        if told.number != 7 || before != (self.proved.record, rings.words, self.memory.clone()) {
            return Err(format!("serve while the host is asked: {told:?}"));
        }
        Ok(())
    }

    /// Answers the proved device until it asks no more.
    fn answered(&mut self, mut told: Told, host: Host) -> Result<(Told, Questions), String> {
        let mut asked = Vec::new();
        self.calls += 1;
        while let Some(want) = told.want() {
            self.counted()?;
            if let Want::Discard { offset, host, .. } = want {
                same("the row's host address", self.host_of(offset), Some(host))?;
            }
            let (ok, addr) = host(want);
            let name = match want {
                Want::Create { .. } => "host's creation, success",
                Want::Discard { .. } => "host's discard, success",
            };
            self.saw(name, u64::from(ok));
            asked.push((want, ok, addr));
            self.serves_none()?;
            told = match &mut self.rings {
                Some(rings) => {
                    let base = rings.layout.base;
                    self.proved
                        .serve_answer(&mut rings.words, &mut self.memory, base, ok, addr)
                }
                None => self.proved.host_answer(&mut self.memory, BASE, ok, addr),
            };
            self.calls += 1;
        }
        Ok((told, asked))
    }

    /// Runs mem.rs, whose questions must be those that were asked, in their order.
    fn scripted<T>(
        &mut self,
        asked: Questions,
        call: impl FnOnce(&mut Rust) -> T,
    ) -> Result<T, String> {
        let script = Script::new("mem.rs", asked);
        let rust = &mut self.rust;
        let out = answering(script.answerer(), || call(rust));
        script.held().map(|()| out)
    }

    /// Runs the drop-in, where it takes part: its questions must be the same, and what comes of them what came of mem.rs.
    fn also<T: PartialEq + fmt::Debug>(
        &mut self,
        asked: Questions,
        rust: T,
        call: impl FnOnce(&mut DropIn) -> T,
    ) -> Result<(), String> {
        let Some(device) = &mut self.drop_in else {
            return Ok(());
        };
        let script = Script::new("the drop-in", asked);
        let out = device.answered(script.answerer(), call);
        script.held()?;
        same_of("mem.rs", rust, "the drop-in", out)
    }

    /// The plugged size that the guest reads is that of the plugged blocks, whatever is pending.
    fn counted(&self) -> Result<(), String> {
        if !self.placed {
            return Ok(());
        }
        let blocks: u32 = self
            .proved
            .bitmap()
            .iter()
            .map(|byte| byte.count_ones())
            .sum();
        let mut bytes = [NOISE; 8];
        self.proved.read_config(40, &mut bytes);
        let plugged = u64::from_le_bytes(bytes);
        match plugged == u64::from(blocks) * BLOCK {
            true => Ok(()),
            false => Err(format!("plugged {plugged} with {blocks} blocks plugged")),
        }
    }

    /// Config bytes, and of a placed device bitmap and rows, the drop-in's too. After an unplug-all that was refused the
    /// plugged size of mem.rs is that of the blocks that it has plugged.
    fn compare(&mut self) -> Result<(), String> {
        let (mut rust, mut proved) = ([NOISE; 56], [NOISE; 56]);
        self.rust.read_config(0, &mut rust);
        if self.over {
            rust[40..48].copy_from_slice(&self.rust.plugged_by_blocks().to_le_bytes());
        }
        self.proved.read_config(0, &mut proved);
        same("config", rust, proved)?;
        if let Some(device) = &mut self.drop_in {
            let mut config = [NOISE; 56];
            device.read_config(0, &mut config);
            same_of("proved", proved, "the drop-in", config)?;
        }
        self.counted()?;
        same("lent behind the need is spared", true, self.proved.spared())?;
        if !self.placed {
            return Ok(());
        }
        let bitmap = self.proved.bitmap();
        let equal = |blocks: &[bool]| {
            blocks.len() == 8 * bitmap.len()
                && blocks
                    .chunks_exact(8)
                    .map(packed)
                    .eq(bitmap.iter().copied())
        };
        same("bitmaps are equal", true, self.rust.with_blocks(equal))?;
        let rust = self.rust.rows();
        if let Some(device) = &self.drop_in {
            let equal = device.with_blocks(equal);
            same_of("bitmaps: proved", true, "the drop-in", equal)?;
            same_of("mem.rs", &rust, "the drop-in", &device.rows())?;
        }
        let rust = rust.iter().map(|&(slot, host)| (u64::from(slot), host));
        match rust.clone().eq(self.proved.rows()) {
            true => Ok(()),
            false => same(
                "rows",
                rust.collect(),
                self.proved.rows().collect::<Vec<_>>(),
            ),
        }
    }

    /// Where a discard's offset lies on the host, by the proved device's rows.
    fn host_of(&self, offset: u64) -> Option<u64> {
        let (row, inside) = match self.proved.map_regions() {
            1 => (0, offset),
            _ => (offset / MAP_REGION, offset % MAP_REGION),
        };
        let (_, host) = self.proved.rows().nth(row as usize)?;
        host?.checked_add(inside)
    }
}

/// The questions that a device must ask, in their order, with their answers; and what it has asked instead.
struct Script {
    who: &'static str,
    left: Rc<RefCell<(VecDeque<(Want, bool, u64)>, Option<String>)>>,
}

impl Script {
    fn new(who: &'static str, asked: Questions) -> Script {
        let left = Rc::new(RefCell::new((VecDeque::from(asked), None)));
        Script { who, left }
    }

    fn answerer(&self) -> impl FnMut(Question) -> Answer + 'static {
        let (who, lent) = (self.who, self.left.clone());
        move |question| {
            let (left, wrong) = &mut *lent.borrow_mut();
            let front = left.pop_front();
            match front {
                Some((want, ok, addr)) if agrees(question, want) => ok.then_some(addr),
                _ => {
                    let said = format!("question: {who} {question:?}, proved {front:?}");
                    wrong.get_or_insert(said);
                    None
                }
            }
        }
    }

    fn held(&self) -> Result<(), String> {
        let (left, wrong) = &*self.left.borrow();
        match (wrong, left.front()) {
            (Some(said), _) => Err(said.clone()),
            (_, Some(more)) => Err(format!("question: {} none, proved {more:?}", self.who)),
            _ => Ok(()),
        }
    }
}

/// The host's answers to discards.
fn granted(asked: &Questions) -> Vec<bool> {
    let discards = asked.iter();
    let discards = discards.filter(|(want, ..)| matches!(want, Want::Discard { .. }));
    discards.map(|&(_, ok, _)| ok).collect()
}

fn agrees(question: Question, want: Want) -> bool {
    match (question, want) {
        (Question::Create { guest, size, slot }, want) => {
            want == Want::Create { guest, size, slot }
        }
        (
            Question::Discard { host, size },
            Want::Discard {
                host: h, size: s, ..
            },
        ) => (host, size) == (h, s),
        _ => false,
    }
}

fn sized(rust: Result<(), u64>, told: Told) -> Result<(), String> {
    let number = rust.err().unwrap_or(0);
    same("number", number, told.number)?;
    same("sized", number == 0, told.sized())
}

/// Eight blocks as a byte, the first in the lowest bit.
fn packed(eight: &[bool]) -> u8 {
    let eight: [bool; 8] = eight.try_into().expect("eight");
    let word = u64::from_le_bytes(eight.map(u8::from));
    (word.wrapping_mul(0x0102_0408_1020_4080) >> 56) as u8
}

/// A chain through a fresh device on both sides, and through a fresh drop-in where it takes part; gives the calls of the exports.
pub fn chain(case: &Chain, drop_in: bool, seen: &mut Seen) -> Result<u64, String> {
    let rust = case.served();
    if drop_in && drop_in::served(case) != rust.to_string() {
        return Err(format!(
            "mem.rs {rust}, the drop-in {}",
            drop_in::served(case)
        ));
    }
    let first = "capacity_mib=256 requested_mib=16 multi=0 node=none boot=1073741824 addr=4294967296 slot=1";
    let first = First::parse(first).expect("the example");
    let mut proved = Proved::make(&first).expect("made");
    let mut memory = case.memory.clone();
    proved.place(first.addr, proved.region(), &[first.slot as u32]);
    proved.host_answer(&mut [], 0, true, 140_737_488_355_328);
    let due = case.asked().and_then(|due| proved.why(due, &[]));
    let told = proved.request(&mut memory, case.base, case.table, case.head);
    let (length, reason) = told.used().ok_or_else(|| format!("{told:?}"))?;
    same(
        "used length and reason",
        (rust.length, rust.reason),
        (length, reason),
    )?;
    *seen.entry(("chain, reason", reason)).or_default() += 1;
    same("plugged", rust.plugged, proved.record[5])?;
    same("memory", rust.memory, memory)?;
    told.why_is(due)?;
    Ok(4)
}
