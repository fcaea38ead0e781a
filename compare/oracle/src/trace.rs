// SPDX-License-Identifier: Apache-2.0 AND BSD-3-Clause
//! Traces in the house form: lines to values and back, and a device that is driven by them.

use std::cell::RefCell;
use std::collections::VecDeque;
use std::fmt;
use std::rc::Rc;

use crate::guest::Guest;
use crate::host::{answering, Answer, Question};
use crate::rust::{Config, Rust, BLOCK, ERROR, MAP_REGION, PLUG, STATE, UNPLUG, UNPLUG_ALL};
use crate::why::Asked;

/// The greatest first slot.
pub const MAX_SLOT: u64 = 4_294_966_000;

/// The first line: makes and places the device.
#[derive(Clone, Copy, Debug, PartialEq, Eq)]
pub struct First {
    pub capacity_mib: u64,
    pub requested_mib: u64,
    pub multi: bool,
    pub node: Option<u16>,
    pub boot: u64,
    pub addr: u64,
    pub slot: u64,
}

/// Every other line.
#[derive(Clone, Copy, Debug, PartialEq, Eq)]
pub enum Op {
    Plug { addr: u64, blocks: u16 },
    Unplug { addr: u64, blocks: u16 },
    State { addr: u64, blocks: u16 },
    UnplugAll,
    Size { mib: u64 },
    Host { ok: bool, addr: u64 },
}

impl fmt::Display for First {
    fn fmt(&self, f: &mut fmt::Formatter<'_>) -> fmt::Result {
        let node = self.node.map_or("none".to_string(), |n| n.to_string());
        write!(
            f,
            "capacity_mib={} requested_mib={} multi={} node={} boot={} addr={} slot={}",
            self.capacity_mib,
            self.requested_mib,
            u8::from(self.multi),
            node,
            self.boot,
            self.addr,
            self.slot
        )
    }
}

impl fmt::Display for Op {
    fn fmt(&self, f: &mut fmt::Formatter<'_>) -> fmt::Result {
        match self {
            Op::Plug { addr, blocks } => write!(f, "op=plug addr={addr} blocks={blocks}"),
            Op::Unplug { addr, blocks } => write!(f, "op=unplug addr={addr} blocks={blocks}"),
            Op::State { addr, blocks } => write!(f, "op=state addr={addr} blocks={blocks}"),
            Op::UnplugAll => write!(f, "op=unplug_all"),
            Op::Size { mib } => write!(f, "op=size mib={mib}"),
            Op::Host { ok, addr } => write!(f, "op=host ok={} addr={addr}", u8::from(*ok)),
        }
    }
}

/// The values of a line whose keys are `keys`, in their order.
fn fields<'a, const N: usize>(line: &'a str, keys: [&str; N]) -> Option<[&'a str; N]> {
    let mut values = [""; N];
    let mut parts = line.split(' ');
    for (value, key) in values.iter_mut().zip(keys) {
        *value = parts.next()?.strip_prefix(key)?.strip_prefix('=')?;
    }
    parts.next().is_none().then_some(values)
}

/// A number in decimal without leading zeros.
fn number<T: std::str::FromStr>(text: &str) -> Option<T> {
    let digits = text.bytes().all(|b| b.is_ascii_digit());
    let leading = text.len() > 1 && text.starts_with('0');
    (digits && !leading).then(|| text.parse().ok())?
}

fn flag(text: &str) -> Option<bool> {
    match text {
        "0" => Some(false),
        "1" => Some(true),
        _ => None,
    }
}

impl First {
    pub fn parse(line: &str) -> Option<First> {
        let keys = [
            "capacity_mib",
            "requested_mib",
            "multi",
            "node",
            "boot",
            "addr",
            "slot",
        ];
        let [capacity, requested, multi, node, boot, addr, slot] = fields(line, keys)?;
        let first = First {
            capacity_mib: number(capacity)?,
            requested_mib: number(requested)?,
            multi: flag(multi)?,
            node: match node {
                "none" => None,
                _ => Some(number(node)?),
            },
            boot: number(boot)?,
            addr: number(addr)?,
            slot: number(slot)?,
        };
        (line.len() <= 200 && first.slot <= MAX_SLOT).then_some(first)
    }
}

impl Op {
    pub fn parse(line: &str) -> Option<Op> {
        if line == "op=unplug_all" {
            return Some(Op::UnplugAll);
        }
        if let Some([op, mib]) = fields(line, ["op", "mib"]) {
            return (op == "size").then_some(Op::Size { mib: number(mib)? });
        }
        if let Some([op, ok, addr]) = fields(line, ["op", "ok", "addr"]) {
            let (ok, addr) = (flag(ok)?, number(addr)?);
            return (op == "host").then_some(Op::Host { ok, addr });
        }
        let [op, addr, blocks] = fields(line, ["op", "addr", "blocks"])?;
        let (addr, blocks) = (number(addr)?, number(blocks)?);
        match op {
            "plug" => Some(Op::Plug { addr, blocks }),
            "unplug" => Some(Op::Unplug { addr, blocks }),
            "state" => Some(Op::State { addr, blocks }),
            _ => None,
        }
    }
}

/// A question as the trace shows it: a discard with its offset in the region.
#[derive(Clone, Copy, Debug, PartialEq, Eq)]
pub enum Want {
    Create { guest: u64, size: u64, slot: u32 },
    Discard { offset: u64, size: u64, host: u64 },
}

impl fmt::Display for Want {
    fn fmt(&self, f: &mut fmt::Formatter<'_>) -> fmt::Result {
        match self {
            Want::Create { guest, size, slot } => {
                write!(f, "want=create guest={guest} size={size} slot={slot}")
            }
            Want::Discard { offset, size, host } => {
                write!(f, "want=discard offset={offset} size={size} host={host}")
            }
        }
    }
}

/// Answers the questions of a run, one after the other.
pub type Answers = Rc<RefCell<dyn FnMut(Want) -> Answer>>;

/// What a line gives beside its questions.
#[derive(Clone, Copy, Debug, PartialEq, Eq)]
pub enum Outcome {
    Sized {
        requested: u64,
        usable: u64,
    },
    Response {
        resp: u16,
        state: u16,
        plugged: u64,
        usable: u64,
        /// By the model, which mem.rs is not; none where it does not fit what mem.rs responds.
        why: Option<u64>,
    },
    Refuse(u64),
}

/// A line of the output without the reason, which no line of mem.rs has: all but that is its own.
pub fn without_why(line: &str) -> &str {
    match line.rsplit_once(" why=") {
        Some((rest, _)) => rest,
        None => line,
    }
}

impl fmt::Display for Outcome {
    fn fmt(&self, f: &mut fmt::Formatter<'_>) -> fmt::Result {
        match self {
            Outcome::Sized { requested, usable } => {
                write!(f, "sized=0 requested={requested} usable={usable}")
            }
            Outcome::Response {
                resp,
                state,
                plugged,
                usable,
                why,
            } => {
                // A question mark is what no program prints, and so differs from all of them.
                let why = why.map_or("?".to_string(), |why| why.to_string());
                write!(
                    f,
                    "resp={resp} state={state} plugged={plugged} usable={usable} why={why}"
                )
            }
            Outcome::Refuse(n) => write!(f, "refuse={n}"),
        }
    }
}

/// What the reason of a request is worked out from: a device as it was before it.
struct Before {
    config: Config,
    several: bool,
    blocks: Vec<bool>,
    rows: Vec<(u32, Option<u64>)>,
}

impl Before {
    fn of(device: &mut Rust) -> Before {
        Before {
            config: device.config(),
            several: device.multi(),
            blocks: device.blocks(),
            rows: device.rows(),
        }
    }

    /// With these answers of the host to its discards.
    fn why(&self, asked: Asked, granted: &[bool]) -> Option<u64> {
        self.config
            .why(self.several, &self.blocks, &self.rows, asked, granted)
    }
}

/// A device that a trace drives.
pub struct Run {
    pub device: Rust,
    answers: Answers,
}

impl Run {
    /// Makes the device of a first line.
    pub fn make(first: &First, answers: Answers) -> Result<Run, Outcome> {
        let made = Rust::make(
            first.capacity_mib,
            first.requested_mib,
            first.multi,
            first.node,
            first.boot,
        );
        let device = made.map_err(Outcome::Refuse)?;
        Ok(Run { device, answers })
    }

    /// Places it, and lends it a guest's memory with a table at 4096.
    pub fn place(&mut self, first: &First) -> Outcome {
        let (addr, slot) = (first.addr, first.slot as u32);
        let placed = self.asked(|device| device.place_at(addr, slot));
        if placed.is_ok() {
            let guest = Guest::new(4096, 4096, 4096).expect("a small range");
            assert!(self.device.activate(guest), "a placed device is activated");
        }
        self.sized(placed)
    }

    /// One later line that is no host answer.
    pub fn step(&mut self, op: Op) -> Outcome {
        match op {
            Op::Plug { addr, blocks } => self.request(PLUG, addr, blocks, VecDeque::new()),
            Op::State { addr, blocks } => self.request(STATE, addr, blocks, VecDeque::new()),
            Op::Unplug { addr, blocks } => {
                let start = self.device.config().start;
                let offset = addr.wrapping_sub(start);
                self.request(UNPLUG, addr, blocks, VecDeque::from([offset]))
            }
            Op::UnplugAll => {
                let blocks = self.device.blocks();
                let set = (0..).zip(blocks).filter(|&(_, plugged)| plugged);
                let offsets = set.map(|(block, _)| block * BLOCK).collect();
                self.request(UNPLUG_ALL, 0, 0, offsets)
            }
            Op::Size { mib } => {
                let done = self.asked(|device| device.set_requested_size(mib));
                self.sized(done)
            }
            Op::Host { .. } => panic!("no host call is pending"),
        }
    }

    /// The same, as far as the device is compared with mem.rs: false where that ends. An unplug-all
    /// that is refused leaves mem.rs with the plugged size of the blocks that it has cleared, so
    /// later answers may differ (request 5/12). The size of its own line is that of the blocks
    /// that mem.rs has plugged.
    pub fn compared(&mut self, op: Op) -> (Outcome, bool) {
        match self.step(op) {
            Outcome::Response {
                resp: ERROR,
                state,
                usable,
                why,
                ..
            } if op == Op::UnplugAll => {
                let refused = Outcome::Response {
                    resp: ERROR,
                    state,
                    plugged: self.device.plugged_by_blocks(),
                    usable,
                    why,
                };
                (refused, false)
            }
            outcome => (outcome, true),
        }
    }

    fn sized(&mut self, done: Result<(), u64>) -> Outcome {
        let config = self.device.config();
        match done {
            Ok(()) => Outcome::Sized {
                requested: config.requested,
                usable: config.usable,
            },
            Err(n) => Outcome::Refuse(n),
        }
    }

    fn request(&mut self, kind: u16, addr: u64, blocks: u16, offsets: VecDeque<u64>) -> Outcome {
        let before = Before::of(&mut self.device);
        let call = |device: &mut Rust| device.request(kind, addr, blocks);
        let (served, granted) = self.asked_for_discards(offsets, call);
        assert_eq!(served.length, 10, "a trace's response lies inside");
        let config = self.device.config();
        let why = Asked::of(kind, addr, blocks).and_then(|asked| before.why(asked, &granted));
        Outcome::Response {
            resp: served.resp,
            state: served.state,
            plugged: config.plugged,
            usable: config.usable,
            why: why.filter(|&why| (why == 0) == (served.resp != ERROR)),
        }
    }

    /// Runs a call whose questions the run answers.
    fn asked<T>(&mut self, call: impl FnOnce(&mut Rust) -> T) -> T {
        self.asked_for_discards(VecDeque::new(), call).0
    }

    /// The same. `offsets` are those of the discards it may ask for, in order: mem.rs names host addresses
    /// alone, and each is held against its row. Which of them the host has granted is told too.
    fn asked_for_discards<T>(
        &mut self,
        mut offsets: VecDeque<u64>,
        call: impl FnOnce(&mut Rust) -> T,
    ) -> (T, Vec<bool>) {
        let (rows, multi) = match offsets.is_empty() {
            true => (Vec::new(), false),
            false => (self.device.rows(), self.device.multi()),
        };
        let answers = self.answers.clone();
        let granted = Rc::new(RefCell::new(Vec::new()));
        let noted = granted.clone();
        let answerer = move |question| {
            let want = match question {
                Question::Create { guest, size, slot } => Want::Create { guest, size, slot },
                Question::Discard { host, size } => {
                    let offset = offsets.pop_front().expect("no more discards than blocks");
                    let (row, inside) = match multi {
                        true => (offset / MAP_REGION, offset % MAP_REGION),
                        false => (0, offset),
                    };
                    let mapped = rows[row as usize].1.expect("a mapped row");
                    assert_eq!(host, mapped.wrapping_add(inside), "the row's host address");
                    Want::Discard { offset, size, host }
                }
            };
            let answer = (answers.borrow_mut())(want);
            if let Want::Discard { .. } = want {
                noted.borrow_mut().push(answer.is_some());
            }
            answer
        };
        let device = &mut self.device;
        let out = answering(answerer, || call(device));
        (out, granted.take())
    }
}

/// The lines of a trace that is being replayed, and where its output goes.
struct Replay {
    lines: Box<dyn Iterator<Item = String>>,
    read: usize,
    print: Box<dyn FnMut(String)>,
    outside: Option<String>,
}

impl Replay {
    /// Notes that the trace leaves what can be compared at the line just read.
    fn leave(&mut self, why: &str) {
        let first = format!("line {}: {why}", self.read);
        self.outside.get_or_insert(first);
    }

    fn line(&mut self) -> Option<String> {
        self.read += 1;
        self.lines.next()
    }

    fn op(&mut self) -> Option<Op> {
        let line = self.line()?;
        let op = Op::parse(&line);
        if op.is_none() {
            self.leave("not in the house form");
        }
        op
    }

    /// The answer on the next line. Where there is none the call is let fail, and the replay ends.
    fn answer(&mut self, want: Want) -> Answer {
        (self.print)(want.to_string());
        match self.op() {
            Some(Op::Host { ok, addr }) => ok.then_some(addr),
            _ => {
                self.leave("the Rust waits for its host, and no answer stands here");
                None
            }
        }
    }

    /// Prints an outcome, unless the trace was left before it came about.
    fn print(&mut self, outcome: Outcome) -> Result<(), String> {
        match self.outside.take() {
            Some(why) => Err(why),
            None => {
                (self.print)(outcome.to_string());
                Ok(())
            }
        }
    }
}

/// Runs a trace through mem.rs, line by line by `step`, until that says that it ends. An error names
/// the first line outside what can be compared.
pub fn replay(
    lines: impl Iterator<Item = String> + 'static,
    step: impl Fn(&mut Run, Op) -> (Outcome, bool),
    print: impl FnMut(String) + 'static,
) -> Result<(), String> {
    let replay = Rc::new(RefCell::new(Replay {
        lines: Box::new(lines),
        read: 0,
        print: Box::new(print),
        outside: None,
    }));
    let asked = replay.clone();
    let answers = Rc::new(RefCell::new(move |want| asked.borrow_mut().answer(want)));

    let Some(line) = replay.borrow_mut().line() else {
        return Ok(());
    };
    let first = First::parse(&line).ok_or("line 1: not in the house form")?;
    let mut run = match Run::make(&first, answers) {
        Ok(run) => run,
        Err(refused) => return replay.borrow_mut().print(refused),
    };
    let placed = run.place(&first);
    replay.borrow_mut().print(placed)?;
    if let Outcome::Refuse(_) = placed {
        return Ok(());
    }
    loop {
        let next = replay.borrow_mut().op();
        match next {
            Some(Op::Host { .. }) => replay.borrow_mut().leave("the Rust waits for no answer"),
            Some(op) => {
                let (outcome, goes_on) = step(&mut run, op);
                replay.borrow_mut().print(outcome)?;
                if goes_on {
                    continue;
                }
            }
            None => (),
        }
        return replay.borrow_mut().outside.take().map_or(Ok(()), Err);
    }
}

/// What mem.rs prints for a trace as far as it is compared, or where the trace leaves what can be.
pub fn replayed(input: &[String]) -> Result<Vec<String>, String> {
    let output = Rc::new(RefCell::new(Vec::new()));
    let lines = output.clone();
    let push = move |line| lines.borrow_mut().push(line);
    replay(input.to_vec().into_iter(), Run::compared, push)?;
    let lines = output.borrow().clone();
    Ok(lines)
}
