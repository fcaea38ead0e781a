// SPDX-License-Identifier: Apache-2.0 AND BSD-3-Clause
//! The reasons of a trace whose answers are known, by its lines and answers alone: no device is run. So they can be
//! told where mem.rs has another answer too: behind an unplug-all that was refused.

use std::collections::{BTreeMap, BTreeSet};

use crate::rust::{BLOCK, MAP_REGION};
use crate::trace::{without_why, First, Op};
use crate::why::{of_discard, Asked, Device};

const MIB: u64 = 1 << 20;
const GIB: u64 = 1 << 30;

/// A device as far as its lines have told.
struct Told {
    start: u64,
    several: bool,
    usable: u64,
    requested: u64,
    blocks: BTreeSet<u64>,
    /// The host addresses of the rows that are mapped.
    rows: BTreeMap<u64, u64>,
    waits: Option<Waits>,
}

/// What the host has been asked: to create the rows from one on, or to discard blocks for an unplug, or one for an
/// unplug-all.
enum Waits {
    Create { first: u64, rows: u64 },
    Unplug { first: u64, blocks: u64 },
    UnplugAll { block: u64 },
}

/// An answer's fields. A value that stands for any other (`*`) is not told.
struct Answer<'a>(BTreeMap<&'a str, &'a str>);

impl<'a> Answer<'a> {
    fn read(line: &'a str) -> Answer<'a> {
        let fields = line.split(' ').filter_map(|field| field.split_once('='));
        Answer(fields.filter(|(_, value)| *value != "*").collect())
    }

    fn number(&self, key: &str) -> Option<u64> {
        self.0.get(key)?.parse().ok()
    }

    /// Whether it is a response: no other answer has the plugged size.
    fn ends(&self) -> bool {
        self.0.contains_key("plugged")
    }
}

impl Told {
    /// By the first line (R4.2 to R4.4: when there are several regions).
    fn of(first: &First) -> Told {
        let alignment = match first.boot {
            boot if boot < 64 * GIB => 128 * MIB,
            boot => 1 << boot.trailing_zeros().clamp(27, 31),
        };
        let region = u128::from(first.capacity_mib) * u128::from(MIB);
        let region = region.next_multiple_of(2 * alignment as u128);
        Told {
            start: first.addr,
            several: first.multi && region > 2 * u128::from(GIB),
            usable: 0,
            requested: first.requested_mib.wrapping_mul(MIB),
            blocks: BTreeSet::new(),
            rows: BTreeMap::new(),
            waits: None,
        }
    }

    fn plugged(&self) -> u64 {
        self.blocks.len() as u64 * BLOCK
    }

    fn with_device<T>(&self, ask: impl FnOnce(Device) -> T) -> T {
        ask(Device {
            start: self.start,
            usable: self.usable,
            plugged: self.plugged(),
            requested: self.requested,
            several: self.several,
            blocks: self.blocks.last().map_or(0, |last| last + 1),
            is_plugged: &|block| self.blocks.contains(&block),
            host: &|row| self.rows.get(&row).copied(),
        })
    }

    /// A line that is not refused, and its answer; gives the reason where the answer is a response.
    fn hear(&mut self, op: Option<Op>, answer: &Answer) -> Result<Option<u64>, &'static str> {
        let ends = answer.ends();
        let why = match op {
            None | Some(Op::Size { .. }) => {
                if let Some(Op::Size { mib }) = op {
                    self.requested = mib * MIB;
                }
                self.wait_for_creation(answer);
                None
            }
            Some(Op::Host { ok, addr }) => self.host(ok, addr, answer)?,
            Some(Op::Plug { addr, blocks }) => {
                let why = self.why(Asked::Plug { addr, blocks });
                let size = u64::from(blocks) * BLOCK;
                if answer.number("plugged") == Some(self.plugged() + size) {
                    let first = self.block(addr);
                    self.blocks.extend(first..first + u64::from(blocks));
                }
                why
            }
            Some(Op::State { addr, blocks }) => self.why(Asked::State { addr, blocks }),
            Some(Op::Unplug { addr, blocks }) => {
                if !ends {
                    let (first, blocks) = (self.block(addr), u64::from(blocks));
                    self.waits = Some(Waits::Unplug { first, blocks });
                }
                self.why(Asked::Unplug { addr, blocks })
            }
            Some(Op::UnplugAll) => {
                let why = self.why(Asked::UnplugAll);
                self.wait_for_block(0, ends);
                why
            }
        };
        if let Some(usable) = answer.number("usable") {
            self.usable = usable;
        }
        match (why, answer.number("resp")) {
            (Some(_), _) if !ends => Err("a reason, where the answer is no response"),
            (None, _) if ends => Err("no reason is found"),
            (Some(why), Some(resp)) if (why == 0) != (resp != 3) => Err("no reason for that type"),
            _ => Ok(why),
        }
    }

    fn why(&self, asked: Asked) -> Option<u64> {
        self.with_device(|device| device.why(asked, &[]))
    }

    fn block(&self, addr: u64) -> u64 {
        addr.wrapping_sub(self.start) / BLOCK
    }

    fn wait_for_creation(&mut self, answer: &Answer) {
        if answer.0.get("want") == Some(&"create") {
            let told = (answer.number("guest"), answer.number("size"));
            self.waits = Some(match told {
                (Some(guest), Some(size)) if self.several => Waits::Create {
                    first: (guest - self.start) / MAP_REGION,
                    rows: size.div_ceil(MAP_REGION),
                },
                _ => Waits::Create { first: 0, rows: 1 },
            });
        }
    }

    /// An unplug-all that has not ended waits for its next block from here on.
    fn wait_for_block(&mut self, from: u64, ends: bool) {
        let next = self.blocks.range(from..).next().filter(|_| !ends);
        self.waits = next.map(|&block| Waits::UnplugAll { block });
    }

    fn host(&mut self, ok: bool, addr: u64, answer: &Answer) -> Result<Option<u64>, &'static str> {
        match self.waits.take().ok_or("nothing is asked")? {
            Waits::Create { first, rows } => {
                let rows = (0..rows).map(|row| (first + row, addr.wrapping_add(row * MAP_REGION)));
                self.rows.extend(rows);
                Ok(None)
            }
            Waits::Unplug { first, blocks } => {
                if ok {
                    let cleared = first..first + blocks;
                    self.blocks.retain(|block| !cleared.contains(block));
                }
                Ok(Some(of_discard(ok)))
            }
            Waits::UnplugAll { .. } if !ok => Ok(Some(of_discard(ok))),
            Waits::UnplugAll { block } => {
                self.blocks.remove(&block);
                let why = self.with_device(|device| device.of_unplug_all(block + 1, &[]));
                self.wait_for_block(block + 1, answer.ends());
                Ok(why)
            }
        }
    }
}

/// The reason of each answer that is a response. An error names the first line that does not go with its answer.
pub fn reasons(lines: &[String], answers: &[String]) -> Result<Vec<Option<u64>>, String> {
    let mut told = None;
    let mut reasons = Vec::new();
    for (nth, (line, answer)) in lines.iter().zip(answers).enumerate() {
        let wrong = |what: &str| format!("line {}: {what}: {line} -> {answer}", nth + 1);
        let answer = Answer::read(without_why(answer));
        let refused = answer.number("refuse");
        if nth == 0 {
            told = First::parse(line).map(|first| Told::of(&first));
        }
        // A creation that failed is over. After any other refusal all is as it was.
        if refused == Some(10) {
            told.iter_mut().for_each(|told| told.waits = None);
        }
        reasons.push(match (&mut told, refused) {
            (_, Some(_)) => None,
            (Some(told), None) => {
                let op = if nth == 0 {
                    None
                } else {
                    Some(Op::parse(line).ok_or_else(|| wrong("no line"))?)
                };
                told.hear(op, &answer).map_err(wrong)?
            }
            (None, None) => return Err(wrong("no first line")),
        });
    }
    Ok(reasons)
}

/// The answers with the reasons.
pub fn with_reasons(lines: &[String], answers: &[String]) -> Result<Vec<String>, String> {
    let reasons = reasons(lines, answers)?;
    let answers = answers.iter().zip(reasons);
    let told = answers.map(|(answer, why)| match why {
        Some(why) => format!("{} why={why}", without_why(answer)),
        None => answer.clone(),
    });
    Ok(told.collect())
}

/// The traces of a sample: the lines of each, a line `--`, its answers, an empty line.
pub fn traces_of(text: &str) -> Vec<(Vec<String>, Vec<String>)> {
    let mut traces = Vec::new();
    let mut lines = text.split_terminator('\n').map(str::to_string);
    loop {
        let input: Vec<String> = lines.by_ref().take_while(|line| line != "--").collect();
        if input.is_empty() {
            return traces;
        }
        let output = lines.by_ref().take_while(|line| !line.is_empty());
        traces.push((input, output.collect()));
    }
}
