// SPDX-License-Identifier: Apache-2.0 AND BSD-3-Clause
//! mem.rs and the proved device on the same requests, in instructions and in time; see `--help`.

use std::arch::asm;
use std::env;
use std::fs;
use std::hint::black_box;
use std::process::{exit, Command};
use std::time::Instant;

use both::drop_in::DropIn;
use both::proved::Proved;
use both::sys::{
    self, Lent, ANSWER_WORDS, QUEUE_WORDS, SAVE_FIELDS, SAVE_MAX_TEXT_BYTES, SAVE_SCRATCH,
};
use oracle::guest::Guest;
use oracle::host::answering;
use oracle::rust::{queue, Rust, BLOCK, PLUG, STATE, UNPLUG, UNPLUG_ALL};
use oracle::stand_ins::virtio_queue::{QueueOwnedT, QueueT};
use oracle::trace::First;

const HELP: &str = "\
bench FILE SVG clock|no-clock COUNT..
                    measures, and writes the table into FILE and the plot as SVG: nanoseconds by the clock, and the
                    instructions of a row, which COUNT.. SIDE ROW prints (bin/count and this program)
bench SIDE ROW      one row of one side, marked for bin/count: SIDE is mem.rs or proved, which in a row of the drop-in is the drop-in
bench save CALL ROW one call on a save record, marked for bin/count";

/// 1 TiB in a single region at 4 GiB, all of it requested.
const FIRST: &str = "capacity_mib=1048576 requested_mib=1048576 multi=0 node=none boot=1073741824 addr=4294967296 slot=1";
const START: u64 = 4 << 30;
const HOST: u64 = 140_737_488_355_328;

/// Guest memory, the table at its start, the request and its response behind it, and then the rings, where they are in it.
const BASE: u64 = 4096;
const LENGTH: usize = 4096;
const AVAILABLE: u64 = BASE + 2304;
const USED: u64 = BASE + 2816;

/// What is measured: a request, the same from ring to ring, the same as a wake of the drop-in, a config read, or the queue that mem.rs
/// is served by.
#[derive(Clone, Copy)]
enum What {
    Request(u16, u16),
    Ring(u16, u16),
    Wake(u16, u16),
    Config(usize),
    Queue,
}

struct Row {
    name: &'static str,
    what: What,
    /// Blocks that are plugged before each measurement.
    plugged: u64,
    repeat: u32,
}

const fn row(name: &'static str, what: What, plugged: u64, repeat: u32) -> Row {
    Row {
        name,
        what,
        plugged,
        repeat,
    }
}

const ROWS: [Row; 17] = [
    row("plug of 1 block", What::Request(PLUG, 1), 0, 201),
    row("unplug of 1 block", What::Request(UNPLUG, 1), 1, 201),
    row("plug of 512 blocks", What::Request(PLUG, 512), 0, 51),
    row("unplug of 512 blocks", What::Request(UNPLUG, 512), 512, 51),
    row("plug of 16,384 blocks", What::Request(PLUG, 16384), 0, 11),
    row(
        "unplug of 16,384 blocks",
        What::Request(UNPLUG, 16384),
        16384,
        11,
    ),
    row("state of 1 block", What::Request(STATE, 1), 0, 201),
    row("state of 65,535 blocks", What::Request(STATE, 65535), 0, 11),
    row(
        "unplug-all of 1 TiB, one block plugged",
        What::Request(UNPLUG_ALL, 0),
        1,
        5,
    ),
    row(
        "unplug-all of 1 TiB, all plugged",
        What::Request(UNPLUG_ALL, 0),
        262_144,
        3,
    ),
    row("plug of 1 block, ring to ring", What::Ring(PLUG, 1), 0, 201),
    row(
        "unplug of 1 block, ring to ring",
        What::Ring(UNPLUG, 1),
        1,
        201,
    ),
    row(
        "plug of 1 block, a wake of the drop-in",
        What::Wake(PLUG, 1),
        0,
        201,
    ),
    row(
        "unplug of 1 block, a wake of the drop-in",
        What::Wake(UNPLUG, 1),
        1,
        201,
    ),
    row("config read of 8 bytes", What::Config(8), 0, 201),
    row("config read of 56 bytes", What::Config(56), 0, 201),
    row("queue", What::Queue, 0, 201),
];

/// What is done with a save record: mem.rs has nothing like it.
const SAVE_CALLS: [&str; 4] = ["save", "restore", "old to new", "new to old"];

/// A row of save records: its name, how many runs there are, and which blocks of 1 TiB are plugged.
type SaveRow = (&'static str, u64, fn(usize) -> bool);

const SAVE_ROWS: [SaveRow; 5] = [
    ("1 run, all plugged", 1, |_| true),
    ("no run", 0, |_| false),
    ("8,192 runs", 8_192, |block| block % 32 == 1),
    ("65,536 runs", 65_536, |block| block % 4 == 1),
    ("131,072 runs, every other block", 131_072, |block| {
        block % 2 == 1
    }),
];

/// Measures a stretch: it is marked, so that instructions are counted in it alone, or its nanoseconds are kept.
#[derive(Default)]
struct Meter {
    marks: bool,
    nanoseconds: Vec<u64>,
}

impl Meter {
    fn measure<T>(&mut self, call: impl FnOnce() -> T) -> T {
        if self.marks {
            toggle_collect();
            let out = black_box(call());
            toggle_collect();
            return out;
        }
        let began = Instant::now();
        let out = black_box(call());
        self.nanoseconds.push(began.elapsed().as_nanos() as u64);
        out
    }

    /// What a call takes that nothing else on the machine held up.
    fn least(&self) -> u64 {
        *self
            .nanoseconds
            .iter()
            .min()
            .expect("something was measured")
    }
}

/// Callgrind's client request CALLGRIND_TOGGLE_COLLECT; nothing outside of valgrind.
fn toggle_collect() {
    let request = [
        (u64::from(b'C') << 24 | u64::from(b'T') << 16) + 2,
        0,
        0,
        0,
        0,
        0,
    ];
    // SAFETY: the sequence turns rdi around to where it was; valgrind alone reads the request.
    unsafe {
        asm!(
            "rol rdi, 3", "rol rdi, 13", "rol rdi, 61", "rol rdi, 51", "xchg rbx, rbx",
            in("rax") request.as_ptr(), inout("rdx") 0u64 => _, inout("rdi") 0u64 => _,
        );
    }
}

/// A device of either side, placed, with its guest's memory. The proved one serves a chain or, with a queue, the next head; the drop-in
/// is woken.
enum Side {
    MemRs(Rust),
    Proved(Proved, Option<[u64; QUEUE_WORDS]>, Rust),
    DropIn(DropIn, Rust),
}

impl Side {
    /// The proved side keeps a device of mem.rs too, for no more than to write its requests.
    fn new(proved: bool, row: &Row) -> Side {
        let first = First::parse(FIRST).expect("in the house form");
        let mut rust = Rust::make(
            first.capacity_mib,
            first.requested_mib,
            false,
            None,
            first.boot,
        )
        .expect("made");
        answering(|_| Some(HOST), || rust.place_at(START, 1)).expect("placed");
        let ring = matches!(row.what, What::Ring(..) | What::Wake(..));
        let guest = match ring {
            true => Guest::with_rings(BASE, LENGTH, BASE, AVAILABLE, USED),
            false => Guest::new(BASE, LENGTH, BASE),
        };
        assert!(rust.activate(guest.expect("a small range")));
        if !proved {
            return Side::MemRs(rust);
        }
        if let What::Wake(..) = row.what {
            let mut device = DropIn::make(&first).expect("made");
            let placed =
                device.answered(|_| Some(HOST), |device| device.place(START, 1 << 40, &[1]));
            placed.expect("placed");
            device.activate_with_rings(BASE, LENGTH, [BASE, AVAILABLE, USED], 0);
            return Side::DropIn(device, rust);
        }
        let mut device = Proved::make(&first).expect("made");
        device.place(START, device.region(), &[1]);
        assert!(device.host_answer(&mut [], 0, true, HOST).sized());
        let queue = ring.then(|| {
            let mut queue = [0; QUEUE_WORDS];
            assert_eq!(sys::queue_make(&mut queue, BASE, AVAILABLE, USED), 0);
            queue
        });
        Side::Proved(device, queue, rust)
    }

    /// One request, measured from the chain to its response, or from the available ring to the used one, with a host that does all
    /// it is asked.
    fn request(&mut self, kind: u16, addr: u64, blocks: u16, meter: &mut Meter) {
        let (Side::MemRs(rust) | Side::Proved(.., rust) | Side::DropIn(_, rust)) = self;
        let (_, at) = rust.write_request(kind, addr, blocks);
        match self {
            Side::MemRs(rust) => {
                rust.guest().make_available(0);
                answering(|_| Some(0), || meter.measure(|| rust.wake()));
                reported(rust.guest());
            }
            Side::Proved(device, None, rust) => {
                let mut memory = rust.guest().read(BASE, LENGTH);
                let mut answer = [0; ANSWER_WORDS];
                meter.measure(|| {
                    device
                        .lent()
                        .request(&mut memory, BASE, BASE, 0, &mut answer);
                    while answer[0] == 2 {
                        device
                            .lent()
                            .host_answer(&mut memory, BASE, true, 0, &mut answer);
                    }
                });
                rust.guest().write(BASE, &memory);
            }
            Side::Proved(device, Some(queue), rust) => {
                rust.guest().make_available(0);
                let mut memory = rust.guest().read(BASE, LENGTH);
                let mut answer = [0; ANSWER_WORDS];
                meter.measure(|| {
                    device.lent().serve(queue, &mut memory, BASE, &mut answer);
                    while answer[0] == 2 {
                        device
                            .lent()
                            .serve_answer(queue, &mut memory, BASE, true, 0, &mut answer);
                    }
                });
                rust.guest().write(BASE, &memory);
                reported(rust.guest());
            }
            Side::DropIn(device, rust) => {
                rust.guest().make_available(0);
                device.give(&rust.guest().read(BASE, LENGTH));
                device.answered(|_| Some(0), |device| meter.measure(|| device.wake()));
                rust.guest().write(BASE, &device.memory());
                reported(rust.guest());
            }
        }
        let (Side::MemRs(rust) | Side::Proved(.., rust) | Side::DropIn(_, rust)) = self;
        assert_eq!(rust.guest().read(at, 2), [0, 0], "acknowledged");
    }

    /// The row's calls, `repeat` times after one that is not measured.
    fn run(&mut self, row: &Row, meter: &mut Meter) {
        let mut off = Meter::default();
        for turn in 0..=row.repeat {
            let meter = if turn == 0 { &mut off } else { &mut *meter };
            self.turn(row, meter);
        }
    }

    fn turn(&mut self, row: &Row, meter: &mut Meter) {
        let mut off = Meter::default();
        for first in (0..row.plugged).step_by(16384) {
            let blocks = (row.plugged - first).min(16384) as u16;
            self.request(PLUG, START + first * BLOCK, blocks, &mut off);
        }
        match (row.what, &mut *self) {
            (
                What::Request(kind, blocks) | What::Ring(kind, blocks) | What::Wake(kind, blocks),
                _,
            ) => self.request(kind, START, blocks, meter),
            (What::Config(length), Side::MemRs(rust)) => {
                let data = &mut [0; 56][..length];
                meter.measure(|| rust.read_config(0, data));
            }
            (What::Config(length), Side::Proved(device, ..)) => {
                let data = &mut [0; 56][..length];
                meter.measure(|| device.read_config(0, data));
            }
            (What::Config(length), Side::DropIn(device, _)) => {
                let data = &mut [0; 56][..length];
                meter.measure(|| device.read_config(0, data));
            }
            (What::Queue, Side::MemRs(rust) | Side::Proved(.., rust) | Side::DropIn(_, rust)) => {
                let mut queue = queue(rust.guest());
                let mut guest = Guest::new(BASE, LENGTH, BASE).expect("a small range");
                guest.make_available(0);
                let memory = guest.memory.clone();
                meter
                    .measure(|| {
                        let mut guard = queue.lock();
                        let mut available = guard.iter(&*memory).expect("ready");
                        let head = available.next().expect("one").head_index();
                        drop(guard);
                        queue.add_used(&*memory, head, 10)
                    })
                    .expect("used");
            }
        }
        if let What::Request(PLUG, blocks) | What::Ring(PLUG, blocks) | What::Wake(PLUG, blocks) =
            row.what
        {
            self.request(UNPLUG, START, blocks, &mut off);
        }
    }
}

/// A state of 1 TiB in each of its forms, and the lent words and bytes to move it by.
struct Saved {
    fields: [u64; SAVE_FIELDS],
    old: Vec<u8>,
    text: Vec<u8>,
    length: [u64; 1],
    scratch: Vec<u8>,
    device: Proved,
}

impl Saved {
    /// The state of a row, and a device that it can be laid on.
    fn new((_, _, plugged): SaveRow) -> Saved {
        let Side::Proved(device, ..) = Side::new(true, &ROWS[0]) else {
            unreachable!("asked for")
        };
        let old: Vec<u8> = (0..262_144).map(|at| u8::from(plugged(at))).collect();
        let blocks: u64 = old.iter().map(|byte| u64::from(*byte)).sum();
        let size = device.region();
        let mut saved = Saved {
            fields: [BLOCK, START, size, size, size, blocks * BLOCK],
            old,
            text: vec![0; SAVE_MAX_TEXT_BYTES],
            length: [0],
            scratch: vec![0; SAVE_SCRATCH],
            device,
        };
        assert_eq!(saved.call("old to new", &mut Meter::default()), 0);
        saved.text.truncate(saved.length[0] as usize);
        saved
    }

    /// One call, measured, on what it was given before.
    fn call(&mut self, call: &str, meter: &mut Meter) -> u64 {
        let Saved {
            fields,
            old,
            text,
            length,
            scratch,
            device,
        } = self;
        let Lent { record, bitmap, .. } = device.lent();
        match call {
            "save" => meter.measure(|| sys::save(record, bitmap, text, length)),
            "restore" => meter.measure(|| sys::restore(record, bitmap, text)),
            "old to new" => meter.measure(|| sys::old_to_new(fields, old, scratch, text, length)),
            "new to old" => meter.measure(|| sys::new_to_old(text, scratch, old, fields)),
            _ => panic!("no call {call}"),
        }
    }
}

/// A row's call, once after one that is not measured. What is saved was restored.
fn run_save(call: &str, name: &str, meter: &mut Meter) {
    let found = SAVE_ROWS.iter().find(|row| row.0 == name);
    let row = *found.unwrap_or_else(|| panic!("no row {name}"));
    let mut off = Meter::default();
    for meter in [&mut Meter::default(), meter] {
        let mut saved = Saved::new(row);
        if call == "save" {
            assert_eq!(saved.call("restore", &mut off), 0);
        }
        assert_eq!(saved.call(call, meter), 0);
    }
}

/// The head, 0, is in the used ring, with the response's length.
fn reported(guest: &Guest) {
    assert!(guest.all_used());
    assert_eq!(guest.last_used(), (0, 10));
}

/// A row's figures: instructions and nanoseconds of a call. An emulator's nanoseconds say nothing, and are none.
#[derive(Clone, Copy)]
struct Figures {
    instructions: u64,
    nanoseconds: Option<u64>,
}

/// How the figures are had: the command that counts, and whether the clock is to be believed.
struct Measure<'a> {
    count: &'a [&'a str],
    clock: bool,
}

fn main() {
    let args: Vec<String> = env::args().skip(1).collect();
    let args: Vec<&str> = args.iter().map(|arg| arg.as_str()).collect();
    match args[..] {
        [side @ ("mem.rs" | "proved"), name] => {
            let mut meter = Meter {
                marks: true,
                ..Meter::default()
            };
            let row = find(name);
            Side::new(side == "proved", row).run(row, &mut meter);
        }
        ["save", call, name] => {
            let mut meter = Meter {
                marks: true,
                ..Meter::default()
            };
            run_save(call, name, &mut meter);
        }
        [file, svg, clock @ ("clock" | "no-clock"), ref count @ ..] if !count.is_empty() => {
            let clock = clock == "clock";
            write(file, svg, &Measure { count, clock })
        }
        _ => {
            eprintln!("{HELP}");
            exit(2)
        }
    }
}

fn find(name: &str) -> &'static Row {
    let found = ROWS.iter().find(|row| row.name == name);
    found.unwrap_or_else(|| panic!("no row {name}"))
}

impl Measure<'_> {
    /// Runs a row twice: to count, and by the clock.
    fn figures(&self, row: &Row, proved: bool) -> Figures {
        Figures {
            instructions: self.instructions(row, proved) / u64::from(row.repeat),
            nanoseconds: self.clock.then(|| nanoseconds(row, proved)),
        }
    }

    /// All the instructions of a row.
    fn instructions(&self, row: &Row, proved: bool) -> u64 {
        let side = if proved { "proved" } else { "mem.rs" };
        self.counted(&[side, row.name])
    }

    /// What is counted where this program is given these words.
    fn counted(&self, words: &[&str]) -> u64 {
        let output = Command::new(self.count[0])
            .args(&self.count[1..])
            .args(words)
            .output()
            .unwrap_or_else(|e| panic!("{}: {e}", self.count[0]));
        let number = String::from_utf8_lossy(&output.stdout).trim().parse();
        number.unwrap_or_else(|_| {
            let said = String::from_utf8_lossy(&output.stderr);
            panic!("{} counted nothing:\n{said}", self.count[0])
        })
    }
}

fn nanoseconds(row: &Row, proved: bool) -> u64 {
    let (mut meter, mut clock) = (Meter::default(), Meter::default());
    Side::new(proved, row).run(row, &mut meter);
    for _ in 0..200 {
        clock.measure(|| ());
    }
    meter.least() - clock.least()
}

const HEAD: [&str; 2] = [
    "| call | mem.rs, instructions | proved, instructions | ratio | ratio with the queue |",
    "|---|---:|---:|---:|---:|",
];
const HEAD_OF_TIMES: [&str; 2] = [" mem.rs, ns | proved, ns | ratio |", "---:|---:|---:|"];

const NO_TIMES: &str = " No times: this was measured under an emulator, whose times say nothing.";

/// The table and the plot. What the queue costs is taken off the requests of mem.rs; those from ring to ring have it on both sides.
fn write(file: &str, svg: &str, measure: &Measure) {
    let queue = measure.figures(find("queue"), false);
    let mut table = String::new();
    for (head, of_times) in HEAD.iter().zip(HEAD_OF_TIMES) {
        table += head;
        table += if measure.clock { of_times } else { "" };
        table += "\n";
    }
    let ratio = |proved: u64, rust: u64| proved as f64 / rust as f64;
    let mut bars = Vec::new();
    for row in &ROWS[..ROWS.len() - 1] {
        let (rust, proved) = (measure.figures(row, false), measure.figures(row, true));
        let is_request = matches!(row.what, What::Request(..));
        let around = if is_request { queue.instructions } else { 0 };
        let of_rust = rust.instructions - around;
        let instructions = ratio(proved.instructions, of_rust);
        table += &format!(
            "| {} | {} | {} | {instructions:.2} | {:.2} |",
            row.name,
            grouped(of_rust),
            grouped(proved.instructions),
            ratio(proved.instructions + around, rust.instructions),
        );
        if let (Some(rust), Some(proved), Some(queue)) =
            (rust.nanoseconds, proved.nanoseconds, queue.nanoseconds)
        {
            let around = if is_request { queue } else { 0 };
            let rust = rust.saturating_sub(around).max(1);
            table += &format!(
                " {} | {} | {:.2} |",
                grouped(rust),
                grouped(proved),
                ratio(proved, rust)
            );
        }
        table += "\n";
        println!("{}: {instructions:.2}", row.name);
        bars.push((row.name, instructions));
    }
    table += &format!(
        "\nThe queue's share, {} instructions{}, is taken off the requests of mem.rs, but not off those from ring to ring.{}\n\n{}\n{}",
        queue.instructions,
        queue
            .nanoseconds
            .map_or(String::new(), |ns| format!(" and {ns} ns")),
        if measure.clock { "" } else { NO_TIMES },
        memory(),
        saves(measure)
    );
    let text = fs::read_to_string(file).unwrap_or_else(|e| panic!("{file}: {e}"));
    let (begin, end) = ("<!-- measured -->\n", "<!-- end -->");
    let (before, rest) = text.split_once(begin).expect("a place for the table");
    let (_, after) = rest.split_once(end).expect("the table's end");
    fs::write(file, format!("{before}{begin}{table}{end}{after}")).expect("written");
    fs::write(svg, plot(&bars)).expect("written");
}

/// What a device of 1 TiB keeps: its bitmap, and its rows where it has several regions.
fn memory() -> String {
    let Side::Proved(device, _, rust) = Side::new(true, &ROWS[0]) else {
        unreachable!("asked for")
    };
    let bitmaps = (rust.with_blocks(<[bool]>::len), device.bitmap().len());
    // mem.rs keeps slot, and host and guest address where mapped; the proved device three words.
    let rows = (512 * size_of::<(u32, Option<(u64, u64)>)>(), 512 * 3 * 8);
    let mut table =
        "| memory of 1 TiB, bytes | mem.rs | proved | ratio |\n|---|---:|---:|---:|\n".to_string();
    for (name, (rust, proved)) in [("bitmap", bitmaps), ("rows of 512 map regions", rows)] {
        table += &format!(
            "| {name} | {} | {} | {:.3} |\n",
            grouped(rust as u64),
            grouped(proved as u64),
            proved as f64 / rust as f64
        );
    }
    table
}

/// Save records of 1 TiB, which mem.rs has not: the instructions of each call, and of each run that a row has more than the one
/// before it.
fn saves(measure: &Measure) -> String {
    let mut table = "| save records of 1 TiB, instructions | text, bytes |".to_string();
    for call in SAVE_CALLS {
        table += &format!(" {call} | a run more |");
    }
    table += &format!("\n|---|---:|{}\n", "---:|---:|".repeat(SAVE_CALLS.len()));
    let mut before: Option<(u64, [u64; SAVE_CALLS.len()])> = None;
    for row in SAVE_ROWS {
        let (name, runs, _) = row;
        let bytes = Saved::new(row).text.len() as u64;
        let counts = SAVE_CALLS.map(|call| measure.counted(&["save", call, name]));
        table += &format!("| {name} | {} |", grouped(bytes));
        for (at, count) in counts.iter().enumerate() {
            let more = match before {
                Some((fewer, counts)) if fewer < runs => {
                    format!("{:.1}", (count - counts[at]) as f64 / (runs - fewer) as f64)
                }
                _ => String::new(),
            };
            table += &format!(" {} | {more} |", grouped(*count));
        }
        table += "\n";
        println!("{name}: {counts:?}");
        before = Some((runs, counts));
    }
    table
}

/// A number with a comma at each thousand.
fn grouped(number: u64) -> String {
    let digits = number.to_string();
    let groups: Vec<&str> = digits
        .as_bytes()
        .rchunks(3)
        .rev()
        .map(|group| std::str::from_utf8(group).expect("digits"))
        .collect();
    groups.join(",")
}

/// Bars of the ratios, with a line at 1.
fn plot(bars: &[(&str, f64)]) -> String {
    let longest = bars.iter().map(|bar| bar.1).fold(1.0, f64::max);
    let (left, width, step) = (260.0, 360.0, 22.0);
    let x = |ratio: f64| left + width * ratio / longest;
    let height = step * bars.len() as f64 + 30.0;
    let mut svg = format!("<svg xmlns=\"http://www.w3.org/2000/svg\" viewBox=\"0 0 680 {height}\" font-family=\"sans-serif\" font-size=\"12\">\n<rect width=\"680\" height=\"{height}\" fill=\"white\"/>\n");
    for (i, &(name, ratio)) in bars.iter().enumerate() {
        let y = step * i as f64 + 6.0;
        let colour = if ratio <= 1.0 { "#4a7" } else { "#c74" };
        svg += &format!(
            "<text x=\"{}\" y=\"{}\" text-anchor=\"end\">{name}</text>\n",
            left - 8.0,
            y + 12.0
        );
        svg += &format!(
            "<rect x=\"{left}\" y=\"{y}\" width=\"{:.1}\" height=\"16\" fill=\"{colour}\"/>\n",
            x(ratio) - left
        );
        svg += &format!(
            "<text x=\"{:.1}\" y=\"{}\">{ratio:.2}</text>\n",
            x(ratio) + 4.0,
            y + 12.0
        );
    }
    let (one, bottom) = (x(1.0), height - 22.0);
    svg +=
        &format!("<path d=\"M{one:.1} 0V{bottom}\" stroke=\"black\" stroke-dasharray=\"3 3\"/>\n");
    svg += &format!("<text x=\"{one:.1}\" y=\"{}\" text-anchor=\"middle\">1.0 = mem.rs (instructions)</text>\n</svg>\n", height - 6.0);
    svg
}
