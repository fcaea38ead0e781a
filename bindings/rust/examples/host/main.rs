// SPDX-License-Identifier: Apache-2.0 AND BSD-3-Clause
//! A small real host with a guest that runs: the device has a thread, and so has the guest. They share the guest's memory
//! and eventfds; for its config, and to say where its queue is, the guest calls the host, as a vCPU does by an exit.
//!
//! The guest's own memory is two memfds with a hole between them, its queue in the one and its requests in the other.
//! The device's memory is a memfd for each creation, and goes back to the kernel by fallocate. The guest plugs, touches
//! and unplugs it, and has what the host asks it to have while the host changes its mind. What is printed is what the
//! kernel holds of the device's memory and what the guest reads; it is always the same, and stands in
//! examples/host.stdout. Every call of the device is held against an account of it (audit.rs).
//!
//! With `--seconds N [--seed S]` the guest writes random bytes over its rings and requests for so long instead
//! (stress.rs), and one line says what came up.

#![allow(clippy::incompatible_msrv)] // which is the library's

use std::env;
use std::io;
use std::panic;
use std::process::{exit, ExitCode};
use std::sync::mpsc::channel;
use std::thread;

use jambcopper::driver::{Config, Request, Response};
use jambcopper::BLOCK_SIZE;

mod account;
mod audit;
mod guest;
mod host;
mod kernel;
mod noted;
#[path = "../../../../compare/oracle/src/random.rs"]
mod random;
mod stress;

use guest::{Driver, Guest};
use host::{Host, START};
use random::Random;

/// How often the host changes its mind while the guest follows.
const CHANGES: u64 = 200;

/// What it asks for at last, which is more than it ever did meanwhile.
const LAST_MIB: u64 = 96;

fn main() -> ExitCode {
    // A thread that panics ends the program: the others would wait for it.
    let told = panic::take_hook();
    panic::set_hook(Box::new(move |panicked| {
        told(panicked);
        exit(1)
    }));
    let args: Vec<String> = env::args().skip(1).collect();
    let ran = match arguments(&args) {
        Some(None) => example(),
        Some(Some((seconds, seed))) => stress::run(seconds, seed),
        None => {
            eprintln!("usage: host [--seconds N [--seed S]]");
            return ExitCode::from(2);
        }
    };
    match ran {
        Ok(true) => ExitCode::SUCCESS,
        Ok(false) => ExitCode::FAILURE,
        Err(error) => {
            eprintln!("host: {error}");
            ExitCode::FAILURE
        }
    }
}

/// How long the stress is, and its seed; none where there are no arguments.
fn arguments(args: &[String]) -> Option<Option<(u32, u64)>> {
    let args: Vec<&str> = args.iter().map(String::as_str).collect();
    let (seconds, seed) = match args[..] {
        [] => return Some(None),
        ["--seconds", seconds] => (seconds, "1"),
        ["--seconds", seconds, "--seed", seed] => (seconds, seed),
        _ => return None,
    };
    Some(Some((seconds.parse().ok()?, seed.parse().ok()?)))
}

/// A device of several map regions, of which the second is created when the requested size grows.
fn example() -> io::Result<bool> {
    let host = Host::new(4352, 64, true)?;
    let (guest, work) = Guest::new();
    thread::scope(|threads| {
        threads.spawn(|| host.run().expect("the device's thread"));
        threads.spawn(|| {
            let mut driver = Driver::new(&host);
            work.into_iter().for_each(|work| work(&mut driver));
        });
        let done = operate(&host, guest);
        host.end()?;
        done
    })?;
    let wrong = host.with_tally(|tally| tally.count_of_wrong());
    println!("answers that are not the account's: {wrong}");
    Ok(wrong == 0)
}

/// What the host's operator does, and has the guest do.
fn operate(host: &Host, guest: Guest) -> io::Result<()> {
    plug_and_unplug(host, &guest)?;
    change_while_pending(host, &guest)?;
    grow(host, &guest)?;
    follow(host, &guest)
}

/// What the kernel holds of the device's memory, how much of it is mapped, and what the guest reads.
fn print(host: &Host, when: &str) -> io::Result<()> {
    let config = config(host);
    let kib = [
        host.held()?,
        host.mapped(),
        config.plugged_size,
        config.requested_size,
    ];
    let [held, mapped, plugged, requested] = kib.map(|bytes| bytes / 1024);
    println!("{when:<26} held={held} KiB mapped={mapped} KiB plugged={plugged} KiB requested={requested} KiB");
    Ok(())
}

fn config(host: &Host) -> Config {
    Config::read(&host.read_config()).expect("a config")
}

fn at(block: u64) -> u64 {
    START + block * BLOCK_SIZE
}

/// The guest asks, and has the response that it must have.
fn ask(guest: &Guest, request: Request, must_be: u16) -> io::Result<()> {
    let told = guest.run(move |driver| driver.change(request))?;
    assert_eq!(told, must_be, "{request:?}");
    Ok(())
}

fn plug_and_unplug(host: &Host, guest: &Guest) -> io::Result<()> {
    print(host, "before the plug")?;
    ask(guest, Request::plug(at(0), 8), Response::ACK)?;
    print(host, "plugged")?;
    guest.run(|driver| driver.touch(0, 8));
    print(host, "touched")?;
    ask(guest, Request::unplug(at(2), 3), Response::ACK)?;
    print(host, "unplugged 3 of 8")?;

    host.set_willing(|_| false);
    ask(guest, Request::unplug(at(0), 2), Response::ERROR)?;
    print(host, "unplug host refused")?;
    ask(guest, Request::unplug(at(1), 4), Response::ERROR)?;
    print(host, "unplug device refused")?;

    // Of five blocks the first is given back.
    let mut discards = 0;
    host.set_willing(move |_| {
        discards += 1;
        discards != 2
    });
    ask(guest, Request::unplug_all(), Response::ERROR)?;
    print(host, "unplug-all refused")?;
    host.set_willing(|_| true);

    // Three requests, and one kick.
    let responses = guest.run(|driver| {
        driver.ask_all(&[
            Request::plug(at(2), 3),
            Request::state(at(0), 8),
            Request::plug(at(8), 10),
        ])
    })?;
    let responses: Vec<_> = responses
        .iter()
        .map(|told| (told.resp_type, told.state))
        .collect();
    let (ack, nack) = ((Response::ACK, 0), (Response::NACK, 0));
    assert_eq!(responses, [ack, (Response::ACK, Response::MIXED), nack]);
    print(host, "three requests at once")
}

/// A size change while a head is out is refused, and done when the request has ended.
fn change_while_pending(host: &Host, guest: &Guest) -> io::Result<()> {
    let (tell, is_asked) = channel();
    let (go_on, may_go_on) = channel();
    host.set_willing(move |_| {
        tell.send(()).expect("an operator");
        may_go_on.recv().expect("an operator");
        true
    });
    let unplugged = guest.start(|driver| driver.change(Request::unplug(at(1), 7)));
    is_asked.recv().expect("a discard that is asked for");
    print(host, "unplug under way")?;
    let refused = host
        .resize_now(128)
        .expect_err("a size change while a discard is pending");
    println!("size change refused: {refused}");
    go_on.send(()).expect("a host that waits");
    let resized = host.resize(128);
    assert_eq!(unplugged.recv().expect("a guest")?, Response::ACK);
    assert_eq!(resized, Ok(()));
    host.set_willing(|_| true);
    print(host, "unplugged, then resized")
}

/// A requested size that needs another map region; the guest asks what is plugged, and plans from there on.
fn grow(host: &Host, guest: &Guest) -> io::Result<()> {
    host.set_willing(|_| false);
    let refused = host.resize(2560).expect_err("a creation that failed");
    println!("size change refused: {refused}");
    print(host, "creation host refused")?;
    host.set_willing(|_| true);
    host.resize(2304).map_err(io::Error::other)?;
    print(host, "resized and created")?;
    guest.run(|driver| driver.learn())?;
    while let Some(plug) = guest.run(|driver| driver.plan()) {
        ask(guest, plug, Response::ACK)?;
        let first = (plug.addr - START) / BLOCK_SIZE;
        print(host, &format!("planned {} from block {first}", plug.blocks))?;
    }
    guest.run(|driver| driver.touch(511, 2));
    print(host, "touched 2 at the border")?;
    ask(guest, Request::unplug(at(511), 2), Response::ERROR)?;
    ask(guest, Request::unplug_all(), Response::ACK)?;
    print(host, "unplugged all")
}

/// The guest has what it is asked to have, while the host changes its mind as soon as it has begun.
fn follow(host: &Host, guest: &Guest) -> io::Result<()> {
    let followed = guest.start(|driver| {
        driver.follow(LAST_MIB << 20)?;
        driver.touch_all();
        io::Result::Ok(())
    });
    let mut random = Random::new(1);
    for _ in 1..CHANGES {
        let before = config(host).plugged_size;
        let mib = 4 * random.below(LAST_MIB / 4);
        host.resize(mib).map_err(io::Error::other)?;
        let waits = |now: Config| now.plugged_size == before && before != now.requested_size;
        while waits(config(host)) {
            if let Ok(ended) = followed.try_recv() {
                return ended;
            }
            thread::yield_now();
        }
    }
    host.resize(LAST_MIB).map_err(io::Error::other)?;
    followed.recv().expect("a guest")?;
    print(host, &format!("followed {CHANGES} changes"))
}
