// SPDX-License-Identifier: Apache-2.0 AND BSD-3-Clause
//! A guest that writes random bytes over its rings and requests while the device serves them, a host that refuses now and
//! then and changes its mind, and at last a quiet guest, which must be served as ever.

use std::hint::spin_loop;
use std::io;
use std::sync::atomic::{AtomicBool, Ordering};
use std::thread;
use std::time::{Duration, Instant};

use jambcopper::driver::{Config, Request, Response};
use jambcopper::{HostCall, BLOCK_SIZE};

use crate::guest::{Driver, EXCHANGES, EXCHANGE_BYTES, QUEUE, QUEUE_BYTES};
use crate::host::{Host, RAM, RAM_SIZE, START};
use crate::random::Random;

/// Numbers that mean something somewhere in a ring, a descriptor or a request.
const TELLING: [u8; 10] = [0, 1, 2, 3, 4, 10, 24, 64, 128, 255];

/// So many turns of a loop each pace is kept.
const TURNS: u64 = 1 << 14;

/// Stresses a device for so long: of a single region where the seed is odd, else of several. Whether all was right.
pub fn run(seconds: u32, seed: u64) -> io::Result<bool> {
    let mut random = Random::new(seed);
    let host = match seed % 2 {
        0 => Host::new(4352, 256, true)?,
        _ => Host::new(256, 128, false)?,
    };
    let [resizes, refuses, drives, spoils] = [(); 4].map(|()| Random::new(random.next()));
    host.set_willing(hesitant(refuses));
    let stop = AtomicBool::new(false);
    thread::scope(|threads| {
        threads.spawn(|| host.run().expect("the device's thread"));
        let guest = [
            threads.spawn(|| spoil(&host, spoils, &stop)),
            threads.spawn(|| drive(&host, drives, &stop)),
        ];
        resize(&host, resizes, Duration::from_secs(seconds.into()));
        stop.store(true, Ordering::Release);
        let ended = guest.map(|thread| thread.join().expect("a thread that ends"));
        let ended = ended.into_iter().collect::<io::Result<()>>();
        let ended = ended.and_then(|()| quiet(&host));
        host.end()?;
        ended
    })?;
    host.with_tally(|tally| {
        println!("stress: seconds={seconds} seed={seed} {tally}");
        Ok(tally.count_of_wrong() == 0)
    })
}

/// A host that refuses now and then.
fn hesitant(mut random: Random) -> impl FnMut(HostCall) -> bool + Send {
    move |call| match call {
        HostCall::Create { .. } => random.chance(70),
        HostCall::Discard { .. } => random.chance(98),
    }
}

/// Writes random bytes over the rings and the requests: now as fast as it goes, now with pauses, so that a request comes
/// through at any speed.
fn spoil(host: &Host, mut random: Random, stop: &AtomicBool) -> io::Result<()> {
    while !stop.load(Ordering::Acquire) {
        let pause = 1 << random.below(u64::from(TURNS.ilog2()));
        for _ in 0..TURNS / pause {
            spoil_one(host, &mut random);
            (0..pause).for_each(|_| spin_loop());
        }
        host.kick.signal()?;
    }
    Ok(())
}

/// Writes a byte somewhere in the rings, the descriptors and the requests, half of the time to those of the newest
/// request; and now and then the available ring's index goes on, as if there were more.
fn spoil_one(host: &Host, random: &mut Random) {
    let (rings, requests) = (host.ram(0), host.ram(1));
    let index = &rings[(QUEUE[1] - RAM[0]) as usize + 2];
    let newest = usize::from(index.load(Ordering::Relaxed).wrapping_sub(1)) % EXCHANGES;
    let (bytes, range) = match random.below(4) {
        0 => (rings, 0..QUEUE_BYTES),
        1 => (requests, 0..EXCHANGES * EXCHANGE_BYTES),
        2 => (rings, newest * 32..newest * 32 + 32),
        _ => (
            requests,
            newest * EXCHANGE_BYTES..(newest + 1) * EXCHANGE_BYTES,
        ),
    };
    let any = random.next() as u8;
    let telling = random.pick(&TELLING);
    let byte = if random.chance(50) { telling } else { any };
    bytes[range.start + random.below(range.len() as u64) as usize].store(byte, Ordering::Relaxed);
    if random.chance(1) {
        index.fetch_add(random.below(8) as u8, Ordering::Relaxed);
    }
}

/// Makes good requests, and sets up the queue anew where it has stalled, mostly well.
fn drive(host: &Host, mut random: Random, stop: &AtomicBool) -> io::Result<()> {
    let mut driver = Driver::new(host);
    while !stop.load(Ordering::Acquire) {
        if host.is_stalled() {
            driver.set_up(queue(&mut random));
        }
        for _ in 0..=random.below(4) {
            let request = request(&mut random, &driver.config());
            driver.put(request);
        }
        host.kick.signal()?;
        host.notify.wait_for(1)?;
        driver.skip();
    }
    Ok(())
}

/// Where a queue lies: as it should, or in the hole, over an end of memory, on itself or on the requests.
fn queue(random: &mut Random) -> [u64; 3] {
    let [low, high] = RAM;
    let end = low + RAM_SIZE as u64;
    let [descriptors, available, used] = QUEUE;
    random.pick(&[
        QUEUE,
        QUEUE,
        QUEUE,
        QUEUE,
        [descriptors, available, end],
        [descriptors, high - 261, used],
        [end - 63 * 16, available, used],
        [descriptors, available, available],
        [descriptors, descriptors + 1, used],
        [high, available, used],
    ])
}

/// A request that is mostly good.
fn request(random: &mut Random, config: &Config) -> Request {
    let blocks = 1 + random.below(4) as u16;
    let usable = config.usable_size / BLOCK_SIZE;
    // Often the same few blocks, and those about the border of two map regions.
    let some = [
        random.below(16),
        508 + random.below(8),
        random.below(usable + 4),
    ];
    let addr = START + random.pick(&some) * BLOCK_SIZE;
    match random.below(100) {
        0..=39 => Request::plug(addr, blocks),
        40..=69 => Request::unplug(addr, blocks),
        70..=71 => Request::unplug_all(),
        72..=94 => Request::state(addr, 8 * blocks),
        _ => Request {
            request_type: random.below(6) as u16,
            addr: addr ^ random.next() >> random.below(64),
            blocks: random.next() as u16,
        },
    }
}

/// Changes the requested size for so long, also to what it cannot be, and while a host call is pending.
fn resize(host: &Host, mut random: Random, time: Duration) {
    let until = Instant::now() + time;
    let region = Config::read(&host.read_config())
        .expect("a config")
        .region_size;
    while Instant::now() < until {
        let any = random.next();
        let mib = match random.below(20) {
            0 => any,
            1 => any % 4096,
            2 => 0,
            _ => 4 * random.below(region / BLOCK_SIZE + 1),
        };
        // The account says what it must be.
        let _ = host.resize_now(mib);
        thread::sleep(Duration::from_micros(random.below(2000)));
    }
}

/// All is as ever: what is plugged is unplugged, plugged again, touched and unplugged.
fn quiet(host: &Host) -> io::Result<()> {
    host.set_willing(|_| true);
    host.resize(64).map_err(io::Error::other)?;
    let mut driver = Driver::new(host);
    let steps = [
        (Request::unplug_all(), 0),
        (Request::plug(START, 8), 8),
        (Request::unplug_all(), 0),
    ];
    for (request, blocks) in steps {
        assert_eq!(driver.change(request)?, Response::ACK, "{request:?}");
        driver.touch_all();
        assert_eq!(host.held()?, blocks * BLOCK_SIZE, "{request:?}");
    }
    Ok(())
}
