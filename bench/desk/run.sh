#!/usr/bin/env bash
# Turns a second at a desk, beside std's lock in the same program, and what a waiting thread costs.
# Makes a program over a copy of crates/ticket_desk in a folder of its own, and runs it once.
set -euo pipefail
top="$(cd "$(dirname "$0")/../.." && pwd)"
work="$(mktemp -d)"
trap 'rm -rf "$work"' EXIT
mkdir -p "$work/crates/desk_bench/src" "$work/crates/desk_bench/specs" "$work/crates/desk_bench/proofs"
cp -r "$top/crates/ticket_desk" "$work/crates/ticket_desk"
rm -rf "$work/crates/ticket_desk/out"
cp "$top/HANDLES" "$work/HANDLES"
printf 'ticket_desk: atomic_table\ndesk_bench: ticket_desk\n' > "$work/crates.txt"
cat > "$work/crates/desk_bench/src/main.rt" <<'PROGRAM'
#![tactic(auto)]

use std::alloc::Global;
use std::fs;
use std::sync::{Mutex, Wait};
use std::test::Fail;
use std::thread;
use std::thread::Threads;
use std::time::{Clock, Duration, Instant};
use ticket_desk::{Desk, History, PassOf};

#[derive(Drop)]
struct Counter {
    count: u64,
}

impl History for Counter {
    ghost use Rattle.std.specs.Prelude.{[]};

    type Item = u64;
    type Origin = ();

    ghost items = { λ _. [] };

    ghost origin = { λ _. tt };

    ghost by = { λ n. n };
}

const TURNS: u64 = 400_000;

fn work(rt: &impl Clock, count: &mut u64, hold: u64) {
    *count += 1;
    if hold > 0 {
        thread::sleep(rt, Duration::from_micros(hold));
    }
}

fn desk_turns<R: Wait + Clock>(
    rt: &R,
    desk: &Desk<Counter>,
    pass: &mut PassOf<Counter>,
    turns: u64,
    hold: u64,
) {
    for _ in 0..turns {
        desk.turn(rt, pass, |counter: &mut Counter| work(rt, &mut counter.count, hold));
    }
}

fn lock_turns<R: Wait + Clock>(rt: &R, lock: &Mutex<u64>, turns: u64, hold: u64) {
    for _ in 0..turns {
        work(rt, &mut *lock.lock(rt), hold);
    }
}

// The processor time of this process so far, in milliseconds.
fn spent(rt: &HostRuntime) -> Result<u64, Fail> {
    let text = fs::read_to_string(rt, "/proc/self/stat")?;
    let mut fields = text.split(' ').skip(13);
    let user: u64 = fields.next().ok_or("no field")?.parse()?;
    let system: u64 = fields.next().ok_or("no field")?.parse()?;
    Ok(10 * (user + system))
}

fn at_desk<R: Threads + Wait + Clock + Sync>(rt: &R, alloc: Global, threads: u32, turns: u64, hold: u64) -> Result<u64, Fail> {
    let (desk, mut passes) = Desk::start(alloc, Counter { count: 0 }, threads).map_err(|_| "memory")?;
    let start = Instant::now(rt)?;
    thread::for_each_mut(rt, passes.as_mut_slice(), threads as usize, &|_, pass: &mut PassOf<Counter>| {
        desk_turns(rt, &desk, pass, turns, hold)
    });
    let wall = start.elapsed(rt)?.as_micros() as u64;
    let counter = desk.close(passes);
    if counter.count != turns * u64::from(threads) {
        return Err(Fail::from("turns are missing"));
    }
    Ok(wall)
}

fn at_lock<R: Threads + Wait + Clock + Sync>(rt: &R, alloc: Global, threads: u32, turns: u64, hold: u64) -> Result<u64, Fail> {
    let lock = Mutex::new(0u64);
    let mut seats = Vec::from_elem(alloc, 0u64, threads as usize)?;
    let start = Instant::now(rt)?;
    thread::for_each_mut(rt, seats.as_mut_slice(), threads as usize, &|_, _seat: &mut u64| {
        lock_turns(rt, &lock, turns, hold)
    });
    let wall = start.elapsed(rt)?.as_micros() as u64;
    if lock.into_inner() != turns * u64::from(threads) {
        return Err(Fail::from("turns are missing"));
    }
    Ok(wall)
}

fn main(rt: HostRuntime) -> Result<(), Fail> {
    println!(&rt; "threads  desk turns/s  lock turns/s  lock/desk (percent)")?;
    for threads in [1u32, 2, 4, 8] {
        let turns = TURNS / u64::from(threads);
        let desk = at_desk(&rt, rt.alloc(), threads, turns, 0)?;
        let lock = at_lock(&rt, rt.alloc(), threads, turns, 0)?;
        let desk_rate = TURNS * 1_000_000 / desk;
        let lock_rate = TURNS * 1_000_000 / lock;
        let percent = 100 * lock_rate / desk_rate;
        println!(&rt; "{threads:7}  {desk_rate:12}  {lock_rate:12}  {percent:9}")?;
    }
    println!(&rt; "threads  processor time of 200,000 empty turns, and of 20,000 turns of 20 us, in ms")?;
    for threads in [2u32, 32, 255] {
        let before = spent(&rt)?;
        let _wall = at_desk(&rt, rt.alloc(), threads, 200_000 / u64::from(threads), 0)?;
        let between = spent(&rt)?;
        let _wall = at_desk(&rt, rt.alloc(), threads, 20_000 / u64::from(threads), 20)?;
        println!(&rt; "{threads:7}  {} {}", between - before, spent(&rt)? - between)?;
    }
    println!(&rt; "4 threads, 250 turns each of 1 ms: wall and processor time in ms")?;
    let before = spent(&rt)?;
    let wall = at_desk(&rt, rt.alloc(), 4, 250, 1000)?;
    let between = spent(&rt)?;
    println!(&rt; "desk: {} {}", wall / 1000, between - before)?;
    let wall = at_lock(&rt, rt.alloc(), 4, 250, 1000)?;
    println!(&rt; "lock: {} {}", wall / 1000, spent(&rt)? - between)?;
    Ok(())
}
PROGRAM
cd "$work/crates/desk_bench"
rt try
