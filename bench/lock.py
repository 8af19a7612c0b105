#!/usr/bin/env python3
"""Turns a second that threads take on one lock.

    lock.py [--threads 1,4,16,64] [--turns N] [--repeat N]

A small program is written into a temporary folder, beside copies of `turn_lock` and of what that stands on, and is
proved and built there. So many threads take turns on one lock through passes of their own, and in each turn a list of
128 numbers is gone over, about as much as a call of the table of transactions does. `--turns` is the number of turns of
all threads together.
"""
import argparse
import shutil
import subprocess
import tempfile
import time
from pathlib import Path

CRATES = Path(__file__).resolve().parent.parent / "crates"

LISTED = """waf_plain:
turn_lock: waf_plain atomic_table
lock_speed: turn_lock waf_plain
"""

FILES = {
    "src/main.rt": """
//! So many threads take so many turns on one lock.
#![tactic(auto)]

ghost use Rattle.std.specs.Prelude.{◌≤◌, IfSome};

mod passes;
mod sums;

use std::env;
use std::process::ExitCode;

fn main(rt: HostRuntime) -> ExitCode {
    match numbers(&rt) {
        Some((threads, turns)) => match passes::run(&rt, rt.alloc(), threads, turns) {
            Ok(_) => ExitCode::from(0),
            Err(_) => ExitCode::from(6),
        },
        None => ExitCode::from(2),
    }
}

// The number of threads, and the turns that each takes.
fn numbers(rt: &HostRuntime) -> Option<(usize, u64)>
    ensures { IfSome result (λ t. (1 ≤ t.0) × (t.0 ≤ 1000)) }
{
    let mut words = env::args(rt).ok()?.skip(1);
    let threads = words.next()?.parse::<usize>().ok()?;
    let turns = words.next()?.parse::<u64>().ok()?;
    if threads < 1 || threads > 1000 {
        return None;
    }
    Some((threads, turns))
}
""",
    "src/passes.rt": """
//! The threads and their passes.
ghost use Rattle.std.specs.Prelude.{◌≡◌, ◌<◌, ◌≤◌, All, IfOk};
ghost use Rattle.turn_lock.specs.Lock.{IsPassOf, share_of};
ghost use Rattle.turn_lock.specs.View.{all_shares};

use crate::sums::Sums;
use std::alloc::{AllocError, Global};
use std::sync::Wait;
use std::thread;
use std::thread::Threads;
use turn_lock::{Pass, TurnLock};
use waf_plain::NoMemory;

/// Each thread takes so many turns. What the replies come to comes back.
pub fn run<R: Threads + Wait + Sync>(
    rt: &R,
    alloc: Global,
    threads: usize,
    turns: u64,
) -> Result<Vec<u64>, NoMemory>
    requires { (1 ≤ threads) × (threads ≤ 1000) }
{
    let (lock, first) = TurnLock::new(alloc, Sums::new(alloc)?)?;
    let passes = split(alloc, &lock, first, threads)?;
    let shared = &lock;
    let sums = thread::map_vec(
        rt,
        passes,
        &|pass: Pass<Sums>| -> u64
            requires { IsPassOf shared.now pass }
        { take_turns(rt, shared, pass, turns) },
    )?;
    Ok(sums)
}

fn split(
    alloc: Global,
    lock: &TurnLock<Sums>,
    first: Pass<Sums>,
    threads: usize,
) -> Result<Vec<Pass<Sums>>, AllocError>
    requires count { (1 ≤ threads) × (threads ≤ 1000) }
    requires pass { IsPassOf lock.now first × (share_of first ≡ all_shares) }
    ensures { IfOk result (λ v. All (IsPassOf lock.now) v.items) }
{
    let mut first = first;
    let mut passes = Vec::with_capacity(alloc, threads)?;
    for made in 1..threads {
        passes.push_reserved(lock.split(&mut first));
    }
    passes.push_reserved(first);
    Ok(passes)
}

fn take_turns<R: Wait>(rt: &R, lock: &TurnLock<Sums>, pass: Pass<Sums>, turns: u64) -> u64
    requires { IsPassOf lock.now pass }
{
    let mut pass = pass;
    let mut sum = 0;
    for turn in 0..turns {
        sum = lock.act(rt, &mut pass, turn) ^ sum;
    }
    sum
}
""",
    "src/sums.rt": """
//! What is locked: a list of numbers, over which each call goes.
use std::alloc::{AllocError, Global};
use turn_lock::Object;

#[derive(Drop)]
pub struct Sums {
    numbers: Vec<u64>,
}

impl Sums {
    pub fn new(alloc: Global) -> Result<Sums, AllocError> {
        let numbers = vec![in alloc; 7; 128]?;
        Ok(Sums { numbers })
    }

    fn mixed(&self, start: u64) -> u64 {
        let mut mixed = start;
        for number in &self.numbers {
            mixed = mixed.wrapping_mul(31).wrapping_add(*number);
        }
        mixed
    }
}

impl Object for Sums {
    type Call = u64;

    type Reply = u64;

    ghost starts = { λ s. Unit {0} };

    ghost may = { λ s c. Unit {0} };

    ghost allows = { λ s c r. Unit {0} };

    ghost after = { λ s c r. s };

    ghost fits = { λ own c. Unit {0} };

    ghost kept = { λ s lists. Unit {0} };

    fn act(&mut self, call: u64) -> u64 {
        self.mixed(call)
    }

    ghost kept_first = { λ s h. tt };

    ghost kept_call = { λ s lists i own c r k at f m a. tt };

    ghost kept_new = { λ s lists k. tt };

    ghost kept_join = { λ s lists i j xs ys zs k a n b z. tt };

    ghost may_fitting = { λ s lists i own c k at f. tt };
}
""",
    "proofs/passes/split/Invariants.antt": """
use Rattle.std.proofs.Common.{◌≡◌, ◌≤◌, ◌+◌, length, All, vec_capacity}
use Rattle.turn_lock.specs.Lock.{IsPassOf, share_of}
use Rattle.turn_lock.specs.View.{all_shares}
use Rattle.lock_speed.proofs.passes.split.Given as goal

abbrev pub invariant-loop-made : goal.invariant-loop-made
invariant-loop-made l = IsPassOf l.lock l.first × (share_of l.first + length l.passes.items ≡ all_shares)
    × (length l.passes.items + 1 ≡ l.made) × (l.threads ≤ vec_capacity l.passes) × All (IsPassOf l.lock) l.passes.items
""",
    "proofs/passes/take_turns/Invariants.antt": """
use Rattle.turn_lock.specs.Lock.{IsPassOf}
use Rattle.lock_speed.proofs.passes.take_turns.Given as goal

abbrev pub invariant-loop-turn : goal.invariant-loop-turn
invariant-loop-turn g l = IsPassOf l.lock l.pass
""",
}


def build(folder):
    (folder / "crates.txt").write_text(LISTED)
    (folder / "HANDLES").write_text("Handles allowed: Threads, Wait.\n")
    for name in ("waf_plain", "turn_lock"):
        shutil.copytree(CRATES / name, folder / "crates" / name, ignore=shutil.ignore_patterns("out"))
    crate = folder / "crates" / "lock_speed"
    for name, text in FILES.items():
        path = crate / name
        path.parent.mkdir(parents=True, exist_ok=True)
        path.write_text(text.lstrip("\n"))
    subprocess.run(["rt", "run", "--", "1", "1"], cwd=crate, check=True, stdout=subprocess.DEVNULL)
    return crate / "out" / "lock_speed"


def seconds(program, threads, turns, repeat):
    best = None
    for _ in range(repeat):
        start = time.perf_counter()
        subprocess.run([str(program), str(threads), str(turns)], check=True)
        spent = time.perf_counter() - start
        best = spent if best is None else min(best, spent)
    return best


def main():
    parser = argparse.ArgumentParser(description=__doc__, formatter_class=argparse.RawDescriptionHelpFormatter)
    parser.add_argument("--threads", default="1,4,16,64")
    parser.add_argument("--turns", type=int, default=1000000)
    parser.add_argument("--repeat", type=int, default=3)
    options = parser.parse_args()
    with tempfile.TemporaryDirectory() as folder:
        program = build(Path(folder))
        print("| threads | turns/s |\n|---|---|")
        for threads in [int(word) for word in options.threads.split(",")]:
            each = options.turns // threads
            start = seconds(program, threads, 0, options.repeat)
            spent = seconds(program, threads, each, options.repeat)
            print("| %d | %d |" % (threads, each * threads / (spent - start)))


if __name__ == "__main__":
    main()
