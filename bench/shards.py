#!/usr/bin/env python3
"""Calls a second that threads make on one table of transactions, by its number of shards.

    shards.py [--threads 1,4] [--shards 1,4] [--rounds N] [--rows N] [--repeat N]

A small program is written into a temporary folder, beside copies of `hall` and of what that stands on, and is proved
and built there. Each thread goes round through a pass of its own: it expires what is due (nothing is), enters a key,
parks its row and claims it again, four calls that take a turn of a shard's lock each. Before that the table has so many
rows parked. `--rounds` is the number of rounds of all threads together.
"""
import argparse
import shutil
import subprocess
import tempfile
import time
from pathlib import Path

ROOT = Path(__file__).resolve().parent.parent
CRATES = ROOT / "crates"

FILES = {
    "src/main.rt": """
//! So many threads make calls on a table of so many shards.
#![tactic(auto)]

ghost use Rattle.std.specs.Prelude.{◌≤◌, IfSome};

mod passes;
mod rounds;

use passes::Plan;
use std::env;
use std::process::ExitCode;

fn main(rt: HostRuntime) -> ExitCode {
    match plan(&rt) {
        Some(plan) => match passes::run(&rt, rt.alloc(), &plan) {
            Ok(_) => ExitCode::from(0),
            Err(_) => ExitCode::from(6),
        },
        None => ExitCode::from(2),
    }
}

// The numbers of threads and shards, the rounds of each thread and the rows that are parked before.
fn plan(rt: &HostRuntime) -> Option<Plan>
    ensures { IfSome result (λ p. (1 ≤ p.shards) × (p.shards ≤ 64) × (1 ≤ p.threads) × (p.threads ≤ 64)) }
{
    let mut words = env::args(rt).ok()?.skip(1);
    let threads = words.next()?.parse::<u32>().ok()?;
    let shards = words.next()?.parse::<u32>().ok()?;
    let rounds = words.next()?.parse::<u64>().ok()?;
    let rows = words.next()?.parse::<u64>().ok()?;
    if threads < 1 || threads > 64 || shards < 1 || shards > 64 {
        return None;
    }
    Some(Plan {
        threads,
        shards,
        rounds,
        rows,
    })
}
""",
    "src/passes.rt": """
//! The threads and their passes.
ghost use Rattle.std.specs.Prelude.{◌≤◌, All, IfOk};
ghost use Rattle.hall.specs.Passes.{IsPassOfHall};
ghost use Rattle.hall_speed.specs.Shares.{HasShares, LeavesOthers};

use crate::rounds::{go_round, park_all};
use hall::{HallPass, SharedHall};
use std::alloc::Global;
use std::sync::Wait;
use std::sync::atomic::{AtomicU32, Ordering};
use std::thread;
use std::thread::Threads;
use waf_plain::NoMemory;

// The rows that each shard has room for.
const CAPACITY: u32 = 16384;

#[derive(Drop)]
pub struct Plan {
    pub threads: u32,
    pub shards: u32,
    pub rounds: u64,
    pub rows: u64,
}

/// Each thread goes so many rounds. How many claims found their row comes back.
pub fn run<R: Threads + Wait + Sync>(
    rt: &R,
    alloc: Global,
    plan: &Plan,
) -> Result<Vec<u64>, NoMemory>
    requires { (1 ≤ plan.now.shards) × (plan.now.shards ≤ 64) × (plan.now.threads ≤ 64) }
{
    let (hall, mut first) = SharedHall::new(alloc, plan.shards, CAPACITY)?;
    let passes = passes_of(alloc, &hall, &mut first, plan.threads)?;
    park_all(rt, alloc, &hall, &mut first, plan.rows)?;
    let shared = &hall;
    let rounds = plan.rounds;
    let started = AtomicU32::new(0);
    let found = thread::map_vec(
        rt,
        passes,
        &|pass: HallPass<u64>| -> u64
            requires { IsPassOfHall shared.now pass }
        {
            go_round(
                rt,
                alloc,
                shared,
                pass,
                started.fetch_add(1, Ordering::Relaxed),
                rounds,
            )
        },
    )?;
    Ok(found)
}

fn passes_of(
    alloc: Global,
    hall: &SharedHall<u64>,
    first: &mut HallPass<u64>,
    threads: u32,
) -> Result<Vec<HallPass<u64>>, NoMemory>
    requires few { threads ≤ 64 }
    requires pass { IsPassOfHall hall.now first.old }
    requires shares { HasShares 65 first.old }
    ensures first { IsPassOfHall hall.now first.new }
    ensures passes { IfOk result (λ v. All (IsPassOfHall hall.now) v.items) }
{
    let mut passes = Vec::with_capacity(alloc, threads as usize)?;
    for number in 0..threads {
        passes.push_reserved(split(alloc, hall, first)?);
    }
    Ok(passes)
}

fn split(
    alloc: Global,
    hall: &SharedHall<u64>,
    first: &mut HallPass<u64>,
) -> Result<HallPass<u64>, NoMemory>
    requires pass { IsPassOfHall hall.now first.old }
    requires shares { HasShares 2 first.old }
    ensures first { IsPassOfHall hall.now first.new }
    ensures new { IfOk result (IsPassOfHall hall.now) }
    ensures left { IfOk result (λ new. LeavesOthers first.old first.new) }
{
    let pass = hall.split(alloc, first)?;
    Ok(pass)
}
""",
    "src/rounds.rt": """
//! What each thread does.
ghost use Rattle.std.specs.Prelude.{◌≡◌, ◌<◌};
ghost use Rattle.hall.specs.Passes.{IsPassOfHall, shards_of};

use hall::{HallPass, SharedHall};
use hall_core::{Claim, Entry, Key, shard_of};
use std::alloc::Global;
use std::sync::Wait;
use waf_plain::{Bytes, NoMemory};

// How long a row may stay, and when threads look for what is due.
const DEADLINE: u64 = 1000;

fn key(alloc: Global, who: u32, round: u64) -> Result<Key, NoMemory> {
    let mut id = Bytes::new(alloc);
    id.append(&who.to_be_bytes())?;
    id.append(&round.to_be_bytes())?;
    Ok(Key {
        app: Bytes::new(alloc),
        id,
    })
}

/// Parks so many rows, which stay.
pub fn park_all<R: Wait>(
    rt: &R,
    alloc: Global,
    hall: &SharedHall<u64>,
    pass: &mut HallPass<u64>,
    rows: u64,
) -> Result<(), NoMemory>
    requires { IsPassOfHall hall.now pass.old }
{
    for row in 0..rows {
        let key = key(alloc, u32::MAX, row)?;
        if let Entry::Entered(ticket) = hall.enter(rt, pass, key) {
            hall.park(rt, pass, ticket, DEADLINE, row);
        }
    }
    Ok(())
}

/// Goes so many rounds. Answers how many claims found their row.
pub fn go_round<R: Wait>(
    rt: &R,
    alloc: Global,
    hall: &SharedHall<u64>,
    pass: HallPass<u64>,
    number: u32,
    rounds: u64,
) -> u64
    requires { IsPassOfHall hall.now pass }
{
    let mut pass = pass;
    let mut found = 0u64;
    for round in 0..rounds {
        let (Ok(entered), Ok(claimed)) = (key(alloc, number, round), key(alloc, number, round))
        else {
            return found;
        };
        if one_round(rt, hall, &mut pass, entered, claimed, round) {
            found = found.wrapping_add(1);
        }
    }
    found
}

fn one_round<R: Wait>(
    rt: &R,
    hall: &SharedHall<u64>,
    pass: &mut HallPass<u64>,
    entered: Key,
    claimed: Key,
    round: u64,
) -> bool
    requires { IsPassOfHall hall.now pass.old }
    ensures { IsPassOfHall hall.now pass.new }
{
    let shard = shard_of(&entered, hall.shards());
    drop(hall.expire(rt, pass, shard, 0));
    if let Entry::Entered(ticket) = hall.enter(rt, pass, entered) {
        hall.park(rt, pass, ticket, DEADLINE, round);
    }
    match hall.resume(rt, pass, claimed) {
        Claim::Resumed { .. } => true,
        Claim::NotParked => false,
    }
}
""",
    "specs/Lib.antt": """
pub mod Shares
""",
    "specs/Shares.antt": """
-- Passes, and the shares that they have.
use Rattle.std.specs.Prelude.{◌≡◌, ◌≤◌, ◌+◌, ℕ, slice_get, Some}
use Rattle.turn_lock.specs.Lock.{share_of}
use Rattle.hall.specs.Passes.{HallPass, Seat, passes_of}

-- at each shard the pass has so many shares at least
abbrev pub HasShares : ℕ → HallPass ℕ → Type 0
HasShares n p = (s : ℕ) (q : Seat ℕ) → slice_get (passes_of p) s ≡ Some q → n ≤ share_of q

-- p is q now: it gave a share
abbrev pub LeavesOthers : HallPass ℕ → HallPass ℕ → Type 0
LeavesOthers p q = (n : ℕ) → HasShares (n + 1) p → HasShares n q
""",
    "proofs/Lib.antt": """
pub mod Shares
""",
    "proofs/Shares.antt": """
-- A pass that gives shares has others left.
use Rattle.std.proofs.Common.{◌≡◌, ℕ, zero, suc, ◌+◌, ◌≤◌, List, [], ◌∷◌, ◌++◌, get_or, slice_get, Some, sym, subst, arith}
use Rattle.std.specs.List.{All}
use Rattle.std.proofs.lemmas.List.Elements.{All-append}
use Rattle.std.proofs.lemmas.Option.{slice_get_within, slice_get-get_or}
use Rattle.hall.specs.Passes.{HallPass, IsFirst, IsPassOfHall, Seat, SharedHall, locks_of, passes_of}
use Rattle.hall.specs.Parts.{AtEach, IsSplit, MaySplit}
use Rattle.hall.proofs.Places.{item_at}
use Rattle.hall_speed.specs.Shares.{HasShares}

pub may_split : (p : HallPass ℕ) → HasShares 2 p → MaySplit p
may_split p has s q at = (let two = has s q at in omega (arith, two))

pub shares_left : (n : ℕ) (h : SharedHall ℕ) (p q r : HallPass ℕ) → IsPassOfHall h p → IsPassOfHall h q → IsPassOfHall h r → AtEach IsSplit h p q r
    → HasShares (n + 1) p → HasShares n q
shares_left n h p q r of_p of_q of_r split has s b at =
    let inside = slice_get_within (passes_of q) s b at in
    let one = of_p.count in let two = of_q.count in let three = of_r.count in
    let a : Seat ℕ = get_or (passes_of p) s b in let c : Seat ℕ = get_or (passes_of r) s b in
    let had = slice_get-get_or (passes_of p) s b (omega arith) in
    let new = slice_get-get_or (passes_of r) s b (omega arith) in
    let lock = item_at (locks_of h) s (omega arith) in
    let gave = (split s lock.0 a b c lock.1 had at new).share in
    let more = has s a had in
    omega (arith, gave, more)

pub fewer : (m n : ℕ) (p : HallPass ℕ) → m ≤ n → HasShares n p → HasShares m p
fewer m n p le has s q at = (let more = has s q at in omega (arith, le, more))

pub first_shares : (capacity : ℕ) (h : SharedHall ℕ) (p : HallPass ℕ) → IsPassOfHall h p → IsFirst capacity h p → HasShares 65 p
first_shares capacity h p of first s q at =
    let inside = slice_get_within (passes_of p) s q at in let one = of.count in
    let lock = item_at (locks_of h) s (omega arith) in
    let all = (first s lock.0 q lock.1 at).3 in
    omega (arith, all)

all_one : {A : Type 0} (F : A → Type 0) (a : A) → F a → All F (a ∷ [])
all_one F a is zero d lt = is
all_one F a is (suc k) d lt = absurd (omega arith)

pub all_more : {A : Type 0} (F : A → Type 0) (xs ys : List A) (a : A) → ys ≡ xs ++ a ∷ [] → All F xs → F a → All F ys
all_more F xs ys a are all is = subst (All F) (sym are) (All-append F xs (a ∷ []) all (all_one F a is))
""",
    "proofs/passes/passes_of/Invariants.antt": """
use Rattle.std.proofs.Common.{◌≡◌, ◌+◌, ◌≤◌, ℕ, length, vec_capacity}
use Rattle.std.specs.List.{All}
use Rattle.hall.specs.Passes.{IsPassOfHall}
use Rattle.hall_speed.specs.Shares.{HasShares}
use Rattle.hall_speed.proofs.passes.passes_of.Given as goal

abbrev pub invariant-loop-number : goal.invariant-loop-number
invariant-loop-number l = record {
  room : vec_capacity l.passes ≡ vec_capacity l.initial.passes;
  count : length l.passes.items ≡ l.number;
  members : All (IsPassOfHall l.hall) l.passes.items;
  pass : IsPassOfHall l.hall l.first;
  shares : (n : ℕ) → n + l.number ≤ 65 → HasShares n l.first;
}
""",
    "proofs/passes/passes_of/Answers.antt": """
use Rattle.std.proofs.Common.{rules, ◌+◌, arith}
use Rattle.hall.specs.Passes.{IsPassOfHall}
use Rattle.hall_speed.proofs.Shares.{all_more, fewer}
use Rattle.hall_speed.proofs.passes.passes_of.Goals as goal

pub loop-number-init : goal.loop-number-init
loop-number-init c = record {
  room = search rules;
  count = search rules;
  members = search rules;
  pass = c.requires.pass;
  shares = λ n le. fewer n 65 c.args.first.now (omega arith) c.requires.shares;
}

pub loop-number-preserved : goal.loop-number-preserved
loop-number-preserved c = record {
  room = search rules;
  count = search rules;
  members = all_more (IsPassOfHall c.args.hall.now) c.loop-number.passes.items _ c.in_ok-split.field-0 c.push_reserved.ensures.items c.loop-number.invariant.members c.in_ok-split.ensures.new;
  pass = c.split.ensures.first;
  shares = λ n le. c.in_ok-split.ensures.left n (c.loop-number.invariant.shares (n + 1) (omega arith));
}

pub split-requires-clause-shares : goal.split-requires-clause-shares
split-requires-clause-shares c = c.loop-number.invariant.shares 2 (let few = c.requires.few in let test = c.loop-number-test.true in omega (arith, few, test))
""",
    "proofs/passes/split/Answers.antt": """
use Rattle.hall_speed.proofs.Shares.{may_split, shares_left}
use Rattle.hall_speed.proofs.passes.split.Goals as goal

pub split-requires-clause-share : goal.split-requires-clause-share
split-requires-clause-share c = may_split c.args.first.now c.requires.shares

pub returns-clause-left : goal.returns-clause-left
returns-clause-left c = λ n has. shares_left n c.args.hall.now c.args.first.now c.split.new.pass c.in_ok-pass.pass c.requires.pass c.split.ensures.old c.in_ok-pass.ensures.new c.in_ok-pass.ensures.split has
""",
    "proofs/passes/run/Answers.antt": """
use Rattle.hall_speed.proofs.Shares.{first_shares}
use Rattle.hall_speed.proofs.passes.run.Goals as goal

pub passes_of-requires-clause-shares : goal.passes_of-requires-clause-shares
passes_of-requires-clause-shares g c = first_shares _ _ _ c.in_ok-hall.ensures.pass.0 c.in_ok-hall.ensures.pass.1
""",
    "proofs/rounds/park_all/Invariants.antt": """
use Rattle.hall.specs.Passes.{IsPassOfHall}
use Rattle.hall_speed.proofs.rounds.park_all.Given as goal

abbrev pub invariant-loop-row : goal.invariant-loop-row
invariant-loop-row g l = IsPassOfHall l.hall l.pass
""",
    "proofs/rounds/go_round/Invariants.antt": """
use Rattle.hall.specs.Passes.{IsPassOfHall}
use Rattle.hall_speed.proofs.rounds.go_round.Given as goal

abbrev pub invariant-loop-round : goal.invariant-loop-round
invariant-loop-round g l = IsPassOfHall l.hall l.pass
""",
}


def build(folder):
    """Only what changed since an earlier run of the gate is proved anew."""
    names = ("waf_plain", "turn_lock", "due_index", "row_table", "hall_core", "hall")
    listed = [line for line in (ROOT / "crates.txt").read_text().splitlines() if line.split(":")[0].split()[:1]
              and line.split(":")[0].split()[0] in names]
    listed.append("hall_speed may_wait=9: waf_plain turn_lock hall_core hall")
    (folder / "crates.txt").write_text("\n".join(listed) + "\n")
    (folder / "HANDLES").write_text("Handles allowed: Threads, Wait.\n")
    for name in names:
        shutil.copytree(CRATES / name, folder / "crates" / name, ignore=shutil.ignore_patterns("out", "must-fail"))
    crate = folder / "crates" / "hall_speed"
    for name, text in FILES.items():
        path = crate / name
        path.parent.mkdir(parents=True, exist_ok=True)
        path.write_text(text.lstrip("\n"))
    (crate / "args").write_text("1\n1\n1\n1\n")
    subprocess.run(["rt", "ci"], cwd=folder, check=True, stdout=subprocess.DEVNULL)
    return crate / "out" / "hall_speed"


def seconds(program, words, repeat):
    best = None
    for _ in range(repeat):
        start = time.perf_counter()
        subprocess.run([str(program), *map(str, words)], check=True)
        spent = time.perf_counter() - start
        best = spent if best is None else min(best, spent)
    return best


def numbers(word):
    return [int(part) for part in word.split(",")]


def main():
    parser = argparse.ArgumentParser(description=__doc__, formatter_class=argparse.RawDescriptionHelpFormatter)
    parser.add_argument("--threads", type=numbers, default=[1, 4])
    parser.add_argument("--shards", type=numbers, default=[1, 4])
    parser.add_argument("--rounds", type=int, default=1000000)
    parser.add_argument("--rows", type=numbers, default=[0, 16000])
    parser.add_argument("--repeat", type=int, default=3)
    options = parser.parse_args()
    with tempfile.TemporaryDirectory() as folder:
        program = build(Path(folder))
        print("| rows | threads | shards | calls/s |\n|---|---|---|---|")
        for rows in options.rows:
            for threads in options.threads:
                for shards in options.shards:
                    each = options.rounds // threads
                    start = seconds(program, (threads, shards, 0, rows), options.repeat)
                    spent = seconds(program, (threads, shards, each, rows), options.repeat)
                    print("| %d | %d | %d | %d |" % (rows, threads, shards, 4 * each * threads / (spent - start)))


if __name__ == "__main__":
    main()
