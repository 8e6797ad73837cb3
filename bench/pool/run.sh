#!/usr/bin/env bash
# Times runs of the pool over a tree of 20,000 pieces, with visits of some 50 microseconds and with empty ones, and
# compares the answers of many runs of a tree of 2,000 pieces by 1, 2, 7 and 64 workers (1,000 of each, or as many as
# the first word says). It writes a program over a copy of this repository's crates into a temporary folder, proves it
# there and runs it.
set -euo pipefail
runs="${1:-1000}"
top="$(cd "$(dirname "$0")/../.." && pwd)"
work="$(mktemp -d)"
trap 'rm -rf "$work"' EXIT
mkdir -p "$work/crates/pool_bench/src" "$work/crates/pool_bench/proofs"
cp -r "$top/crates/ovl_names" "$top/crates/ovl_board" "$top/crates/ovl_lanes" "$top/crates/ovl_pool" "$work/crates/"
cp "$top/HANDLES" "$work/"
cd "$work"
cat > crates.txt <<'END'
ovl_names: arrayvec hex thiserror
ovl_board: ovl_names thiserror
ovl_lanes: ovl_names ovl_board crossbeam_deque thiserror
ovl_pool: ovl_names ovl_board ovl_lanes crossbeam_utils thiserror
pool_bench: ovl_pool ovl_board ovl_names anyhow
END
cd crates/pool_bench
touch proofs/Lib.antt
cat > src/main.rt <<'END'
//! Times runs of the pool, and compares their answers.
#![tactic(auto)]

ghost use Rattle.ovl_board.specs.Trees.{tree_kids, deepest_path};

use anyhow::Result;
use ovl_board::{Parcel, Piece, Tree, Work, plain_walk};
use ovl_names::{Name, Path};
use ovl_pool::{OpenGate, run};
use std::alloc::{AllocError, Global};
use std::sync::Wait;
use std::sync::atomic::{AtomicU64, Ordering};
use std::thread::Threads;
use std::time::{Clock, Duration, Instant};

const PIECES: u32 = 20_000;

const RUNS: u32 = @RUNS@;

/// A tree whose visits take a number of rounds of multiplication.
#[derive(Drop)]
struct Busy {
    tree: Tree,
    rounds: u64,
    sink: AtomicU64,
}

impl Busy {
    fn toil(&self) {
        let mut x = 1u64;
        for round in 0..self.rounds {
            x = (x ^ round).wrapping_mul(0x9E37_79B9_7F4A_7C15).rotate_left(29);
        }
        self.sink.store(x, Ordering::SeqCst);
    }
}

impl Work for Busy {
    type Out = ();

    ghost Seen = { Unit {0} };

    ghost seen_set = { Prim.hlevel };

    ghost seen = { λ _. tt };

    ghost kids_of = { λ work. tree_kids work.tree };

    ghost out_of = { λ _ _. tt };

    ghost deepest_of = { λ work. deepest_path work.tree };

    fn visit(&self, alloc: Global, piece: &Piece) -> Result<(Vec<Piece>, ()), AllocError> {
        self.toil();
        self.tree.visit(alloc, piece)
    }

    fn deepest(&self) -> u32 {
        self.tree.deepest()
    }
}

fn main(rt: HostRuntime) -> Result<()> {
    let rounds = rounds_of_50_microseconds(&rt, rt.alloc())?;
    println!(rt; "{rounds} rounds a visit")?;
    measure(&rt, rt.alloc(), rounds)?;
    measure(&rt, rt.alloc(), 0)?;
    for workers in [1, 2, 7, 64] {
        compare(&rt, rt.alloc(), workers)?;
    }
    Ok(())
}

// How many rounds take some 50 microseconds on this machine.
fn rounds_of_50_microseconds<R: Clock>(rt: &R, alloc: Global) -> Result<u64> {
    let trial = Busy {
        tree: Tree::of(listed(alloc, 1)?)?,
        rounds: 100_000_000,
        sink: AtomicU64::new(0),
    };
    let start = Instant::now(rt)?;
    trial.toil();
    let took = start.elapsed(rt)?.as_micros().max(1);
    if trial.sink.load(Ordering::SeqCst) == 0 {
        anyhow::bail!("the rounds gave nothing");
    }
    Ok(u64::try_from(5_000_000_000 / took).unwrap_or(0))
}

fn measure<R: Threads + Wait + Clock + Print + Sync>(rt: &R, alloc: Global, rounds: u64) -> Result<()> {
    let work = Busy {
        tree: Tree::of(listed(alloc, PIECES)?)?,
        rounds,
        sink: AtomicU64::new(0),
    };
    let start = Instant::now(rt)?;
    let plain = plain_walk(alloc, &work, root(alloc))?;
    tell(rt, "plain_walk", start.elapsed(rt)?)?;
    for workers in [1, 2, 4] {
        let start = Instant::now(rt)?;
        let (walk, count) = run(rt, alloc, &work, root(alloc), workers, &OpenGate)?;
        let took = start.elapsed(rt)?;
        let equal = walk == plain;
        println!(rt; "{workers} workers, equal {equal}, {count:?}:")?;
        tell(rt, "run", took)?;
    }
    Ok(())
}

fn tell<R: Print>(rt: &R, what: &str, took: Duration) -> Result<()> {
    let each = took.as_nanos() / u128::from(PIECES);
    println!(rt; "    {what} {took:?}, {each} ns a piece")?;
    Ok(())
}

fn compare<R: Threads + Wait + Clock + Print + Sync>(rt: &R, alloc: Global, workers: usize) -> Result<()> {
    let tree = Tree::of(listed(alloc, 2_000)?)?;
    let plain = plain_walk(alloc, &tree, root(alloc))?;
    let start = Instant::now(rt)?;
    for number in 0..RUNS {
        if !is_equal(rt, alloc, &tree, workers, &plain)? {
            anyhow::bail!("run {number} by {workers} workers gave another walk");
        }
    }
    let took = start.elapsed(rt)?;
    println!(rt; "{workers} workers: {RUNS} runs of 2,000 pieces gave the plain walk, in {took:?}")?;
    Ok(())
}

fn is_equal<R: Threads + Wait + Sync>(
    rt: &R,
    alloc: Global,
    tree: &Tree,
    workers: usize,
    plain: &Vec<Parcel<()>>,
) -> Result<bool> {
    let (walk, _) = run(rt, alloc, tree, root(alloc), workers, &OpenGate)?;
    Ok(walk == *plain)
}

fn root(alloc: Global) -> Piece {
    Piece {
        space: 0,
        dir: Path::root(alloc),
    }
}

// The root, and folders with nine files each, in path order: so many paths in all.
fn listed(alloc: Global, count: u32) -> Result<Vec<Path>> {
    let mut paths = Vec::new(alloc);
    let mut dir = Path::root(alloc);
    paths.push(dir.copy(alloc)?)?;
    for number in 1..count {
        let name = format!(in alloc; "{number:06}")?;
        let name = Name::of(alloc, name.as_str())?;
        if number % 10 == 1 {
            dir = Path::root(alloc).child(alloc, &name)?;
            paths.push(dir.copy(alloc)?)?;
        } else {
            paths.push(dir.child(alloc, &name)?)?;
        }
    }
    Ok(paths)
}
END
sed -i "s/@RUNS@/$runs/" src/main.rt
rt run
