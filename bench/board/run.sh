#!/usr/bin/env bash
# Times plain_walk, a core's run by one worker and assemble over trees of 50,001, 100,001 and 200,001 pieces.
# It writes a program over a copy of this repository's crates into a temporary folder, proves it there and runs it.
set -euo pipefail
top="$(cd "$(dirname "$0")/../.." && pwd)"
work="$(mktemp -d)"
trap 'rm -rf "$work"' EXIT
mkdir -p "$work/crates/board_bench/src" "$work/crates/board_bench/proofs"
cp -r "$top/crates/ovl_names" "$top/crates/ovl_board" "$work/crates/"
cd "$work"
cat > crates.txt <<'END'
ovl_names: arrayvec hex thiserror
ovl_board: ovl_names thiserror
board_bench: ovl_board ovl_names anyhow
END
cd crates/board_bench
touch proofs/Lib.antt
cat > src/main.rt <<'END'
//! Times the plain walk of a tree, the core's run over it by one worker, and the assembly of what the core brings.
#![tactic(auto)]

use anyhow::Result;
use ovl_board::{Core, Event, Parcel, Piece, Tree, all_lawful, assemble, plain_walk};
use ovl_names::{Name, Path};
use std::alloc::Global;
use std::time::Instant;

fn main(rt: HostRuntime) -> Result<()> {
    for folders in [100, 200, 400] {
        measure(&rt, folders, 499)?;
    }
    Ok(())
}

fn measure(rt: &HostRuntime, folders: u32, files: u32) -> Result<()> {
    let alloc = rt.alloc();
    let tree = Tree::of(listed(alloc, folders, files)?)?;
    let start = Instant::now(rt)?;
    let walk = plain_walk(alloc, &tree, root(alloc))?;
    let walked = start.elapsed(rt)?;
    let count = walk.len();
    let start = Instant::now(rt)?;
    let parcels = arrived(alloc, &tree, count)?;
    let ran = start.elapsed(rt)?;
    if !all_lawful(&parcels) {
        anyhow::bail!("unlawful kids");
    }
    let start = Instant::now(rt)?;
    let assembled = assemble(alloc, &root(alloc), parcels)?;
    let joined = start.elapsed(rt)?;
    let equal = assembled == walk;
    println!(rt; "{count} pieces: plain_walk {walked:?}, core {ran:?}, assemble {joined:?}, equal {equal}")?;
    Ok(())
}

fn root(alloc: Global) -> Piece {
    Piece {
        space: 0,
        dir: Path::root(alloc),
    }
}

// The root, folders, and files in each folder, in path order.
fn listed(alloc: Global, folders: u32, files: u32) -> Result<Vec<Path>> {
    let root = Path::root(alloc);
    let mut paths = Vec::new(alloc);
    paths.push(root.copy(alloc)?)?;
    for folder in 0..folders {
        let name = format!(in alloc; "d{folder:06}")?;
        let dir = root.child(alloc, &Name::of(alloc, name.as_str())?)?;
        paths.push(dir.copy(alloc)?)?;
        for file in 0..files {
            let name = format!(in alloc; "f{file:06}")?;
            paths.push(dir.child(alloc, &Name::of(alloc, name.as_str())?)?)?;
        }
    }
    Ok(paths)
}

// The parcels of a core of one worker, level by level.
fn arrived(alloc: Global, tree: &Tree, count: usize) -> Result<Vec<Parcel<()>>> {
    let mut core = Core::start(alloc, tree, root(alloc), 1)?;
    for _ in 0..count.saturating_mul(4) {
        if core.step(alloc, Event::Push(0)).is_err() && core.step(alloc, Event::Work(0)).is_err() {
            let _ = core.step(alloc, Event::Pop(0));
        }
    }
    let Ok(parcels) = core.finish() else {
        anyhow::bail!("the core isn't idle");
    };
    Ok(parcels)
}
END
rt run
