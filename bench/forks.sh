#!/usr/bin/env bash
# Times a million forks by one worker, and by each of two: first all of one store, and then each of a base of its own. The last is to take
# no longer than a million forks by one worker alone.
set -eu
. "$(dirname "${BASH_SOURCE[0]}")/program.sh"

build_program 'site_base dsl_syntax dsl_value' <<'RATTLE'
//! Forks stores, and prints how long it took.
#![tactic(auto)]

use dsl_value::Store;
use site_base::{OutOfMemory, Row};
use std::alloc::Global;
use std::io;
use std::thread::join;
use std::time::Instant;

const FORKS: u32 = 1_000_000;

/// Forks a store many times.
fn forked(store: &Store) -> bool {
    for _ in 0..FORKS {
        if store.fork().is_err() {
            return false;
        }
    }
    true
}

/// A frozen store with some cells.
fn frozen_store(alloc: Global) -> Result<Store, OutOfMemory> {
    let mut store = Store::new(alloc);
    for _ in 0..100u32 {
        store.array(Row::new(alloc))?;
    }
    store.freeze();
    Ok(store)
}

fn main(rt: HostRuntime) -> io::Result<()> {
    let alloc = rt.alloc();
    let Ok(store) = frozen_store(alloc) else {
        return Ok(());
    };
    let start = Instant::now(&rt)?;
    let alone = forked(&store);
    println!(rt; "{FORKS} forks by one worker ({alone}): {} ms", start.elapsed(&rt)?.as_millis())?;
    let start = Instant::now(&rt)?;
    let both = join(&rt, || forked(&store), || forked(&store));
    println!(rt; "{FORKS} forks by each of two workers of one store ({}, {}): {} ms", both.0, both.1, start.elapsed(&rt)?.as_millis())?;
    let (Ok(first), Ok(second)) = (store.apart(), store.apart()) else {
        return Ok(());
    };
    let start = Instant::now(&rt)?;
    let each = join(&rt, || forked(&first), || forked(&second));
    println!(rt; "{FORKS} forks by each of two workers of its own base ({}, {}): {} ms", each.0, each.1, start.elapsed(&rt)?.as_millis())?;
    Ok(())
}
RATTLE

"$program"
