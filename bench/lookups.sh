#!/usr/bin/env bash
# Times Names over 25,000 to 100,000 names, each added and then found: both together are to take below
# 1 s at 100,000.
set -eu
. "$(dirname "${BASH_SOURCE[0]}")/program.sh"

build_program 'site_base site_model' <<'RATTLE'
//! Adds names, finds them again, and prints how long it took.
#![tactic(auto)]

use site_base::{OutOfMemory, Text};
use site_model::Names;
use std::alloc::Global;
use std::io;
use std::time::Instant;

fn numbered(alloc: Global, number: u32) -> Result<Text, OutOfMemory> {
    let mut name = Text::copy_of(alloc, "host!service ")?;
    name.push_decimal(u64::from(number))?;
    Ok(name)
}

fn add_names(alloc: Global, names: &mut Names, count: u32) -> Result<(), OutOfMemory> {
    for number in 0..count {
        let name = numbered(alloc, number)?;
        if names.len() < 1_000_000 {
            names.add(name)?;
        }
    }
    Ok(())
}

fn count_found(alloc: Global, names: &Names, count: u32) -> Result<u64, OutOfMemory> {
    let mut found: u64 = 0;
    for number in 0..count {
        let name = numbered(alloc, number)?;
        if names.find(name.as_str()) == Some(number) {
            found = found.saturating_add(1);
        }
    }
    Ok(found)
}

fn main(rt: HostRuntime) -> io::Result<()> {
    for count in [25_000, 50_000, 100_000] {
        let mut names = Names::new(rt.alloc());
        let start = Instant::now(&rt)?;
        let added = add_names(rt.alloc(), &mut names, count).is_ok();
        let adding = start.elapsed(&rt)?.as_millis();
        let start = Instant::now(&rt)?;
        let found = count_found(rt.alloc(), &names, count).unwrap_or(0);
        let finding = start.elapsed(&rt)?.as_millis();
        println!(rt; "{count} names: added ({added}) in {adding} ms, {found} found in {finding} ms")?;
    }
    Ok(())
}
RATTLE

"$program"
