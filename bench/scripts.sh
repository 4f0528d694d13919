#!/usr/bin/env bash
# Times read_script over scripts of 50,000 to 400,000 turns, each with a report and a command line: it is
# to grow by less than 2.3 for each doubling.
set -eu
. "$(dirname "${BASH_SOURCE[0]}")/program.sh"

build_program 'site_base site_text' <<'RATTLE'
//! Makes scripts, reads them, and prints how long each took to read.
#![tactic(auto)]

use site_base::{OutOfMemory, Text};
use site_text::read_script;
use std::alloc::Global;
use std::io;
use std::time::Instant;

fn push_turn(script: &mut Text, number: u64) -> Result<(), OutOfMemory> {
    script.push_str("turn ")?;
    script.push_decimal(number)?;
    script.push_str("\nreport ")?;
    script.push_decimal(number)?;
    script.push_str(" 0 \"PING OK - 0.1 ms | rta=0.1ms;3;5;0\\nmore \\001\"\n")?;
    script.push_str("line \"[1] PROCESS_SERVICE_CHECK_RESULT;host;service;2;\\\"down\\\"\"\n")
}

fn script_of(alloc: Global, turns: u64) -> Result<Text, OutOfMemory> {
    let mut script = Text::new(alloc);
    for number in 0..turns {
        push_turn(&mut script, number)?;
    }
    Ok(script)
}

fn main(rt: HostRuntime) -> io::Result<()> {
    for turns in [50_000, 100_000, 200_000, 400_000] {
        let script = match script_of(rt.alloc(), turns) {
            Ok(script) => script,
            Err(_) => Text::new(rt.alloc()),
        };
        let start = Instant::now(&rt)?;
        let read = match read_script(rt.alloc(), script.as_bytes()) {
            Ok(turns) => turns.len(),
            Err(_) => 0,
        };
        let millis = start.elapsed(&rt)?.as_millis();
        let bytes = script.len();
        println!(rt; "{bytes} bytes, {read} turns: {millis} ms")?;
    }
    Ok(())
}
RATTLE

"$program"
