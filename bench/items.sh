#!/usr/bin/env bash
# Times `run_item` on one core, for an item of ten attributes that imports a template, so many times in a row. Wanted: below 5 us each,
# less than 2.3 times as long for twice as many, and memory that doesn't grow with their number. Seconds are of the processor.
set -eu
. "$(dirname "${BASH_SOURCE[0]}")/program.sh"

# how a site is read and loaded is as it is in the rows
cases=$top/crates/inner_cases
bench=$work/repository/crates/bench_program
mkdir -p "$bench"/{src,proofs}
cp "$cases"/src/{items,scene,shown,walked}.rt "$bench/src/"
cp -r "$cases"/proofs/. "$bench/proofs/"
rm -rf "$bench/proofs/bodies"
find "$bench" -name '*.antt' -exec sed -i 's/Rattle\.inner_cases/Rattle.bench_program/' {} +

build_program "$(sed -n 's/^inner_cases: //p' "$top/crates.txt")" <<'RATTLE'
//! Runs an item as many times as the line on standard input says, and prints how many objects came of it.
#![tactic(auto)]
ghost use Rattle.item_body.specs.Lawful.{IsRunnable};

mod items;
mod scene;
mod shown;
mod walked;

use dsl_load::eval_files;
use eval_work::{Item, Stop, WorldView};
use item_body::{ItemAnswer, run_item};
use items::{last_item, view_over};
use scene::{Scene, scene_of};
use std::alloc::Global;
use std::io::Read;

const ROW: &str = "template Host \"t\" { max_check_attempts = 3; check_interval = 1m; retry_interval = 30s }⏎\
    object Host \"h\" { import \"t\"; check_command = \"hostalive\"; address = \"192.0.2.1\"; display_name = \"Host \" + name; \
    notes = \"a note\"; enable_flapping = true; vars.os = \"Linux\" }";

/// How many objects so many runs of an item make.
fn made_of(alloc: Global, view: &WorldView, item: &Item, count: u64) -> u64
    requires { IsRunnable view.now item.now }
{
    let mut made: u64 = 0;
    for _ in 0..count {
        if let Ok(ItemAnswer::Made(_)) = run_item(alloc, view, item) {
            made = made.saturating_add(1);
        }
    }
    made
}

/// How many objects so many runs of the last item of a site make.
fn made(alloc: Global, scene: &Scene, count: u64) -> Result<u64, Stop> {
    let mut parts = eval_files(alloc, &scene.files, &scene.order)?;
    let Some(item) = last_item(&mut parts) else {
        return Ok(0);
    };
    let view = view_over(&parts, &scene.objects, &scene.known);
    Ok(made_of(alloc, &view, &item, count))
}

fn main(rt: HostRuntime) -> anyhow::Result<()> {
    let mut line = String::new(rt.alloc());
    rt.reader().read_to_string(&mut line)?;
    let count = line.trim().parse::<u64>().unwrap_or(0);
    if let Some(scene) = scene_of(rt.alloc(), ROW)? {
        let made = made(rt.alloc(), &scene, count).unwrap_or(0);
        println!(rt; "{made} objects")?;
    }
    Ok(())
}
RATTLE

for count in 25000 50000 100000; do
    for _ in 1 2 3 4 5; do
        echo "$count" | /usr/bin/time -f '%U %S %M' -o "$work/peak" taskset -c 0 "$program" >"$work/told"
        grep -q "^$count objects" "$work/told"
        awk '{ print $1 + $2, $3 }' "$work/peak"
    done | sort -n | head -1 | awk -v n="$count" '{ printf "%d items: %.2f s, %.2f us each, %d KB of peak memory\n", n, $1, 1e6 * $1 / n, $2 }'
done
