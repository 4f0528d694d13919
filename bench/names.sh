#!/usr/bin/env bash
# Times DiskFiles::names over folders of 12,500 to 100,000 files: it is to take below 2 s at 100,000,
# and to grow by less than 2.3 for each doubling.
set -eu
. "$(dirname "${BASH_SOURCE[0]}")/program.sh"

build_program 'site_base site_edge' <<'RATTLE'
//! Lists folders and prints how long each took.
#![tactic(auto)]

use site_edge::{DiskFiles, Files};
use std::env;
use std::io;
use std::time::Instant;

fn main(rt: HostRuntime) -> io::Result<()> {
    for folder in env::args(&rt)?.skip(1) {
        let mut files = DiskFiles::new(&rt);
        let start = Instant::now(&rt)?;
        let found = match files.names(folder.as_str()) {
            Ok(names) => names.len(),
            Err(_) => 0,
        };
        let millis = start.elapsed(&rt)?.as_millis();
        println!(rt; "{found} files {millis} ms")?;
    }
    Ok(())
}
RATTLE

folders=()
for count in 12500 25000 50000 100000; do
    folder=$work/$count
    mkdir "$folder"
    (cd "$folder" && seq -f 'file%.0f.conf' "$count" | xargs touch)
    folders+=("$folder")
done
"$program" "${folders[@]}"
