#!/usr/bin/env bash
# Times `lex` and `parse` on one core over texts of hosts of 1 to 8 MiB: 4 MiB are to take below 50 ns a byte and below 20
# bytes of peak memory a byte, and time is to grow by less than 2.1 for each doubling. The processor's seconds are those of the whole
# program, which reads the text and drops the tree too.
set -eu
. "$(dirname "${BASH_SOURCE[0]}")/program.sh"

build_program 'site_base dsl_syntax dsl_lexer dsl_rules dsl_depth dsl_grammar dsl_next dsl_parts dsl_statements dsl_parser anyhow' <<'RATTLE'
//! Lexes and parses standard input, and prints how long each took.
#![tactic(auto)]

use dsl_lexer::lex;
use dsl_parser::parse;
use std::io::Read;
use std::time::Instant;

fn main(rt: HostRuntime) -> anyhow::Result<()> {
    let mut bytes = Vec::new(rt.alloc());
    rt.reader().read_to_end(&mut bytes)?;
    if bytes.len() >= 1_000_000_000 {
        return Ok(());
    }
    let start = Instant::now(&rt)?;
    let Ok(tokens) = lex(rt.alloc(), &bytes, 0) else {
        return Ok(());
    };
    let lexed = start.elapsed(&rt)?.as_micros();
    let start = Instant::now(&rt)?;
    let statements = match parse(rt.alloc(), tokens.as_slice()) {
        Ok(file) => file.statements.len(),
        Err(_) => 0,
    };
    let parsed = start.elapsed(&rt)?.as_micros();
    println!(rt; "{} bytes, {statements} statements, {lexed} us, {parsed} us", bytes.len())?;
    Ok(())
}
RATTLE

TIMEFORMAT='%3U %3S'
for hosts in 9350 18700 37400 74800; do
    awk -v hosts="$hosts" 'BEGIN {
        for (h = 0; h < hosts; h++)
            printf "object Host \"host-%d\" {\n  check_command = \"hostalive\"\n  address = \"192.0.2.1\"\n  max_check_attempts = 5\n}\n\n", h
    }' >"$work/text"
    for _ in 1 2 3 4 5 6 7; do
        { time /usr/bin/time -f '%M' -o "$work/peak" taskset -c 0 "$program" <"$work/text" >"$work/told"; } 2>"$work/used"
        echo "$(cat "$work/used") $(cat "$work/peak") $(cat "$work/told")"
    done | awk '{ print $1 + $2, $0 }' | sort -n | head -1 | awk '{
        printf "%.1f MB: %.3f s of the processor, %.1f ns a byte (by the clock lexed in %.0f ms, parsed in %.0f ms), ", $5 / 1e6, $1, $1 * 1e9 / $5, $9 / 1e3, $11 / 1e3
        printf "%.1f bytes of memory a byte\n", $4 * 1024 / $5
    }'
done
