#!/usr/bin/env bash
# Times the sizes that the wheel is made for, with 100,000 members placed in permuted order: an hour of five-minute
# checks, of members spread over 300 s and of members all due at one moment, each to take below 0.5 s; and 1,000,000
# moves, to take below 1 s. It times tests of engine_tests, as LLVM builds them.
set -eu
. "$(dirname "${BASH_SOURCE[0]}")/program.sh"

mkdir "$work/repository"
(cd "$top" && git ls-files -co --exclude-standard crates crates.txt HANDLES | tar -cf - -T -) |
    tar -xf - -C "$work/repository"
cd "$work/repository/crates/engine_tests"
rt test >"$work/log" 2>&1 </dev/null || { cat "$work/log" >&2; exit 1; }

timed() {
    echo "$1:"
    (TIMEFORMAT='%R s, %U + %S s of processor' && time out/engine_tests_tests "wheel_speed::$2" >"$work/log") ||
        cat "$work/log"
}

timed 'an hour of checks, spread' an_hour_of_checks
timed 'an hour of checks, all at one moment' an_hour_of_checks_at_once
timed 'a million moves' a_million_moves
