#!/usr/bin/env bash
# Times 100,000 turns at one post, in which the callers wait for one another: 4 callers on 4 cores and
# 64 callers on 2 are each to take below 5 s. Then 640 turns of a millisecond by 64 callers on 2 cores,
# of which those that wait are to take no processor. It times tests of engine_tests, as LLVM
# builds them.
set -eu
. "$(dirname "${BASH_SOURCE[0]}")/program.sh"

mkdir "$work/repository"
(cd "$top" && git ls-files -co --exclude-standard crates crates.txt HANDLES | tar -cf - -T -) |
    tar -xf - -C "$work/repository"
cd "$work/repository/crates/engine_tests"
rt test >"$work/log" 2>&1 </dev/null || { cat "$work/log" >&2; exit 1; }

turns() {
    echo "$1 callers on cores $2:"
    (TIMEFORMAT='%R s, %U + %S s of processor' &&
        time taskset -c "$2" out/engine_tests_tests "turn_speed::$3" >"$work/log") || cat "$work/log"
}

turns 4 0-3 four_callers_take_a_hundred_thousand_turns
turns 64 0,1 sixty_four_callers_take_a_hundred_thousand_turns
turns 64 0,1 sixty_four_callers_sleep_while_each_turn_lasts
