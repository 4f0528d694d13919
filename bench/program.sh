# Sourced by the scripts beside it: builds a program over the repository's crates, outside of it.
#
#   build_program 'DEP DEP ..' < main.rt     proves and builds it, and puts its path into $program
#
# It works in a copy of the crates in a folder of its own, which goes when the script ends.

top=$(cd "$(dirname "${BASH_SOURCE[0]}")/.." && pwd)
work=$(mktemp -d)
trap 'rm -rf "$work"' EXIT

build_program() {
    mkdir -p "$work/repository/crates/bench_program"/{src,specs}
    (cd "$top" && git ls-files -co --exclude-standard crates crates.txt HANDLES | tar -cf - -T -) |
        tar -xf - -C "$work/repository"
    echo "bench_program: $1" >>"$work/repository/crates.txt"
    cat >"$work/repository/crates/bench_program/src/main.rt"
    : >"$work/repository/crates/bench_program/specs/Lib.antt"
    program=$work/repository/crates/bench_program/out/bench_program
    (cd "$work/repository/crates/bench_program" && rt run >"$work/log" 2>&1 </dev/null) || true
    [ -x "$program" ] || { cat "$work/log" >&2; return 1; }
}
