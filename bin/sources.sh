# shellcheck shell=bash
# Sourced by scripts of bin/ and bench/: what the program's sources are, whether release/ is of them, and copies of crates to prove.
# Sets $top to the top of the repository.
top=$(cd "$(dirname "$(readlink -f "${BASH_SOURCE[0]}")")/.." && pwd)

# find_sources WORDS..: goes over the files that proofs and programs are made of, by words of find.
find_sources() {
    (cd "$top" && shopt -s nullglob && find crates.txt HANDLES crates/*/{src,specs,proofs} -type f "$@")
}

# Writes the checksum of the sources: of their paths and what is in them, in the order of paths.
sources_sum() {
    find_sources -print0 | LC_ALL=C sort -z | (cd "$top" && xargs -0 sha256sum) | sha256sum | cut -d ' ' -f 1
}

# is_newer_than_sources FILE: whether a program is there, and no source was written after it.
is_newer_than_sources() {
    [ -x "$1" ] && [ -z "$(find_sources -newer "$1" -print -quit)" ]
}

# Whether release/ says that its program is of these sources.
is_release_of_sources() {
    [ -f "$top/release/SOURCES" ] && [ "$(cat "$top/release/SOURCES")" = "$(sources_sum)" ]
}

# Whether the program in release/ is the one that its checksum was taken of; it says so where it isn't.
is_release_whole() {
    if ! [ -x "$top/release/icinga_site" ] || ! (cd "$top/release" && sha256sum --status -c SHA256SUMS 2>/dev/null); then
        echo "icinga_site: release/icinga_site isn't the program that release/SHA256SUMS names" >&2
        return 1
    fi
}

# lines_below NAME..: writes the lines of crates.txt of these crates and of all that they stand on, in its order.
lines_below() {
    awk -v names="$*" '
        { sub(/#.*/, "") }
        /:/ {
            lines[++count] = $0
            name_of[count] = $1
            sub(/:.*/, "", name_of[count])
            below[name_of[count]] = substr($0, index($0, ":") + 1)
        }
        END {
            found = split(names, queue, " ")
            for (at = 1; at <= found; at++) {
                if (queue[at] in is_met) continue
                is_met[queue[at]]
                more = split(below[queue[at]], deps, " ")
                for (each = 1; each <= more; each++) queue[++found] = deps[each]
            }
            for (at = 1; at <= count; at++) if (name_of[at] in is_met) print lines[at]
        }' "$top/crates.txt"
}

# copy_crates FOLDER NAME..: makes a repository in an empty folder, of these crates and all that they stand on, without their
# must-fail edits. An empty .git makes it the top of one.
copy_crates() {
    local folder=$1 name part parts=(HANDLES)
    shift
    lines_below "$@" >"$folder/crates.txt"
    while IFS=': ' read -r name _; do
        for part in "$top/crates/$name"/*; do
            case ${part##*/} in
            must-fail | edits | out) ;;
            *) parts+=("crates/$name/${part##*/}") ;;
            esac
        done
    done <"$folder/crates.txt"
    (cd "$top" && cp -R --parents -- "${parts[@]}" "$folder")
    mkdir "$folder/.git"
}

# tell_proved M: of what a gate over M crates writes, tells on standard error how far it is: a line for each crate that is proved or
# kept, `N of M: NAME`, one where it begins with a crate's edits, and one where it waits for another run.
tell_proved() {
    local line count=0
    while IFS= read -r line; do
        if [[ $line =~ ^rt:\ ([a-z0-9_]+)\ (proved|NOT\ PROVED|is\ kept:) ]]; then
            count=$((count + 1))
            case ${BASH_REMATCH[2]} in
            proved) echo "$count of $1: ${BASH_REMATCH[1]}" ;;
            is\ kept:) echo "$count of $1: ${BASH_REMATCH[1]} (proved earlier)" ;;
            *) echo "$count of $1: ${line#rt: }" ;;
            esac
        elif [[ $line =~ ^rt:\ (.*(trying\ its\ must-fail\ edits|waiting\ for).*)$ ]]; then
            echo "${BASH_REMATCH[1]}"
        fi
    done >&2
}
