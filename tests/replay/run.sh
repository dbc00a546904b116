#!/usr/bin/env bash
# Runs the lists here through a replay program and compares what it prints, byte by byte; names the first difference.
#   tests/replay/run.sh REPLAY [NAME ..]
# REPLAY is the program's path, or a command to which a list's name is added. Without names all lists are run, in one bundle, and then
# the bad ones; with names only these. The name bad stands for all the bad ones.
set -eu

here=$(cd "$(dirname "$0")" && pwd)
self=tests/replay/run.sh
. "$here/../command.sh"
[ $# -ge 1 ] || cannot "which replay program? run.sh REPLAY [NAME ..]"
replay=$1
shift
work=$(mktemp -d)
trap 'rm -rf "$work"' EXIT

# Compares what was said with what was expected; at the first difference says where: the file's heading, the case, the line.
compare() { # WHAT EXPECTED SAID
    cmp -s "$2" "$3" && return 0
    awk -v what="$1" -v said="$3" '
        { more = getline other < said; if (more <= 0) other = "(nothing more)" }
        /^== .* ==$/ { part = $0 }
        /[a-z]/ && !/^interrupt / && !/^[0-9]+ [0-9]+ [01]( |$)/ { name = $0 } # an answer may end in a word
        $0 "" != other "" { differ(NR, $0, other); found = 1; exit }
        END { if (!found && (getline other < said) > 0) differ(NR + 1, "(nothing more)", other) }
        function differ(line, wanted, got) {
            printf "%s: line %d of the output differs\n", what, line
            if (part != "") printf "  %s\n", part
            if (name != "") printf "  case:     %s\n", name
            printf "  expected: %s\n  said:     %s\n", wanted, got
        }' "$2" >&2
    exit 1
}

bad=no
[ $# -gt 0 ] || bad=yes
names=()
for word in "$@"; do
    if [ "$word" = bad ]; then bad=yes; else names+=("$word"); fi
done

says=0
if [ $# = 0 ] || [ ${#names[@]} -gt 0 ]; then
    "$here/bundle.sh" "$work/list" "$work/expected" ${names[@]+"${names[@]}"}
    code=0
    $replay "$work/list" >"$work/said" 2>"$work/errors" || code=$?
    compare "the bundle" "$work/expected" "$work/said"
    [ "$code" = 0 ] || fail "all lines are right, but the program ended with $code"
    [ ! -s "$work/errors" ] || fail "all lines are right, but the program said $(head -n 1 "$work/errors")"
    says=$(grep -c '^say ' "$work/list")
fi

# A bad list: the last line that is expected is the fault, on the error stream; the others are answers, on standard output.
lists=0
if [ "$bad" = yes ]; then
    for list in "$here"/bad/*.list; do
        $replay "$list" >"$work/said" 2>"$work/errors" || true
        sed '$d' "${list%.list}.expected" >"$work/answers"
        tail -n 1 "${list%.list}.expected" >"$work/fault"
        compare "bad/$(basename "$list"), its answers" "$work/answers" "$work/said"
        compare "bad/$(basename "$list"), its fault" "$work/fault" "$work/errors"
        lists=$((lists + 1))
    done
fi
echo "$says headings and $lists bad lists as expected"
