#!/usr/bin/env bash
# How the commands end, by the rule of README.md, "Exit status": runs each of them on good and bad input, and compares its status, what it prints
# and what it says on the error stream. It needs the kit and what is proved, and proves nothing again.
#   tests/commands/run.sh
# Status 0: all as expected. 1: something else. 2: it could not be run.
set -euo pipefail
cd "$(dirname "$0")/../.."
self=tests/commands/run.sh
. tests/command.sh
. tests/kit.sh
[ -x target/bin/replay ] || cannot "the replay program is not built: ./replay examples/sample.list"
[ -f target/staticlib/liblentoquist.a ] || cannot "the archive is not built: tests/host/run.sh"
work=$(mktemp -d)
trap 'rm -rf "$work"' EXIT

# ---- a case: what is run must end with this status, and soon. What it prints and says is kept for the comparison.
limit=120
cases=0

try() { # WHAT STATUS COMMAND ..
    local status=0
    what=$1 wanted=$2
    shift 2
    "$@" >"$work/printed" 2>"$work/said" || status=$?
    [ "$status" = "$wanted" ] || fail "$what: status $status and not $wanted; it said: $(head -n 3 "$work/said")"
    cases=$((cases + 1))
}

prints() { # FILE
    cmp -s "$1" "$work/printed" || fail "$what: it prints something else: $(head -n 3 "$work/printed")"
}

says() { # LINE: on the error stream, and nothing else
    [ "$(cat "$work/said")" = "$1" ] || fail "$what: it says not \"$1\" but: $(head -n 3 "$work/said")"
}

none=$work/none
: >"$none"

# ---- replay: lists
bad=tests/replay/bad/area
sed '$d' "$bad.expected" >"$work/answers"
fault=$(tail -n 1 "$bad.expected")

try "the sample" 0 ./replay examples/sample.list
says ""
cp "$work/printed" "$work/sample"
try "the sample, as standard input" 0 ./replay - <examples/sample.list
prints "$work/sample"
says ""
try "the sample, where no list is named" 0 ./replay </dev/null
prints "$work/sample"
try "the tag ring" 0 ./replay examples/tag-ring.list
prints examples/tag-ring.expected
says ""
try "a bad list" 2 ./replay "$bad.list"
prints "$work/answers"
says "$fault"
try "a bad list, as standard input" 2 ./replay - <"$bad.list"
prints "$work/answers"
says "$fault"
try "a bad list, and an error stream that is closed" 2 eval "./replay $bad.list 2>&-"
prints "$work/answers"
try "an empty list" 0 ./replay "$none"
prints "$none"
says ""
try "a list without its last newline" 0 ./replay <(printf 'interrupt')
[ "$(cat "$work/printed")" = "interrupt low" ] || fail "$what: it prints $(cat "$work/printed")"

# A list of 100 MB: the sample, 73,860 times. It takes some seven seconds of a processor.
repeated() { # FILE, so often
    local i
    for i in {1..60}; do cat "$1"; done >"$work/block"
    cat $(printf "$work/block %.0s" {1..1231})
}

large() {
    repeated examples/sample.list >"$work/list"
    repeated "$work/sample" >"$work/wanted"
    timeout "$limit" ./replay "$work/list" | cmp - "$work/wanted"
}
try "a list of 100 MB" 0 large
says ""
[ "$(wc -c <"$work/list")" -ge 100000000 ] || fail "$what: it has only $(wc -c <"$work/list") bytes"
rm "$work/list" "$work/wanted" "$work/block"

# ---- replay: usage
try "./replay --help" 0 ./replay --help
grep -qF './replay [FILE]' "$work/printed" || fail "$what: it does not say what it takes"
says ""
try "an option that replay has not" 2 ./replay --quickly
prints "$none"
says "replay: there is no option --quickly; ./replay --help says what it takes"
try "two lists" 2 ./replay "$none" "$none"
prints "$none"
try "a list that is not there" 2 ./replay "$work/missing"
prints "$none"
says "replay: there is no list $work/missing"
try "a list without a name" 2 ./replay ""
try "a folder" 2 ./replay "$work"
says "replay: $work is a folder, not a list"
try "standard input that is closed" 2 eval './replay - <&-'
says "replay: standard input is closed"
try "standard input that cannot be read" 2 ./replay - <"$work"
prints "$none"
says "the list: Is a directory"

# ---- replay: an output that takes nothing more. The input has no end: it must not be read on.
closed() {
    yes turn 2>/dev/null | timeout "$limit" ./replay - | head -n 1
    return "${PIPESTATUS[1]}"
}

unheard() {
    trap '' PIPE
    closed
}

# Whoever started this may have the signal ignored; then so has all that is started here, and it is as in the next case.
ignored=$((0x$(sed -n 's/^SigIgn:[[:space:]]*//p' /proc/self/status) >> 12 & 1))
try "a pipe that is closed early" $((ignored ? 2 : 141)) closed
[ "$(cat "$work/printed")" = "4 0 0" ] || fail "$what: the first answer is $(cat "$work/printed")"
[ "$ignored" = 1 ] || says ""
try "a pipe that is closed early, and no signal" 2 eval '(unheard)'
says "standard output: Broken pipe"
full() {
    yes turn | timeout "$limit" ./replay - >/dev/full
    return "${PIPESTATUS[1]}"
}
try "a device that is full" 2 full
says "standard output: No space left on device"
try "standard output that is closed" 2 eval './replay examples/sample.list >&-'
says "replay: standard output is closed"

# ---- replay: a program that is not proved is not run, though an earlier one is there
mkdir "$work/bin"
printf '#!/bin/sh\necho "rt: replay NOT PROVED"\nexit 1\n' >"$work/bin/rt"
chmod +x "$work/bin/rt"
try "a program that is not proved" 2 env RATTLE_HOME="$home" PATH="$work/bin:$PATH" ./replay examples/sample.list
prints "$none"
tail -n 1 "$work/said" | grep -q '^replay: the program is not proved' || fail "$what: it says $(cat "$work/said")"

# ---- install; what it does with a good PREFIX is tried by tests/host
try "no PREFIX" 2 ./install
try "two of them" 2 ./install "$work/one" "$work/two"
try "a PREFIX with a blank" 2 ./install "$work/a b"
try "a PREFIX that is no folder" 2 ./install "$none/prefix"
tail -n 1 "$work/said" | grep -q '^install: the folders below .* cannot be made' || fail "$what: it says $(cat "$work/said")"
[ -z "$(find "$work" -name 'lentoquist.*')" ] || fail "./install has put something somewhere, with no good PREFIX"

# ---- what all of them take
for command in ./install ./test bench/run tests/checks; do
    try "$command --help" 0 "$command" --help
    grep -q "^  $command" "$work/printed" || fail "$what: it does not say what it takes"
    says ""
    try "an option that $command has not" 2 "$command" --quickly
    prints "$none"
done
try "an archive that is not there" 2 bench/run "$work/missing.a"

echo "$cases cases of how a command ends"
