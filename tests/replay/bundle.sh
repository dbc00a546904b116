#!/usr/bin/env bash
# Makes one list of the lists here, and one text of what must be printed for it.
#   tests/replay/bundle.sh LIST EXPECTED [NAME ..]
# Without names all lists are taken. Each begins with a `say` of its name. calls must be first: its first case needs a device that was
# never reset.
set -eu

here=$(cd "$(dirname "$0")" && pwd)
self=tests/replay/bundle.sh
. "$here/../command.sh"
[ $# -ge 2 ] || cannot "usage: bundle.sh LIST EXPECTED [NAME ..]"
list=$1
expected=$2
shift 2
[ $# -gt 0 ] || set -- calls papers control commands transmit arrival reasons filter storing addresses limits headers runs record

for name in "$@"; do
    [ -f "$here/$name.list" ] || cannot "there is no $here/$name.list"
done
for name in "$@"; do
    echo "say == $name =="
    cat "$here/$name.list"
    echo
done >"$list"
for name in "$@"; do
    echo "== $name =="
    cat "$here/$name.expected"
done >"$expected"
