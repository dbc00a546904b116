#!/usr/bin/env bash
# Compiles the model: tests/model/build.sh OUT. Any rustc from 1.63 on, which is Debian 12's, will do.
set -eu

self=tests/model/build.sh
. "$(dirname "$0")/../command.sh"
[ $# = 1 ] || cannot "where to? build.sh OUT"
command -v rustc >/dev/null || cannot "rustc is missing: install the package rustc (Debian's name)"
rustc --edition 2021 -O -o "$1" "$(dirname "$0")/model.rs" || cannot "the model does not compile"
