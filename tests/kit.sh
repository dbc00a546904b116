# Read by the scripts that need the Rattle kit beside `rt` itself: where it is (home, tools), and what is built with it, for x86-64.
#   program NAME LOG   proves and builds the program of the crate NAME: target/bin/NAME
#   archive NAME LOG   proves and builds the static library of the crate NAME_c, or NAME, for every such processor: target/staticlib/libNAME.a
# Both say on the error stream which crates are proved, keep all that rt says in LOG, and fail where rt does.
rt=$(command -v rt) || cannot "rt, the Rattle kit's command, is not in PATH"
home=${RATTLE_HOME:-$(cd "$(dirname "$(readlink -f "$rt")")/.." && pwd -P)}
tools=$home/toolchain
[ -x "$tools/bin/clang" ] || cannot "the kit at $home has no compiler for this machine"
root=$(cd "$(dirname "${BASH_SOURCE[0]}")/.." && pwd -P)

# of what rt says: a line for each crate that it comes to, none where nothing has changed, and the errors
heard() { # LOG
    tee "$1" | awk '
        /^crate [a-z0-9_]+: / { name = $2; sub(":", "", name) }
        /^logic=/ && name { print "  " name ($1 == "logic=proved" ? "" : " is not proved"); name = ""; fflush() }
        /: error/ { print "  " substr($0, 1, 200); fflush() }' >&2
}

program() ( # NAME LOG
    set -o pipefail
    mkdir -p "$root/target/bin" || return 1
    (cd "$root/crates/$1" && rt run -- /dev/null </dev/null 2>&1) | heard "$2" || return 1
    cp -u "$root/crates/$1/out/$1" "$root/target/bin/$1"
)

archive() ( # NAME LOG
    set -o pipefail
    crate=$1
    mkdir -p "$root/target/staticlib" || return 1
    [ ! -d "$root/crates/$1_c" ] || crate=$1_c
    (cd "$root/crates/$crate" && rt lib --cpu=x86-64 </dev/null 2>&1) | heard "$2" || return 1
    cp -u "$root/crates/$crate/out/lib$crate.a" "$root/target/staticlib/lib$1.a"
)
