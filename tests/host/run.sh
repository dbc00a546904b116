#!/usr/bin/env bash
# Builds the archive, the example and the host's tests with the kit's own compiler and linker, and runs them; then installs the archive and
# builds the example from there. Nothing need be installed but the kit. They are programs for x86-64.
# All outputs go to target/host. Stops at the first failure.
#   --long          ten times as many random calls
#   --seed NUMBER   another seed for them
# LQ_ARCHIVE=PATH takes an archive that is there already, proves nothing and installs nothing.
set -eu
cd "$(dirname "$0")/../.."

self=tests/host
. tests/command.sh
. tests/kit.sh

# ---- the archive
out=target/host
rm -rf "$out"
mkdir -p "$out"
product=${LQ_ARCHIVE:-}
if [ -z "$product" ]; then
    archive lentoquist "$out/archive.log" || cannot "the archive is not proved:
$(tail -n 20 "$out/archive.log")"
    product=target/staticlib/liblentoquist.a
fi
[ -f "$product" ] || cannot "there is no archive $product"

# ---- compile and link

compile() { # SOURCE [INCLUDE]: to $out/NAME.o
    "$tools/bin/clang" --target=x86_64-unknown-linux-gnu -nostdinc -isystem tests/host/libc "-I${2:-include}" -std=c11 -O2 -Wall -Wextra -Werror \
        -c "$1" -o "$out/$(basename "$1" .c).o" || fail "$1 does not compile"
}

link() { # NAME OBJECT...
    local name=$1
    shift
    "$home/bin/rattle-link" --target x86_64-unknown-linux-gnu --toolchain "$tools" -o "$out/$name" "$@" "$product" 2>"$out/$name.link" ||
        fail "$name does not link: $(cat "$out/$name.link")"
}

compile examples/host.c
link example "$out/host.o"

objects=()
for source in tests/host/*.c; do
    compile "$source"
    objects+=("$out/$(basename "$source" .c).o")
done
link host_tests "${objects[@]}"

# ---- run
as_expected() { # COMMAND ..: what runs the example
    "$@" >"$out/host.out" || fail "the example failed: $(tail -n 3 "$out/host.out")"
    cmp -s examples/host.expected "$out/host.out" || fail "the example's output is not examples/host.expected:
$(diff examples/host.expected "$out/host.out" | head -n 10)"
}

as_expected "$out/example"
echo "example    as expected, $(wc -l <"$out/host.out") lines"

"$out/host_tests" "$@" || fail "a test failed"

# ---- installed: the example from the installed files alone, as pkg-config tells a C compiler to build it, or where there is none by their paths
if [ -z "${LQ_ARCHIVE:-}" ]; then
    room=$(mktemp -d)
    trap 'rm -rf "$room"' EXIT
    ./install "$room/prefix" >"$out/install.log" 2>&1 || fail "./install failed: $(tail -n 3 "$out/install.log")"
    DESTDIR=$room/stage ./install /usr >"$out/install.log" 2>&1 || fail "./install failed below DESTDIR: $(tail -n 3 "$out/install.log")"
    grep -qx 'prefix=/usr' "$room/stage/usr/lib/pkgconfig/lentoquist.pc" || fail "what is installed below DESTDIR does not name its PREFIX"
    if [ "$(uname -m)" = x86_64 ] && command -v pkg-config >/dev/null && command -v cc >/dev/null; then
        words=$(PKG_CONFIG_PATH=$room/prefix/lib/pkgconfig pkg-config --cflags --libs lentoquist) || fail "pkg-config does not find lentoquist"
        cc -o "$out/installed" examples/host.c $words || fail "the example does not build by pkg-config: $words"
        as_expected "$out/installed"
        echo "installed  the example as expected, by pkg-config"
    else
        product=$room/prefix/lib/liblentoquist.a
        compile examples/host.c "$room/prefix/include"
        link installed "$out/host.o"
        as_expected "$out/installed"
        echo "installed  the example as expected, by the installed paths"
    fi
fi
