#!/usr/bin/env bash
# Makes the archive that a host links and prints its name: target/staticlib/libhost.a for x86-64; `tests/archive.sh aarch64` makes target/aarch64/libhost.a of the same LLVM module.
# The compiler clears a local array by a call of memset before the code fills it. For x86-64 it sees that the clearing is idle, and leaves it out, only where it
# may look far enough back: so it gets wider bounds for that. They go to it by a folder of links to the toolchain in which its own compiler has a script before it.
set -euo pipefail
cd "$(dirname "$0")/.."
machine=${1:-x86_64}
case $machine in x86_64 | aarch64) ;; *) echo "archive: no archive for $machine" >&2 && exit 1 ;; esac
rt=$(readlink -f "$(command -v rt)")
kit=$(cd "$(dirname "$rt")/.." && pwd -P)
shade=$PWD/target/kit other=$PWD/target/$machine
rm -rf "$shade"
mkdir -p "$shade/bin" "$shade/toolchain/bin" target/staticlib
# links in the second folder to what the first has, but for the names after them
link_all() {
    local from=$1 to=$2 x
    shift 2
    for x in "$from"/*; do
        case " $* " in *" $(basename "$x") "*) ;; *) ln -s "$x" "$to/$(basename "$x")" ;; esac
    done
}
link_all "$kit" "$shade" bin toolchain
link_all "$kit/bin" "$shade/bin" rt rtlib.py
link_all "$kit/toolchain" "$shade/toolchain" bin
link_all "$kit/toolchain/bin" "$shade/toolchain/bin" clang
# these two find the toolchain from where they lie
cp "$kit/bin/rt" "$kit/bin/rtlib.py" "$shade/bin"
cat >"$shade/toolchain/bin/clang" <<EOF
#!/bin/sh
case " \$* " in
*" module.bc "*" -O3 "*)
    cp module.bc "$shade/module.bc"
    exec "$kit/toolchain/bin/clang" "\$@" -mllvm -unroll-threshold=400 -mllvm -dse-memoryssa-walklimit=800 -mllvm -dse-memoryssa-scanlimit=800
    ;;
esac
exec "$kit/toolchain/bin/clang" "\$@"
EOF
chmod +x "$shade/toolchain/bin/clang"
# a library that stands is not built again, and leaves no module
rm -f crates/host_c/out/libhost_c.a
(cd crates/host_c && "$shade/bin/rt" lib) >&2
archive=target/staticlib/libhost.a
cp crates/host_c/out/libhost_c.a "$archive"
if [ "$machine" != x86_64 ]; then
    archive=target/$machine/libhost.a
    mkdir -p "$other"
    rm -f "$archive"
    "$kit/toolchain/bin/clang" --target="$machine-unknown-linux-gnu" -w -c -x ir "$shade/module.bc" -o "$other/host.o" -fPIC -O3 -ffunction-sections 2>"$other/host.log" || { cat "$other/host.log" >&2 && exit 1; }
    (exec -a llvm-ar "$kit/toolchain/bin/clang" rcs "$archive" "$other/host.o")
fi
rm -rf "$shade"
echo "$archive"
