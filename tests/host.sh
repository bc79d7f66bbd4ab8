#!/usr/bin/env bash
# The library as a host links it: the header in C and C++, the README's hosts, the example and tables that nobody has written under valgrind, how much stack a call takes, and the comparison with the second implementation.
set -euo pipefail
cd "$(dirname "$0")/.."
command -v cargo >/dev/null || PATH=${CARGO_HOME:-$HOME/.cargo}/bin:$PATH
other=$(tests/archive.sh aarch64 | tail -n 1)
archive=target/staticlib/libhost.a
made=target/host
mkdir -p "$made"
same() { cmp "$1" examples/host.stdout || { echo "host: $2 printed something else"; exit 1; }; }

# each archive defines the five calls and asks for no other name
for made_one in "$archive" "$other"; do
    names=$(nm -g "$made_one" | awk 'NF == 3 && $2 == "T" { print $3 }' | sort | xargs)
    [ "$names" = "kamrduch_begin kamrduch_fresh kamrduch_rebalance kamrduch_start kamrduch_step" ] || { echo "host: $made_one defines $names"; exit 1; }
    wanted=$(nm -u "$made_one" | awk '$1 == "U" { print $2 }' | sort -u | xargs)
    [ -z "$wanted" ] || { echo "host: $made_one asks for $wanted"; exit 1; }
done

# the header, alone, in both languages; the example under valgrind
gcc -std=c11 -Wall -Wextra -Werror -pedantic -fsyntax-only -x c include/kamrduch.h
g++ -std=c++11 -Wall -Wextra -Werror -pedantic -fsyntax-only -x c++ include/kamrduch.h
gcc -std=c11 -O2 -g -Wall -Wextra -Werror -pedantic -o "$made/example" examples/host.c "$archive"
valgrind -q --error-exitcode=1 "$made/example" >"$made/example.out"
same "$made/example.out" "the example"

# tables that nobody has written, each memory of its own, under valgrind
gcc -std=c11 -O2 -g -Wall -Wextra -Werror -pedantic -o "$made/fresh" tests/fresh.c "$archive"
valgrind -q --error-exitcode=1 --leak-check=full "$made/fresh"

# the README's two short hosts
block() { awk -v from="\`\`\`$1" '$0 == from { on = 1; next } /^```$/ { on = 0 } on' README.md >"$made/readme.$2"; }
block c c
gcc -std=c11 -O2 -Wall -Wextra -Werror -Iinclude -o "$made/readme-c" "$made/readme.c" "$archive"
"$made/readme-c"
block rust rs
rustc -O -o "$made/readme-rust" "$made/readme.rs" -L "$(dirname "$archive")" -l static=host
"$made/readme-rust"

# how much stack a call takes
gcc -std=c11 -O2 -g -Wall -Wextra -Werror -pedantic -o "$made/stack" tests/stack.c "$archive"
"$made/stack"

# the second implementation by itself; then reports and tables against it, through the C boundary; more with SEED and CALLS as arguments
export CARGO_TARGET_DIR=$PWD/target/cargo KAMRDUCH_ARCHIVE=$PWD/$archive
(cd rust && cargo build --offline --locked --release --quiet && cargo test --offline --locked --release --quiet -p model)
target/cargo/release/compare "${@:-1}"

# a shorter comparison, with the calls made in a program of their own
gcc -std=c11 -O2 -Wall -Wextra -Werror -pedantic -o "$made/lend" tests/lend.c "$archive"
KAMRDUCH_LEND=$made/lend target/cargo/release/compare 2 10000

# the archive for the other machine, where a compiler and an emulator for it are here: the example, tables that nobody has written, the shorter comparison
if command -v aarch64-linux-gnu-gcc >/dev/null && command -v qemu-aarch64-static >/dev/null; then
    for c in examples/host tests/fresh tests/lend; do
        aarch64-linux-gnu-gcc -static -std=c11 -O2 -Wall -Wextra -Werror -pedantic -o "$made/$(basename "$c")-aarch64" "$c.c" "$other"
    done
    qemu-aarch64-static "$made/host-aarch64" >"$made/host-aarch64.out"
    same "$made/host-aarch64.out" "the example on aarch64"
    qemu-aarch64-static "$made/fresh-aarch64"
    KAMRDUCH_LEND="qemu-aarch64-static $made/lend-aarch64" target/cargo/release/compare 2 10000
    echo "host: the archive for aarch64 was run under an emulator"
else
    echo "host: the archive for aarch64 was not run: no aarch64-linux-gnu-gcc or no qemu-aarch64-static here"
fi

echo "host: the archive, the header, the hosts, the stack and the comparison are right"
