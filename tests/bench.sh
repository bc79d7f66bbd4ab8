#!/usr/bin/env bash
# Makes docs/BENCHMARKS.md: the linked calls, the second implementation and one pass over the words (tests/pass.c), measured in one run.
set -euo pipefail
cd "$(dirname "$0")/.."
archive=$(tests/archive.sh | tail -n 1)
export CARGO_TARGET_DIR=$PWD/target/cargo KAMRDUCH_ARCHIVE=$PWD/$archive
(cd rust && cargo build --offline --locked --release --quiet)
target/cargo/release/bench >target/BENCHMARKS.md
mv target/BENCHMARKS.md docs/BENCHMARKS.md
