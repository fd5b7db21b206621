#!/usr/bin/env bash
# Measures the stack of each call of each set. Outside the gate; needs gcc.
set -euo pipefail
cd "$(dirname "$0")/.."
(cd crates/exports && rt lib >/dev/null)
mkdir -p target/bench
gcc -O2 -Wall -o target/bench/stack bench/stack.c crates/exports/out/libexports.a -lpthread
target/bench/stack
