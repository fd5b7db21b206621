#!/usr/bin/env bash
# Times the hashes beside a plain C Keccak (gcc -O3) and OpenSSL's libcrypto. Outside the gate; needs gcc and OpenSSL's headers.
set -euo pipefail
cd "$(dirname "$0")/.."
(cd crates/hash_exports && rt lib >/dev/null)
mkdir -p target/bench
gcc -O3 -o target/bench/hash bench/hash.c crates/hash_exports/out/libhash_exports.a -lcrypto
gcc --version | head -1
openssl version
grep -m1 'model name' /proc/cpuinfo
target/bench/hash
