#!/usr/bin/env bash
# Times the calls of every set, beside OpenSSL 3.5 or newer where it is there. Outside the gate; needs gcc.
#     bench/calls.sh            the system's OpenSSL, if it is new enough
#     OPENSSL=DIR bench/calls.sh    one whose include/ and library folder lie under DIR, as in an unpacked package
set -euo pipefail
cd "$(dirname "$0")/.."
(cd crates/exports && rt lib >/dev/null)
mkdir -p target/bench
dir=${OPENSSL:-/usr}
lib=$(find "$dir" -name 'libcrypto.so.3' 2>/dev/null | head -1)
flags=()
if [ -n "$lib" ] && grep -qs '^# *define OPENSSL_VERSION_MINOR *[5-9]' "$dir/include/openssl/opensslv.h" "$dir"/include/*/openssl/opensslv.h; then
  flags=(-DHAVE_OPENSSL "-I$dir/include" "-I$dir/include/x86_64-linux-gnu" "$lib" -Wl,--allow-shlib-undefined)
fi
gcc -O2 -Wall -o target/bench/calls bench/calls.c crates/exports/out/libexports.a "${flags[@]}"
gcc --version | head -1
grep -m1 'model name' /proc/cpuinfo
# an OpenSSL that was unpacked beside a libc of its own runs with that libc's loader
folder=${lib:+$(dirname "$lib")}
if [ -n "$folder" ] && [ "$dir" != /usr ] && [ -e "$folder/ld-linux-x86-64.so.2" ]; then
  "$folder/ld-linux-x86-64.so.2" --library-path "$folder" target/bench/calls
else
  LD_LIBRARY_PATH=$folder target/bench/calls
fi
