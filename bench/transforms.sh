#!/usr/bin/env bash
# Times the transforms and products of both schemes: ns a call, the median of many rounds.
# The exported functions live in a temporary copy of the repository, since only a bench calls them from C.
set -euo pipefail
cd "$(dirname "$0")/.."
room=$(mktemp -d)
trap 'rm -rf "$room"' EXIT
mkdir -p "$room/crates/ring_exports/src"
cp -r crates/standards crates/algebra crates/words crates/ring "$room/crates/"
printf 'standards:\nalgebra: standards\nwords:\nring: standards algebra words\nring_exports staticlib: standards algebra ring\n' >"$room/crates.txt"

# export SCHEME WORD MODULUS NAME MODULE: a function of a module of `ring` that C can call
one() {
  cat <<RT

#[unsafe(no_mangle)]
pub extern "C" fn $1_$4(f: &mut [$2; 256])
    requires { T (all_below $3 f.old) }
{
    $5::$4(f);
}
RT
}
two() {
  cat <<RT

#[unsafe(no_mangle)]
pub extern "C" fn $1_$4(f: &mut [$2; 256], g: &[$2; 256])
    requires first { T (all_below $3 f.old) }
    requires second { T (all_below $3 g.now) }
{
    $5::$4(f, g);
}
RT
}
three() {
  cat <<RT

#[unsafe(no_mangle)]
pub extern "C" fn $1_$4(out: &mut [$2; 256], f: &[$2; 256], g: &[$2; 256])
    requires sum { T (all_below $3 out.old) }
    requires first { T (all_below $3 f.now) }
    requires second { T (all_below $3 g.now) }
{
    $5::$4(out, f, g);
}
RT
}
{
  printf '#![tactic(auto)]\n\nghost use Rattle.std.specs.Prelude.{T};\nghost use Rattle.standards.specs.Lists.{all_below};\n\nuse ring::{dsa, kem, pointwise, transform};\n'
  one kem u16 3329 ntt transform
  one kem u16 3329 ntt_inverse transform
  two kem u16 3329 multiply_ntts kem
  two kem u16 3329 add pointwise
  two kem u16 3329 sub pointwise
  three kem u16 3329 multiply_add kem
  one dsa u32 8380417 ntt transform
  one dsa u32 8380417 ntt_inverse transform
  two dsa u32 8380417 multiply_ntt dsa
  two dsa u32 8380417 add pointwise
  two dsa u32 8380417 sub pointwise
  three dsa u32 8380417 multiply_add dsa
} >"$room/crates/ring_exports/src/lib.rt"

(cd "$room/crates/ring_exports" && rt lib >"$room/build.log" 2>&1) || {
  tail -20 "$room/build.log" >&2
  exit 1
}
cc -O2 -o "$room/transforms" bench/transforms.c "$room/crates/ring_exports/out/libring_exports.a"
"$room/transforms"
