#!/bin/sh
# Proves and builds the static library, and builds the example and the test with the system's C compiler; all of it goes to target/c.
set -eu
cd "$(dirname "$0")/.."
out=target/c
kit=$(dirname "$(dirname "$(readlink -f "$(command -v rt)")")")
mkdir -p "$out"
(cd crates/lrs && rt lib >&2)
# one archive, with what the library rests on
rm -f "$out/liblrs.a"
cp crates/lrs/out/liblrs.a "$out/liblrs.a"
cp "$kit/c/liblibc_c.a" "$out/liblrs_c.a"
for program in example test; do
    ${CC:-cc} -std=c99 -Wall -Wextra -Werror -O2 -Ic -o "$out/$program" "c/$program.c" "$out/liblrs.a" "$out/liblrs_c.a"
done
sed "s|@prefix@|$(pwd)|" c/lrs.pc.in >"$out/lrs.pc"
