#!/usr/bin/env bash
# Builds the plain Rust and its programs into target/oracle-dots. LIBRARY is the folder of libtorrivask.a, counted from the
# repository's root; by default crates/torrivask/out.
#
#     oracle/dots/build.sh [LIBRARY]
cd "$(dirname "$0")/../.." || exit 2
library=${1:-crates/torrivask/out}
out=target/oracle-dots
rust=(rustc --edition 2021 -O --out-dir "$out")
with_dots=(--extern "dots=$out/libdots.rlib")
with_library=(--extern "torrivask=$out/libtorrivask.rlib" -L "native=$library")

mkdir -p "$out"
# No program of an earlier build is left to be run in place of one that cannot be built.
rm -f "$out"/{replay,compare,bench,libdots.rlib,libtorrivask.rlib}

"${rust[@]}" --crate-type rlib --crate-name dots oracle/dots/lib.rs || exit 1
"${rust[@]}" "${with_dots[@]}" oracle/dots/replay.rs || exit 1
if [ ! -f "$library/libtorrivask.a" ]; then
    echo "build.sh: $library/libtorrivask.a is missing, so only replay is built; 'rt lib' in crates/torrivask makes it" >&2
    exit 1
fi
"${rust[@]}" --crate-type rlib -L "native=$library" examples/rust/torrivask.rs || exit 1
for program in bench compare; do
    "${rust[@]}" "${with_dots[@]}" "${with_library[@]}" "oracle/dots/$program.rs" || exit 1
done
echo "built $out/replay, bench and compare"
