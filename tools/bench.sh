#!/usr/bin/env bash
# Times the library and the plain implementation on the same texts in one run.
#    tools/bench.sh              examples/worked.txt and examples/full.txt
#    tools/bench.sh FILE..       these texts
set -eu
from=$PWD
cd "$(dirname "${BASH_SOURCE[0]}")/.."

library=crates/host/out/libhost.a
out=target/bench

[ -f "$library" ] || (cd crates/host && rt lib)
mkdir -p "$out"
rustc --edition 2024 -C opt-level=3 -D warnings \
    -L "native=$(dirname "$library")" -l static=host -o "$out/bench" bench/main.rs

if [ $# -eq 0 ]; then
    exec "$out/bench" examples/worked.txt examples/full.txt
fi
bench=$PWD/$out/bench
cd "$from"
exec "$bench" "$@"
