#!/bin/sh
# library.sh [--own]: the proved library as an archive, made by rt from crates/cabi_c: target/staticlib/libcabi.a, which is x86-64 code.
# With --own it is compiled for this processor, as target/native/libcabi.a: rt then needs to run here, and its compiler to know the processor
# (x86_64 and aarch64).
set -eu
root=$(cd "$(dirname "$0")/.." && pwd)
machine=x86_64 folder=$root/target/staticlib
[ "${1:-}" != --own ] || machine=$(uname -m) folder=$root/target/native
cd "$root/crates/cabi_c"
# proves what the library needs several crates at a time, where rt lib would prove one after another: one for each processor that has 3 GB of
# memory, and where that makes no more than two, what rt chooses
many=$(awk -v processors="$(nproc)" '/^MemAvailable:/ { fit = int($2 / 3000000); print fit < processors ? fit : processors }' /proc/meminfo)
if [ "$many" -gt 2 ]; then rt all check --jobs "$many"; else rt all check; fi
rt lib --target "$machine-unknown-linux-gnu"
mkdir -p "$folder"
# rt writes crates/cabi_c/out/libcabi_c.a. The same archive is left as it is, so that nothing is linked again for nothing
cmp -s out/libcabi_c.a "$folder/libcabi.a" || cp out/libcabi_c.a "$folder/libcabi.a"
