#!/bin/sh
# own.sh [--own] COMMAND [WORDS]: the host's programs built over the library as this processor's own code, then COMMAND with them on its
# path. On x86-64 that is the library as the gate tests it; on another processor, and on x86-64 with --own, it is what rt compiles for the
# processor at hand (library.sh --own).
set -eu
here=$(cd "$(dirname "$0")" && pwd)
own=no
[ "$(uname -m)" = x86_64 ] || own=yes
[ "$1" != --own ] || { own=yes; shift; }
if [ $own = yes ]; then
    sh "$here/library.sh" --own >&2
    CARGO_TARGET_DIR=$(dirname "$here")/target/native/cargo
    export CARGO_TARGET_DIR
    programs=$CARGO_TARGET_DIR/release
    sh "$here/cargo.sh" build --workspace --features malxuqeed/own
else
    sh "$here/library.sh" >&2
    programs=$here/target/release
    sh "$here/cargo.sh" build --workspace
fi
PATH=$programs:$PATH exec "$@"
