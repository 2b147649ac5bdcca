#!/bin/sh
# cargo.sh COMMAND [WORDS]: cargo in this folder, with optimization and without the network. What is missing is installed from
# Debian's packages: cargo (`cargo-web` is the one that is new enough), a C compiler, and the libraries, which cargo takes from
# the folder that their packages install to; for `test`, also what the examples for others are tried with.
set -eu
cd "$(dirname "$0")"
libraries='librust-png-dev librust-sha2-dev librust-signal-hook-dev'
missing=
# need PROGRAM PACKAGES: the packages, where there is no such program.
need() { command -v "$1" >/dev/null || missing="$missing $2"; }
need cargo 'cargo-web rustc-web'
need cc 'gcc libc6-dev'
if [ "$1" = test ]; then
    need python3 python3
    need pkg-config pkgconf
fi
# shellcheck disable=SC2086 # a list of packages
dpkg -L $libraries >/dev/null 2>&1 || missing="$missing $libraries"
# shellcheck disable=SC2086
[ -z "$missing" ] || { apt-get update -qq && apt-get install -y -qq --no-install-recommends $missing; } >&2
registry=$(dirname "$(dirname "$(dpkg -L librust-png-dev | grep '/png-[0-9.]*/Cargo.toml$')")")
command=$1
shift
exec cargo --config 'source.crates-io.replace-with="debian"' --config "source.debian.directory=\"$registry\"" \
    "$command" --release --offline --locked "$@"
