#!/bin/sh
# install.sh PROGRAMS LIBRARY PREFIX: puts the tool, the library, its header, the man page and the completion below PREFIX (below
# DESTDIR/PREFIX where DESTDIR is set). PROGRAMS is the folder that holds malxuqeed, LIBRARY the archive that it was made over.
set -eu
programs=$1 library=$2 prefix=$3
root=$(cd "$(dirname "$0")/.." && pwd)
to=${DESTDIR:-}$prefix
version=$(sed -n 's/^version = "\(.*\)"$/\1/p' "$root/host/Cargo.toml" | head -n 1)
mkdir -p "$to/bin" "$to/include" "$to/lib/pkgconfig" "$to/share/man/man1" "$to/share/bash-completion/completions"
install -m 755 "$programs/malxuqeed" "$to/bin/malxuqeed"
install -m 644 "$root/include/malxuqeed.h" "$to/include/malxuqeed.h"
install -m 644 "$library" "$to/lib/libmalxuqeed.a"
cc -shared -o "$to/lib/libmalxuqeed.so.1" -Wl,-soname,libmalxuqeed.so.1 -Wl,--whole-archive "$library" -Wl,--no-whole-archive
ln -sf libmalxuqeed.so.1 "$to/lib/libmalxuqeed.so"
# prefix by the file's own place, so that the whole can be moved
cat >"$to/lib/pkgconfig/malxuqeed.pc" <<PC
prefix=\${pcfiledir}/../..
includedir=\${prefix}/include
libdir=\${prefix}/lib

Name: malxuqeed
Description: proved mesher and sheet checker for micro-CT lattices
Version: $version
Cflags: -I\${includedir}
Libs: -L\${libdir} -lmalxuqeed
PC
"$programs/malxuqeed" manual >"$to/share/man/man1/malxuqeed.1"
"$programs/malxuqeed" completion >"$to/share/bash-completion/completions/malxuqeed"
echo "malxuqeed $version is installed below $to"
