#!/bin/sh
# peers.sh LIBRARY: the proved build beside VTK's Flying Edges and Marching Cubes and scikit-image's marching cubes, on the benchmark's
# volumes (tools/peers.py). LIBRARY is the archive that the programs are made over. It writes to host/target/peers alone.
set -eu
here=$(cd "$(dirname "$0")" && pwd)
root=$(dirname "$here")
library=$root/$1
# Debian's packages are for Debian's Python, which need not be the first on the path
python=
for one in /usr/bin/python3 python3; do
    if [ -z "$python" ] && "$one" -c 'import numpy, skimage, vtk' 2>/dev/null; then python=$one; fi
done
if [ -z "$python" ]; then
    echo 'make peers needs VTK and scikit-image for Python: apt-get install python3-vtk9 python3-skimage' >&2
    exit 1
fi
folder=$here/target/peers
rm -rf "$folder"
mkdir -p "$folder"
sh "$here/own.sh" volumes "$folder"
compiler=cc
if command -v clang >/dev/null; then compiler=clang; fi
cc -shared -o "$folder/library.so" -Wl,--whole-archive "$library" -Wl,--no-whole-archive
$compiler -O3 -fPIC -shared "$here/bench/second.c" -o "$folder/second.so"
$compiler -O3 -fPIC -shared -DALL_PIECES "$here/bench/second.c" -o "$folder/all.so"
echo "second.c by $compiler -O3"
exec "$python" "$root/tools/peers.py" "$folder"
