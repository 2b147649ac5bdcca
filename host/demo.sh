#!/bin/sh
# demo.sh PROGRAMS: a synthetic tray from scan to audit, told in a page; each command is printed before its output. It writes to
# host/target/demo alone.
set -eu
here=$(cd "$(dirname "$0")" && pwd)
PATH=$(cd "$1" && pwd):$PATH
rm -rf "$here/target/demo"
mkdir -p "$here/target/demo"
cd "$here/target/demo"

say() { printf '%s\n' "$@"; }
# A command and its output; one that refuses shows its status.
show() {
    say "   \$ $*"
    status=0
    "$@" >output 2>&1 || status=$?
    fold -s -w 110 output | sed 's/^/   /'
    [ $status = 0 ] || say "   (exit status $status)"
}
# The same with the first lines of the output alone.
begin() {
    lines=$1
    shift
    say "   \$ $* | head -n $lines"
    "$@" 2>&1 | head -n "$lines" | sed 's/^/   /'
}

say "" "MALXUQEED: A TRAY FROM SCAN TO AUDIT" ""
say "1. The scan. Four housings stand on the floor of one tray; two of them have pores inside. Outside its round field of view" \
    "   the scanner sees nothing and writes a grey of its own, the fill. Read as material, that ring is a false wall: one surface" \
    "   more, and the first that is found."
show tray .
show malxuqeed from-raw tray.raw walls.vol --sizes 64,64,40 --type u16 --level 20000
begin 8 malxuqeed info walls.vol
show malxuqeed build walls.vol wall.sheet --start lowest
show malxuqeed picture wall.sheet wall.png
say "   With --fill it is no sample, and no cube that holds it is visited."
show malxuqeed from-raw tray.raw tray.vol --sizes 64,64,40 --type u16 --level 20000 --fill 65535
show malxuqeed info tray.vol
say ""

say "2. Build and check. Every piece is listed by its lowest cube, and becomes a sheet: counts of vertices, triangles and visited" \
    "   cubes. build-all makes all of them, each checked as it stands on the disk: the same sheets."
show malxuqeed pieces tray.vol
while read -r volume sheet start; do
    say "   \$ malxuqeed build $volume $sheet --start $start"
    malxuqeed build "$volume" "$sheet" --start "$start" 2>/dev/null | sed 's/^/   /'
done <manifest.txt
show malxuqeed build-all tray.vol all
same=0
for sheet in $(cut -d ' ' -f 2 manifest.txt); do
    for other in all/*.sheet; do if cmp -s "$sheet" "$other"; then same=$((same + 1)); fi; done
done
say "   $same of these are the sheets above, byte for byte."
pore=housing-2-pore-1
show malxuqeed check tray.vol $pore.sheet --start auto
begin 3 malxuqeed list tray.vol --start "$(sed -n "s/.*$pore.sheet //p" manifest.txt)"
show malxuqeed picture $pore.sheet $pore.png
say ""

say "3. The fault. The bought mesher sorts the vertices and does not renumber the triangles. By a count of edges, as other" \
    "   programs take it, the result is as closed as the sound sheet. It is not the surface, and the check says so."
show fault sort $pore.sheet sorted.sheet
show fault count $pore.sheet
show fault count sorted.sheet
show malxuqeed check tray.vol sorted.sheet --start auto
show malxuqeed picture sorted.sheet sorted.png --volume tray.vol
say ""

say "4. The audit. The archive with that sheet, the false wall, a damaged, a cut and a lost one; no starts are recorded."
cp $pore.sheet changed.sheet
printf '\377' | dd of=changed.sheet bs=1 seek=37 conv=notrunc 2>/dev/null
head -c 1000 $pore.sheet >cut.sheet
{
    cut -d ' ' -f 1,2 manifest.txt
    for sheet in sorted wall changed cut lost; do say "tray.vol $sheet.sheet"; done
} >archive.txt
show malxuqeed audit archive.txt --csv audit.csv --html audit.html
begin 3 cut -d , -f 1-9 audit.csv
say ""
say "5. For viewers. A sheet as binary STL, to open in a program of your own, and as integers again. Units are sample steps, and" \
    "   facets face the air: a housing's outward, a pore's into the pore."
show malxuqeed stl housing-2.sheet housing-2.stl
show malxuqeed stl $pore.sheet $pore.stl
begin 3 malxuqeed facets $pore.stl
say ""
say "6. From floats. The new reconstruction writes 32-bit floats. Air is at 20 and material at 136.25; 256 steps of a sample for a" \
    "   step of grey give the volume that the greys gave without --fill, byte for byte, and the same way leads on: build, check, STL."
show malxuqeed convert tray.flt floats.vol --air 20 --material 136.25 --scale 256
show cmp walls.vol floats.vol
start=$(sed -n "s/.*$pore.sheet //p" manifest.txt)
show malxuqeed build floats.vol floats.sheet --start "$start"
show malxuqeed check floats.vol floats.sheet --start "$start"
show malxuqeed stl floats.sheet floats.stl
say "   A level is refused where air is not below material, and a voxel that is no number with its place."
show malxuqeed convert tray.flt floats.vol --air 136.25 --material 20
cp tray.flt hole.flt
printf '\377\377\377\377' | dd of=hole.flt bs=1 seek=$((6 + 4 * 70000)) conv=notrunc 2>/dev/null
show malxuqeed convert hole.flt floats.vol --level 78.125
say ""
say "All files are in host/target/demo: look at wall.png, $pore.png, sorted.png and audit.html, and at housing-2.stl in a viewer." \
    "'malxuqeed help' tells what else there is, and docs/MANUAL.md how to go on with a scan of your own."
