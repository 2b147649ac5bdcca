#!/bin/sh
# viewers.sh PROGRAMS: STL files as a program of others reads them, Debian's admesh: those of the demo's tray, and of a pore and a
# grain with samples of exactly 0. It ends with an error where admesh and malxuqeed differ on one of these:
#   - the count of facets, and of those that admesh drops as degenerate, which are the ones that `stl` calls of no area;
#   - whether the sheet is closed: admesh then finds every facet's three neighbours, else not;
#   - which way it faces: the volume of what holds air is negative;
#   - the integers, once admesh has written the file anew.
# It writes to host/target/viewers alone.
set -eu
here=$(cd "$(dirname "$0")" && pwd)
PATH=$(cd "$1" && pwd):$PATH
command -v admesh >/dev/null || { apt-get update -qq && apt-get install -y -qq --no-install-recommends admesh; } >&2
rm -rf "$here/target/viewers"
mkdir -p "$here/target/viewers"
cd "$here/target/viewers"

# ball SIGN: greys of 13 x 13 x 13, 100 and SIGN times the square of the distance from the middle less 16: a ball of radius 4 whose
# edge meets samples at level 100 exactly. 1 makes it air, -1 solid.
ball() {
    # shellcheck disable=SC2059 # the greys are escapes
    printf "$(awk -v sign="$1" 'BEGIN {
        for (z = 0; z < 13; z++) for (y = 0; y < 13; y++) for (x = 0; x < 13; x++)
            printf "\\%03o", 100 + sign * ((x - 6) ^ 2 + (y - 6) ^ 2 + (z - 6) ^ 2 - 16)
    }')"
}

# result NAME KEY: the first number behind a key of admesh's report.
result() { sed -n "s/.*$2 *: *\(-\{0,1\}[0-9.]*\).*/\1/p" "$1.admesh"; }

# differ NAME WHAT: says what admesh has otherwise, and ends.
differ() { echo "$1: admesh and malxuqeed differ on $2; see $PWD/$1.admesh" >&2; exit 1; }

# view NAME WAY: exports NAME.sheet and holds admesh's report against it. WAY is - for what holds air, else +.
view() {
    count=$(malxuqeed stl "$1.sheet" "$1.stl" 2>"$1.told")
    flats=$(sed -n 's/^malxuqeed: \([0-9]*\) of .* no area.*/\1/p' "$1.told")
    admesh -ev "$1.stl" >"$1.admesh"
    facets=$(result "$1" 'Number of facets') dropped=$(result "$1" 'Degenerate facets')
    apart=$(result "$1" 'Total disconnected facets') volume=$(result "$1" Volume)
    closed=$(fault count "$1.sheet" | sed 's/.*: //')
    printf '%-18s %7s %8s %8s  %-6s %12s  %s\n' "$1" "$facets" "${flats:-0}" "$dropped" "$closed" "$apart" "$volume"
    [ "$facets" = "$count" ] || differ "$1" 'the count of facets'
    [ "$dropped" = "${flats:-0}" ] || differ "$1" 'facets of no area'
    case $closed-$apart in closed-0 | open-[1-9]*) ;; *) differ "$1" 'whether it is closed' ;; esac
    case $2$volume in --* | +[0-9]*) ;; *) differ "$1" 'which way it faces' ;; esac
    admesh -c -b "$1.again.stl" "$1.stl" >/dev/null
    malxuqeed facets "$1.stl" >"$1.facets"
    malxuqeed facets "$1.again.stl" | cmp - "$1.facets" || differ "$1" 'the integers'
}

tray . >/dev/null
malxuqeed from-raw tray.raw tray.vol --sizes 64,64,40 --type u16 --level 20000 --fill 65535 >/dev/null
admesh --version | head -n 1
echo 'sheet               facets  no area  dropped  is     disconnected  volume in sample steps'
while read -r volume sheet start; do
    name=${sheet%.sheet}
    malxuqeed build "$volume" "$sheet" --start "$start" >/dev/null 2>&1
    case $name in *pore*) view "$name" - ;; *) view "$name" + ;; esac
done <manifest.txt
for sign in 1 -1; do
    name=$([ $sign = 1 ] && echo pore-of-zeros || echo grain-of-zeros)
    ball $sign >"$name.raw"
    malxuqeed from-raw "$name.raw" "$name.vol" --sizes 13,13,13 --type u8 --level 100 >/dev/null
    malxuqeed build "$name.vol" "$name.sheet" --start lowest >/dev/null
    view "$name" "$([ $sign = 1 ] && echo - || echo +)"
    [ "$closed" = closed ] && [ "${flats:-0}" -gt 0 ] || { echo "$name must be closed and have facets of no area" >&2; exit 1; }
done
echo 'admesh agrees on every sheet.'
