#!/bin/sh
# reads.sh: how often a call reads samples, on the benchmark's volumes. The samples stand in a heap block of their own, and
# valgrind's dhat counts the bytes that the compiled code reads of it; a run that calls nothing must read none. Programs are taken
# from the path.
set -eu
folder=$(mktemp -d)
trap 'rm -rf "$folder"' EXIT
volumes "$folder"

# count CALL VOLUME: sets `about` to what the program prints (bytes of the block, samples, vertices, cubes, lowest crossed cube), and
# `reads` to the samples that the call read.
count() {
    about=$(valgrind -q --tool=dhat --dhat-out-file="$folder/dhat" reads "$1" "$folder/$2.vol")
    read_bytes=$(awk -v block="\"tb\":${about%% *},\"tbk\":1\$" '
        /"tb":/ { own = $0 ~ block }
        own && /"rb":/ { split($0, part, /[:,]/); print part[3] }' "$folder/dhat")
    case $read_bytes in '' | *[!0-9]*) echo "reads.sh: dhat tells nothing of the samples of $2" >&2; exit 1 ;; esac
    reads=$((read_bytes / 2))
}

printf 'volume   samples  vertices    cubes  lowest  %22s  %22s  %22s  %22s  %22s\n' 'build, a sample' 'start named, a sample' \
    'check, a sample' 'pieces, a sample' 'second.c, a sample'
for volume in pore tray noise; do
    count nothing $volume
    [ $reads = 0 ] || { echo "reads.sh: the samples of $volume are read before any call" >&2; exit 1; }
    # shellcheck disable=SC2086 # five numbers
    set -- $about
    samples=$2
    printf '%-6s  %8s  %8s  %7s  %6s' $volume "$2" "$3" "$4" "$5"
    for call in build named check pieces second; do
        count $call $volume
        printf '  %14s %7s' $reads "$(awk "BEGIN { printf \"%.2f\", $reads / $samples }")"
    done
    printf '\n'
done
