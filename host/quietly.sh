#!/bin/sh
# quietly.sh LOG TEXT COMMAND [WORDS]: runs a command with its output in a file; a line of progress stands for it. Where it fails,
# the end of the output is shown.
set -eu
log=$1 text=$2
shift 2
mkdir -p "$(dirname "$log")"
began=$(date +%s)
printf '%s (output in %s) ' "$text" "$log"
"$@" >"$log" 2>&1 &
command=$!
trap 'kill $command 2>/dev/null; exit 130' INT TERM HUP
while kill -0 $command 2>/dev/null; do
    sleep 1
    elapsed=$(($(date +%s) - began))
    if [ -t 1 ]; then
        printf '\r%s: %s s (output in %s) ' "$text" "$elapsed" "$log"
    elif [ $((elapsed % 15)) = 0 ]; then
        printf '.'
    fi
done
if wait $command; then
    printf 'done in %s s\n' "$(($(date +%s) - began))"
else
    printf 'FAILED\n'
    tail -n 30 "$log" >&2
    exit 1
fi
