#!/bin/sh
# audit-rate.sh: how many small sheets a second the audit judges, on an archive of 10,000; programs are taken from the path.
set -eu
folder=$(mktemp -d)
trap 'rm -rf "$folder"' EXIT
archive "$folder" 10000
for reports in '' "--csv $folder/a.csv"; do
    began=$(date +%s%N)
    # shellcheck disable=SC2086 # an option and its value, or nothing; wrong sheets are among them, so the status is 2
    malxuqeed audit "$folder/manifest.txt" $reports >"$folder/verdicts" 2>/dev/null || [ $? = 2 ]
    spent=$((($(date +%s%N) - began) / 1000000))
    grep '^sheets ' "$folder/verdicts"
    printf 'audit %s: %s ms, %s sheets a second\n' "${reports%% *}" "$spent" "$((10000 * 1000 / spent))"
done
