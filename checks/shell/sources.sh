#!/bin/sh
# Prints a checksum of the crates' sources: the contents and names of the files that a build reads.
# usage: checks/shell/sources.sh [PATTERN ..]
# Without a PATTERN it covers all sources, otherwise those whose names match one, such as '*.rt'.
set -eu
cd "$(dirname "$0")/../.."
[ $# -gt 0 ] || set -- '*.rt' '*.antt'
for pattern; do
    find crates -path '*/out' -prune -o -type f -name "$pattern" -print
done | LC_ALL=C sort | { echo crates.txt; cat; } | xargs cksum | cksum
