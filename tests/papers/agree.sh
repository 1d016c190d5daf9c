#!/bin/sh
# Compares the definitions of a repository's crate `rules` with marker A, in a copy of that crate outside the repository:
#   agree.sh REPOSITORY random EACH MOST SEED..   random traces of up to MOST events, EACH for every aim
#   agree.sh REPOSITORY every MOST PART           every trace of up to MOST events, PART accepted traces to a file
# One line for each file; the last line is `N passed, M failed`, in files.
set -eu
repo=$1; mode=$2; shift 2
programs=$(cd "$(dirname "$0")" && pwd)/target/release
work=$(mktemp -d)
trap 'rm -rf "$work"' EXIT
crate=$work/crates/rules
mkdir -p "$crate"
for part in src specs proofs; do cp -r "$repo/crates/rules/$part" "$crate"; done
grep '^rules\>' "$repo/crates.txt" > "$work/crates.txt"
echo 'pub mod TracesOfA' >> "$crate/proofs/Lib.antt"
passed=0; failed=0

# The file is written by the command after the name.
compare() {
    name=$1; shift
    "$@" > "$crate/proofs/TracesOfA.antt" 2> "$work/said"
    start=$(date +%s)
    (cd "$crate" && nice rt check > "$work/log" 2>&1) || true
    if grep -q '^logic=proved ' "$work/log"; then
        verdict=agree; passed=$((passed + 1))
    else
        verdict=DIFFER; failed=$((failed + 1))
        grep -E '(^|: )error|^rt: ' "$work/log" | head -n 5
    fi
    echo "$name: $verdict, $(($(date +%s) - start)) s, $(cut -d: -f1 "$work/said")"
}

case $mode in
random)
    each=$1; most=$2; shift 2
    for seed; do
        compare "seed $seed" "$programs/antt_batch" "$seed" "$each" "$most"
    done ;;
every)
    most=$1; part=$2; from=0
    all=$("$programs/antt_every" "$most" 0 0 2>&1 > /dev/null | sed 's/.* of \([0-9]*\) .*/\1/')
    while [ "$from" -lt "$all" ]; do
        compare "from $from" "$programs/antt_every" "$most" "$from" $((from + part))
        from=$((from + part))
    done ;;
esac
echo "$passed passed, $failed failed"
