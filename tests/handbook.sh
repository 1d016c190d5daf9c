#!/usr/bin/env bash
# The papers and sheets of docs/PAPERS.md: each is marked by a program and compared, byte for byte, with the listing that follows it there; and
# a paper with --tail as its last argument with the tail behind the listing, where there is one.
#   tests/handbook.sh PROGRAM [ARGUMENT..]    the program reads a paper on standard input and writes its listing
# A short paper is one of the short course: the program gets --short as its last argument for it. The others are marked so too, and have the
# same listing then or 25. For a sheet the last argument is --sheet.
# A number from 1 to 6 or 9 to 31 without a paper or sheet under its own heading is a failure. The last line is 'N passed, M failed'.
set -u
export LC_ALL=C
if [ $# -eq 0 ]; then
    echo "usage: tests/handbook.sh PROGRAM [ARGUMENT..]" >&2
    exit 2
fi
root=$(cd "$(dirname "$0")/.." && pwd) || exit 2
work=$(mktemp -d) || exit 2
trap 'rm -rf "$work"' EXIT
touch "$work/faults" "$work/covered" "$work/pairs"

# Writes the files N.paper, N.listing and N.tail; in `pairs` each N with the paper's line in the document and --short for a short paper, --sheet for
# a sheet, in `covered` each number that is met under its heading, in `faults` what has not the form of a pair.
awk -v work="$work" -v root="$root" '
function fault(what) { print "docs/PAPERS.md:" NR ": " what > (work "/faults") }
function begin() {
    if (waiting) fault("the paper or sheet before has no listing")
    n++; waiting = 1
    paper = work "/" n ".paper"; printf "" > paper
    sheet = $0 == "```sheet"
    print n, NR, (sheet ? "--sheet" : /^(```)?short / ? "--short" : "") > (work "/pairs")
}
# "paper made by": lines in backticks, each with or without a number of times before it, and the trailer
function make(text,    items, count, i, times, line, body) {
    if (!sub(/ and the trailer$/, "", text)) { fault("no trailer: " text); return }
    count = split(text, items, ", "); body = ""
    for (i = 1; i <= count; i++) {
        if (items[i] !~ /^([0-9]+ times )?`[^`]*`$/) { fault("not understood: " items[i]); return }
        times = items[i] ~ /^`/ ? 1 : items[i] + 0
        line = items[i]; sub(/^[^`]*`/, "", line); sub(/`$/, "\n", line)
        while (times-- > 0) body = body line
    }
    printf "%sZ %d\n", body, length(body) > paper
}
function copy(name,    line, read) {
    while ((read = (getline line < (root "/" name))) > 0) print line > paper
    if (read < 0) fault("no file " name)
    close(root "/" name)
}
out != "" {
    if ($0 == "```") { close(out); out = ""; next }
    print > out
    if (listed && $0 ~ /^(refused|unordered) [0-9]+ [0-9]+$/ && $3 == number) print number > (work "/covered")
    next
}
/^#/ { number = $1 == "###" && $2 ~ /^[0-9]+\.$/ ? $2 + 0 : "" }
/^(short )?paper made by / { begin(); make(substr($0, index($0, " made by ") + 9)); close(paper) }
/^(short )?paper in / { begin(); copy(substr($0, index($0, " in ") + 4)); close(paper) }
/^```/ {
    listed = $0 ~ /^```(listing|tail)$/
    if ($0 ~ /^```((short )?paper|sheet)$/) { begin(); out = paper }
    else if (!listed) out = "/dev/null"
    else if ($0 == "```tail") {
        if (!n || waiting || sheet) fault("a tail without a paper and its listing")
        out = work "/" n ".tail"; printf "" > out
    } else {
        if (!waiting) fault("a listing without a paper or sheet")
        waiting = 0; out = work "/" n ".listing"; printf "" > out
    }
}
END {
    if (out != "") fault("a block is not closed")
    if (waiting) fault("the last paper or sheet has no listing")
}' "$root/docs/PAPERS.md" || exit 2

passed=0
failed=$(wc -l < "$work/faults")
cat "$work/faults"
while read -r n line argument; do
    [ -f "$work/$n.listing" ] || continue
    timeout 60 "$@" ${argument:+"$argument"} < "$work/$n.paper" > "$work/got" 2> "$work/said"
    if cmp -s "$work/$n.listing" "$work/got"; then
        passed=$((passed + 1))
    else
        failed=$((failed + 1))
        echo "docs/PAPERS.md:$line: the listing differs"
        diff "$work/$n.listing" "$work/got" | sed -n '1,20p'
        sed -n '1,5p' "$work/said"
    fi
    if [ -f "$work/$n.tail" ]; then
        timeout 60 "$@" --tail < "$work/$n.paper" > "$work/got" 2> "$work/said"
        if cmp -s "$work/$n.tail" "$work/got"; then
            passed=$((passed + 1))
        else
            failed=$((failed + 1))
            echo "docs/PAPERS.md:$line: the tail differs"
            diff "$work/$n.tail" "$work/got" | sed -n '1,20p'
            sed -n '1,5p' "$work/said"
        fi
    fi
    # In the short course a paper of the full one has the same listing, or is over its limits.
    [ -z "$argument" ] || continue
    timeout 60 "$@" --short < "$work/$n.paper" > "$work/got" 2> "$work/said"
    if cmp -s "$work/$n.listing" "$work/got" || grep -qxE 'refused (1|203|204) 25' "$work/got"; then
        passed=$((passed + 1))
    else
        failed=$((failed + 1))
        echo "docs/PAPERS.md:$line: the listing in the short course differs"
    fi
done < "$work/pairs"
for number in {1..6} {9..31}; do
    if ! grep -qx "$number" "$work/covered"; then
        failed=$((failed + 1))
        echo "docs/PAPERS.md: no paper or sheet under heading $number is answered with $number"
    fi
done
echo "$passed passed, $failed failed"
[ "$failed" -eq 0 ] && [ "$passed" -gt 0 ]
