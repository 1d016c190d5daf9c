#!/usr/bin/env bash
# What the programs and the script `mark` do with input that cannot be read, comes in pieces or is too long, and with output that cannot be
# written. The last line is 'N passed, M failed'.
set -u
cd "$(dirname "$0")/.." || exit 2
passed=0
failed=0
# Runs the command; its exit status, standard output and standard error on one line each are the second word on.
expect() {
    local what=$1 wanted=$2 out err status
    shift 2
    err=$(mktemp)
    out=$("$@" 2> "$err")
    status=$?
    out="$status|$out|$(cat "$err")"
    rm -f "$err"
    if [ "$out" = "$wanted" ]; then
        passed=$((passed + 1))
    else
        failed=$((failed + 1))
        printf '%s: wanted %q, got %q\n' "$what" "$wanted" "$out"
    fi
}

paper=$'H 1 1 0\nG -\nZ 12\n'
folder() { "$1" < /; }
closed() { "$1" <&-; }
pieces() { { printf '%s' "${paper:0:9}"; sleep 0.2; printf '%s' "${paper:9}"; } | "$1"; }
long() { head -c "$2" /dev/zero | "$1"; }
full() { printf '%s' "$paper" | "$1" > /dev/full; }
for program in crates/mark/out/mark crates/mark_short/out/mark_short; do
    expect "$program, a folder" '0||the paper cannot be read' folder "$program"
    expect "$program, no input" '0||the paper cannot be read' closed "$program"
    expect "$program, in pieces" $'0|accepted 0\nmain 0 0|' pieces "$program"
    expect "$program, 65,536 bytes" '0|refused 0 2|' long "$program" 65536
    expect "$program, 65,537 bytes" '0|refused 0 1|' long "$program" 65537
    expect "$program, a full disk" '0||the listing cannot be written' full "$program"
done
# a paper with a tail
paper=$'H 1 1 1\nG -\nK 0 0\nZ 18\n'
program=crates/tail/out/tail
expect "$program, a folder" '0||the paper cannot be read' folder $program
expect "$program, no input" '0||the paper cannot be read' closed $program
expect "$program, in pieces" '0|N 0 0|' pieces $program
expect "$program, 65,536 bytes" '0|refused 0 2|' long $program 65536
expect "$program, 65,537 bytes" '0|refused 0 1|' long $program 65537
expect "$program, a full disk" '0||the tail cannot be written' full $program
# two papers of a sheet
paper=$'H 1 1 0\nG -\nZ 12\nH\nZ 2\n'
program=crates/sheet/out/sheet
expect "$program, a folder" '0||the paper cannot be read' folder $program
expect "$program, no input" '0||the paper cannot be read' closed $program
expect "$program, in pieces" $'0|papers 2\naccepted 1\nrefused 3 1\nshare 1/2|' pieces $program
expect "$program, 65,536 bytes" '0|refused 0 31|' long $program 65536
expect "$program, 65,537 bytes" '0|refused 0 1|' long $program 65537
expect "$program, a full disk" '0||the sheet cannot be written' full $program
expect 'a folder' "2||mark: 'examples' is not a file that can be read" ./mark examples
expect 'no such file' "2||mark: 'nosuch' is not a file that can be read" ./mark nosuch
refused='0|refused 6 16|'
expect 'a paper' "$refused" ./mark examples/refused.txt
expect 'the short course' "$refused" ./mark --short examples/refused.txt
expect 'the course behind the file' "$refused" ./mark examples/refused.txt --short
tail_of() { printf '%s' "$1" | ./mark --tail; }
expect 'a tail' $'0|S 0 0 5\nW 0 0 5\nN 0 0|' ./mark --tail crates/tail/stdin
expect 'the tail of a finished paper' '0||' tail_of $'H 1 1 0\nG -\nZ 12\n'
expect 'the tail of a refused paper' "$refused" ./mark --tail examples/refused.txt
expect 'the tail of a paper with a V line' '0|refused 0 24|' tail_of $'H 1 1 0\nG -\nV 0\nZ 16\n'
expect 'the tail of a paper that waits' '0|refused 0 24|' ./mark --tail examples/waiting.txt
expect 'no tail in the short course' "2||$(./mark --help)" ./mark --short --tail
expect 'a sheet' "0|$(cat crates/sheet/stdout)|" ./mark --sheet crates/sheet/stdin
expect 'an empty sheet' $'0|papers 0\naccepted 0\nshare 0/1|' ./mark --sheet /dev/null
expect 'a sheet of one refused paper' $'0|papers 1\naccepted 0\nrefused 16 1\nshare 0/1|' ./mark --sheet examples/refused.txt
expect 'no sheet in the short course' "2||$(./mark --help)" ./mark --sheet --short
expect 'no tail of a sheet' "2||$(./mark --help)" ./mark --tail --sheet
echo "$passed passed, $failed failed"
[ "$failed" -eq 0 ]
