#!/usr/bin/env bash
# Every program and every C entry on a stack of 512 KB, or of another size: each must answer, and as marker A does.
#   tests/stack.sh [KB]
# The papers and sheets are long in each part that is read. Prints how much stack each needs. The last line is 'N passed, M failed'.
set -u
export LC_ALL=C
cd "$(dirname "$0")/.." || exit 2
KB=${1:-512}
work=$(mktemp -d) || exit 2
trap 'rm -rf "$work"' EXIT
passed=0
failed=0
A=tests/marker_a/target/release/marker_a
stack=target/c_program/stack

mkdir -p target/c_program
tests/library &&
    cc -std=c11 -O1 -Wall -Wextra -Werror -Iinclude -o $stack tests/c_program/stack.c target/staticlib/libc_api.a -pthread &&
    cargo build --release --offline --quiet --manifest-path tests/marker_a/Cargo.toml ||
    { echo "tests/stack.sh: the static library, $stack or marker A is not built"; exit 2; }
built() { echo "crates/$1/out/$1"; }
# a program that is not built fails below
for program in mark mark_short tail sheet; do
    [ -x "$(built $program)" ] || (cd crates/$program && rt run < /dev/null) > target/mark.log 2>&1 || cat target/mark.log
done

# ---- the papers

# so many times this byte
times() { printf '%*s' "$1" '' | tr ' ' "$2"; }
# the lines on standard input, with their trailer
closed() { cat > "$work/body" && cat "$work/body" && printf 'Z %d\n' "$(wc -c < "$work/body")"; }
paper() { cat > "$work/$1.paper"; }
many=65000
digits() { times $many 9; }

printf '' | paper empty
{ times 65535 ' '; echo; } | paper spaces
{ times 65535 ' '; } | paper spaces-without-end
{ printf H; times $many ' '; } | paper head-without-end
{ printf H; times $many ' '; printf '\nG -\n'; } | closed | paper head-of-spaces
{ printf 'H 2 2 2\nG'; times $many ' '; echo; } | closed | paper guards-of-spaces
{ printf 'H 2 2 2\nG -\nV'; times $many ' '; echo; } | closed | paper volatiles-of-spaces
{ printf 'H 2 2 2\nG -\n'; times $many ' '; echo; } | closed | paper event-of-spaces
{ printf 'H 2 2 2\nG -\nA'; times $many ' '; echo; } | closed | paper event-of-a-letter-and-spaces
{ printf 'H 2 2 2\nG -\nZ'; times $many ' '; echo; } | paper trailer-of-spaces
{ printf 'H '; digits; printf ' 1 1\nG -\n'; } | closed | paper digits-in-the-head
{ printf 'H 1 1 1\nG '; digits; echo; } | closed | paper digits-in-a-guard
{ printf 'H 1 1 1\nG -\nV 0 '; digits; echo; } | closed | paper digits-in-a-volatile
{ printf 'H 1 1 1\nG -\nA '; digits; printf ' 0 0\n'; } | closed | paper digits-in-a-thread
{ printf 'H 1 1 1\nG -\nA 0 '; digits; printf ' 0\n'; } | closed | paper digits-in-a-variable
{ printf 'H 1 1 1\nG -\nK 0 '; digits; echo; } | closed | paper digits-in-a-lock
{ printf 'H 1 1 1\nG -\nF 0 0 '; digits; echo; } | closed | paper digits-in-a-notified-thread
{ printf 'H 1 1 1\nG -\nA 0 0 -'; digits; echo; } | closed | paper digits-in-a-value
{ printf 'H 1 1 1\nG -\nA 0 0 '; times $many 0; echo; } | closed | paper zeros-in-a-value
{ printf 'H 1 1 1\nG -\nZ '; digits; echo; } | paper digits-in-the-trailer
{ printf 'H 1 1 1\nG -\nZ '; times $many 0; echo; } | paper zeros-in-the-trailer
{ times 65536 '\n'; } | paper lines
{ printf 'H 1 1 1\nG -\n'; times $many '\n'; } | closed | paper empty-event-lines
{ times 65537 ' '; } | paper 65537-bytes
{ printf 'H 1 1 1\nG -\nA '; times 65512 9; printf ' 0 0\n'; } | closed | paper 65537-bytes-closed
awk 'BEGIN { print "H 8 16 8\nG -"; for (i = 0; i < 2000; i++) print "A", i % 8, i % 16, "-92233720368547" (75808 - i) }' |
    closed | paper 2000-events
awk 'BEGIN { print "H 8 16 8\nG -"; for (i = 0; i < 2001; i++) print "K", 0, i % 8 }' | closed | paper 2001-events
awk 'BEGIN { print "H 1 1 1\nG 0\nK 0 0\nR 0 0 0\nL 0 0 0"; for (i = 0; i < 1996; i++) print "U 0 0 0"; print "U 0 0 1" }' |
    closed | paper last-event-refused
# 808 sections and 128 copies of the longest values
awk 'BEGIN {
    printf "H 8 16 8\nG"; for (v = 0; v < 16; v++) printf " 0"; print ""
    for (i = 0; i < 800; i++) print "K 0 0\nN 0 0"
    for (t = 0; t < 8; t++) {
        print "K", t, 0
        for (v = 0; v < 16; v++) { x = "-92233720368547" (75808 - 16 * t - v); print "A", t, v, x; print "S", t, v, x; print "W", t, v, x }
        print "N", t, 0
    }
}' | closed | paper long-listing
# 2,000 events on volatile variables, all of them volatile
awk 'BEGIN {
    printf "H 8 16 8\nG -\nV"; for (v = 0; v < 16; v++) printf " " v; print ""
    for (i = 0; i < 2000; i++) print substr("RLUASW", i % 6 + 1, 1), int(i / 6) % 8, int(i / 48) % 16, 0
}' | closed | paper volatile-events
# both threads wait for each other in turn, a section for every three events; all but one of eight threads wait at the end
awk 'BEGIN {
    print "H 2 1 1\nG 0\nK 0 0\nY 0 0\nK 1 0"
    for (i = 0; i < 332; i++) print "F 1 0 0\nY 1 0\nC 0 0\nF 0 0 1\nY 0 0\nC 1 0"
    print "F 1 0 0\nN 1 0\nC 0 0\nN 0 0"
}' | closed | paper waiting-events
awk 'BEGIN { print "H 8 1 8\nG 0"; for (t = 0; t < 7; t++) { for (i = 0; i < 283; i++) print "K", t, t; print "Y", t, t } }' |
    closed | paper waiting-at-the-end
# an order that is denied at the trailer
awk 'BEGIN { print "H 8 1 8\nG 0"; for (i = 0; i < 2000; i++) print "K", i % 8, i % 8 }' | closed | paper locks-held-at-the-end

# the longest tail: 128 copies assigned again, of the longest values, and 1,872 holds
awk 'BEGIN {
    print "H 8 16 8\nG -"; for (t = 0; t < 8; t++) for (v = 0; v < 16; v++) print "A", t, v, "-92233720368547" (75808 - 16 * t - v)
    for (i = 0; i < 1872; i++) print "K", i % 8, i % 8
}' | closed | paper longest-tail

# within the limits of the short course: 200 events and 201, 88 sections and 8 copies of the longest values, an order that is denied
awk 'BEGIN { print "H 2 4 2\nG -"; for (i = 0; i < 200; i++) print "A", i % 2, i % 4, "-92233720368547" (75808 - i) }' |
    closed | paper short-200-events
awk 'BEGIN { print "H 2 4 2\nG -"; for (i = 0; i < 201; i++) print "K", 0, i % 2 }' | closed | paper short-201-events
awk 'BEGIN { print "H 2 4 2\nG -\nV 0 1 2 3"; for (i = 0; i < 201; i++) print substr("RLU", i % 3 + 1, 1), int(i / 3) % 2, int(i / 6) % 4, 0 }' |
    closed | paper short-volatile-events
awk 'BEGIN {
    print "H 2 4 2\nG 0 0 0 0\nK 0 0\nY 0 0\nK 1 0"
    for (i = 0; i < 32; i++) print "F 1 0 0\nY 1 0\nC 0 0\nF 0 0 1\nY 0 0\nC 1 0"
    print "F 1 0 0\nN 1 0\nC 0 0\nN 0 0"
}' | closed | paper short-waiting-events
awk 'BEGIN {
    print "H 2 4 2\nG 0 0 0 0"; for (i = 0; i < 86; i++) print "K 0 0\nN 0 0"
    for (t = 0; t < 2; t++) {
        print "K", t, 0
        for (v = 0; v < 4; v++) { x = "-92233720368547" (75808 - 4 * t - v); print "A", t, v, x; print "S", t, v, x; print "W", t, v, x }
        print "N", t, 0
    }
}' | closed | paper short-long-listing
awk 'BEGIN { print "H 2 4 2\nG 0 0 0 0"; for (i = 0; i < 200; i++) print "K", i % 2, i % 2 }' | closed | paper short-locks-held-at-the-end

# ---- the sheets, which are no papers

sheet() { cat > "$work/$1.sheet"; }
# repeated N TEXT: the text N times
repeated() { local i; for ((i = 0; i < $1; i++)); do printf '%s' "$2"; done; }
headless=$'H\nZ 2\n'
accepted=$'H 1 1 0\nG -\nZ 12\n'
repeated 10922 "$headless" | sheet most-papers
repeated 3855 "$accepted" | sheet most-accepted
{ repeated 2729 "$accepted"; repeated 2735 "$headless"; } | sheet accepted-and-refused
{ printf '%s' "$headless"; times 65500 ' '; } | sheet spaces-behind
{ printf '%s' "$headless"; times 65500 ' '; echo; } | sheet line-of-spaces-behind
{ times 65500 ' '; printf '%s' "$headless"; } | sheet spaces-before
{ repeated 10922 "$headless"; printf 'Z 2\n'; } | sheet 65536-bytes
{ repeated 10922 "$headless"; printf 'Z  2\n'; } | sheet 65537-bytes
# papers with events, accepted and refused
{ repeated 1000 $'H 2 2 2\nG -\nP 0 0 5\nW 0 0 5\nB 0 0 5\nZ 36\n'; repeated 980 $'H 2 1 1\nG 0\nU 0 0 0\nZ 20\n'; } | sheet papers-with-events

# ---- who answers what

# check NAME PAPER WANTED: the command's answer stands in $work/got, its status in $status
check() {
    if [ "$status" -eq 0 ] && cmp -s "$3" "$work/got"; then
        passed=$((passed + 1))
        return 0
    fi
    failed=$((failed + 1))
    echo "$1, $2: status $status"
    [ "$status" -eq 0 ] && diff "$3" "$work/got" | sed -n '1,5p'
    return 1
}

# entry NAME PAPER WANTED: an entry of the C interface
entry() {
    { (ulimit -c 0; exec $stack "$1" "$KB" < "$2" > "$work/got" 2> "$work/need"); status=$?; } 2> /dev/null
    check "dabzhoni_$1" "$(basename "$2" .paper)" "$3"
    grep '^dabzhoni_' "$work/need" >> "$work/needs"
}

# on KB PROGRAM: a program on a stack of so many KB
on() { (ulimit -c 0; ulimit -s "$1" && exec "$2"); }

touch "$work/needs"
# papers NAME [FLAG]: a program and its entries on every paper, against marker A with this flag
papers() {
    for p in "$work"/*.paper; do
        $A ${2:+"$2"} < "$p" > "$work/a"
        sed '/^section /d;/^unordered /d' "$work/a" > "$work/a-unordered"
        on "$KB" "$(built "$1")" < "$p" > "$work/got" 2> /dev/null
        status=$?
        check "$1" "$(basename "$p" .paper)" "$work/a"
        entry "$1" "$p" "$work/a"
        entry "${1}_unordered" "$p" "$work/a-unordered"
    done
}
papers mark
papers mark_short --short
# Every paper's tail: as many lines as marker A counts, and the same by the entry; in the short course where the paper is not over its limits.
for p in "$work"/*.paper; do
    on "$KB" "$(built tail)" < "$p" > "$work/tail" 2> /dev/null
    status=$?
    if grep -q '^refused' "$work/tail"; then cat "$work/tail"; else echo "tail $(wc -l < "$work/tail")"; fi > "$work/got"
    $A --tail < "$p" > "$work/a"
    check tail "$(basename "$p" .paper)" "$work/a"
    entry finish "$p" "$work/tail"
    $A --short < "$p" | grep -E '^refused [0-9]+ 25$' > "$work/a" || cp "$work/tail" "$work/a"
    entry finish_short "$p" "$work/a"
done
# every paper as a sheet, and every sheet
for p in "$work"/*.paper "$work"/*.sheet; do
    $A --sheet < "$p" > "$work/a"
    on "$KB" "$(built sheet)" < "$p" > "$work/got" 2> /dev/null
    status=$?
    check sheet "$(basename "$p" .paper)" "$work/a"
    entry sheet "$p" "$work/a"
    $A --sheet --short < "$p" > "$work/a"
    entry sheet_short "$p" "$work/a"
done
for name in 2000-events 2001-events last-event-refused long-listing volatile-events waiting-events waiting-at-the-end \
    locks-held-at-the-end; do
    $A < "$work/$name.paper" | head -n 1 > "$work/a"
    entry step "$work/$name.paper" "$work/a"
done
for name in short-200-events short-201-events short-volatile-events short-waiting-events short-long-listing \
    short-locks-held-at-the-end; do
    $A --short < "$work/$name.paper" | head -n 1 > "$work/a"
    entry step_short "$work/$name.paper" "$work/a"
done
for letter in {1..14}; do echo 8 0; done > "$work/a"
entry out_of_range /dev/null "$work/a"
entry out_of_range_short /dev/null "$work/a"
# its_input PROGRAM: what a program that has an output to be held to reads
its_input() { if [ -f "crates/$1/stdin" ]; then echo "crates/$1/stdin"; else echo /dev/null; fi; }
# every program that has one; one that is not built fails
for stdout in crates/*/stdout; do
    program=$(basename "$(dirname "$stdout")")
    on "$KB" "$(built "$program")" < "$(its_input "$program")" > "$work/got" 2> /dev/null
    status=$?
    check "$program" "its own input" "$stdout"
done

# ---- what each needs

echo "bytes of stack touched at most:"
sort "$work/needs" | awk '!($1 in most) || $2 > most[$1] { most[$1] = $2 } END { for (e in most) print "    " e ": " most[e] }' | sort
# least PROGRAM PAPER WANTED: the least stack on which a program answers a paper
least() {
    local low=16 high=$((2 * KB)) middle
    while [ $((high - low)) -gt 4 ]; do
        middle=$(((low + high) / 2))
        if on "$middle" "$(built "$1")" < "$2" 2> /dev/null | cmp -s - "$3"; then high=$middle; else low=$middle; fi
    done
    echo $high
}
# whole PROGRAM PAPER WANTED
whole() { [ ! -x "$(built "$1")" ] || echo "    $1, the whole program: $(least "$1" "$2" "$3") KB (ulimit -s)"; }
$A < "$work/long-listing.paper" > "$work/a"
$A --short < "$work/short-long-listing.paper" > "$work/a-short"
whole mark "$work/long-listing.paper" "$work/a"
whole mark_short "$work/short-long-listing.paper" "$work/a-short"
"$(built tail)" < "$work/longest-tail.paper" > "$work/tail"
whole tail "$work/longest-tail.paper" "$work/tail"
$A --sheet < "$work/papers-with-events.sheet" > "$work/a"
whole sheet "$work/papers-with-events.sheet" "$work/a"
for program in forms papers; do
    whole $program "$(its_input $program)" crates/$program/stdout
done
echo "$passed passed, $failed failed"
[ "$failed" -eq 0 ] && [ "$passed" -gt 0 ]
