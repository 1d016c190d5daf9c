# run COMMAND ..: runs a command that ends with 'N passed, M failed' and adds its counts to `passed` and `failed`.
# A command that fails without counting a failure, or that counts nothing, is one failure more. A part that failed is named.
passed=0
failed=0
parts=()
run() { run_as "$*" "$@"; }

# run_as NAME COMMAND ..: the same with a name for the part
run_as() {
    local name=$1 before=$failed log status line p f
    shift
    log=$(mktemp)
    "$@" 2>&1 | tee "$log"
    status=${PIPESTATUS[0]}
    line=$(grep -E '^[0-9]+ passed, [0-9]+ failed$' "$log" | tail -n 1)
    rm -f "$log"
    p=${line%% *}
    f=${line#*, }
    f=${f%% *}
    passed=$((passed + ${p:-0}))
    failed=$((failed + ${f:-0}))
    if [ "${p:-0}" -eq 0 ] || { [ "$status" -ne 0 ] && [ "${f:-0}" -eq 0 ]; }; then
        failed=$((failed + 1))
    fi
    [ "$failed" -eq "$before" ] || name_failed "$name"
}

# not_run PART ..: a part that could not be run is one failure.
not_run() {
    failed=$((failed + 1))
    name_failed "$*"
}

name_failed() {
    parts+=("$1")
    echo "FAILED: $1"
}

# The parts that failed, the closing line, and the exit status.
close() {
    [ ${#parts[@]} -eq 0 ] || printf 'FAILED: %s\n' "${parts[@]}"
    echo "$passed passed, $failed failed"
    [ "$failed" -eq 0 ]
}
