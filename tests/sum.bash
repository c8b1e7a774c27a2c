# Sourced by the scripts tests/NAME/ci: runs commands, shows what they write, and adds up what they passed and failed.

passed=0 failed=0
log=$(mktemp)
trap 'rm -f "$log"' EXIT

# A tool that a script cannot do without.
need() {
    command -v "$1" >/dev/null || { echo "error: $1 is not on PATH"; echo "0 passed, 1 failed"; exit 1; }
}

# A command that writes 'N passed' and 'M failed', as cargo test does for each of its programs.
part() {
    local status=0 p f
    "$@" 2>&1 | tee "$log" || status=$?
    p=$(grep -oE '[0-9]+ passed' "$log" | awk '{ n += $1 } END { print n + 0 }') || true
    f=$(grep -oE '[0-9]+ failed' "$log" | awk '{ n += $1 } END { print n + 0 }') || true
    if [ "$status" -ne 0 ] && [ "$f" -eq 0 ]; then
        echo "error: $* ended with status $status"
        f=1
    fi
    passed=$((passed + p))
    failed=$((failed + f))
}

# A command that is one test: it passes with exit status 0.
one() {
    if "$@"; then passed=$((passed + 1)); else failed=$((failed + 1)); echo "error: $* failed"; fi
}

total() {
    echo "$passed passed, $failed failed"
    [ "$failed" -eq 0 ] && [ "$passed" -gt 0 ]
}
