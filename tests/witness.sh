# The independent program: its own tests, counted one by one, and that its cases reach every answer there is.
# Run by .ci/run in a shell of its own, or called alone.
type holds >/dev/null 2>&1 || . "$(dirname "${BASH_SOURCE[0]}")/alone"

own_tests() { # LOG: runs them and adds each to the count
    CARGO_TARGET_DIR=target/witness cargo test --release --offline --locked --manifest-path witness/Cargo.toml >"$1" 2>&1
    own_ended=$?
    # Each file of tests ends with a line 'test result: ok. 7 passed; 0 failed; ..'.
    own_passed=$(sed -n 's/^test result:.* \([0-9]*\) passed;.*/\1/p' "$1" | awk '{ sum += $1 } END { print sum + 0 }')
    own_failed=$(sed -n 's/^test result:.* \([0-9]*\) failed;.*/\1/p' "$1" | awk '{ sum += $1 } END { print sum + 0 }')
    passed=$((passed + own_passed))
    failed=$((failed + own_failed))
    echo "the independent program's own tests: $own_passed passed, $own_failed failed"
    [ "$own_ended" -eq 0 ] && [ "$own_passed" -gt 0 ] && return
    tail -n 40 "$1"
    # Where cargo broke off, no test has said that it failed.
    [ "$own_failed" -gt 0 ] || fail "the independent program's own tests are built and run"
}

own_log=$(mktemp)
own_tests "$own_log"
rm -f "$own_log"

reaches_all() { # SEED COUNT
    tools/witness cases "$1" "$2" | tools/witness count | grep -qx 'missing: none'
}
holds "20,000 cases reach every number that the documents allow, for each kind and the audit" reaches_all 1 20000
