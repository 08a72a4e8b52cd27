# The tally of tests that are shell scripts. It prints each failure, and at the end the result, as tests/tally.py does.
passed=0 failed=0

pass() { passed=$((passed + 1)); }

fail() {
    failed=$((failed + 1))
    echo "$*"
}

# Prints the result. Its exit status is that of the part.
finish() {
    echo "$passed passed, $failed failed"
    [ $failed -eq 0 ]
}
