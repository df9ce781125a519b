# To be sourced. `part COMMAND..` runs a part of a gate, shows what it prints, and adds what its last line counts to `passed` and `failed`. No part passes
# by silence: one that ends in no such line is a failure, and so is one that passed nothing, or that ends with another status than 0 although it
# counts no failure. `beside COMMAND..` starts a part that those after it need nothing of, so that it has what they leave of the processors; `joined` waits
# for it, and then shows and counts it. `ran COUNT NAME` says the same of tests that somebody else counts.
passed=0
failed=0
log=$(mktemp)
trap 'rm -f "$log" "$log.beside"' EXIT

part() {
    local status start=$SECONDS
    echo "== $*"
    "$@" 2>&1 | tee "$log"
    status=${PIPESTATUS[0]}
    echo "== $1 took $((SECONDS - start)) s"
    counted "$1" "$log" "$status"
}

beside() {
    echo "== $*, beside what follows"
    aside=("$@")
    aside_start=$SECONDS
    "$@" >"$log.beside" 2>&1 &
    aside_job=$!
}

joined() {
    local status=0
    wait "$aside_job" || status=$?
    echo "== ${aside[*]}, beside what stands above"
    cat "$log.beside"
    echo "== ${aside[0]} was joined after $((SECONDS - aside_start)) s"
    counted "${aside[0]}" "$log.beside" "$status"
}

# counted NAME LOG STATUS: what the last line of a part's log counts.
counted() {
    if ! [[ $(tail -n 1 "$2") =~ ^([0-9]+)\ passed,\ ([0-9]+)\ failed$ ]]; then
        echo "FAILED: $1 ends in no count"
        failed=$((failed + 1))
        return
    fi
    passed=$((passed + BASH_REMATCH[1]))
    failed=$((failed + BASH_REMATCH[2]))
    if [ "${BASH_REMATCH[2]}" -eq 0 ]; then
        ran "${BASH_REMATCH[1]}" "$1"
        if [ "$3" -ne 0 ]; then
            echo "FAILED: $1 counts no failure and ends with status $3"
            failed=$((failed + 1))
        fi
    fi
}

ran() {
    if [ "$1" -eq 0 ]; then
        echo "FAILED: $2 passed nothing"
        failed=$((failed + 1))
    fi
}
