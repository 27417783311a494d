#!/usr/bin/env bash
# All tests: every proof, the layout of the sources, every must-fail edit, every program, the C programs, the Rust crate,
# the tests from outside. Each part's time is printed. The last line is `N passed, M failed`; docs/TESTING.md says what is
# counted.
set -u
cd "$(dirname "$0")" || exit 2
log=$(mktemp)
trap 'rm -f "$log"' EXIT
passed=0
failed=0

# run NAME COUNT COMMAND..: runs a part. The last line `N passed, M failed` that it prints is added to the count. Where it
# prints none, it is one test, or, where COUNT is `counted`, a failure.
run() {
    local name=$1 count=$2 start=$SECONDS status line good bad
    shift 2
    echo "== $name"
    "$@" 2>&1 | tee "$log"
    status=${PIPESTATUS[0]}
    line=$(grep -E '^[0-9]+ passed, [0-9]+ failed$' "$log" | tail -n 1)
    good=0
    bad=0
    if [ -n "$line" ]; then
        good=${line%% *}
        bad=${line#*, }
        bad=${bad%% *}
    elif [ "$count" = counted ]; then
        echo "== $name: no count was printed"
    elif [ "$status" -eq 0 ]; then
        good=1
    fi
    if [ "$bad" -eq 0 ] && { [ "$status" -ne 0 ] || [ "$good" -eq 0 ]; }; then bad=1; fi
    passed=$((passed + good))
    failed=$((failed + bad))
    echo "== $name: $((SECONDS - start)) s, exit status $status, $good passed, $bad failed"
}

# part NAME COMMAND..: one test, or as many as it counts.
part() {
    run "$1" perhaps "${@:2}"
}

# counted NAME COMMAND..: as many tests as it counts; to count none is a failure.
counted() {
    run "$1" counted "${@:2}"
}

# gate: rt's own gate. It passes over a must-fail edit that no longer fits its text, and only counts it: here that fails.
gate() {
    local said status
    said=$(mktemp)
    rt ci 2>&1 | tee "$said"
    status=${PIPESTATUS[0]}
    if [ "$status" -eq 0 ] && ! grep '^rt: ok' "$said" | tail -n 1 | grep -qvE ', [0-9]+ bad'; then
        echo "check.sh: a must-fail edit is bad, or rt ci did not say how many are"
        status=1
    fi
    rm -f "$said"
    return "$status"
}

counted "proofs, layout, must-fail edits, programs" gate
part "program and static libraries" tools/build.sh
counted "C programs" bash tests/c/run.sh
counted "Rust crate" bash bindings/rust/run.sh
part "benchmarks compile" cargo build --release --offline --quiet --manifest-path bench/Cargo.toml
counted "tests from outside" cargo run --release --offline --quiet --manifest-path tests/Cargo.toml

echo "== whole: $SECONDS s"
echo "$passed passed, $failed failed"
[ "$failed" -eq 0 ]
