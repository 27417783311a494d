#!/usr/bin/env bash
# Runs the examples of the crate's documentation, then examples/convert.rs on table K, and compares what it prints. Each
# is counted; the last line is `N passed, M failed`.
set -u
cd "$(dirname "$0")" || exit 2
table=../../crates/oboepond/data/table.ucm
out=$(mktemp -d)
trap 'rm -rf "$out"' EXIT

cargo test --release --offline --quiet > "$out/tests" 2>&1
status=$?
cat "$out/tests"
read -r passed failed < <(awk '/^test result:/ { good += $4; bad += $6 } END { print good + 0, bad + 0 }' "$out/tests")
if [ "$status" -ne 0 ] && [ "$failed" -eq 0 ]; then failed=1; fi
cargo build --release --offline --quiet --example convert || failed=$((failed + 1))

# same TEXT SAID STATUS: as printed and said
same() {
    diff <(printf '%s' "$1") "$out/text" && diff <(printf '%s' "${2:+$2$'\n'}") "$out/said" \
        && [ "$3" -eq "$([ -z "$2" ] && echo 0 || echo 1)" ]
}

# converts TABLE TEXT SAID: standard input gives the text, and what is said of a stop or of a table that is refused.
converts() {
    local status=0
    cargo run --release --offline --quiet --example convert -- "$1" > "$out/text" 2> "$out/said" || status=$?
    if same "$2" "$3" "$status"; then
        passed=$((passed + 1))
    else
        failed=$((failed + 1))
        echo "FAILED: the example, which should say '$3'"
    fi
}

converts $table '−3' '' < <(printf '\x81\x7c3')
converts $table '' '' < /dev/null
converts $table '3−−' '' < <(printf '3\x81'; sleep 0.1; printf '\x7c\x81\x7c')
converts $table '3−' "at byte 3: The input ends inside a character. Get the rest, and call again from the bytes read on. \
In pieces, start the text afresh." < <(printf '3\x81\x7c\x81')
converts $table '3−' "at byte 3, length 1: An illegal sequence stands behind the bytes read. Go on behind it, by its \
length (in pieces, with a fresh start), or set skip." < <(printf '3\x81\x7c\x81'; sleep 0.1; printf '\x2d3')
head -n 14 $table > "$out/cut.ucm"
converts "$out/cut.ucm" '' "$out/cut.ucm, line 15: The text ends without END CHARMAP. Get the whole file." < <(printf '3')
# longer than a piece, cut inside characters
text=$(printf '−3%.0s' {1..100000})
converts $table "$text" '' < <(printf '\x81\x7c3%.0s' {1..100000})

echo "$passed passed, $failed failed"
[ "$failed" -eq 0 ]
