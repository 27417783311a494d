#!/usr/bin/env bash
# Compiles the C programs against the static library, runs them and compares what they print. The library's folder is
# that of OBOEPOND_LIB, a relative one taken from bindings/rust, as for cargo; else target/staticlib. Each comparison is
# counted; the last line is `N passed, M failed`.
set -u
cd "$(dirname "$0")" || exit 2
library=$(cd ../../bindings/rust && cd "${OBOEPOND_LIB:-../../target/staticlib}" && pwd)/libcabi.a || exit 2
out=$(mktemp -d)
trap 'rm -rf "$out"' EXIT
passed=0
failed=0

# counted WHAT COMMAND..: one test
counted() {
    local what=$1
    shift
    if "$@"; then
        passed=$((passed + 1))
    else
        failed=$((failed + 1))
        echo "FAILED: $what"
    fi
}

for program in example bursts recipes; do
    counted "$program compiles" \
        cc -std=c99 -Wall -Wextra -Wpedantic -Werror -I ../../include "$program.c" "$library" -o "$out/$program"
done
if command -v c++ > /dev/null; then
    counted "the headers compile as C++" \
        c++ -std=c++11 -Wall -Wextra -Werror -fsyntax-only -I ../../include -include oboepond_table.h -x c++ /dev/null
else
    echo "no C++ compiler: the headers were not compiled as C++"
fi

# ## example: what it prints

"$out/example" > "$out/printed"
counted "example" diff - "$out/printed" << 'END'
E2 88 92 33 number 0, read 3
00 00 FE FF 00 00 22 12 00 00 00 33 number 0, read 3
81 7C 33 number 0, read 12
number 52, read 0, length 1
2D 33 number 0, read 2
EF BF BD 2D 33 number 0, read 3
END

# ## recipes: what they print, and the file that they convert

# bytes HEX: these bytes
bytes() {
    printf '%b' "$(sed 's/../\\x&/g' <<< "$1")"
}

bytes 817C33817C3381 > "$out/in"
"$out/recipes" ../../crates/oboepond/data/table.ucm "$out" > "$out/printed"
counted "recipes" diff - "$out/printed" << 'END'
version 0.6.0
bytes 6d9bb06c9f0c2a7c
file: 51 at 6: The input ends inside a character. Get the rest, and call again from the bytes read on. In pieces, start the text afresh.
−3−3−3−3 number 0, read 12
byte 2: 1 illegal
byte 8: The input ends inside a character. Get the rest, and call again from the bytes read on. In pieces, start the text afresh.
E2 88 92 2D 33 EF BF BD 33
3F 2
817D 3
8180 1
audit: 0
kept: 1, back: 1, damaged: 0, The table's memory is not what loading left. Load the table's text again.
81 7C 33 number 0, read 12
nothing: 0 0 0, 0 0 0, 0, 27
END
counted "the converted file" diff <(printf '−3−3') "$out/out"
printf 'CHARMAP\n' > "$out/bad.ucm"
"$out/recipes" "$out/bad.ucm" "$out" 2> "$out/said"
counted "a refused table" diff - "$out/said" << END
$out/bad.ucm, line 1: Above this CHARMAP line a required key or the state rows are absent. Add them.
END

# Every recipe stands in docs/API.md as it is here.
page=$(< ../../docs/API.md)
# shown NAME: whether the page has the function, four columns in
shown() {
    local text
    text=$(sed -n "/^static .*\b$1(/,/^}/{s/^./    &/;p}" recipes.c)
    [ -n "$text" ] && [[ $page == *"$text"* ]]
}
for recipe in load_file convert_file convert_in_steps convert_and_report list_findings keep_table fetch_table from_utf32
do
    counted "$recipe stands in docs/API.md" shown "$recipe"
done

# ## bursts: bytes as they come

# burst HEX..: each as a burst of its own
burst() {
    for hex in "$@"; do
        bytes "$hex"
        sleep 0.02
    done
}

# same TEXT STOP STATUS: as printed and said
same() {
    diff <(printf '%s' "$1") "$out/printed" && diff <(printf '%s' "${2:+$2$'\n'}") "$out/said" \
        && [ "$3" -eq "$([ -z "$2" ] && echo 0 || echo 1)" ]
}

# bursts TEXT STOP HEX..: the text, and what is said of a stop, for these bursts
bursts() {
    local text=$1 stop=$2 status=0
    shift 2
    burst "$@" | "$out/bursts" > "$out/printed" 2> "$out/said" || status=$?
    counted "bursts $*" same "$text" "$stop" "$status"
}

bursts '−3' '' 81 7C33
bursts '−3' '' 81 7C 33
bursts '−−−−−3−0-−' '' 817C81 7C817C817C817C 3381 7C30 2D 81 7C
bursts '' ''
bursts '3−' 'number 51 at byte 3' 3381 7C81
bursts '3−' 'number 52 at byte 3' 33 81 7C81 2D33
bursts '333333333' 'number 53 at byte 9' 333333333333 33 3333 81 80 33

echo "$passed passed, $failed failed"
[ "$failed" -eq 0 ]
