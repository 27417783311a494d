#!/usr/bin/env bash
# The sizes of the definitions in the order of docs/READING.md: lines without blank lines and imports. `--write` puts them into that page.
# Files of specs/ that the page does not name, and names without a file, are printed last; then the script fails.
cd "$(dirname "$0")/.."
page=docs/READING.md
count() { grep -v '^[[:space:]]*$' "$1" | grep -vc '^use '; }
bad=0
sum=0
while read -r f; do
    if [ -f "$f" ]; then
        n=$(count "$f")
        sum=$((sum + n))
        printf '%5d  %s\n' "$n" "$f"
        if [ "$1" = --write ]; then
            sed -i "s#^\(| \`$f\` |.*| \)[0-9,]* |\$#\1$n |#" "$page"
        fi
    else
        echo "no such file: $f"
        bad=1
    fi
done < <(sed -n 's/^| `\([^`]*\)` |.*/\1/p' "$page")
printf '%5d  in all\n' "$sum"
for f in $(find crates/*/specs -name '*.antt' | sort); do
    case $f in */Lib.antt | */specs/loops.antt) continue ;; esac
    grep -q "^| \`$f\` |" "$page" || { echo "not in $page: $f"; bad=1; }
done
exit $bad
