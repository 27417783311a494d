#!/usr/bin/env bash
# Tries edits again: each is put into a copy of its crate, and the prover must refuse it there.
#
#   edits/try.sh                 every edit of this folder
#   edits/try.sh CRATE           those of one crate
#   edits/try.sh CRATE LABEL..   these
#
# An edit is a file CRATE/LABEL.edit: a comment that says what is wrong, a line `# refused by NAME` with the function or
# law that refuses it, and groups of `file:`, `old:`, `new:`, as in a crate's must-fail/. The old text stands exactly
# once in its file. If it does not, a line `in:` before it has a text that does, and the first old text behind that one
# is changed. A line `crate: NAME` has the edit tried in another crate, which stands on this one: its own is still proved.
#
# A crate that is not proved as it stands fails, and none of its edits is tried. Prove the crates before (`rt check` in
# each, or `rt all check`), else this takes as long as their first check. Edits are tried with `rt check` in a copy of the
# repository, one after the other; the repository itself is not touched. For each a line is printed: `refused`; `refused
# elsewhere`, where no error of the prover is one of what the file names; `accepted`; or `no such text`. Only the first
# is a pass. The last line is `N passed, M failed`. The prover's words stay in target/edits/CRATE/LABEL.log.
set -u
here=$(cd "$(dirname "$0")" && pwd)
root=$(dirname "$here")
copy=$(mktemp -d)
trap 'rm -rf "$copy"' EXIT
passed=0
failed=0

# change FILE OLD NEW IN: puts NEW for OLD, which must stand there exactly once; if IN is not empty, for the first OLD
# behind IN, which must.
change() {
    OLD=$2 NEW=$3 IN=$4 awk '
        function once(what) {
            at = index(text, what)
            return at > 0 && index(substr(text, at + length(what)), what) == 0
        }
        { text = text $0 "\n" }
        END {
            old = ENVIRON["OLD"]
            if (!once(ENVIRON["IN"] == "" ? old : ENVIRON["IN"])) exit 1
            from = at
            at = index(substr(text, from), old)
            if (at == 0) exit 1
            at += from - 1
            printf "%s%s%s", substr(text, 1, at - 1), ENVIRON["NEW"], substr(text, at + length(old))
        }' "$1" > "$copy/changed" && cp "$copy/changed" "$1"
}

# apply CRATE EDIT: makes each of its changes.
apply() {
    local file="" old="" inside="" line
    while IFS= read -r line || [ -n "$line" ]; do
        case $line in
            "file: "*) file=$copy/crates/$1/${line#file: } ;;
            "in: "*) inside=${line#in: } ;;
            "old: "*) old=${line#old: } ;;
            "new:"*)
                line=${line#new:}
                change "$file" "$old" "${line# }" "$inside" || return 1
                inside=""
                ;;
        esac
    done < "$2"
}

# try CRATE EDIT
try() {
    local crate=$1 edit=$2 label name tried by idle said status=0
    label=$(basename "$edit" .edit)
    name=$(sed -n 's/^# refused by //p' "$edit" | head -n 1)
    tried=$(sed -n 's/^crate: //p' "$edit" | head -n 1)
    # an error names a law; or an answer, in the folder of a function's proof (of functions that call one another `+F_G`,
    # where the answer's name begins with the function's); a function with a goal that has no answer has a line of its own.
    # An error that names nothing (a text that cannot be read), only follows from another (`was not admitted`), or only
    # says that a name is gone, counts for nothing.
    by="^[^ ]*/$name/[^/ ]*: error: \`|^[^ ]*/\+[^/ ]*/[^/ ]*: error: \`$name-|: error: \`$name\`:"
    by="$by|^fn [^ ]*::$name: no proof: .* did not prove "
    idle='was (not admitted|rejected)|that can be named from here|has no field|is not in scope'
    rm -rf "${copy:?}/crates/$crate"
    cp -a "$root/crates/$crate" "$copy/crates/$crate"
    local log=$root/target/edits/$crate/$label.log
    if apply "$crate" "$edit"; then
        mkdir -p "$(dirname "$log")"
        (cd "$copy/crates/${tried:-$crate}" && rt check) > "$log" 2>&1 < /dev/null || status=$?
        if [ "$status" -eq 0 ]; then said=accepted
        elif [ "$status" -ne 1 ]; then said="status $status"
        elif [ -n "$name" ] && grep -E "$by" "$log" | grep -qvE "$idle"; then said=refused
        else said="refused elsewhere"
        fi
    else
        said="no such text"
    fi
    if [ "$said" = refused ]; then passed=$((passed + 1)); else failed=$((failed + 1)); fi
    echo "$crate/$label: $said, by $name"
}

cp -a "$root/crates.txt" "$root/crates" "$copy/" || exit 2
crates=("${1:-}")
[ $# -gt 0 ] || mapfile -t crates < <(cd "$here" && ls -d */ | tr -d /)
for crate in "${crates[@]}"; do
    if ! (cd "$copy/crates/$crate" && rt check) > "$copy/said" 2>&1 < /dev/null; then
        echo "$crate is not proved as it stands, so none of its edits was tried"
        failed=$((failed + 1))
        continue
    fi
    if [ $# -gt 1 ]; then
        for label in "${@:2}"; do try "$crate" "$here/$crate/$label.edit"; done
    else
        for edit in "$here/$crate"/*.edit; do try "$crate" "$edit"; done
    fi
    rm -rf "${copy:?}/crates/$crate"
    cp -a "$root/crates/$crate" "$copy/crates/$crate"
done
echo "$passed passed, $failed failed"
[ "$failed" -eq 0 ]
