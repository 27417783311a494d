#!/usr/bin/env bash
# Lines of code, definitions and proofs of each crate (blank lines left out).
cd "$(dirname "$0")/.." || exit 2
count() { find "$1" -name "$2" -exec cat {} + 2>/dev/null | grep -c -v '^[[:space:]]*$'; }
printf '%-16s %6s %6s %6s %6s\n' crate code specs laws proofs
for crate in crates/*/; do
    laws=$(find "$crate"proofs -maxdepth 1 -name '*.antt' -exec cat {} + 2>/dev/null | grep -c -v '^[[:space:]]*$')
    all=$(count "$crate"proofs '*.antt')
    printf '%-16s %6s %6s %6s %6s\n' "$(basename "$crate")" "$(count "$crate"src '*.rt')" "$(count "$crate"specs '*.antt')" "$laws" "$((all - laws))"
done
