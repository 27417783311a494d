#!/usr/bin/env bash
# Proves and builds what is run, and puts it where the programs, the tests and the pages look for it:
#
#   tools/build.sh              all of it
#   tools/build.sh program      target/bin/oboepond
#   tools/build.sh cabi         target/staticlib/libcabi.a
#   tools/build.sh lookups      target/staticlib/liblookups.a
#
# Whatever stands below and is not proved yet is proved first. The functions for C are exported by the crate `cabi_c`;
# their archive has the name that callers know, libcabi.a.
set -eu
cd "$(dirname "$0")/.."

# library CRATE ARCHIVE
library() {
    (cd "crates/$1" && rt lib)
    mkdir -p target/staticlib
    cp "crates/$1/out/lib$1.a" "target/staticlib/$2"
}

build() {
    case $1 in
        program)
            # rt builds a program by running it: here in a folder without a table
            (cd crates/oboepond && rt run < /dev/null)
            mkdir -p target/bin
            cp crates/oboepond/out/oboepond target/bin/oboepond
            ;;
        cabi) library cabi_c libcabi.a ;;
        lookups) library lookups liblookups.a ;;
        *)
            echo "tools/build.sh: no '$1' to build: program, cabi or lookups" >&2
            exit 2
            ;;
    esac
}

[ $# -gt 0 ] || set -- program cabi lookups
for what in "$@"; do build "$what"; done
