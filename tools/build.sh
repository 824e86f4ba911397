#!/usr/bin/env bash
# Builds what a host links and what a shell runs: tools/build.sh NAME.., from anywhere. Each crate NAME is proved, with what it stands on. The archive
# of a static library is then target/staticlib/libNAME.a, with what the prover said beside it, in libNAME.a.log; a program is target/bin/NAME.
set -eu
CDPATH='' cd -- "$(dirname -- "${BASH_SOURCE[0]}")/.."
mkdir -p target/staticlib target/bin

for name in "$@"; do
    if grep -q "^$name staticlib:" crates.txt; then
        archive=target/staticlib/lib$name.a
        rm -f "$archive"
        (cd "crates/$name" && rt lib) >"$archive.log" 2>&1 || {
            tail -n 20 "$archive.log" >&2
            exit 1
        }
        cp "crates/$name/out/lib$name.a" "$archive"
        echo "$archive"
    else
        program=target/bin/$name
        rm -f "$program"
        # The toolchain builds a program where it runs it; here on no input.
        (cd "crates/$name" && rt run) </dev/null >"$program.log" 2>&1 || {
            tail -n 20 "$program.log" >&2
            exit 1
        }
        cp "crates/$name/out/$name" "$program"
        echo "$program"
    fi
done
