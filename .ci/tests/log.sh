#!/usr/bin/env bash
# The two programs on logs: each example log is answered as its .out says, and each .checked log has the verdict
# that its .verdict says, from a file and through a pipe; and the programs agree with the independent ones on random
# logs, whole and in pieces (host/rust/tests/log.rs, host/rust/tests/checker.rs).
# Each part counts as one, and each test of Cargo too.
# The last line is `N passed, M failed`, and the exit status is 0 exactly where M is 0.
set -u
CDPATH='' cd -- "$(dirname -- "${BASH_SOURCE[0]}")/../.." || exit 2
test=log
# shellcheck source=.ci/parts.bash
. .ci/parts.bash
written=$(mktemp) && errors=$(mktemp) || exit 2
trap 'rm -f "$log" "$written" "$errors"' EXIT

# The programs of this repository, and the tests' own numbers of lines, logs and seeds.
export VIDEO_LOG=$PWD/target/bin/video_log LOG_CHECK=$PWD/target/bin/log_check
unset LOG_LINES LOGS SEED
built() { tools/build.sh video_log log_check && [ -x "$VIDEO_LOG" ] && [ -x "$LOG_CHECK" ]; }
build_archives
part "the programs are built" built

# Status 0, the expected bytes, and nothing in standard error.
as_expected() { cmp "$written" "$1" && { [ ! -s "$errors" ] || { cat "$errors" && false; }; }; }
# The program, a log, and what is to be written of it.
from_file() { "$1" <"examples/$2" >"$written" 2>"$errors" && as_expected "examples/$3"; }
from_pipe() {
    "$1" < <(cat "examples/$2") 2>"$errors" | cat >"$written"
    [ "${PIPESTATUS[*]}" = "0 0" ] && as_expected "examples/$3"
}
# The same for each example: the program, the ending of the logs, and that of what is to be written.
each_example() {
    local examples example name
    examples=(examples/*."$2")
    ((${#examples[@]} > 0)) || fail "there are no examples/*.$2"
    for example in "${examples[@]}"; do
        name=$(basename "$example" ".$2")
        part "$name.$2 from a file" from_file "$1" "$name.$2" "$name.$3"
        part "$name.$2 through a pipe" from_pipe "$1" "$name.$2" "$name.$3"
    done
}
nothing() { "$VIDEO_LOG" >"$written" 2>"$errors" && as_expected /dev/null; }
empty_accepted() { "$LOG_CHECK" >"$written" 2>"$errors" && as_expected <(echo accepted); }
shopt -s nullglob
each_example "$VIDEO_LOG" log out
each_example "$LOG_CHECK" checked verdict
part "an empty log" nothing
part "an empty log is accepted" empty_accepted

# Named by themselves, since Cargo runs these tests only then.
cargo_tests --test log --test checker

summed_up
