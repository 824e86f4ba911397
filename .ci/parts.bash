# What the host tests share: counting, the archives, and Cargo's tests. To be sourced from the root of the repository, with the
# test's name in $test.
passed=0 failed=0
log=$(mktemp) || exit 2
trap 'rm -f "$log"' EXIT
pass() { passed=$((passed + 1)); }
fail() { failed=$((failed + 1)); echo "${test:?}: FAILED: $*"; }

# Runs a command and counts it; shows what it writes only where it fails.
part() {
    local name=$1
    shift
    if "$@" </dev/null >"$log" 2>&1; then
        pass
        echo "$test: ok: $name"
    else
        fail "$name"
        tail -n 60 "$log"
    fi
}

# The archives of this repository, whatever the caller's environment says.
export VIRTIO_VIDEO_LIB_DIR=$PWD/target/staticlib
export CARGO_TARGET_DIR=$PWD/target/host/cargo
mkdir -p "$VIRTIO_VIDEO_LIB_DIR" || exit 2
archive_of() { echo "$VIRTIO_VIDEO_LIB_DIR/lib$1.a"; }

# There, and not older than any source of the core.
current() { [ -f "$1" ] && [ -z "$(find crates crates.txt -name out -prune -o -newer "$1" -type f -print -quit)" ]; }
archived() { current "$(archive_of "$1")" || tools/build.sh "$1"; }
# Both of them, since the Rust package links both.
archives=(decoder sound)
build_archives() {
    local name
    for name in "${archives[@]}"; do part "lib$name.a is built" archived "$name"; done
}

# Runs tests of the Rust package, each of which counts; what is handed on are Cargo's arguments.
package=(--offline --locked --manifest-path host/rust/Cargo.toml)
cargo_tests() {
    local status suites n m
    part "the tests build" cargo test "${package[@]}" "$@" --no-run
    command -v cargo >/dev/null || return
    cargo test "${package[@]}" "$@" --no-fail-fast </dev/null 2>&1 | tee "$log"
    status=${PIPESTATUS[0]}
    read -r suites n m < <(sed -n 's/^test result: .* \([0-9]*\) passed; \([0-9]*\) failed;.*/\1 \2/p' "$log" |
        awk '{ s++; n += $1; m += $2 } END { print s + 0, n + 0, m + 0 }')
    passed=$((passed + n)) failed=$((failed + m))
    ((suites > 0 && n + m > 0)) || fail "cargo test ran nothing"
    (((status == 0) == (m == 0))) || fail "cargo test: exit status $status with $m failed"
}

# The last line, and the exit status.
summed_up() {
    echo "$passed passed, $failed failed"
    [ "$failed" -eq 0 ]
}
