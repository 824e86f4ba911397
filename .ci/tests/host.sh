#!/usr/bin/env bash
# The host's side: the archives, the C headers, the host in C, and the Rust package with its tests and
# its examples. Each part counts as one, and each test of Cargo too.
# The last line is `N passed, M failed`, and the exit status is 0 exactly where M is 0.
set -u
CDPATH='' cd -- "$(dirname -- "${BASH_SOURCE[0]}")/../.." || exit 2
test=host
# shellcheck source=.ci/parts.bash
. .ci/parts.bash
build=$PWD/target/host/c
mkdir -p "$build" || exit 2

# The archive named first exports exactly the names that follow.
exports() {
    local archive
    archive=$(archive_of "$1")
    shift
    diff <(nm -g --defined-only "$archive" | sed -n 's/.* T //p' | LC_ALL=C sort) <(printf '%s\n' "$@")
}
# The report counts the functions whose contracts are assumed, where there are any.
assumes_nothing() {
    local report
    report=$(archive_of "$1").log
    grep '^logic=proved' "$report" && ! grep 'axioms=' "$report"
}
build_archives
for name in "${archives[@]}"; do
    part "the proof of lib$name.a assumes no function's contract" assumes_nothing "$name"
done
part "libdecoder.a exports its seven functions" exports decoder virtio_video_{check_log,command,drained,finish,fresh,pending_in_all,pending_of_stream}
part "libsound.a exports its one function" exports sound virtio_snd_control

warnings=(-Wall -Wextra -Wpedantic -Werror)
headers=(include/virtio_video_decoder.h include/virtio_sound_output.h)
for header in "${headers[@]}"; do
    for standard in c99 c11; do
        part "$header as $standard" gcc -std=$standard "${warnings[@]}" -fsyntax-only -x c "$header"
    done
    part "$header as c++17" g++ -std=c++17 "${warnings[@]}" -fsyntax-only -x c++ "$header"
done
part "both headers in one file as c++17" g++ -std=c++17 "${warnings[@]}" -fsyntax-only -include "${headers[0]}" -x c++ "${headers[1]}"
part "the fuzz entry compiles" gcc -std=gnu99 "${warnings[@]}" -fsyntax-only -Iinclude -DSTANDALONE host/fuzz/fuzz.c
part "the host in C, one program over both archives, with sanitizers" make -C host/c CC=gcc LIB_DIR="$VIRTIO_VIDEO_LIB_DIR" BUILD="$build" check

# Every test of the package, the examples in its documentation too.
# shellcheck disable=SC2119
cargo_tests
part "the example in Rust" cargo run "${package[@]}" --quiet --example exchange
# A log in words ends with the checker's verdict.
explained() { cargo run "${package[@]}" --quiet --example explain -- "examples/$1.checked" | grep -Fx "The checker says: $(cat "examples/$1.verdict")"; }
part "a right log in words" explained exchange
part "a wrong log in words" explained rival

summed_up
