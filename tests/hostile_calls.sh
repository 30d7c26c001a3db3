#!/usr/bin/env bash
# Hostile calls on the part, for half a minute, or N lists of them; one list's calls, printed:
#
#     tests/hostile_calls.sh [--long N]
#     target/hostile/calls --list K [--seed S]
#
# The archive is target/libpod1.a, which ./part builds where it is older than the crates;
# POD1_ARCHIVE=FILE links another one, as it is.
set -eu
repository=$(cd "$(dirname "$0")/.." && pwd)
case $#,${1-} in
    0,) words=(--seconds 30) ;;
    2,--long) words=(--lists "$2") ;;
    *)
        echo 'usage: tests/hostile_calls.sh [--long N]' >&2
        exit 2
        ;;
esac
if ! rustc --version >/dev/null 2>&1; then
    echo 'calls: there is no rustc here, so the hostile calls are left out'
    exit 0
fi
if [ -z "${POD1_ARCHIVE-}" ]; then "$repository/part"; fi
archive=$(realpath "${POD1_ARCHIVE:-$repository/target/libpod1.a}")
cd "$repository"
mkdir -p target/hostile
ln -sf "$archive" target/hostile/libpod1.a # by the name that examples/pod1.rs links
rustc -O --edition 2021 -L target/hostile -o target/hostile/calls tests/hostile/calls/main.rs
exec target/hostile/calls "${words[@]}"
