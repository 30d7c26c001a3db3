#!/usr/bin/env bash
# Hostile season texts against the built report program, for about a minute, or N of them; or their
# own account against season texts with known answers, in FOLDER or in ../shared/vectors beside the
# repository:
#
#     tests/hostile.sh [--long N]
#     tests/hostile.sh --vectors [FOLDER]
set -eu
repository=$(cd "$(dirname "$0")/.." && pwd)
case $#,${1-} in
    0,) words=(--seconds 60) ;;
    2,--long) words=(--cases "$2") ;;
    1,--vectors | 2,--vectors)
        folder=${2:-$repository/../shared/vectors}
        words=(--vectors "$(realpath "$folder")")
        ;;
    *)
        echo 'usage: tests/hostile.sh [--long N | --vectors [FOLDER]]' >&2
        exit 2
        ;;
esac
if ! rustc --version >/dev/null 2>&1; then
    echo 'hostile: there is no rustc here, so the hostile cases are left out'
    exit 0
fi
cd "$repository"
program=target/hostile/hostile
if [ ! -x "$program" ] || [ -n "$(find tests/hostile -newer "$program" -print -quit)" ]; then
    mkdir -p target/hostile
    rustc -O --edition 2021 -o "$program" tests/hostile/main.rs
fi
exec "$program" "${words[@]}"
