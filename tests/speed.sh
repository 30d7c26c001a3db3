#!/usr/bin/env bash
# How long a leap year's lines take in one process:
#
#     tests/speed.sh list [VECTORS]      fed to six accounts together, against the same six fed one
#                                        after the other (tests/list_speed.c); exit status 1 where
#                                        it does not take less
#     tests/speed.sh season [VECTORS]    in a report of the text, and fed to an account in bytes,
#                                        against C with doubles (tests/season_speed.c)
#
# VECTORS is the folder of season texts, else ../shared/vectors beside the repository. Needs gcc
# beside the kit.
set -eu
if ! [[ ${1-} =~ ^(list|season)$ && $# -le 2 ]]; then
    echo 'usage: tests/speed.sh list|season [VECTORS]' >&2
    exit 2
fi
repository=$(cd "$(dirname "$0")/.." && pwd)
vectors=$(cd "${2:-$repository/../shared/vectors}" && pwd)
room=$(mktemp -d)
trap 'rm -rf "$room"' EXIT
"$repository/part" >"$room/log"
gcc -O2 -Wall -Wextra -std=gnu11 -o "$room/speed" "$repository/tests/$1_speed.c" \
    "$repository/target/libpod1.a" -lm
"$room/speed" "$vectors/leap-year-6-evergreen.txt"
