#!/usr/bin/env bash
# The part from C and from Rust: the archive needs memcpy and memset alone; names and numbers agree
# wherever they stand; every call answers as docs/SPECIFICATION.md says; the stations of examples/
# print the report's line, also where they are ended by SIGKILL and started again, and each takes up
# what the other stored; in C all of it under the sanitizers and under valgrind too. What needs gcc,
# g++, nm, rustc or valgrind is left out where that is missing, and said so. Accounts are stored in
# memory where there is /dev/shm, since a station syncs each line.
set -eu
cd "$(dirname "$0")/.."
season=examples/beech.txt
strict=(-pedantic -Wall -Wextra -Werror -Iinclude)
room=$(mktemp -d)
states=$(mktemp -d -p /dev/shm 2>/dev/null || mktemp -d)
trap 'rm -rf "$room" "$states"' EXIT

has() { "$1" --version >/dev/null 2>&1; }
left_out() { echo "part: $1 is missing, so left out: $2"; }
fail() {
    echo "part: $*"
    exit 1
}

# a program's exit status is the one given; what it prints goes to $room/out, what it complains of
# to $room/err
ends() {
    local status=0
    "${@:2}" >"$room/out" 2>"$room/err" || status=$?
    [ $status = "$1" ] ||
        fail "$2 ended with status $status, not with $1: $(cat "$room/out" "$room/err")"
}

look_into_archive() {
    local needed
    needed=$(nm -u target/libpod1.a | awk '$1 == "U" { print $2 }' | sort -u | tr '\n' ' ')
    [ "$needed" = 'memcpy memset ' ] || fail "the archive needs $needed"
    nm --defined-only -g target/libpod1.a | python3 tests/part_names.py
}

# the header in a language, by a compiler, in a standard of it: a program that links
include_header() {
    echo '#include "pod1.h"
int main(void)
{
    uint8_t account[POD1_ACCOUNT];
    return (int)pod1_fresh(account, sizeof account);
}' >"$room/header.$1"
    "$2" "-std=$3" "${strict[@]}" -o "$room/header" "$room/header.$1" target/libpod1.a
    "$room/header"
}

compile() { gcc -std=c11 -g "${strict[@]}" -o "$room/$1" "$2" "${@:3}" target/libpod1.a; }

# a station's text on standard input is refused at a line by a row
refuses() {
    ends 1 "$1" "$2"
    grep -q "line $3 is refused by row $4, field 0" "$room/err" || fail "$1 says $(cat "$room/err")"
}

# what examples/station.c and examples/station.rs both do
try_station() {
    local state=$states/state
    rm -f "$state"
    ends 0 "$1" "$state" <"$season"
    cmp "$room/out" "$room/line"
    ends 0 "$1" "$state" <"$season" # and has had every line
    cmp "$room/out" "$room/line"
    { cat "$season"; echo 0104; } | refuses "$1" "$state" $(($(wc -l <"$season") + 1)) 1
    rm "$state"
    {
        head -n 1 "$season"
        sed -n '2s/^\(.\{8\}\).\{4\}/\1FFFF/p' "$season"
    } | refuses "$1" "$state" 2 18
    { head -n 1 "$season"; printf '%0200d' 0; } | refuses "$1" "$state" 2 1 # longer than any line
    { head -n 1 "$season"; printf '0300\0\0'; } | refuses "$1" "$state" 2 2
    rm "$state"
    # carriage returns, and no line feed at the end
    sed 's/$/\r/' "$season" | head -c -1 | ends 0 "$1" "$state"
    cmp "$room/out" "$room/line"
    printf '0104' >"$state"
    ends 2 "$1" "$state" </dev/null
    [ "$(cat "$state")" = 0104 ] || fail "$1 has overwritten a file that is no account"
    ends 2 "$1" "$states/no/state" <"$season"
    ends 2 "$1" </dev/null
    rm "$state"
}

# half a season by the first station, all of it by the second one: the file is that of one station
# alone
take_up() {
    rm -f "$states/both" "$states/alone"
    head -n 2000 "$season" | ends 0 "$1" "$states/both"
    ends 0 "$2" "$states/both" <"$season"
    cmp "$room/out" "$room/line"
    ends 0 "$2" "$states/alone" <"$season"
    cmp "$states/both" "$states/alone"
}

# a program and its words, after valgrind
under_valgrind() {
    valgrind -q --leak-check=full --show-leak-kinds=all --errors-for-leak-kinds=all \
        --error-exitcode=9 "$@"
}

check_memory() {
    local sanitized=(-O1 -fsanitize=address,undefined -fno-sanitize-recover=all)
    echo 'int main(void) { return 0; }' >"$room/try.c"
    if gcc "${sanitized[@]}" -o "$room/try" "$room/try.c" 2>/dev/null && "$room/try"; then
        compile calls_sanitized tests/part_calls.c "${sanitized[@]}"
        compile station_sanitized examples/station.c "${sanitized[@]}"
        ends 0 "$room/calls_sanitized"
        try_station "$room/station_sanitized"
    else
        left_out 'the library of -fsanitize' 'the sanitizers'
    fi
    if has valgrind; then
        ends 0 under_valgrind "$room/calls"
        ends 0 under_valgrind "$room/station" "$states/ground" <"$season"
        cmp "$room/out" "$room/line"
    else
        left_out valgrind 'the same under valgrind'
    fi
}

cuts() {
    mkdir "$states/cuts"
    python3 tests/part_cuts.py "$states/cuts" "$season" "$@"
    rm -r "$states/cuts"
}

./part
./pod1 "$season" >"$room/report"
head -n 1 "$room/report" >"$room/line"
if has nm; then look_into_archive; else left_out nm 'what the archive needs'; fi
if has g++; then include_header cc g++ c++17; else left_out g++ 'the header as C++17'; fi
if has gcc; then
    include_header c gcc c11
    compile calls tests/part_calls.c -O2
    compile station examples/station.c -O2
    "$room/calls"
    try_station "$room/station"
    check_memory
    cuts 100 "$room/station"
else
    left_out gcc 'the calls and the station in C'
fi
if has rustc && has cc; then
    rustc --edition 2021 -D warnings -L target -o "$room/calls_in_rust" tests/part_calls.rs
    rustc --edition 2021 -D warnings -O -L target -o "$room/station_in_rust" examples/station.rs
    "$room/calls_in_rust"
    try_station "$room/station_in_rust"
    cuts 10 "$room/station_in_rust"
else
    left_out 'rustc or its linker cc' 'the wrapper and the station in Rust'
fi
if has gcc && has rustc && has cc; then
    take_up "$room/station" "$room/station_in_rust"
    take_up "$room/station_in_rust" "$room/station"
    cuts 10 "$room/station" "$room/station_in_rust"
fi
echo 'part: ok'
