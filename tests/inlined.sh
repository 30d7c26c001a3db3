#!/usr/bin/env bash
# The functions that the compiler left in the part, and in the program those that the report calls,
# each beside its caller, are those of the stored lists, tests/inlined: the speed hangs on what is
# inlined, and a change that loses it is seen here. Says what is new (+) and what is gone (-); exit
# status 1 where there is any.
#
#     tests/inlined.sh [--store]      --store writes the lists anew
#
# Builds the part and the program where they are missing or old. Left out where nm or objdump is
# missing, and said so.
set -eu -o pipefail
export LC_ALL=C # one order for sort and comm
cd "$(dirname "$0")/.."
if ! [[ $* =~ ^(--store)?$ ]]; then
    echo 'usage: tests/inlined.sh [--store]' >&2
    exit 2
fi
for tool in nm objdump; do
    if ! $tool --version >/dev/null 2>&1; then
        echo "inlined: $tool is missing, so left out: what is left in the part and the program"
        exit 0
    fi
done
room=$(mktemp -d)
trap 'rm -rf "$room"' EXIT

no_symbols() {
    echo "inlined: $1 is missing, or has no symbols"
    exit 1
}

# an archive's functions into $room/NAME, but for those by which the C library starts and ends a
# program
list() {
    nm "$2" | sed -n 's/^[0-9a-f]* [tT] //p' |
        grep -vxE '_.*|(de)?register_tm_clones|frame_dummy' | sort >"$room/$1" || no_symbols "$2"
}

# the calls that a program can come to from `main` on, but for those to what matches the pattern and
# to the C library, into $room/NAME: CALLER > CALLED, without the marks of type arguments
list_calls() {
    objdump -d --no-show-raw-insn "$2" | awk -v other="$3" '
        /^[0-9a-f]+ <.*>:$/ {
            from = $1
            sub(/^0+/, "", from)
            name = substr($0, index($0, "<") + 1)
            sub(/(::<#[0-9a-f]*>)?>:$/, "", name)
            names[from] = name
            if (name == "main") left[count = 1] = from
            next
        }
        { for (i = 2; i < NF; i++) if ($(i + 1) ~ /^</) called[from] = called[from] " " $i }
        END {
            while (count) {
                from = left[count--]
                if (from in done) continue
                done[from] = 1
                n = split(called[from], places, " ")
                for (i = 1; i <= n; i++) {
                    name = names[places[i]]
                    if (name == "" || name ~ /@plt/ || name ~ other || places[i] == from) continue
                    print names[from] " > " name
                    left[++count] = places[i]
                }
            }
        }' | sort -u >"$room/$1"
    [ -s "$room/$1" ] || no_symbols "$2"
}

# whether they are the stored ones; else which are not
is_stored() {
    cmp -s "tests/inlined/$1" "$room/$1" && return
    echo "inlined: what is left in $2 is not that of tests/inlined/$1"
    comm -3 "tests/inlined/$1" "$room/$1" | sed 's/^\t/+ /; t; s/^/- /'
    return 1
}

./part >"$room/log"
python3 command/build.py pod1 >"$room/log"
list libpod1.txt target/libpod1.a
list_calls pod1.txt target/bin/pod1 '::print_answer$'
if [ $# = 1 ]; then cp "$room/libpod1.txt" "$room/pod1.txt" tests/inlined; fi
status=0
is_stored libpod1.txt target/libpod1.a || status=1
is_stored pod1.txt target/bin/pod1 || status=1
if [ $status = 1 ]; then
    echo 'inlined: a function that the line of an hour goes through must not be new; measure with
./bench, then store the new lists with tests/inlined.sh --store'
    exit 1
fi
lines() { wc -l <"$room/$1"; }
echo "inlined: ok, $(lines libpod1.txt) functions in the part, $(lines pod1.txt) calls in pod1"
