#!/usr/bin/env bash
# Each language form that a place of the code must have stands there (docs/DECISIONS.md, "Forms that
# have a place", names them): a search for the form in the file, which fails when the form goes. So
# that no search passes by itself, each is tried on a copy of the file without the form too.
#
#     tests/forms.sh
set -eu -o pipefail
cd "$(dirname "$0")/../crates"
room=$(mktemp -d)
trap 'rm -rf "$room"' EXIT
missing=0
forms=0

# found FILE PATTERN: the pattern, over any number of lines, stands in the file
found() {
    grep -Pzq "(?s)$2" "$1"
}

# form WHAT FILE PATTERN WITHOUT: the form is in the file, and not in the file as sed leaves it by
# WITHOUT, a script over the whole text that takes the form out
form() {
    forms=$((forms + 1))
    if [ ! -e "$2" ] || ! found "$2" "$3"; then
        echo "forms: $1: not in crates/$2"
        missing=$((missing + 1))
        return
    fi
    sed -z -E "$4" "$2" >"$room/without"
    if cmp -s "$2" "$room/without"; then
        echo "forms: $1: what takes it out of crates/$2 changes nothing; mend tests/forms.sh"
        missing=$((missing + 1))
    elif found "$room/without" "$3"; then
        echo "forms: $1: found in crates/$2 where it is taken out; mend tests/forms.sh"
        missing=$((missing + 1))
    fi
}

# so too each form of a list: these four in a line each, and an empty line between two forms
forms_of() {
    local what file pattern without
    while read -r what; do
        read -r file
        read -r pattern
        read -r without
        form "$what" "$file" "$pattern" "$without"
        read -r || true # none behind the last
    done
}

forms_of <<'END'
the evergreen dip is a match on the day with ranges
trees/src/phen.rt
match day \{\s*0\.\.=80 => .*81\.\.=209 => .*210\.\.=260 => .*261\.\.=319 => .*320\.\. =>[ ]
s/match day \{/if day < 81 {/

a tree is a match on its number
trees/src/lib.rt
match tree \{\s*1 => Some\(.*\s6 => Some\(.*_ => None
s/match tree \{/if tree == 1 {/

a line loop over a digit loop, which begins at the first character
walk/src/loops.rt
'lines: loop \{((?!\n    \}).)*let mut end = at;\s*(//[^\n]*\s*)*'digits: loop \{
s/let mut end = at;/let mut end = past_hour(text, at);/

a bad digit leaves the line loop by its label
walk/src/loops.rt
'digits: loop \{((?!\n        \}).)*is_digit\(((?!\n        \}).)*break 'lines Err\(
s/break 'lines Err\(refused/return Err(refused/

a refused line leaves the line loop by break with its refusal
walk/src/loops.rt
'digits: loop \{.*\n        \}\n((?!\n    \}).)*Err\((\w+)\) => break 'lines Err\(\2\)
s/=> break 'lines Err\(/=> return Err(/

the power inequality is computed over the whole table
power/src/lookups.rt
fn entries\(\) -> &.static \[u32\]\s*ensures[^\n]*IsTable
s/ensures[^\n]*IsTable/ensures { length/

the line of the first hour has the second text's lifetime
compare/src/lib.rt
pub fn first_difference<'a>\(\s*first: &\[u8\],\s*second: &'a \[u8\],[^)]*\) -> &'a \[u8\]
s/second: &'a \[u8\]/second: \&[u8]/

soil is an enum of the two measures with their number
frames/src/records.rt
pub enum Soil \{[^}]*Suction\(u16\),[^}]*Water\(u16\),[^}]*\}
s/Water\(u16\)/Water/

and a field of the hour record
frames/src/records.rt
pub struct Hour \{[^}]*pub soil: Soil,
s/pub soil: Soil,/pub soil: u16,/

an hour of floats is a struct of seven f32 readings
floats/src/lib.rt
pub struct FloatReadings \{([^}]*pub \w+: f32,){7}
s/f32/u16/

taken by value, each turned to a whole number
floats/src/lib.rt
pub fn feed_floats\([^)]*readings: FloatReadings\)
s/readings: FloatReadings/readings: \&FloatReadings/

several trees are a lent slice of account structs
stand/src/lib.rt
pub fn feed_all\(accounts: &mut \[Account\], line: &\[u8\]\)
s/accounts: &mut \[Account\]/accounts: [Account; 6]/

one thin walk over them calls the by-value step
stand/src/lib.rt
for place in accounts\.iter_mut\(\) \{\s*\*place = \w+\([^)]*\*place[^)]*\);\s*\}
s/for place in accounts/for place in others/
END

for table in BOREAL_SPRUCE:592 BIRCH:545 CONTINENTAL_SPRUCE:303 BEECH:247 OAK:332 EVERGREEN:377; do
    name=${table%:*}
    form "the table of f_temp of $name is a constant array" power/src/values.rt \
        "const $name: \[u32; ${table#*:}\] = \[\s*[0-9]" \
        "s/const $name: \[/static $name: [/"
done
for tree in BorealSpruce Birch ContinentalSpruce Beech Oak Evergreen; do
    form "the figures of $tree are constants of its type" trees/src/lib.rt \
        "impl Tree for $tree \{((?!\nimpl).)*$(printf 'const %s: u16 = [^;]+;((?!\\nimpl).)*' \
            GMAX F_MIN LIGHT_A T_MIN T_OPT T_MAX)const F1: u16 = [^;]+;\s*const F4: u16 = " \
        "s/impl Tree for $tree \{/impl $tree {/"
done
taken='let Ok\(\w+\) = \w+ else \{((?!\n\}).)*return Err\(\([^\n]*account\)\);'
for call in feed_frame feed; do
    form "account::$call takes the line apart by let .. else, the same account handed back" \
        account/src/lib.rt \
        "pub fn $call\(account: Account,((?!\n\}).)*$taken" \
        's/let Ok\((\w+)\) = (\w+) else/match \2/g'
done
rows='row_of Length = \(1, 0\)\n.*row_of \(Range f\) = \(10, f\)\n.*row_of \(Float f\) = \(26, f\)'
form 'a refusal has a definition with number and field of each case' frames/specs/Answers.antt \
    "row_of : Refusal → ℕ × ℕ\n$rows" \
    's/row_of \(Float f\) = /row_of _ = /'

if [ $missing != 0 ]; then
    echo "forms: $missing of $forms forms are not in their place"
    exit 1
fi
echo "forms: $forms forms are in their places, and each is missed where it is taken out"
