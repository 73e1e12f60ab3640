# shellcheck shell=bash
# The README's programs in C, each whole as it stands there: it compiles, and does what it says. A program begins with a comment
# whose first word is its name. Sourced by run.
frames=${work:?}/frames
mkdir -p "$frames"

take_program() { # NAME
    local said what="$1 of README.md"
    awk -v name="$1" '/^```c$/ { inside = first = 1; next } /^```$/ { inside = 0 }
        first { wanted = $2 == name; first = 0 } inside && wanted' README.md >"$work/$1.c"
    # shellcheck disable=SC2086
    if ! grep -q '^int main(' "$work/$1.c"; then
        bad "$what: there is no such program"
    elif ! said=$(cc -std=c99 ${strict:?} -Iinclude "$work/$1.c" "$NATIVE/libgazenohyri.a" -o "$work/$1" 2>&1); then
        bad "$what:"$'\n'"$said"
    else
        return 0
    fi
    return 1
}

# Given n, app reads a frame from standard input, and writes the mended frame to standard output. Where that can't be mended, or
# is no frame, it writes nothing, and its status is not 0. It says on standard error what decode gave.
mends() { # WHAT 0|1 LENGTH BYTES SAID: standard input has these bytes, as printf has them, then zeros; mended it is zeros alone
    { printf '%b' "$4" && cat /dev/zero; } 2>/dev/null | head -c "$3" |
        timeout 20 "$work/app" 195 >"$work/mended" 2>"$work/said"
    local status=${PIPESTATUS[2]} bytes=$((4875 * (1 - $2))) said
    said=$(cat "$work/said")
    if [ $((status != 0)) = "$2" ] && head -c "$bytes" /dev/zero | cmp -s - "$work/mended" && [ "$said" = "$5" ]; then
        ok "app of README.md: $1: status $status, $bytes bytes, '$said'"
    else
        bad "app of README.md: $1: status $status, $(wc -c <"$work/mended") bytes, '$said', not '$5'"
    fi
}
app_cases() {
    local lost ones row='\xE0\0\0\0\0\0\0\0\0\0\0\0\0\0\0\0\0\0\0\0\0\0\0\0\0'
    printf -v lost '\\xFF%.0s' {1..50}
    printf -v ones '\\xFF%.0s' {1..4875}
    mends 'a clean frame' 0 4875 '' 'clean: 0 passes, 0 bits'
    mends 'two rows lost, and a wrong bit in another' 0 4875 "$lost\\x80" 'repaired: 2 passes, 391 bits'
    mends 'three wrong bits in each of three rows' 1 4875 "$row$row$row" \
        'not repaired: after 2 passes 3 rows and 3 columns are no codewords'
    mends 'an erased frame' 1 4875 "$ones" 'erased: all bits are ones'
    mends 'a byte too few' 1 4874 '' 'refused: number 2'
}

# Given n, cable does the like with a frame that comes in pieces, and leaves what comes behind it where it is. The frames are two
# of demo/torn.dump, and those of 18 rows: the one whose data bit is set has the word B7 B1 C0 in the rows that a one of it names.
make_frames() {
    local record row word=101101111011000111
    for record in 2 3; do
        printf '%b' "$(awk -F'\t' -v record=$record '$1 == record { print $4 }' demo/torn.dump | sed 's/../\\x&/g')" \
            >"$frames/record$record"
    done
    "$work/app" 195 <"$frames/record2" >"$frames/mended2" 2>/dev/null # as it is in one piece
    head -c 4874 "$frames/record2" >"$frames/short"
    for row in {0..17}; do
        if [ "${word:row:1}" = 1 ]; then printf '\xB7\xB1\xC0'; else printf '\0\0\0'; fi
    done >"$frames/written"
    { printf '\xFF\xFF\xC0\xFF\xFF\xC0' && tail -c +7 "$frames/written"; } >"$frames/lost"
    cat "$frames/lost" "$frames/written" >"$frames/both"
    { printf '\xE0\0\0\xE0\0\0\xE0' && head -c 47 /dev/zero; } >"$frames/stuck"
    head -c 54 /dev/zero | tr '\0' '\377' >"$frames/erased"
    : >"$frames/nothing"
}
slowly() { # FILE: in pieces of odd lengths, one by one, then what is left at once
    local length
    {
        for length in 1 2 31 64 65 1 127 200 3; do
            dd bs="$length" count=1
            sleep 0.01
        done
        cat
    } <"$1" 2>/dev/null
}
receives() { # WHAT N 0|1 FILE MENDED REST SAID: through a pipe comes FILE; MENDED is written, and REST stays in the pipe
    local status said
    exec 3< <(slowly "$frames/$4")
    timeout 20 "$work/cable" "$2" <&3 >"$work/mended" 2>"$work/said"
    status=$? said=$(cat "$work/said")
    cat <&3 >"$work/rest"
    exec 3<&-
    if [ $((status != 0)) = "$3" ] && cmp -s "$work/mended" "$frames/$5" && cmp -s "$work/rest" "$frames/$6" &&
        [ "$said" = "$7" ]; then
        ok "cable of README.md: $1: status $status, $(wc -c <"$work/mended") bytes, '$said'"
    else
        bad "cable of README.md: $1: status $status, '$said', not '$7'; $(wc -c <"$work/mended") bytes that must be as $5, $(
            wc -c <"$work/rest") left that must be as $6"
    fi
}
cable_cases() {
    make_frames
    receives 'a clean frame' 195 0 record3 record3 nothing '0 bits mended'
    receives 'two rows lost' 195 0 record2 mended2 nothing '248 bits mended'
    receives 'a byte too few' 195 1 short nothing nothing 'the input ended: 1 bytes are missing'
    receives 'nothing at all' 195 1 nothing nothing nothing 'the input ended: 4875 bytes are missing'
    receives 'two rows lost, and another frame behind' 18 0 both written written '24 bits mended'
    receives 'three wrong bits in each of three rows' 18 1 stuck nothing nothing 'not repaired: number 7'
    receives 'an erased frame' 18 1 erased nothing nothing 'not repaired: number 10'
    receives 'n = 17' 17 1 both nothing both 'refused: number 1'
    receives 'n = 2^16 + 18' 65554 1 both nothing both 'refused: number 1'
    if { timeout 20 "$work/cable" 18 && timeout 20 "$work/cable" 18; } < <(slowly "$frames/both") 2>/dev/null |
        cmp -s - <(cat "$frames/written" "$frames/written"); then
        ok 'cable of README.md: one frame after the other, from one pipe'
    else
        bad 'cable of README.md: one frame after the other, from one pipe'
    fi
}

if take_program app; then app_cases; fi
if take_program cable; then cable_cases; fi
found=$(awk '/^```c$/ { getline; print $2 }' README.md | grep -vx -e app -e cable)
none 'README.md has no other program in C' "$found"
