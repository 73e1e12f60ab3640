# shellcheck shell=bash
# repair_frame as a program: its exit status, its sentence, and what is in the output file. Sourced by run.
files=${room:?}/repair # not below the checkout: rt ci allows no link there
mkdir -p "$files/folder" && cp "${work:?}/repair_frame" "$room"

zeros() { head -c "$1" /dev/zero; }
frame18() { # FILE BYTES: as printf has them, then zeros up to a frame of 18
    { printf '%b' "$2" && zeros 54; } | head -c 54 >"$files/$1"
}
frame18 a ''
frame18 spare '\x00\x00\x20'
frame18 one '\x00\x00\x40'
frame18 b '\xC0'
frame18 c '\xFF\xFF\xC0\xFF\xFF\xC0'
frame18 d '\xE0\x00\x00\xE0\x00\x00\xE0'
# A frame of 39 in which every pass flips something, for ever; and one of 80 with bits i to i + 2 of row i wrong, in the first 66
# rows: each pass but the first mends two words at either end of that band.
{ printf '%b\0\0\0\0' '\xC4' '\xD8' '\x54' '\xF4' && zeros 175; } >"$files/endless"
for i in {0..65}; do
    zeros $((i / 8))
    printf -v two '\\x%02X\\x%02X' $((0xE000 >> i % 8 >> 8)) $((0xE000 >> i % 8 & 255))
    printf '%b' "$two"
    zeros $((8 - i / 8))
done >"$files/band"
zeros 140 >>"$files/band"
ones() { zeros "$1" | tr '\0' '\377'; }
ones 54 >"$files/ones"
for _ in {1..18}; do printf '\377\377\300'; done >"$files/ones0" # spare bits zero
ones 8192 >"$files/ones256"
{ ones 8191 && printf '\376'; } >"$files/nearly256"
zeros 0 >"$files/empty"
zeros 53 >"$files/short"
zeros 55 >"$files/long"
zeros 800 >"$files/a80"
zeros 8192 >"$files/a256"
zeros 8193 >"$files/long256"
zeros 100000 >"$files/huge"
echo 'was here before' >"$files/before"
ln -s b "$files/link"
inputs=$(cd "$files" && cksum -- *[!r]) # all but the folder

# Runs it in the folder of the frames. OUTPUT is the file that `out` must equal then, or '-' if there must be none.
repair() { # WHAT STATUS SENTENCE OUTPUT WORD...
    local what=$1 status=$2 sentence=$3 output=$4 said got wrong=''
    shift 4
    said=$(cd "$files" && ../repair_frame "$@" 2>../repair.err)
    got=$?
    [ "$got" = "$status" ] || wrong+=" status $got, not $status;"
    [ "$said" = "$sentence" ] || wrong+=" '$said', not '$sentence';"
    [ -n "$said" ] || [ -s "$room/repair.err" ] || wrong+=" no word of what was wrong;"
    if [ "$output" = - ]; then
        [ ! -e "$files/out" ] || wrong+=" a file out is there;"
    else
        cmp -s "$files/out" "$files/$output" || wrong+=" the file out is not as $output;"
    fi
    [ ! -e "$files/out.part" ] || wrong+=" out.part is left behind;"
    rm -f "$files/out" "$files/out.part"
    if [ -z "$wrong" ]; then ok "repair_frame $*: $what"; else bad "repair_frame $*: $what:$wrong"; fi
}
unmended='left that are not codewords, nothing written'
bad_n='refused, number 1: N is not 18 to 256, nothing written'
bad_length='refused, number 2: the file does not have the length of a frame of N rows, nothing written'
bad_allowance='refused, number 4: the allowance is not 1 to 200, nothing written'

repair 'clean' 0 'clean' a a out 18
repair 'clean, 256 rows' 0 'clean' a256 a256 out 256 200
repair 'clean, the spare bit gone' 0 'clean' a spare out 18
repair 'one bit' 0 'repaired in 1 pass, 1 bit mended' a one out 18
repair 'item B' 0 'repaired in 1 pass, 2 bits mended' a b out 18 1
repair 'item C' 0 'repaired in 2 passes, 36 bits mended' a c out 18
repair 'item C, allowance 1' 1 "spent after 1 pass: 2 rows and 18 columns $unmended" - c out 18 1
repair 'item D' 1 "stuck after 2 passes: 3 rows and 3 columns $unmended" - d out 18
repair 'a band of 66 rows' 0 'repaired in 34 passes, 198 bits mended' a80 band out 80 200
repair 'a band, allowance 33' 1 "spent after 33 passes: 2 rows and 4 columns $unmended" - band out 80 33
repair 'without an end' 1 "spent after 200 passes: 4 rows and 4 columns $unmended" - endless out 39 200
erased='erased: all bits are ones, nothing written'
repair 'erased' 1 "$erased" - ones out 18
repair 'erased, spare bits zero' 1 "$erased" - ones0 out 18
repair 'erased, 256 rows' 1 "$erased" - ones256 out 256 200
repair 'one bit is not one, 256 rows' 0 'repaired in 1 pass, 1 bit mended' ones256 nearly256 out 256
cp "$files/before" "$files/out"
repair 'an output that is there is replaced' 0 'repaired in 1 pass, 2 bits mended' a b out 18
cp "$files/before" "$files/out"
repair 'and kept where nothing is repaired' 1 "stuck after 2 passes: 3 rows and 3 columns $unmended" before d out 18 200
repair 'n' 2 "$bad_n" - b out 17
repair 'n' 2 "$bad_n" - b out 257
repair 'n that no size can be' 2 "$bad_n" - b out 340282366920938463463374607431768211474 # 2^128 + 18
repair 'length' 2 "$bad_length" - short out 18
repair 'length' 2 "$bad_length" - long out 18
repair 'length' 2 "$bad_length" - empty out 18
repair 'length' 2 "$bad_length" - long256 out 256
repair 'length' 2 "$bad_length" - huge out 256
repair 'allowance' 2 "$bad_allowance" - b out 18 0
repair 'allowance' 2 "$bad_allowance" - b out 18 201
repair 'no words' 2 '' -
repair 'too few words' 2 '' - b out
repair 'too many words' 2 '' - b out 18 2 2
repair 'not a number' 2 '' - b out 18x
repair 'not a number' 2 '' - b out -18
repair 'not a number' 2 '' - b out 18 ''
repair 'the output is the input' 2 '' - b ./b 18
repair 'the output is a link to the input' 2 '' - b link 18
repair 'no such file' 3 '' - nowhere out 18
repair 'a folder as input' 3 '' - folder out 18
repair 'no such folder' 3 '' - b nowhere/out 18
repair 'a folder as output' 3 '' - b folder 18
if [ "$(id -u)" != 0 ]; then # root may write everywhere
    chmod 555 "$files/folder"
    repair 'a folder that is not to be written' 3 '' - b folder/out 18
    chmod 755 "$files/folder"
fi
if (trap '' XFSZ && ulimit -f 0) 2>/dev/null; then
    (cd "$files" && trap '' XFSZ && ulimit -f 0 && ../repair_frame b out 18 2>&1) | grep -qF 'cannot write out.part'
    both=${PIPESTATUS[*]}
    if [ "$both" = '3 0' ] && [ ! -e "$files/out" ] && [ ! -e "$files/out.part" ]; then
        ok 'repair_frame where no byte can be written: status 3, and no file is left'
    else
        bad "repair_frame where no byte can be written: status $both, $(cd "$files" && echo out*)"
    fi
fi
echo 'of another' >"$files/out.part"
(cd "$files" && ../repair_frame b out 18) >/dev/null 2>&1
if [ $? = 3 ] && [ "$(cat "$files/out.part")" = 'of another' ] && [ ! -e "$files/out" ]; then
    ok 'repair_frame where out.part is there already: status 3, and it is kept'
else
    bad 'repair_frame where out.part is there already'
fi
rm -f "$files/out.part"
if [ "$(cd "$files" && cksum -- *[!r])" = "$inputs" ]; then
    ok 'repair_frame: no input changed'
else
    bad 'repair_frame: an input changed'
fi
