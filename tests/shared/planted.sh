# shellcheck shell=bash
# A comparison can fail: on a copy of the second program with one error planted in it, it must report a difference. Each file of
# planted.d is one error, as an edit: a file of second/, its old text, which must be there once, and the new text. The test
# defines `build`, which makes what is compared of the copy $room/second, `few`, which is handed the edit, or nothing, and compares
# few cases, and `shows`, whether the case that is printed as a difference shows it.

field() { # NAME EDIT
    sed -n "s/^$1: \{0,1\}//p" "$2"
}

# Replaces the old text of an edit, if it is there just once, by the new.
plant() { # EDIT
    local file old new text without
    file=$room/second/$(field file "$1") old=$(field old "$1") new=$(field new "$1")
    [ -n "$old" ] && [ -f "$file" ] || return
    text=$(cat "$file")
    without=${text//"$old"/}
    [ $((${#text} - ${#without})) -eq ${#old} ] || return
    printf '%s\n' "${text/"$old"/"$new"}" >"$file"
}

# Where the edit names a check, that must be the one which failed; else a difference was printed.
found() { # EDIT
    local check
    check=$(field check "$1")
    if [ -n "$check" ]; then
        grep -m 1 "^FAILED *$check" "$room/said"
    else
        awk '/^# smallest difference/ { found = 1 } found && !/^#/ { print; exit }' "$room/said"
    fi
}

planted() { # FOLDER of the edits
    local edit name said
    cp -R second "$room/unchanged" || exit 1
    for edit in '' "$1"/*; do
        name="planted: ${edit##*/}"
        rm -rf "$room/second" && cp -R "$room/unchanged" "$room/second" || exit 1
        if [ -z "$edit" ]; then
            if build >"$room/said" 2>&1 && few "$edit" >"$room/said" 2>&1; then
                ok "planted: nothing: $(tail -n 1 "$room/said")"
            else
                bad "planted: nothing: the copy does not pass as it is"$'\n'"$(tail -n 20 "$room/said")"
            fi
        elif ! plant "$edit"; then
            bad "$name: its old text is not just once in second/$(field file "$edit")"
        elif ! build >"$room/said" 2>&1; then
            bad "$name: it can not be built"$'\n'"$(tail -n 20 "$room/said")"
        elif few "$edit" >"$room/said" 2>&1; then
            bad "$name: the comparison passes all the same"
        else
            said=$(found "$edit")
            if [ -z "$said" ]; then
                bad "$name: the comparison failed, but not by a difference"$'\n'"$(tail -n 20 "$room/said")"
            elif [ -z "$(field check "$edit")" ] && ! shows "$said"; then
                bad "$name: the case found does not show it: $said"
            else
                ok "$name: ${said:0:100}"
            fi
        fi
    done
}
