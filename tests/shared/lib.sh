# shellcheck shell=bash
# What every tests/*/run begins with. It goes to the top of the repository, makes a folder for what is on the way, $room, and
# counts; `finish` ends the test with the line 'N passed, M failed'.
set -u
unset CDPATH
export PATH     # a shell that was given none has one, and does not pass it on
export LC_ALL=C # one order and one wording everywhere
cd "${BASH_SOURCE[0]%/*}/../.." || exit 1
passed=0 failed=0
room=$(mktemp -d) || exit 1
clean() { rm -rf "$room"; }
trap clean EXIT

ok() { # WHAT
    printf 'ok: %s\n' "$1"
    passed=$((passed + 1))
}
bad() { # WHAT
    printf 'FAILED: %s\n' "$1"
    failed=$((failed + 1))
}
none() { # WHAT FOUND: passes where nothing was found
    if [ -z "$2" ]; then ok "$1"; else bad "$1"$'\n'"$2"; fi
}
finish() {
    echo "$passed passed, $failed failed"
    [ "$failed" -eq 0 ] && [ "$passed" -gt 0 ]
    exit
}
stop() { # MESSAGE: nothing more can be tried
    bad "$1"
    finish
}

# A command that ends with a line 'N passed, M failed' itself: all but that line is printed, and that is added up.
count() { # COMMAND...
    local status last
    "$@" 2>&1 | tee "$room/counted" | sed '$d'
    status=${PIPESTATUS[0]} last=$(tail -n 1 "$room/counted")
    if [[ $last =~ ^([0-9]+)\ passed,\ ([0-9]+)\ failed$ ]]; then
        passed=$((passed + BASH_REMATCH[1])) failed=$((failed + BASH_REMATCH[2]))
        [ $((status != 0)) = $((BASH_REMATCH[2] != 0)) ] || bad "$*: its status, $status, is not what it counts"
    else
        bad "$*: its last line is '$last', and its status is $status"
    fi
}

# The archives for this machine, in the folder that NATIVE names, or else made.
archives() {
    if [ -z "${NATIVE-}" ]; then
        NATIVE=target/native
        tools/archive host $NATIVE/libgazenohyri.a || stop "the archive of the engine could not be built"
        tools/archive probe $NATIVE/libprobe.a || stop "the archive of the probes could not be built"
    fi
    NATIVE=$(cd "$NATIVE" && pwd) || stop "the folder of the archives is missing"
    export NATIVE
}

export CARGO_TARGET_DIR=$PWD/target/cargo
rust() { # FOLDER [OPTION...]: builds the programs of a crate
    cargo build --quiet --release --offline --locked --manifest-path "$1/Cargo.toml" "${@:2}"
}
