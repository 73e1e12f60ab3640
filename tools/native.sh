# shellcheck shell=bash
# What tools/archive and tools/program have in common; each sets `what`, the thing that it makes, and `usage`, and sources this.
# It reads the words [OPTION] CRATE FILE, goes to the top of the repository, and sets `machine`, the processor to compile for.
unset CDPATH
export PATH # a shell that was given none has one, and does not pass it on

stop() { # STATUS MESSAGE
    printf 'tools/%s: %s\n' "$what" "$2" >&2
    exit "$1"
}
case ${1-} in
--x86-64) machine=x86_64 && shift ;;
--aarch64) machine=aarch64 && shift ;;
*) machine=$(uname -m) ;;
esac
[ $# -eq 2 ] || stop 2 "usage: tools/$what $usage"
crate=$1
case $2 in /*) file=$2 ;; *) file=$PWD/$2 ;; esac
[ ! -d "$file" ] || stop 2 "$2 is a folder"
command -v rt >/dev/null || stop 1 "rt, the command of the Rattle toolchain, is not on the PATH"
cd -- "$(dirname -- "$(readlink -f -- "$0")")/.."
rm -f -- "$file" # none is left where this fails
log=$(mktemp)
trap 'rm -f "$log"' EXIT

quietly() { # COMMAND...: what it says is shown only where it fails
    if ! "$@" >"$log" 2>&1; then
        cat "$log" >&2
        stop 1 "$crate: no $what was made"
    fi
}

deliver() { # PART: it becomes FILE
    mkdir -p -- "$(dirname -- "$file")"
    cp "$1" "$file"
}
