# shellcheck shell=bash
# A copy of the crates in which rt tries edits, for the scripts that source this file. What rt keeps in out/ is not copied: rt begins
# there with what it kept here.
room=$(mktemp -d)
trap 'rm -rf "$room"' EXIT
tar -c --anchored --no-wildcards-match-slash --exclude='crates/*/out' --exclude='crates/*/must-fail' crates.txt crates | tar -x -C "$room"

# Says what is wrong, and ends the run: STATUS WORDS
fail() {
    echo "${0##*/}: ${*:2}" >&2
    exit "$1"
}

# Tries the edits in the copy's must-fail folders, of the crates named or of all; leaves what rt says in the copy's file said, and how
# many there are in edits: CRATE..
# shellcheck disable=SC2034
try_edits() {
    local name crates=()
    edits=0
    for name in "$@"; do [ -d "crates/$name" ] || fail 2 "there is no crate $name"; done
    for name in crates/*; do
        name=${name#crates/}
        case " $* " in '  ' | *" $name "*) ;; *) rm -rf "$room/crates/$name/must-fail" ;; esac
        if [ -d "$room/crates/$name/must-fail" ]; then crates+=("$name"); fi
    done
    : >"$room/said"
    if [ ${#crates[@]} -eq 0 ]; then return; fi
    edits=$(find "$room"/crates/*/must-fail -name '*.edit' | wc -l)
    (cd "$room" && rt must-fail "${crates[@]}") >"$room/said" 2>&1
}

# Prints the edits of which rt says that, each in a line: WORDS
told() { sed -n "s/^rt: must-fail \(.*: $1\)/\1/p" "$room/said"; }
