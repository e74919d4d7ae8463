# shellcheck shell=bash
# Checks of a script's status and of what it prints and says, for the tests that source this file. Each ends the run at the first that
# fails, and shows the whole of it. It makes room, a folder that is removed at the end.
room=$(mktemp -d)
trap 'chmod -R u+w "$room"; rm -rf "$room"' EXIT
ran=

# Says what is wrong, with what the last command gave, and ends the run: WORDS
fail() {
    {
        echo "${0##*/}: $*"
        echo "after: $ran"
        for part in printed said; do echo "--- $part" && cat "$room/$part"; done
    } >&2
    exit 1
}

# Runs a command, which must end with that status: STATUS COMMAND..
ends() {
    local status=0
    ran=${*:2}
    "${@:2}" >"$room/printed" 2>"$room/said" || status=$?
    if [ "$status" -ne "$1" ]; then fail "it ended with status $status and not $1"; fi
}

# The last command said a line with these words: WORDS
says() { grep -q -F -e "$1" "$room/said" || fail "it doesn't say: $1"; }

# The last command said nothing on standard error
says_nothing() { if [ -s "$room/said" ]; then fail 'it says something'; fi; }

# The last command printed a line with these words: WORDS
prints() { grep -q -F -e "$1" "$room/printed" || fail "it doesn't print: $1"; }

# The last command printed nothing
prints_nothing() { if [ -s "$room/printed" ]; then fail 'it prints something'; fi; }

# The last command printed that file: FILE
prints_file() { cmp "$1" "$room/printed" || fail "it prints something else than $1"; }

# Tells what the checks above have shown: WORDS
shown() { echo "${0##*/}: $*"; }
