# shellcheck shell=bash
# Tells how far rt is with the crates of a program, for tests/program, which sources this file. rt builds one crate after the other, in
# the order of crates_of, and passes over those that have not changed; what it says stands in a log.

# Reads what is new in the log, on descriptor 5, and says a line for each crate that has begun or ended. Works on now (the crate at
# work, if there is one), began (its second), left and rest (the beginning of a line whose end isn't there yet).
tell_crates() {
    local line
    while IFS= read -r -u 5 line || { rest+=$line && false; }; do
        line=$rest$line rest=
        case $line in
            'rt: chose --jobs '*' for '*) begin_crate "${line##* }" ;;
            'logic=proved '*) end_crate proved ;;
            'logic='*) end_crate 'NOT PROVED' ;;
        esac
    done
}

# A crate begins: those before it are over: NAME
begin_crate() {
    local place
    end_crate proved
    for place in "${!crates[@]}"; do
        if [ "${crates[place]}" = "$1" ]; then left=$((${#crates[@]} - place)); fi
    done
    now=$1 began=$SECONDS
    line "$now is being proved, $left of ${#crates[@]} crates are left"
}

# The crate at work, if there is one, has ended: HOW
end_crate() {
    if [ -z "$now" ]; then return; fi
    left=$((left - 1))
    line "$now $1 ($((SECONDS - began)) s), $left of ${#crates[@]} crates are left"
    now=
}

# Says a line; in a terminal the line that counts stands below: WORDS
line() { if [ -t 2 ]; then printf '\r\033[K%s\n' "$*" >&2; else echo "$*" >&2; fi; }

# In a terminal, shows the crate at work and its seconds in the last line
count_seconds() {
    if [ ! -t 2 ]; then return; fi
    printf '\r\033[K%s%s s in all' "${now:+proving $now $((SECONDS - began)) s, }" "$SECONDS" >&2
}

# Watches rt prove a program, until LOG.over is there or the script has ended: FOLDER NAME LOG
watch_crates() {
    local crates left now='' began=0 rest=''
    SECONDS=0
    mapfile -t crates < <(crates_of "$1" "$2")
    left=${#crates[@]}
    exec 5<"$3"
    while [ ! -e "$3.over" ] && kill -0 $$ 2>/dev/null; do
        tell_crates
        count_seconds
        sleep 0.2
    done
    tell_crates
    end_crate 'NOT PROVED'
    if [ -t 2 ]; then printf '\r\033[K' >&2; fi
}
