# shellcheck shell=bash
# How scripts know whether what they keep of a proof is still that of the sources and of the kit; for those that source this file.

# Prints the folder of the Rattle kit; fails where its command is not found
kit_folder() {
    local rt
    rt=$(command -v rt) || return
    dirname "$(dirname "$(readlink -f "$rt")")"
}

# Prints the sum of the sources and the kit; what rt keeps in a crate's out/ is no source: REPOSITORY KIT
sources_sum() {
    (cd "$1" && find crates.txt crates \( -path 'crates/*/*' ! -path 'crates/*/*/*' \( -name out -o -name 'must-fail*' \) \) -prune \
        -o -type f -print0 | sort -z | xargs -0 sha256sum) |
        cat - "$2/KIT-ID" | sha256sum
}

# Prints a crate and all that it stands on, those of this repository, in the order in which rt builds them: each crate's, as its line
# names them, and then itself: FOLDER NAME
crates_of() {
    awk -v wanted="$2" '
        function needs(name,    words, n, k) {
            if (name in done || !(name in uses)) return
            done[name] = 1
            n = split(uses[name], words)
            for (k = 1; k <= n; k++) needs(words[k])
            print name
        }
        { sub(/#.*/, "") }
        /[a-z]/ {
            split($0, parts, ":")
            split(parts[1], words)
            uses[words[1]] = parts[2]
        }
        END { needs(wanted) }' "$1/crates.txt"
}

# Prints the sum of a program, or of all libraries, that stand in the crates' out/; fails where there is none: REPOSITORY NAME
made_sum() {
    (
        cd "$1" || exit
        if [ "$2" = libraries ]; then
            find crates -path 'crates/*/out/rlib/*' -type f -print0 | sort -z | xargs -0 -r sha256sum | grep . | sha256sum
        else
            [ -x "crates/$2/out/$2" ] && sha256sum <"crates/$2/out/$2"
        fi
    )
}

# Notes that a program, or the libraries, were proved of sources of that sum, in target/proved: REPOSITORY NAME SUM
note_proved() {
    local made
    made=$(made_sum "$1" "$2") && mkdir -p "$1/target/proved" && printf '%s\n' "$3" "$made" >"$1/target/proved/$2"
}

# Whether that is noted of the program, or the libraries, as they stand: REPOSITORY NAME SUM
is_proved() { [ "$(cat "$1/target/proved/$2" 2>/dev/null)" = "$3"$'\n'"$(made_sum "$1" "$2")" ]; }
