# shellcheck shell=bash
# Debian's packages, for the tests that source this file.

# options of apt-get: quiet, and soon done where there is no network
quick=(-qq -o Acquire::Retries=0 -o Acquire::http::Timeout=20)

# Prints those that are missing: PACKAGES
missing() {
    local package
    for package in "$@"; do
        if [ "$(dpkg-query -W -f '${db:Status-Status}' "$package" 2>/dev/null)" != installed ]; then echo "$package"; fi
    done
}

# Installs packages, one test after the other, since apt-get gives up beside another: PACKAGES
install() {
    export DEBIAN_FRONTEND=noninteractive
    { flock 9 && timeout 90 apt-get "${quick[@]}" update && timeout 400 apt-get "${quick[@]}" install --no-install-recommends "$@"; } \
        </dev/null >/dev/null 2>&1 9<"${BASH_SOURCE[0]}"
}

# Installs those that are missing, where that may be done, and leaves in absent those that still are: PACKAGES
obtain() {
    mapfile -t absent < <(missing "$@")
    if [ ${#absent[@]} -gt 0 ] && [ "$(id -u)" -eq 0 ] && command -v apt-get >/dev/null; then
        install "${absent[@]}" || true
        mapfile -t absent < <(missing "$@")
    fi
}
