# shellcheck shell=bash
# The processors that embedding/archive makes archives for, and Debian's tools for them, for the scripts that source this file.
# shellcheck disable=SC2034
targets=(x86_64 aarch64 riscv64)

# Leaves in prefix what the names of a target's tools begin with on this machine, in emulator what runs its programs, in debian its name
# there, and in packages what of Debian has the tools: TARGET
# shellcheck disable=SC2034
choose_tools() {
    local -A names=([x86_64]=amd64 [aarch64]=arm64 [riscv64]=riscv64)
    debian=${names[$1]}
    prefix='' emulator=() packages=()
    if [ "$1" = "$(uname -m)" ]; then
        command -v gcc >/dev/null || packages=(gcc libc6-dev)
    else
        prefix=$1-linux-gnu-
        emulator=("qemu-$1" -L "/usr/$1-linux-gnu")
        packages=("gcc-${1/_/-}-linux-gnu" "libc6-dev-$debian-cross" qemu-user)
    fi
}
