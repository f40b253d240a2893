# Sourced by the other scripts: the tools that build and run x86-64 programs here.
#
# On an x86-64 machine these are the machine's own. On an Arm machine programs
# are cross-compiled with Debian's packages and run under an emulator; a time
# measured under an emulator is no speed. What is missing is installed.

# give_up REASON: ends a script that cannot begin.
give_up() {
    echo "$1" >&2
    echo "0 passed, 1 failed"
    exit 1
}

# get PACKAGE..: Debian packages, as root. What this prints is no script's output.
get() {
    apt-get update
    apt-get install -y --no-install-recommends "$@"
} >&2

# need COMMAND=PACKAGE..: the Debian packages of the commands that are missing.
need() {
    local pair missing=()
    for pair in "$@"; do command -v "${pair%%=*}" >/dev/null || missing+=("${pair#*=}"); done
    [[ ${#missing[@]} -eq 0 ]] || get "${missing[@]}"
}

root=$(cd "$(dirname "${BASH_SOURCE[0]}")/.." && pwd)
library=$root/target/staticlib

case $(uname -m) in
x86_64)
    need cargo=cargo rustc=rustc gcc=gcc gcc=libc6-dev g++=g++
    cargo=(cargo)
    cargo_options=()
    built=release
    cc=gcc
    cxx=g++
    runner=()
    ;;
aarch64)
    packages=(rustc cargo libstd-rust-dev:amd64 gcc-x86-64-linux-gnu
        g++-x86-64-linux-gnu libc6-dev-amd64-cross qemu-user)
    if ! dpkg -s "${packages[@]}" >/dev/null 2>&1; then
        dpkg --add-architecture amd64
        get "${packages[@]}"
    fi
    cc=x86_64-linux-gnu-gcc
    cxx=x86_64-linux-gnu-g++
    # libstd-rust-dev:amd64 brings the C library that programs load; the one for
    # cross-compiling beside it (-L) is another build and must not be mixed in.
    runner=(/usr/bin/qemu-x86_64)
    # By full path, as another toolchain may come first.
    cargo=(/usr/bin/cargo)
    cargo_options=(--target x86_64-unknown-linux-gnu)
    built=x86_64-unknown-linux-gnu/release
    export RUSTC=/usr/bin/rustc
    export CARGO_TARGET_X86_64_UNKNOWN_LINUX_GNU_LINKER=$cc
    export CARGO_TARGET_X86_64_UNKNOWN_LINUX_GNU_RUNNER=${runner[*]}
    ;;
*)
    give_up "no way known to run x86-64 programs on $(uname -m)"
    ;;
esac

# put_program FILE DIRECTORY: puts a program into DIRECTORY/bin. On an Arm machine it goes to
# DIRECTORY/libexec/pierstride, and what is put into DIRECTORY/bin runs it under the emulator.
put_program() {
    local name=${1##*/} emulated=$2/libexec/pierstride
    if [[ ${#runner[@]} -eq 0 ]]; then
        install -D -m 755 "$1" "$2/bin/$name"
        return
    fi
    install -D -m 755 "$1" "$emulated/$name"
    mkdir -p "$2/bin"
    cat >"$2/bin/$name" <<WRAP
#!/bin/sh
# $name is built for x86-64: this runs it under an emulator.
exec ${runner[*]} "\$(dirname "\$(readlink -f "\$0")")/../libexec/pierstride/$name" "\$@"
WRAP
    chmod 755 "$2/bin/$name"
}

# need_library: for a script that links the static library.
need_library() {
    [[ -f $library/libpierstride.a ]] || give_up "libpierstride.a is not in $library: make desk makes it"
}
