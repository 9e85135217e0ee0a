#!/bin/sh
# Which of Debian's packages the tests need beside Python, and whether they are there. A test that
# needs what is not there is skipped, and says so. Without pytest all of them are.
#
# usage: packages.sh           names those that are not installed
#        packages.sh install   installs them first, where it is root's and there is apt-get
set -eu
packages="python3-pytest lrzsz socat picocom minicom screen strace mandoc lintian bash zsh fish
    binutils qemu-system-arm qemu-system-misc u-boot-qemu gcc-aarch64-linux-gnu
    libc6-dev-arm64-cross chromium firefox-esr g++ clang lld llvm valgrind nodejs pkgconf
    locales binaryen wabt qemu-user gcc-12-multilib gcc-arm-none-eabi libnewlib-arm-none-eabi
    gcc-arm-linux-gnueabihf libc6-dev-armhf-cross gcc-mipsel-linux-gnu libc6-dev-mipsel-cross
    gcc-riscv64-linux-gnu libc6-dev-riscv64-cross gcc-riscv64-unknown-elf
    picolibc-riscv64-unknown-elf fusefat dosfstools"

missing() {
    for package in $packages; do
        dpkg-query -W -f '${Status}' "$package" 2> /dev/null | grep -q 'ok installed' || echo "$package"
    done
}

# Nothing is removed for another one: `gcc-multilib`, say, would take the other compilers away.
get() {
    DEBIAN_FRONTEND=noninteractive apt-get install -y --no-remove --no-install-recommends "$@" \
        > /dev/null 2>&1
}

# All at once, and where one of them cannot be had each by itself.
install() {
    [ "$(id -u)" = 0 ] && command -v apt-get > /dev/null || return 0
    apt-get update > /dev/null 2>&1 || true
    get $(missing) || for package in $(missing); do get "$package" || true; done
}

act=
[ "${1-}" != install ] || { act=install; shift; }
[ $# -eq 0 ] || { sed -n '2,6s/^# \{0,1\}//p' "$0" >&2; exit 2; }
[ -z "$act" ] || [ -z "$(missing)" ] || install
left=$(missing | tr '\n' ' ')
[ -z "$left" ] || echo "not installed, so what needs them is skipped: $left"
