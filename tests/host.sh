#!/bin/sh
# Builds the static library of crate host_c, links tests/host.c to it, and runs that. The library is for every x86-64 processor, also one
# that lacks what rt takes for granted if nothing is said. On another processor the test is cross-compiled, and runs under qemu-x86_64
# where that is on the PATH.
set -eu
cd "$(dirname "$0")/.."
compiler=x86_64-linux-gnu-gcc
if ! command -v "$compiler" >/dev/null; then
    apt-get update -qq
    case $(uname -m) in
        x86_64) apt-get install -y -qq gcc libc6-dev >/dev/null ;;
        *) apt-get install -y -qq gcc-x86-64-linux-gnu libc6-dev-amd64-cross >/dev/null ;;
    esac
fi

mkdir -p target
tools/archive host >target/host.log 2>&1 || { tail -n 5 target/host.log >&2; echo 'tests/host.sh: crate host_c is not proved' >&2; exit 1; }
"$compiler" -std=c99 -O2 -Wall -Wextra -Werror -Iinclude -static -o target/host tests/host.c target/staticlib/libhost.a

# fcode.h says what a C program has to bring: memcpy and memset, and nothing else
needed=$("${compiler%gcc}nm" -u target/staticlib/libhost.a)
for name in $(printf '%s\n' "$needed" | sed -n 's/^ *[Uwv] //p' | sort -u); do
    case $name in
        memcpy | memset) ;;
        *) echo "tests/host.sh: the library calls $name" >&2; exit 1 ;;
    esac
done

python3 tests/listings.py >target/listings.txt

# a static program needs no loader, so that the emulator runs it as it is
emulator=
if [ "$(uname -m)" != x86_64 ] && command -v qemu-x86_64 >/dev/null; then
    echo "tests/host.sh: on $(uname -m), cross-compiled and run under qemu-x86_64"
    emulator=qemu-x86_64
fi
$emulator target/host target/listings.txt
