#!/usr/bin/env bash
# Builds a guest without a C library, with clang and ld.lld: `build.sh program.c [more.c ...]` makes `program` beside the first
# file, which may be assembly. The compiler's own library (64-bit division, floats) is taken from where musl/setup.sh has put
# it, if it has.
set -eu
if [ $# -eq 0 ]; then
  echo "usage: build.sh PROGRAM.c|PROGRAM.s [MORE ...]" >&2
  exit 1
fi
here=$(dirname "$(readlink -f "$0")")
. "$here/musl/debian.sh"
own_library=$(library_of "$here/musl")/lib/libgcc.a
# In a copy of the package's examples it is the package's library.
if [ ! -e "$own_library" ] && cc=$(command -v aprof-cc); then
  own_library=$(library_of "$(dirname "$(readlink -f "$cc")")")/lib/libgcc.a
fi
[ -e "$own_library" ] || own_library=
clang --target=riscv32 -march=rv32ima -mabi=ilp32 -static -nostdlib -ffreestanding -fuse-ld=lld \
  -O1 -fno-inline -fno-builtin -fno-optimize-sibling-calls -fno-unroll-loops -Wall -Wextra -I "$here" \
  -o "${1%.*}" "$@" ${own_library:+"$own_library"}
