#!/usr/bin/env bash
# Makes the C library musl for rv32ima, built by clang from Debian's source package. It needs no rights of root, takes
# one to three minutes, and downloads some 60 MB by the machine's own package sources. The library's folder is `library` beside
# this script, ~/.local/share/aprof/musl where the script is below /usr, or the one that APROF_MUSL names.
set -eu
here=$(dirname "$(readlink -f "$0")")
. "$here/debian.sh"
library=$(library_of "$here")
if [ ! -e "$library/lib/libgcc.a" ] && { [ -e "$library/lib" ] || [ -e "$library/include" ]; }; then
  echo "setup.sh: $library has a lib or an include that setup.sh did not make: name another folder by APROF_MUSL" >&2
  exit 1
fi
need_tools setup.sh clang ld.lld llvm-ar llvm-ranlib llvm-strip make apt-get dpkg-deb

# Debian 13 has musl 1.2.5, the first with this processor.
begin_apt setup.sh trixie
apt-get source --download-only musl
# Its functions for what the processor lacks: 64-bit division, floats.
apt-get download gcc-riscv64-unknown-elf
unset APT_CONFIG

mkdir source compiler
tar xf musl_*.orig.tar.gz -C source --strip-components=1
dpkg-deb -x gcc-riscv64-unknown-elf_*.deb compiler
cp compiler/usr/lib/gcc/riscv64-unknown-elf/*/rv32im/ilp32/libgcc.a .

cd source
CC="clang --target=riscv32-linux-musl -march=rv32ima -mabi=ilp32 -mno-relax -fuse-ld=lld" \
  CFLAGS="-O2 -fno-pie" AR=llvm-ar RANLIB=llvm-ranlib LIBCC=$work/libgcc.a \
  ./configure --target=riscv32 --prefix="$work/made" --disable-shared > "$work/configure.log"
make -s -j "${JOBS:-$(nproc)}" install
cd ..
llvm-strip --strip-debug libgcc.a made/lib/*.a

# An older library goes only now that the new one is whole. libgcc.a is there all the time: by it another set-up knows the
# folder. libc.a comes last: by it the compiler knows that the library is whole.
mkdir -p "$library/lib"
cp libgcc.a "$library/lib"
rm -rf "$library/lib/libc.a" "$library/include"
find "$library/lib" -mindepth 1 ! -name libgcc.a -delete
cp -r made/include "$library"
mv made/lib/libc.a .
cp -r made/lib "$library"
cp libc.a "$library/lib"
echo "setup.sh: made $library${APROF_MUSL:+; the compilers find it by APROF_MUSL=$library}" >&2
