#!/usr/bin/env bash
# Makes the C++ library libc++ over the C library that setup.sh has made, without exceptions and run-time types: containers,
# strings, algorithms, streams and threads. It needs no rights of root, takes two or three minutes, and downloads 130 MB.
set -eu
here=$(dirname "$(readlink -f "$0")")
. "$here/debian.sh"
library=$(library_of "$here")
need_tools setup-c++.sh clang++ ld.lld llvm-ar apt-get xz
if [ ! -e "$library/lib/libgcc.a" ] || [ ! -e "$library/lib/libc.a" ]; then
  echo "setup-c++.sh: there is no C library yet; this makes it: $here/setup.sh" >&2
  exit 1
fi

begin_apt setup-c++.sh bookworm
apt-get source --download-only llvm-toolchain-14
unset APT_CONFIG
tar xf llvm-toolchain-14_*.orig.tar.xz --strip-components=1 --wildcards '*/libcxx/src/*' '*/libcxx/include/*' \
  '*/libcxxabi/src/*' '*/libcxxabi/include/*'
cp libcxxabi/include/*.h libcxx/include
cat > libcxx/include/__config_site << END
#define _LIBCPP_HAS_MUSL_LIBC
#define _LIBCPP_HAS_NO_FILESYSTEM_LIBRARY
#define _LIBCPP_HAS_NO_INCOMPLETE_FORMAT
#define _LIBCPP_HAS_NO_INCOMPLETE_RANGES
#define _LIBCPP_HAS_NO_VENDOR_AVAILABILITY_ANNOTATIONS
END

# atomic.cpp wants the kernel's headers, and serves the waits of std::atomic alone; format.cpp is not complete.
mkdir objects
ls libcxx/src/*.cpp libcxx/src/ryu/*.cpp \
  libcxxabi/src/{abort_message,cxa_aux_runtime,cxa_default_handlers,cxa_guard,cxa_handlers,cxa_noexception}.cpp \
  libcxxabi/src/{cxa_virtual,stdlib_exception,stdlib_new_delete,stdlib_stdexcept}.cpp \
  | grep -v -e /atomic.cpp -e /format.cpp > sources
xargs -P "${JOBS:-$(nproc)}" -I {} sh -c 'source=$1; shift; exec "$@" -o "objects/${source##*/}.o" -c "$source"' compile {} \
  clang++ --target=riscv32-linux-musl -march=rv32ima -mabi=ilp32 -mno-relax -O2 -fno-pie -std=c++20 -fno-exceptions -fno-rtti \
  -ffunction-sections -w -nostdinc++ -nostdlibinc -I libcxx/include -I libcxx/src -isystem "$library/include" \
  -D_LIBCPP_BUILDING_LIBRARY -D_LIBCXXABI_BUILDING_LIBRARY -DLIBCXX_BUILDING_LIBCXXABI -D_GNU_SOURCE < sources
rm -rf "$library/include/c++" "$library/lib/libc++.a"
llvm-ar rcs "$library/lib/libc++.a" objects/*.o
cp -r libcxx/include "$library/include/c++"
echo "setup-c++.sh: made libc++ in $library" >&2
