"""What is built and how: one recipe a program, as data."""
from __future__ import annotations

from collections.abc import Callable
from dataclasses import dataclass

from real import inputs

CONFIGURE = "./configure CC=$CC AR=llvm-ar RANLIB=llvm-ranlib"


@dataclass(frozen=True)
class Recipe:
    """A program: its source package; the shell line that makes $GUEST in the folder of the source, by $CC, with our own
    files in $DRIVERS; the maker of its input; and the words behind the executable, where `INPUT` stands for the input's
    file. Without that word the input is the standard input. Of a run by the words `by_file` only the refused calls are
    looked for."""

    name: str
    package: str
    make: str
    maker: Callable[[int], bytes]
    words: tuple[str, ...] = ()
    status: int = 0
    by_file: tuple[str, ...] = ()


LUA_HEADER = """echo '#define DEB_HOST_MULTIARCH "riscv32-linux-musl"' > src/lua5.4-deb-multiarch.h"""
EXPAT_HEADER = ("printf '#define %s\\n' 'XML_NS 1' 'XML_DTD 1' 'XML_CONTEXT_BYTES 1024' 'BYTEORDER 1234' XML_DEV_URANDOM "
                "> expat/expat_config.h")
EXPAT_FILES = "expat/lib/{xmlparse,xmlrole,xmltok}.c expat/xmlwf/{xmlwf,xmlfile,codepage,unixfilemap}.c"
AWK = ('{ for (k = 1; k <= NF; k++) count[$k]++; all = all substr($1, 1, 1); gsub(/[aeiou]/, "-"); dashes += length($0) } '
       'END { for (word in count) if (count[word] > most) { most = count[word]; first = word } '
       'print NR, dashes, length(all), first, most }')

PATTERN = r"=(?:\w+ )+ends"
LIKE = f"={' '.join(inputs.words(2))}"

RECIPES = (
    Recipe("sqlite3", "sqlite3",
           "CC=clang ./configure --disable-shared --disable-readline && make sqlite3.c shell.c && "
           "$CC -DSQLITE_THREADSAFE=0 -DSQLITE_OMIT_LOAD_EXTENSION -o $GUEST shell.c sqlite3.c",
           inputs.statements, ("=:memory:",)),
    Recipe("lua", "lua5.4",
           f"{LUA_HEADER} && $CC -std=gnu99 -o $GUEST $(ls src/*.c | grep -v luac.c)",
           inputs.script, ("=-",), by_file=("INPUT",)),
    Recipe("cJSON", "cjson",
           "$CC -I. -o $GUEST $DRIVERS/json.c cJSON.c",
           inputs.people),
    Recipe("mawk", "mawk",
           f"{CONFIGURE} --host=riscv32-linux-musl && make && cp mawk $GUEST",
           inputs.text, (f"={AWK}",), by_file=(f"={AWK}", "INPUT")),
    Recipe("bzip2", "bzip2",
           "$CC -o $GUEST blocksort.c huffman.c crctable.c randtable.c compress.c decompress.c bzlib.c bzip2.c",
           inputs.text, by_file=("=-c", "INPUT")),
    Recipe("minigzip -9", "zlib",
           "$CC -DHAVE_UNISTD_H -I. -o $GUEST test/minigzip.c *.c",
           inputs.text, ("=-9",), by_file=("=-9", "=-c", "INPUT")),
    Recipe("lz4 -9", "lz4",
           "$CC -Ilib -Iprograms -o $GUEST programs/*.c lib/*.c",
           inputs.short_text, ("=-9", "=-c"), by_file=("=-9", "=-c", "INPUT")),
    Recipe("xmlwf", "expat",
           f"{EXPAT_HEADER} && $CC -DHAVE_EXPAT_CONFIG_H -Iexpat -Iexpat/lib -o $GUEST {EXPAT_FILES}",
           inputs.document, by_file=("INPUT",)),
    Recipe("pcre2grep", "pcre2",
           f"{CONFIGURE} --host=riscv32-linux-musl --disable-shared && make pcre2grep && cp pcre2grep $GUEST",
           inputs.one_line, (PATTERN,), status=1, by_file=(PATTERN, "INPUT")),
    Recipe("agrep -2", "tre",
           # Its config.sub is older than this processor, and any other one tells it that programs can't be run.
           f"{CONFIGURE} --host=arm-linux --disable-shared --disable-nls && make && cp src/agrep $GUEST",
           inputs.short_text, ("=-2", "=-c", LIKE), by_file=("=-2", "=-c", LIKE, "INPUT")),
    Recipe("nettle-hash", "nettle",
           f"{CONFIGURE} --host=riscv32-linux-musl --disable-shared --disable-public-key --disable-openssl "
           "--disable-documentation && make libnettle.a && make -C tools nettle-hash && cp tools/nettle-hash $GUEST",
           inputs.text, ("=-a", "=sha256"), by_file=("=-a", "=sha256", "INPUT")),
    Recipe("tcc -E", "tcc",
           "./configure --cpu=x86_64 --cc=clang && "
           "$CC -DONE_SOURCE=1 -DTCC_TARGET_X86_64 -DCONFIG_TCC_STATIC -o $GUEST tcc.c",
           inputs.source, ("=-E", "INPUT")),
)
