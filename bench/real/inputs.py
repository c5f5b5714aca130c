"""The inputs of the programs, made by a formula from a fixed seed: the same on each machine. Each maker takes the scale."""
from __future__ import annotations

from collections.abc import Iterator

SEED = 20120611
SYLLABLES = ("ba", "ce", "di", "fo", "gu", "ha", "le", "mi", "no", "pu", "ra", "se", "ti", "vo", "wu", "za")


def numbers(below: int, seed: int = SEED) -> Iterator[int]:
    """Numbers below a bound without end: the high bits of the linear congruence of the C standard's example."""
    state = seed
    while True:
        state = (state * 1103515245 + 12345) % 2**31
        yield (state >> 8) % below


def words(count: int) -> list[str]:
    """Words of two to four syllables, of which few are frequent and many are rare, as in a text."""
    draw = numbers(2**20)
    found = []
    for _ in range(count):
        rank = next(draw) * next(draw) * next(draw) // 2**40
        parts = 2 + rank % 3
        found.append("".join(SYLLABLES[rank // 3 // 11**k % 16] for k in range(parts)))
    return found


def lines(count: int) -> list[str]:
    """Lines of eight words."""
    every = words(8 * count)
    return [" ".join(every[8 * k : 8 * k + 8]) for k in range(count)]


def text(scale: int) -> bytes:
    """A text of 80 lines, some 4 kB, times the scale."""
    return "".join(line + "\n" for line in lines(80 * scale)).encode()


def short_text(scale: int) -> bytes:
    """A text of 20 lines times the scale."""
    return "".join(line + "\n" for line in lines(20 * scale)).encode()


def one_line(scale: int) -> bytes:
    """One line of 6 words times the scale."""
    return (" ".join(words(6 * scale)) + "\n").encode()


def people(scale: int) -> bytes:
    """A JSON object of 10 objects times the scale, each with a name, an age, a height and a list."""
    draw = numbers(1000)
    found = []
    for k, name in enumerate(words(10 * scale)):
        tags = ", ".join(f'"{SYLLABLES[next(draw) % 16]}"' for _ in range(4))
        age, height = next(draw) % 90, next(draw)
        found.append(f'  "{name}{k}": {{"age": {age}, "height": 1.{height:03}, "tags": [{tags}], "none": null}}')
    return ("{\n" + ",\n".join(found) + "\n}\n").encode()


def document(scale: int) -> bytes:
    """An XML document of 60 paragraphs times the scale, each inside the one before, with attributes, comments, entities."""
    count = 60 * scale
    opened = [f'<part n="{k}" name="{line[:20]}"><!-- {line} -->{line} &amp; &#65;' for k, line in enumerate(lines(count))]
    return ('<?xml version="1.0"?>\n' + "\n".join(opened) + "\n" + "</part>" * count + "\n").encode()


def statements(scale: int) -> bytes:
    """SQL that fills a table of 6 rows times the scale, indexes a column, groups, and joins the table to itself."""
    draw = numbers(1000)
    rows = [f"INSERT INTO t VALUES ({k}, '{word}', {next(draw)});" for k, word in enumerate(words(6 * scale))]
    queries = [
        "SELECT count(*), min(word), max(amount) FROM t;",
        "SELECT word, sum(amount) AS s FROM t GROUP BY word ORDER BY s DESC LIMIT 3;",
        "SELECT count(*) FROM t AS a, t AS b WHERE a.amount + 1 = b.amount + 0;",
    ]
    begin = ["CREATE TABLE t (id INTEGER PRIMARY KEY, word TEXT, amount INTEGER);", "BEGIN;"]
    return "\n".join([*begin, *rows, "COMMIT;", "CREATE INDEX w ON t (word);", *queries, ""]).encode()


def script(scale: int) -> bytes:
    """A Lua script that counts and sorts words, inserts at the front of a list, and joins strings."""
    return f"""local seed, count, list = {SEED}, {{}}, {{}}
local function draw(n) seed = (seed * 1103 + 12345) % 2147483; return seed % n end
for i = 1, {14 * scale} do
  local word = string.char(97 + draw(26), 97 + draw(26))
  count[word] = (count[word] or 0) + 1
  table.insert(list, 1, word)
end
table.sort(list)
local text = ""
for i = 1, #list do text = text .. list[i]:upper() end
local keys = {{}}
for key in pairs(count) do keys[#keys + 1] = key end
table.sort(keys, function(a, b) return count[a] > count[b] or count[a] == count[b] and a < b end)
while #list > 0 do table.remove(list, 1) end
print(#text, #keys, keys[1], count[keys[1]], (text:gsub("A.", "")):sub(1, 20))
""".encode()


def source(scale: int) -> bytes:
    """A C source of 12 macros and 12 functions times the scale; each macro uses the one before it in its block of four."""
    found = []
    for k, line in enumerate(lines(12 * scale)):
        inner = f"STEP_{k - 1}(x)" if k % 4 else "(x)"
        found.append(f"#define STEP_{k}(x) ({inner} * {k % 97} + (x)) /* {line} */")
        found.append(f"#if {k} % 3\nstatic int step_{k}(int x) {{ return STEP_{k}(x) + STEP_{k}(x + 1); }}\n#endif")
    return ("\n".join(found) + "\n").encode()
