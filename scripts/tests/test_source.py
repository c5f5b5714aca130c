"""Names, files and lines that the executable has, and names as people write them."""
from __future__ import annotations

import shutil
import subprocess
import tempfile
import unittest
from pathlib import Path

from aprof_show.model import Routine
from aprof_show.names import brief_of, shorten
from aprof_show.source import DEMANGLERS, SYMBOLIZERS, BadImage, demangle, lines_of_image, name_routines, read_symbols
from aprof_show.words import Refused, named
from tests.samples import ROOT, stored

WORDS = ROOT / "examples/words/words"
CLANG = ["clang", "--target=riscv32", "-march=rv32ima", "-mabi=ilp32", "-nostdlib", "-static", "-fuse-ld=lld", "-g", "-O1"]


class Names(unittest.TestCase):
    def test_names_are_those_of_aprof(self) -> None:
        """Of several symbols at one address it takes the one that aprof takes."""
        symbols = read_symbols(str(WORDS))
        routines = stored("examples/words/report.txt").routines
        bare = [Routine(routine.entry, None) for routine in routines]
        name_routines(bare, symbols, "words")
        name_routines(routines, symbols, "words")
        with self.assertRaisesRegex(BadImage, "bubble is not the image of this report: it has no main at 00011f74"):
            name_routines(routines, read_symbols(str(ROOT / "examples/bubble/bubble")), "bubble")
        self.assertEqual([routine.label for routine in bare], [routine.name for routine in routines])

    def test_between_symbols(self) -> None:
        main = next(address for address, name in read_symbols(str(WORDS)) if name == "main")
        routine, low = Routine(main + 0x12, None), Routine(4, None)
        name_routines([routine, low], read_symbols(str(WORDS)), "words")
        self.assertEqual((routine.label, low.label), ("main+0x12", "00000004"))

    def test_bad_images(self) -> None:
        whole = WORDS.read_bytes()
        with tempfile.TemporaryDirectory() as folder:
            path = Path(folder, "image")
            for data in (b"", b"\x7fELF", b"\x7fELF\x02\x01" + bytes(100), whole[:5000], whole[:60]):
                path.write_bytes(data)
                with self.assertRaises(BadImage):
                    read_symbols(str(path))

    @unittest.skipUnless(any(shutil.which(command[0]) for command in DEMANGLERS), "no c++filt (binutils or llvm)")
    def test_names_of_other_languages(self) -> None:
        names = ("_ZN5store3getEi", "main", "_RNvCs1234_7mycrate3foo", "_Zbad")
        routines = [Routine(place, name) for place, name in enumerate(names)]
        demangle(routines)
        self.assertEqual(routines[0].label, "store::get(int)")
        self.assertEqual(routines[1].label, "main")
        self.assertIn("mycrate", routines[2].label)
        self.assertEqual(routines[3].label, "_Zbad")
        shorten(routines)
        self.assertEqual([routine.label for routine in routines][::3], ["store::get", "_Zbad"])
        for name in ("_ZN5store3getEi", "store::get(int)", "store::get"):
            self.assertTrue(routines[0].is_called(name))

    def test_short_names(self) -> None:
        for name, brief in (
            ("operator delete[](void*)", "operator delete[]"),
            ("std::__1::vector<int, std::__1::allocator<int> >::operator[](unsigned int) const", "std::vector<>::operator[]"),
            ("void std::__1::sort<int*>(int*, int*)", "std::sort<>"),
            ("bool std::__1::operator==<char>(std::__1::basic_string<char> const&, int)", "std::operator==<>"),
            ("std::__1::function<void (int)>::operator()(int) const", "std::function<>::operator()"),
            ("(anonymous namespace)::f(int)", "f"),
            ("a::operator->() const", "a::operator->"),
            ("Box<(3>2)>::~Box()", "Box<(3>2)>::~Box()"),
            ("f(int)::Local::g(char)", "f()::Local::g"),
            ("A::f(int) const::{lambda(int)#1}::operator()(int) const", "A::f()::{lambda#1}::operator()"),
            ("void sort<A<int>::f() const::{lambda(int)#1}&>(int*, A<int>::f() const::{lambda(int)#1}&)", "sort<>"),
            ("main::{lambda(int (*)(char))#2}::operator()(int) const", "main::{lambda#2}::operator()"),
            ("bool operator< <int>(A<int> const&)", "operator< <>"),
            ("A<int> operator-<int>(A<int>)", "operator-<>"),
            ("A::f(int)::$_0::operator()(int) const", "A::f()::$_0::operator()"),
            ("decltype(auto) f<int>()", "decltype(auto) f<int>()"),
        ):
            self.assertEqual(brief_of(name), brief)

    def test_a_short_name_of_two_routines_is_not_used(self) -> None:
        routines = [Routine(1, "_Z3addi", shown="add(int)"), Routine(2, "_Z3addd", shown="add(double)"), Routine(3, "sub")]
        shorten(routines)
        self.assertEqual([routine.label for routine in routines], ["add(int)", "add(double)", "sub"])

    def test_template_arguments_tell_apart(self) -> None:
        cases = (
            ("Queue<Order>::pop()", "Queue<Order>::pop"), ("Queue<Other>::pop()", "Queue<Other>::pop"),
            ("Queue<Order>::~Queue()", "Queue<>::~Queue"), ("Queue<Order>::~Queue()", "Queue<>::~Queue"),
            ("f(A<int> const&)", "f(A<> const&)"), ("f(B<int>)", "f(B<>)"), ("g(int)", "g(int)"),
            ("run(int)", "run(int)"), ("(anonymous namespace)::run(int)", "(anonymous namespace)::run(int)"),
        )  # fmt: skip
        routines = [Routine(place, f"_Z{place}", shown=name) for place, (name, _) in enumerate(cases)] + [Routine(99, "g")]
        shorten(routines)
        self.assertEqual([routine.label for routine in routines], [label for _, label in cases] + ["g"])
        with self.assertRaisesRegex(Refused, "there are Queue<Order>::pop and Queue<Other>::pop "):
            named(routines, "Queue<>::pop")


@unittest.skipUnless(shutil.which("clang") and shutil.which("ld.lld"), "no clang and lld to build an image by")
@unittest.skipUnless(any(shutil.which(program) for program in SYMBOLIZERS), "no llvm-symbolizer (llvm) and no addr2line")
class Lines(unittest.TestCase):
    def test_lines(self) -> None:
        with tempfile.TemporaryDirectory() as folder:
            source, image = Path(folder, "a.c"), Path(folder, "a")
            source.write_text("int f(int x)\n{\n    return x * 3;\n}\nvoid _start(void)\n{\n    f(1);\n}\n")
            subprocess.run([*CLANG, "-o", image, source], check=True, capture_output=True)
            entries = {name: address for address, name in read_symbols(str(image))}
            lines = lines_of_image(str(image), entries.values(), True)
            inside = lines_of_image(str(image), [entries["f"], 0], False)
        self.assertEqual(lines, {entries["f"]: f"{source}:1", entries["_start"]: f"{source}:5"})
        self.assertEqual(inside, {entries["f"]: f"{source}:3"})

    def test_without_lines(self) -> None:
        self.assertEqual(lines_of_image(str(WORDS), [0x12318], True), {})
