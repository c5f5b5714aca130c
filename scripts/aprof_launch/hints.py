"""What to do next behind each status of the program, and behind a guest's own exit code."""
from __future__ import annotations

import os
import re
import shlex
import signal
import subprocess
import sys
from collections.abc import Callable

from aprof_copy.called import launcher
from aprof_launch import ends, images, tables
from aprof_launch.outputs import is_begun_trace, is_whole, is_whole_report, refusals
from aprof_launch.places import has_reader, is_full, takes_nothing, why_device, why_unread
from aprof_launch.usage import usage
from aprof_launch.words import Words
from aprof_show.address import has_symbols, place_of
from aprof_show.library import musl_names

MIB = 1 << 20
FILE_LIMIT, INPUT_LIMIT, TRACE_LIMIT, ARGUMENT_LIMIT = 16 * MIB, 64 * MIB, 64 * MIB, 64 << 10


class Hints:
    """The hints for one command line: `program` is the built program, which is asked again for a number that only its text
    has, never with the output of the user."""

    def __init__(self, read: Words, program: str) -> None:
        self.read, self.program = read, program
        self.name = read.command.name if read.command else ""
        self.output = read.values.get("-o", "")

    def lines(self, status: int) -> list[str]:
        of_status: dict[int, Callable[[], list[str]]] = {
            0: self.gave_up, 1: self.bad_words, 2: self.unread, 3: self.bad_image, 4: self.unwritten, 5: self.fault, 6: self.budget,
            7: self.deadlock, 8: self.too_deep, 9: self.schedule, 10: self.memory, 11: self.too_large, 13: self.bad_trace,
        }  # fmt: skip
        if status > 128:
            return [f"signal {status - 128} ended the run{self.why_signal(status - 128)}"]
        return of_status[status]() if status in of_status else []

    def why_signal(self, number: int) -> str:
        if number == signal.SIGKILL:
            return "; where memory is short the system sends it"
        if number == signal.SIGXFSZ:
            is_lost = os.environ.get("APROF_OLDER") and not os.path.exists(self.output)
            lost = f"; what was at {self.output} before is lost" if is_lost else ""
            return f"; a file has at most the size that `ulimit -f` says{lost}"
        return ""

    def asked_again(self, *words: str) -> int | None:
        """The number at the end of what the program says to these words."""
        try:
            done = subprocess.run(
                [self.program, *words], stdin=subprocess.DEVNULL, stdout=subprocess.DEVNULL, stderr=subprocess.PIPE, timeout=20
            )
        except (OSError, subprocess.TimeoutExpired):
            return None
        found = re.search(rb"^aprof: (?:image|schedule|trace) ([0-9]+)$", done.stderr, re.MULTILINE)
        return int(found[1]) if found else None

    def image(self) -> str:
        return self.read.positionals[0]

    def gave_up(self) -> list[str]:
        """The guest ended as it wanted to, with an exit code that is not 0."""
        try:
            with open(self.output, "rb") as file:
                found = re.fullmatch(rb"end exit ([1-9][0-9]*)\n", file.readlines(200)[1])
        except (OSError, IndexError):
            return []
        if not found:
            return []
        which = "it can read those that stand behind it on the command line, in the same spelling, and write none"
        return [f"{self.image()} ended with exit code {found[1].decode()}; if it could not open a file: {which}"]

    def bad_words(self) -> list[str]:
        said = [self.read.complaint] if self.read.complaint else []
        if self.read.command is None:
            return [*said, f"`{launcher()} help` has the commands"]
        return [*said, *usage(self.read.command), f"`{launcher()} help {self.name}` says what they mean"]

    def unread(self) -> list[str]:
        for path in self.read.inputs():
            why = why_unread(path)
            if why:
                is_word = path in self.read.positionals[1:]
                if not path:
                    instead = ": write = for an empty argument" if is_word else ", and there is none"
                    return [f"an empty word names a file{instead}"]
                quoted = shlex.quote(f"={path}")
                line = f"{path}: {why}" + (f"; a word names a file: write {quoted} for an argument" if is_word else "")
                line += f"; {DASH}" if path == "-" else ""
                line += "; IMAGE stands without `=`" if path == self.image() and path.startswith("=") else ""
                return [line, *self.run_together()]
        return []

    def bad_image(self) -> list[str]:
        number = self.asked_again("run", "--budget", "1", "-o", "/dev/null", "--", self.image())
        why = images.why_bad(self.image()) if number in images.NUMBERS else ""
        rows = [why] if why else tables.image_row(number) if number is not None else []
        return [f"{self.image()}: {rows[0]}", *rows[1:], *self.run_together()] if rows else []

    def run_together(self) -> list[str]:
        """What is said where `-output` was read as `-o utput`."""
        path = self.output
        return [f"(-o{path} was read as -o {path}: write -o PATH)"] if path in RUN_TOGETHER else []

    def unwritten(self) -> list[str]:
        if sys.stdout is None:
            return ["standard output is closed"]
        if not has_reader(1):
            gone = "the reader of standard output ended before the run did"
            return [f"{gone}, and nothing is stored: write the output to a file, and read that"]
        again = [line.removeprefix("aprof: ") for line in refusals(self.read)]
        full = [f"{path}: no space left" for path in self.read.outputs() if takes_nothing(path)]
        full += ["standard output: no space left"] if takes_nothing(1) else []
        full += [f"{path}: the disk is full{self.what_is_there(path)}" for path in self.read.outputs() if is_full(path)]
        devices = [f"{path}: {why}" for path in self.read.outputs() if (why := why_device(path))]
        places = " or ".join(["standard output", *self.read.outputs()])
        other = f"{places}: no room, or the place went during the run; what was written before stands"
        return [*(again[:1] or full or devices or [other]), *self.empty_recording()]

    def empty_recording(self) -> list[str]:
        """What is said of a recording without a turn, where that isn't told with a full disk."""
        path = self.read.values.get("--record", "")
        is_empty = os.path.isfile(path) and os.path.getsize(path) == 0
        return [f"{path} is empty: no turn was stored"] if is_empty and not is_full(path) else []

    def what_is_there(self, path: str) -> str:
        """What a full disk left at a path."""
        if not os.path.isfile(path) or (path == self.output and is_whole(path)):
            return ""
        if path != self.output:
            return f"; what is there now {'may be cut off' if os.path.getsize(path) else 'is empty'}"
        is_lost = os.environ.get("APROF_OLDER")
        return "; what is there now is cut off" + (", and what was there before is lost" if is_lost else "")

    def fault(self) -> list[str]:
        fault = ends.fault_in(self.output)
        if fault is None:
            return ["`llvm-symbolizer --obj=IMAGE 0xADDRESS` names the routine, and with -g the line", *self.chain()]
        if fault.kind == 2:
            return [f"{fault.at:08x} is no code: {tables.no_code(fault.at)}", *self.chain()]
        found = place_of(self.image(), fault.at)
        if not (found.routine or found.line or has_symbols(self.image())):
            return [f"the image has no symbols: don't strip it; {tables.FAULTS.get(fault.kind, '')}", *self.chain()]
        place = f"in {found.routine or 'a routine without a name'}"
        if found.routine in musl_names() and not found.line:
            place += ", of the C library"
        else:
            place += f", {found.line}" if found.line else "; build with -g for the line"
        return [f"{place}: {tables.FAULTS.get(fault.kind, '')}", *self.chain()]

    def words_of_contexts(self) -> str:
        """The command that stores the contexts of the same run."""
        left = {name: value for name, value in self.read.values.items() if name not in ("-o", "--record", "--stats")}
        if "--record" in self.read.values:
            left["--schedule"] = self.read.values["--record"]
        options = [word for pair in left.items() for word in pair if pair[0] in CONTEXT_OPTIONS]
        return shlex.join([launcher(), "contexts", *options, "-o", "contexts.txt", *self.words()])

    def words(self) -> list[str]:
        words = self.read.positionals
        return ["--", *words] if any(word.startswith("-") for word in words) else words

    def chain(self) -> list[str]:
        """The commands that show which calls were open."""
        is_stored = self.name == "contexts" and os.path.isfile(self.output)
        show = shlex.join([launcher(), "show", "--open", "--image", self.image(), self.output if is_stored else "contexts.txt"])
        if is_stored:
            return [f"the calls that were open: {show}"]
        return ["the calls that were open:", f"  {self.words_of_contexts()}", f"  {show}"]

    def budget(self) -> list[str]:
        budget = self.read.values.get("--budget", "1000000000")
        ended = f"the run was ended after {budget} instructions, and what is stored is of these"
        return [f"{ended}: --budget N takes more", *self.chain()]

    def deadlock(self) -> list[str]:
        waits = "no thread can go on: each waits for a lock, a signal or another's end"
        return [f"{waits}; {SO_FAR}", *self.chain()]

    def too_deep(self) -> list[str]:
        bits = self.read.values.get("--stamps", "32")
        limit = {"8": "84", "16": "21844"}.get(bits, "1431655764")
        return [f"--stamps {bits} tells at most {limit} open calls apart" + ("" if bits == "32" else ": leave --stamps out") + f"; {SO_FAR}"]

    def schedule(self) -> list[str]:
        path = self.read.values.get("--schedule", "")
        number = self.asked_again("run", "--budget", "1", "--schedule", path, "-o", "/dev/null", "--", self.image())
        if number is None:
            where = f"the thread of that line of {path} can't run at that point"
            edited = "the schedule was edited, and then has to end with the last edited line"
            why = f"it waits, has ended or has not begun; {edited}, or it is of another run ({OTHER_RUNS})"
            return [f"{where}: {why}; `--record` beside `--schedule` stores the turns that are taken", SO_FAR]
        try:
            with open(path, "rb") as file:
                line = file.read().split(b"\n")[number - 1][:60].decode(errors="replace")
        except (OSError, IndexError):
            line = ""
        return [f"line {number} of {path} is {line!r}, and {tables.schedule_line(line)}"]

    def memory(self) -> list[str]:
        return ["this machine has too little memory free; `ulimit -v` may bound it too"]

    def too_large(self) -> list[str]:
        limit = TRACE_LIMIT if self.name == "replay" else FILE_LIMIT
        sizes = {path: os.path.getsize(path) for path in self.read.inputs() if os.path.isfile(path)}
        long = [f"{path} has {size} bytes: a file has at most {limit >> 20} MiB" for path, size in sizes.items() if size > limit]
        inputs = sum(size for path, size in sizes.items() if path != self.image() and path != self.read.values.get("--schedule"))
        if not long and inputs > INPUT_LIMIT:
            long = [f"the input files and standard input have {inputs} bytes: at most 64 MiB"]
        arguments = sum(len(os.fsencode(word.removeprefix("="))) + 1 for word in self.read.positionals)
        if not long and self.name != "replay" and arguments > ARGUMENT_LIMIT:
            long = [f"the arguments have {arguments} bytes: at most 64 KiB"]
        return long or [MADE.get(self.name, LIMITS)]

    def bad_trace(self) -> list[str]:
        number = self.asked_again("replay", "-o", "/dev/null", "--", self.image())
        text = tables.TRACES.get(number or 0)
        if number in (1, 4) and is_begun_trace(self.image()):
            is_empty = os.path.getsize(self.image()) == 0
            return [f"{self.image()} is empty" if is_empty else f"{self.image()} is cut off: store it again with `aprof trace`"]
        if number == 1 and is_whole_report(self.image()):
            return [f"{self.image()} is a report already: `{launcher()} show` shows it"]
        return [f"{self.image()} is not a trace as `aprof trace` stores it: {text}; store it again"] if text else []


DASH = "/dev/stdin is standard input"
RUN_TOGETHER = ("utput", "ut", "utfile")
SO_FAR = "what is stored is of the run so far"
OTHER_RUNS = "of other words or input, of another build, or of the image by another path"
CONTEXT_OPTIONS = ("--stdin", "--quantum", "--schedule", "--budget", "--stamps")
# what a command makes that may be too large, if no file that it read is
MADE = {
    "trace": "the trace has more than 64 MiB: a smaller input, or --budget N for the first N instructions",
    "contexts": "the run has more than 4294967294 calling contexts: a smaller input, or --budget N for the first N instructions",
}
LIMITS = "limits: 16 MiB a file, 64 MiB of inputs, 56 MiB of image, 64 MiB of trace, 64 KiB of arguments, 4294967294 contexts"
