#!/usr/bin/env python3
"""bench/lanes.py: host instructions of the lane kernels against plain loops over the same 1024 stamps, at each width, by
callgrind, as the difference of two numbers of rounds. It proves and builds a program of its own in a folder of its own, over
this repository's crates stamps and stamp_lanes. Each kernel and each loop stands in a function of its own that is not
inlined. It prints a table of the counts, and one of the vector instructions in the code of each kernel at each width."""
from __future__ import annotations

import re
import shutil
import subprocess
import sys
import tempfile
from collections import Counter
from dataclasses import dataclass
from pathlib import Path

import host
from host import TOP, Word

# Each kernel, and the function of the program that holds it.
KERNELS = {
    "least_greatest": "lanes_extremes",
    "classes_into": "lanes_classes",
    "renew_into": "lanes_renewals",
    "bulk_read": "lanes_read",
}
WIDTHS = {"u8": 255, "u16": 65535, "u32": 4294967295}

HEAD = """\
//! The lane kernels, and plain loops that do the same.
#![tactic(auto)]
ghost use Rattle.std.specs.Prelude.{◌≡◌, ◌≤◌, ◌+◌, ◌*◌, ◌^◌, All, length, map, true};

use stamp_lanes::{Bulk, Lanes};
use std::env;
use std::process::ExitCode;

const PLACES: usize = 1024;
"""

# One width: STAMP is the type, and NAME stands in the names of the functions.
WIDTH = """
// Stamps that are at most 15.
fn column_NAME(seed: u32) -> [STAMP; PLACES] {
    let mut number = seed;
    let mut column = [0; PLACES];
    for i in 0..PLACES {
        number = number.wrapping_mul(1_664_525).wrapping_add(1_013_904_223);
        column[i] = ((number >> 28) & 15) as STAMP;
    }
    column
}

#[inline(never)]
fn lanes_extremes_NAME(stamps: &[STAMP]) -> Option<(STAMP, STAMP)> {
    STAMP::least_greatest(stamps)
}

#[inline(never)]
fn plain_extremes_NAME(stamps: &[STAMP]) -> Option<(STAMP, STAMP)> {
    let mut found = None;
    for stamp in stamps {
        let n = *stamp;
        found = match found {
            None => Some((n, n)),
            Some((least, greatest)) => Some((n.min(least), n.max(greatest))),
        };
    }
    found
}

fn extremes_NAME(by_lanes: bool, rounds: usize) -> u32 {
    let mut stamps = column_NAME(1);
    let mut sum = 0_u32;
    for round in 0..rounds {
        let at = round % PLACES;
        stamps[at] = stamps[PLACES - 1 - at];
        let found = if by_lanes {
            lanes_extremes_NAME(&stamps)
        } else {
            plain_extremes_NAME(&stamps)
        };
        if let Some((least, greatest)) = found {
            sum = sum.wrapping_add(u32::from(least ^ greatest));
        }
    }
    sum
}

#[inline(never)]
fn lanes_classes_NAME(stamps: &[STAMP], starts: &[STAMP], into: &mut [STAMP])
    requires lengths { length stamps.now ≡ length into.old }
    requires room { length starts.now ≤ MOST }
{
    STAMP::classes_into(stamps, starts, 0, into);
}

#[inline(never)]
fn plain_classes_NAME(stamps: &[STAMP], starts: &[STAMP], into: &mut [STAMP]) {
    for i in 0..stamps.len().min(into.len()) {
        let mut class: STAMP = 0;
        for start in starts {
            if *start <= stamps[i] {
                class = class.wrapping_add(1);
            }
        }
        into[i] = class;
    }
}

fn classes_NAME(by_lanes: bool, rounds: usize) -> u32 {
    let mut stamps = column_NAME(2);
    let starts: [STAMP; 4] = [3, 5, 8, 12];
    let mut into: [STAMP; PLACES] = [0; PLACES];
    let mut sum = 0_u32;
    for round in 0..rounds {
        let at = round % PLACES;
        stamps[at] = stamps[PLACES - 1 - at];
        if by_lanes {
            lanes_classes_NAME(&stamps, &starts, &mut into);
        } else {
            plain_classes_NAME(&stamps, &starts, &mut into);
        }
        sum = sum.wrapping_add(u32::from(into[at]));
    }
    sum
}

#[inline(never)]
fn lanes_renewals_NAME(own: &[STAMP], own_class: &[STAMP], write: &[STAMP], write_class: &[STAMP], into: &mut [STAMP])
    requires lengths { (length own.now ≡ length into.old)
        × (length own_class.now ≡ length into.old)
        × (length write.now ≡ length into.old)
        × (length write_class.now ≡ length into.old) }
    requires room { All (λ k. 3 * k + 2 ≤ MOST) own_class.now }
{
    STAMP::renew_into(own, own_class, write, write_class, into);
}

#[inline(never)]
fn plain_renewals_NAME(own: &[STAMP], own_class: &[STAMP], write: &[STAMP], write_class: &[STAMP], into: &mut [STAMP]) {
    let places = own.len().min(own_class.len()).min(write.len()).min(write_class.len()).min(into.len());
    for i in 0..places {
        let first = own_class[i].wrapping_mul(3);
        into[i] = if own[i] == 0 {
            0
        } else if own_class[i] != write_class[i] || own[i] < write[i] {
            first
        } else if own[i] == write[i] {
            first.wrapping_add(1)
        } else {
            first.wrapping_add(2)
        };
    }
}

// Whether there are three stamps for each class.
fn are_few_NAME(classes: &[STAMP]) -> bool
    ensures { result ≡ true → All (λ k. 3 * k + 2 ≤ MOST) classes.now }
{
    classes.iter().all(|class| 3 * u64::from(*class) + 2 <= MOST)
}

fn renewals_NAME(by_lanes: bool, rounds: usize) -> u32 {
    let mut own = column_NAME(3);
    let write = column_NAME(4);
    let class: [STAMP; PLACES] = [2; PLACES];
    let mut into: [STAMP; PLACES] = [0; PLACES];
    let mut sum = 0_u32;
    if !are_few_NAME(&class) {
        return 0;
    }
    for round in 0..rounds {
        let at = round % PLACES;
        own[at] = own[PLACES - 1 - at];
        if by_lanes {
            lanes_renewals_NAME(&own, &class, &write, &class, &mut into);
        } else {
            plain_renewals_NAME(&own, &class, &write, &class, &mut into);
        }
        sum = sum.wrapping_add(u32::from(into[at]));
    }
    sum
}

#[inline(never)]
fn lanes_read_NAME(own: &mut [STAMP], write: &[STAMP], marks: &[u8], start: STAMP, now: STAMP) -> Bulk
    requires lengths { (length own.old ≡ length write.now) × (length own.old ≡ length marks.now) }
    requires few { length own.old ≤ 2 ^ 30 }
{
    STAMP::bulk_read(own, write, marks, start, now)
}

#[inline(never)]
fn plain_read_NAME(own: &mut [STAMP], write: &[STAMP], marks: &[u8], start: STAMP, now: STAMP) -> Bulk {
    let mut counts = Bulk {
        plain: 0,
        thread: 0,
        kernel: 0,
        untouched: 0,
        old: 0,
    };
    let places = own.len().min(write.len()).min(marks.len());
    for i in 0..places {
        let (touch, other) = (own[i], write[i]);
        if touch == 0 {
            counts.untouched = counts.untouched.wrapping_add(1);
            if other == 0 {
                counts.plain = counts.plain.wrapping_add(1);
            }
        } else if touch < start {
            counts.old = counts.old.wrapping_add(1);
        }
        if touch < other {
            match marks[i] {
                0 => counts.thread = counts.thread.wrapping_add(1),
                _ => counts.kernel = counts.kernel.wrapping_add(1),
            }
        }
    }
    if counts.old == 0 {
        for i in 0..places {
            own[i] = now;
        }
    }
    counts
}

fn reads_NAME(by_lanes: bool, rounds: usize) -> u32 {
    let mut own = column_NAME(5);
    let mut write = column_NAME(6);
    let marks = [0_u8; PLACES];
    let mut sum = 0_u32;
    for round in 0..rounds {
        let at = round % PLACES;
        write[at] = write[PLACES - 1 - at];
        let counts = if by_lanes {
            lanes_read_NAME(&mut own, &write, &marks, 1, 9)
        } else {
            plain_read_NAME(&mut own, &write, &marks, 1, 9)
        };
        sum = sum.wrapping_add(counts.thread ^ counts.plain);
    }
    sum
}

fn run_NAME(kernel: usize, by_lanes: bool, rounds: usize) -> u32 {
    match kernel {
        0 => extremes_NAME(by_lanes, rounds),
        1 => classes_NAME(by_lanes, rounds),
        2 => renewals_NAME(by_lanes, rounds),
        _ => reads_NAME(by_lanes, rounds),
    }
}
"""

MAIN = """
// The words: the kernel's number, the width's number, whether by lanes, the rounds.
fn main(rt: HostRuntime) -> ExitCode {
    let mut numbers = [0_usize; 4];
    if let Ok(args) = env::args(&rt) {
        let mut place = 0_usize;
        for word in args.skip(1).take(4) {
            if let Ok(number) = word.parse::<u32>() {
                if place < 4 {
                    numbers[place] = number as usize;
                    place += 1;
                }
            }
        }
    }
    let [kernel, width, by_lanes, rounds] = numbers;
    let sum = match width {
        0 => run_u8(kernel, by_lanes == 1, rounds),
        1 => run_u16(kernel, by_lanes == 1, rounds),
        _ => run_u32(kernel, by_lanes == 1, rounds),
    };
    ExitCode::from((sum & 1) as u8)
}
"""


def source() -> str:
    """The source of the program."""
    widths = (WIDTH.replace("STAMP", width).replace("NAME", width).replace("MOST", str(WIDTHS[width])) for width in WIDTHS)
    return "".join([HEAD, *widths, MAIN])


def build(room: Path) -> Path:
    """Builds the program in the folder and returns its path."""
    crate = room / "crates/lanes_bench"
    for name in ("stamps", "stamp_lanes"):
        shutil.copytree(TOP / "crates" / name, room / "crates" / name)
    (crate / "src").mkdir(parents=True)
    (crate / "src/main.rt").write_text(source(), encoding="utf-8")
    (room / "crates.txt").write_text("stamps:\nstamp_lanes: stamps\nlanes_bench: stamps stamp_lanes\n", encoding="utf-8")
    ran = subprocess.run(["rt", "run"], cwd=crate, capture_output=True, text=True)
    program = crate / "out/lanes_bench"
    if not program.exists():
        sys.exit(ran.stdout[-3000:] + ran.stderr[-3000:])
    return program


@dataclass(frozen=True)
class Program:
    """The built program."""

    path: Path

    def cost(self, kernel: int, width: int, by_lanes: bool) -> float:
        """The host's instructions of a round, with the kernel or with the plain loop."""
        words: list[Word] = [self.path, str(kernel), str(width), str(int(by_lanes))]
        few, many = (host.instructions([*words, rounds], statuses=(0, 1)) for rounds in ("10", "110"))
        return (many - few) / 100

    def body(self, function: str) -> str:
        """The code of a function, as objdump prints it."""
        said = subprocess.run(["objdump", "-d", "--no-show-raw-insn", self.path], capture_output=True, text=True).stdout
        bodies: list[str] = re.findall(rf"^[0-9a-f]+ <[^\n]*\b{function}\b[^\n]*>:\n((?:.+\n)*)", said, re.MULTILINE)
        if len(bodies) != 1:
            sys.exit(f"{function}: {len(bodies)} functions of that name")
        return bodies[0]


def vectors(body: str) -> str:
    """The vector instructions in a function's code, without plain moves, and how often each stands there."""
    names: list[str] = re.findall(r":\t(\w+) [^\n]*%xmm", body)
    counts = Counter(name for name in names if not name.startswith("mov") or "msk" in name)
    return ", ".join(f"`{name}` {count}" for name, count in sorted(counts.items())) or "none"


def count(program: Program) -> None:
    """Prints the counts."""
    print("| Kernel | Width | Plain | Lanes | Times |")
    print("|---|---|---|---|---|")
    for k, kernel in enumerate(KERNELS):
        for w, width in enumerate(WIDTHS):
            plain, lanes = (program.cost(k, w, by_lanes) for by_lanes in (False, True))
            print(f"| {kernel} | {width} | {plain:.0f} | {lanes:.0f} | {plain / lanes:.1f} |")


def list_vectors(program: Program) -> None:
    """Prints the vector instructions."""
    print("\n| Kernel | Width | Vector instructions |")
    print("|---|---|---|")
    for kernel, holder in KERNELS.items():
        for width in WIDTHS:
            print(f"| {kernel} | {width} | {vectors(program.body(f'{holder}_{width}'))} |")


def main() -> None:
    """Prints both tables."""
    host.parser(__doc__).parse_args()
    with tempfile.TemporaryDirectory(prefix="lanes-") as room:
        program = Program(build(Path(room)))
        count(program)
        list_vectors(program)


if __name__ == "__main__":
    main()
