"""In the place of `rt` in tests: it proves nothing, keeps what it was to prove, says and leaves what `rt ci` does, and notes what
it found."""
import hashlib
import json
import os
import signal
import subprocess
import sys
from pathlib import Path

PROGRAM = "#!/bin/sh\necho built\n"
TOP = Path.cwd()


def note(**what: object) -> None:
    with open(os.environ["FAKE_LOG"], "a") as log:
        log.write(json.dumps(what) + "\n")


def named(variable: str, crate: str) -> bool:
    return crate in os.environ.get(variable, "").split()


def listed() -> dict[str, list[str]]:
    lines = (line.partition(":") for line in (TOP / "crates.txt").read_text().splitlines())
    return {name: words.split() for name, _, words in lines}


def kept(name: str) -> Path:
    """What stands in the store once the crate is proved."""
    source = (TOP / "crates" / name / "src" / ("main.rt" if name == "aprof" else "lib.rt")).read_bytes()
    return Path(os.environ["FAKE_LOG"]).with_name("kept") / f"{name}-{hashlib.sha256(source).hexdigest()}"


def prove(name: str, deps: list[str], failed: list[str]) -> None:
    lost = [dep for dep in deps if dep in failed]
    if lost:
        failed.append(name)
        print(f"rt: {name} NOT PROVED: its library {lost[0]} failed", flush=True)
    elif kept(name).exists():
        print(f"rt: {name} is kept: an earlier run on this machine proved the same files over the same libraries", flush=True)
    else:
        note(event="begin", crate=name)
        subprocess.run(["sleep", os.environ.get("FAKE_SECONDS", "0")])
        is_refused = named("FAKE_FAIL", name)
        print(f"== {name}\nfn {name}::f: {'not ' * is_refused}proved")
        print(f"rt: {name} {'NOT PROVED' if is_refused else 'proved'}", flush=True)
        if is_refused:
            failed.append(name)
        else:
            kept(name).parent.mkdir(exist_ok=True)
            kept(name).touch()
        note(event="end", crate=name)


def build(failed: list[str]) -> None:
    if not failed:
        for ending in ("", ".by-rattle"):
            program = TOP / "crates/aprof/out" / f"aprof{ending}"
            program.parent.mkdir(exist_ok=True)
            program.write_text(PROGRAM)
            program.chmod(0o755)
    if named("FAKE_FAIL", "run"):
        print("rt: aprof: the program ended with status 1, and not 0; it said: no")
        failed.append("aprof (run)")


def ci() -> int:
    signal.signal(signal.SIGTSTP, lambda number, _frame: note(event="paused"))
    signal.signal(signal.SIGCONT, lambda number, _frame: note(event="continued"))
    files = sorted(str(path.relative_to(TOP)) for path in TOP.rglob("*") if not path.is_dir() or path.name == ".git")
    note(event="ci", words=sys.argv[1:], files=files, jobs=os.environ.get("RT_JOBS"), session=os.getsid(0))
    crates, failed = listed(), list[str]()
    for name, words in crates.items():
        prove(name, words, failed)
    build(failed)
    print(f"rt: FAILED: {' '.join(failed)}" if failed else "rt: ok; handles allowed: none")
    print(f"{len(crates) - len(failed)} passed, {len(failed)} failed")
    return 1 if failed else 0


if sys.argv[1] == "version":
    print("fake kit")
else:
    sys.exit(ci())
