"""Short names of C++ routines, without parameters and template arguments: these are most of a line, and a column cuts them."""
from __future__ import annotations

import re
from collections import Counter
from collections.abc import Iterator, Sequence

from aprof_show.model import Routine

OPERATOR = re.compile(
    r"(?<!\w)operator(\(\)|\[\]| new\[\]| delete\[\]| new| delete|<=>|<<=|>>=|->\*|->|<<|>>|&&|\|\||\+\+|--"
    r"|[-+*/%^&|!=<>]=|[-+*/%^&|!=<>~,]| [^(<]*)?( (?=<))?"
)

LOCAL = re.compile(r"(?: const| volatile| &&?|\[[^]]*\])*::")
"""Behind parameters: what stands in a function, as a lambda, which is not that function."""

SPACE = "\0"
"""For a space that doesn't end the type before a name."""


def plain(name: str) -> str:
    """Without the parts of a path that no one writes."""
    return name.replace("(anonymous namespace)::", "").replace("std::__1::", "std::")


def brief_of(name: str, arguments: bool = False, parameters: bool = False) -> str:
    """`void std::__1::sort<int*>(int*, int*)` is `std::sort<>`, with the template arguments `std::sort<int*>`, with the
    parameters `std::sort<>(int*, int*)`. A name of another form is only made plain."""
    text = without_own(plain(name))
    head = head_of(text, arguments)
    if head is None:
        return text
    kept, end = head
    brief = kept.rpartition(" ")[2].replace(SPACE, " ").strip()
    if not re.match(r"[A-Za-z_~{$']", brief) or kept.endswith("decltype"):
        return text
    behind = end_of(text, end)
    local = LOCAL.match(text, behind)
    if local:
        return f"{brief}()::{brief_of(text[local.end():], arguments, parameters)}"
    return brief + (collapsed(text[end:behind]) if parameters else "")


def head_of(text: str, arguments: bool) -> tuple[str, int] | None:
    """What stands before the parameters, and where these begin; without what is between `<` and `>`."""
    kept, depth, place = "", 0, 0
    while place < len(text) and (depth or text[place] != "("):
        operator = None if depth else OPERATOR.match(text, place)
        token = operator[0] if operator else text[place]
        depth -= token == ">" and text[place - 1] != "-"
        if not depth or arguments or token == "<" and depth == 0:
            kept += token.replace(" ", SPACE) if operator or depth else token
        depth += token == "<"
        place += len(token)
    return None if depth else (kept, place)


def end_of(text: str, place: int) -> int:
    """Where the parameters that begin at a place end."""
    depth = 0
    for end in range(place, len(text)):
        depth += (text[end] == "(") - (text[end] == ")")
        if depth == 0:
            return end + 1
    return len(text)


def without_own(text: str) -> str:
    """Each `{lambda(int)#1}` without the parameters of the lambda."""
    while (place := text.find("{lambda(")) >= 0:
        place += len("{lambda")
        text = text[:place] + text[end_of(text, place):]
    return text


def collapsed(text: str) -> str:
    """Without what is between `<` and `>`."""
    depth, kept = 0, ""
    for letter in text:
        depth -= letter == ">"
        kept += letter if depth == 0 else ""
        depth += letter == "<"
    return kept


def shorten(routines: Sequence[Routine]) -> None:
    """Gives routines of C++ the shortest name that tells them from those of other names, where it is shorter than the whole."""
    left = [routine for routine in routines if is_of_cxx(routine)]
    names = [routine.shown or "" for routine in left]
    for forms in zip(*map(forms_of, names)):
        taken = [routine.label for routine in routines if routine.brief or not is_of_cxx(routine)]
        counts = Counter([*taken, *(form for _, form in set(zip(names, forms)))])
        for routine, form in zip(left, forms):
            if counts[form] == 1 and not routine.brief:
                routine.brief = form


def forms_of(name: str) -> Iterator[str]:
    """The shortest first."""
    yield brief_of(name)
    yield brief_of(name, arguments=True)
    yield brief_of(name, parameters=True)
    yield plain(name)


def is_of_cxx(routine: Routine) -> bool:
    return (routine.name or "").startswith("_Z") and "(" in (routine.shown or "")
