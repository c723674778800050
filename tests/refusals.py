"""Compares every copy of the table of refusals with include/ticklocust.h.

The header's function, the Rust crate and the Python module show a whole sentence, the same in all
three. docs/RULES.md, 9, crates/refusal, the documentation of Rust's enum and the model have its
condition: the sentence without the figures that may follow a colon."""

from __future__ import annotations

import re
import subprocess
import sys
import tempfile
from pathlib import Path
from typing import Dict

root = Path(__file__).resolve().parent.parent
HEADER = "include/ticklocust.h"
NUMBERS = list(range(1, 13))
# The conditions whose figures only the shown sentences give.
FIGURES = {1, 2, 3, 11}
# Places are words of calls of Rattle and of the model alone, so no shown sentence mentions them.
OF_PLACES = {4: ", or no cell of the level has that place"}

PRINTER = r"""
#include <stdio.h>
#include "ticklocust.h"
int main(void) {
    for (uint32_t number = 0; number < 14; number++) puts(ticklocust_refusal_text(number));
    return 0;
}
"""

Table = Dict[int, str]


def text(name: str) -> str:
    return (root / name).read_text(encoding="utf-8")


def same(name: str, found: Table, wanted: Table) -> None:
    for number in sorted(set(found) | set(wanted)):
        ours, header = found.get(number), wanted.get(number)
        if ours != header:
            sys.exit(f"{name}: refusal {number} is\n  {ours}\nand by {HEADER} it is\n  {header}")


def plain(condition: str) -> str:
    """One spelling of what has to be written differently: signs, figures, capitals, line ends."""
    condition = " ".join(re.sub(r"\n\s*(///|//)", " ", condition).split())
    condition = re.sub(r" \(section [\d.]+\)", "", condition).rstrip(".")
    condition = condition.replace("×", "x").replace("4^k", "4^level")
    condition = re.sub(r"(?<=\d),(?=\d{3})", "", condition)
    return condition[:1].lower() + condition[1:]


def table(pairs: list[tuple[str, str]]) -> Table:
    found = {int(number): plain(words) for number, words in pairs}
    if len(found) != len(pairs):
        sys.exit(f"a number has two sentences: {pairs}")
    return found


def shown_by_c() -> Table:
    """What the header's function gives, from a program that prints it."""
    with tempfile.TemporaryDirectory() as folder:
        program = Path(folder) / "printer"
        command = ["gcc", "-std=c99", "-Wall", "-Wextra", "-Werror", f"-I{root / 'include'}"]
        source = ["-x", "c", "-", "-o", str(program)]
        subprocess.run([*command, *source], input=PRINTER, text=True, check=True)
        said = subprocess.check_output([str(program)], text=True).splitlines()
    if (said[0], said[13]) != ("the call is accepted", "there is no such refusal"):
        sys.exit(f"{HEADER}: 0 is '{said[0]}' and 13 is '{said[13]}'")
    return dict(zip(NUMBERS, said[1:13]))


def names() -> int:
    header = re.findall(r"TICKLOCUST_REFUSED_(\w+) = (\d+)", text(HEADER))
    wanted = {int(number): name for name, number in header}
    for name in "crates/refusal/src/lib.rt", "bindings/rust/src/refusal.rs":
        cases = re.findall(r"^    (\w+) = (\d+),", text(name), re.M)
        same(name, {int(number): case.upper() for case, number in cases}, wanted)
    if sorted(wanted) != NUMBERS:
        sys.exit(f"{HEADER} has the numbers {sorted(wanted)}")
    return 3


def shown(wanted: Table) -> int:
    rust = text("bindings/rust/src/refusal.rs")
    numbers = dict(re.findall(r"^    (\w+) = (\d+),", rust, re.M))
    arms = re.findall(r'Refusal::(\w+) => (?:\{\s*)?"((?:[^"\\]|\\\n\s*)*)"', rust)
    display = {int(numbers[name]): re.sub(r"\\\n\s*", "", said) for name, said in arms}
    same("bindings/rust/src/refusal.rs, Display", display, wanted)
    sys.path.insert(0, str(root / "bindings/python"))
    import ticklocust

    same("bindings/python/ticklocust.py", ticklocust._SENTENCES, wanted)
    return 2


def conditions(sentences: Table) -> int:
    wanted = {n: said.split(": ")[0] if n in FIGURES else said for n, said in sentences.items()}
    rust = re.findall(r"/// (\d+): (.*?)\n    \w+ = ", text("bindings/rust/src/refusal.rs"), re.S)
    same("bindings/rust/src/refusal.rs, documentation", table(rust), wanted)

    wanted = {number: said + OF_PLACES.get(number, "") for number, said in wanted.items()}
    rows = re.findall(r"^\| (\d+) \| (.+?) \| `", text("docs/RULES.md"), re.M)
    same("docs/RULES.md, 9", table(rows), wanted)
    case = r"^    // ((?:.|\n    //)+?)\n    \w+ = (\d+),"
    constant = r"^///? ((?:.|\n//)+?)\npub const \w+: u32 = (\d+);"
    for name, form in ("crates/refusal/src/lib.rt", case), ("model/src/refusals.rs", constant):
        found = re.findall(form, text(name), re.M)
        same(name, table([(number, words) for words, number in found]), wanted)
    return 4


sentences = shown_by_c()
print(f"{1 + names() + shown(sentences) + conditions(sentences)} passed")
