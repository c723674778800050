"""Runs the examples of README.md as printed:  readme.py README FOLDER

The fenced blocks are taken in order, in one shell that starts in FOLDER. A block of `sh` is run. A
block of another language is a file, named in its first line. A block of `text` is what the block of
`sh` before it prints, on both its outputs, to the byte."""

from __future__ import annotations

import re
import shlex
import subprocess
import sys
import tempfile
from pathlib import Path

FILES = {"c", "rust", "python", "toml"}
NEEDED = {"sh", *FILES}


def blocks(text: str) -> list[tuple[str, str]]:
    return re.findall(r"^```(\w+)\n(.*?)^```$", text, re.M | re.S)


def name_of(block: str) -> str:
    """The file that a block's first line names, after the sign of a comment."""
    found = re.match(r"(?://|#|/\*) ([\w./]+)", block)
    if not found:
        sys.exit(f"README.md: no file is named in\n{block}")
    return found.group(1)


def script(examples: list[tuple[str, str]], outputs: Path) -> str:
    lines = ["set -eu"]
    for i, (language, block) in enumerate(examples):
        if language == "sh":
            lines.append(f"{{\n{block}}} >{shlex.quote(str(outputs / str(i)))} 2>&1")
        elif language in FILES:
            name = shlex.quote(name_of(block))
            lines += [f'mkdir -p "$(dirname {name})"', f"cat >{name} <<'END OF BLOCK'"]
            lines.append(f"{block}END OF BLOCK")
        elif language != "text":
            sys.exit(f"README.md: what is to be done with a block of '{language}'?")
    return "\n".join(lines) + "\n"


def main(readme: str, folder: str) -> None:
    examples = blocks(Path(readme).read_text(encoding="utf-8"))
    languages = {language for language, _ in examples}
    if NEEDED - languages:
        sys.exit(f"README.md has no example in: {', '.join(sorted(NEEDED - languages))}")
    with tempfile.TemporaryDirectory() as temporary:
        outputs, ran, last = Path(temporary), 0, None
        status = subprocess.run(["bash", "-c", script(examples, outputs)], cwd=folder).returncode
        for i, (language, block) in enumerate(examples):
            output = outputs / str(i)
            if language == "sh" and output.exists():
                last, ran = output.read_text(encoding="utf-8"), ran + 1
            if language == "text" and last is not None and last != block:
                sys.exit(f"README.md says\n{block}and it prints\n{last}")
        if status:
            sys.exit(f"README.md: status {status}, after\n{last}")
    print(f"{ran} passed")


if __name__ == "__main__":
    main(*sys.argv[1:])
