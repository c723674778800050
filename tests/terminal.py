"""Where standard error is a terminal, a run over many days shows its progress there and removes the
line in the end; where it is not, it shows nothing:  terminal.py COMMAND"""

from __future__ import annotations

import os
import pty
import subprocess
import sys
import tempfile
from array import array
from pathlib import Path


def main(command: str) -> None:
    with tempfile.TemporaryDirectory() as temporary:
        days = Path(temporary, "days")
        days.mkdir()
        for day in range(1, 6):
            date = f"2026-03-0{day}"
            Path(days, f"{date}.temperatures").write_bytes(array("f", [16.0] * 8).tobytes())
            Path(days, f"{date}.cloud").write_bytes(b"\0")
        new = [command, "chart", "new", "--level", "0", "--date", "2026-02-28", "chart"]
        subprocess.run(new, cwd=temporary, check=True)
        words = [command, "day", "--rings", "1", "--limit", "2", "days", "chart", "--to", "other"]
        plain = subprocess.run(words, cwd=temporary, capture_output=True, check=True)
        assert plain.stderr == b"", plain.stderr

        ours, theirs = pty.openpty()
        shown = subprocess.run(words, cwd=temporary, stdout=subprocess.PIPE, stderr=theirs)
        os.close(theirs)
        said = b""
        try:
            while more := os.read(ours, 4096):
                said += more
        except OSError:  # the terminal's end
            pass
        # The last line is the rate of the run.
        assert shown.returncode == 0
        assert shown.stdout.splitlines()[:-1] == plain.stdout.splitlines()[:-1]
        assert b"day 1 of 5: 2026-03-01" in said and said.endswith(b"\r\x1b[K"), said
    print("2 passed")


if __name__ == "__main__":
    main(os.path.abspath(sys.argv[1]))
