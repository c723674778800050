"""Draws the two pictures of docs/RULES.md:  grid.py FOLDER"""

from __future__ import annotations

import sys
from pathlib import Path

import globe
import octant

if __name__ == "__main__":
    for name, picture in {"octant.svg": octant.draw(), "globe.svg": globe.draw()}.items():
        file = Path(sys.argv[1], name)
        file.write_bytes(picture.encode())
        print(f"drawn: {file}")
