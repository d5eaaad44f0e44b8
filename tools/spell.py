#!/usr/bin/env python3
"""Gives the repository's own definitions and lemmas the spelling of today's Rattle: snake case for values and
lemmas, upper camel case for types and facts, by the table spelling.tsv beside this script (old, a tab, new).

usage: python3 tools/spell.py [CHECKOUT]      once, right after the kit's port.py, on what it made

It turns whole names: everywhere in .antt files, and in .rt files in clauses, ghost blocks and `ghost use` items
alone, so functions of src/, strings, inputs and outputs keep their names. The kit's own respeller does the work."""
import os
import subprocess
import sys

HERE = os.path.dirname(os.path.realpath(__file__))
SNAKE = "/opt/rattle/port/notes/2026-11-18-names-are-in-snake-case/snake.py"


def main():
    top = sys.argv[1] if len(sys.argv) > 1 else os.path.dirname(HERE)
    words = [sys.executable, SNAKE, "--table", os.path.join(HERE, "spelling.tsv"), "--only", "antt,rt", "--prose", "none"]
    return subprocess.run(words + [os.path.join(top, "crates")], check=False).returncode


if __name__ == "__main__":
    sys.exit(main())
