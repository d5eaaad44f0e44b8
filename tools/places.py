#!/usr/bin/env python3
"""Counts, over crates/*/src/*.rt, the lines and functions that may show an older form of the language.

usage: python3 tools/places.py [CHECKOUT] [--list POINT]

Each point has its own search, by the text alone. A count is of candidates: which of them are places, and why one
stays, is for a reader (docs/DESIGN-PASS.md). Test modules and test crates are left out, comments too."""
import collections
import pathlib
import re
import sys

FUNCTION = re.compile(r"^( *)(?:pub(?:\([a-z]+\))? )?fn (\w+)")
KEYWORDS = set("fn let mut for in if else match return while true false self Self as u8 u16 u32 usize bool".split())


def sources(top):
    for path in sorted(pathlib.Path(top).glob("crates/*/src/**/*.rt")):
        crate = path.relative_to(pathlib.Path(top) / "crates").parts[0]
        if not crate.endswith("_tests"):
            lines = [line.split("//")[0].rstrip() for line in path.read_text().splitlines()]
            yield str(path.relative_to(top)), lines


def functions(lines):
    """(name, signature with its clauses, body) of each function with a body."""
    at = 0
    while at < len(lines):
        found = FUNCTION.match(lines[at])
        if not found:
            at += 1
            continue
        margin, name = found.groups()
        head, here = [], at
        while here < len(lines) and not lines[here].endswith("{") and not lines[here].endswith(";") and lines[here] != margin + "{}":
            head.append(lines[here])
            here += 1
        if here >= len(lines) or lines[here].endswith(";"):
            yield at + 1, name, head + lines[here:here + 1], []
            at = here + 1
            continue
        head.append(lines[here])
        end = here
        while end < len(lines) and lines[end] not in (margin + "}", margin + "{}"):
            end += 1
        yield at + 1, name, head, lines[here + 1:end]
        at = end + 1


def by_lines(top, patterns):
    for path, lines in sources(top):
        for number, line in enumerate(lines, 1):
            if "ghost" in line or re.match(r" *(requires|ensures)\b", line):
                continue
            if any(re.search(p, line) for p in patterns):
                yield f"{path}:{number}: {line.strip()}"


def twins(top):
    shapes = collections.defaultdict(list)
    for path, lines in sources(top):
        for number, name, _, body in functions(lines):
            words = re.findall(r"\w+|[^\w\s]", " ".join(body))
            shape = " ".join(w if w in KEYWORDS or not w[0].isalnum() else "_" for w in words)
            if len(words) > 8:
                shapes[shape].append(f"{path}:{number}: {name}")
    return [" = ".join(places) for places in shapes.values() if len(places) > 1]


def clauses(top):
    held = collections.defaultdict(set)
    for path, lines in sources(top):
        for _, name, head, _ in functions(lines):
            for line in head:
                found = re.match(r" *(requires|ensures)(?: \w+)? (\{.*\})", line)
                if found:
                    held[found.group(2)].add(f"{path}: {name}")
    return [f"{len(where)} functions: {text}" for text, where in held.items() if len(where) >= 3]


def runs(top):
    held = collections.defaultdict(set)
    for path, lines in sources(top):
        for _, name, head, _ in functions(lines):
            text = " ".join(head).split(" requires ")[0].split(" ensures ")[0]
            names = re.findall(r"(\w+): (?:&|[A-Z]|usize|u8|u16|bool)", text)
            for i in range(len(names)):
                for j in range(i + 1, len(names)):
                    held[tuple(sorted((names[i], names[j])))].add(f"{path}: {name}")
    return [f"{len(where)} functions: {' '.join(pair)}" for pair, where in sorted(held.items()) if len(where) >= 3]


POINTS = {
    "1": lambda top: list(by_lines(top, [r"\benum \w", r"\w: bool\b", r"-> bool", r"=> \d+,", r"\b0x[0-9a-f]+ =>|\(0x", r"len\(\)$"])),
    "2": twins,
    "3": lambda top: list(by_lines(top, [r"\bwhile\b", r"\bfor .* in [\w.*() ]*\.\.", r"\.enumerate\(\)", r"^ *for \w+ in (&|\w)"])),
    "4": lambda top: list(by_lines(top, [r"fn (same|alike|max|min|refusal|number|sentence|no_\w+|with_\w+|changed|add_row|show_\w+|at_start|in_body)\b",
                                         r"(\w+): (self|signal|gate)\.\1,", r"Err\(_?\w*\) => (return )?Err", r"Ok\((\(\)|\w+)\) => Ok", r"None => None", r"=> (true|false),?$"])),
    "5": lambda top: clauses(top) + runs(top),
    "6": lambda top: list(by_lines(top, [r"\[(u8|u16|u32|bool); ?[\w* ]+\]", r"Vec<", r"\b\w+_count: \w|\blen: usize"])),
    "7": lambda top: list(by_lines(top, [r"\bmatch \w+ \{", r"\bdyn\b", r"\bFn(Mut|Once)?\(", r": fn\("])),
}


def main():
    words = sys.argv[1:]
    shown = words[words.index("--list") + 1] if "--list" in words else None
    tops = [w for w in words if w != "--list" and w != shown]
    top = tops[0] if tops else "."
    for point, search in POINTS.items():
        found = search(top)
        if shown in (None, point):
            print(f"{point}: {len(found)}")
        if shown == point:
            print("\n".join(found))
    answers = list(pathlib.Path(top).glob("crates/*/proofs/**/*.antt"))
    if shown in (None, "8"):
        lines = sum(len(p.read_text().splitlines()) for p in answers)
        written = sum(len(re.findall(r"^pub [\w-]+ :", p.read_text(), re.M)) for p in answers if p.name == "Answers.antt")
        print(f"8: {len(answers)} proof files, {lines} lines, {written} answers")


if __name__ == "__main__":
    main()
