#!/usr/bin/env python3
"""Takes out of crates the answers that the check finds alone.

usage: python3 tools/spare_answers.py CHECKOUT NAME..      lowest crates first

In each named crate it takes every answer out, checks, puts back those whose goals stay open, and goes on until the
crate proves. What is left is in the checkout's files; what went is printed. Run rt tidy afterwards."""
import pathlib
import re
import subprocess
import sys

OPEN = re.compile(r"`search` did not prove (.*)$")
PLACE = re.compile(r"answers in (\S+?);")
LABEL = re.compile(r"(?:abbrev )?pub ([\w-]+) :")


def blocks(text):
    return re.split(r"\n\n+", text.strip("\n"))


def label_of(block):
    found = LABEL.match(block) or re.search(r"^(?:abbrev )?pub ([\w-]+) :", block, re.M)
    return found.group(1) if found and "goal." in block else None


def write(path, held, kept):
    left = [b for b in held if label_of(b) is None or label_of(b) in kept]
    if any(label_of(b) for b in left):
        path.parent.mkdir(parents=True, exist_ok=True)
        path.write_text("\n\n".join(left) + "\n")
    elif path.exists():
        path.unlink()


def open_goals(crate):
    run = subprocess.run(["rt", "check"], cwd=crate, capture_output=True, text=True, check=False)
    text = run.stdout + run.stderr
    found = {}
    for line in text.splitlines():
        place, goals = PLACE.search(line), OPEN.search(line)
        if place and goals:
            found[place.group(1).removeprefix("./")] = re.findall(r"`([\w-]+)`", goals.group(1))
    return run.returncode, found, text


def thin(crate):
    held = {p: blocks(p.read_text()) for p in sorted(crate.glob("proofs/**/Answers.antt"))}
    kept = {p: set() for p in held}
    for path in held:
        write(path, held[path], kept[path])
    for _ in range(30):
        code, found, text = open_goals(crate)
        if code == 0:
            break
        moved = False
        for place, goals in found.items():
            path = crate / place
            if path not in held:
                continue
            labels = {label_of(b) for b in held[path]} - {None}
            back = {l for l in labels for g in goals if g == l or g.startswith(l + "-")} - kept[path] or labels - kept[path]
            if back:
                kept[path] |= back
                write(path, held[path], kept[path])
                moved = True
        if not moved:
            for path in held:
                write(path, held[path], {label_of(b) for b in held[path]})
            return None, text
    return [(p, l) for p in held for l in map(label_of, held[p]) if l and l not in kept[p]], sum(1 for p in held for b in held[p] if label_of(b))


def main():
    top = pathlib.Path(sys.argv[1]).resolve()
    for name in sys.argv[2:]:
        spare, total = thin(top / "crates" / name)
        if spare is None:
            (top / f"{name}.spare.log").write_text(total)
            print(f"{name}: gave up, and put all back ({name}.spare.log)", flush=True)
            continue
        print(f"{name}: {len(spare)} of {total} answers went", flush=True)
        for path, label in spare:
            print(f"  {path.relative_to(top)}: {label}", flush=True)


if __name__ == "__main__":
    main()
