#!/usr/bin/env python3
"""Runs a program on every cut and every single-byte change of one of its files.

  damage.py PROGRAM [FILE-BEFORE] FILE [STEP]

PROGRAM is a path, as target/bin/hall_run. FILE is damaged; FILE-BEFORE, where there is one, is passed before it as it is. With
STEP, of the 255 changes of a byte only every STEP-th is tried. Each run must end within ten seconds with status 0 and nothing
on standard error, or with status 1 and one line there; where a ring is found,
with status 1 and nothing there.
"""
import os
import subprocess
import sys
import tempfile


def variants(good, step):
    for cut in range(len(good)):
        yield f"cut at {cut}", good[:cut]
    for at in range(len(good)):
        for by in range(1, 256, step):
            yield f"byte {at} changed by {by}", good[:at] + bytes([(good[at] + by) % 256]) + good[at + 1:]


def ends_well(command):
    run = subprocess.run(command, capture_output=True, timeout=10)
    lines = run.stderr.count(b"\n")
    ring = run.stdout.startswith(b"ring ")
    return (run.returncode, lines) in ((0, 0), (1, 1)) or (ring and run.returncode == 1 and lines == 0)


def main():
    words = sys.argv[1:]
    step = int(words.pop()) if words[-1].isdigit() else 1
    program, *before, name = words
    good = open(name, "rb").read()
    tried = 0
    with tempfile.TemporaryDirectory() as folder:
        damaged = os.path.join(folder, "damaged")
        for what, data in variants(good, step):
            with open(damaged, "wb") as file:
                file.write(data)
            if not ends_well([program, *before, damaged]):
                sys.exit(f"{program} on {name}, {what}: ended badly")
            tried += 1
    print(f"{program} on {name}: {tried} damaged files, each read to its end or to a fault")


main()
