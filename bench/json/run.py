#!/usr/bin/env python3
"""Prints how fast values of 1 MB are read and printed as JSON, beside Python's `json` module on the same bytes.

Run it at the top of the repository after `rt run` in crates/bench, or let it build the program itself.
Each line: the shape, then MB/s for reading and for printing of this project and of Python (best of 15 turns each).
"""
import json
import os
import random
import shutil
import subprocess
import sys
import tempfile
import time

TOP = os.path.dirname(os.path.dirname(os.path.dirname(os.path.abspath(__file__))))
CRATE = os.path.join(TOP, "crates", "bench")
PROGRAM = os.path.join(CRATE, "out", "bench")
SIZE = 1_000_000
TURNS = 15

SHAPES = {
    "integers": lambda n: [random.randint(-10**6, 10**6) for _ in range(n)],
    "texts": lambda n: ["text number %d with some words" % i for i in range(n)],
    "long text": lambda n: ["a" * min(n * 10, SIZE - 100_000)],
    "object": lambda n: {"key%06d" % i: i for i in range(n)},
    "records": lambda n: [{"id": i, "on": i % 2 == 0, "tag": "t%d" % (i % 97)} for i in range(n)],
    "Map": lambda n: {"$map": [[i * 7919 % 1000003, "v%d" % i] for i in range(n)]},
    "Set": lambda n: {"$set": [i * 7919 % 1000003 for i in range(n)]},
    "nested": lambda n: [[[[i, [True, None]]]] for i in range(n)],
}


def text_of(value):
    return json.dumps(value, separators=(",", ":"), ensure_ascii=False).encode()


def filled(make):
    """The text of the shape at about SIZE bytes."""
    count = SIZE * 1000 // len(text_of(make(1000)))
    while len(text_of(make(count))) > SIZE:
        count = count * 199 // 200
    return text_of(make(count))


def python_times(text):
    read = printed = float("inf")
    for _ in range(TURNS):
        start = time.perf_counter()
        value = json.loads(text)
        read = min(read, time.perf_counter() - start)
        start = time.perf_counter()
        json.dumps(value, separators=(",", ":"))
        printed = min(printed, time.perf_counter() - start)
    return read, printed


def own_times(path):
    words = subprocess.run([PROGRAM, "json", path], check=True, capture_output=True, text=True).stdout.split()
    return int(words[0]) / 1e6, int(words[1]) / 1e6


def main():
    if not os.path.exists(PROGRAM):
        if shutil.which("rt") is None:
            print("skipped: there is no built crates/bench, and no rt to build it")
            return 0
        subprocess.run(["rt", "run"], cwd=CRATE, check=True, stdin=subprocess.DEVNULL, stdout=subprocess.DEVNULL)
    print("%-10s %10s %10s %10s %10s" % ("MB/s", "read", "python", "print", "python"))
    for name, make in SHAPES.items():
        random.seed(1)
        text = filled(make)
        with tempfile.NamedTemporaryFile() as file:
            file.write(text)
            file.flush()
            own = own_times(file.name)
        other = python_times(text)
        rates = [len(text) / 1e6 / t for t in (own[0], other[0], own[1], other[1])]
        print("%-10s %10.0f %10.0f %10.0f %10.0f" % (name, *rates))
    return 0


if __name__ == "__main__":
    sys.exit(main())
