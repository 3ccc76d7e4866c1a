#!/usr/bin/env python3
"""Times `pipeflex summary M` for growing M, beside one sparse Cholesky solve of a matrix of the same pattern by CHOLMOD.

usage: bench.py PROGRAM [M ..]

Prints a table for docs/PERFORMANCE.md. Instructions are counted where valgrind or perf is there, and CHOLMOD runs where
libsuitesparse-dev and a C compiler are; what is missing is said and left out.
"""

import os
import re
import shutil
import subprocess
import sys
import tempfile
import time

SIZES = [25, 50, 100, 200, 400]
WORKERS = ["--workers", "1"]
RUNS = 3


def timed(command):
    """The least time in seconds of RUNS runs, the greatest memory in MB, and what was written."""
    least, most = None, 0
    for _ in range(RUNS):
        begin = time.perf_counter()
        child = subprocess.Popen(command, stdout=subprocess.PIPE)
        output = child.stdout.read()
        _, status, usage = os.wait4(child.pid, 0)
        took = time.perf_counter() - begin
        child.returncode = os.waitstatus_to_exitcode(status)
        if child.returncode not in (0, 1):
            sys.exit(f"{' '.join(command)} ended with {child.returncode}")
        least = took if least is None else min(least, took)
        most = max(most, usage.ru_maxrss)
    return least, most / 1024, output.decode()


def instructions(command):
    """How many instructions a run takes, or None where nothing counts them."""
    if shutil.which("perf"):
        run = subprocess.run(
            ["perf", "stat", "-x", ",", "-e", "instructions:u", *command],
            stdout=subprocess.DEVNULL, stderr=subprocess.PIPE, text=True)
        found = re.search(r"^(\d+),", run.stderr, re.MULTILINE)
        if found:
            return int(found.group(1))
    if shutil.which("valgrind"):
        with tempfile.TemporaryDirectory() as place:
            run = subprocess.run(
                ["valgrind", "--tool=callgrind", f"--callgrind-out-file={place}/out", *command],
                stdout=subprocess.DEVNULL, stderr=subprocess.PIPE, text=True)
        found = re.search(r"Collected\s*:\s*(\d+)", run.stderr)
        if found:
            return int(found.group(1))
    return None


def built_cholmod(place):
    """The comparison program, or None with the reason said."""
    compiler = shutil.which("cc")
    if compiler is None:
        print("no C compiler: CHOLMOD is left out", file=sys.stderr)
        return None
    source = os.path.join(os.path.dirname(os.path.abspath(__file__)), "cholmod.c")
    target = os.path.join(place, "cholmod")
    made = subprocess.run(
        [compiler, "-O2", source, "-I/usr/include/suitesparse", "-lcholmod", "-lm", "-o", target],
        stderr=subprocess.PIPE, text=True)
    if made.returncode != 0:
        print("CHOLMOD is left out: libsuitesparse-dev is missing, or doesn't link", file=sys.stderr)
        return None
    return target


def counts(output):
    """The nodes that a summary counts."""
    found = re.fullmatch(r"summary \d+ nodes (\d+) certified \d+ uncertified \d+\n", output)
    if found is None:
        sys.exit(f"no summary: {output!r}")
    return int(found.group(1))


def shown(number, form):
    return "-" if number is None else format(number, form)


def main():
    if len(sys.argv) < 2:
        sys.exit(__doc__)
    program = sys.argv[1]
    sizes = [int(word) for word in sys.argv[2:]] or SIZES
    print("| M | nodes | seconds | MB | instructions a node | ms a node | CHOLMOD, ms | ratio |")
    print("|---|---|---|---|---|---|---|---|")
    taken = {}
    with tempfile.TemporaryDirectory() as place:
        cholmod = built_cholmod(place)
        for size in sizes:
            command = [program, "summary", str(size), *WORKERS]
            seconds, memory, output = timed(command)
            nodes = counts(output)
            taken[size] = seconds
            count = instructions(command)
            each = None if count is None else count / nodes
            other = ratio = None
            if cholmod is not None:
                other = float(timed([cholmod, str(nodes)])[2]) * 1000
                ratio = seconds * 1000 / other
            print(f"| {size} | {nodes} | {seconds:.3f} | {memory:.1f} | {shown(each, ',.0f')} | "
                  f"{seconds * 1000 / nodes:.3f} | {shown(other, '.3f')} | {shown(ratio, ',.0f')} |", flush=True)
    if 100 in taken and 400 in taken:
        print(f"\nFrom 100 to 400 loops the time grows {taken[400] / taken[100]:.2f} times.")


if __name__ == "__main__":
    main()
