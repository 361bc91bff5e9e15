#!/usr/bin/env python3
"""core.py LIBRARIES PROGRAM: the table of core.sh. LIBRARIES is the folder of the C library that the program was linked with."""
import os
import subprocess
import sys

SHAPES = {
    "chain": "a chain of calls",
    "independent": "independent calls",
    "scatter": "one scatter",
    "array": "an array of all outputs",
    "nested": "a scatter in a scatter, with an outer array",
}
JOBS = (1250, 2500, 5000, 10000, 20000)
ROUNDS = 3


def run(shape, jobs):
    """The processor seconds of the core, and the MB of the program."""
    libraries, program = sys.argv[1:]
    loader = [f"{libraries}/ld-linux-x86-64.so.2", "--inhibit-cache", "--library-path", libraries]
    child = subprocess.Popen([*loader, program, shape, str(jobs)], stdout=subprocess.PIPE, text=True)
    said = child.stdout.read().split()
    _, ended, used = os.wait4(child.pid, 0)
    child.returncode = os.waitstatus_to_exitcode(ended)
    if child.returncode != 0 or said[::2] != [str(jobs), "true"]:
        sys.exit(f"core.py: {shape} {jobs} ended with {child.returncode}: {' '.join(said)}")
    return float(said[1]), used.ru_maxrss / 1024


def table(shape):
    """Prints the rows of a shape. Answers whether it keeps within the limits."""
    print(f"{SHAPES[shape]}\n      jobs  seconds  ratio      MB")
    times = []
    for jobs in JOBS:
        runs = [run(shape, jobs) for _ in range(ROUNDS)]
        seconds, memory = min(it for it, _ in runs), max(it for _, it in runs)
        ratio = f"{seconds / times[-1]:.2f}" if times else ""
        print(f"{jobs:10}  {seconds:7.3f}  {ratio:>5}  {memory:6.0f}", flush=True)
        times.append(seconds)
    mean = (times[-1] / times[0]) ** (1 / (len(times) - 1))
    print(f"a doubling takes {mean:.2f} times the time")
    return mean <= 2.3 and seconds < 3 and memory < 1000


print(f"load {os.getloadavg()[0]:.1f}, {os.cpu_count()} processors")
sys.exit(not all([table(shape) for shape in SHAPES]))
