#!/usr/bin/env python3
"""Runs commands in turns and says what each took.

measure.py [--empty FOLDER] ROUNDS COMMAND.. [-- COMMAND..].. prints a line for each command: the least of its wall-clock seconds, the
least of its processor seconds (its children's with them), the most memory in KiB that one of its processes took, the medians of
both times, and the medians of what both were of the first command's in the same round. With a folder, this is made empty before
each run. It ends with 1 where a command ended with another status than 0.
"""
import os
import shutil
import statistics
import subprocess
import sys
import time


def commands(words):
    """The commands that `--` parts."""
    found = [[]]
    for word in words:
        if word == "--":
            found.append([])
        else:
            found[-1].append(word)
    return found


def run(command, folder):
    """Runs a command once: its wall-clock seconds, processor seconds and KiB."""
    if folder is not None:
        shutil.rmtree(folder, ignore_errors=True)
        os.mkdir(folder)
    began = time.monotonic()
    child = subprocess.Popen(command, stdin=subprocess.DEVNULL, stdout=subprocess.DEVNULL)
    _, ended, used = os.wait4(child.pid, 0)
    took = time.monotonic() - began
    child.returncode = os.waitstatus_to_exitcode(ended)
    if child.returncode != 0:
        sys.exit(f"measure.py: {' '.join(command)} ended with {child.returncode}")
    return took, used.ru_utime + used.ru_stime, used.ru_maxrss


def line(runs, first):
    """The line of a command, by its runs and those of the first command."""
    wall, processor, memory = zip(*runs)
    of_wall = statistics.median(own[0] / other[0] for own, other in zip(runs, first))
    of_processor = statistics.median(own[1] / max(other[1], 1e-6) for own, other in zip(runs, first))
    medians = f"{statistics.median(wall):.4f} {statistics.median(processor):.4f}"
    return f"{min(wall):.4f} {min(processor):.4f} {max(memory)} {medians} {of_wall:.4f} {of_processor:.4f}"


words = sys.argv[1:]
emptied = None
if words[0] == "--empty":
    emptied = words[1]
    words = words[2:]
asked = commands(words[1:])
rounds = [[run(command, emptied) for command in asked] for _ in range(int(words[0]))]
for runs in zip(*rounds):
    print(line(runs, [taken[0] for taken in rounds]))
