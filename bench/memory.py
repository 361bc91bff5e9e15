#!/usr/bin/env python3
"""memory.py STRIDE PROGRAM FOLDER: see bench/memory.sh. FOLDER holds refuse.so."""
import contextlib
import multiprocessing
import os
import shutil
import sqlite3
import struct
import subprocess
import sys

STRIDE, PROGRAM, FOLDER = int(sys.argv[1]), sys.argv[2], sys.argv[3]
STEP = """version 1.1
task step {
  input { Int i File? before }
  command <<<
    echo ~{i} >>launches
    [ ~{i} != 3 ] || [ ! -e stop ] || exit 1
    echo ~{i}
  >>>
  output { Int r = read_int(stdout()) }
  runtime { maxRetries: 1 }
}
"""
COPY = """version 1.1
task copy {
  input { File f }
  command <<<cat ~{f} > out.txt>>>
  output { File o = "out.txt" }
}
"""
EACH = """version 1.1
import "copy.wdl" as part
workflow w {
  input { Array[File] fs }
  scatter (f in fs) { call part.copy { input: f } }
  output { Array[File] os = copy.o }
}
"""
ONE = """version 1.1
task say {
  command <<<
    echo hi
  >>>
  output { String r = read_string(stdout()) }
}
workflow w { call say output { String r = say.r } }
"""
CHAIN = """workflow w {
  call step as a { input: i = 1 }
  call step as b { input: i = a.r + 1 }
  call step as c { input: i = b.r + 1 }
  call step as d { input: i = c.r + 1 }
  output { Int r = d.r }
}
"""
LANES = """workflow w {
  input { Array[Int] samples Boolean wide = true }
  scatter (sample in samples) {
    scatter (lane in [0, 1, 2]) { call step as count { input: i = 10 * sample + lane } }
    if (wide) { call step as join { input: i = length(count.r) + sample } }
  }
  output { Array[Array[Int]] counts = count.r Array[Int?] joined = join.r }
}
"""
FILES = {
    "one.wdl": ONE,
    "each.wdl": EACH,
    "copy.wdl": COPY,
    "chain.wdl": STEP + CHAIN,
    "lanes.wdl": STEP + LANES,
    "i.json": '{"w.samples": [1, 2, 4, 5, 6, 7, 8, 9, 10, 11]}',
}
SUCCEEDED = "SELECT count(*) FROM entry WHERE json_extract(body, '$.status') = 0"
# Each run: its words, whether it keeps a journal, and whether one is there at the beginning.
RUN = ["run", "--workers", "1", "--root", "run"]
RUNS = {
    "a task and its call": ([*RUN, "one.wdl"], False, False),
    "CWL of an import with a scatter": (["cwl", "each.wdl"], False, False),
    "a run that resumes": ([*RUN, "--journal", "j", "chain.wdl"], True, True),
    "a run of 40 jobs": ([*RUN, "--inputs", "i.json", "--journal", "j", "lanes.wdl"], True, False),
}


def run(words, where, refused=None):
    """Runs the program in a folder; with a number, that allocation is refused: its status, output, error, and how many allocations there were."""
    counted = os.path.join(where, "counted")
    with open(counted, "wb") as it:
        it.write(bytes(8))
    env = {"PATH": os.environ["PATH"]}
    if refused is not None:
        env |= {"LD_PRELOAD": f"{FOLDER}/refuse.so", "WDL_REFUSE": str(refused), "WDL_COUNTED": counted}
    words = [f"{where}/run" if it == "run" and at else it for at, it in enumerate(words)]
    ran = subprocess.run([PROGRAM, *words], cwd=where, env=env, stdin=subprocess.DEVNULL, capture_output=True, timeout=120)
    with open(counted, "rb") as it:
        return ran.returncode, ran.stdout, ran.stderr, struct.unpack("q", it.read())[0]


def prepare(name, where):
    """Lays down the files of a run; where it resumes, a run before it stopped at its third job."""
    words, _, is_resumed = RUNS[name]
    os.makedirs(where)
    for file, text in FILES.items():
        with open(os.path.join(where, file), "w", encoding="utf-8") as it:
            it.write(text.replace(">>launches", f">>{where}/launches").replace("-e stop", f"-e {where}/stop"))
    open(os.path.join(where, "launches"), "w", encoding="utf-8").close()
    if is_resumed:
        open(os.path.join(where, "stop"), "w", encoding="utf-8").close()
        assert run(words, where)[0] == 1
        os.remove(os.path.join(where, "stop"))


def launches(where):
    with open(os.path.join(where, "launches"), encoding="utf-8") as it:
        return len(it.readlines())


def rows(where):
    """The number of rows of the journal with status 0, where there is a journal with its table."""
    if not os.path.exists(f"{where}/j"):
        return 0
    with contextlib.closing(sqlite3.connect(f"{where}/j")) as journal:
        if not journal.execute("SELECT 1 FROM sqlite_master WHERE name = 'entry'").fetchone():
            return 0
        return journal.execute(SUCCEEDED).fetchone()[0]


def case(task):
    """Refuses one allocation of a run; returns whether its status was 7, and what is wrong, if anything."""
    name, number, want, jobs = task
    words, is_kept, _ = RUNS[name]
    where = os.path.join(FOLDER, f"{os.getpid()}-{number}")
    prepare(name, where)
    status, out, err, _ = run(words, where, number)
    wrong = None
    if (status, out, err) not in [(want[0], want[1], want[2]), (7, b"", b"no memory\n")]:
        wrong = f"status {status}, {out[-80:]!r}, {err[-80:]!r}"
    elif is_kept:
        there, before = rows(where), launches(where)
        again = run(words, where)
        if again[:2] != want[:2] or launches(where) - before != jobs - there:
            wrong = f"the second run: status {again[0]}, {launches(where) - before} launches with {there} rows of {jobs}"
    shutil.rmtree(where)
    return status == 7, wrong and f"{name}: allocation {number}: {wrong}"


def tasks(name):
    """The cases of a run: one for each allocation of an undisturbed one."""
    where = os.path.join(FOLDER, "whole")
    prepare(name, where)
    status, out, err, count = run(RUNS[name][0], where, 0)
    jobs = rows(where) if RUNS[name][1] else 0
    shutil.rmtree(where)
    assert status == 0, (name, status, err)
    step = STRIDE if name == "a run of 40 jobs" else 1
    return count, [(name, number, (status, out, err), jobs) for number in range(1, count + 1, step)]


def main():
    reports = 0
    with multiprocessing.Pool() as pool:
        for name in RUNS:
            count, cases = tasks(name)
            sevens = 0
            for is_seven, wrong in pool.imap_unordered(case, cases, 8):
                sevens += is_seven
                if wrong:
                    reports += 1
                    print(wrong, flush=True)
            print(f"{name}: {count} allocations, {len(cases)} runs, {sevens} with status 7", flush=True)
    print(f"{reports} reports")
    return reports > 0


if __name__ == "__main__":
    sys.exit(main())
