#!/usr/bin/env python3
"""Proves crates as `rt ci` does, and keeps each result by the sum of all that it depends on, so that nothing is proved twice.

    tools/prove.py [--lanes N] [--libraries] [--kept] [NAME..]
    tools/prove.py --check-kept
    tools/prove.py --costs [--log LOG]

NAMEs are crates; without one, all are meant. First all that `rt ci` wants of the files is checked
(not with --libraries where nothing is to be proved). Of each crate and of all libraries below it the
proof is done; of each crate its tests, its must-fail edits and its runs too, but not with --libraries. Where `rt ci` keeps results itself, it is what
proves, and what either proves counts for the other (rt_store.py); elsewhere results stand in $WDL_KEPT (/tmp/wdl-kept), logs beside them. Each library
is also laid down in crates/NAME/out/rlib, where `rt check` of the crates above finds it, so a run with nothing to do serves a fresh clone in seconds.
Two runs share their results, and wait for each other crate by crate.

--kept is for the work of a day: nothing is proved twice that a change does not reach (kept_work.py). What is made so counts for no other run.

--check-kept proves nothing. It ends with 0 exactly where `rt ci` would pass: its checks of the files are done, and for all else there are results for
these sources, this toolchain and this tool. The program that was built with them is then laid down as crates/wdl/out/wdl. It is for toolchains whose
`rt ci` keeps nothing: elsewhere `rt ci` takes what is kept.

--costs writes docs/COSTS.md from the kept results (costs.py). Where a result has none, they are taken from LOG, the output of a run."""
import argparse, os, signal, sys, time

sys.dont_write_bytecode = True
import costs, kept_work, proving, rt_store
from proving import by_name, crates, kept, rt


def arguments():
    words = argparse.ArgumentParser(description=__doc__, formatter_class=argparse.RawDescriptionHelpFormatter)
    words.add_argument("--lanes", type=int, default=os.cpu_count())
    for name in ("--libraries", "--kept", "--check-kept", "--costs"):
        words.add_argument(name, action="store_true")
    words.add_argument("--log")
    words.add_argument("names", nargs="*")
    asked = words.parse_args()
    for name in asked.names:
        if name not in by_name:
            words.error(f"crates.txt has no crate {name}")
    return asked


def tasks_of(names, libraries, kinds):
    """The steps, lowest crates first: those that each waits for, and its size."""
    meant, tasks = {by_name[it] for it in names}, {}
    below = {low for it in meant for low in it.below()}
    for crate in crates:
        if crate in meant or crate in below:
            lines = crate.count(rb"\n")
            waits = [(it.name, "proof") for it in crate.below()]
            tasks[crate.name, "proof"] = waits, lines
            for kind in kinds(crate) if crate in meant and not libraries else []:
                if kind != "proof":
                    tasks[crate.name, kind] = [*waits, (crate.name, "proof")], lines
    return tasks


def in_order(tasks):
    """The steps, first those with the longest chain of others behind them."""
    behind = dict.fromkeys(tasks, 0)
    for key in reversed([*tasks]):
        behind[key] += tasks[key][1]
        for it in tasks[key][0]:
            behind[it] = max(behind[it], behind[key])
    return sorted(tasks, key=lambda it: -behind[it])


class Run:
    """Steps that are done side by side, each in a process of its own: as many as there are lanes and memory holds."""

    def __init__(self, tasks, lanes, steps):
        self.tasks, self.lanes, self.steps = tasks, lanes, steps
        self.left, self.running, self.done, self.looked_up = in_order(tasks), {}, {}, set()

    def all(self):
        """Does all steps, and returns those that failed or were not begun, since one below them failed."""
        try:
            while self.left or self.running:
                self.give_up_above_failures()
                self.begin()
                if self.running:
                    self.end_one()
        finally:
            for pid in self.running:
                os.kill(pid, signal.SIGTERM)
        return [key for key in self.tasks if not self.done[key]]

    def give_up_above_failures(self):
        for key in [it for it in self.left if any(self.done.get(below) is False for below in self.tasks[it][0])]:
            self.left.remove(key)
            self.done[key] = False

    def begin(self):
        """Begins what is ready, and passes over what is kept."""
        ready = [it for it in self.left if all(below in self.done for below in self.tasks[it][0])]
        jobs = max(1, min(4, self.lanes // max(1, len(ready))))
        for key in ready:
            crate, kind = by_name[key[0]], key[1]
            if key not in self.looked_up and self.steps.is_kept(crate, kind):
                self.left.remove(key)
                self.finish(key, True)
            elif len(self.running) < self.lanes and (not self.running or rt.need(crate) < self.room()):
                self.left.remove(key)
                pid = proving.in_child(f"{kept}/{crate.name}.{kind}.log", lambda: self.steps.do(crate, kind, jobs))
                self.running[pid] = key, time.time()
            self.looked_up.add(key)

    def room(self):
        """The memory that the running steps are not likely to take. (They may have begun with little.)"""
        return rt.free() - sum(rt.need(by_name[name]) / 2 for (name, _), _ in self.running.values())

    def end_one(self):
        pid, status, used = os.wait4(-1, 0)
        (name, kind), began = self.running.pop(pid)
        say = "FAILED" if status else "ok"
        spent = f"{time.time() - began:.0f} s, {used.ru_utime + used.ru_stime:.0f} s of processors"
        print(f"{time.strftime('%H:%M:%S')} {name} {kind} {say} {spent}", flush=True)
        self.finish((name, kind), not status)

    def finish(self, key, well):
        self.done[key] = well
        if well and key[1] == "proof":
            self.steps.lay(by_name[key[0]])


def check_kept():
    missing = [f"{it.name} ({kind})" for it in crates for kind in proving.kinds(it) if not proving.is_kept(it, kind)]
    if missing:
        print("no result is kept of", *missing, sep="\n  ")
        return 1
    passes, said = proving.gate({*by_name}, lambda name, kind: proving.is_kept(by_name[name], kind))
    if not passes:
        print(said, end="")
        return 1
    for crate in crates:
        if crate.is_program:
            proving.lay(crate)
    print(f"{sum(len(proving.kinds(it)) for it in crates)} results are kept for these sources, and rt ci passes with them: {said.splitlines()[-1]}")
    return 0


def main():
    asked = arguments()
    if asked.check_kept:
        if rt_store.is_there:
            rt.stop("--check-kept is for toolchains whose `rt ci` keeps nothing: here `rt ci` takes what is kept")
        return check_kept()
    if asked.costs:
        return costs.write(asked.log)
    names = asked.names or [*by_name]
    if rt_store.is_there and not asked.kept:
        return rt_store.prove(names, asked.lanes, asked.libraries)
    signal.signal(signal.SIGTERM, lambda *_: sys.exit(143))
    steps = kept_work if asked.kept else proving
    tasks = tasks_of(names, asked.libraries, steps.kinds)
    if not asked.libraries or not all(proving.is_kept(by_name[name], kind) for name, kind in tasks):
        passes, said = proving.gate({name for name, _ in tasks}, lambda *_: True)
        if not passes:
            print(said, end="")
            return 1
    failed = Run(tasks, asked.lanes, steps).all()
    how = ", over kept work" if asked.kept else ""
    print(f"{len(tasks) - len(failed)} passed, {len(failed)} failed{how}", *(f"{name} ({kind})" for name, kind in failed), sep="\n  ")
    return 1 if failed else 0


if __name__ == "__main__":
    sys.exit(main())
