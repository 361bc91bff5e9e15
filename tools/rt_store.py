"""What tools/prove.py does where `rt ci` keeps its results itself: it runs that `rt ci` on a copy of the crates, so each takes what the other proved.

The processor seconds of each process that rt starts are counted by crate and kind, and kept in $WDL_KEPT for costs.py."""
import json, os, subprocess, threading, time

import proving
from proving import by_name, crates, rt

is_there = hasattr(rt, "Kept") and "WDL_OWN_STORE" not in os.environ


class Meter:
    """The seconds of the processes that were waited for, by crate and kind, and how many checks of each there were."""

    def __init__(self):
        self.spent, self.checks, self.alone = {}, {}, threading.Lock()

    def add(self, key, seconds, checks=0):
        with self.alone:
            self.spent[key] = self.spent.get(key, 0) + seconds
            self.checks[key] = self.checks.get(key, 0) + checks


meter = Meter()


def kind_of(words, folder):
    """The crate and the kind of a process of rt, and whether it is a check; or nothing if it is of another kind."""
    if "--crate-name" in words:
        name = words[words.index("--crate-name") + 1]
        is_edit = os.path.basename(folder or "").startswith("rt-edit-")
        kind = "tests" if "--test" in words else "edits" if is_edit else "builds" if "--crate-checked" in words else "proof"
        return (name, kind), True
    if f"{rt.KIT}/bin/rattle-link" in words:
        to = words[words.index("-o") + 1]
        return (os.path.basename(folder), "tests" if to.endswith("_tests") else "builds"), False
    return None


class Process(subprocess.Popen):
    """A process whose processor seconds are counted when it ends, with those of all that it started and waited for."""

    def __init__(self, words, *given, cwd=None, **named):
        self.folder = cwd
        super().__init__(words, *given, cwd=cwd, **named)

    def _try_wait(self, flags):
        try:
            pid, status, used = os.wait4(self.pid, flags)
        except ChildProcessError:
            return self.pid, 0
        found = kind_of([*self.args], self.folder) if pid == self.pid else None
        if found:
            meter.add(found[0], used.ru_utime + used.ru_stime, found[1])
        return pid, status


def said(key, well, began):
    print(f"{time.strftime('%H:%M:%S')} {key[0]} {key[1]} {'ok' if well else 'FAILED'} {time.time() - began:.0f} s, {meter.spent[key]:.0f} s of processors", flush=True)


def timed(key, call, began):
    """The call of a task of rt, which says what its proof or its tests took if they were done now."""

    def timed_call(given, jobs):
        began.setdefault(key[:2], time.time())
        well = call(given, jobs)
        if key in meter.spent:
            said(key, well, began[key])
        return well

    return timed_call


def count(meant, lanes):
    """Has rt count what it starts, and do the tests and edits of these crates alone."""
    subprocess.Popen = Process
    rt.processors = lambda: lanes
    in_lanes, edits_of, has_tests, run = rt.in_lanes, rt.edits_of, rt.Crate.has_tests, rt.run
    began = {}

    def lanes_of(tasks):
        timed_tasks = {key: (*task[:3], timed(key, task[3], began) if key[1:] in (("proof",), ("tests",)) else task[3]) for key, task in tasks.items()}
        return in_lanes(timed_tasks)

    def run_counted(crate, tests, ending=""):
        before, started = proving.seconds(), time.time()
        well = crate.name not in meant or run(crate, tests, ending)
        key = crate.name, "tests" if tests else "runs"
        meter.add(key, proving.seconds() - before)
        if not tests:
            said(key, well, started)
        return well

    rt.in_lanes, rt.run = lanes_of, run_counted
    rt.edits_of = lambda crate: edits_of(crate) if crate.name in meant else ([], [])
    rt.Crate.has_tests = lambda crate: crate.name in meant and has_tests(crate)


def is_whole(name, kind):
    """Whether all of a step was done in this run, so that its seconds are what it costs."""
    checks = meter.checks.get((name, kind), 0)
    return checks >= (len(rt.edits_of(by_name[name])[0]) if kind == "edits" else 1) or kind == "runs"


def keep_costs(places):
    """Keeps what steps cost, if their sources are still those that the run began with."""
    rt.rtlib.Crate.stamp.found.clear()
    for (name, kind), spent in meter.spent.items():
        step = "proof" if kind == "builds" else kind
        if kind == "builds" or name not in by_name or places.get((name, step)) != proving.entry(by_name[name], step) or not is_whole(name, kind):
            continue
        builds = meter.spent.get((name, "builds")) if kind == "proof" else None
        with open(f"{places[name, kind]}.costs", "w", encoding="utf-8") as it:
            json.dump({kind: round(spent, 1), **({"builds": round(builds, 1)} if builds else {})}, it)


def is_laid(kept, crate):
    """Whether what rt keeps of the crate lies in its out/."""
    try:
        with open(f"{kept.place(crate, False, kept.key(crate))}/made.json", encoding="utf-8") as it:
            files = json.load(it)["files"]
    except OSError:
        return False
    return crate.is_built() and all(rt.rtlib.sum_of(f"{crate.folder}/out/{path}") == sum for path, sum in files)


def lay(names):
    """Lays the libraries that rt keeps down in out/, lowest first, where `rt check` of the crates above finds them. Returns how many."""
    kept, laid = rt.Kept(crates), set()
    for crate in crates:
        if crate.name not in names or crate.is_program or any(it.name not in laid for it in crate.below()):
            continue
        held = rt.rtlib.lock([crate])
        if is_laid(kept, crate) or give(kept, crate):
            kept.is_built(crate)
            laid.add(crate.name)
        for it in held:
            os.close(it)
    return len(laid)


def give(kept, crate):
    if not os.path.isdir(kept.place(crate, False, kept.key(crate))):
        return False
    rt.clear(f"{crate.folder}/out/rlib")
    if not kept.give(crate, False, kept.key(crate)):
        return False
    with open(f"{crate.folder}/out/rlib/stamp", "w", encoding="utf-8") as it:
        it.write(crate.stamp())
    return True


def prove(names, lanes, libraries):
    """Does what `rt ci` does for these crates, but for those below them, and for all if `libraries`, the proofs alone. Returns the status."""
    meant = set() if libraries else {*names}
    below = {it.name for name in names for it in [by_name[name], *by_name[name].below()]}
    places = {(name, kind): proving.entry(by_name[name], kind) for name in below for kind in proving.kinds(by_name[name])}
    count(meant, lanes)
    rt.rtlib.Crate.stamp.found.clear()
    status = rt.where_disk_lasts(rt.ci_of, names, False)
    for key in sorted(it for it in meter.spent if it[1] == "edits"):
        print(f"{key[0]} edits {meter.spent[key]:.0f} s of processors")
    keep_costs(places)
    print(f"{lay(below)} libraries lie in crates/*/out")
    return status
