"""The steps of `rt ci`, done by rt's own code, and what is kept of each.

A step is one crate's proof from nothing, its tests, its must-fail edits, or the runs of a program as both compilers build it. A step that went well is
kept in $WDL_KEPT (/tmp/wdl-kept), with what it built and what it cost, by the sum of all that it depends on: the sources of the crate and of those
below it, the edits or the files that a run reads, HANDLES, the toolchain, and this file."""
import fcntl, functools, hashlib, importlib.machinery, importlib.util, json, os, re, resource, shutil, sys, tempfile, time, traceback

sys.dont_write_bytecode = True
root = os.path.dirname(os.path.dirname(os.path.abspath(__file__)))
kept = os.environ.get("WDL_KEPT", "/tmp/wdl-kept")


def load():
    """The toolchain's `rt`, as a module."""
    path = os.path.realpath(shutil.which("rt") or "/opt/rattle/bin/rt")
    loader = importlib.machinery.SourceFileLoader("rt", path)
    module = importlib.util.module_from_spec(importlib.util.spec_from_loader("rt", loader))
    loader.exec_module(module)
    return module


def once(method):
    """The method, which is called once for each crate: the answer is the same for the rest of a run."""
    found = {}

    @functools.wraps(method)
    def answer(crate):
        if crate.folder not in found:
            found[crate.folder] = method(crate)
        return found[crate.folder]

    answer.found = found
    return answer


os.makedirs(kept, exist_ok=True)
os.chdir(root)
rt = load()
for name in (rt.rtlib.ALLOW_C, rt.rtlib.BACKEND, "RT_SECONDS"):
    os.environ.pop(name, None)
rt.rtlib.stop = rt.stop
rt.rtlib.Crate.stamp = once(rt.rtlib.Crate.stamp)
rt.rtlib.Crate.below = once(rt.rtlib.Crate.below)
rt.rtlib.Crate = rt.Crate
rt.Crate.cuts_libraries = True
# Where `rt ci` keeps results itself, those of a run with a WDL_KEPT of its own stand there too.
if hasattr(rt, "Kept") and "WDL_KEPT" in os.environ:
    rt.STORE, rt.WORK = f"{kept}/rattle-kept", f"{kept}/rattle-kept/work"
rt.Crate.allowed = rt.handles_of(root)
crates = sorted(rt.rtlib.crates_below(root), key=lambda it: len(it.below()))
by_name = {it.name: it for it in crates}


def bytes_of(file):
    with open(file, "rb") as it:
        return it.read()


def sum_of(*parts):
    return hashlib.sha256(b"".join(parts)).hexdigest()


@functools.lru_cache(maxsize=None)
def judge():
    """The sum of what judges a step: this file, the toolchain, and the handles that are allowed."""
    files = [os.path.abspath(__file__), *(f"{rt.KIT}/{it}" for it in ("WHAT", "KIT-ID", "bin/rt", "bin/rtlib.py"))]
    return sum_of(*map(bytes_of, files), repr(rt.Crate.allowed).encode())


def also_read(crate, kind):
    """The files that a step reads beside the sources."""
    if kind == "edits":
        return rt.edits_of(crate)[0]
    if kind == "runs":
        data = [f"{at}/{name}" for at, _, names in sorted(os.walk(f"{crate.folder}/data")) for name in sorted(names)]
        return [it for it in (f"{crate.folder}/{name}" for name in ("stdin", "stdout", "args", "status")) if os.path.isfile(it)] + data
    return []


def entry(crate, kind):
    """The folder of a result."""
    of_sources = crate.stamp().encode()
    for file in also_read(crate, kind):
        of_sources += os.path.relpath(file, f"{crate.folder}/must-fail").encode() + bytes_of(file)
    return f"{kept}/{crate.name}-{kind}-{sum_of(sum_of(of_sources)[:24].encode(), judge().encode())[:24]}"


def is_kept(crate, kind):
    return os.path.exists(f"{entry(crate, kind)}/ok")


def kinds(crate):
    """The steps of a crate."""
    return ["proof", *["tests"] * crate.has_tests(), *["edits"] * bool(rt.edits_of(crate)[0]), *["runs"] * crate.is_program]


def products(crate):
    """The names of what a proof builds, below out/."""
    return [f"{crate.name}{it}" for it in rt.BACKENDS.values()] if crate.is_program else ["rlib"]


def lay(crate):
    """Lays what a kept proof built down in out/, unless that very build lies there."""
    formats = [rt.rtlib.sum_of(f"{it}/rlib/{crate.name}.rlib/format") for it in (entry(crate, "proof"), f"{crate.folder}/out")]
    if not crate.is_program and crate.is_built() and formats[0] == formats[1]:
        return
    os.makedirs(f"{crate.folder}/out", exist_ok=True)
    for name in products(crate):
        copy(f"{entry(crate, 'proof')}/{name}", f"{crate.folder}/out/{name}")
    if not crate.is_program:
        with open(f"{crate.folder}/out/rlib/stamp", "w", encoding="utf-8") as it:
            it.write(crate.stamp())


def copy(made, to):
    """Copies a file or a folder in place of what lies there."""
    rt.clear(to)
    if os.path.isdir(made):
        shutil.copytree(made, to)
    elif os.path.isfile(made):
        shutil.copy2(made, to)


def seconds():
    """The processor seconds of all processes that this one has started and that have ended."""
    used = resource.getrusage(resource.RUSAGE_CHILDREN)
    return used.ru_utime + used.ru_stime


building = 0.0


def metered(compile_by):
    """The builds of a program, whose processor seconds count apart from those of its proof."""

    def call(*given):
        global building
        began = seconds()
        try:
            return compile_by(*given)
        finally:
            building += seconds() - began

    return call


rt.Crate.compile_by = metered(rt.Crate.compile_by)


def try_edits(crate):
    edits, flags = rt.edits_of(crate)[0], ["--jobs", "1"]
    if hasattr(rt, "must_fail_all"):
        tried = rt.must_fail_all(crate, edits, flags)
    else:
        found = [rt.must_fail(crate, it, flags) for it in edits]
        # (as in rt ci, an edit that cannot be applied fails nothing)
        tried = [(kind in rt.SETTLED, text) for kind, text in found]
    print(*(text for _, text in tried), sep="\n")
    return all(passes for passes, _ in tried)


def run_program(crate):
    """Runs the program as each compiler built it."""
    endings = [it for it in rt.BACKENDS.values() if os.path.isfile(f"{crate.folder}/out/{crate.name}{it}")]
    return all([rt.run(crate, False, it) for it in endings])


def guard():
    """Has what rt starts end with this process. The first call sets a signal's handler, which only the main thread may. (Older toolchains have none.)"""
    getattr(rt.rtlib, "guarded", list)()


def perform(crate, kind, jobs):
    """Does a step, and returns whether it went well."""
    guard()
    flags = ["--jobs", str(jobs)]
    if kind == "proof":
        for name in products(crate):
            rt.clear(f"{crate.folder}/out/{name}")
        return not crate.ci(flags, False)
    if kind == "tests":
        return not crate.ci(flags, True) and rt.run(crate, True)
    return try_edits(crate) if kind == "edits" else run_program(crate)


def stop_if_changed(crate, stamp):
    """Ends a step whose sources are no longer those that it began with."""
    rt.rtlib.Crate.stamp.found.clear()
    if crate.stamp() != stamp:
        rt.stop(f"the sources of {crate.name} or of a crate below it changed during this step: its result counts for nothing")


def do(crate, kind, jobs):
    """Does a step unless its result is kept, and returns whether it went well. It is called in a process of its own."""
    place, stamp = entry(crate, kind), crate.stamp()
    with open(f"{place}.lock", "w") as lock:
        fcntl.flock(lock, fcntl.LOCK_EX)
        if is_kept(crate, kind):
            return True
        if kind in ("proof", "tests"):
            rt.rtlib.lock([crate])
        os.makedirs(f"{crate.folder}/out", exist_ok=True)
        began = time.time()
        if not perform(crate, kind, jobs):
            return False
        stop_if_changed(crate, stamp)
        if entry(crate, kind) != place:
            rt.stop(f"what this step of {crate.name} reads beside the sources changed: its result counts for nothing")
        keep(crate, kind, place, time.time() - began)
        return True


def keep(crate, kind, place, wall):
    new = f"{place}.new"
    rt.clear(new)
    os.makedirs(new)
    for name in products(crate) if kind == "proof" else []:
        copy(f"{crate.folder}/out/{name}", f"{new}/{name}")
    costs = {kind: round(seconds() - building, 1), **({"builds": round(building, 1)} if building else {}), "wall": round(wall)}
    with open(f"{new}/ok", "w", encoding="utf-8") as it:
        json.dump(costs, it)
    os.rename(new, place)


def costs_of(crate, kind):
    """The processor seconds of a kept result by kind, and the seconds that it took by the clock; nothing if an older tool made it."""
    place = entry(crate, kind)
    return json.loads(rt.rtlib.text_of(f"{place}/ok") or rt.rtlib.text_of(f"{place}.costs") or "{}")


def in_child(log, work):
    """Starts work() in a process of its own, which writes to the file log and ends with status 0 if work() is true. Returns its id."""
    sys.stdout.flush()
    child = os.fork()
    if child:
        return child
    status = 1
    try:
        with open(log, "wb") as it:
            os.dup2(it.fileno(), 1)
            os.dup2(it.fileno(), 2)
        sys.stdout.reconfigure(errors="replace")
        status = 0 if work() else 1
    except SystemExit:
        pass
    except BaseException:
        traceback.print_exc()
    finally:
        sys.stdout.flush()
        os._exit(status)


def mirror(to, names):
    """Copies the repository without .git and what was built: all of it, or these crates alone."""
    all_names = {*by_name}

    def left_out(at, found):
        if at == root:
            return {".git"} & {*found}
        if at == f"{root}/crates":
            return (all_names - names) & {*found}
        return {"out"} & {*found} if os.path.dirname(at) == f"{root}/crates" else ()

    shutil.copytree(root, to, symlinks=True, ignore=left_out)
    if names != all_names:
        rows = bytes_of(f"{root}/crates.txt").decode().splitlines(True)
        with open(f"{to}/crates.txt", "w", encoding="utf-8") as it:
            it.writelines(row for row in rows if not row.strip() or re.match(r"[\w-]*", row)[0] in names)


def gate(names, answer):
    """Runs `rt ci` on a copy of these crates, where answer(name, kind) stands for what proves, tries or runs: what is left are all its checks of the
    files. Returns whether it passes, and what it printed."""

    def ci(crate, flags, tests):
        made = [f"{crate.name}_tests"] if tests else products(crate) if crate.is_program else []
        for name in made:
            open(f"{crate.folder}/out/{name}", "w").close()
        return not answer(crate.name, "tests" if tests else "proof")

    def edits(crate):
        return [(rt.REFUSED if answer(crate.name, "edits") else rt.MISSED, f"must-fail {crate.name}")] * len(rt.edits_of(crate)[0])

    def work():
        rt.Crate.ci = ci
        rt.run = lambda crate, tests, ending="": answer(crate.name, "tests" if tests else "runs")
        mirror(f"{room}/repository", names)
        os.chdir(f"{room}/repository")
        os.mkdir(f"{room}/aside")
        if hasattr(rt, "ci_from_nothing"):
            rt.must_fail_all = lambda crate, edits, flags: [(answer(crate.name, "edits"), f"must-fail {crate.name}")] * len(edits)
            return not rt.ci_from_nothing(f"{room}/aside")
        # (nothing is taken from rt's store, and what is not done here is not kept there)
        rt.STORE = f"{room}/log"
        rt.add_edits = lambda tasks, crate, *_, **named: (lambda given: edits(crate), dict)
        return not rt.ci_over(f"{room}/aside", True)

    with tempfile.TemporaryDirectory(prefix="prove-") as room:
        status = os.waitstatus_to_exitcode(os.waitpid(in_child(f"{room}/log", work), 0)[1])
        said = rt.rtlib.text_of(f"{room}/log").replace(f"{room}/repository/", "")
        # (what was not done here is not said to be)
        return status == 0, re.sub(r"(?m)^(== \w+:?.*|rt: \w+:? (its tests )?proved|rt: must-fail .*|rt: \w+: trying .*)\n", "", said)
