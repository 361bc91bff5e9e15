"""Steps over kept work: what `tools/prove.py --kept` does in place of those of proving.py.

Each crate is proved over crates/NAME/out/incremental, where rattle keeps its work function by function and which `rt check` fills too. A step is
passed over where all that it reads is as it was: the crate's own files, and of each library below the interface and the modules of specs and proofs
that it names; a program and tests, which link code, read all of each. No edits are tried, no contracts are searched for emptiness, and no program is
built. rattle marks a library that is made so: `rt ci`, `rt verdict` and proving.py refuse it, and the latter makes it anew."""
import json, os, re

import proving
from proving import bytes_of, rt, sum_of


def kinds(crate):
    return ["proof", *["tests"] * crate.has_tests()]


def lay(crate):
    """Has `rt check` of the crates above take the library that lies in out/ as that of the present sources."""
    if not crate.is_program:
        with open(f"{crate.folder}/out/rlib/stamp", "w", encoding="utf-8") as it:
            it.write(crate.stamp())


def files_under(folder, *parts):
    return [f"{at}/{name}" for part in parts for at, _, names in sorted(os.walk(f"{folder}/{part}")) for name in sorted(names)]


def sum_of_files(folder, files):
    return sum_of(repr([(os.path.relpath(it, folder), sum_of(bytes_of(it))) for it in files]).encode())


def archived(rlib):
    """A library's checked modules, by name. (One that holds statements alone has none.)"""
    with open(f"{rlib}/toolchain/checked.a", "rb") as archive, open(f"{rlib}/toolchain/checked.json", encoding="utf-8") as index:
        for name, at, size in map(json.loads, filter(str.strip, index)):
            if name.startswith("Rattle-"):
                archive.seek(at)
                yield name, archive.read(size)


def named_in(module):
    """The modules that a checked module imports or saw."""
    head = module.partition(b"\n--@ reaches ")[0].decode(errors="replace")
    return re.findall(r"(?m)^--@ (?:import|saw) (\S+)", head)


def library_of(module):
    return re.match(r"Rattle-(\w+)|", module)[1]


records = {}


def record_of(crate):
    """What was noted of a library when it was made: the sums of its modules, of what else a check above it reads, and of all that a program links;
    and of its own check the modules that it named and the sum of what it read."""
    file = f"{crate.folder}/out/rlib/record"
    stamp = os.stat(file).st_mtime_ns if os.path.isfile(file) else None
    if records.get(crate.folder, (0, 0))[0] != stamp:
        records[crate.folder] = stamp, json.loads(rt.rtlib.text_of(file) or "{}")
    return records[crate.folder][1]


def inputs(crate, names):
    """The sum of what a check reads: the crate's own files, and of each library below the interface and these modules, or, with None, all of it."""
    found = [proving.judge(), bytes_of(__file__).hex(), crate.said, sum_of_files(crate.folder, rt.rtlib.files_of(crate.folder))]
    for low in crate.below():
        noted = record_of(low)
        modules = noted["linked"] if names is None else [(it, noted["modules"].get(it)) for it in names if library_of(it) == low.name]
        found.append((low.name, noted["interface"], modules))
    return sum_of(repr(found).encode())


def note(crate):
    """Notes what a library was made of, and what the crates above it read of it."""
    modules = {name: (sum_of(data), named_in(data)) for name, data in archived(crate.rlib)}
    shape = re.sub(r"(?m)^(checked|sum) .*\n", "", rt.rtlib.text_of(f"{crate.rlib}/format"))
    interface = sum_of(shape.encode(), sum_of_files(crate.rlib, files_under(crate.rlib, "interface", "below")).encode())
    sums = {name: it for name, (it, _) in modules.items()}
    linked = sum_of_files(crate.rlib, [f"{crate.rlib}/toolchain/mir.json", *files_under(crate.rlib, "lang/src")])
    named = sorted({it for _, names in modules.values() for it in names if library_of(it) not in (None, crate.name)})
    noted = {"modules": sums, "interface": interface, "linked": sum_of(repr(sums).encode(), linked.encode())}
    with open(f"{crate.folder}/out/rlib/record", "w", encoding="utf-8") as it:
        json.dump({**noted, "names": named, "inputs": inputs(crate, named)}, it)


def seed(crate):
    """Where a crate has no kept work, begins it with the modules of the library that lies there, which are the same files."""
    if crate.has_kept() or not os.path.isdir(crate.rlib):
        return
    build = re.search(r"(?m)^rattle-build (.*)$", rt.rtlib.text_of(f"{crate.rlib}/format"))[1].replace("/", "_")
    os.makedirs(f"{crate.folder}/out/incremental/{build}", exist_ok=True)
    for name, data in archived(crate.rlib):
        with open(f"{crate.folder}/out/incremental/{build}/{name}.oantt", "wb") as it:
            it.write(data)


def is_kept(crate, kind):
    """Whether a step can be passed over."""
    if not all(record_of(low) for low in crate.below()):
        return False
    if kind == "proof" and not crate.is_program:
        noted = record_of(crate)
        return bool(noted) and noted["inputs"] == inputs(crate, noted["names"])
    return rt.rtlib.text_of(f"{crate.folder}/out/{kind}.record") == inputs(crate, None)


def do(crate, kind, jobs):
    """Does a step over kept work, and returns whether it went well. It is called in a process of its own."""
    # (a library of statements alone cannot be made over kept work, and fits only the very libraries that it was made over)
    rt.Crate.cuts_libraries = False
    proving.guard()
    rt.rtlib.lock([crate])
    os.makedirs(f"{crate.folder}/out", exist_ok=True)
    before, flags = crate.stamp(), ["--jobs", str(jobs)]
    is_library = kind == "proof" and not crate.is_program
    well = rebuild(crate, flags) if is_library else check(crate, flags) if kind == "proof" else run_tests(crate, flags)
    if well:
        proving.stop_if_changed(crate, before)
        if is_library:
            note(crate)
        else:
            with open(f"{crate.folder}/out/{kind}.record", "w", encoding="utf-8") as it:
                it.write(inputs(crate, None))
    return well


def rebuild(crate, flags):
    seed(crate)
    rt.clear(f"{crate.folder}/out/rlib")
    return not crate.build_rlib(flags, anew=False)


def check(crate, flags):
    return not crate.call(rt.rtlib.RATTLE, "check", *crate.words(flags), *rt.rtlib.KEPT)


def run_tests(crate, flags):
    program = f"out/{crate.name}_tests"
    words = [*crate.words(flags, tests=True), "--toolchain", f"{rt.KIT}/toolchain", "--backend", "llvm", *rt.rtlib.KEPT]
    if crate.call(rt.rtlib.RATTLE, "build", *words, "-o", f"{program}.o") or crate.link(f"{program}.o", program):
        return False
    return rt.run(crate, True)
