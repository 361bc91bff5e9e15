"""What the gate costs: writes docs/COSTS.md from the costs that are kept with each result."""
import datetime, os, re, shutil, subprocess, sys, tempfile, textwrap

import proving
from proving import crates, rt

KINDS = {"proof": "proofs of libraries and tests' crates", "program": "proof of the program", "builds": "builds of the program", "tests": "tests", "edits": "must-fail edits", "runs": "runs of the program"}
LARGE = 100
EXAMPLE = "start_io"
BY_CLOCK = "\\*"


def said_in(log):
    """What the output of a run says that each step cost: seconds, and whether they are by the clock, as in the output of an older tool."""
    text = rt.rtlib.text_of(log) if log else ""
    found = re.findall(r"(?m)^[\d:]{8} (\w+) (\w+) ok (\d+) s(?:, (\d+) s of processors)?", text)
    return {(name, kind): (float(spent or took), not spent) for name, kind, took, spent in found}


class Costs:
    """The costs of each crate by kind in seconds, those that are by the clock, and the steps of which nothing is known."""

    def __init__(self, said):
        self.of, self.by_clock, self.unknown = {it.name: {} for it in crates}, set(), []
        for crate in crates:
            for step in proving.kinds(crate):
                self.add(crate, step, said)

    def add(self, crate, step, said):
        kept = proving.costs_of(crate, step)
        kept.pop("wall", None)
        if not kept and (crate.name, step) in said:
            spent, is_by_clock = said[crate.name, step]
            kept = {step: spent}
            self.by_clock |= {crate.name} if is_by_clock else set()
        if not kept:
            self.unknown.append((crate.name, step))
        for kind, spent in kept.items():
            self.of[crate.name]["program" if kind == "proof" and crate.is_program else kind] = spent

    def sums(self):
        """The kinds with their sums."""
        found = {kind: [it[kind] for it in self.of.values() if kind in it] for kind in KINDS}
        return {kind: sum(it) for kind, it in found.items() if it}

    def chain(self):
        """The longest chain of proofs to the program: its seconds, and its crates from the lowest on."""
        longest = {}
        for crate in crates:
            own = sum(self.of[crate.name].get(kind, 0) for kind in ("proof", "program", "builds"))
            below, names = max((longest[it.name] for it in crate.deps), default=(0, []))
            longest[crate.name] = below + own, [*names, crate.name]
        return max((longest[it.name] for it in crates if it.is_program), default=(0, []))

    def large(self):
        """The crates of LARGE seconds and more, the dearest first."""
        found = [(sum(it.values()), name) for name, it in self.of.items()]
        return [name for spent, name in sorted(found, reverse=True) if spent >= LARGE]


def yardstick():
    """The processor seconds of one proof from nothing: that of EXAMPLE."""
    with tempfile.TemporaryDirectory(prefix="prove-") as room:
        crate = f"{room}/crates/{EXAMPLE}"
        shutil.copytree(f"{rt.KIT}/rattle/examples/{EXAMPLE}", crate, ignore=shutil.ignore_patterns("BUILD.bazel", "out"))
        with open(f"{room}/crates.txt", "w", encoding="utf-8") as it:
            it.write(f"{EXAMPLE}:\n")
        began = proving.seconds()
        if subprocess.run([sys.executable, f"{rt.HERE}/rt", "check", "--jobs", "1"], cwd=crate, stdout=subprocess.DEVNULL).returncode:
            rt.stop(f"the kit's example {EXAMPLE} is not proved")
        return proving.seconds() - began


def row(*cells):
    return f"| {' | '.join(cells)} |"


def table(head, rows):
    return "\n".join([row(*head), row(*["---"] * len(head)), *(row(*it) for it in rows)])


def prose(text):
    return textwrap.fill(" ".join(text.split()), 100, break_long_words=False, break_on_hyphens=False)


def machine():
    model = re.search(r"(?m)^model name\s*: (.*)$", rt.rtlib.text_of("/proc/cpuinfo"))
    return f"{os.cpu_count()} processors, {model[1] if model else 'of an unknown model'}"


def page(costs, unit):
    sums, (longest, chain) = costs.sums(), costs.chain()
    rows = [(KINDS[kind], f"{spent:,.0f}", f"{spent / unit:,.1f}") for kind, spent in sums.items()]
    whole = sum(sums.values())
    kind_rows = [*rows, ("all", f"{whole:,.0f}", f"{whole / unit:,.1f}")]
    kinds = [*KINDS]
    mark = lambda name: f"`{name}`{BY_CLOCK * (name in costs.by_clock)}"
    large = [(mark(name), *(f"{costs.of[name][kind]:,.0f}" if kind in costs.of[name] else "" for kind in kinds)) for name in costs.large()]
    with open(f"{rt.KIT}/KIT-ID", encoding="utf-8") as it:
        kit = it.read().strip()
    parts = [
        "# What the gate costs",
        prose(f"""Written by `tools/prove.py --costs` on {datetime.date.today()}, for {kit} on {machine()}. Seconds are of processors, user and system. The
        yardstick is one proof from nothing, that of the kit's example `{EXAMPLE}` (`rt check`): {unit:.0f} s. To compare machines, compare yardsticks."""),
        prose(f"A crate that is marked {BY_CLOCK} counts with the seconds by the clock of a run with a lane for each processor.") if costs.by_clock else "",
        prose(f"No cost is known of {len(costs.unknown)} of the steps.") if costs.unknown else "",
        table(("", "seconds", "yardsticks"), kind_rows),
        prose(f"The longest chain of proofs to the program: {', '.join(f'`{it}`' for it in chain)}. It takes {longest:,.0f} s, {longest / unit:,.1f} yardsticks."),
        f"Crates of {LARGE} s and more:",
        table(("crate", *kinds), large),
    ]
    return "\n\n".join(filter(None, parts)) + "\n"


def write(log):
    costs = Costs(said_in(log))
    with open(f"{proving.root}/docs/COSTS.md", "w", encoding="utf-8") as it:
        it.write(page(costs, yardstick()))
    return 0
