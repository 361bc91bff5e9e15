#!/usr/bin/env python3
"""bundles.py COUNT FIRST PROGRAM: see bench/bundles.sh."""
import contextlib
import json
import multiprocessing
import os
import random
import re
import shutil
import sqlite3
import subprocess
import sys
import tempfile

SECONDS = 60
PATHS = ["w.wdl", "a.wdl", "parts/b.wdl", "parts/c.wdl"]
TASK_NAMES = ["t", "u", "task_1_0", "task_1_1", "task_2_0", "task_1_0_0", "w", "say"]
STRUCT_NAMES = ["P", "Q", "R", "t", "task_1_0", "Sample"]
PLAIN = ["Int", "String", "Boolean", "File"]
VALUES = {
    "Int": ["0", "-7", "0x1F", "017", "1 - 2 * 3", "(4)", "-(-3)", "length([1, 2])", "7 % 4 / 2"],
    "String": [
        '"a"', "'b c'", r'"q\"\\\n\t\x27\u00e9\U0001F600"', r"'\'\"\101'", '"~{1 + 2}"', "'${true}'",
        r'"\~{x} \$HOME $ ~ # no comment"', '"x ~{"y ~{"z"}"} ~{\'w\'}"', '""', '"~{sep=", " [1, 2]}"',
        r'"\x0d\x0a"', '"{ } >>> <<<"', '"é€"', '"a" + 1 + "~{None}b"', 'basename("/x/y.bam", ".bam")',
        'if 1 < 2 then "a" else "b" + "c"', r'"~{true="\n~" false="\$" true}"', '"/* // */"',
    ],
    "Boolean": ["true", "!false", '1 == 2 || "a" < \'b\'', "defined(None)"],
    "File": ['"/tmp/a b"', "'/f'", '"/~{1}"'],
}
TEXTS = [
    "echo ", "$(date) $$ $x \\n \\", "'quoted' \"twice\"", "~ # no comment", "a   b\t", "\n", "\n\n", "\n  ",
    "\n\t", "\r\n", "é€𝄞", "[ -e x ] || exit 3", "\\~", "\"", "'", "<", "> f", "&& :",
]
TAGS = ["sep=', ' [1, 2]", "sep=\"~\" ['a']", "true='--y' false=\"\" true", "default='\\n' if false then 1 else None", "sep='\\t\\\"' [1]"]
SECTIONS = [
    "", "meta { a: 1.5 b: [true, null] c: { d: 'x' } }", 'parameter_meta { x: "y" }',
    "runtime { maxRetries: 1 }", 'runtime { returnCodes: "*", docker: "u:1" }', "runtime { returnCodes: [0, 3] cpu: 1 + 1 }",
]


class Document:
    """A document that is made: its text, and what it offers. `structs` has the members of each name that it sees, and `spaces` each
    import with the names here of the structs there."""

    def __init__(self, path):
        self.path = path
        self.lines = ["# a comment", "version 1.1"]
        self.structs = {}
        self.tasks = {}
        self.spaces = {}
        self.flow = None


class Maker:
    """Makes libraries from one source of numbers."""

    def __init__(self, seed):
        self.rng = random.Random(seed)

    def one(self, of):
        return self.rng.choice(of)

    def happens(self, part):
        return self.rng.random() < part

    def kind(self, doc, depth=0):
        """A type, as a document writes it."""
        form = self.rng.randrange(12 if depth < 2 else 6)
        if form > 9 and doc.structs:
            form = 5
        if form == 5 and doc.structs:
            return self.one(list(doc.structs))
        if form < 6 or form > 9:
            return self.one(PLAIN)
        inner = self.kind(doc, depth + 1)
        return [f"{inner}?", f"Array[{inner}]+", f"Map[{self.one(PLAIN)}, {inner}]", f"Pair[{inner}, Int]"][form - 6]

    def literal(self, doc, kind):
        """A literal of a struct, with its members in any order, some optional ones left out."""
        members = [it for it in doc.structs[kind] if not (it[0].endswith("?") and self.happens(0.5))]
        self.rng.shuffle(members)
        return f"{kind} {{ " + ", ".join(f"{name}: {self.value(doc, ty)}" for ty, name in members) + " }"

    def value(self, doc, kind):
        """An expression of that type."""
        if kind in doc.structs:
            return self.literal(doc, kind)
        if kind in VALUES:
            return self.one(VALUES[kind])
        if kind.endswith("?"):
            return self.one(["None", self.value(doc, kind[:-1])])
        inner = kind[kind.index("[") + 1 : kind.rindex("]")]
        if kind.startswith("Array"):
            return "[" + ", ".join(self.value(doc, inner) for _ in range(self.rng.randrange(1, 3))) + self.one(["]", ",]"])
        if kind.startswith("Map"):
            key, inner = inner.split(", ", 1)
            return f"{{ {self.value(doc, key)}: {self.value(doc, inner)} }}"
        return f"({self.value(doc, inner.removesuffix(', Int'))}, 4)"

    def struct(self, doc, name):
        members = [(self.kind(doc), f"m{n}") for n in range(self.rng.randrange(1, 4))]
        doc.lines.append(f"struct {name} {{ " + " ".join(f"{ty} {it}" for ty, it in members) + " }")
        doc.structs[name] = members

    def alias_of(self, doc, other, name, seen):
        """The name that a document gives to a struct of an import, where it must have one or happens to."""
        same = doc.structs.get(name, other.structs[name]) == other.structs[name]
        free = [it for it in ["A", "B", "C", "D", "E", "F", *STRUCT_NAMES] if it not in doc.structs and it not in seen]
        if same and name not in seen and not self.happens(0.25):
            return name
        return self.one(free) if free else name

    def imported(self, doc, other):
        space = os.path.basename(other.path)[:-4]
        line = f'import "{os.path.relpath(other.path, os.path.dirname(doc.path))}"'
        if self.happens(0.4):
            space = self.one(["t", "lib", "w"]) + str(len(doc.spaces))
            line += f" as {space}"
        seen = {}
        for name in other.structs:
            alias = self.alias_of(doc, other, name, seen)
            seen[alias] = name
            line += "" if alias == name else f" alias {name} as {alias}"
        back = {name: alias for alias, name in seen.items()}
        for alias, name in seen.items():
            doc.structs[alias] = [(renamed(ty, back), it) for ty, it in other.structs[name]]
        doc.lines.append(line)
        doc.spaces[space] = other, back

    def hole(self, doc, given):
        """A placeholder of a command: of an input, of a member, or of a value."""
        options = [self.value(doc, self.one(PLAIN)), self.one(TAGS)]
        for ty, name in given:
            if ty in PLAIN or (ty.endswith("?") and ty[:-1] in PLAIN):
                options += [name, f'"--n " + {name}']
            for member, it in doc.structs.get(ty, []):
                options += [f"{name}.{it}"] if member in PLAIN else []
        return self.one(options)

    def command(self, doc, given):
        angle = self.happens(0.6)
        parts = []
        for _ in range(self.rng.randrange(7)):
            mark = "~" if angle else self.one("~$")
            text = self.one(TEXTS)
            if self.happens(0.4):
                text = f"{mark}{{{self.hole(doc, given)}}}"
            parts.append(text)
        body = "".join(parts)
        return f"command <<<{body}>>>" if angle else f"command {{{body}}}"

    def task(self, doc, name):
        given = [(self.kind(doc), f"x{n}") for n in range(self.rng.randrange(4))]
        inputs = {it: (ty, self.happens(0.5) or ty.endswith("?")) for ty, it in given}
        written = [f"{ty} {it}" + (f" = {self.value(doc, ty)}" if inputs[it][1] else "") for ty, it in given]
        kind = self.kind(doc)
        parts = ["input { " + " ".join(written) + " }", self.command(doc, given), f"{kind} p = {self.value(doc, kind)}"]
        kind = self.kind(doc)
        outputs = [f"{kind} r = {self.value(doc, kind)}", "String said = read_string(stdout())"]
        outputs += [f"{ty} e{it} = {it}" for ty, it in given if "File" not in ty and not doc.structs.get(ty)]
        parts.append("output { " + " ".join(self.rng.sample(outputs, self.rng.randrange(1, len(outputs) + 1))) + " }")
        parts.append(self.one(SECTIONS))
        self.rng.shuffle(parts)
        doc.lines.append(f"task {name} {{ " + "\n".join(parts) + " }")
        doc.tasks[name] = inputs

    def call(self, doc, used):
        """A call of a task of the document or of an import of it, or now and then of a workflow."""
        own = {name: name for name in doc.structs}
        targets = [(name, name, it, own) for name, it in doc.tasks.items()]
        for space, (other, names) in doc.spaces.items():
            targets += [(f"{space}.{name}", name, it, names) for name, it in other.tasks.items()]
            if other.flow and self.happens(0.03):
                targets.append((f"{space}.{other.flow}", other.flow, {}, names))
        target, name, inputs, names = self.one(targets)
        line = f"call {target}"
        if name in used or self.happens(0.3):
            name = f"{self.one(['c', 'task_1_', 'x'])}{len(used)}"
            line += f" as {name}"
        calls = [it for it, is_call in used.items() if is_call]
        if calls and self.happens(0.2):
            line += f" after {self.one(calls)}"
        used[name] = True
        given = []
        for name, (ty, is_default) in inputs.items():
            if not (is_default and self.happens(0.6)):
                given.append(f"{name} = {self.value(doc, renamed(ty, names))}")
        return line + (f" {{ input: {', '.join(given)} }}" if given else self.one(["", " { }"]))

    def block(self, doc, used, depth=0):
        body = []
        for _ in range(self.rng.randrange(1, 4)):
            form = self.rng.randrange(6 if depth < 2 else 4)
            kind = self.kind(doc)
            if form == 0:
                used[f"d{len(used)}"] = False
                body.append(f"{kind} {list(used)[-1]} = {self.value(doc, kind)}")
            elif form < 4:
                body.append(self.call(doc, used))
            else:
                used[f"i{len(used)}"] = False
                head = self.one([f"if ({self.value(doc, 'Boolean')})", f"scatter ({list(used)[-1]} in range(2))"])
                body.append(f"{head} {{ {self.block(doc, used, depth + 1)} }}")
        return "\n".join(body)

    def workflow(self, doc, name):
        kinds = [self.kind(doc) for _ in range(2)]
        inputs = " ".join(f"{ty} k{n} = {self.value(doc, ty)}" for n, ty in enumerate(kinds))
        body = self.block(doc, {}) if doc.path == PATHS[0] else ""
        outputs = " ".join(f"{ty} o{n} = k{n}" for n, ty in enumerate(kinds))
        parts = [f"input {{ {inputs} }}", body, f"output {{ {outputs} }}", self.one(SECTIONS[:3])]
        doc.lines.append(f"workflow {name} {{ " + "\n".join(parts) + " }")
        doc.flow = name

    def library(self):
        """Documents by path: the first imports some of the others, and each imports some of those behind it."""
        docs = [Document(path) for path in PATHS[: self.rng.randrange(2, 5)]]
        for at in reversed(range(len(docs))):
            doc = docs[at]
            for number, other in enumerate(docs[at + 1 :]):
                if (at == 0 and number == 0) or self.happens(0.6):
                    self.imported(doc, other)
            for name in self.rng.sample(STRUCT_NAMES, self.rng.randrange(3)):
                if name not in doc.structs:
                    self.struct(doc, name)
            names = self.rng.sample(TASK_NAMES, self.rng.randrange(1, 4))
            for name in names:
                self.task(doc, name)
            if at == 0 or self.happens(0.4):
                self.workflow(doc, self.one([it for it in ["w", "main", "task_1_0"] if it not in names]))
        return {doc.path: "\n".join(doc.lines) for doc in docs}


def renamed(kind, names):
    """A type with other names of structs."""
    return re.sub(r"\w+", lambda it: names.get(it[0], it[0]), kind)


def said(where, *words):
    """Runs the program, with jobs that write nothing: its status, output and error."""
    env = {"PATH": os.environ["PATH"], "WDL_SHELL": "true"}
    ran = subprocess.run([PROGRAM, *words], cwd=where, env=env, stdin=subprocess.DEVNULL, capture_output=True, timeout=SECONDS)
    return ran.returncode, ran.stdout, ran.stderr


def ran(where, name):
    """What a run of a document comes to: its status, output and error, and its requests as its journal has them."""
    journal = os.path.join(where, f"{name}.journal")
    answer = said(where, "run", "--workers", "1", "--root", f"{where}/run", "--journal", journal, name)
    with contextlib.closing(sqlite3.connect(journal)) as it:
        rows = it.execute("SELECT place, attempt, body FROM entry").fetchall()
    return answer, sorted((place, attempt, json.loads(body)["command"]) for place, attempt, body in rows)


def trouble(where):
    """What a library comes to, and what is wrong with its bundle, if anything."""
    status, _, err = said(where, "check", "w.wdl")
    if status != 0:
        return f"check {err.split()[1:2]}", None if status == 3 else f"check: status {status}"
    status, text, err = said(where, "bundle", "w.wdl")
    if status == 8 and b": 620 at " in err and not text:
        return "620", None
    if status != 0 or err:
        return "no bundle", f"bundle: status {status}: {err!r}"
    with open(os.path.join(where, "g.wdl"), "wb") as it:
        it.write(text)
    if said(where, "check", "g.wdl") != (0, b"ok\n", b""):
        return "bundle", "the bundle is not checked"
    if said(where, "bundle", "g.wdl") != (0, text, b""):
        return "bundle", "the bundle of the bundle is another one"
    if ran(where, "w.wdl") != ran(where, "g.wdl"):
        return "bundle", "the bundle runs otherwise"
    return "bundle", None


def case(number):
    """Does a case, and returns what it came to and what is to be reported. The files of such a case are left in out/bundles/NUMBER."""
    where = tempfile.mkdtemp(prefix="wdl-bundles-")
    for path, text in Maker(number).library().items():
        path = os.path.join(where, path)
        os.makedirs(os.path.dirname(path), exist_ok=True)
        with open(path, "w", newline="") as it:
            it.write(text)
    came, wrong = trouble(where)
    if wrong:
        shutil.copytree(where, f"{TOP}/out/bundles/{number}", dirs_exist_ok=True)
        wrong = f"{number}: {wrong}"
    shutil.rmtree(where, ignore_errors=True)
    return came, wrong


def main():
    count, first = int(sys.argv[1]), int(sys.argv[2])
    counts, reports = {}, 0
    with multiprocessing.Pool() as pool:
        for came, wrong in pool.imap_unordered(case, range(first, first + count), 16):
            counts[came] = counts.get(came, 0) + 1
            if wrong:
                reports += 1
                print(wrong, flush=True)
    for came, times in sorted(counts.items()):
        print(f"{came}: {times}")
    print(f"{count} cases, {reports} reports")
    return reports > 0


TOP = os.path.dirname(os.path.dirname(os.path.abspath(__file__)))
PROGRAM = os.path.abspath(sys.argv[3])
if __name__ == "__main__":
    sys.exit(main())
