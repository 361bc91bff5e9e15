#!/usr/bin/env python3
"""fuzz.py COUNT FIRST PROGRAM: see bench/fuzz.sh."""
import json
import multiprocessing
import os
import random
import resource
import shutil
import subprocess
import sys
import tempfile

SECONDS = 20
BYTES = 2 << 30
STATUSES = {"check": {0, 3}, "cwl": {0, 3, 4, 8}, "run": {0, 1, 3, 4, 9, 10, 11}}
NAMES = ["a", "b", "c", "xs", "sample", "count", "r", "left", "right", "file_1", "x2"]
TYPES = [
    "Int", "String", "Boolean", "File", "Array[Int]", "Array[String]+", "Map[String, Int]",
    "Pair[Int, String]", "Int?", "String?", "S", "Array[S]", "Array[Array[Int]]", "Float",
    "Object",
]
ATOMS = [
    "1", "0", "-7", "true", "false", '"a"', "'b c'", "None", "[]", "{}", "[1, 2]", '["x"]',
    "(1, 2)", '{"k": 1}', "9223372036854775807", "1.5", '"~{1 + 1}"', '"\\n\\t\\"~"', "range(3)",
]
FUNCTIONS = [
    "length", "range", "select_first", "select_all", "defined", "flatten", "zip", "cross",
    "unzip", "transpose", "prefix", "suffix", "quote", "squote", "sep", "as_pairs", "as_map",
    "keys", "collect_by_key", "min", "max", "basename", "read_int", "read_string", "read_lines",
    "glob", "write_lines", "sub", "size", "floor",
]
OPERATORS = ["+", "-", "*", "/", "%", "==", "!=", "<", "<=", ">", ">=", "&&", "||"]
FORMS = ["E O E", "F()", "F(E)", "F(E, E)", "if E then E else E", "[E, E]", '"x ~{E} y"', "(E, E)"]
FORMS += ["S { n: E, t: E }", "(!E)", "(-E)", "{E: E}", "E[E]"]
COMMANDS = ["echo ~{a}", "true", "false", "exit 3", "echo a; echo b >&2", "printf '\\377'"]
COMMANDS += ["touch out.txt", "echo ${b}", "kill -9 $$"]
RUNTIMES = ["", "runtime { maxRetries: 1 }", 'runtime { returnCodes: "*" }']
RUNTIMES += ['runtime { returnCodes: [0, 3] memory: "1 GB" }']
BLOCKS = ["", "scatter (i in range(3)) { call t { input: a = i } }", "if (k > 2) { call t { input: a = k } }"]
TASK = """task %s { input { %s }
command <<<
  %s
>>>
output { %s } %s meta { a: 1.5 b: [true, null] } }
"""
PLAIN_TASK = """task t { input { Int a String b = "x" }
command <<<
  echo ~{a}
>>>
output { Int r = read_int(stdout()) } }
"""
WORKFLOW = """version 1.1
%s
workflow w { input { %s }
%s
output { %s } }
"""
# Calls in a document that has a form in CWL: the block, the type of the output there, and the file that the call is given.
STEPS = [
    ("%s", "File", "f"),
    ("scatter (i in fs) { %s }", "Array[File]", "i"),
    ("if (k) { %s }", "File?", "f"),
    ("scatter (i in fs) { if (k) { %s } }", "Array[File?]", "i"),
    ("if (k) { scatter (i in fs) { %s } }", "Array[File]?", "i"),
    ("scatter (i in fss) { scatter (j in i) { %s } }", "Array[Array[File]]", "j"),
]
FILE_INPUTS = 'File f Array[File] fs Array[Array[File]] fss Boolean k Int n = 2 String tag = "a b"'
FILE_TASK = """task t { input { File f Int n = 1 String s = "x" }
command <<<
  head -n ~{n} ~{f} > out.txt; echo "~{s}"
>>>
output { File o = %s } %s }
"""
FILE_RUNTIMES = ["", 'runtime { memory: "1 GB" }', 'runtime { returnCodes: "*" }', "runtime { returnCodes: [3, 0, 3] }"]
FILE_JSON = {"w.f": "/a", "w.fs": ["/a", "b c"], "w.fss": [[], ["/a"]], "w.k": True}
PIECES = [
    b"\0", b"\xff", b"\r\n", b"~{", b"}", b">>>", b"<<<", b'"', b"'", b"\\", b"//", b"#",
    b"(" * 70, b"[" * 70, b"Array[" * 12, b"if true then 1 else " * 70, b"9" * 40,
    b"\xe2\x82\xac", b"version 1.1", b"import \"x.wdl\"", b"call t as u after t",
    b"scatter (i in range(100)) {", b"object {}", b"a" * 200,
]


class Maker:
    """Makes documents and inputs from one source of numbers."""

    def __init__(self, seed):
        self.rng = random.Random(seed)

    def one(self, of):
        return self.rng.choice(of)

    def few(self, of, make, between):
        """Texts that are made of up to three of these, or of none."""
        return between.join(make(it) for it in self.rng.sample(of, self.rng.randrange(min(len(of), 3) + 1)))

    def expr(self, depth=0):
        if depth > 3 or self.rng.random() < 0.35:
            plain = self.one(ATOMS), self.one(NAMES) + self.one(["", "", ".r", "[0]", ".left"])
            return self.one(plain)
        form = self.one(FORMS)
        while "E" in form:
            form = form.replace("E", self.expr(depth + 1).replace("E", "e"), 1)
        return form.replace("F", self.one(FUNCTIONS)).replace("O", self.one(OPERATORS))

    def inputs(self):
        default = lambda: self.one(["", " = " + self.expr()])
        return self.few(NAMES, lambda name: f"{self.one(TYPES)} {name}{default()}", " ")

    def outputs(self):
        value = lambda: self.one([self.expr(), "read_int(stdout())", "read_lines(stdout())", '"out.txt"'])
        return self.few(NAMES, lambda name: f"{self.one(TYPES)} {name} = {value()}", " ")

    def task(self, name):
        command, runtime = self.one(COMMANDS), self.one(RUNTIMES)
        return TASK % (name, self.inputs(), command, self.outputs(), runtime)

    def call(self):
        given = self.few(NAMES, lambda name: f"{name} = {self.expr()}", ", ")
        alias = self.one(["", " as c", f" as {self.one(NAMES)}"])
        return f"call {self.one('tu')}{alias}{self.one(['', '', ' after t'])} {{ input: {given} }}"

    def statement(self, depth=0):
        kind = self.rng.randrange(5 if depth < 4 else 3)
        if kind == 0:
            return f"{self.one(TYPES)} {self.one(NAMES)} = {self.expr()}"
        if kind in (1, 2):
            return self.call()
        body = "\n".join(self.statement(depth + 1) for _ in range(self.rng.randrange(3)))
        if kind == 3:
            return f"scatter ({self.one(NAMES)} in {self.one(['range(2)', self.expr()])}) {{ {body} }}"
        return f"if ({self.one(['true', self.expr()])}) {{ {body} }}"

    def document(self):
        body = "\n".join(self.statement() for _ in range(self.rng.randrange(6)))
        struct = self.one(["", *["struct S { Int n String? t }"] * 4])
        tasks = self.task("t") + self.task("u")
        return (WORKFLOW % (struct + tasks, self.inputs(), body, self.outputs())).encode()

    def plain(self):
        """A document that keeps the rules."""
        count = self.rng.randrange(1, 6)
        value = lambda i: self.one([str(i), f"c{i - 1}.r + 1" if i else "1", "k"])
        calls = [f"call t as c{i} {{ input: a = {value(i)} }}" for i in range(count)]
        body = "\n".join([*calls, self.one(BLOCKS)])
        inputs, outputs = "Int k = 3", f"Int last = c{count - 1}.r"
        return (WORKFLOW % (PLAIN_TASK, inputs, body, outputs)).encode()

    def step(self, number):
        """A call in its block, and the output of the workflow that is the call's."""
        block, kind, file = self.one(STEPS) if number else STEPS[0]
        if number and file == "f":
            file = self.one(["f", "c0.o"])
        given = self.one(["", ", n = n", ", n, s = tag"])
        call = f"call t as c{number} {{ input: f = {file}{given} }}"
        return block % call, f"{kind} r{number} = c{number}.o"

    def files(self, front=""):
        """A document that has a form in CWL. Behind an import it calls the imported workflow too."""
        steps = [self.step(number) for number in range(self.rng.randrange(1, 6))]
        if front:
            steps.append(("call x.w as sub { input: f, fs, fss, k }", "File last = sub.r0"))
        body, outputs = ("\n".join(it) for it in zip(*steps))
        output, runtime = self.one(['"out.txt"', "stdout()"]), self.one(FILE_RUNTIMES)
        return (WORKFLOW % (front + FILE_TASK % (output, runtime), FILE_INPUTS, body, outputs)).encode()

    def mutated(self, data):
        data = bytearray(data)
        for _ in range(self.rng.choice([1, 1, 2, 4, 16])):
            at = self.rng.randrange(len(data) + 1)
            kind = self.rng.randrange(6)
            if kind == 0 and data:
                data[at % len(data)] = self.rng.randrange(256)
            elif kind == 1:
                del data[at : at + self.rng.randrange(1, 20)]
            elif kind == 2:
                data[at:at] = self.one(PIECES)
            elif kind == 3:
                other = self.rng.randrange(len(data) + 1)
                data[at:at] = data[other : other + self.rng.randrange(1, 60)]
            elif kind == 4:
                del data[at:]
            elif data:
                data[at % len(data)] ^= 1 << self.rng.randrange(8)
        return bytes(data)

    def value(self, depth=0):
        kind = self.rng.randrange(8 if depth < 3 else 6)
        if kind < 6:
            return [None, True, self.rng.randrange(-9, 9), 1.5, self.one(NAMES), 2**63][kind]
        if kind == 6:
            return [self.value(depth + 1) for _ in range(self.rng.randrange(3))]
        names = self.rng.sample(NAMES + ["k"], self.rng.randrange(3))
        return {name: self.value(depth + 1) for name in names}

    def json(self):
        names = self.rng.sample(NAMES + ["k", "k", "k"], self.rng.randrange(3))
        given = {f"w.{name}": self.value() for name in names}
        text = json.dumps(given).encode()
        return self.mutated(text) if self.rng.random() < 0.4 else text


def limited():
    resource.setrlimit(resource.RLIMIT_AS, (BYTES, BYTES))
    resource.setrlimit(resource.RLIMIT_CPU, (SECONDS, SECONDS))


def said(words, where, shell):
    """Runs the program: its status, output and error, or nothing where it hangs."""
    env = {"PATH": os.environ["PATH"], "WDL_SHELL": shell}
    kept = {"stdin": subprocess.DEVNULL, "capture_output": True, "timeout": SECONDS}
    try:
        ran = subprocess.run([PROGRAM, *words], cwd=where, env=env, preexec_fn=limited, **kept)
    except subprocess.TimeoutExpired:
        return None
    return ran.returncode, ran.stdout, ran.stderr


def is_lost(line, where):
    """Whether a line of status 5 names a file that is not there: a mutation can change the path of an import."""
    path = os.path.join(where.encode(), line.removeprefix(b"cannot read ").removesuffix(b"\n"))
    return line.startswith(b"cannot read ") and not os.path.exists(path)


def trouble(command, answer, where):
    """What is wrong with an answer, if anything."""
    if answer is None:
        return "it hangs"
    status, out, err = answer
    if status == 5 and not out and is_lost(err, where):
        return None
    if status not in STATUSES[command]:
        return f"status {status}"
    if status == 0 and (err or not out.endswith(b"\n")):
        return "status 0 with a line of error or without output"
    if status and (out or not err.endswith(b"\n")):
        return f"status {status} with output or without its line"
    return None


def write(where, name, data):
    with open(os.path.join(where, name), "wb") as it:
        it.write(data)


def journaled(maker, where):
    """A journal of a run, with bytes of its file changed."""
    write(where, "w.wdl", maker.plain())
    said(["run", "--root", f"{where}/run", "--journal", "j", "w.wdl"], where, "sh")
    with open(os.path.join(where, "j"), "rb") as it:
        data = bytearray(it.read())
    for _ in range(maker.one([1, 1, 3, 30])):
        at = maker.rng.randrange(len(data) or 1)
        data[at : at + 1] = [maker.rng.randrange(256)]
    if maker.rng.random() < 0.1:
        del data[maker.rng.randrange(len(data)) :]
    write(where, "j", data)
    return "run", ["run", "--root", f"{where}/run", "--journal", "j", "w.wdl"], "sh"


def lay(maker, where, of_files):
    """Writes the documents and the inputs of a case, and says whether the main document is mutated. With OF_FILES both have a form in CWL."""
    if of_files:
        text, other = maker.files(maker.one(["", 'import "x.wdl"\n'])), maker.files()
        inputs = json.dumps(FILE_JSON).encode()
    else:
        text = maker.plain() if maker.rng.random() < 0.5 else maker.document()
        other = maker.document() if maker.rng.random() < 0.5 else b'version 1.1\nimport "w.wdl"\n'
        inputs = maker.json()
    is_mutated = maker.rng.random() < 0.5
    write(where, "w.wdl", maker.mutated(text) if is_mutated else text)
    write(where, "i.json", maker.mutated(inputs) if of_files and maker.rng.random() < 0.3 else inputs)
    write(where, "x.wdl", maker.mutated(other) if of_files and maker.rng.random() < 0.1 else other)
    return is_mutated


def prepared(maker, where):
    """The files of a case: the command, the words and the program that runs jobs. A mutated command is never run."""
    kind = maker.rng.random()
    if kind < 0.02:
        return journaled(maker, where)
    is_cwl = 0.6 <= kind < 0.75
    is_mutated = lay(maker, where, maker.rng.random() < (0.7 if is_cwl else 0.1))
    if kind < 0.6:
        return "check", ["check", "w.wdl"], "true"
    given = maker.one([[], ["--inputs", "i.json"]])
    if is_cwl:
        return "cwl", ["cwl", *given, "w.wdl"], "true"
    words = ["run", *given, "--workers", maker.one(["1", "4", "64"]), "--root", f"{where}/run", "w.wdl"]
    return "run", words, "true" if is_mutated else "sh"


def case(number):
    """Does a case, and returns what is to be reported. The files of such a case are left in out/fuzz/NUMBER."""
    where = tempfile.mkdtemp(prefix="wdl-fuzz-")
    command, words, shell = prepared(Maker(number), where)
    answer = said(words, where, shell)
    wrong = trouble(command, answer, where)
    if wrong:
        shutil.copytree(where, f"{TOP}/out/fuzz/{number}", dirs_exist_ok=True)
        wrong = f"{number}: {wrong}: {' '.join(words)}: {answer and answer[2][-200:]!r}"
    shutil.rmtree(where, ignore_errors=True)
    return command, answer and answer[0], wrong


def main():
    count, first = int(sys.argv[1]), int(sys.argv[2])
    counts, reports = {}, 0
    with multiprocessing.Pool() as pool:
        for command, status, wrong in pool.imap_unordered(case, range(first, first + count), 64):
            counts[command, status] = counts.get((command, status), 0) + 1
            if wrong:
                reports += 1
                print(wrong, flush=True)
    for (command, status), times in sorted(counts.items(), key=str):
        print(f"{command:5} status {status}: {times}")
    print(f"{count} cases, {reports} reports")
    return reports > 0


TOP = os.path.dirname(os.path.dirname(os.path.abspath(__file__)))
PROGRAM = os.path.abspath(sys.argv[3])
if __name__ == "__main__":
    sys.exit(main())
