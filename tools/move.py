#!/usr/bin/env python3
"""Proposes the mechanical edits that move a WDL document here, as a unified diff on standard output. It writes no file.

    tools/move.py DOCUMENT >moved.diff
    patch DOCUMENT moved.diff

What is left to do by hand is named on standard error, as 'DOCUMENT:LINE: WHAT: docs/MOVING.md, "SECTION"'. The status is 0 if nothing is, 1 if
something is, and 2 if the document cannot be read: then there is no diff."""
import bisect
import difflib
import re
import sys
from typing import Dict, Iterator, List, NamedTuple, Optional, Set, Tuple

sys.dont_write_bytecode = True
from wdl_outline import Attribute, Body, Declaration, Outline, Span, Token, Unreadable, closed, lex, placeholders

DISKS, FRACTIONS, VERSIONS, BASH = "Disk sizes", "Fractions", "Versions", "Commands that were written for Bash"
ROUNDED = {"ceil", "floor", "round"}
FLOATS = ROUNDED | {"size", "read_float"}
READS = {"read_string", "read_int", "read_boolean", "read_lines", "read_tsv", "read_map"}
# What this program does not take, and the section that says what to write instead.
BY_HAND = {
    "Float": FRACTIONS, "read_float": FRACTIONS, "size": DISKS, "ceil": DISKS, "floor": DISKS, "round": DISKS,
    "sub": "Names cut by `sub`", "Object": "Structs", "object": "Structs", "read_object": "Structs", "read_objects": "Structs",
    "write_object": "Structs", "write_objects": "Structs", "read_json": "JSON", "write_json": "JSON",
}
# The attributes of `runtime` that this program uses.
USED = {"returnCodes", "maxRetries"}
# What a runner takes where the computed value was.
USUAL = {"memory": '"4 GB"', "disks": '"local-disk 10 HDD"'}
OF_BASH = re.compile(r"\[\[ |<\(|&>|\|&|<<<|\$'|pipefail|\bsource |\bdeclare |\bmapfile |\$RANDOM|\becho -e|\b\w+=\(|\(\(\w+\+\+")
# A default without quotes, as in draft-2.
UNQUOTED = re.compile(r"[~$]\{\s*default\s*=\s*(\d+(?:\.\d+)?)\s")
OF_WDL = re.compile(
    r"""\s*(?:(?:sep|default|true|false)\s*=(?!=)|[A-Za-z_]\w*\s*\(|(?:if|true|false|None|object)\b|["'(\[]|[!-]?\s*([A-Za-z_]\w*)(?![:#^@\w]))"""
)


class Edit(NamedTuple):
    start: int
    end: int
    text: str


class Note(NamedTuple):
    at: int
    what: str
    section: str


class Use(NamedTuple):
    """A use of a name: in the runtime, command or output section, or in a declaration of that name; and whether it is only turned into text."""

    where: str
    plain: bool


def applied(text: str, edits: List[Edit], start: int, end: int) -> str:
    """A part of the text after the edits that lie in it."""
    pieces, at = [], start
    for edit in sorted(it for it in edits if start <= it.start and it.end <= end):
        pieces += [text[at:edit.start], edit.text]
        at = edit.end
    return "".join(pieces) + text[at:end]


def is_within(at: int, spans: List[Span]) -> bool:
    """Whether the place is in one of the spans, which are in order and apart."""
    index = bisect.bisect_right(spans, (at, sys.maxsize)) - 1
    return index >= 0 and at < spans[index][1]


def is_fraction(token: Token) -> bool:
    return token.kind == "number" and token.text[:2].lower() != "0x" and bool(set(".eE") & set(token.text))


def is_text(group: List[Token], around: Optional[Span]) -> bool:
    """Whether the names of the expression are only turned into text: it is the name in a placeholder, or each `+` has a string on one side."""
    if around and len(group) == 1:
        return True
    marks = {it.text for it in group if it.kind == "mark"}
    sums = [index for index, it in enumerate(group) if it.text == "+"]
    return marks == {"+"} and all(0 < index < len(group) - 1 and "string" in (group[index - 1].kind, group[index + 1].kind) for index in sums)


class Mover:
    """The edits and notes for one document."""

    def __init__(self, text: str):
        self.text, self.outline = text, Outline(text)
        self.tokens = self.outline.tokens
        self.edits: List[Edit] = []
        self.notes: List[Note] = []
        # What is written anew, and not only moved.
        self.replaced: List[Span] = []
        self.commands: Dict[int, List[Span]] = {}
        # Where the document begins, behind its header.
        self.begin = 0
        self.version = self.move_header()
        for body in self.outline.bodies:
            self.move_body(body)
        self.note_the_rest()

    def edit(self, start: int, end: int, text: str) -> None:
        self.edits.append(Edit(start, end, text))
        self.replaced += [(start, end)] if end > start else []

    def source(self, first: int, last: int) -> str:
        """The text of the tokens from `first` up to before `last`."""
        return self.text[self.tokens[first].start:self.tokens[last - 1].end]

    def groups(self, tokens: List[Token]) -> Iterator[Tuple[List[Token], Optional[Span]]]:
        """The tokens as an expression, and each expression in a placeholder of their strings and commands, with the place of the placeholder."""
        work: List[Tuple[List[Token], Optional[Span]]] = [(tokens, None)]
        while work:
            group, inside = work.pop()
            yield group, inside
            for token in group:
                spans = self.commands.get(token.start, []) if token.kind == "command" else []
                if token.kind == "string":
                    spans = list(placeholders(self.text, token.start, token.end))
                work += [([it for it in lex(self.text, start + 2, end - 1) if it.kind != "comment"], (start, end)) for start, end in spans]

    def move_header(self) -> str:
        """Proposes the header, and returns the version that the document has."""
        match = re.compile(r"version\s+(\S+)").match(self.text, self.tokens[0].start if self.tokens else 0)
        version = match.group(1) if match else "draft-2"
        self.begin = match.end() if match else 0
        if not match:
            self.edit(0, 0, "version 1.1\n\n")
        elif version in ("1.0", "draft-2", "draft-3"):
            self.edit(match.start(1), match.end(1), "1.1")
        elif version != "1.1":
            self.notes.append(Note(match.start(), f"version {version}", VERSIONS))
        return version

    def move_body(self, body: Body) -> None:
        others, self.edits = self.edits, []
        if body.command is not None:
            self.move_command(body)
        moved, added = [it for it in body.declarations if self.belongs_in_input(it)], []
        if body.kind == "task":
            moved += self.move_sizes(body, added)
        self.put_inputs(body, moved, added)
        self.edits += others

    # Commands.

    def find_placeholders(self, body: Body) -> List[int]:
        """Finds the placeholders of a command, and returns the places of the `${` that are Bash's."""
        token = self.tokens[body.command]
        opener = re.compile(r"~\{" if token.text[0] == "<" and self.version != "draft-2" else r"[~$]\{")
        known, bash, spans = {it.name for it in body.declarations}, [], []
        match = opener.search(self.text, token.start, token.end)
        while match:
            at, begun = match.end(), OF_WDL.match(self.text, match.end())
            if match.group() == "${" and not (begun and (begun.group(1) is None or begun.group(1) in known)):
                bash.append(match.start())
            else:
                at = closed(self.text, at, "{")
                spans.append((match.start(), at))
            match = opener.search(self.text, at, token.end)
        self.commands[token.start] = spans
        return bash

    def move_command(self, body: Body) -> None:
        """Proposes `command <<< .. >>>` where `command { .. }` or `${` would end or mean something else."""
        token, bash = self.tokens[body.command], self.find_placeholders(body)
        spans, heredoc = self.commands[token.start], token.text[0] == "<"
        plain = applied(self.text, [Edit(start, end, " " * (end - start)) for start, end in spans], token.start, token.end)
        shell = OF_BASH.search(plain, 3)
        if shell:
            self.notes.append(Note(token.start + shell.start(), f"the command has `{shell.group().strip()}` of Bash", BASH))
        for start, end in spans:
            number = UNQUOTED.match(self.text, start, end)
            if number:
                self.edit(*number.span(1), f'"{number.group(1)}"')
        if heredoc and self.version != "draft-2" or not heredoc and not set("{}") & set(plain[1:-1]):
            return
        if not heredoc and ">>>" in token.text:
            self.notes.append(Note(token.start, "the command has braces and `>>>`", BASH))
            return
        self.notes += [Note(at, "this `${` is taken as Bash's: it has no name that the task declares", BASH) for at in bash]
        if not heredoc:
            self.edit(token.start, token.start + 1, "<<<")
            self.edit(token.end - 1, token.end, ">>>")
        for start, _ in spans:
            if self.text[start] == "$":
                self.edit(start, start + 1, "~")

    # Declarations.

    def belongs_in_input(self, it: Declaration) -> bool:
        """Whether the declaration was an input without a section: it has no value, or in draft-2 one that needs no other name."""
        if it.place != "body":
            if it.place == "nested" and it.value is None:
                self.notes.append(Note(self.tokens[it.first].start, f"`{it.name}` has no value", VERSIONS))
            return False
        if it.value is None:
            return True
        words = (token.text for group, _ in self.groups(self.tokens[it.value:it.last]) for token in group if token.kind == "word")
        return self.version == "draft-2" and all(word in ("true", "false") for word in words)

    def uses(self, body: Body) -> Dict[str, List[Use]]:
        """The uses of each name in a task."""
        parts = [("command" if it.name in USED else "runtime", self.tokens[it.value:it.last]) for it in body.runtime]
        parts += [("command", [self.tokens[body.command]])] if body.command is not None else []
        for it in body.declarations:
            if it.value is not None:
                parts.append(("output" if it.place == "output" else it.name, self.tokens[it.value:it.last]))
        found: Dict[str, List[Use]] = {}
        for where, tokens in parts:
            for group, around in self.groups(tokens):
                for token in group:
                    if token.kind == "word":
                        found.setdefault(token.text, []).append(Use(where, is_text(group, around)))
        return found

    def is_float(self, group: List[Token], floats: Set[str]) -> bool:
        """Whether the expression itself, without the placeholders of its strings, has a Float."""
        return any(is_fraction(it) or it.kind == "word" and it.text in FLOATS | floats for it in group)

    def move_sizes(self, body: Body, added: List[str]) -> List[Declaration]:
        """Proposes inputs in place of the sizes that only `runtime` uses, and returns the private declarations that become inputs."""
        own = [it for it in body.declarations if it.place in ("input", "body")]
        floats, uses = {it.name for it in own if it.kind == "Float"}, self.uses(body)
        sizes = [it for it in own if it.kind in ("Int", "String") and self.has_float(it, floats) and only_in_runtime(it.name, uses)]
        gone = {it.name for it in sizes}
        for it in reversed(own):
            if it.kind == "Float" and it.place == "body" and not self.belongs_in_input(it):
                self.drop_unused(it, uses, gone)
        texts = self.move_texts(own, uses, gone)
        for attribute in (it for it in body.runtime if it.name not in USED):
            self.move_attribute(body, attribute, floats, texts, added)
        for it in sizes:
            self.move_size(it, floats)
        return [it for it in sizes if it.place == "body"]

    def has_float(self, it: Declaration, floats: Set[str]) -> bool:
        return it.value is not None and any(self.is_float(group, floats) for group, _ in self.groups(self.tokens[it.value:it.last]))

    def float_groups(self, first: int, last: int, floats: Set[str], texts: Set[str]) -> Iterator[Tuple[List[Token], Optional[Span]]]:
        """The groups of a value that are a Float, but for those in what was replaced meanwhile. The names of `texts` may be turned into text."""
        begun = len(self.replaced)
        for group, around in self.groups(self.tokens[first:last]):
            names = floats - texts if is_text(group, around) else floats
            if self.is_float(group, names) and not is_within(group[0].start, sorted(self.replaced[begun:])):
                yield group, around

    def move_size(self, it: Declaration, floats: Set[str]) -> None:
        """Proposes a number in place of what is a Float in the value of a declaration."""
        for group, around in self.float_groups(it.value, it.last, floats, set()):
            start, end = around or (group[0].start, group[-1].end)
            self.edit(start, end, "10" if around or it.kind == "Int" else '"10"')
        if it.place == "input":
            self.put_above(it, advice(self.source(it.value, it.last)))

    def drop_unused(self, it: Declaration, uses: Dict[str, List[Use]], gone: Set[str]) -> None:
        """Proposes to drop a private Float that only dropped expressions use."""
        if all(use.where in gone or use.where == "runtime" for use in uses.get(it.name, [])):
            gone.add(it.name)
            self.edit(*self.lines_of(it, False), "")

    def move_texts(self, own: List[Declaration], uses: Dict[str, List[Use]], gone: Set[str]) -> Set[str]:
        """Proposes String for each Float input that is only turned into text, and returns the names of these."""
        texts = set()
        for it in own:
            given = self.tokens[it.value:it.last] if it.value is not None else []
            takes = it.place == "input" or self.belongs_in_input(it)
            if it.kind != "Float" or not takes or len(given) > 1 or any(token.kind != "number" for token in given):
                continue
            if all(use.plain or use.where == "runtime" or use.where in gone for use in uses.get(it.name, [])):
                texts.add(it.name)
                self.edit(self.tokens[it.first].start, self.tokens[it.first].end, "String")
                for token in given:
                    self.edit(token.start, token.end, f'"{token.text}"')
        return texts

    def move_attribute(self, body: Body, it: Attribute, floats: Set[str], texts: Set[str], added: List[str]) -> None:
        """Proposes an input in place of what is a Float in a `runtime` attribute."""
        for group, around in self.float_groups(it.value, it.last, floats, texts):
            if len(group) == 1 and is_fraction(group[0]):
                start, end = around or (group[0].start, group[0].end)
                self.edit(start, end, group[0].text if around else f'"{group[0].text}"')
                continue
            spans = rounded_calls(group)
            whole = self.is_float([token for token in group if not is_within(token.start, spans)], floats)
            text = USUAL.get(it.name) if whole and not around else None
            for start, end in [(group[0].start, group[-1].end)] if whole else spans:
                name = new_name(body, f"runtime_{it.name}", added)
                self.edit(start, end, name)
                added += [advice(self.text[start:end]), f"{'String' if text else 'Int'} {name} = {text or 10}"]

    # Where declarations stand.

    def line_of(self, at: int) -> Span:
        """The start of the line of a token, and the token's place if only blanks stand before it, or else the start again."""
        start = self.text.rfind("\n", 0, at) + 1
        return (start, at) if not self.text[start:at].strip() else (start, start)

    def put_above(self, it: Declaration, comment: str) -> None:
        """Proposes a comment on a line of its own, above a declaration."""
        at = self.tokens[it.first].start
        start, indented = self.line_of(at)
        if indented == at:
            self.edit(start, start, f"{self.text[start:at]}{comment}\n")
        else:
            self.edit(at, at, f"\n{comment}\n")

    def lines_of(self, it: Declaration, comments: bool) -> Span:
        """The place of a declaration, with the comment behind it: whole lines, if it has lines of its own. `comments` adds those above it."""
        start, end = self.tokens[it.first].start, self.tokens[it.last - 1].end
        end = re.compile(r"(?:[ \t]*#[^\n]*)?").match(self.text, end).end()
        line, indented = self.line_of(start)
        behind = re.compile(r"[ \t\r]*\n").match(self.text, end)
        if indented != start or not behind:
            return start, end
        while comments:
            above = self.text.rfind("\n", 0, line - 1) + 1
            if above <= self.tokens[it.first - 1].end or not self.text[above:line].lstrip().startswith("#"):
                break
            line = above
        return line, behind.end()

    def indent_of(self, index: int, usual: str) -> str:
        """The blanks before a token that begins its line."""
        at = self.tokens[index].start
        start, indented = self.line_of(at)
        return self.text[start:at] if indented == at and at > start else usual

    def put_inputs(self, body: Body, moved: List[Declaration], added: List[str]) -> None:
        """Proposes an `input` section with the moved declarations and the added lines, or adds these to the one that is there."""
        if not moved and not added:
            return
        unit = self.indent_of(body.opening + 1, "  ")
        section = body.sections.get("input")
        inner = self.indent_of(section[0] + 1, unit * 2) if section else unit * 2
        places = [self.lines_of(it, True) for it in moved]
        lines = [line for it, place in zip(moved, places) for line in self.piece(it, place, unit, inner)] + [inner + line for line in added]
        block = "\n".join(lines)
        if section:
            at = self.tokens[section[1]].start
            start, indented = self.line_of(at)
            new = Edit(start, start, block + "\n") if indented == at else Edit(self.tokens[section[1] - 1].end, at, f"\n{block}\n{unit}")
        else:
            at = self.tokens[body.opening].end
            newline = re.compile(r"[ \t\r]*\n").match(self.text, at)
            at = newline.end() if newline else at
            at = places[0][0] if places and self.text[places[0][0] - 1] == "\n" else at
            new = Edit(at, at, f"{'' if newline else chr(10)}{unit}input {{\n{block}\n{unit}}}\n")
        self.edits = [it for it in self.edits if not is_within(it.start, sorted(places))]
        self.edits += [Edit(start, self.blank_end(start, end) if section else end, "") for start, end in places] + [new]

    def blank_end(self, start: int, end: int) -> int:
        """The place behind the blank line at `end`, if another blank line ends at `start`."""
        above = self.text.rfind("\n", 0, max(start - 1, 0)) + 1
        behind = re.compile(r"[ \t\r]*\n").match(self.text, end)
        return behind.end() if behind and above < start and not self.text[above:start].strip() else end

    def piece(self, it: Declaration, place: Span, unit: str, inner: str) -> List[str]:
        """The lines of a moved declaration, after the edits in it."""
        at = self.tokens[it.first].start
        lines = applied(self.text, self.edits, *place).rstrip().split("\n")
        above = self.text.count("\n", place[0], at)
        comments, lines = [inner + line.lstrip() for line in lines[:above]], lines[above:]
        was = self.source(it.value, it.last) if it.value is not None else ""
        values = [edit for edit in self.edits if was and self.tokens[it.value].start <= edit.start < edit.end <= self.tokens[it.last - 1].end]
        comments += [inner + advice(was)] if values and it.kind != "Float" else []
        return comments + [inner + lines[0].lstrip()] + [unit + line for line in lines[1:]]

    # What is left.

    def note_the_rest(self) -> None:
        """Notes what this program does not take, but for what the edits replace."""
        replaced = sorted(self.replaced)
        outputs, passed = set(), set()
        for body in self.outline.bodies:
            for name, (first, last) in body.sections.items():
                within = passed if name in ("meta", "parameter_meta") else outputs if name == "output" and body.kind == "task" else set()
                within.update(range(first, last))
        for index, token in enumerate(self.tokens):
            if index not in passed and token.start >= self.begin:
                for group, _ in self.groups([token]):
                    for it in group:
                        if not is_within(it.start, replaced):
                            self.note_token(it, set() if index in outputs else READS)
        self.note_outputs()

    def note_token(self, token: Token, reads: Set[str]) -> None:
        if token.kind == "word" and token.text in BY_HAND:
            self.notes.append(Note(token.start, f"`{token.text}`", BY_HAND[token.text]))
        elif token.kind == "word" and token.text in reads:
            self.notes.append(Note(token.start, f"`{token.text}` outside the outputs of a task", "Sample sheets"))
        elif is_fraction(token):
            self.notes.append(Note(token.start, f"`{token.text}`", FRACTIONS))
        elif token.kind == "string" and "://" in token.text and token.start in self.outline.imported:
            self.notes.append(Note(token.start, "an import from the network", "What most pipelines need"))

    def note_outputs(self) -> None:
        for body in self.outline.bodies:
            first, last = body.sections.get("output", (0, 0))
            read = max([it.last for it in body.declarations if it.place == "output"], default=first + 1)
            if first and read < last:
                self.notes.append(Note(self.tokens[read].start, "an output without a type and a name", VERSIONS))


def advice(was: str) -> str:
    return f'# For other runners: see docs/MOVING.md, "{DISKS}". It was: {" ".join(was.split())}'


def new_name(body: Body, wanted: str, added: List[str]) -> str:
    """A name that no declaration of the task has."""
    names = {it.name for it in body.declarations} | {it.split()[1] for it in added}
    return next(name for name in [wanted] + [f"{wanted}_{number}" for number in range(2, len(names) + 3)] if name not in names)


def only_in_runtime(name: str, uses: Dict[str, List[Use]]) -> bool:
    """Whether only `runtime` uses the value of the name, also through other declarations."""
    names, seen = [name], {name}
    while names:
        for use in uses.get(names.pop(), []):
            if use.where in ("command", "output"):
                return False
            if use.where != "runtime" and use.where not in seen:
                seen.add(use.where)
                names.append(use.where)
    return True


def rounded_calls(group: List[Token]) -> List[Span]:
    """The outermost calls of `ceil`, `floor` and `round` in an expression."""
    spans, depth, begun = [], 0, None
    for index, token in enumerate(group):
        if begun is None and token.text in ROUNDED and index + 1 < len(group) and group[index + 1].text == "(":
            begun, depth = token.start, 0
        elif begun is not None and token.text in "()" and token.kind == "mark":
            depth += 1 if token.text == "(" else -1
            if depth == 0:
                spans.append((begun, token.end))
                begun = None
    return spans


def diff(name: str, before: str, after: str) -> str:
    """The unified diff between two texts."""
    old, new = ([line + "\n" for line in text.split("\n")] for text in (before, after))
    for lines in (old, new):
        last = lines.pop()[:-1]
        lines += [last + "\n\\ No newline at end of file\n"] if last else []
    return "".join(difflib.unified_diff(old, new, name, name))


def main(arguments: List[str]) -> int:
    if len(arguments) != 1:
        print("usage: move.py DOCUMENT", file=sys.stderr)
        return 2
    name = arguments[0]
    try:
        with open(name, encoding="utf-8", newline="") as file:
            text = file.read()
        mover = Mover(text)
    except (OSError, UnicodeDecodeError) as error:
        print(f"{name}: {error}", file=sys.stderr)
        return 2
    except Unreadable as error:
        print(f"{name}:{text.count(chr(10), 0, error.at) + 1}: {error}", file=sys.stderr)
        return 2
    ends = "\r\n" if "\r\n" in text else "\n"
    edits = [Edit(it.start, it.end, it.text.replace("\r\n", "\n").replace("\n", ends)) for it in mover.edits]
    sys.stdout.write(diff(name, text, applied(text, edits, 0, len(text))))
    lines = [it.start() for it in re.finditer("\n", text)]
    told = {(bisect.bisect_left(lines, it.at) + 1, it.what, it.section) for it in mover.notes}
    for line, what, section in sorted(told):
        print(f'{name}:{line}: {what}: docs/MOVING.md, "{section}"', file=sys.stderr)
    return 1 if told else 0


if __name__ == "__main__":
    sys.exit(main(sys.argv[1:]))
