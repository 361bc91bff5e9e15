"""The tokens of a WDL document (draft-2, 1.0 or 1.1), and where its tasks and workflows have their sections, declarations and calls.

Each function passes over its text once. Strings, comments and commands are single tokens; `placeholders` finds the expressions in them."""
import re
from typing import Dict, Iterator, List, NamedTuple, Optional, Pattern, Tuple


class Unreadable(Exception):
    """A document that cannot be read: the place, and what was expected there."""

    def __init__(self, at: int, why: str):
        super().__init__(why)
        self.at = at


class Token(NamedTuple):
    kind: str  # word, number, string, comment, mark, or command: `{ .. }` or `<<< .. >>>`
    text: str
    start: int
    end: int


Span = Tuple[int, int]
TOKEN = re.compile(
    r"""(?P<space>\s+)|(?P<comment>\#[^\n]*)|(?P<number>0[xX][0-9a-fA-F]+|(?:\d+\.?\d*|\.\d+)(?:[eE][+-]?\d+)?)"""
    r"""|(?P<word>[A-Za-z_]\w*)|(?P<string>["'])|(?P<mark>&&|\|\||[=!<>]=|.)""",
    re.ASCII | re.DOTALL,
)
QUOTED = re.compile(r"""\\.|[~$]\{|["'\n]""", re.DOTALL)
BRACED = re.compile(r"""(?<=\s)#[^\n]*|[{}"']""")
OPENING = re.compile(r"\s*(<<<|\{)")
# What may stand behind a command.
BEHIND = re.compile(r"(?:\s|#[^\n]*\n)*(?:\}|(?:input|output|runtime|meta|parameter_meta)\s*\{)")
IN_STRING = re.compile(r"\\.|[~$]\{", re.DOTALL)
SECTIONS = ("input", "output", "runtime", "meta", "parameter_meta")
OPERATORS = {"+", "-", "*", "/", "%", "&&", "||", "==", "!=", "<", "<=", ">", ">=", ".", "then", "else"}
PREFIXES = {"!", "-", "+", "if"}
BRACKETS = {"(": ")", "[": "]", "{": "}"}


def closed(text: str, at: int, opener: str) -> int:
    """The place behind what closes `opener`, a quote or a brace that ends at `at`. Strings and placeholders may hold one another."""
    begun, opened = at, [opener]
    while opened:
        match = (BRACED if opened[-1] == "{" else QUOTED).search(text, at)
        if not match or match.group() == "\n":
            raise Unreadable(begun, f"`{opener}` is not closed")
        found, at = match.group(), match.end()
        if found[0] in "#\\":
            continue
        if found == opened[-1] or (found == "}" and opened[-1] == "{"):
            opened.pop()
        elif found[-1] == "{" or opened[-1] == "{":
            opened.append(found[-1])
    return at


def placeholders(text: str, start: int, end: int, opener: Pattern[str] = IN_STRING) -> Iterator[Span]:
    """The placeholders of a string or a command, each from its `~` or `$` up to behind its brace."""
    match = opener.search(text, start, end)
    while match:
        at = match.end()
        if match.group()[-1] == "{" and match.group()[0] != "\\":
            at = closed(text, at, "{")
            yield match.start(), at
        match = opener.search(text, at, end)


def brace_end(text: str, at: int) -> int:
    """The place behind the brace that closes `command {`: the one that balances it, or else the first, if the task goes on behind it."""
    begun, first, depth, plain = at, 0, 1, False
    while depth:
        match = re.compile(r"[~$]?\{|\}").search(text, at)
        if not match:
            break
        at = match.end()
        if match.group() == "}":
            depth, first = depth - 1, first or at
        elif len(match.group()) == 2:
            simple = re.compile(r"""[^{}"'\n]*\}""").match(text, at)
            at = simple.end() if simple else closed(text, at, "{")
        else:
            depth, plain = depth + 1, True
    for end in ([] if depth else [at]) + ([first] if first else []):
        if not plain or BEHIND.match(text, end):
            return end
    raise Unreadable(begun, "the braces of this command do not balance: write `command <<< .. >>>`")


def command_end(text: str, at: int) -> int:
    """The place behind the end of the command whose `<<<` or `{` ends at `at`."""
    if text[at - 1] == "{":
        return brace_end(text, at)
    begun = at
    while True:
        match = re.compile(r">>>|~\{").search(text, at)
        if not match:
            raise Unreadable(begun, "this command has no `>>>`")
        if match.group() == ">>>":
            return match.end()
        at = closed(text, match.end(), "{")


def lex(text: str, start: int, end: int) -> Iterator[Token]:
    """The tokens of a part of a document."""
    at = start
    while at < end:
        match = TOKEN.match(text, at, end)
        kind, begun, at = match.lastgroup, match.start(), match.end()
        if kind == "string":
            at = closed(text, at, match.group())
        if kind != "space":
            yield Token(kind, text[begun:at], begun, at)
        opening = OPENING.match(text, at, end) if match.group() == "command" else None
        if opening:
            at = command_end(text, opening.end())
            yield Token("command", text[opening.start(1):at], opening.start(1), at)


def pairs_of(tokens: List[Token]) -> Dict[int, int]:
    """The index of each closing bracket, by that of its opening one."""
    pairs, opened = {}, []
    for index, token in enumerate(tokens):
        if token.text in BRACKETS:
            opened.append(index)
        elif token.kind == "mark" and token.text in BRACKETS.values():
            if not opened or BRACKETS[tokens[opened[-1]].text] != token.text:
                raise Unreadable(token.start, f"`{token.text}` closes nothing")
            pairs[opened.pop()] = index
    if opened:
        raise Unreadable(tokens[opened[-1]].start, f"`{tokens[opened[-1]].text}` is not closed")
    return pairs


class Declaration(NamedTuple):
    """A declaration, by the indices of its tokens: from `first` up to before `last`, its value from `value`."""

    kind: str
    name: str
    first: int
    value: Optional[int]
    last: int
    place: str  # input, output, body, or nested: in a scatter or an `if`


class Attribute(NamedTuple):
    """An attribute of `runtime`, with the indices of the tokens of its value."""

    name: str
    value: int
    last: int


class Body:
    """A task or a workflow, by the indices of its tokens."""

    def __init__(self, kind: str, opening: int, closing: int):
        self.kind, self.opening, self.closing = kind, opening, closing
        self.declarations: List[Declaration] = []
        self.sections: Dict[str, Span] = {}
        self.runtime: List[Attribute] = []
        self.calls: List[Span] = []
        self.command: Optional[int] = None


class Outline:
    """The tokens of a document but for its comments, and its tasks and workflows."""

    def __init__(self, text: str):
        self.text = text
        self.tokens = [it for it in lex(text, 0, len(text)) if it.kind != "comment"]
        self.pairs = pairs_of(self.tokens)
        # The places of the paths that are imported.
        self.imported = {after.start for it, after in zip(self.tokens, self.tokens[1:]) if it.text == "import" and after.kind == "string"}
        self.bodies: List[Body] = []
        index = 0
        while index + 2 < len(self.tokens):
            if self.word(index) in ("task", "workflow") and self.word(index + 2) == "{":
                self.bodies.append(Body(self.word(index), index + 2, self.pairs[index + 2]))
                self.read_body(self.bodies[-1])
                index = self.pairs[index + 2]
            index += 1

    def word(self, index: int) -> str:
        return self.tokens[index].text if index < len(self.tokens) else ""

    def expression_end(self, index: int) -> int:
        """The index behind the expression that begins there."""
        begun, operand = index, False
        while index < len(self.tokens):
            token = self.tokens[index]
            if token.text in BRACKETS and not (operand and token.text == "{" and self.tokens[index - 1].kind != "word"):
                index, operand = self.pairs[index], True
            elif operand:
                if token.text not in OPERATORS:
                    break
                operand = False
            elif token.text not in PREFIXES:
                if token.kind == "mark":
                    break
                operand = True
            index += 1
        if not operand:
            raise Unreadable(self.tokens[begun].start, "an expression is expected here")
        return index

    def declaration(self, index: int, place: str) -> Declaration:
        """The declaration that begins there."""
        first, kind = index, self.word(index)
        index += 1
        if self.word(index) == "[":
            index = self.pairs[index] + 1
        while self.word(index) in ("?", "+"):
            index += 1
        if self.tokens[first].kind != "word" or self.tokens[index].kind != "word":
            raise Unreadable(self.tokens[first].start, f"`{kind}` is not expected here")
        name, value, last = self.word(index), None, index + 1
        if self.word(last) == "=":
            value, last = last + 1, self.expression_end(last + 1)
        return Declaration(kind, name, first, value, last, place)

    def read_declarations(self, body: Body, index: int, end: int, place: str) -> None:
        while index < end:
            # In draft-2 an output of a workflow may be only a name.
            if place == "output" and self.word(index + 1) in (".", "}"):
                return
            body.declarations.append(self.declaration(index, place))
            index = body.declarations[-1].last

    def read_section(self, body: Body, index: int) -> int:
        """Reads the section whose brace stands there, and returns the index behind it."""
        name, end = self.word(index - 1), self.pairs[index]
        body.sections[name] = (index, end)
        if name in ("input", "output"):
            self.read_declarations(body, index + 1, end, name)
        index += 1
        while name == "runtime" and index < end:
            if self.tokens[index].kind != "word" or self.word(index + 1) != ":":
                raise Unreadable(self.tokens[index].start, "an attribute is expected here")
            last = self.expression_end(index + 2)
            body.runtime.append(Attribute(self.word(index), index + 2, last))
            index = last + (self.word(last) == ",")
        return end + 1

    def call_end(self, index: int) -> int:
        """The index behind the call that begins there."""
        index += 2
        while self.word(index) in (".", "as", "after"):
            index += 2
        return self.pairs[index] + 1 if self.word(index) == "{" else index

    def read_body(self, body: Body) -> None:
        index, nested = body.opening + 1, []
        while index < body.closing:
            word = self.word(index)
            if nested and index == nested[-1]:
                index = nested.pop() + 1
            elif word in SECTIONS and self.word(index + 1) == "{":
                index = self.read_section(body, index + 1)
            elif word == "command":
                body.command, index = index + 1, index + 2
            elif word == "call":
                body.calls.append((index, self.call_end(index)))
                index = body.calls[-1][1]
            elif word in ("scatter", "if") and self.word(index + 1) == "(":
                index = self.pairs[index + 1] + 1
                if self.word(index) != "{":
                    raise Unreadable(self.tokens[index].start, "`{` is expected here")
                nested.append(self.pairs[index])
                index += 1
            else:
                body.declarations.append(self.declaration(index, "nested" if nested else "body"))
                index = body.declarations[-1].last
