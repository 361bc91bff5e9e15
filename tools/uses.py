#!/usr/bin/env python3
"""Prints which of the crates that crates.txt gives to a crate this one never names in its src/, specs/ and proofs/.

    tools/uses.py [--list] [--gives] [NAME..]
    tools/uses.py --minimal

NAMEs are crates; without one, all are meant. The last line is the sum.

--list prints what each crate names, in place of what it does not.

--gives prints for each crate the lines that its specs/Lib.antt needs for a crate above it that names this one alone: a line for each file of specs/ of a
crate below it that its clauses and definitions cite. A name that another line or a file of the crate has already is marked.

--minimal prints crates.txt with the crates that each names alone, in the order that they have there. Nothing is changed."""
import argparse, os, re, sys

root = os.path.dirname(os.path.dirname(os.path.abspath(__file__)))
LINE = re.compile(r"(\w+)((?: [a-z_]+(?:=[^ :]+)?)*):(.*)")
# A comment, or the text of a string or a character. (A lifetime is none.)
UNREAD_CODE = re.compile(r"//[^\n]*|\"(?:[^\"\\]|\\.)*\"|'(?:[^'\\]|\\.)'", re.S)
UNREAD_PROOF = re.compile(r"--[^\n]*|\"(?:[^\"\\]|\\.)*\"", re.S)


def lines():
    """The lines of crates.txt, each with the crate and what it is given, if it names one."""
    with open(f"{root}/crates.txt", encoding="utf-8") as it:
        for line in it.read().splitlines():
            found = LINE.fullmatch(line.partition("#")[0].rstrip())
            yield line, found and found[1], found[3].split() if found else []


def texts(crate, parts=("src", "specs", "proofs")):
    """The texts of a crate that name others, without comments and strings."""
    for part in parts:
        for at, _, names in os.walk(f"{root}/crates/{crate}/{part}"):
            for name in names:
                if name.endswith((".rt", ".antt")):
                    with open(f"{at}/{name}", encoding="utf-8") as it:
                        yield (UNREAD_CODE if name.endswith(".rt") else UNREAD_PROOF).sub(" ", it.read())


def named_in(crate):
    """The first parts of all paths in a crate."""
    found = set()
    for text in texts(crate):
        found.update(re.findall(r"\bRattle\.(\w+)", text))
        found.update(re.findall(r"(?<![\w:.])(\w+)\s*::", text))
        found.update(re.findall(r"\buse\s+(\w+)\s*;", text))
    return found


def gives(crate, of):
    """The modules of specs/ of crates of this repository that the clauses and definitions of a crate cite."""
    found = set()
    for part, mark in (("src", r"\bghost use\s+"), ("specs", r"(?m)^(?:pub\s+)?use\s+")):
        for text in texts(crate, (part,)):
            found.update(it for it in re.findall(mark + r"(Rattle\.\w+\.specs(?:\.declared(?:\.\w+)*?)?\.\w+)(?=\.[{]|\s|$)", text) if it.split(".")[1] in of and it.split(".")[1] != crate)
    # (what stands in the module of a type comes with it)
    return sorted(it for it in found if it.rpartition(".")[0] not in found)


def print_gives(crates, of):
    """Prints for each crate what its specs/Lib.antt would have to give on."""
    count = clashes = 0
    for crate in crates:
        found = gives(crate, of)
        taken = {name.removesuffix(".antt") for name in os.listdir(f"{root}/crates/{crate}/specs")} if os.path.isdir(f"{root}/crates/{crate}/specs") else set()
        for module in found:
            last = module.rpartition(".")[2]
            clash = "  -- this name is taken" if last in taken else ""
            clashes += bool(clash)
            taken.add(last)
            print(f"{crate}: pub use {module}{clash}")
        count += len(found)
    print(f"{count} lines, {clashes} with a name that is taken")


def minimal():
    """Prints the lines of crates.txt with what each crate names alone."""
    for line, crate, given in lines():
        if crate:
            named = named_in(crate)
            head = line.partition(":")[0]
            line = f"{head}: {' '.join(it for it in given if it in named)}".rstrip()
        print(line)


def main():
    words = argparse.ArgumentParser(description=__doc__, formatter_class=argparse.RawDescriptionHelpFormatter)
    for name in ("--minimal", "--list", "--gives"):
        words.add_argument(name, action="store_true")
    words.add_argument("names", nargs="*")
    asked = words.parse_args()
    of = {crate: given for _, crate, given in lines() if crate}
    for name in asked.names:
        if name not in of:
            words.error(f"crates.txt has no crate {name}")
    if asked.minimal:
        return minimal()
    if asked.gives:
        return print_gives(asked.names or [*of], of)
    count = 0
    for crate in asked.names or of:
        named = named_in(crate)
        shown = [it for it in of[crate] if (it in named) == asked.list]
        count += len(shown)
        if shown:
            print(f"{crate}: {' '.join(shown)}")
    print(f"{count} of {sum(len(of[it]) for it in asked.names or of)}")


if __name__ == "__main__":
    sys.exit(main())
