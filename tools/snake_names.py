#!/usr/bin/env python3
"""Respells the names of this repository's own definitions, lemmas, fields and variables: where a dash stood, as in
length-codes, an underscore stands, as in length_codes.

usage: python3 tools/snake_names.py     at the top of the repository, once, right after the kit's port.py

A name is this repository's own where one of its files of proofs/ or specs/ declares it and not as the answer to a goal of
the checker. Names of the kit's library and those that the checker makes keep their dashes, but for the parts of the
latter that the kit spells anew (in_ok, in_err, overflow_add and the like) or that are names of the source. Two names
that would fall together are refused. Comments and pages turn inside backquotes only; strings never.
"""

import os
import re
import sys

WORD = r"[^\s(){}\[\].,;:@\"«»|=`]+"
TOKEN = re.compile(r"[^\W\d_][\w'◌]*(?:-[\w'◌]+)+")
HEAD = re.compile(
    r"^\s*(?:(?:abbrev|unfoldable|pub|data|record|where)\s+)*"
    rf"((?:{WORD}\s+)*?{WORD})\s*(?:\([^)]*\)\s*|\{{[^}}]*\}}\s*)*:\s*(.*)$"
)
LET = re.compile(rf"\blet ({WORD})\s*[:=]")
BINDERS = re.compile(rf"[({{]((?:{WORD}\s+)*?{WORD})\s*:(?=\s)")
MADE = [
    (re.compile(r"(?<![\w'])(returns-|)in-(ok|err)(?=-)"), r"\1in_\2"),
    (re.compile(r"(?<![\w'])overflow-(add|sub|mul|shl|shr|cast|step)(?=-)"), r"overflow_\1"),
    (re.compile(r"(?<![\w'])invariant-of(?=-)"), "invariant_of"),
    (re.compile(r"(?<![\w'])slice-bounds(?=-)"), "slice_bounds"),
]


def files(ending):
    for folder, folders, names in os.walk("crates"):
        folders[:] = sorted(f for f in folders if f != "out")
        for name in sorted(names):
            if name.endswith(ending):
                yield os.path.join(folder, name)


def read(path):
    with open(path, encoding="utf-8") as file:
        return file.read()


def pieces(text, comment):
    """The text cut into code, strings and comments, in order, as pairs of a kind and a text."""
    cut = re.compile(rf'"(?:[^"\\\n]|\\.)*"|(?:(?<=\s)|^){comment}[^\n]*', re.M)
    at = 0
    for found in cut.finditer(text):
        yield "code", text[at : found.start()]
        yield ("string" if found[0].startswith('"') else "comment"), found[0]
        at = found.end()
    yield "code", text[at:]


def code(text, comment):
    return "".join(part for kind, part in pieces(text, comment) if kind == "code")


def dashed(name):
    return TOKEN.fullmatch(name) is not None


def declared(text):
    """The names that a file of proofs/ or specs/ declares, and those that it declares as answers to goals."""
    own, goals = set(), set()
    for line in text.split("\n"):
        head = HEAD.match(line)
        if head:
            to = goals if head[2].startswith("goal.") else own
            to.update(head[1].split())
        own.update(LET.findall(line))
        for binder in BINDERS.findall(line):
            own.update(binder.split())
    return own, goals


def turn(text, comment, change):
    def spans(part):
        return re.sub(r"`[^`]*`", lambda span: change(span[0]), part)

    return "".join({"code": change, "string": str, "comment": spans}[kind](part) for kind, part in pieces(text, comment))


def main():
    proofs = {path: read(path) for path in files(".antt")}
    source = {path: read(path) for path in files(".rt")}
    own, goals = set(), set()
    for text in proofs.values():
        some, answered = declared(code(text, "--"))
        own |= {name for name in some if dashed(name)}
        goals |= answered
    own -= goals
    new = {name: name.replace("-", "_") for name in own}
    every = own | {name for text in proofs.values() for name in declared(code(text, "--"))[0]}
    clash = sorted(name for name in own if new[name] in every)
    if clash:
        sys.exit("fall together: " + ", ".join(clash))
    rust = {word for text in source.values() for word in re.findall(r"\b[a-z][a-z0-9]*(?:_[a-z0-9]+)+\b", code(text, "//"))}
    spelt = {word.replace("_", "-"): word for word in rust}
    longest = sorted(spelt, key=len, reverse=True)

    def own_name(text):
        return TOKEN.sub(lambda found: new.get(found[0], found[0]), text)

    def made(found):
        """A name that the checker makes: the names of the source in it keep their spelling."""
        name = found[0]
        if name in new:
            return new[name]
        if name in library:
            return name
        for pattern, to in MADE:
            name = pattern.sub(to, name)
        for word in longest:
            name = re.sub(rf"(?<![\w'])(?<!_){re.escape(word)}(?![\w'])", spelt[word], name)
        return name

    library = set()
    for text in proofs.values():
        for names in re.findall(r"^(?:pub )?use Rattle\.std\.[^{;\n]*\{([^}]*)\}", text, re.M):
            library.update(word for item in names.split(",") for word in item.split())
    library -= own
    for path, text in proofs.items():
        below = os.sep + "proofs" + os.sep in path and os.path.basename(path) in ("Answers.antt", "Invariants.antt")
        change = (lambda part: TOKEN.sub(made, part)) if below else own_name
        write(path, text, turn(text, "--", change))
    for path, text in source.items():
        write(path, text, turn(text, "//", own_name))
    for page in ["README.md"] + sorted(os.path.join("docs", name) for name in os.listdir("docs")):
        if page.endswith(".md"):
            write(page, read(page), re.sub(r"`[^`\n]*`", lambda span: own_name(span[0]), read(page)))
    print(f"{len(new)} names have underscores now")


def write(path, old, text):
    if text != old:
        with open(path, "w", encoding="utf-8") as file:
            file.write(text)


if __name__ == "__main__":
    main()
