#!/usr/bin/env python3
"""Brings the definitions and lemmas of the crates to one spelling: words in snake case.

Run once, at the top of the repository, on what the toolchain's own port script leaves. It turns
`refuseUnless` and `then-fine` into `refuse_unless` and `then_fine` wherever they stand: in specs/, proofs/, the clauses
of src/, the must-fail edits, and, between backticks, in comments and pages. Types, facts and modules keep their capital.
A lemma that would take the name of a definition gets `_lem`. Prints what it turned.
"""
import collections
import glob
import os
import re
import sys

DECLARED = re.compile(
    r"^[ \t]*(?:(?:abbrev|unfoldable|pub|private)\s+)*([^\s(){}:]+)\s*"
    r"(?:\{[^}\n]*\}|\([^)\n]*\)|\n?[ \t]+(?=[({]))*[ \t]*:(?=\s)",
    re.M,
)
NAME = r"[A-Za-z0-9_'\-◌α-ωΑ-Ω₀-₉]"
TOKEN = re.compile(NAME + "+")
# Lemmas that were in snake case already, under the name that a definition takes now.
LEMMAS = {
    "at_least_one": "at_least_one_lem",
    "right_child": "right_child_lem",
    "not_negative": "not_negative_lem",
}
# Names that are a lemma in one crate, and in these crates a field or a constructor, which keeps the plain name.
FIELDS = {"next-step", "last-reply", "verdict-line"}
FIELDS_IN = ("crates/claims/", "crates/system/")
# A part of a lemma's name that was a word of the library, and the library's word for it now.
WORDS = {"getD": "get_or"}


def snake(name):
    for old, new in WORDS.items():
        name = re.sub(rf"(?<![A-Za-z]){old}(?![A-Za-z])", new, name)
    name = name.replace("-", "_")
    return re.sub(r"([a-z0-9])([A-Z])", lambda m: m.group(1) + "_" + m.group(2).lower(), name)


def read(path):
    with open(path, encoding="utf-8") as file:
        return file.read()


def code_of(text, mark):
    return re.sub(rf"(?m){mark}.*$", "", text)


def main():
    antt = [p for p in glob.glob("crates/*/**/*.antt", recursive=True) if "/out/" not in p]
    code = glob.glob("crates/*/src/**/*.rt", recursive=True)
    edits = glob.glob("crates/*/must-fail/*.edit")
    pages = ["README.md"] + glob.glob("docs/**/*.md", recursive=True)
    texts = {p: read(p) for p in antt + code + edits + pages}

    declared = collections.defaultdict(set)
    for path in antt:
        parts = path.split("/")
        if parts[2] == "proofs" and len(parts) > 4:
            continue
        for found in DECLARED.finditer(texts[path]):
            declared[found.group(1)].add(path)
    own = {n for n in declared if n not in ("use", "open", "module") and not n[0].isupper()}

    from_elsewhere = set()
    for path in antt:
        for found in re.finditer(r"use\s+([^\s;{]+)\.\{([^}]*)\}", texts[path]):
            # `a as b` takes `a` from there, and `b` is ours
            crate = re.match(r"Rattle\.([a-z_]+)\.", found.group(1))
            if not (crate and os.path.isdir("crates/" + crate.group(1))):
                from_elsewhere.update(item.split(" as ")[0].strip() for item in found.group(2).split(","))
    named = {p: set(TOKEN.findall(code_of(texts[p], "--"))) for p in antt}
    aliases = set()
    for path in antt:
        aliases.update(n for n in re.findall(r"\sas\s+([a-z][^\s;]*)", code_of(texts[path], "--")) if "-" in n)

    # What a lemma binds is spelled as a lemma.
    bound = set()
    for path in antt:
        if not re.match(r"crates/[a-z_]+/proofs/.*/", path):
            bound.update(n for n in named[path] if not n[0].isupper() and re.match(r"[a-zA-Z]", n))

    turn = {n: snake(n) for n in own | aliases | bound if snake(n) != n and n not in from_elsewhere}
    turn.update({n: s for n, s in LEMMAS.items() if n in own})
    for name in sorted(turn):
        if "-" not in name:
            continue
        for path in antt:
            if name in named[path]:
                rivals = {n for n in named[path] if n != name and (turn.get(n) == snake(name) or n == snake(name))}
                if any(n in own and n not in aliases for n in rivals):
                    turn[name] = snake(name) + "_lem"

    spelt = own | set(turn.values())
    place = {"path": "", "text": ""}

    def new_name(token):
        if token in FIELDS and place["path"].startswith(FIELDS_IN):
            if not re.search(r"use \S+\.proofs\.\S+\{[^}]*" + token + r"\b", place["text"]):
                return snake(token)
        if token not in turn and snake(token) in spelt and place["path"].endswith(".md"):
            return snake(token)
        return turn.get(token, token)

    def turned(text):
        # A step or a goal of a function's proof is named by its source, and a definition can't take its name.
        answers = re.match(r"crates/[a-z_]+/proofs/.*/", place["path"])

        def one(found):
            token = found.group(0)
            before = text[max(0, found.start() - 5):found.start()]
            if before.endswith("tie.") or before.endswith("goal.") or re.search(r"\bc\.$", before):
                return token
            if answers and before.endswith(".") and token in turn:
                return snake(token)
            return new_name(token)
        return TOKEN.sub(one, text)

    def ticked(text):
        return re.sub(r"`[^`\n]*`", lambda m: turned(m.group(0)), text)

    def plain(text):
        return TOKEN.sub(lambda m: m.group(0) if "-" in m.group(0) else new_name(m.group(0)), text)

    def comment(line):
        # A row of a table keeps its second column: the gap gives what the name takes.
        camel = plain(line)
        row = re.match(r"^(\s*(?:--|//)   \S.*?)(   +)(\S.*)$", line)
        if row and camel != line:
            head = plain(row.group(1))
            gap = max(2, len(row.group(2)) - (len(head) - len(row.group(1))))
            camel = head + " " * gap + plain(row.group(3))
        return ticked(camel)

    def lines(text, mark):
        out = []
        for line in text.split("\n"):
            at = line.find(mark)
            if at < 0:
                out.append(turned(line))
            elif line[:at].strip() == "":
                out.append(comment(line))
            else:
                out.append(turned(line[:at]) + comment(line[at:]))
        return "\n".join(out)

    changed = 0
    for path, text in texts.items():
        place["path"], place["text"] = path, text
        if path.endswith(".antt"):
            new = lines(text, "--")
        elif path.endswith(".rt"):
            new = lines(text, "//")
        elif path.endswith(".edit"):
            new = "\n".join(comment(l) if l.startswith("#") else turned(l) for l in text.split("\n"))
        else:
            new = ticked(text)
        if new != text:
            changed += 1
            with open(path, "w", encoding="utf-8") as file:
                file.write(new)
    print(f"{len(turn)} names turned in {changed} files")
    for name in sorted(turn):
        if turn[name].endswith("_lem"):
            print(f"a definition has the name: {name} is {turn[name]}")
    return 0


sys.exit(main())
