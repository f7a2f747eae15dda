#!/usr/bin/env python3
"""Brings the repository's own definitions and lemmas to one spelling: words in snake case. tools/respelled.tsv has each old name and its new one.

usage: python3 tools/respell.py          at the top, once, after the kit's port.py

Names go by whole tokens, in .antt and .rt files, in must-fail/ and edits/, and in the pages. A token that its file imports from the kit keeps its name,
and so do strings, and in a comment or a page a name with a dash that doesn't stand in backticks or in a block of code: there it is English.
"""

import os
import re

WORD = re.compile(r'[^\s(){}\[\],;."@|\u2018\u2019:`]+')
CAMEL = re.compile(r"[a-z][A-Za-z0-9']*[A-Z]")


def table():
    with open("tools/respelled.tsv", encoding="utf-8") as f:
        return dict(line.rstrip("\n").split("\t") for line in f)


def crates():
    return {c for c in os.listdir("crates") if os.path.isdir(os.path.join("crates", c))}


def imported(text, own):
    """The names that a file takes from the kit."""
    names = set()
    for m in re.finditer(r"\buse ([A-Za-z][\w.'+-]*?)(?:\.\{([^}]*)\})?(?: as [^\s;]+)?;?\n", text):
        parts = m.group(1).split(".")
        if parts[0] == "Rattle" and len(parts) > 1 and parts[1] in own:
            continue
        names |= {n.strip().split(" as ")[0] for n in (m.group(2) or "").split(",")}
    return names


def code(text, names, keep):
    return WORD.sub(lambda m: names[m.group(0)] if m.group(0) in names and m.group(0) not in keep else m.group(0), text)


def prose(text, names, keep):
    """A comment or a page: names in camel case anywhere, names with a dash only in backticks."""
    camel = {a: b for a, b in names.items() if CAMEL.match(a)}
    pieces = text.split("`")
    return "`".join(code(p, names if i % 2 else camel, keep) for i, p in enumerate(pieces))


def line_of_code(line, names, keep, comment):
    at = line.find(comment)
    while at >= 0 and at and not line[at - 1].isspace():
        at = line.find(comment, at + 1)
    head, tail = (line, "") if at < 0 else (line[:at], line[at:])
    pieces = re.split(r'("(?:[^"\\]|\\.)*")', head)
    return "".join(p if p.startswith('"') else code(p, names, keep) for p in pieces) + prose(tail, names, keep)


def source(text, names, own, comment):
    keep = imported(text, own)
    return "\n".join(line_of_code(l, names, keep, comment) for l in text.split("\n"))


def page(text, names):
    out, block = [], False
    for line in text.split("\n"):
        if line.lstrip().startswith("```"):
            block = not block
            out.append(line)
        elif block or line.startswith("    "):
            out.append(code(line, names, set()))
        else:
            out.append(prose(line, names, set()))
    return "\n".join(out)


def main():
    names, own = table(), crates()
    for folder, dirs, files in os.walk("."):
        dirs[:] = sorted(d for d in dirs if d not in (".git", "out", "target", "tools"))
        for f in sorted(files):
            path = os.path.join(folder, f)
            if not f.endswith((".antt", ".rt", ".edit", ".md")):
                continue
            with open(path, encoding="utf-8") as it:
                text = it.read()
            if f.endswith(".antt"):
                new = source(text, names, own, "--")
            elif f.endswith((".rt", ".edit")):
                new = source(text, names, own, "//")
            else:
                new = page(text, names)
            if new != text:
                with open(path, "w", encoding="utf-8") as it:
                    it.write(new)


if __name__ == "__main__":
    main()
