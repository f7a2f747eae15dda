#!/usr/bin/env python3
"""Counts, in crates/*/src, the places that docs/DESIGN-PASS.md speaks of.

tools/places.py [-v] [FOLDER]: FOLDER is a checkout (this one, if none is given); -v lists each place.
"""
import glob
import os
import re
import sys

args = [a for a in sys.argv[1:] if a != "-v"]
verbose = "-v" in sys.argv
root = args[0] if args else os.path.join(os.path.dirname(os.path.abspath(__file__)), "..")

files = {}
for path in sorted(glob.glob(os.path.join(root, "crates", "*", "src", "*.rt"))):
    crate = path.split(os.sep)[-3]
    with open(path) as text:
        files[crate + "/" + os.path.basename(path)] = text.read()


def code_of(text):
    """The text without comments."""
    return re.sub(r"//[^\n]*", "", text)


def functions(text):
    """Each function: its name, its head (up to the body) and its body."""
    code = code_of(text)
    for found in re.finditer(r"^( *)(?:pub )?(?:extern \"C\" )?fn (\w+)", code, re.M):
        indent = found.group(1)
        end = re.compile(r"^" + indent + r"\}", re.M).search(code, found.end())
        if not end:
            continue
        whole = code[found.start():end.end()]
        body = re.search(r"^" + indent + r"\{|\{$", whole, re.M)
        at = body.start() if body else 0
        yield found.group(2), whole[:at], whole[at:]


def told(title, places):
    print(f"{len(places):4}  {title}")
    if verbose:
        for place in places:
            print("        " + place)


def lines(pattern, skip=None):
    found = []
    for name, text in files.items():
        for number, line in enumerate(text.split("\n"), 1):
            code = code_of(line)
            if re.search(pattern, code) and not (skip and re.search(skip, code)):
                found.append(f"{name}:{number}: {line.strip()}")
    return found


print("1  own types of the shape of Option or Result, numbers for kinds and refusals")
shaped = []
for name, text in files.items():
    for found in re.finditer(r"enum (\w+) \{(.*?)\n\}", code_of(text), re.S):
        variants = re.findall(r"^\s+(\w+)(\(.*?\))?,", found.group(2), re.M)
        carrying = [v for v, value in variants if value]
        if re.search(r"Result<[^;{]*, " + found.group(1) + ">", text):
            continue
        if len(variants) == 2 and len(carrying) >= 1 or any(v in ("Refused", "Missing") for v, _ in variants):
            shaped.append(f"{name}: {found.group(1)} {{ {', '.join(v + value for v, value in variants)} }}")
told("enums of two cases of which one or both carry a value, or with a case for no value", shaped)
told("lines that give a refusal by its number", lines(r"return [1-9];|Refused\([1-9]\)"))
told("fields that are flags", lines(r"^\s+pub \w+: bool,|^\s+\w+: bool,$", r"\)"))

print("2  twins: functions alike but for names, numbers and types")


def shape(body):
    words = {}

    def renamed(found):
        word = found.group(0)
        if word in ("if", "else", "return", "let", "mut", "for", "while", "in", "match", "as", "fn"):
            return word
        if word[0].isdigit():
            return "0"
        return "w"
    flat = re.sub(r"[A-Za-z_]\w*(::\w+)*|\d[\w.]*", renamed, body)
    return re.sub(r"\s+", "", flat)


shapes = {}
for name, text in files.items():
    for function, head, body in functions(text):
        key = shape(body)
        if len(key) > 24:
            shapes.setdefault(key, []).append(f"{name} {function}")
told("groups of functions with one shape, in one crate or in several", [", ".join(v) for v in shapes.values() if len(v) > 1])

print("3  loops that count an index by hand")
told("while", lines(r"\bwhile\b"))
told("for over a range of numbers", lines(r"\bfor \w+ in [^{]*\.\."))

print("4  equality, conversion, printing by hand")
told("a number tested for one value by its range", lines(r"within\(([\w.]+), (-?[\w.]+), \2\)"))
told("printing by write_all and print_decimal", lines(r"io::(write_all|print_decimal)"))

print("5  facts and parameters that are repeated")
facts = {}
together = {}
for name, text in files.items():
    takes = []
    for function, head, body in functions(text):
        for fact in set(re.findall(r"requires (?:\w+ )?\{ (.*?) \}\n", head)):
            facts.setdefault((name.split("/")[0], fact), []).append(function)
        given = re.search(r"\((.*?)\)(?: ->|\n|$)", head, re.S)
        takes.append((function, set(re.findall(r"(\w+: [^,()]+)", given.group(1))) if given else set()))
    words = sorted(set().union(*[t for _, t in takes]) if takes else set())
    for k, one in enumerate(words):
        users = [f for f, t in takes if one in t]
        if len(users) < 3:
            continue
        mates = [other for other in words[k + 1:] if [f for f, t in takes if other in t] == users]
        if mates:
            together[(name, one)] = f"{name}: {one}; {'; '.join(mates)}: {len(users)}"
told("requires that stand word for word in three functions of a crate or more", [f"{crate}: {fact}: {len(v)}" for (crate, fact), v in facts.items() if len(v) > 2])
told("parameters that only travel together, in three functions or more", list(together.values()))

print("6  buffers with a length beside")
told("parts of an array up to a number", lines(r"\[\.\.[a-z*0-9]"))

print("7  switches on which step to run")
told("a bool that tells a function what to do", lines(r"\b(measure|moves|negative|plan_alone|output_asked): bool"))

print("8  proofs")
answers = sorted(glob.glob(os.path.join(root, "crates", "*", "proofs", "**", "Answers.antt"), recursive=True))
texts = [open(a).read() for a in answers]
told("files of answers", [os.path.relpath(a, root) for a in answers])
print(f"{sum(t.count(chr(10)) for t in texts):4}  lines in them")
again = []
for a, t in zip(answers, texts):
    for helper in re.findall(r"^([a-z]\w*-\d+) :", t, re.M):
        again.append(os.path.relpath(a, root) + ": " + helper)
told("helper facts that are said again for another goal (NAME-2, NAME-3 ..)", again)
