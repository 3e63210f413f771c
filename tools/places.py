#!/usr/bin/env python3
"""Lists the places of src/ that docs/DESIGN-PASS.md speaks of, point by point, and counts them.

    python3 tools/places.py [FOLDER]      FOLDER is a checkout, or the current one

It goes by text. What a line means, and why a place stays, is for a reader: the page says it.
"""
import collections
import glob
import os
import re
import sys

ROOT = sys.argv[1] if len(sys.argv) > 1 else "."
FILES = sorted(glob.glob(os.path.join(ROOT, "crates/*/src/**/*.rt"), recursive=True))
TEXT = {f: open(f, encoding="utf-8").read() for f in FILES}


def short(path):
    return os.path.relpath(path, os.path.join(ROOT, "crates"))


def code(line):
    return line.split("//")[0]


def grep(title, pattern):
    """Lines of code, without their comments, in which a pattern stands."""
    found = [(f, n, line.strip()) for f in FILES for n, line in enumerate(TEXT[f].splitlines(), 1) if re.search(pattern, code(line))]
    show(title, [f"{short(f)}:{n}: {line}" for f, n, line in found])


def show(title, lines):
    print(f"\n## {title}: {len(lines)}")
    for line in lines:
        print("   ", line)


def functions():
    """Each function: its file, name, head (with its clauses) and body."""
    for f in FILES:
        text = TEXT[f]
        for m in re.finditer(r"^( *)(?:pub )?(?:const )?(?:extern \"C\" )?fn (\w+)", text, re.M):
            end = text.find("\n" + m.group(1) + "}", m.end())
            part = text[m.start() : end]
            brace = re.search(r"\n *\{\n| \{\n", part)
            cut = brace.start() if brace else len(part)
            yield f, m.group(2), part[:cut], part[cut:]


def shape(part):
    """A function's tokens with names and numbers replaced by the order in which they first stand: twins have one shape."""
    part = re.sub(r"//[^\n]*", "", part)
    seen = {}
    return tuple(
        seen.setdefault(t, f"#{len(seen)}") if re.match(r"\w", t) and t not in ("fn", "let", "mut", "if", "else", "while", "for", "in", "return", "match", "self", "as", "true", "false") else t
        for t in re.findall(r"\w+|[^\w\s]", part)
    )


FUNCTIONS = list(functions())

grep("1a. Enums of the repository's own", r"^(pub )?enum ")
grep("1b. Fields that are flags", r"^ +(pub )?\w+: bool,")
grep("1c. Numbers of refusals", r"refusal: u32|const UNREADABLE: u32|number: u32|\brefused\(\d|return \d+;|^ +0$|(refusal|wrong|untimely|check\(index\)) != 0|pub fn (check|refusal)\(.*-> u32")
grep("1d. Values that stand for none", r"NO_STEP|NOTHING|\bPAST\b|(length|n) == 0|start: call\.end")

shapes = collections.defaultdict(list)
for f, name, head, body in FUNCTIONS:
    s = shape(re.sub(r"^ *pub ", "", head.split("requires")[0].split("ensures")[0]) + body)
    if len(s) > 8:
        shapes[s].append(f"{short(f)} {name}")
show("2. Functions of one shape", [", ".join(v) for v in shapes.values() if len(v) > 1])

grep("3. Loops that are no `for`", r"^ *('\w+: )?(while|loop)\b")
grep("4. Casts", r"\bas (u8|u16|u32|u64|usize)\b")

facts = collections.defaultdict(list)
for f, name, head, body in FUNCTIONS:
    for clause in re.findall(r"requires (?:\w+ )?\{ (.*) \}", head):
        for fact in clause.split(" × "):
            fact = re.sub(r"^\((.*)\)$", r"\1", fact)
            facts[fact].append(f"{short(f).split('/')[0]}::{name}")
show("5a. Facts in the `requires` of three or more functions", [f"{fact}: {', '.join(v)}" for fact, v in sorted(facts.items(), key=lambda x: -len(x[1])) if len(v) > 2])
many = []
for f, name, head, body in FUNCTIONS:
    inside = re.search(r"fn \w+(?:<[^(]*>)?\(([^)]*)\)", head)
    count = len([a for a in re.split(r",\s", inside.group(1)) if a.strip()]) if inside else 0
    if count > 4:
        many.append(f"{short(f)} {name}: {count}")
show("5b. Functions of five or more parameters", many)
grep("6. Arrays in fields and parameters", r"\w+: (&mut |&)?\[\w+; ")
grep("7. Parameters that are flags", r"fn .*\b\w+: bool\b|^    \w+: bool,$")
