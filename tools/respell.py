#!/usr/bin/env python3
"""Brings the repository's own names in specs and proofs to one spelling: words in snake case, types and modules in camel case.

usage: python3 tools/respell.py [FOLDER]

Run once, after port.py, at the top of a checkout (or on FOLDER). It finds the words that specs/ and proofs/ declare with a dash or a capital
inside, and writes each as a word with underscores wherever it stands: in specs/, proofs/ and the clauses of src/. Names of functions, strings,
inputs, outputs and exported names are left as they are. Running it again changes nothing.
"""

import os
import re
import sys

ROOT = sys.argv[1] if len(sys.argv) > 1 else "."
IDENT = r"[A-Za-zα-ωΑ-Ω_][\w'₀-₉α-ωΑ-Ω≡≤-]*"
DECLARES = re.compile(r"^\s*(?:(?:pub|abbrev|unfoldable|opaque)\s+)*(" + IDENT + r")((?:\s*[({][^:]*:.*?[)}])*)?\s*:\s", re.M)
TOKEN = re.compile(r"(?<![\w'₀-₉-])" + IDENT)
# Two names that would fall together, and a name that says more than the rule would make of it.
SINGLE = {"records-of": "records_found", "inside-each": "inside_each_decides", "inside-all": "inside_all_decides", "figures-≡": "figures_same"}
# Words that no line declares in the form that is looked for: a lemma with its type on the next line, and parameters of sections and records.
ALSO = {"some-decides", "numbersOf", "of-l", "pick-p", "pick-q", "fit-a", "fit-b", "u-is", "sees-b", "sees-d", "is-calls", "is-boards", "is-cancels"}
SINGLE_ONLY_IN = {"inside-all": "Decide/Waits.antt"}


def snake(name):
    if name in SINGLE:
        return SINGLE[name]
    return re.sub(r"([a-z0-9])([A-Z])", r"\1_\2", name).replace("-", "_").lower()


def files(ends):
    for folder, dirs, names in os.walk(os.path.join(ROOT, "crates")):
        dirs[:] = sorted(d for d in dirs if d != "out")
        for name in sorted(names):
            # the toolchain names the goals that these answer, with dashes
            if name.endswith(ends) and name not in ("Answers.antt", "Invariants.antt"):
                yield os.path.join(folder, name)


def read(path):
    with open(path, encoding="utf-8") as f:
        return f.read()


def kit_names():
    """What is brought in from the toolchain: these are not ours to spell."""
    found = set()
    for path in files((".antt", ".rt")):
        for line in read(path).splitlines():
            m = re.match(r"\s*(?:ghost )?use ([\w.+·'-]+)\.\{(.*)\}", line)
            if m and not re.match(r"Rattle[·.](?!std\.)", m.group(1)):
                found |= {n.split(" as ")[0].strip() for n in m.group(2).split(",")}
    return found


def own_names():
    found = set()
    for path in files((".antt",)):
        # A function's own proof files name the steps of its proof as the toolchain does, with dashes.
        if os.path.basename(path) == "Proof.antt":
            continue
        for m in DECLARES.finditer(read(path)):
            name = m.group(1)
            if "-" in name or re.match(r"[a-z].*[A-Z]", name):
                found.add(name)
    return (found | ALSO) - kit_names()


def respell(text, names, path):
    def one(m):
        name = m.group(0)
        if name not in names:
            return name
        if name in SINGLE_ONLY_IN and not path.endswith(SINGLE_ONLY_IN[name]):
            return name.replace("-", "_")
        return snake(name)

    return TOKEN.sub(one, text)


def in_comment(text, names, path):
    """In prose only what can't be a word of English: a capital inside, or what stands between backticks."""
    capital = {n for n in names if re.match(r"[a-z].*[A-Z]", n)}
    text = re.sub(r"`[^`]*`", lambda m: respell(m.group(0), names, path), text)
    return respell(text, capital, path)


def antt(text, names, path):
    out = []
    for line in text.split("\n"):
        code, dash, comment = line.partition("-- ") if re.match(r"\s*-- ", line) else (line, "", "")
        out.append(respell(code, names, path) + dash + in_comment(comment, names, path))
    return "\n".join(out)


def rt(text, names, path):
    """Clauses and their imports. A dash between two names in code is a subtraction and has spaces around it, and is not touched."""
    out = []
    ghost = False
    for line in text.split("\n"):
        if line.lstrip().startswith("//"):
            head, slashes, comment = line.partition("//")
            out.append(head + slashes + in_comment(comment, names, path))
            continue
        ghost = ghost or re.match(r"\s*(?:pub )?(?:ghost|requires|ensures|returns|decreases)\b", line) is not None
        out.append(respell(line, names, path) if ghost else line)
        if ghost and (line.rstrip().endswith("}") or line.rstrip().endswith(";")):
            ghost = False
    return "\n".join(out)


def main():
    names = own_names()
    taken = {}
    for n in sorted(names):
        taken.setdefault(snake(n), []).append(n)
    for new, olds in sorted(taken.items()):
        if len(olds) > 1:
            print(f"respell: {', '.join(olds)} fall together as {new}")
    for path in files((".antt", ".rt")):
        text = read(path)
        new = (antt if path.endswith(".antt") else rt)(text, names, path)
        if new != text:
            with open(path, "w", encoding="utf-8") as f:
                f.write(new)
    print(f"respell: {len(names)} names")


if __name__ == "__main__":
    main()
