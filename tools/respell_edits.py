#!/usr/bin/env python3
"""Brings the texts of the must-fail edits to today's spelling, as port.py and respell.py brought the files that they are applied to.

usage: python3 tools/respell_edits.py BEFORE

BEFORE is a folder with the repository as it was before both (commit 39598a4). For each file that an edit names, the lines of that file then and now
are laid side by side. An old text is looked for in the file as it was; the line that it stands in gives the line of today, and the words that
changed between the two lines are changed in the old and in the new text. It writes the edit only if each old text then stands once in the file as
it is now, and says which are left.
"""

import difflib
import os
import re
import sys

sys.path.insert(0, os.path.dirname(os.path.abspath(__file__)))
import respell as words  # noqa: E402

BEFORE = sys.argv[1]
TOKEN = re.compile(r"[\w'′₀-₉◌-]+|\s+|.", re.S)


def own_words(root):
    words.ROOT = root
    return words.own_names()


OWN = own_words(BEFORE)
ALSO = {
    "getD": "get_or", "getD-set-same": "get_or-set_same", "u32At": "u32_at",
}


def word(w):
    if w in ALSO:
        return ALSO[w]
    return words.snake(w) if w in OWN else w


def by_rule(text):
    """The rules of both scripts that the texts of edits meet."""
    # a projection is written tight, and what it is of stands in brackets where it is more than a word
    text = re.sub(r"Rattle·(\w+)·specs\.specs\.", r"Rattle.\1.specs.", text)
    text = re.sub(r"Rattle·(\w+)·proofs\.proofs\.", r"Rattle.\1.proofs.", text)
    text = re.sub(r"Rattle·(\w+)\.", r"Rattle.\1.", text)
    text = re.sub(r"(?<![\w◌])_([^\w\s{}(),]+)_(?![\w◌])", r"◌\1◌", text)
    text = text.replace("′", "'").replace("⌜ ", "").replace(" ⌝", "")
    text = re.sub(words.TOKEN, lambda m: word(m.group(0)), text)
    return text


def side_by_side(then, now):
    """Pairs of a line then and the line that stands for it now."""
    a, b = then.split("\n"), now.split("\n")
    ra = [tight(by_rule(x)) for x in a]
    rb = [tight(x) for x in b]
    pairs = {}
    for op, i1, i2, j1, j2 in difflib.SequenceMatcher(None, ra, rb, autojunk=False).get_opcodes():
        if op == "equal" or (op == "replace" and i2 - i1 == j2 - j1):
            for k in range(i2 - i1):
                pairs[i1 + k] = j1 + k
        elif op == "replace":
            for i in range(i1, i2):
                best = max(range(j1, j2), key=lambda j: difflib.SequenceMatcher(None, ra[i], rb[j]).ratio())
                if difflib.SequenceMatcher(None, ra[i], rb[best]).ratio() > 0.6:
                    pairs[i] = best
    return a, b, pairs


def tight(line):
    return re.sub(r"[\s()]+", "", line)


def squeeze(text):
    """A text without blanks and brackets, and where each of its letters stands."""
    out, at = [], []
    for i, c in enumerate(text):
        if not c.isspace() and c not in "()":
            out.append(c)
            at.append(i)
    return "".join(out), at


def brackets(text):
    """Puts the brackets that a tight projection wants: `f x .g` is `(f x).g`, and `x .g` is `x.g`."""
    while True:
        m = re.search(r" \.([a-z_][\w]*)", text)
        if not m:
            return text
        i = m.start()
        j = i
        depth = 0
        # what it is of begins behind an operator, a bracket that is open, or a binder
        while j > 0:
            c = text[j - 1]
            if c == ")":
                depth += 1
            elif c == "(":
                if depth == 0:
                    break
                depth -= 1
            elif depth == 0 and (c in "≡≤<>+*/{};,→×⊎|&↦\\[" or text[:j].endswith((" -", "λ", ". ", "=", ": ", " in "))):
                break
            j -= 1
        of = text[j:i].strip()
        lead = text[j:i][: len(text[j:i]) - len(text[j:i].lstrip())]
        # words before it that are the function that it is an argument of can't be told by the text alone: the file now decides (see turn)
        one = re.fullmatch(r"[\w'.]+|\(.*\)", of) is not None
        text = text[:j] + lead + (of if one else "(" + of + ")") + "." + m.group(1) + text[m.end():]


def turn(crate, file, old, new, then, now):
    """The old and the new text of today, or None."""
    if now.count(old) == 1 and word_free(old):
        return old, by_rule(new) if old != by_rule(old) else new
    tries = []
    a, b, pairs = side_by_side(then, now)
    for cut in (by_rule(old), brackets(by_rule(old))):
        if now.count(cut) == 1:
            tries.append((cut, brackets(by_rule(new)) if cut != by_rule(old) else brackets(by_rule(new))))
    if not tries:
        at = [i for i, line in enumerate(a) if old in line]
        if len(at) == 1 and at[0] in pairs:
            line = b[pairs[at[0]]]
            flat, places = squeeze(line)
            want, _ = squeeze(by_rule(old).replace(" .", "."))
            k = flat.find(want)
            if k >= 0 and flat.count(want) == 1:
                cut = line[places[k]: places[k + len(want) - 1] + 1]
                lead = re.match(r"\s*", old).group(0) if old[:1].isspace() else ""
                if lead and line.startswith(lead):
                    cut = line[: places[k + len(want) - 1] + 1]
                cut = shut(cut, line)
                if now.count(cut) == 1:
                    tries.append((cut, carry(old, cut, new)))
    return tries[0] if tries else None


def word_free(text):
    return by_rule(text) == text


def shut(cut, line):
    """Takes in the brackets that the cut opens or shuts."""
    while cut.count("(") > cut.count(")") or cut.count("(") < cut.count(")"):
        i = line.find(cut)
        if cut.count("(") > cut.count(")"):
            if line[i + len(cut): i + len(cut) + 1] == ")":
                cut += ")"
            else:
                break
        else:
            if i > 0 and line[i - 1] == "(":
                cut = "(" + cut
            else:
                break
    return cut


def carry(old, cut, new):
    """Does to the text of today what the edit did to the text then: the words that differ between old and new are exchanged."""
    o, n = TOKEN.findall(by_rule(old)), TOKEN.findall(by_rule(new))
    c = TOKEN.findall(cut)
    ro = [x for x in o if x.strip()]
    out = []
    # where each token of the old text stands in the text of today
    sm = difflib.SequenceMatcher(None, [x for x in o], c, autojunk=False)
    where = {}
    for i, j, size in sm.get_matching_blocks():
        for k in range(size):
            where[i + k] = j + k
    out = list(c)
    ops = difflib.SequenceMatcher(None, o, n, autojunk=False).get_opcodes()
    for op, i1, i2, j1, j2 in reversed(ops):
        if op == "equal":
            continue
        if op == "insert":
            if i1 - 1 in where:
                p = where[i1 - 1] + 1
            elif i1 in where:
                p = where[i1]
            else:
                return brackets(by_rule(new))
            out[p:p] = n[j1:j2]
        else:
            ps = [where[k] for k in range(i1, i2) if k in where]
            if len(ps) != i2 - i1:
                return brackets(by_rule(new))
            out[min(ps): max(ps) + 1] = n[j1:j2]
    return "".join(out)


def main():
    left = done = same = 0
    for crate in sorted(os.listdir("crates")):
        folder = f"crates/{crate}/must-fail"
        if not os.path.isdir(folder):
            continue
        for name in sorted(os.listdir(folder)):
            path = f"{folder}/{name}"
            lines = words.read(path).split("\n")
            then, now, out, file, old, bad = {}, {}, [], None, None, None
            for line in lines:
                if line.startswith("file: "):
                    file = line[6:]
                    for where, texts in ((BEFORE, then), (".", now)):
                        p = f"{where}/crates/{crate}/{file}"
                        texts.setdefault(file, words.read(p) if os.path.exists(p) else "")
                    out.append(line)
                elif line.startswith("old: "):
                    old = line[5:]
                elif line.startswith("new: "):
                    new = line[5:]
                    pair = turn(crate, file, old, new, then[file], now[file])
                    if pair is None:
                        bad = bad or (file, old)
                        pair = (old, new)
                    else:
                        now[file] = now[file].replace(pair[0], pair[1])
                        then[file] = then[file].replace(old, new)
                    out += ["old: " + pair[0], "new: " + pair[1]]
                else:
                    out.append(line)
            text = "\n".join(out)
            if bad:
                left += 1
                print(f"left: {path}: {bad[0]}: {bad[1]}")
            elif text != "\n".join(lines):
                done += 1
                with open(path, "w", encoding="utf-8") as f:
                    f.write(text)
            else:
                same += 1
    print(f"respell_edits: {done} turned, {same} as they were, {left} left")


if __name__ == "__main__":
    main()
