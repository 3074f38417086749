#!/usr/bin/env python3
"""Brings the repository's own definitions, lemmas and record fields to Rattle's spelling: words in snake case.

usage: python3 tools/respell.py        at the top of the repository, once, after the kit's port.py

A name is turned if this repository declares it: in an .antt file at the margin, in a module, as a field of a record or by
'as', or in an .rt file as a ghost member or a ghost field. Names that Rattle makes (goals, steps, fields of c) are left as they are. Types keep
their capitals. In pages (.md) only what stands between backticks is turned.
Where the new name stands already in a file that has the old one, the script says so and changes nothing.
"""

import glob
import re
import sys

WORD = r"[A-Za-z_][\w'′-]*"
DECLARED = re.compile(rf"^(?:abbrev pub |abbrev |pub |unfoldable pub |unfoldable )?({WORD}) :(?![:=])(.*)$")
INNER = re.compile(rf"^ +(?:abbrev pub |abbrev |pub )?({WORD}) :(?![:=])(.*)$")
GHOST = re.compile(rf"\bghost ({WORD}) ?[:=]")
UNQUOTED = set()
TOKEN = re.compile(r"(?<![\w'′-])" + WORD)
# Names that would fall together with a function or a field beside them, and two that cite a name of std's by its older spelling.
APART = {
    "checkSum": "check_sum_lem",
    "endOut": "end_out_lem",
    "tooLong": "length_refusal",
    "heldAfter": "held_count_after",
    "entry-getD": "entry_get_or",
    "nth-getD": "nth_get_or",
    "first-getD": "first_get_or",
    "entry-at": "nth_entry",
    "entry-of": "placed_entry",
    "bucketAfter": "bucket_after_lem",
    "placeAt": "slot_place_at",
}
# A field that a function of src/ shares its name with, which is no clash.
TOGETHER = {"putNext", "putPrev"}
# A name that another crate, which neither reads nor is read by the first's, has in the new spelling.
ELSEWHERE = {"takenOut"}


def snake(name):
    """The name in snake case; a capital at the head, of a type or a fact, stays."""
    if name in APART:
        return APART[name]
    turned = re.sub(r"(?<=[a-z0-9])([A-Z])", lambda m: "_" + m.group(1).lower(), name) if name[0].islower() else name
    return turned.replace("-", "_").replace("′", "'")


def declared(path, text):
    """The names that a file declares, but for the answers to goals, whose names Rattle made."""
    if path.endswith(".rt"):
        return {m.group(1) for m in GHOST.finditer(text) if m.group(1) not in ("fn", "use")}
    found = set()
    for line in text.split("\n"):
        m = DECLARED.match(line) or INNER.match(line)
        if m and "goal." not in m.group(2):
            found.add(m.group(1))
    for m in re.finditer(rf" as ({WORD})[,}}]", text):
        found.add(m.group(1))
    return found


def turned(text, names):
    """The text with its names turned, but for those that it takes from the kit's library."""
    library = set()
    for m in re.finditer(r"^(?:ghost )?use Rattle\.std\.[\w.]*\{([^}]*)\}", text, re.M):
        library |= {n.strip() for n in m.group(1).split(",")}
    text = TOKEN.sub(lambda m: m.group(0) if m.group(0) in library else names.get(m.group(0), m.group(0)), text)
    return re.sub(r"«([a-z]\w*)»", lambda m: m.group(1) if m.group(1) in UNQUOTED else m.group(0), text)


def main():
    paths = [p for kind in ("antt", "rt", "edit") for p in glob.glob(f"crates/*/**/*.{kind}", recursive=True) if "/out/" not in p]
    texts = {p: open(p, encoding="utf-8").read() for p in sorted(paths)}
    own = set().union(*(declared(p, t) for p, t in texts.items()))
    UNQUOTED.update({snake(n) for n in own})
    names = {n: snake(n) for n in own if snake(n) != n}
    clashes = []
    for old, new in sorted(names.items()):
        if new in own and old not in ELSEWHERE:
            clashes.append(f"{old} and {new} are both declared")
        for p, t in texts.items():
            words = set(TOKEN.findall(t))
            if old in words and new in words and old not in TOGETHER:
                clashes.append(f"{p} has {old} and {new}")
    for c in clashes:
        print("clash: " + c)
    if clashes and "--anyway" not in sys.argv:
        return 1
    for p, t in texts.items():
        if turned(t, names) != t:
            open(p, "w", encoding="utf-8").write(turned(t, names))
    for p in sorted(glob.glob("docs/*.md") + ["README.md"]):
        t = open(p, encoding="utf-8").read()
        u = re.sub(r"`[^`\n]*`", lambda m: turned(m.group(0), names), t)
        if u != t:
            open(p, "w", encoding="utf-8").write(u)
    for old, new in sorted(names.items()):
        print(f"{old} -> {new}")
    return 0


if __name__ == "__main__":
    raise SystemExit(main())
