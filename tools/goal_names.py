#!/usr/bin/env python3
"""Gives the goals and steps that a crate's proof files cite the names that Rattle makes today.

usage: python3 tools/goal_names.py NAME..        at the top of the repository

`rt check --generated` lists the names of each function. A name in the function's proof files that Rattle no longer makes,
and that differs from exactly one of today's in '_' and '-' alone, is replaced by that one. A step that the list lacks gets
'_' within Rattle's own words and within the names of this repository's functions.
"""

import glob
import json
import os
import re
import subprocess
import sys

TOKEN = re.compile(r"[A-Za-z_][\w'-]*")


def strings(value):
    if isinstance(value, str):
        yield value
    elif isinstance(value, dict):
        for k, v in value.items():
            yield k
            yield from strings(v)
    elif isinstance(value, list):
        for v in value:
            yield from strings(v)


def alike(name):
    return name.replace("_", "-").lower()


def plain(token, functions):
    """A name of a step that the list lacks: Rattle's own words, and the functions that it names, with '_' in them."""
    for word in ("in-ok", "in-err", "in-default", "invariant-of", "from-residual", "slice-bounds"):
        token = re.sub(rf"\b{word}(?![a-z])", word.replace("-", "_"), token)
    token = re.sub(r"\boverflow-(add|sub|mul|cast|shl|shr|step)\b", r"overflow_\1", token)
    for f in functions:
        token = re.sub(rf"(?<![a-z]){f.replace('_', '-')}(?![a-z])", f, token)
    return token


def main():
    functions = set()
    for path in glob.glob("crates/*/src/**/*.rt", recursive=True):
        functions |= {m.group(1) for m in re.finditer(r"\bfn (\w+_\w+)", open(path, encoding="utf-8").read())}
    functions = sorted(functions, key=len, reverse=True)
    for crate in sys.argv[1:]:
        folder = os.path.join("crates", crate)
        out = f"/tmp/goal-names-{crate}"
        subprocess.run(["rt", "check", "--generated", out, "--old-names"], cwd=folder, stdout=subprocess.DEVNULL, stderr=subprocess.DEVNULL)
        for key, value in json.load(open(os.path.join(out, "names.json"))).items():
            if "-proofs." not in key:
                continue
            at = key.split("proofs.", 1)[1].rsplit(".", 1)[0].replace(".", "/")
            today = set(strings(value))
            for loop in value.get("loops", []):
                for s in strings(loop):
                    today |= {s + e for e in ("-init", "-preserved", "-smaller", "-test")} | {"invariant-" + s, "decreases-" + s}
            names = {}
            for s in today:
                if re.fullmatch(TOKEN, s):
                    names.setdefault(alike(s), set()).add(s)
            for path in glob.glob(os.path.join(folder, "proofs", at, "*.antt")):
                text = open(path, encoding="utf-8").read()
                library = {n.strip() for m in re.finditer(r"^use Rattle\.[\w.]*\{([^}]*)\}", text, re.M) if "Goals" not in m.group(0) for n in m.group(1).split(",")}

                def turn(m):
                    t = m.group(0)
                    found = names.get(alike(t), set())
                    if t in today or t in library or "-" not in t:
                        return t
                    return next(iter(found)) if len(found) == 1 else plain(t, functions)

                turned = TOKEN.sub(turn, text)
                if turned != text:
                    open(path, "w", encoding="utf-8").write(turned)
                    print(path)


if __name__ == "__main__":
    main()
