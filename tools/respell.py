#!/usr/bin/env python3
"""respell.py [DIR]: brings the names of definitions and lemmas that port.py left in camel case to snake case.

Run once in a repository (default: this folder) that port.py has turned. A name is respelled wherever it stands: in
specs/, proofs/ and src/ (whose own names are in snake case already, so that only clauses and imports have such names),
and in the edits. The docs are respelled where they quote such a name. With --together it lists names that would fall
together with another name of the same file, and writes nothing.
"""
import re
import sys
from pathlib import Path

CAMEL = re.compile(r"(?<![A-Za-z0-9_'·.\"/])[a-z][a-z0-9_]*[A-Z][A-Za-z0-9_]*|(?<=[.])[a-z][a-z0-9_]*[A-Z][A-Za-z0-9_]*")
WORD = re.compile(r"[^\W\d][\w']*")
# a fact is spelled as a type
OTHERS = {"kindRule": "KindRule"}
# lemmas that would fall together with the definition that they are of, and a definition that has a tactic's name; in a
# .rt file, where functions keep their names, the clauses and imports alone
LEMMAS = {"last_written": "last_written_lem", "last_stored": "last_stored_lem", "bits_in": "bits_in_lem",
          "with_item": "with_item_lem", "first_of": "first_place"}
CLAUSE = re.compile(r"^\s*(ghost use|requires|ensures)\b")


def snake(name):
    name = re.sub(r"(?<=[a-z0-9])([A-Z])", r"_\1", name)
    return name.lower()


def spelled(name):
    return OTHERS.get(name, snake(name))


def files(top, ending):
    return sorted(p for p in top.glob(f"crates/**/*{ending}") if "out" not in p.relative_to(top).parts)


def camel_names(top):
    names = set()
    for ending in (".antt", ".rt"):
        for p in files(top, ending):
            for line in p.read_text(encoding="utf-8").splitlines():
                code = line.split("--")[0] if ending == ".antt" else re.sub(r"//.*|b?\"[^\"]*\"", "", line)
                names.update(CAMEL.findall(code))
    return {n for n in names if not n.startswith("to_")}


def together(top, names):
    new = {spelled(n): n for n in names}
    if len(new) < len(names):
        seen = {}
        for n in sorted(names):
            seen.setdefault(spelled(n), []).append(n)
        for s, ns in seen.items():
            if len(ns) > 1:
                print(f"{s}: {' '.join(ns)}")
    for ending in (".antt", ".rt"):
        for p in files(top, ending):
            text = re.sub(r"--.*" if ending == ".antt" else r"//.*", "", p.read_text(encoding="utf-8"))
            here = set(WORD.findall(text))
            for s in sorted(here & set(new)):
                if new[s] in here:
                    print(f"{p.relative_to(top)}: {s} beside {new[s]}")


def respell(text, names):
    return re.sub(r"(?<![A-Za-z0-9_'])[a-z][a-z0-9_]*[A-Z][A-Za-z0-9_]*",
                  lambda m: spelled(m.group()) if m.group() in names else m.group(), text)


def apart(text, whole):
    def line(s):
        return re.sub(r"(?<![\w'.])(" + "|".join(LEMMAS) + r")(?![\w'])", lambda m: LEMMAS[m.group()], s)
    return line(text) if whole else "\n".join(line(s) if CLAUSE.match(s) else s for s in text.split("\n"))


def main(args):
    look = "--together" in args
    rest = [a for a in args if not a.startswith("--")]
    top = Path(rest[0] if rest else ".")
    names = camel_names(top)
    if look:
        together(top, names)
        return
    changed = 0
    pages = [top / "README.md", *sorted(top.glob("docs/**/*.md"))]
    for p in files(top, ".antt") + files(top, ".rt") + files(top, ".edit") + pages:
        old = p.read_text(encoding="utf-8")
        new = respell(apart(old, p.suffix == ".antt") if p.suffix in (".antt", ".rt") else old, names)
        if new != old:
            p.write_text(new, encoding="utf-8")
            changed += 1
    print(f"{len(names)} names, {changed} files")


main(sys.argv[1:])
