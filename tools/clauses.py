#!/usr/bin/env python3
"""clauses.py [DIR]: takes the λ out of the clauses in which port.py leaves it, and makes types Copy, after tools/respell.py.

`ensures* { λ r. ⌜ P r ⌝ }` is `ensures { P result }`; the definition `result` of kernel, which that word would hide, is
`result_of`, in clauses, imports, specs/ and proofs/. All types here are plain, and were copied before: they derive Clone and
Copy in place of Drop. Run once in a repository (default: this folder).
"""
import re
import sys
from pathlib import Path

CLAUSE = re.compile(r"^(\s*)ensures\*( \w+)? \{ λ (\w+)\. ⌜ (.*) ⌝ \}$")


def word(name):
    return re.compile(rf"(?<![\w'.-]){name}(?![\w'-])")


def bare(text):
    """The text without parentheses that hold the whole of it."""
    depth = 0
    for at, letter in enumerate(text):
        depth += {"(": 1, ")": -1}.get(letter, 0)
        if depth == 0:
            break
    return text[1:-1] if text.startswith("((") and at == len(text) - 1 else text


def clause(line):
    found = CLAUSE.match(line)
    if not found:
        return word("result").sub("result_of", line) if line.startswith("ghost use") else line
    indent, name, value, text = found.groups()
    text = word("result").sub("result_of", text)
    if value != "_":
        text = word(value).sub("result", text)
    return f"{indent}ensures{name or ''} {{ {bare(text)} }}"


def definition(line):
    code, dashes, comment = line.partition("--")
    return word("result").sub("result_of", code) + dashes + comment


def main(args):
    top = Path(args[0] if args else ".")
    for pattern, turned in (("crates/*/src/**/*.rt", clause), ("crates/*/*/**/*.antt", definition)):
        for path in sorted(top.glob(pattern)):
            old = path.read_text(encoding="utf-8")
            new = "\n".join(map(turned, old.split("\n"))).replace("#[derive(Drop)]", "#[derive(Clone, Copy)]")
            if new != old:
                path.write_text(new, encoding="utf-8")


main(sys.argv[1:])
