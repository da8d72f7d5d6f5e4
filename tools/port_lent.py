#!/usr/bin/env python3
"""Turns the words `was` and `after` of the contracts into Rattle's own: `x.now` of a `&`, `x.old` and `x.new` of a `&mut`.

usage: python3 tools/port_lent.py [CRATE ..]        at the top of the repository; every crate where none is named
"""

import os
import re
import sys

FN = re.compile(r"(?m)^[ \t]*(?:pub(?:\([^)]*\))? )?(?:const )?(?:unsafe )?(?:extern \"C\" )?fn \w+(?:<[^>]*>)?\(")


def parameters(text, at):
    """The parameters of the function whose list begins behind `at`: name to 'old' (a &mut) or 'now'; and where the list ends."""
    depth, i = 1, at
    while depth:
        depth += {"(": 1, ")": -1}.get(text[i], 0)
        i += 1
    found, part, depth = {}, "", 0
    for ch in text[at : i - 1] + ",":
        if ch == "," and depth == 0:
            m = re.match(r"\s*(?:mut\s+)?(\w+)\s*:\s*(.*)$", part, re.S)
            if m:
                kind = m.group(2).strip()
                found[m.group(1)] = "old" if re.match(r"&(?:'\w+ )?mut\b", kind) else "now"
            elif re.match(r"\s*&mut self", part):
                found["self"] = "old"
            elif re.match(r"\s*&self", part):
                found["self"] = "now"
            part = ""
            continue
        depth += {"(": 1, "[": 1, "<": 1, ")": -1, "]": -1, ">": -1}.get(ch, 0)
        part += ch
    return found, i


def turn(text):
    starts = [m for m in FN.finditer(text)]
    out, last = [], 0
    for k, m in enumerate(starts):
        found, end = parameters(text, m.end())
        stop = starts[k + 1].start() if k + 1 < len(starts) else len(text)
        clauses = re.search(r"(?m)^\{", text[end:stop])
        stop = end + clauses.start() if clauses else stop
        body = text[end:stop]

        def one(x):
            word, name = x.group(1), x.group(2)
            if name not in found:
                print(f"left: {word} {name}", file=sys.stderr)
                return x.group(0)
            return f"{name}.{'new' if word == 'after' else found[name]}"

        body = re.sub(r"\((was|after) ((?:\w)+)\)", one, body)
        body = re.sub(r"(?<![\w.])(was|after) (\w+)", one, body)
        out += [text[last:end], body]
        last = stop
    out.append(text[last:])
    text = "".join(out)

    def use(m):
        names = [n.strip() for n in m.group(2).split(",") if n.strip() not in ("was", "after")]
        return f"{m.group(1)}{{{', '.join(names)}}};\n" if names else ""

    return re.sub(r"(?m)^([ \t]*ghost use Rattle\.lists\.specs\.Lent\.)\{([^}]*)\};\n", use, text)


def main():
    for crate in sys.argv[1:] or sorted(os.listdir("crates")):
        for folder, _, names in os.walk(f"crates/{crate}/src"):
            for name in names:
                if name.endswith(".rt"):
                    path = os.path.join(folder, name)
                    with open(path, encoding="utf-8") as f:
                        text = f.read()
                    new = turn(text)
                    if new != text:
                        with open(path, "w", encoding="utf-8") as f:
                            f.write(new)


main()
