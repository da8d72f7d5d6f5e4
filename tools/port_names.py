#!/usr/bin/env python3
"""Respells the repository's own definitions and lemmas in snake case, after port.py.

usage: python3 tools/port_names.py [--force]    at the top of the repository

Types, modules and symbols keep their spelling, and so does each name that a file takes from a library. A dash stays only beside a symbol (bit-∩). The modules
`specs/Contracts` become `specs/ContractWords`, since the check makes a module `specs.contracts`. Must-fail edits, README and docs/ follow. Names that would fall
together within a file are reported, and nothing is written but with --force: the few that are left are parts of paths, functions of src/ and fields, which keep their own place.
"""

import os
import re
import subprocess
import sys

# a run of letters that makes one name in antt
TOKEN = re.compile(r"[^\s(){}\[\];,.◌«»`\"]+")
DECLARED = re.compile(r"^\s*(?:(?:pub|abbrev|unfoldable|data|record|private)\s+)*([^\s(){}\[\];,.]+)\s+:(?=\s)")
BOUND = re.compile(r"(?:let|λ|[({])\s*([^\s(){}\[\];,.]+)\s+:(?=\s)")
PATH = re.compile(r"\bRattle(?:\.[^\s(){}\[\];,.]+)+|--.*|//.*")
USE = re.compile(r"^\s*(?:pub |ghost )*use\s+([^\s;{]+?)\.?(?:\{([^}]*)\}|\s|;|$)")
# lemmas that port.py has respelled already
LEMMAS = {"up-to", "in-turn", "best_of", "head_bytes", "sets_of", "end_known"}
SPECIAL = {"getD": "get_or", "CuthillMcKee": "_cuthill_mckee", "cuthillMcKee": "cuthill_mckee"}


def is_word(part):
    return bool(re.fullmatch(r"[A-Za-z0-9_'′]+", part))


def snake_word(part):
    for old, new in SPECIAL.items():
        part = part.replace(old, new)
    part = re.sub(r"([a-z0-9])([A-Z])", lambda m: m.group(1) + "_" + m.group(2).lower(), part)
    return re.sub(r"([A-Z])", lambda m: m.group(1).lower(), part)


def snake(token):
    """The token in snake case, or itself where it is a type's name, a symbol, or in snake case already."""
    if not token or not re.match(r"[a-z≼∩∪∖⊆∈]", token):
        return token
    parts = token.split("-")
    if not any(is_word(p) for p in parts):
        return token
    out = snake_word(parts[0]) if is_word(parts[0]) else parts[0]
    for before, after in zip(parts, parts[1:]):
        joint = "_" if is_word(before) and is_word(after) else "-"
        out += joint + (snake_word(after) if is_word(after) else after)
    return out


def files():
    listed = subprocess.run(["git", "ls-files", "--cached", "--others", "--exclude-standard"], capture_output=True, text=True, check=True).stdout.split("\n")
    return [f for f in listed if f and os.path.isfile(f)]


def read(path):
    with open(path, encoding="utf-8") as f:
        return f.read()


def own_crates():
    return set(os.listdir("crates"))


def library_names(text, crates):
    """What the file takes from a library."""
    names = set()
    for line in text.split("\n"):
        m = USE.match(line)
        if not m or not m.group(2):
            continue
        path = m.group(1).split(".")
        if path[0] == "Rattle" and len(path) > 1 and path[1] in crates:
            continue
        for it in m.group(2).split(","):
            for word in it.split():
                names.add(word.strip("◌"))
    return names


def declared(text):
    names = set()
    for line in text.split("\n"):
        if line.lstrip().startswith("--"):
            continue
        m = DECLARED.match(line)
        if m:
            names.add(m.group(1).strip("◌"))
        names.update(BOUND.findall(line))
        m = re.match(r"^\s*(?:(?:pub|abbrev|unfoldable)\s+)*◌([A-Za-z]+)◌ :", line)
        if m:
            names.add(m.group(1))
    return names


def main():
    crates = own_crates()
    all_files = files()
    antt = [f for f in all_files if f.startswith("crates/") and f.endswith(".antt")]
    rt = [f for f in all_files if f.startswith("crates/") and f.endswith(".rt")]
    own = set()
    for f in antt:
        text = read(f)
        lib = library_names(text, crates)
        own |= {n for n in declared(text) if n not in lib}
    table = {n: snake(n) for n in own if snake(n) != n}
    # a lemma that would have its definition's name gets _lem, as in the library
    camel = {snake(n) for n in own if "-" not in n and snake(n) != n}
    lemmas = {n for n in own if "-" in n and snake(n) in camel}
    lemmas |= own & LEMMAS
    for n in lemmas:
        table[n] = snake(n) + "_lem"
    new_names = {table.get(n, n) for n in own}
    written, bad = {}, []

    def turn(text, keep, known, in_walk=False):
        def one(m):
            t = m.group(0)
            if t in keep or not known(t):
                return t
            if t in lemmas:
                made = in_walk and text[m.start() - 1 : m.start()] == "."
                return snake(t) if made else table[t]
            return snake(t)

        return TOKEN.sub(one, text)

    def module(text):
        return re.sub(r"\bspecs\.Contracts\b", "specs.ContractWords", text)

    for f in antt + rt:
        text = read(f)
        keep = library_names(text, crates)
        seen = {}
        for t in set(TOKEN.findall(PATH.sub(" ", text))):
            to = table[t] if t in table and t not in keep else t
            seen.setdefault(to, set()).add(t)
        for to, olds in seen.items():
            if len(olds) > 1:
                bad.append(f"{f}: {' '.join(sorted(olds))} would all be {to}")
        new = module(turn(text, keep, table.__contains__, bool(re.search(r"/proofs/.+/Proof\.antt$", f))))
        if f.startswith("crates/curveplan/"):
            new = re.sub(r"(?<![\w.-])in_order(?= [:=]\s)", "in_order_lem", new)
        if os.path.basename(f) == "Lib.antt" and "/specs/" in f:
            new = re.sub(r"(?m)^pub mod Contracts$", "pub mod ContractWords", new)
            new = re.sub(r"(?m)^(--\s+)Contracts(\s)", r"\1ContractWords\2", new)
        if new != text:
            written[f] = new
    if bad:
        print("\n".join(bad))
        if "--force" not in sys.argv:
            return 1
    for f in all_files:
        if f.endswith(".edit"):
            text = read(f)
            new = module(turn(text, set(), table.__contains__)).replace("specs/Contracts.antt", "specs/ContractWords.antt")
        elif f.endswith(".md"):
            text = read(f)
            new = re.sub(r"`[^`\n]+`", lambda m: turn(m.group(0), set(), lambda t: t in table or t != snake(t) and snake(t) in new_names), text)
        else:
            continue
        if new != text:
            written[f] = new
    for f, text in written.items():
        with open(f, "w", encoding="utf-8") as out:
            out.write(text)
    for f in antt:
        if re.fullmatch(r"crates/\w+/specs/Contracts\.antt", f):
            subprocess.run(["mv", f, f.replace("Contracts.antt", "ContractWords.antt")], check=True)
    print(f"{len(table)} names, {len(written)} files")
    return 0


if __name__ == "__main__":
    sys.exit(main())
