#!/usr/bin/env python3
"""Spells the definitions and lemmas of this repository in snake case, as Rattle's library does.

usage: tools/snake_names.py [ROOT]      ROOT is a checkout (default: the current folder), right after port.py

A name that a file of specs/ or proofs/ declares (a definition, a field, a constructor or a lemma) and that has a capital letter or a hyphen
after its first letter is respelled: `lineAfter` and `line-after` become `line_after`. Where a lemma would then have the name of a definition
or of another lemma, it becomes `line_after_lem`. Types, modules and the paper's own names begin with a capital letter and stay. Names of
goals in Proof.antt stay, since the check makes them; so does a name that a file imports from the library. Names of src/ (functions, fields,
parameters, exported C names) have no such spelling and stay, and so do comments, strings and inputs. In must-fail edits the words of the
library that port.py turns elsewhere are turned too. Prints what fell together and what was done about it.
"""
import collections
import os
import re
import sys

TOKEN = re.compile(r"(?<![\w'₀-₉-])[A-Za-z_⊕ₐ-ₜα-ω][\w'₀-₉⊕-]*")
DECLARED = re.compile(r"^(\s*)((?:(?:abbrev|unfoldable|pub|record|data) )*)([^\s:(){}.,;\[\]]+)((?: [^\s:(){}.,;\[\]]+)*)\s*(.*)$")
USED = re.compile(r"^\s*(?:ghost )?(?:pub )?use ([\w.+·'-]+)\.\{([^}]*)\}", re.M)


def snake(name):
    name = re.sub(r"([a-z0-9])([A-Z])", lambda m: m.group(1) + "_" + m.group(2), name)
    return name[0] + name[1:].replace("-", "_").lower()


def turns(name):
    return bool(re.match(r"[a-z⊕]", name) and not re.match(r"x[0-9A-F]+$", name) and re.search(r"[a-z0-9][A-Z]|[\w⊕]-[\w⊕]", name))


def files(root):
    for d, dirs, fs in os.walk(os.path.join(root, "crates")):
        dirs[:] = sorted(x for x in dirs if x != "out")
        for f in sorted(fs):
            if f.endswith((".antt", ".rt", ".edit")):
                yield os.path.join(d, f)


def declared(text):
    """What an antt file declares, but for the goals of a Proof.antt: (name, whether it is a record's field)."""
    in_record = False
    for line in text.splitlines():
        if line and not line[0].isspace():
            in_record = bool(re.match(r"(pub )?record ", line))
        m = DECLARED.match(line)
        if not m:
            continue
        indent, words, name, more, rest = m.groups()
        if name in ("use", "module", "mod", "where", "let", "in", "elim", "open") or name.startswith("--"):
            continue
        if not (rest.startswith(":") or "record" in words or "data" in words) or indent == "" and re.match(r":\s*tie\.", rest):
            continue
        for n in [name] + more.split():
            yield n, bool(in_record and indent)


def module(root, path):
    """The path by which other files name an antt file."""
    crate, side, *rest = os.path.relpath(path, os.path.join(root, "crates"))[: -len(".antt")].split("/")
    return ".".join(["Rattle", crate, side] + rest)


def used(text):
    """(module, the imported name, its name here) for each name of a `use` line."""
    for m in USED.finditer(text):
        for n in m.group(2).split(","):
            parts = n.strip().split(" as ")
            if parts[0]:
                yield m.group(1), parts[0].strip(), parts[-1].strip()


def spell(code, names, fields):
    """A field, behind a dot, never has the suffix of a lemma."""
    def turned(m):
        by = fields if code[m.start() - 1 : m.start()] == "." and m.group() in names else names
        return by.get(m.group(), m.group())
    return TOKEN.sub(turned, code)


def main():
    root = sys.argv[1] if len(sys.argv) > 1 else "."
    crates = set(os.listdir(os.path.join(root, "crates")))
    texts = {p: open(p, encoding="utf-8").read() for p in files(root)}

    # what is declared where; a lemma is what a file of proofs/ declares at its top
    names, tops = set(), collections.defaultdict(dict)
    for p, t in texts.items():
        if p.endswith(".antt"):
            for n, is_field in declared(t):
                names.add(n)
                if not is_field:
                    tops[snake(n) if turns(n) else n].setdefault(n, []).append(p)
    plain = {n: snake(n) for n in names if turns(n)}

    # lemmas that fall together with another name: the hyphenated one first, then the one of proofs/ that is in snake case already
    lem = {}
    for s, by in sorted(tops.items()):
        if len(by) == 1:
            continue
        camel = [n for n in by if turns(n) and "-" not in n]
        for n in sorted(by):
            if n in camel:
                continue
            if "-" in n or camel and all("/proofs/" in p for p in by[n]):
                for p in by[n]:
                    lem[(module(root, p), n)] = s + "_lem"
                    print(f"together: {s}: {n} of {os.path.relpath(p, root)} is {s}_lem")

    for p, t in texts.items():
        here, from_library = dict(plain), set()
        if p.endswith(".antt"):
            for n, _ in declared(t):
                if (module(root, p), n) in lem:
                    here[n] = lem[(module(root, p), n)]
        for mod, n, as_here in used(t):
            if (mod, n) in lem:
                here[n] = lem[(mod, n)]
            elif (re.match(r"Rattle\.(\w+)", mod) or re.match("()", "")).group(1) not in crates:
                from_library.add(as_here)
        for n in from_library:
            here.pop(n, None)
        mark = {"antt": "--", "rt": "//", "edit": "#"}[p.rsplit(".", 1)[1]]
        out = []
        for line in t.splitlines(keepends=True):
            at = line.find(mark) if mark != "#" else (0 if line.startswith("#") else -1)
            code, comment = (line, "") if at < 0 else (line[:at], line[at:])
            if mark == "#":
                for w in TOKEN.findall(code):
                    if turns(w) and w not in here and snake(w) in names:
                        here[w] = snake(w)
            out.append(spell(code, here, plain) + comment)
        turned = "".join(out)
        if turned != t:
            with open(p, "w", encoding="utf-8") as h:
                h.write(turned)
        if p.endswith(".rt"):
            imported = {n for _, _, n in used(turned)}
            for m in re.finditer(r"\bfn (\w+)\(([^)]*)\)", turned):
                for q in re.findall(r"(\w+):", m.group(2)):
                    if q in imported:
                        print(f"hidden: {os.path.relpath(p, root)}: {m.group(1)}: its parameter {q} hides an import")


main()
