#!/usr/bin/env python3
"""Lists functions whose bodies are the same but for names and numbers: `tools/twins.py [COMMIT]`, from the top of the repository.

Each line is a group: the tokens of one body, and the functions that have it. What differs may be a type, a size or a constant.
"""
import re
import subprocess
import sys
from collections import defaultdict

FEWEST = 12
at = sys.argv[1] if len(sys.argv) > 1 else "HEAD"


def git(*words):
    return subprocess.run(["git", *words], capture_output=True, text=True, check=True).stdout


def bodies(text):
    for found in re.finditer(r"fn ([a-z_0-9]+)", text):
        start = re.compile(r"^\s*\{\s*$|\{\s*$", re.M).search(text, found.end())
        if start is None:
            continue
        opened = text.index("{", start.start())
        depth, end = 0, opened
        for end in range(opened, len(text)):
            depth += {"{": 1, "}": -1}.get(text[end], 0)
            if depth == 0:
                break
        yield found.group(1), text[opened : end + 1]


def shape(body):
    body = re.sub(r"//.*", "", body)
    names = {}
    tokens = []
    for word in re.findall(r"[A-Za-z_][A-Za-z_0-9]*(?:::[A-Za-z_<>0-9]+)*|0x[0-9A-F]+|\d+|\S", body):
        if re.match(r"\d|0x", word):
            word = "#"
        elif re.match(r"[A-Za-z_]", word) and word not in KEYWORDS:
            word = names.setdefault(word, f"n{len(names)}")
        tokens.append(word)
    return tuple(tokens)


KEYWORDS = {"let", "mut", "if", "else", "match", "for", "in", "while", "return", "as", "break", "Some", "None", "Ok", "Err"}
groups = defaultdict(list)
for path in git("ls-tree", "-r", "--name-only", at, "crates").split():
    if re.fullmatch(r"crates/[a-z_0-9]+/src/[a-z_0-9]+\.rt", path):
        crate, file = path.split("/")[1], path.split("/")[3][:-3]
        for name, body in bodies(git("show", f"{at}:{path}")):
            tokens = shape(body)
            if len(tokens) >= FEWEST:
                groups[tokens].append(f"{crate}::{file}::{name}")
twins = sorted((group, tokens) for tokens, group in groups.items() if len(group) > 1)
for group, tokens in twins:
    print(f"{len(tokens)} {' '.join(group)}")
print(f"{len(twins)} groups, {sum(len(group) for group, _ in twins)} functions")
