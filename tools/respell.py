#!/usr/bin/env python3
"""Respells the repository's own definitions, lemmas, fields and constructors by the table respell.tsv beside this file: words in snake case.

    tools/respell.py FOLDER     the checkout in which the toolchain's port.py has run; files are rewritten in place

It turns whole names: in .antt files everywhere but in strings; in .rt files in clauses, in `ghost use` lines and, as whole names with a capital
inside, in comments; in must-fail edits as in the file that they name; and in Markdown and in docs/believed between backticks or quotes.
Functions, parameters, constants, exported names, strings and inputs stay as they are.
"""
import os
import re
import sys

HERE = os.path.dirname(os.path.abspath(__file__))
TABLE = dict(line.rstrip("\n").split("\t") for line in open(os.path.join(HERE, "respell.tsv"), encoding="utf-8"))
WORD = re.compile(r"\"(?:[^\"\\]|\\.)*\"|[^\s(){}.;,@\"«»\[\]\\λ|`']+'*")
CAPITAL = re.compile(r"[a-z0-9][A-Z]")


def name(word):
    """The new name; of a name with primes behind it that the table lacks, by the name without them."""
    bare = word.rstrip("'")
    return TABLE.get(word) or TABLE.get(bare, bare) + word[len(bare):]


def turned(text):
    return WORD.sub(lambda m: name(m.group(0)), text)


def turned_capitals(text):
    return WORD.sub(lambda m: name(m.group(0)) if CAPITAL.search(m.group(0)) else m.group(0), text)


def ticked(text):
    return re.sub(r"`[^`\n]+`", lambda m: turned(m.group(0)), text)


def antt(text):
    out = []
    for line in text.split("\n"):
        code, dash, comment = line.partition("--") if line.lstrip().startswith("--") or " -- " in line else (line, "", "")
        out.append(turned(code) + dash + turned_capitals(ticked(comment)))
    return "\n".join(out)


def source(text):
    """Clauses and ghost lines whole; elsewhere only names with a capital inside, which code here has none of."""
    out, depth = [], 0
    for line in text.split("\n"):
        clause = re.match(r"\s*(ghost|requires|ensures)\b", line)
        if clause or depth:
            depth += line.count("{") - line.count("}")
            depth = max(depth, 0)
            out.append(turned(line))
        else:
            out.append(turned_capitals(line))
    return "\n".join(out)


def edit(text):
    out, kind = [], source
    for line in text.split("\n"):
        head = re.match(r"file: .*\.(rt|antt)\s*$", line)
        if head:
            kind = antt if head.group(1) == "antt" else source
        part = re.match(r"(old: |new: )(.*)", line)
        out.append(part.group(1) + kind(part.group(2)) if part else line)
    return "\n".join(out)


def page(text):
    return ticked(text)


def rewrite(path, how):
    with open(path, encoding="utf-8", newline="") as f:
        text = f.read()
    new = how(text)
    if new != text:
        with open(path, "w", encoding="utf-8", newline="") as f:
            f.write(new)


def main(top):
    for folder, folders, files in os.walk(top):
        folders[:] = [d for d in folders if d not in (".git", "out", "data", "tools")]
        for name in files:
            path = os.path.join(folder, name)
            if os.path.islink(path):
                continue
            if name.endswith(".antt"):
                rewrite(path, antt)
            elif name.endswith(".rt"):
                rewrite(path, source)
            elif name.endswith(".edit"):
                rewrite(path, edit)
            elif name.endswith(".md"):
                rewrite(path, page)


if __name__ == "__main__":
    main(sys.argv[1])
