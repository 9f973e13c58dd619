#!/usr/bin/env python3
"""Brings this repository's own definitions and lemmas to the spelling that today's Rattle has: words in snake case, types and facts in
camel case, and a dash only where it joins two names. tools/spelling.txt has a line 'old new' for each, and tools/spelling-locals.txt for each
parameter and local name, which is turned where no dot stands before it.

usage: python3 tools/spell.py [FOLDER]    at the top of a repository whose crates/ have today's surface; run it once
       python3 tools/spell.py --pages     the names that README.md and docs/ have in backticks

It goes by whole names. Strings are left alone, and of comments all but what stands in backticks.
"""

import os
import re
import sys

HERE = os.path.dirname(os.path.realpath(__file__))
NAME = re.compile(r"(?<![\w'◌-])[A-Za-z][\w']*(?:-[\w']+)*(?![\w'◌-])")
TICKS = re.compile(r"`[^`\n]*`")
LOCALS = {}


def table(name):
    with open(os.path.join(HERE, name), encoding="utf-8") as f:
        return dict(line.split() for line in f if line.strip())


def spelled(text, names):
    def new(m):
        word = names.get(m[0], m[0])
        return word if word != m[0] or text[m.start() - 1 : m.start()] == "." else LOCALS.get(m[0], m[0])

    return NAME.sub(new, text)


def ticked(text, names):
    return TICKS.sub(lambda m: spelled(m[0], names), text)


def parts(text, comment, strings):
    """The text in pieces: code, comments and strings, in turn."""
    what = re.escape(comment) + r"[^\n]*" + (r'|b?"(?:\\.|[^"\\])*"|\'(?:\\.|[^\'\\\n])\'' if strings else "")
    at = 0
    for m in re.finditer(what, text):
        yield "code", text[at : m.start()]
        yield ("comment" if m[0].startswith(comment) else "string"), m[0]
        at = m.end()
    yield "code", text[at:]


def turned(path, text, names):
    if path.endswith(".rt"):
        pieces = parts(text, "//", True)
    elif path.endswith(".antt"):
        pieces = parts(text, "--", False)
    else:
        pieces = [("code", text)]
    turn = {"code": spelled, "comment": ticked, "string": lambda t, n: t}
    return library_words("".join(turn[kind](piece, names) for kind, piece in pieces))


def library_words(text):
    """The library's words under their own names: the gate refuses another word under the name of a plain one."""
    for word, short in re.findall(r"\b(\w+) as (All|Has)\b", text):
        text = re.sub(rf"\b{word} as {short}\b", word, text)
        text = spelled(text, {short: word})
    return text


def rewrite(path, turn):
    with open(path, encoding="utf-8") as f:
        old = f.read()
    new = turn(old)
    if new != old:
        with open(path, "w", encoding="utf-8") as f:
            f.write(new)
        return 1
    return 0


def main(argv):
    names = table("spelling.txt")
    LOCALS.update(table("spelling-locals.txt"))
    if argv == ["--pages"]:
        pages = ["README.md"] + ["docs/" + f for f in sorted(os.listdir("docs")) if f.endswith(".md") and not f.startswith("PORT")]
        print(sum(rewrite(p, lambda t: ticked(t, names)) for p in pages), "pages turned")
        return
    root = argv[0] if argv else "."
    n = 0
    for folder, dirs, files in os.walk(os.path.join(root, "crates")):
        dirs[:] = sorted(d for d in dirs if d != "out")
        for f in sorted(files):
            if f.endswith((".rt", ".antt")):
                path = os.path.join(folder, f)
                n += rewrite(path, lambda t: turned(path, t, names))
    print(n, "files turned")


main(sys.argv[1:])
