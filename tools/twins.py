#!/usr/bin/env python3
"""Twins and repeated facts in Rattle sources.

twins.py FOLDER..            pairs of functions whose bodies are the same words but for names and numbers
twins.py --clauses FOLDER..  clauses that stand in three functions or more, and pairs of parameters that travel together
"""
import itertools
import os
import re
import sys
from collections import defaultdict

KEYWORDS = set("""fn let mut if else match for in while loop return break continue as pub crate self Self impl
struct enum Some None Ok Err true false usize u8 u32 u64 bool""".split())


def sources(folders):
    for folder in folders:
        for at, dirs, files in os.walk(folder):
            dirs[:] = [d for d in dirs if d != "out"]
            for name in sorted(files):
                if name.endswith(".rt"):
                    path = os.path.join(at, name)
                    yield path, open(path).read()


def functions(path, text):
    """Each function: its name, its parameters, its clauses and its body."""
    text = re.sub(r"//.*", "", text)
    for found in re.finditer(r"\bfn ([a-z_0-9]+)", text):
        i, depth = text.find("(", found.end()), 0
        start = i
        while True:
            depth += {"(": 1, ")": -1}.get(text[i], 0)
            i += 1
            if depth == 0:
                break
        params = text[start + 1 : i - 1]
        clauses = []
        # clauses are `requires name { .. }`; the body is the first brace that follows none
        while True:
            clause = re.compile(r"\s*(?:->(?:\[[^\]]*\]|[^{;\[])*?)?\s*(requires|ensures)\*?\s*[a-z_]*\s*\{").match(text, i)
            brace = (text.find("{", i), text.find(";", i))
            if not clause:
                break
            end, depth = clause.end(), 1
            while depth:
                depth += {"{": 1, "}": -1}.get(text[end], 0)
                end += 1
            clauses.append((clause.group(1), " ".join(text[clause.end() : end - 1].split())))
            i = end
        body_at = text.find("{", i)
        if body_at < 0 or (0 <= text.find(";", i) < body_at):
            yield found.group(1), params, clauses, ""
            continue
        end, depth = body_at + 1, 1
        while depth and end < len(text):
            depth += {"{": 1, "}": -1}.get(text[end], 0)
            end += 1
        yield found.group(1), params, clauses, text[body_at + 1 : end - 1]


def shape(body):
    """The body with each name and each number as a blank."""
    words = re.findall(r"[A-Za-z_][A-Za-z_0-9]*|\d[\d_]*|\S", body)
    return tuple(w if w in KEYWORDS else "_" if re.match(r"\w", w) else w for w in words)


def twins(folders):
    by_shape = defaultdict(list)
    for path, text in sources(folders):
        for name, _, _, body in functions(path, text):
            words = shape(body)
            if len(words) >= 14:
                by_shape[words].append(f"{path}: {name}")
        for const in re.finditer(r"^\s*(?:pub(?:\(crate\))? )?const [A-Z_]+: [^=]*= ([^;]*);", text, re.M):
            by_shape[("const",) + tuple(const.group(1).split())].append(f"{path}: const")
    for found in sorted(v for v in by_shape.values() if len(v) > 1):
        print("; ".join(found))


def clauses(folders):
    counts, pairs = defaultdict(set), defaultdict(set)
    for path, text in sources(folders):
        for name, params, stated, _ in functions(path, text):
            where = f"{path}: {name}"
            for _, fact in stated:
                counts[fact].add(where)
            names = sorted(set(re.findall(r"(?:^|,)\s*(?:mut )?([a-z_]+)\s*:", params)))
            for pair in itertools.combinations(names, 2):
                pairs[pair].add(where)
    for title, table in (("fact", counts), ("parameters", pairs)):
        for key, where in sorted(table.items(), key=lambda kv: -len(kv[1])):
            if len(where) >= 3:
                print(f"{len(where)} {title} {key}: {'; '.join(sorted(where))}")


if __name__ == "__main__":
    args = sys.argv[1:]
    clauses(args[1:]) if args and args[0] == "--clauses" else twins(args)
