#!/usr/bin/env python3
"""Brings the names of this repository's own definitions and lemmas to one spelling: snake case, `'` for a prime, and a dash only where it
joins the names of two definitions, as in `word-longer`. Run once, at the top, after the kit's port.py; `--map` prints the names alone.

Functions, fields and parameters of src/, exported names, strings and comments stay as they are. Names of the kit and names that it
generates are left."""

import os
import re
import sys

LETTER = r"A-Za-z0-9_'\u2032\u2080-\u2089*\u00b9\u00b2\u2113\u2115\u2124\u2261\u2264"
NAME = re.compile(rf"[A-Za-z][{LETTER}]*(?:-[{LETTER}]+)*")
DECLARED = re.compile(r"^\s*(?:(?:abbrev|pub|unfoldable|pattern|axiom) )*(?P<name>\S+)(?: \{[^}]*\})* :(?: |$)")
ALIAS = re.compile(r" as ([a-z][^\s,}]*)[,}]")
KEEP = re.compile(r"^(?:Need|After|In|At|Then|Else|Start|Untold)-")
GOALS = re.compile(r":\s*(?:tie|goal)\.")
STD = set("length append take drop set get_or map reverse replicate paste sets bit_and bit_or ltb eqb leb cond min max zero suc "
          "filter concat fold sum nat_eq nat_lt first last add sub mul div mod pow le lt not and or all any".split())


def files(top, ends):
    for folder, dirs, names in os.walk(os.path.join(top, "crates")):
        dirs[:] = sorted(d for d in dirs if d != "out")
        for name in sorted(names):
            if name.endswith(ends):
                yield os.path.join(folder, name)


def read(path):
    with open(path, encoding="utf-8") as f:
        return f.read()


def split_comment(line, mark):
    """The code of a line and its comment; a mark in a string is none."""
    inside = False
    for i, c in enumerate(line):
        if c == '"' and line[i - 1: i] != "'":
            inside = not inside
        if not inside and line.startswith(mark, i) and (i == 0 or mark == "//" or line[i - 1] in " \t"):
            return line[:i], line[i:]
    return line, ""


def declared(path):
    for line in read(path).split("\n"):
        code, _ = split_comment(line, "--")
        m = DECLARED.match(code)
        if m and not GOALS.search(code) and NAME.fullmatch(m["name"]):
            yield m["name"]
        if code.lstrip().startswith(("use ", "pub use ")):
            yield from (it for it in ALIAS.findall(code) if NAME.fullmatch(it))


def underscored(name):
    return name.replace("-", "_").replace("\u2032", "'")


def joined(name, known):
    """The name as a dash joins it: each part the name of a definition, as few parts as can be; None where it is no such name."""
    parts = underscored(name.replace("-", "\0")).replace("\0", "-").split("-")
    best = {0: []}
    for end in range(1, len(parts) + 1):
        for begin in range(end):
            word = "_".join(parts[begin:end])
            if begin in best and word in known and (end not in best or len(best[begin]) + 1 < len(best[end])):
                best[end] = best[begin] + [word]
    got = best.get(len(parts))
    return "-".join(got) if got and len(got) > 1 else None


def names(top):
    specs, lemmas = set(), set()
    for path in files(top, ".antt"):
        (specs if "/specs/" in path else lemmas).update(declared(path))
    known = {underscored(n) for n in specs} | STD
    out = {}
    for name in sorted(specs | lemmas):
        if ("-" not in name and "\u2032" not in name) or KEEP.match(name):
            continue
        new = underscored(name)
        if new in STD:
            continue
        if name not in specs:
            head, _, rest = name.partition("-")
            new = joined(name, known) or (head + "-" + underscored(rest) if head[0].isupper() and head in known and rest else new)
        if new != name:
            out[name] = new
    return out, specs, lemmas


FOREIGN = re.compile(r"^\s*(?:pub )?(?:ghost )?use (?!Rattle\.(?!std\b))[^{;]*\{(?P<names>[^}]*)\}", re.M)


def own(text, renamed):
    """What is renamed in this text: not what it imports from the kit."""
    foreign = set()
    for m in FOREIGN.finditer(text):
        foreign.update(w.split(" as ")[0].strip() for w in m["names"].split(","))
    return {old: new for old, new in renamed.items() if old not in foreign}


def turn(code, renamed):
    return NAME.sub(lambda m: renamed.get(m[0], m[0]), code)


def turn_antt(text, renamed):
    renamed = own(text, renamed)
    lines = []
    for line in text.split("\n"):
        code, comment = split_comment(line, "--")
        lines.append(turn(code, renamed) + comment)
    return "\n".join(lines)


def turn_rt(text, renamed):
    """Only what is of the proof: `ghost use` lines, clauses, ghost members, attributes of tactics."""
    renamed = own(text, renamed)
    lines, depth = [], 0
    for line in text.split("\n"):
        code, comment = split_comment(line, "//")
        ghostly = depth or re.match(r"\s*(?:ghost|requires|ensures|invariant|decreases|#!?\[tactic)\b", code)
        if ghostly:
            for m in re.finditer(r"[{}]", code):
                depth += 1 if m[0] == "{" else -1
            depth = max(depth, 0)
            code = turn(code, renamed)
        lines.append(code + comment)
    return "\n".join(lines)


def turn_quoted(text, renamed):
    """In a page: names that stand between back quotes."""
    return re.sub(r"`[^`\n]+`", lambda m: turn(m[0], renamed), text)


def main():
    top = os.getcwd()
    renamed, specs, lemmas = names(top)
    everything = specs | lemmas
    taken = {}
    for old, new in renamed.items():
        taken.setdefault(new, set()).add(old)
    for new, olds in sorted(taken.items()):
        if new in everything:
            olds = olds | {new}
        if len(olds) > 1:
            print("falls together:", new, "from", ", ".join(sorted(olds)), file=sys.stderr)
    if "--map" in sys.argv:
        for old, new in renamed.items():
            print(old, new)
        return
    pages = [os.path.join("docs", n) for n in os.listdir("docs") if n.endswith(".md")] + ["README.md"]
    for path in list(files(top, (".antt", ".rt", ".edit"))) + pages:
        text = read(path)
        if path.endswith(".antt"):
            new = turn_antt(text, renamed)
        elif path.endswith(".rt"):
            new = turn_rt(text, renamed)
        elif path.endswith(".edit"):
            new = turn(text, renamed) if "file: specs/" in text or "ensures" in text else text
        else:
            new = turn_quoted(text, renamed)
        if new != text:
            with open(path, "w", encoding="utf-8") as f:
                f.write(new)


if __name__ == "__main__":
    main()
