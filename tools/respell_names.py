#!/usr/bin/env python3
"""Brings this repository's own definitions and lemmas to today's spelling.

usage: python3 tools/respell_names.py [FOLDER]      at the top of a checkout on which the kit's port.py has run

A name with dashes that a file of specs/ or proofs/ declares becomes snake case, or camel case where it begins with a
capital. Names that Rattle makes (goals, steps and fields of a proof's context) and names of its library stay.
It stops, and writes nothing, where two names would fall together.
"""

import os
import re
import sys

NAME = r"[^\s(){}\[\];,.:|\"`]+"
SIGNATURE = re.compile(rf"^\s*(?P<how>(?:(?:abbrev|unfoldable|pub)\s+)*)(?P<name>{NAME})\s+:\s")
TYPE = re.compile(rf"^\s*(?:pub\s+)?(?:record|data)\s+(?P<name>{NAME})")
BOUND = re.compile(r"[({]\s*(?P<names>[^(){}:]+?)\s*:")
LAMBDA = re.compile(r"λ\s+(?P<names>[^.(){}]+)\.")
# a character that continues a name of antt
PART = r"[\w'◌<≤≡≢+*\-]"


def files(top, endings):
    for folder, dirs, names in os.walk(top):
        dirs[:] = sorted(d for d in dirs if d not in ("out", "target", ".git"))
        for name in sorted(names):
            if name.endswith(endings):
                yield os.path.join(folder, name)


def answers_a_goal(path):
    """Whether the file answers a function's goals: its public names are Rattle's."""
    return path.endswith(("/Answers.antt", "/Invariants.antt", "/Proof.antt"))


def declared(path, text):
    """The names that a file declares, without those that answer a goal."""
    for line in text.splitlines():
        line = line.split("--")[0]
        sign, kind = SIGNATURE.match(line), TYPE.match(line)
        if kind:
            yield kind["name"]
        elif sign and not ("pub" in sign["how"] and answers_a_goal(path)):
            yield sign["name"]
        for bound in (*BOUND.finditer(line), *LAMBDA.finditer(line)):
            yield from bound["names"].split()


def respelled(name):
    if name[0].isupper():
        return "".join(part[:1].upper() + part[1:] for part in name.split("-"))
    return name.replace("-", "_")


def main(argv):
    top = argv[1] if len(argv) > 1 else "."
    sources = list(files(os.path.join(top, "crates"), (".antt", ".rt")))
    pages = list(files(os.path.join(top, "docs"), (".md",))) + [os.path.join(top, "README.md")]
    texts = {p: open(p, encoding="utf-8").read() for p in sources + pages}
    names = {n for p in sources if p.endswith(".antt") for n in declared(p, texts[p])}
    turned = {n: respelled(n) for n in names if "-" in n and re.fullmatch(r"[A-Za-z][\w'\-]*", n)}
    together = sorted(f"{old} and {new}" for old, new in turned.items() if new in names or list(turned.values()).count(new) > 1)
    if together:
        print("fall together: " + "; ".join(together))
        return 1
    if not turned:
        print("nothing to respell")
        return 0
    words = "|".join(re.escape(n) for n in sorted(turned, key=len, reverse=True))
    any_name = re.compile(rf"(?<!{PART})(?<!\bc\.)(?:{words})(?!{PART})")
    for path, text in texts.items():
        if path in sources:
            new = any_name.sub(lambda m: turned[m[0]], text)
        else:
            new = re.sub(r"`[^`\n]*`", lambda quote: any_name.sub(lambda m: turned[m[0]], quote[0]), text)
        if new != text:
            open(path, "w", encoding="utf-8").write(new)
    for old in sorted(turned):
        print(f"{old} -> {turned[old]}")
    return 0


if __name__ == "__main__":
    raise SystemExit(main(sys.argv))
