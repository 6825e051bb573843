#!/usr/bin/env python3
"""Brings the definitions and lemmas of crates/ to one spelling: words in snake case, types in camel case.

usage: python3 tools/plain_names.py        at the top of the repository, after port.py and before any edit by hand
       python3 tools/plain_names.py list   prints the names that it would turn, and those that would fall together

A dash stays where it joins a function's name to another, as in length-filled. Code of src/, goals, files and folders keep
their names.
"""

import os
import re
import sys

WORD = re.compile(r"[^\s(){}\[\].,;:\"]+")
HEAD = re.compile(r"^(\s*)((?:(?:unfoldable|abbrev|pub|record|data|module|ruleset)\s+)*)([^\s(){}\[\].,;:\"]+)((?:\s+[({].*)?)\s+:(?:\s|$)")
# a goal that Rattle names, and what answers it
GOAL = re.compile(r":\s*goal\.")
# a dash that joins the outer call of an equation to its argument
JOINED = re.compile(r"^(?:length|getD|get_or)-")
NOT_HEADS = {"use", "where", "λ", "let", "in", "--"}
# names that would fall together with another
APART = {
    "all-locked": "all_locked_at",
    "in-block": "of_block",
    "is-unlocked": "unlocked_is",
    "no-row": "no_row_led",
}
# the same, where port.py turned the one of the two, in these files alone
APART_IN = {
    "script_forms/proofs/Texts.antt": {"is_digit": "digit_is"},
    "speed/proofs/Ending.antt": {"runs_on": "still_runs"},
    "speed/proofs/finish/Answers.antt": {"runs_on": "still_runs"},
}


def files(root, kinds):
    for folder, dirs, names in os.walk(os.path.join(root, "crates")):
        dirs[:] = sorted(d for d in dirs if d != "out")
        for name in sorted(names):
            if name.endswith(kinds):
                yield os.path.join(folder, name)


def snake(word):
    return re.sub(r"(?<=[a-z0-9])([A-Z])", lambda m: "_" + m.group(1).lower(), word)


def camel(word):
    return "".join(p[:1].upper() + p[1:] for p in word.split("-"))


def spelt(name):
    if name in APART:
        return APART[name]
    if name[0].isupper():
        return camel(name)
    if JOINED.match(name):
        head, rest = name.split("-", 1)
        return {"getD": "get_or"}.get(head, head) + "-" + snake(rest).replace("-", "_")
    return snake(name).replace("-", "_")


def defined(root):
    """The names that the .antt files declare, but for answers to goals."""
    names = set()
    for path in files(root, ".antt"):
        with open(path, encoding="utf-8") as f:
            for line in f:
                if line.lstrip().startswith("--") or GOAL.search(line):
                    continue
                m = HEAD.match(line)
                if m and "=" not in line[: m.end()] and "→" not in line[: m.start(3)] and m.group(3) not in NOT_HEADS:
                    names.add(m.group(3))
    return {n for n in names if re.match(r"[A-Za-z]", n)}


def aliases(root):
    """The names that a ghost use gives to what it brings in."""
    names = set()
    for path in files(root, ".rt"):
        with open(path, encoding="utf-8") as f:
            for line in f:
                if line.startswith("ghost use "):
                    names.update(re.findall(r" as ([a-z][A-Za-z]*)", line))
    return names


def turn_words(text, names):
    return WORD.sub(lambda m: names.get(m.group(0), m.group(0)), text)


def turn_line(line, names, mark):
    """Names in code, and in a comment those that no English word is spelt like."""
    code, comment = line, ""
    at = line.find(mark)
    if at >= 0 and line[:at].count('"') % 2 == 0:
        code, comment = line[:at], line[at:]
    plain = {n: t for n, t in names.items() if "-" not in n}
    return turn_words(code, names) + turn_words(comment, plain)


def main(argv):
    root = os.getcwd()
    names = {n: spelt(n) for n in defined(root) | aliases(root)}
    turned = {n: t for n, t in names.items() if n != t}
    kept = set(names) - set(turned)
    for n, t in sorted(turned.items()):
        if t in kept or sum(o == t for o in turned.values()) > 1:
            print(f"falls together: {n} and another are {t}")
    if argv == ["list"]:
        for n, t in sorted(turned.items()):
            print(f"{n} {t}")
        return 0
    for path in files(root, (".antt", ".rt")):
        with open(path, encoding="utf-8") as f:
            text = f.read()
        mark = "--" if path.endswith(".antt") else "//"
        here = turned
        for end, more in APART_IN.items():
            if path.endswith(end):
                here = {**turned, **more}
        new = "".join(turn_line(line, here, mark) for line in text.splitlines(keepends=True))
        if new != text:
            with open(path, "w", encoding="utf-8") as f:
                f.write(new)
    print(f"{len(turned)} names turned")
    return 0


if __name__ == "__main__":
    raise SystemExit(main(sys.argv[1:]))
