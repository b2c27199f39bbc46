#!/usr/bin/env python3
"""Respells this repository's own definitions, lemmas, fields and variables in antt: words in snake case,
types and facts in camel case. Run once, at the top of the repository, after the kit's port.py.

Names that the toolchain makes (goals and steps) and names of libraries keep their spelling."""
import glob
import re

NAME = r"[A-Za-z_][A-Za-z0-9_]*(?:-[A-Za-z0-9_]+)+'*"
TOKEN = re.compile(r"(?<![A-Za-z0-9_\-'])(" + NAME + r")(?![A-Za-z0-9_\-'])")
DEFINED = re.compile(r"^\s*(?:unfoldable )?(?:abbrev )?(?:pub )?(?:(?:data|record) )?(" + NAME + r")\s*(?:[({][^=]*?[)}])*\s*:\s+(?!goal\.|given\.)")
OURS = ("terms", "words", "structures", "pivotal", "tour")


def respelled(name):
    if name[0].isupper():
        return "".join(part[:1].upper() + part[1:] for part in name.split("-"))
    return name.replace("-", "_")


def ours(path):
    return any(path.startswith("Rattle." + crate + ".") for crate in OURS)


def imported(text):
    """The names that a file takes from libraries, or from what the toolchain makes."""
    kept = set()
    for path, names in re.findall(r"^(?:ghost )?use ([^\s{;]+)\.\{([^}]*)\}", text, re.M):
        made = re.search(r"\.(Goals|Given)$", path) or ".declared." in path
        if made or not ours(path):
            kept.update(re.findall(NAME, names))
    return kept


def goals(text):
    return set(re.findall(r"(" + NAME + r") : (?:goal|given)\.", text))


def main():
    antt = sorted(glob.glob("crates/*/specs/**/*.antt", recursive=True) + glob.glob("crates/*/proofs/**/*.antt", recursive=True))
    rest = sorted(glob.glob("crates/*/src/**/*.rt", recursive=True) + glob.glob("crates/*/must-fail/*.edit"))
    defined = set()
    for path in antt:
        for line in open(path, encoding="utf-8"):
            if found := DEFINED.match(line):
                defined.add(found.group(1))
    for path in antt + rest:
        text = open(path, encoding="utf-8").read()
        kept = imported(text) | goals(text)

        def turn(found):
            name = found.group(1)
            before = text[: found.start()]
            if name in kept:
                return name
            if path in rest and name not in defined:
                return name
            # Behind a dot stands a field or a constructor of ours, or else a step that the toolchain names.
            if before.endswith(".") and name not in defined:
                return name
            # In a comment only types and facts are respelled, not words joined by a hyphen.
            line = before[before.rfind("\n") + 1 :]
            if (line.lstrip().startswith(("--", "//")) or " -- " in line) and not (name in defined and name[0].isupper()):
                return name
            return respelled(name)

        turned = TOKEN.sub(turn, text)
        if turned != text:
            open(path, "w", encoding="utf-8").write(turned)


main()
