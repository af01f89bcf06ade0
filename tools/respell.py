#!/usr/bin/env python3
"""Respells the names of this repository's own definitions and lemmas.

Run once, at the top of the repository, after the spelling of the language was
brought up to date. A function or a field of specs/ and proofs/ goes into snake
case, a type, a record or a fact into camel case. A lemma keeps the dashes
between its parts, and its parts are spelled as the definitions that they name.

Strings, functions of src/, and prose outside backticks keep their words.
"""
import re
import sys
from pathlib import Path

# what delimits a name in a term
NAME = re.compile(r"[^\s(){}\[\].,;:=|«»\"`@∷]+")
SIGNATURE = re.compile(r"^(\s*)((?:abbrev |unfoldable )?)((?:pub )?)([^\s:({]+) :(?=\s)")
TYPE = re.compile(r"^\s*(?:abbrev )?(?:pub )?(?:record|data) ([^\s:({]+)")
CASE = re.compile(r"^\s*\|\s*([^\s:]+) :(?=\s)")
OLD_WORDS = {"getD": "get_or", "sumBy": "sum_by"}
# a definition that would have the name of a tactic, and a lemma whose old word was taken apart
TAKEN = {"first_of": "first_nonzero", "get_d_front": "get_or-front"}


def camel(name):
    return "".join(part[:1].upper() + part[1:] for part in name.split("-"))


def spelled(name):
    """A definition's new name."""
    if name[0].isupper():
        return camel(name)
    return re.sub(r"(?<=[a-z])([A-Z])", lambda m: "_" + m[1].lower(), name).replace("-", "_")


def names_of(files):
    """The definitions and the lemmas of .antt files, as two sets of names."""
    definitions, lemmas = set(), set()
    for path in files:
        inside = None
        for line in path.read_text().split("\n"):
            if line.startswith("--"):
                continue
            kind = TYPE.match(line)
            if kind:
                inside = "type"
                definitions.add(kind[1])
                continue
            case = CASE.match(line)
            if case:
                definitions.add(case[1])
                continue
            found = SIGNATURE.match(line)
            if not found:
                continue
            indent, mark, _, name = found.groups()
            if not indent:
                inside = "module" if line.startswith("module ") else None
            if f" : goal.{name}" in line or f" : given.{name}" in line:
                continue
            if mark or (inside == "type" and indent):
                definitions.add(name)
            else:
                lemmas.add(name)
    return definitions, lemmas - definitions


def lemma_spelled(name, definitions):
    """A lemma's new name: the runs of its parts that name a definition are spelled as that."""
    if name in TAKEN:
        return TAKEN[name]
    parts, out, i = name.split("-"), [], 0
    while i < len(parts):
        for n in range(len(parts), i + 1, -1):
            run = "-".join(parts[i:n])
            if n <= len(parts) and run in definitions:
                out.append(spelled(run))
                i = n
                break
        else:
            out.append(OLD_WORDS.get(parts[i], parts[i]))
            i += 1
    return "-".join(out)


def renamed(text, new):
    """The text of a term with each name respelled; a step of a proof's facts keeps its name."""
    def one(found):
        name = found[0]
        before = text[: found.start()]
        if re.search(r"(?<![^\s(,\[])[cw]\.$", before) or re.search(r"(?<![^\s(])goal\.$", before):
            return name
        if text[found.end() :].startswith(" (Prim."):
            return name
        return new.get(name, name)
    return NAME.sub(one, text)


def respelled(text, new, comment, string):
    """A file's text: code outside strings, and in comments what stands in backticks."""
    lines = []
    for line in text.split("\n"):
        at = line.find(comment)
        code, rest = (line, "") if at < 0 else (line[:at], line[at:])
        pieces = re.split(r'("(?:[^"\\]|\\.)*")', code) if string else [code]
        code = "".join(p if p.startswith('"') and string else renamed(p, new) for p in pieces)
        lines.append(code + in_backticks(rest, new))
    return "\n".join(lines)


def in_backticks(text, new):
    return re.sub(r"`[^`\n]+`", lambda m: renamed(m[0], new), text)


def main():
    antt = sorted(Path("crates").glob("*/specs/**/*.antt")) + sorted(Path("crates").glob("*/proofs/**/*.antt"))
    definitions, lemmas = names_of(antt)
    new = {name: TAKEN.get(name, spelled(name)) for name in definitions}
    # a definition may have underscores already where a lemma that names it has dashes
    parts = definitions | {name.replace("_", "-") for name in definitions if name[0].islower()}
    new.update({name: lemma_spelled(name, parts) for name in lemmas})
    new = {old: name for old, name in new.items() if old != name}
    together = {}
    for name in definitions | lemmas:
        together.setdefault(new.get(name, name), []).append(name)
    for name, olds in sorted(together.items()):
        if len(olds) > 1:
            print(f"fall together: {' and '.join(sorted(olds))} as {name}", file=sys.stderr)
    for path in antt:
        path.write_text(respelled(path.read_text(), new, "--", True))
    for path in sorted(Path("crates").glob("*/src/**/*.rt")):
        path.write_text(respelled(path.read_text(), new, "//", True))
    for path in [Path("README.md"), *sorted(Path("docs").glob("*.md")), *sorted(Path("oracle").glob("*.md"))]:
        path.write_text(in_backticks(path.read_text(), new))
    for old, name in sorted(new.items()):
        print(old, name)


if __name__ == "__main__":
    main()
