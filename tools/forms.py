#!/usr/bin/env python3
"""Prints the places in crates/*/src where an older form may stand, by eight points; with a number, of that point alone.

Points 1, 3, 4 and 6 are searched by patterns, 2 by the shapes of bodies, 5 by what functions take and promise, 7 by matches whose
arms call, 8 counts the answers of proofs. A pattern finds candidates: docs/DESIGN-PASS.md says what each one is.
"""
import collections
import glob
import os
import re
import sys

os.chdir(os.path.join(os.path.dirname(os.path.abspath(__file__)), ".."))
FILES = sorted(glob.glob("crates/*/src/**/*.rt", recursive=True))


def lines(pattern):
    """The lines of code that a pattern finds, as FILE:LINE: TEXT."""
    found = []
    for name in FILES:
        for number, line in enumerate(open(name), 1):
            code = line.split("//")[0]
            if "ghost" not in code and "ensures" not in code and "requires" not in code and re.search(pattern, code):
                found.append(f"{name}:{number}: {line.strip()}")
    return found


FUNCTION = re.compile(
    r"fn (\w+)(<[^(]*>)?\(([^)]*)\)([^{;]*?)((?:\s*(?:requires|ensures)\s*\w*\s*\{[^\n]*\})*)\s*[{;]"
)


def functions():
    """Each function's place, name, parameters but self, and clauses."""
    for name in FILES:
        for m in FUNCTION.finditer(open(name).read()):
            given = [re.sub(r"\s+", " ", p.strip()) for p in m.group(3).split(",") if p.strip()]
            clauses = re.findall(r"(?:requires|ensures)\s*\w*\s*(\{[^\n]*\})", m.group(5))
            yield f"{name}: {m.group(1)}", m.group(1), [p for p in given if "self" not in p], clauses


def often(table, least):
    """What stands at as many places as `least`, each with its places."""
    return [f"{len(v)} x {k}\n    " + "\n    ".join(sorted(v)) for k, v in table.items() if len(v) >= least]


def repeated_facts():
    facts = collections.defaultdict(set)
    runs = collections.defaultdict(set)
    for place, _, given, clauses in functions():
        for clause in clauses:
            facts[clause].add(place)
        for n in range(2, 6):
            for i in range(len(given) - n + 1):
                runs[", ".join(given[i : i + n])].add(place)
    return often(facts, 3) + often(runs, 3)


KEYWORDS = {"if", "else", "match", "for", "in", "let", "return", "mut", "self", "Ok", "Err", "Some", "None", "while", "as"}


def bodies():
    """Each function's place and the shape of its body: names and numbers in it are all alike."""
    for name in FILES:
        text = open(name).read()
        for m in FUNCTION.finditer(text):
            if text[m.end() - 1] != "{":
                continue
            depth, end = 1, m.end()
            while depth:
                depth += {"{": 1, "}": -1}.get(text[end], 0)
                end += 1
            code = re.sub(r"//[^\n]*", "", text[m.end() : end - 1])
            shape = [
                t if t in KEYWORDS or not re.match(r"\w", t) else "x"
                for t in re.findall(r"b?\"[^\"]*\"|b?'.'|\w+|[^\w\s]", code)
                if t != ","
            ]
            yield f"{name}: {m.group(1)}", " ".join(shape)


def twins():
    """Functions whose bodies differ in names and numbers alone, but for those of one call or one value."""
    shapes = collections.defaultdict(set)
    for place, shape in bodies():
        if len(shape.split()) >= 12:
            shapes[shape].add(place)
    return often(shapes, 2)


def answers():
    found = []
    for crate in sorted(glob.glob("crates/*")):
        files = glob.glob(crate + "/proofs/**/Answers.antt", recursive=True)
        own = glob.glob(crate + "/proofs/*.antt")
        goals = sum(len(re.findall(r"^pub [^\n]* : goal\.", open(f).read(), re.M)) for f in files)
        lemmas = sum(len(re.findall(r"^\s*(?:pub )?[\w'-]+ : ", open(f).read(), re.M)) for f in own)
        if files or own:
            found.append(f"{crate}: {goals} answers in {len(files)} files, {lemmas} lemmas")
    return found


POINTS = {
    1: lambda: lines(r"^\s*(pub(\(crate\))? )?enum |=> \d+,|-> u8$|\{ 1 \} else \{ 0 \}|let mut \w+ = (true|false);"),
    2: twins,
    3: lambda: lines(r"for \w+ in 0\.\.|for \(i, |\w+\[(i|place)\]|\bwhile\b|(?<!\.)\b\w+ = \w+\.saturating_add\(1\)|self\.\w+ = self\.\w+\.saturating_add\(1\)"),
    4: lambda: lines(r"\.0 ?(<|>|==|<=|>=|!=) |\.0\.(min|max)\(|fn (print|report|kind_name|reason|is_|is\b|better|number_of|error)\w*[(<]| as (u8|u16|u32|u64|i32|i64|u128)"),
    5: repeated_facts,
    6: lambda: lines(r"\[[A-Za-z]+(\([^)]*\))?; ?[0-9A-Z_]+\]|\bcount: usize"),
    7: lambda: lines(r"\bfn\(|dyn |=> \w*self\.\w+\(|=> \w+::?\w*\(.*self\."),
    8: answers,
}

for point in [int(sys.argv[1])] if len(sys.argv) > 1 else POINTS:
    found = POINTS[point]()
    print(f"== {point}: {len(found)}")
    print("\n".join(found))
