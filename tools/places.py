#!/usr/bin/env python3
"""Finds places in crates/*/src that could take one of today's forms: a count for each kind, and with -v each place.

The kinds are those of docs/DESIGN-PASS.md. What a pattern finds is a candidate; the page says of each what became of it.
"""
import collections
import glob
import itertools
import os
import re
import sys

VERBOSE = "-v" in sys.argv
ROOT = next((a for a in sys.argv[1:] if not a.startswith("-")), ".")


def sources():
    for path in sorted(glob.glob(os.path.join(ROOT, "crates/*/src/**/*.rt"), recursive=True)):
        with open(path) as file:
            yield os.path.relpath(path, ROOT), file.read()


SOURCES = list(sources())


def tell(kind, places):
    print(f"{len(places):4} {kind}")
    if VERBOSE:
        for place in places:
            print(f"       {place}")


def lines(kind, *patterns, without=None):
    found = []
    for path, text in SOURCES:
        for number, line in enumerate(text.split("\n"), 1):
            if line.lstrip().startswith("//"):
                continue
            if any(re.search(p, line) for p in patterns) and not (without and re.search(without, line)):
                found.append(f"{path}:{number}: {line.strip()}")
    tell(kind, found)


def spans(kind, pattern):
    found = []
    for path, text in SOURCES:
        for match in re.finditer(pattern, text, re.M | re.S):
            number = text.count("\n", 0, match.start()) + 1
            found.append(f"{path}:{number}: {' '.join(match.group(0).split())[:110]}")
    tell(kind, found)


def two_cases():
    found = []
    for path, text in SOURCES:
        for match in re.finditer(r"^(?:pub )?enum (\w+)[^{]*\{\n(.*?)^\}", text, re.M | re.S):
            cases = [l for l in match.group(2).split("\n") if re.match(r"    [A-Z]\w*", l)]
            if len(cases) == 2:
                found.append(f"{path}: {match.group(1)}: {' '.join(c.strip() for c in cases)}")
    tell("1 enums with two cases", found)


def functions():
    for path, text in SOURCES:
        for match in re.finditer(r"fn (\w+)(?:<[^>]*>)?\(([^)]*)\)", text):
            parameters = [p.strip() for p in match.group(2).replace("\n", " ").split(",") if ":" in p]
            yield path, match.group(1), parameters


def travelling():
    groups = collections.defaultdict(set)
    for path, name, parameters in functions():
        for group in itertools.combinations(sorted(parameters), 3):
            groups[(path.split("/")[1], group)].add(f"{path}:{name}")
    found = [f"{len(v)} in {c}: {', '.join(g)}" for (c, g), v in sorted(groups.items(), key=lambda x: -len(x[1])) if len(v) >= 3]
    tell("5 groups of three parameters that three or more functions of a crate take", found)


KEYWORDS = set("fn let mut match if else for in return while loop break continue pub impl struct enum use self Some None Ok Err as true false".split())


def shape(text):
    """A function's code with each name and number but the language's own replaced by a sign."""
    text = re.sub(r"//[^\n]*", "", text)
    text = re.sub(r"\n\s*(requires|ensures)[^\n]*", "", text)
    words = re.findall(r"[A-Za-z_]\w*|\d\w*|[^\sA-Za-z0-9_]", text)
    return " ".join(w if w in KEYWORDS or not re.match(r"\w", w) else "x" for w in words)


def twins():
    groups = collections.defaultdict(list)
    for path, text in SOURCES:
        for match in re.finditer(r"^( *)(?:pub(?:\(crate\))? )?fn (\w+)(.*?)^\1\{(.*?)^\1\}$", text, re.M | re.S):
            body = shape(match.group(4))
            if match.group(2) != "fmt" and len(body.split()) >= 12:
                groups[body].append(f"{path}:{match.group(2)}")
    found = [", ".join(g) for g in groups.values() if len(g) > 1]
    tell("2 groups of functions whose code has one shape", found)


def facts():
    count = collections.Counter()
    for path, text in SOURCES:
        seen = collections.defaultdict(set)
        name = ""
        for number, line in enumerate(text.split("\n")):
            if m := re.search(r"\bfn (\w+)", line):
                name = f"{m.group(1)}:{number}"
            if m := re.match(r"\s*requires (?:\w+ )?(\{.*\})", line):
                seen[m.group(1)].add(name)
        for fact, names in seen.items():
            count[(path.split("/")[1], fact)] += len(names)
    found = [f"{n} in {c}: {fact}" for (c, fact), n in count.most_common() if n >= 3]
    tell("5 facts that three or more functions of a crate ask for", found)


two_cases()
spans("1 functions that carry a theorem and give a number", r"^pub fn \w+\(\) -> u8\n.*?^\{\n    0\n\}")
lines("1 an error or a success handed on by hand", r"return Err\(e\)", r"=> return Err", r"Err\(_\w*\) => Err\(", r"Err\(e\) => Err", r"Ok\((\w+)\) => Ok\(\1\)", r"if let Err\(e\)", without=r"Fail::new")
spans("1 let .. else that returns an error", r"let [^;=]*=[^;{]*? else \{\s*return Err\(")
lines("1 a change that answers with bool", r"fn .*&mut .*-> bool")
lines("1 an index or number that also says none (read each)", r"fn .*-> usize$", r"^\) -> usize$")
lines("1 Result<bool>", r"Result<bool>")
lines("1 numbers for kinds", r"const (KIND|BLOCK|WORD|ROUND|SHOW)\b", r"\bhalf: u8", r"^\s+(status|fault): u8,")
twins()
lines("3 for over a range", r"for \w+ in [^{]*\.\.")
lines("3 while", r"^\s*('\w+: )?while ")
lines("4 functions that compare, copy, convert or print by hand (read each)", r"fn (same|word_of|name_of|taken|clear|marked|chosen|if_met|spent|gained|front_of|ring_line|rank_lines|at_end|patience)\b")
travelling()
facts()
lines("6 arrays of a fixed size", r"\[0u\d+; \d+\]", r": \[\w+; ")
lines("6 an index worked out by hand", r"\w+ \* \w+(\.\w+)* \+ \w+")
lines("7 a number or word that says which step", r"half == 0", r'^\s+"\w+" => ')


answers = [l for path in sorted(glob.glob(os.path.join(ROOT, "crates/*/proofs/**/Answers.antt"), recursive=True)) for l in open(path) if ": goal." in l]
print(f"{len(answers):4} 8 answers to goals in proofs/")
