#!/usr/bin/env python3
"""Brings the repository's own definitions and lemmas to today's spelling: words in snake case, types and modules in camel case.

usage: python3 tools/snake_names.py [--dry]      at the top of the repository, once, right after the kit's port.py

It goes by text over crates/*/{src,specs,proofs}. A name is ours if an .antt file of specs/ or proofs/ declares it and no file
imports it from a library. Goal names, which the check makes, keep their dashes; so do functions of src/, strings and inputs.
"""
import os
import re
import sys

ROOT = "crates"
NAME = r"[^\s(){}\[\]=,;.:⌜⌝⟨⟩«»`\"]+"
PLAIN = re.compile(r"^[A-Za-z][A-Za-z0-9_'₀-₉-]*$")
# Names that would fall together with another one in the same place, or that say more in another form.
BY_HAND = {
    # a function of src/ has the name
    "readCables": "cables_read",
    "readTable": "table_read",
    "readThing": "thing_read",
    "cableOf": "cable_by",
    "headFrom": "head_by_bytes",
    "frameFrom": "frame_by_bytes",
    "entryFrom": "entry_by_bytes",
    "ranksOf": "rank_list",
    "upsOf": "up_list",
    "handAll": "all_handed",
    "handOver": "handed_over",
    "serveAll": "all_served",
    "blockFault": "parcel_fault",
    "hallText": "text_of_hall",
    "ranksText": "text_of_ranks",
    "ringText": "text_of_ring",
    "verdictText": "text_of_verdict",
    # a definition has the name of a lemma about it
    "is-here": "is_here_true",
    "is-to": "is_to_true",
    "by-entry": "each_entry",
    "comes-from": "comes_here",
}


def files(ends):
    for folder, dirs, names in os.walk(ROOT):
        dirs[:] = sorted(d for d in dirs if d != "out")
        for n in sorted(names):
            if n.endswith(ends):
                yield os.path.join(folder, n)


def read(p):
    with open(p, encoding="utf-8") as f:
        return f.read()


def imported(text):
    """Names that a file takes from a library: path heads other than this repository's crates."""
    own = set(os.listdir(ROOT))
    got = set()
    for m in re.finditer(r"(?:ghost )?use\s+([\w.'-]+)\.\{([^}]*)\}", text):
        path = m.group(1).split(".")
        if path[0] == "Rattle" and len(path) > 1 and path[1] in own:
            continue
        for w in re.split(r",", m.group(2)):
            w = w.strip().split(" as ")
            if w and w[0]:
                got.add(w[0].strip())
    return got


def declared(p, text):
    names = set()
    for line in text.splitlines():
        if line.strip().startswith("--"):
            continue
        m = re.match(r"\s*(?:(?:abbrev|unfoldable|pub|record|data|private|opaque)\s+)*(" + NAME + r")\s*(?:\{[^}]*\}\s*)*(?:\([^)]*\)\s*)*:(?:\s|$)", line)
        if m:
            names.add(m.group(1))
        m = re.match(r"\s*(?:abbrev |unfoldable )?(?:pub )?(?:record|data) (" + NAME + r")\s", line)
        if m:
            names.add(m.group(1))
    return names


def turned(n):
    if n in BY_HAND:
        return BY_HAND[n]
    if n[0].isupper():
        parts = re.split(r"[-_]", n)
        return parts[0] + "".join(w[:1].upper() + w[1:] for w in parts[1:])
    n = n.replace("-", "_")
    return re.sub(r"(?<=[a-z0-9])([A-Z])", lambda m: "_" + m.group(1).lower(), n)


def main():
    dry = "--dry" in sys.argv
    texts = {p: read(p) for p in files((".antt", ".rt"))}
    lib, ours, goals, code = set(), set(), set(), set()
    for p, t in texts.items():
        lib |= imported(t)
        if p.endswith(".antt"):
            goals |= set(re.findall(r"goal\.([^\s(){},;]+)", t))
            ours |= declared(p, t)
        else:
            code |= set(re.findall(r"\bfn (\w+)", t)) | set(re.findall(r"\blet (?:mut )?(\w+)", t))
    table = {}
    for n in sorted(ours):
        if n in lib or n in goals or not PLAIN.match(n):
            continue
        if re.match(r"(invariant|decreases)-", n):
            continue
        new = turned(n)
        if new != n:
            table[n] = new
    alls = set()
    for p, t in texts.items():
        alls |= set(re.findall(r"[A-Za-z][A-Za-z0-9_'₀-₉-]*", t))
    back = {}
    for n, new in table.items():
        back.setdefault(new, []).append(n)
    for new, ns in sorted(back.items()):
        if len(ns) > 1 or new in alls:
            where = "code" if new in code else "ours" if new in ours else "lib" if new in lib else "word"
            print("falls together:", ns, new, where)
    if dry:
        for n, new in sorted(table.items()):
            print("  ", n, "->", new)
        return
    token = re.compile(r"(?<![A-Za-z0-9_'₀-₉-])([A-Za-z][A-Za-z0-9_'₀-₉-]*)")

    def turn(s):
        return token.sub(lambda m: table.get(m.group(1), m.group(1)), s)

    changed = 0
    for p, t in texts.items():
        if p.endswith(".antt"):
            new = "\n".join(turn(c) + sep + note for c, sep, note in (l.partition("--") for l in t.split("\n")))
        else:
            new = ghost_parts(t, turn)
        if new != t:
            changed += 1
            with open(p, "w", encoding="utf-8") as f:
                f.write(new)
    print(f"snake: {len(table)} names, {changed} files")


def ghost_parts(t, turn):
    """Turns imports, clauses and ghost items of a source file, and nothing else."""
    out, at = [], 0
    for m in re.finditer(r"(?m)^\s*(?:pub )?(?:ghost|requires|ensures|invariant)\b", t):
        if m.start() < at:
            continue
        end = close(t, m.end())
        out += [t[at : m.start()], turn(t[m.start() : end])]
        at = end
    return "".join(out + [t[at:]])


def close(t, i):
    """The end of an import, which is a semicolon, or of a clause, which is its closing brace."""
    depth = 0
    while i < len(t):
        if t[i] == "{":
            depth += 1
        elif t[i] == "}":
            depth -= 1
            if depth == 0 and t[i + 1 : i + 2] != ";":
                return i + 1
        elif t[i] == ";" and depth == 0:
            return i + 1
        i += 1
    return i


if __name__ == "__main__":
    main()
