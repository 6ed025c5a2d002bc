#!/usr/bin/env python3
"""Brings the names of goals and places in proofs/F/*.antt to today's spelling, in which a word of the source keeps its underscores.

usage: python3 tools/goal_names.py CRATE..      at the top of the repository; it goes by the words of the crate's src/
"""
import os
import re
import sys

WORDS = {"index_mut", "index_set", "deref_mut", "overflow_add", "overflow_sub", "overflow_mul", "overflow_shl", "overflow_shr", "overflow_neg", "invariant_of", "in_ok", "in_err", "in_default", "in_for", "from_residual", "with_capacity", "as_slice", "as_mut_slice", "unwrap_or", "copy_from_slice", "type_inv"}


def texts(folder, end):
    for f, dirs, names in os.walk(folder):
        dirs[:] = [d for d in dirs if d != "out"]
        for n in names:
            if n.endswith(end):
                yield os.path.join(f, n)


def read(p):
    with open(p, encoding="utf-8") as f:
        return f.read()


def joined(parts, known):
    out, i = [], 0
    while i < len(parts):
        for j in range(len(parts), i, -1):
            if j - i > 1 and "_".join(parts[i:j]) in known:
                out.append("_".join(parts[i:j]))
                i = j
                break
        else:
            out.append(parts[i])
            i += 1
    return "-".join(out)


def main():
    for crate in sys.argv[1:]:
        top = os.path.join("crates", crate)
        known = set(WORDS)
        for p in texts(os.path.join(top, "src"), ".rt"):
            known |= set(w for w in re.findall(r"[A-Za-z][A-Za-z0-9]*(?:_[A-Za-z0-9]+)+", read(p)))
        known |= {w[0].upper() + w[1:] for w in WORDS}
        for p in texts(os.path.join(top, "proofs"), ".antt"):
            t = read(p)
            if not re.search(r"\.(Goals|Given)\b", t):
                continue
            keep = set()
            for m in re.finditer(r"use (\S+?)\.\{([^}]*)\}", t):
                if not m.group(1).endswith((".Goals", ".Given")):
                    keep |= {w.strip() for w in m.group(2).split(",")}
            token = re.compile(r"(?<![\w'-])[A-Za-z]\w*(?:-\w+)+(?![\w'-])")

            def turn(m):
                w = m.group(0)
                return w if w in keep else joined(w.split("-"), known)

            lines = []
            for l in t.split("\n"):
                c, sep, note = l.partition("--")
                own = re.match(r"use (\S+)", c)
                if own and not re.search(r"\.(Goals|Given)", own.group(1)):
                    lines.append(l)
                else:
                    lines.append(token.sub(turn, c) + sep + note)
            new = "\n".join(lines)
            if new != t:
                with open(p, "w", encoding="utf-8") as f:
                    f.write(new)
                print(p)


if __name__ == "__main__":
    main()
