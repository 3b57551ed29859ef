#!/usr/bin/env python3
"""Brings the repository's own definitions and lemmas to snake case, once, right behind port.py: `last-here` is `last_here`, `chainOf` is `chain_of`.

usage: python3 tools/snake_names.py     at the top of the repository

It goes over specs/ and proofs/ of every crate, the clauses of src/, and the must-fail edits. What stays: types, predicates and modules in upper camel case;
names of libraries; names that Rattle makes (goals, steps of a proof); functions of src/. Where a lemma would get the name of a definition, it is
called NAME_law.
"""

import collections
import os
import re

ROOT = os.path.dirname(os.path.dirname(os.path.abspath(__file__)))
CRATES = os.path.join(ROOT, "crates")
ID = r"[A-Za-z_α-ωΑ-Ω][A-Za-z0-9_'α-ωΑ-Ω₀-₉ᴰ-]*"
TOKEN = re.compile(r"(?<![A-Za-z0-9_'α-ωΑ-Ω₀-₉-])" + ID)
SIGNATURE = re.compile(r"^(\s*)((?:(?:pub|abbrev|unfoldable|let)\s+)*)((?:" + ID + r"[ \t]+)*" + ID + r")[ \t]*:(?!=)(.*)", re.M)


def own_crates():
    return sorted(c for c in os.listdir(CRATES) if os.path.isdir(os.path.join(CRATES, c)))


def files(ending):
    for folder, dirs, names in os.walk(CRATES):
        dirs[:] = sorted(d for d in dirs if d != "out")
        for n in sorted(names):
            if n.endswith(ending):
                yield os.path.join(folder, n)


def read(p):
    with open(p, encoding="utf-8") as f:
        return f.read()


def without_comments(t):
    return re.sub(r"(?m)(^|\s)--(?=\s).*$", r"\1", t)


def snake(n):
    n = n.replace("-", "_")
    return re.sub(r"([a-z0-9'])([A-Z])", lambda m: m.group(1) + "_" + m.group(2).lower(), n)


def wants(n):
    return "-" in n or re.match(r"[a-zα-ω][a-zα-ω0-9]*[A-Z]", n)


def imported(t):
    """(module, names) of each use line."""
    for m in re.finditer(r"(?m)^\s*(?:ghost )?(?:pub )?use\s+(\S+?)\.\{([^}]*)\}", t):
        yield m.group(1), [w.strip().split(" as ")[0].strip() for w in m.group(2).split(",")]
    for m in re.finditer(r"(?m)^\s*(?:ghost )?(?:pub )?use\s+(\S+?)\.(" + ID + r")\s*(?:as\s+\S+\s*)?;?\s*$", t):
        yield m.group(1), [m.group(2)]


def is_own(module, own):
    parts = module.split(".")
    return parts[0] == "Rattle" and len(parts) > 1 and parts[1] in own


def main():
    own = set(own_crates())
    declared = collections.defaultdict(set)
    fields = set()
    definitions = set()
    for p in files(".antt"):
        t = without_comments(read(p))
        for m in SIGNATURE.finditer(t):
            if re.match(r"\s*tie\.", m.group(4)):
                continue
            for n in m.group(3).split():
                declared[n].add(p)
                if m.group(1) and "let" not in m.group(2):
                    fields.add(n)
    for n, where in declared.items():
        if any("/specs/" in p for p in where):
            definitions.add(n)
    groups = collections.defaultdict(set)
    for n in declared:
        groups[snake(n)].add(n)
    turn, lemma_turn = {}, {}
    for to, names in groups.items():
        if len(names) == 1:
            n = next(iter(names))
            if wants(n):
                turn[n] = to
            continue
        camel = sorted(n for n in names if "-" not in n and wants(n))
        plain = [n for n in names if n == to]
        dashed = sorted(n for n in names if "-" in n)
        if len(camel) > 1:
            raise SystemExit(f"two names fall together: {camel}")
        if camel:
            turn[camel[0]] = to
            for n in plain:
                lemma_turn[n] = to + "_law"
        for i, n in enumerate(dashed):
            turn[n] = to + "_law" + ("" if i == 0 else str(i + 1))
    taken = set(turn.values()) & (set(declared) - set(turn))
    clashes = []

    def turned(p, t, in_rust):
        foreign = set()
        local = set()
        for module, names in imported(t):
            (local if is_own(module, own) else foreign).update(names)
        here = {n for n in declared if p in declared[n]}
        plain = {n: to for n, to in lemma_turn.items() if n in here or n in local}
        tokens = set(TOKEN.findall(t))

        def one(m):
            n = m.group(0)
            before = t[max(0, m.start() - 120):m.start()]
            if n in foreign and n not in here:
                return n
            if before.endswith("."):
                path = re.search(r"([A-Za-z0-9_'.+ᴰ-]*)\.$", before).group(1)
                if path == "tie" or path.endswith(".tie"):
                    return n
                if is_own(path, own):
                    return turn.get(n, n)
                if in_rust or n in fields:
                    return turn.get(n, n) if n in fields else n
                return n
            if n in plain and n not in foreign:
                return plain[n]
            return turn.get(n, n)

        out = TOKEN.sub(one, t)
        for n in tokens & set(turn):
            if turn[n] in tokens and n not in foreign and turn[n] not in plain:
                clashes.append((p, n, turn[n]))
        return out

    for p in files(".antt"):
        t = read(p)
        head = []
        new = turned(p, t, False)
        if new != t:
            with open(p, "w", encoding="utf-8") as f:
                f.write(new)
    for p in files(".rt"):
        t = read(p)
        # Only ghost use lines and clauses: the code keeps its names.
        lines, depth, out, buffer = t.split("\n"), 0, [], []
        new = []
        spans = []
        pos = 0
        for m in re.finditer(r"(?m)^\s*ghost\b[^;{]*(?:\{[^}]*\})?;?|^\s*(?:requires|ensures)\*?[^{\n]*\{", t):
            start = m.start()
            if re.match(r"\s*ghost use", m.group(0)):
                spans.append((start, m.end()))
                continue
            i = t.index("{", start)
            d = 0
            while True:
                d += t[i] == "{"
                d -= t[i] == "}"
                i += 1
                if d == 0:
                    break
            spans.append((start, i))
        done, at = [], 0
        foreign = set()
        local = set()
        for module, names in imported(t):
            (local if is_own(module, own) else foreign).update(names)
        for a, b in spans:
            if a < at:
                continue
            done.append(t[at:a])
            piece = t[a:b]

            def one(m, piece=piece):
                n = m.group(0)
                before = piece[:m.start()]
                if n in foreign:
                    return n
                if before.endswith(".") and n not in fields:
                    path = re.search(r"([A-Za-z0-9_'.+-]*)\.$", before).group(1)
                    return turn.get(n, n) if is_own(path, own) else n
                if n in lemma_turn and n in local:
                    return lemma_turn[n]
                return turn.get(n, n)

            done.append(TOKEN.sub(one, piece))
            at = b
        done.append(t[at:])
        new = "".join(done)
        if new != t:
            code = "".join(t[a:b] for a, b in zip([0] + [e for _, e in spans], [s for s, _ in spans] + [len(t)]))
            words = set(re.findall(r"\w+", code))
            for n in set(TOKEN.findall(t)) & set(turn):
                if turn[n] in words and n not in foreign:
                    clashes.append((p, n, turn[n]))
            with open(p, "w", encoding="utf-8") as f:
                f.write(new)
    for p in files(".edit"):
        t = read(p)
        rust = re.search(r"(?m)^file:\s*\S*\.rt", t) is not None

        def one(m, t=t):
            n = m.group(0)
            line = t[t.rfind("\n", 0, m.start()) + 1:m.start()]
            if line.startswith("file:") or not re.match(r"(old|new): ", line):
                return n
            return turn.get(n, n)

        new = TOKEN.sub(one, t)
        if new != t:
            with open(p, "w", encoding="utf-8") as f:
                f.write(new)
    for p, n, to in clashes:
        print(f"look: {os.path.relpath(p, ROOT)}: {n} is now {to}, which stood there already")
    for to in sorted(taken):
        print(f"look: {to} was there before")
    print(f"{len(turn)} names, {len(lemma_turn)} lemmas called NAME_law")


if __name__ == "__main__":
    main()
