#!/usr/bin/env python3
"""design_places.py [POINT..]: lists the places in crates/*/src that an older form of the language may have left, by the eight points of
docs/DESIGN-PASS.md, and counts them. With a point's number only that one. Run it at the top of the repository; it reads files and writes nothing."""
import collections
import glob
import re
import sys

FILES = sorted(glob.glob("crates/*/src/**/*.rt", recursive=True))
TEXTS = {f: open(f).read() for f in FILES}
short = lambda f: f[len("crates/"):].replace("/src/", "/")


def types(kind):
    """(file, name, body) of each struct or enum."""
    for f, t in TEXTS.items():
        for m in re.finditer(r"(?m)^(?:pub )?" + kind + r" (\w+)(?:<[^>]*>)? \{\n(.*?)^\}", t, re.S | re.M):
            yield f, m.group(1), m.group(2)


def functions():
    """(file, name, parameters, clauses, body) of each function."""
    for f, t in TEXTS.items():
        for m in re.finditer(r"(?ms)^( *)(?:pub )?fn (\w+)[^(]*\((.*?)\)([^\n]*\n.*?)^\1\{\n(.*?)^\1\}", t):
            yield f, m.group(2), m.group(3), m.group(4), m.group(5)


def point1():
    """own enums of the shape of Option or Result; a flag beside a value; kinds and faults as numbers."""
    said = r"\b(None|Refused|Fault|TooLarge|TooLong|NoRoom|Full|Broken)\b"
    for f, name, body in types("enum"):
        if re.search(said, body):
            yield f"{short(f)}: enum {name}"
    for f, name, body in types("struct"):
        fields = re.findall(r"(\w+): ([\w<>\[\]; ]+),", body)
        flags = [n for n, ty in fields if ty == "bool"]
        if flags and len(fields) > len(flags):
            yield f"{short(f)}: struct {name}, flag {', '.join(flags)} beside {len(fields) - len(flags)} more"
    for f, t in TEXTS.items():
        for m in re.finditer(r"\b(kind|code|number|fault): (u32|usize)\b", t):
            yield f"{short(f)}: {m.group(0)}"


def shape(text):
    """A function's text with names and numbers taken out."""
    text = re.sub(r"//[^\n]*", "", text)
    keep = {"if", "else", "return", "let", "mut", "while", "for", "in", "match", "as", "true", "false", "loop", "break"}
    text = re.sub(r"\b[A-Za-z_]\w*\b", lambda m: m.group(0) if m.group(0) in keep else "n", text)
    text = re.sub(r"b'.'|b\"[^\"]*\"|\b\d\w*\b", "0", text)
    return re.sub(r"n(::n)+", "n", re.sub(r"\s+", " ", text))


def point2():
    """functions of one shape, with five lines or more, that differ in names and numbers alone."""
    groups = collections.defaultdict(list)
    for f, name, parameters, _, body in functions():
        if body.count("\n") >= 5:
            groups[shape(body)].append(f"{short(f)} {name}")
    for found in groups.values():
        if len(found) > 1:
            for place in found:
                yield f"{place} (one of {len(found)})"


def point3():
    """loops that are no for."""
    for f, t in TEXTS.items():
        for i, line in enumerate(t.split("\n")):
            if re.match(r"\s*(while |loop \{)", line):
                yield f"{short(f)}:{i + 1}: {line.strip()}"


def point4():
    """functions that turn an own enum to a number or back, or compare, by a table written out."""
    for f, name, parameters, clauses, body in functions():
        arms = re.findall(r"=> (?:\d+|[A-Z_]+|[\w:]*[A-Z_]{3,}),", body)
        tests = re.findall(r"if \w+ == [\w:]*[A-Z_]{3,} \{\s*return [\w:()]+;", body)
        if len(arms) >= 2 or len(tests) >= 2:
            yield f"{short(f)} {name}"


def point5():
    """words of requires that stand in three functions or more of one crate, and parameters that do."""
    facts = collections.defaultdict(set)
    groups = collections.defaultdict(set)
    for f, name, parameters, clauses, _ in functions():
        crate = f.split("/")[1]
        for clause in re.findall(r"requires (?:\w+ )?\{(.*?)\}\s*(?=ensures|requires|$)", clauses, re.S):
            for word in set(re.findall(r"\b[A-Z]\w+", clause)):
                facts[crate, word].add(f + name)
        names = tuple(re.findall(r"(\w+): ", parameters))
        for k in range(len(names) - 1):
            for size in (3, 4, 5, 6):
                if k + size <= len(names):
                    groups[crate, names[k:k + size]].add(f + name)
    for (crate, word), where in sorted(facts.items()):
        if len(where) >= 3:
            yield f"{crate}: fact {word} in {len(where)} functions"
    for (crate, names), where in sorted(groups.items()):
        wider = any(c == crate and len(w) > len(names) and where == other and any(w[i:i + len(names)] == names for i in range(len(w)))
                    for (c, w), other in groups.items())
        if len(where) >= 3 and not wider:
            yield f"{crate}: parameters {', '.join(names)} in {len(where)} functions"


def point6():
    """an array with a count beside it."""
    for f, name, body in types("struct"):
        if re.search(r": \[", body) and re.search(r"\b(count|counts|length|size|used): ", body):
            yield f"{short(f)}: struct {name}"
    for f, name, parameters, _, _ in functions():
        if re.search(r": &(mut )?\[[^\]]*\]|: \[[^\]]*;", parameters) and re.search(r"\b(count|size|length|used): usize", parameters):
            yield f"{short(f)} {name}"


def point7():
    """a parameter that says which step to run."""
    for f, name, parameters, _, body in functions():
        for m in re.finditer(r"(\w+): (Which|NameRule|Owner|Spot|bool)\b", parameters):
            if re.search(r"(match|if) !?" + m.group(1) + r"\b", body):
                yield f"{short(f)} {name}: {m.group(0)}"


def point8():
    """answers in proofs, by crate."""
    for crate in sorted({f.split("/")[1] for f in FILES}):
        n = sum(len(re.findall(r"(?m)^pub \S+ : goal\.", open(p).read()))
                for p in glob.glob(f"crates/{crate}/proofs/**/*.antt", recursive=True))
        if n:
            yield f"{crate}: {n}", n


POINTS = [point1, point2, point3, point4, point5, point6, point7, point8]


def main():
    asked = [int(a) for a in sys.argv[1:]]
    for number, point in enumerate(POINTS, 1):
        if asked and number not in asked:
            continue
        found = list(point())
        count = sum(x[1] for x in found) if number == 8 else len(found)
        print(f"point {number}: {count} places: {point.__doc__}")
        if asked:
            for place in found:
                print("  ", place[0] if number == 8 else place)


main()
