#!/usr/bin/env python3
"""Finds the places in crates/*/src that docs/DESIGN-PASS.md counts, point by point.

    tools/forms.py [ROOT] [-v]    the counts, with -v each place

A place is marked as kept where the line before it, or one of the comment lines above it, begins with `// Kept: `.
"""
import collections
import glob
import os
import re
import sys

ROOT = next((a for a in sys.argv[1:] if not a.startswith("-")), ".")
VERBOSE = "-v" in sys.argv[1:]

FUNCTION = re.compile(r"^ *(?:pub )?(?:extern \"C\" )?fn (\w+)")
TOKEN = re.compile(r"b?'[^']*'|b?\"[^\"]*\"|\w+|[^\s\w]")
WORDS = set(
    "fn pub if else match return while for in let mut true false as enum struct impl self Self loop break".split()
)


def sources():
    for path in sorted(glob.glob(os.path.join(ROOT, "crates/*/src/*.rt"))):
        with open(path, encoding="utf-8") as f:
            yield os.path.relpath(path, ROOT), f.read().split("\n")


def kept(lines, i):
    """Whether line i has a reason to stay: a comment `// Kept: ` directly above it, above its attributes, or behind it."""
    if "// Kept: " in lines[i]:
        return True
    j = i - 1
    while j >= 0 and (lines[j].lstrip().startswith("//") or lines[j].lstrip().startswith("#[")):
        if "// Kept: " in lines[j]:
            return True
        j -= 1
    return False


def functions(lines):
    """Name, first line, header and body of each function."""
    i = 0
    while i < len(lines):
        m = FUNCTION.match(lines[i])
        if not m:
            i += 1
            continue
        indent = len(lines[i]) - len(lines[i].lstrip())
        j = i
        header, body = [], []
        while j < len(lines) and not (lines[j].rstrip().endswith("{") and "ensures" not in lines[j] and "requires" not in lines[j]):
            if lines[j].rstrip().endswith(";"):
                break
            header.append(lines[j])
            j += 1
        header.append(lines[j] if j < len(lines) else "")
        j += 1
        while j < len(lines) and lines[j] != " " * indent + "}":
            body.append(lines[j])
            j += 1
        yield m.group(1), i, header, body
        i = j + 1


def structs(lines):
    """Name, first line and fields (line, name, type) of each struct."""
    for i, line in enumerate(lines):
        m = re.match(r"^ *(?:pub )?struct (\w+)(?:<[^>]*>)? \{", line)
        if not m:
            continue
        fields = []
        j = i + 1
        while j < len(lines) and lines[j].strip() != "}":
            f = re.match(r"^ +(?:pub )?(\w+): (.*),$", lines[j])
            if f:
                fields.append((j, f.group(1), f.group(2)))
            j += 1
        yield m.group(1), i, fields


def shape(body):
    out = []
    for line in body:
        line = line.split("//")[0]
        for t in TOKEN.findall(line):
            if t != "_" and re.match(r"\w|b?['\"]", t) and t not in WORDS:
                out.append("x")
            else:
                out.append(t)
    return tuple(out)


def point1():
    """Enums of the shape of Option or Result; fields that are a flag, a verdict or a number for one; numbers for refusals."""
    for path, lines in sources():
        text = "\n".join(lines)
        for i, line in enumerate(lines):
            m = re.match(r"^ *(?:pub )?enum (\w+)", line)
            # Kinds, courses and what is printed have no value of one kind beside a case without; an error enum stands in a Result.
            if m and m.group(1) not in ("Kind", "Course", "Printed") and not re.search(r"Result<[^\n]*, %s>" % m.group(1), text):
                yield path, i, "enum " + m.group(1), kept(lines, i)
        for name, i, fields in structs(lines):
            for j, field, kind in fields:
                flag = kind == "bool" and field in ("ok", "given", "found", "whole", "usable", "notified")
                number = kind in ("u8", "usize") and field in ("rule", "number", "letter", "holder", "lock", "ordered", "denial") and name != "Reached"
                verdict = kind == "Verdict"
                if len(fields) > 1 and (flag or number or verdict):
                    yield path, j, name + "." + field, kept(lines, i) or kept(lines, j)
        for name, i, header, body in functions(lines):
            head = " ".join(header)
            if re.search(r"-> u8\b", head) and not re.search(r"\bletter", name) or re.search(r"\b(rule|number): u8\b", head.split("ensures")[0]):
                yield path, i, "fn " + name, kept(lines, i)


def point2():
    """Functions of a crate, or programs, whose bodies differ in names, numbers and types alone."""
    seen = collections.defaultdict(list)
    for path, lines in sources():
        for name, i, header, body in functions(lines):
            s = shape(body)
            if len(s) >= 14:
                seen[s].append((path, i, "fn " + name, kept(lines, i)))
    for group in seen.values():
        for path, i, name, k in group:
            # In other crates only functions of the same name.
            rest = [n for p, j, n, _ in group if (p, j) != (path, i) and (p == path or n == name)]
            if rest:
                yield path, i, name + " as " + ", ".join(rest), k


def point3():
    """Loops whose condition or count is written by hand."""
    for path, lines in sources():
        for i, line in enumerate(lines):
            if re.match(r"^\s*(while|loop)\b", line):
                yield path, i, line.strip(), kept(lines, i)


def point4():
    """Conversions, orders and comparisons written by hand."""
    for path, lines in sources():
        for name, i, header, body in functions(lines):
            text = " ".join(b.strip() for b in body)
            head = re.sub(r"\s+", " ", " ".join(header))
            by_hand = (
                re.fullmatch(r"if \S+( == \S+)? \{ 1 \} else \{ 0 \}", text)
                or re.fullmatch(r"\w+ as \w+", text)
                or re.fullmatch(r"if (\w+) <=? (\w+) \{ (\1|\2) \} else \{ (\1|\2) \}", text)
                or re.fullmatch(r"if (\w+) \{ !(\w+) \} else \{ \2 \}", text)
                or re.fullmatch(r"\w+ (<|>|==) \w+", text)
                or re.search(r"\b(\w*reply|reply_of|number_of|line_of|letter_of|kind_of|positive|negative|size)$", name)
            )
            if by_hand:
                yield path, i, "fn " + name, kept(lines, i)


def facts(header):
    """The facts of a function's requires clauses, without outer parentheses."""
    for line in header:
        m = re.match(r"^\s*requires (?:\w+ )?\{ (.*) \}\s*$", line)
        if m:
            for part in m.group(1).split("×"):
                part = part.strip()
                while part.startswith("(") and not part.endswith(")"):
                    part = part[1:].strip()
                while part.endswith(")") and part.count(")") > part.count("("):
                    part = part[:-1].strip()
                yield part.strip("() ") if part.count("(") == part.count(")") and part.startswith("(") else part


PAIRS = [("what", "value"), ("whats", "values"), ("list", "scratch"), ("levels", "depths")]


def point5():
    """Facts that stand in the contracts of three or more functions of a crate, and parameters that travel together in as many."""
    for path, lines in sources():
        by_fact = collections.defaultdict(list)
        by_pair = collections.defaultdict(list)
        for name, i, header, body in functions(lines):
            for fact in set(facts(header)):
                by_fact[fact].append((i, name, kept(lines, i)))
            head = " ".join(header).split("ensures")[0].split("requires")[0]
            for pair in PAIRS:
                if all(re.search(r"\b%s: " % p, head) for p in pair):
                    by_pair[pair].append((i, name, kept(lines, i)))
        for table in (by_fact, by_pair):
            for key, users in table.items():
                if len(users) >= 3:
                    what = key if isinstance(key, str) else ", ".join(key)
                    yield path, users[0][0], what + ": " + ", ".join(n for _, n, _ in users), all(k for _, _, k in users)


def point6():
    """Parallel rows as parameters or fields, and arrays of them."""
    for path, lines in sources():
        for name, i, header, body in functions(lines):
            head = " ".join(header).split("ensures")[0].split("requires")[0]
            for pair in PAIRS[:2]:
                if all(re.search(r"\b%s: " % p, head) for p in pair):
                    yield path, i, "fn " + name + ": " + ", ".join(pair), kept(lines, i)
        for name, i, fields in structs(lines):
            names = [f for _, f, _ in fields]
            if "what" in names and "value" in names and any("[" in t for _, _, t in fields):
                yield path, i, "struct " + name, kept(lines, i)


def point7():
    """Tables of functions and functions as values."""
    for path, lines in sources():
        for i, line in enumerate(lines):
            if re.search(r"\bdyn\b|\bfn\(", line):
                yield path, i, line.strip(), kept(lines, i)


def main():
    points = [point1, point2, point3, point4, point5, point6, point7]
    for n, point in enumerate(points, 1):
        found = list(point())
        held = sum(1 for f in found if f[3])
        print("%d: %d places, %d of them kept with a reason. %s" % (n, len(found), held, point.__doc__))
        if VERBOSE:
            for path, i, what, k in found:
                print("   %s:%d: %s%s" % (path, i + 1, what, " (kept)" if k else ""))
    answers = glob.glob(os.path.join(ROOT, "crates/*/proofs/*/**/*.antt"), recursive=True)
    size = sum(sum(1 for _ in open(a, encoding="utf-8")) for a in answers)
    laws = glob.glob(os.path.join(ROOT, "crates/*/proofs/*.antt"))
    law_size = sum(sum(1 for _ in open(a, encoding="utf-8")) for a in laws)
    print("8: %d files of answers and invariants with %d lines, %d files of laws with %d lines." % (len(answers), size, len(laws), law_size))


main()
