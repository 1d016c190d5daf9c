#!/usr/bin/env python3
"""Brings the names of the repository's own definitions, fields and lemmas to snake case, in definitions, proofs, clauses, wrong programs and pages.

    python3 tools/snake_names.py            at the top, once, after the port's own script
    python3 tools/snake_names.py --report   prints what would be renamed and what falls together, and changes nothing

A name is renamed wherever it stands as a whole word in an .antt file, in a clause or `ghost use` of an .rt file, in a wrong program, and between
backquotes or in an indented block of a page. Code, strings, inputs and outputs keep theirs. Where two names fall together, that of specs/, or else that in
camel case, is the plain one, and the other has `_law` behind it; `CHOSEN` has the names that neither rule makes.
"""
import glob
import re
import sys

CHOSEN = {
    # laws whose name begins with that of a type
    "All-append": "all_append_law",
    "All-between": "all_between",
    "All-imp": "all_imp",
    "All-join": "all_join",
    "All-map": "all_map",
    "All-serially": "all_serially",
    "All-snoc": "all_snoc",
    "All-tail": "all_tail",
    "All-take": "all_take",
    "All-turn": "all_turn",
    "All-under": "all_under_law",
    "Rising-snoc": "rising_snoc",
    "Rising-tail": "rising_tail",
    "without-All": "without_all",
    "push-All": "push_all",
    # definitions in proofs/ that fall together with others
    "allLines": "every_line",
    "cellIn": "cell_found",
    "holdsAfter": "holds_then",
    "told-as": "told_reply",
    # an import under another name
    "lettersIn": "letters_of",
}

WORD = re.compile(r"[^\s(){}\[\];,.⟨⟩⦃⦄\"`|@·]+")
HEAD = re.compile(r"^(\s*)((?:(?:pub|abbrev|unfoldable|private|data|record) )*)(\S+)((?: +[{(].*?[)}])*) *:(?: |$)")


def snake(name):
    name = re.sub(r"([a-z0-9'₀-₉])([A-Z])", lambda m: m.group(1) + "_" + m.group(2).lower(), name)
    name = re.sub(r"([A-Z])([A-Z])(?=[a-z]|$)", lambda m: m.group(1).lower() + "_" + m.group(2).lower(), name)
    return name.replace("-", "_")


def camel(name):
    return "".join(part[:1].upper() + part[1:] for part in name.split("-"))


def wanted(name):
    if not re.match(r"^[A-Za-z]", name):
        return name
    if name[0].isupper():
        return camel(name) if "-" in name else name
    return snake(name)


def files(pattern):
    return sorted(glob.glob(pattern, recursive=True))


def specs():
    return files("crates/*/specs/**/*.antt")


def lemmas():
    return files("crates/*/proofs/*.antt")


def walks():
    return files("crates/*/proofs/**/*.antt")


def declared(path):
    """The names that a file of definitions or lemmas declares, fields and constructors too."""
    out = []
    for line in open(path, encoding="utf-8"):
        if line.lstrip().startswith("--") or line.startswith("use "):
            continue
        m = HEAD.match(line.rstrip("\n"))
        if m and not m.group(3).startswith(("(", "{", "◌", "'")) and re.match(r"^[A-Za-z]", m.group(3)):
            out.append(m.group(3))
        m = re.match(r"^\s*(?:(?:pub|abbrev) )*(?:data|record|module) (?:pub )?(\S+)", line)
        if m and re.match(r"^[A-Za-z]", m.group(1)):
            out.append(m.group(1))
    return out


def table():
    of_specs, of_lemmas = {}, {}
    for path in specs():
        for name in declared(path):
            of_specs.setdefault(name, path)
    for path in lemmas():
        for name in declared(path):
            if name not in of_specs:
                of_lemmas.setdefault(name, path)
    out = dict(CHOSEN)
    taken = {new: old for old, new in CHOSEN.items()}
    for names, suffix in ((of_specs, "_of"), (of_lemmas, "_law")):
        # those that keep their names come first, so that they keep them
        for name in sorted(names, key=lambda n: (wanted(n) != n, "-" in n, n)):
            if name in CHOSEN:
                continue
            new = wanted(name)
            while new in taken and taken[new] != name:
                new += suffix
            taken[new] = name
            if new != name:
                out[name] = new
    return out, of_specs, of_lemmas


def of_libraries(text):
    """The names that a file takes from a library that isn't one of the repository's crates."""
    crates = [line.split(":")[0].split()[0] for line in open("crates.txt", encoding="utf-8") if ":" in line]
    out = set()
    for m in re.finditer(r"^(?:ghost )?use ([^{;\n]*)\.\{([^}]*)\}", text, re.M):
        if not m.group(1).startswith(tuple("Rattle." + name + "." for name in crates)):
            out |= set(WORD.findall(m.group(2)))
    return out


def helpers(path):
    """The lemmas that a proof of a function has for itself: those that answer no goal."""
    out = {}
    for line in open(path, encoding="utf-8"):
        m = HEAD.match(line.rstrip("\n"))
        if m and re.match(r"^[a-z]", m.group(3)) and not m.group(3).endswith("-spec") and not line[m.end():].startswith(("tie.", "goal.")):
            out[m.group(3)] = wanted(m.group(3))
    return out


def functions():
    """The names under which the proofs of functions are exported."""
    out = {}
    for path in files("crates/*/src/**/*.rt"):
        for name in re.findall(r"\bfn (\w+)", open(path, encoding="utf-8").read()):
            out[name.replace("_", "-") + "-spec"] = name + "_spec"
            out[name + "-spec"] = name + "_spec"
    return out


def turned(text, names):
    return WORD.sub(lambda m: names.get(m.group(0), m.group(0)), text)


def code_turned(text, names):
    """Strings stay, and so does every name that code can have: those of definitions in clauses have a capital or a hyphen."""
    names = {old: new for old, new in names.items() if re.search("[A-Z-]", old)}
    parts = re.split(r'("(?:[^"\\\n]|\\.)*")', text)
    return "".join(part if i % 2 else turned(part, names) for i, part in enumerate(parts))


def edit_turned(text, names):
    """A wrong program: in a file of definitions a projection is written tight, and library words have their new names."""
    out = []
    for line in code_turned(text, names).split("\n"):
        if "file: specs/" in text and line.startswith(("old:", "new:")):
            line = re.sub(r"(?<=[\w')]) \.(?=[a-z])", ".", line).replace("getD", "get_or")
            line = re.sub(r"\(([a-z]\w*(?:\.\w+)+)\)", r"\1", line)
        out.append(line)
    return "\n".join(out)


def names_turned(text, names, known):
    """The names turned, those too that the port's own script turned; projections are tight, as in definitions."""
    text = WORD.sub(lambda m: m.group(0) if m.group(0) in names else wanted(m.group(0)) if wanted(m.group(0)) in known else m.group(0), text)
    return turned(re.sub(r"(?<=[\w')]) \.(?=[a-z])", ".", text), names)


def page_turned(text, names, known):
    """Between backquotes, and in indented and fenced blocks."""
    lines, fenced = [], False
    for line in text.split("\n"):
        if line.startswith("```"):
            fenced = not fenced
        if fenced or line.startswith("    "):
            line = names_turned(line, names, known)
        else:
            line = re.sub(r"`[^`]+`", lambda m: names_turned(m.group(0), names, known), line)
        lines.append(line)
    return "\n".join(lines)


def put(path, new):
    old = open(path, encoding="utf-8").read()
    if new != old:
        open(path, "w", encoding="utf-8").write(new)


if __name__ == "__main__":
    names, of_specs, of_lemmas = table()
    for old, new in sorted(names.items()):
        if new != wanted(old):
            print("falls together:", old, "->", new)
    for path in walks() + specs():
        words = set(WORD.findall(open(path, encoding="utf-8").read()))
        for old in sorted(words):
            if old in names and names[old] in words and names[old] not in names:
                print("stands already:", path, names[old])
    if "--report" in sys.argv:
        sys.exit(0)
    of_functions = functions()
    for path in walks() + specs():
        own = {} if path in lemmas() + specs() else helpers(path)
        text = open(path, encoding="utf-8").read()
        kept = of_libraries(text)
        put(path, turned(text, {old: new for old, new in {**own, **of_functions, **names}.items() if old not in kept}))
    for path in files("crates/*/src/**/*.rt"):
        put(path, code_turned(open(path, encoding="utf-8").read(), names))
    for path in files("crates/*/must-fail/*.edit"):
        put(path, edit_turned(open(path, encoding="utf-8").read(), names))
    known = set(of_specs) | set(of_lemmas)
    for path in files("docs/*.md") + ["README.md", "tests/README.md"]:
        put(path, page_turned(open(path, encoding="utf-8").read(), names, known))
