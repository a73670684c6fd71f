#!/usr/bin/env python3
"""respell.py: run once, at the top, on what the kit's port script left; a second run changes nothing.

It brings the repository's own definitions and lemmas to the spelling of today's Rattle and changes no meaning:
  names    of functions and lemmas in specs/ and proofs/ are in snake case (`ceilingOf` is `ceiling_of`, `flag-read` is `flag_read`);
           types, facts and modules keep their capital. A dash stays where it joins two names (JOINED).
  forms    in specs/: `eqb a b` is `a == b`, `ltb a b` is `nat_lt a b`, `get_or s i 0` is `slice_index s i`, `set s i v` is
           `slice_set s i v`, `cond t a b` is `if t then a else b`. Each is the library's own name for the same term.
  pages    docs/*.md and README.md, between backquotes, have the new names.
Functions of src/, exported names, strings and must-fail edits are not touched. It stops where two names would fall together."""
import re
import sys
from pathlib import Path

TOP = Path(__file__).resolve().parent.parent
# lemmas whose dash joins the names of two definitions
JOINED = {"tally-suc", "listed-length"}
PART = r"A-Za-z0-9_'\-"  # what a name is made of in .antt
DECLARED = re.compile(r"^(?:(?:abbrev|unfoldable) )?(?:pub )?([a-z][" + PART + r"]*) :", re.M)


def snake(name):
    if name in JOINED:
        return name
    return re.sub(r"(?<=[a-z0-9])([A-Z])", lambda m: "_" + m.group(1).lower(), name).replace("-", "_")


def sources(*patterns):
    return sorted(p for pattern in patterns for p in TOP.glob(pattern) if "out" not in p.relative_to(TOP).parts)


def own_names():
    """old name -> new name, of each definition of specs/ and each lemma file of proofs/"""
    new = {}
    for path in sources("crates/*/specs/*.antt", "crates/*/proofs/*.antt"):
        here = {}
        for name in DECLARED.findall(path.read_text()):
            if here.setdefault(snake(name), name) != name:
                sys.exit(f"{path}: `{name}` and `{here[snake(name)]}` would fall together")
            if name != snake(name):
                new[name] = snake(name)
    return new


def renamed(text, new):
    word = re.compile(r"(?<![" + PART + r"])(" + "|".join(map(re.escape, sorted(new, key=len, reverse=True))) + r")(?![" + PART + r"])")
    return word.sub(lambda m: new[m.group(1)], text) if new else text


def atom(text, at):
    """the argument that begins at `at`: (it, where it ends)"""
    if text[at] != "(":
        end = re.compile(r"[^\s()]+").match(text, at).end()
        return text[at:end], end
    depth, end = 0, at
    while True:
        depth += {"(": 1, ")": -1}.get(text[end], 0)
        end += 1
        if depth == 0:
            return text[at:end], end


def bare(arg):
    return arg[1:-1] if arg.startswith("(") else arg


def operand(arg):
    """an argument beside `==`, which binds looser than application"""
    return bare(arg) if re.fullmatch(r"\((?:slice_index|nat_lt) [^;]*\)", arg) else arg


FORMS = {  # head -> (how many arguments, how it reads, whether it is an operator)
    "get_or": (3, lambda s, i, d: f"slice_index {s} {i}", False),
    "set": (3, lambda s, i, v: f"slice_set {s} {i} {v}", False),
    "ltb": (2, lambda a, b: f"nat_lt {a} {b}", False),
    "eqb": (2, lambda a, b: f"{operand(a)} == {operand(b)}", True),
    "cond": (3, lambda t, a, b: f"if {bare(t)} then {bare_arm(a)} else {bare_arm(b)}", True),
}
IMPORTS = {"get_or": "slice_index", "set": "slice_set", "ltb": "nat_lt", "eqb": "◌==◌", "cond": "if◌then◌else◌"}


def bare_arm(arg):
    """an arm of `if`; an inner `if` keeps its parentheses"""
    return arg if arg.startswith("(if ") else bare(arg)


def reformed(text):
    """specs/ in the library's words, the innermost form first"""
    for head in ("get_or", "set", "ltb", "eqb", "cond"):
        count, reads, operator = FORMS[head]
        word = re.compile(r"(?<![" + PART + r"{])" + head + r"(?=\s+[\w(])")
        while True:
            found = [m for m in word.finditer(text) if not text[text.rfind("\n", 0, m.start()) + 1:m.start()].lstrip().startswith(("use ", "--"))]
            if not found:
                break
            m = found[-1]  # the last one, so that what stands inside another comes first
            args, at = [], m.end()
            for _ in range(count):
                at = re.compile(r"\s+").match(text, at).end()
                arg, at = atom(text, at)
                args.append(arg)
            if head == "get_or" and args[2] != "0":
                sys.exit(f"get_or with a default of {args[2]}")
            new = reads(*args)
            closed = text[m.start() - 1] == "(" and text[at:at + 1] == ")"
            alone = re.search(r"(= |in |=\n\s+)$", text[:m.start()]) and text[at:at + 1] in ("\n", " ", ";", "")
            text = text[:m.start()] + (f"({new})" if operator and not closed and not alone else new) + text[at:]
    return re.sub(r"^(use Rattle\.std\.specs\.Prelude\.\{)(.*)(\})$", imports, text, flags=re.M)


def imports(m):
    return m.group(1) + ", ".join(IMPORTS.get(name, name) for name in m.group(2).split(", ")) + m.group(3)


def main():
    new = own_names()
    taken = {snake(n) for path in sources("crates/*/specs/*.antt", "crates/*/proofs/*.antt") for n in DECLARED.findall(path.read_text())}
    for path in sources("crates/*/specs/*.antt", "crates/*/proofs/**/*.antt", "crates/*/src/**/*.rt"):
        text = renamed(path.read_text(), new)
        path.write_text(reformed(text) if path.parent.name == "specs" else text)
    for path in sources("docs/*.md", "README.md"):
        page = path.read_text()
        page = re.sub(r"`([a-z][A-Za-z0-9\-]*)`", lambda m: f"`{snake(m.group(1))}`" if snake(m.group(1)) in taken else m.group(0), page)
        path.write_text(page)


main()
