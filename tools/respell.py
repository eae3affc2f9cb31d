#!/usr/bin/env python3
"""Brings the repository's own antt names to today's spelling: functions, lemmas, fields and constructors in snake case, a dash only between two names.

usage: respell.py [--names FILE]        at the top of the repository, once, right after port.py

It reads the declarations of specs/ and proofs/, chooses a new name for each that is not in snake case, and writes it wherever the name stands in
.antt files, in clauses and ghost lines of .rt files, and in backquotes in comments and pages. A new name that is taken gets a suffix, and is printed.
Functions of src/ keep their names. --names writes the table of old and new names.
"""

import os
import re
import sys

TOKEN = re.compile(r"[^\s(){}\[\].,;:\"«»@`|λ]+")
SIGNATURE = re.compile(r"^((?:(?:abbrev|unfoldable|pub) )*)(?:(data|record|ruleset|syntax) )?([^\s(){}.,;:\"]+)(?= \(| \{| :)")
MEMBER = re.compile(r"^ +(?:pub |abbrev |unfoldable )*([^\s(){}.,;:\"]+(?: [^\s(){}.,;:\"]+)*) : ")
# names of the library that a dash may stand behind or before
WORDS = set("length take drop append map set get_or replicate reverse sum filter cond min max add sub mul".split())


def files(top, ending):
    for folder, dirs, names in os.walk(top):
        dirs[:] = sorted(d for d in dirs if d not in ("out", ".git", "target"))
        for name in sorted(names):
            if name.endswith(ending):
                yield os.path.join(folder, name)


def read(path):
    with open(path, encoding="utf-8") as f:
        return f.read()


def code_of(line):
    """The line without its comment."""
    at = line.find("--")
    return line if at < 0 or line[:at].strip("-") != line[:at].rstrip("-") else line[:at]


def declarations():
    """Top names and members that the crates declare; names of goals, which Rattle makes, are left out."""
    tops, members = {}, {}
    for path in files("crates", ".antt"):
        by_function = path.endswith("Proof.antt")
        for line in read(path).split("\n"):
            found = SIGNATURE.match(line)
            if found and not line.startswith("--"):
                rest = line[found.end() :]
                if not by_function:
                    kind = found[2] or ("word" if re.search("abbrev|unfoldable", found[1]) else "lemma")
                    tops.setdefault(found[3], set()).add(kind)
            found = MEMBER.match(line)
            if found and not by_function and not line.strip().startswith(("--", "let ")):
                for name in found[1].split():
                    members.setdefault(name, set()).add(path)
    return tops, members


def snake(name, names):
    """The name in snake case; a dash stays between two names."""
    parts = name.split("-")
    known = lambda part: part in WORDS or part in names or part.startswith("◌")
    text = parts[0]
    for before, after in zip(parts, parts[1:]):
        text += ("-" if known(before) and known(after) and before in WORDS else "_") + after
    if text[:1].isupper():
        return text
    text = re.sub(r"(?<=[a-z0-9])([A-Z]+)", lambda m: "_" + m[1].lower(), text)
    return text.replace("′", "'")


def table(tops, members):
    definitions = {it for it, kinds in tops.items() if "-" not in it}
    every = {}
    for name, kinds in tops.items():
        if not kinds & {"data", "record", "syntax"} and not name[:1].isupper() and re.search(r"[a-zA-Z]", name) and not name.startswith("/"):
            every[name] = snake(name, definitions)
    for name in members:
        if not name[:1].isupper() and name not in every and re.match(r"[a-z]", name):
            every[name] = snake(name, definitions)
    every = {a: b for a, b in every.items() if a != b}
    # what is taken: every word of the antt files that no path ends in, and the parameters of functions
    taken = set()
    for path in files("crates", ".antt"):
        for line in read(path).split("\n"):
            for it in TOKEN.finditer(code_of(line)):
                if line[: it.start()][-1:] != "." and it[0] not in every:
                    taken.add(it[0])
    for path in files("crates", ".rt"):
        for head in re.findall(r"\bfn \w+(?:<[^>]*>)?\(([^)]*)\)", read(path)):
            taken |= set(re.findall(r"(\w+):", head))
    said = []
    lemmas = {it for it, kinds in tops.items() if kinds == {"lemma"}}
    # definitions first: a lemma that would have its function's name gets `_lem`
    for name in sorted(list(every), key=lambda it: (it in lemmas or "-" in it, it)):
        new = every[name]
        if new in taken and name not in lemmas and new in lemmas and new not in every and f"{new}_lem" not in taken:
            every[new] = f"{new}_lem"
            taken.add(f"{new}_lem")
            said.append(f"{new} -> {new}_lem, since {name} becomes {new}")
        elif new in taken:
            choices = [new + "_lem"] if name in lemmas or "-" in name else [new + ("_in" if new.endswith("_of") else "_of"), new + "_at"]
            new = next(it for it in choices + [new + "_as_told"] if it not in taken)
            said.append(f"{name} -> {new}, since {every[name]} is taken")
        every[name] = new
        taken.add(new)
    return every, said


def written(text, names, members, everywhere=True):
    def turn(found):
        name = found[0]
        if name not in names:
            return name
        line = text[text.rfind("\n", 0, found.start()) + 1 : found.start()]
        if line.endswith(".") and name not in members:
            chain = re.search(r"[^\s(){},;\"]*$", line)[0]
            if not chain.startswith("Rattle."):
                return name
        return names[name]

    return TOKEN.sub(turn, text)


def quoted(text, names, members):
    return re.sub(r"`[^`\n]+`", lambda m: written(m[0], names, members), text)


def antt(text, names, members):
    lines = []
    for line in text.split("\n"):
        code = code_of(line)
        lines.append((code, line[len(code) :]))
    # the code is turned as one text, so that a chain is seen across its line
    turned = written("\n".join(c for c, _ in lines), names, members).split("\n")
    return "\n".join(c + quoted(r, names, members) for c, (_, r) in zip(turned, lines))


CLAUSE = re.compile(r"^\s*(?:ghost\b|requires\b|ensures\b|invariant\b)")


def rust(text, names, members):
    out, depth, inside = [], 0, False
    for line in text.split("\n"):
        if line.strip().startswith("//"):
            out.append(quoted(line, names, members))
            continue
        if not inside and CLAUSE.match(line):
            inside, depth = True, 0
        if inside:
            depth += line.count("{") - line.count("}")
            out.append(written(line, names, members))
            inside = depth > 0 or (line.rstrip()[-1:] not in ("}", ";"))
        else:
            out.append(line)
    return "\n".join(out)


def main():
    tops, members = declarations()
    names, said = table(tops, members)
    for path in files("crates", ".antt"):
        text = read(path)
        new = antt(text, names, members)
        if new != text:
            with open(path, "w", encoding="utf-8") as f:
                f.write(new)
    for path in files("crates", ".rt"):
        text = read(path)
        new = rust(text, names, members)
        if new != text:
            with open(path, "w", encoding="utf-8") as f:
                f.write(new)
    for path in [*files("docs", ".md"), "README.md"]:
        text = read(path)
        new = quoted(text, names, members)
        if new != text:
            with open(path, "w", encoding="utf-8") as f:
                f.write(new)
    if "--names" in sys.argv:
        with open(sys.argv[sys.argv.index("--names") + 1], "w", encoding="utf-8") as f:
            f.write("".join(f"{a}\t{b}\n" for a, b in sorted(names.items())))
    print("\n".join(said))
    print(f"respell: {len(names)} names, {len(said)} of them with a suffix")


if __name__ == "__main__":
    main()
