#!/usr/bin/env python3
"""Respells the repository's own definitions and lemmas: words in snake case, types in camel case, ' for a prime.

usage: python3 tools/respell.py          at the top of the repository, once, after port.py
       python3 tools/respell.py --list   prints the names and what they become, and changes nothing

A name of the repository is one that a file of specs/ or proofs/ declares. Names of goals (in Answers.antt, Invariants.antt and
Proof.antt, which the toolchain makes from the code), names of the library and names of src/ are left as they are. It stops where two
names would fall together.
"""
import glob
import re
import sys

DECLARED = re.compile(r"^\s*(?:(?:abbrev|unfoldable|pub|data|record)\s+)*([^\s:(){}.,;]+)(?:\s[^:=]*)?\s:\s")
RECORD = re.compile(r"^\s*(?:pub\s+)?(?:record|data)\s+([^\s:(){}.,;]+)")
GOAL = re.compile(r"^\s*(?:(?:abbrev|unfoldable|pub)\s+)*([^\s:(){}.,;]+)\s+:\s+goal\.")
FIELDS = re.compile(r"([^\s(){};=,]+)\s*=(?!=)")
TOKEN = r"(?<![^\s(){{}}\[\];.,λ∷≡])(?:{})(?![^\s(){{}}\[\];.,])"


# where the plain rule would give a definition or a lemma the name of a function of its crate
OTHERWISE = {"sign-number": "number_of_sign", "count-done": "done_count_all_done"}


def files():
    return sorted(glob.glob("crates/*/specs/**/*.antt", recursive=True) + glob.glob("crates/*/proofs/**/*.antt", recursive=True))


def code(line):
    return line.split("--")[0] if line.lstrip().startswith("--") else line


def declared():
    """Each name that the repository declares, with the files that do, and the names of goals."""
    names, goals = {}, set()
    for path in files():
        for line in open(path, encoding="utf-8"):
            line = code(line)
            if line.startswith("use "):
                continue
            goal = GOAL.match(line)
            if goal:
                goals.add(goal.group(1))
                continue
            m = RECORD.match(line) or DECLARED.match(line)
            if m and m.group(1) not in ("module", "where", "let", "in", "elim", "|", "λ", "use"):
                names.setdefault(m.group(1), set()).add(path)
    return names, goals


def library():
    """Names that some file imports from the toolchain's library."""
    names = set()
    for path in files() + glob.glob("crates/*/src/**/*.rt", recursive=True):
        for line in open(path, encoding="utf-8"):
            m = re.match(r"\s*(?:ghost )?use Rattle\.std\..*\{(.*)\}", line)
            if m:
                for word in m.group(1).split(","):
                    names.update(word.split(" as "))
    return {n.strip() for n in names}


def respelled(name):
    if name in OTHERWISE:
        return OTHERWISE[name]
    name = name.replace("′", "'")
    parts = name.split("-")
    if len(parts) == 1:
        return name
    if any(not p for p in parts):
        return name
    if name[0].isupper():
        return "".join(p[0].upper() + p[1:] for p in parts)
    return "_".join(parts)


def local_names(names, goals, lib):
    """Names with a dash that a lemma or a definition binds for itself: no file imports them, and no goal is called so."""
    found = {}
    for path in files():
        answers = re.search(r"/(Answers|Invariants|Proof)\.antt$", path)
        text = "\n".join(code(line) for line in open(path, encoding="utf-8").read().split("\n"))
        imported = set(re.findall(r"[^\s{},]+", " ".join(re.findall(r"(?m)^use .*\{(.*)\}", text))))
        for word in set(re.findall(r"(?<![^\s(){}\[\];.,])[A-Za-z][A-Za-z0-9']*(?:-[A-Za-z0-9'ℤ]+)+(?![^\s(){}\[\];.,])", text)):
            if word in names or word in goals or word in lib or word in imported:
                continue
            bound = re.search(r"(?:λ (?:[^.\s]+ )*|let |in |\(|; )" + re.escape(word) + r"(?: [^\s:]+)* ?[:=.]", text) or not answers
            if bound and (not answers or not re.search(r"\." + re.escape(word) + r"(?![\w'-])", text)):
                found[word] = path
    return found


def main(argv):
    names, goals = declared()
    lib = library()
    for word, path in local_names(names, goals, lib).items():
        names.setdefault(word, set()).add(path)
    turned = {n: respelled(n) for n in names if respelled(n) != n and n not in goals and n not in lib}
    for n, new in turned.items():
        if new in names or new in lib or list(turned.values()).count(new) > 1:
            print(f"falls together: {n} -> {new} ({', '.join(sorted(names[n]))})", file=sys.stderr)
    if argv == ["--list"]:
        for n, new in sorted(turned.items()):
            print(n, new, ", ".join(sorted(names[n])))
        return 0
    pattern = re.compile(TOKEN.format("|".join(re.escape(n) for n in sorted(turned, key=len, reverse=True))))
    for path in files() + sorted(glob.glob("crates/*/src/**/*.rt", recursive=True)):
        old = open(path, encoding="utf-8").read()
        ghost = path.endswith(".antt")
        lines = []
        for line in old.split("\n"):
            clause = ghost or re.match(r"\s*(ghost|requires|ensures)\b", line) or "{ " in line
            lines.append(pattern.sub(lambda m: turned[m.group(0)], line) if clause else line)
        new = "\n".join(lines)
        if new != old:
            open(path, "w", encoding="utf-8").write(new)
    return 0


if __name__ == "__main__":
    raise SystemExit(main(sys.argv[1:]))
