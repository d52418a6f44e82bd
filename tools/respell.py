#!/usr/bin/env python3
"""Gives the repository's own definitions and lemmas the spelling of today's Rattle: words in snake case.

usage: python3 tools/respell.py        once, at the top, right after the port script of the toolchain

A camel-case name becomes words joined by `_`, and so does a name whose words a dash joined. A dash stays where it joins a definition's name to
what is said of it (`leftOver-append` becomes `left_over-append`). Renamed are the names that .antt files here declare, wherever they stand: in
.antt and .rt files and in must-fail edits. Not renamed: answers to goals, which the toolchain names, and prose.
The script stops, and writes nothing, where two names would fall together.
"""

import collections
import os
import re
import sys

WORD = r"[A-Za-z0-9_'₀-₉ℕℤ]+"
TOKEN = re.compile(r"[^\s(){}\[\],.;:\"`|]+")
DECLARED = re.compile(r"^\s*(?:(?:abbrev|unfoldable|pub|private|opaque)\s+)*((?:[^\s(){}\[\],.;:λ]+ )+): (.*)$")
GENERATED = re.compile(r"^(invariant|decreases)-")
# names whose words alone do not say what became of them
BY_HAND = {"getD-table": "get_or-table"}


def snake(name):
    return re.sub(r"(?<=[a-z0-9'])([A-Z])", lambda m: "_" + m.group(1).lower(), name)


def respelled(name):
    if name in BY_HAND:
        return BY_HAND[name]
    camel = re.search(r"[a-z0-9][A-Z]", name) and re.match(r"[a-z◌]", name)
    if camel:
        return snake(name)
    if "-" in name and re.fullmatch(WORD + "(-" + WORD + ")+", name) and name[0].islower():
        return name.replace("-", "_")
    return name


def files(root, endings):
    for folder, dirs, names in os.walk(os.path.join(root, "crates")):
        dirs[:] = sorted(d for d in dirs if d not in ("out", "data"))
        for n in sorted(names):
            if n.endswith(endings):
                yield os.path.join(folder, n)


def declared(root):
    found = set()
    for path in files(root, (".antt",)):
        walk = os.path.basename(path) in ("Proof.antt", "Answers.antt", "Invariants.antt")
        with open(path, encoding="utf-8") as f:
            for line in f:
                m = DECLARED.match(line)
                if not m or line.lstrip().startswith(("--", "use ", "let ", "λ")):
                    continue
                for name in m.group(1).split():
                    if GENERATED.match(name) or (walk and re.match(r"(tie|goal)\.", m.group(2)) and "-" in name):
                        continue
                    found.add(name)
    return found


def main():
    root = os.getcwd()
    texts, turned, tokens = {}, {}, {}
    for path in files(root, (".antt", ".rt", ".edit")):
        with open(path, encoding="utf-8") as f:
            texts[path] = f.read()
        tokens[path] = set(TOKEN.findall(texts[path]))
    names = declared(root)
    table = {n: respelled(n) for n in names if respelled(n) != n}
    # a lemma that would have the name of another thing beside it gets `_lem`
    definitions = {new for old, new in table.items() if "-" not in old}
    for old, new in sorted(table.items()):
        beside = any(old in t and new in t for p, t in tokens.items() if p.endswith(".antt"))
        if "-" in old and (new in names or new in definitions or beside):
            table[old] = new + "_lem"
    for name in sorted(names & definitions):
        table[name] = name + "_lem"
    for old, new in list(table.items()):
        infix = re.fullmatch("◌(.+)◌", old)
        if infix:
            table[infix.group(1)] = new[1:-1]
    made = collections.defaultdict(set)
    for old, new in table.items():
        made[new].add(old)
    clash = ["%s: %s" % (n, ", ".join(sorted(o))) for n, o in made.items() if len(o) > 1]
    # in a .rt file a function may have the name of its definition: they are two name spaces
    for path, here in tokens.items():
        for old in sorted(here & table.keys()):
            if table[old] in here and table[old] in names - table.keys():
                clash.append("%s: %s and %s" % (os.path.relpath(path, root), old, table[old]))
    for path, text in texts.items():

        def turn(line):
            comment = re.search(r"(^|\s)(--|//)\s", line)
            prose = path.endswith(".edit") and not re.match(r"(file|old|new): ", line)
            cut = 0 if prose else comment.start() if comment else len(line)
            code = TOKEN.sub(lambda m: table.get(m.group(0), m.group(0)), line[:cut])
            said = TOKEN.sub(lambda m: table.get(m.group(0), m.group(0)) if "-" not in m.group(0) else m.group(0), line[cut:])
            said = re.sub(r"`([^`]+)`", lambda m: "`" + TOKEN.sub(lambda t: table.get(t.group(0), t.group(0)), m.group(1)) + "`", said)
            return code + said

        turned[path] = "".join(map(turn, text.splitlines(True)))
    if clash and "--force" not in sys.argv:
        print("\n".join(clash))
        print("%d places where names fall together; nothing was written" % len(clash))
        raise SystemExit(1)
    n = 0
    for path, text in turned.items():
        if text != texts[path]:
            n += 1
            with open(path, "w", encoding="utf-8") as f:
                f.write(text)
    print("%d names, %d files" % (len(table), n))
    if "--table" in sys.argv:
        for old in sorted(table):
            print(old, table[old])


main()
