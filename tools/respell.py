#!/usr/bin/env python3
"""Respells the repository's own definitions and lemmas as today's Rattle spells names: words in snake case, types in upper camel case.

usage: tools/respell.py            at the top of the repository, once, right after the kit's port.py
       tools/respell.py --list     says what it would respell, and changes nothing

A name is respelled where a file of specs/ or proofs/ declares it (also as a field, or inside a section) and it has a capital inside, or a dash.
Generated names (goals, invariants, measures) stay, and so do the words of src/ that are no ghost text: none of them has a capital inside.
A name that would fall together with another of the same file stops the run before anything is written."""
import re
import subprocess
import sys

TOKEN = re.compile(r"[A-Za-z_][\w'\-]*")
DECLARED = re.compile(r"^\s*(?:let\s+)?(?:(?:abbrev|unfoldable)\s+)?(?:pub\s+)?(?:(?:abbrev|data|record|ruleset)\s+)?(?:pub\s+)?([A-Za-z_][\w'\-]*)\s*:(?:\s(.*))?$")
LET = re.compile(r"\blet ([A-Za-z_][\w'\-]*) =")
CAPITAL = re.compile(r"^[a-z][a-z0-9_]*[A-Z]")
KIT = {"cases_Bool"}
BORROWED = re.compile(r"^use (?:Rattle\.std|native|lib|mathlib|borrow|denote)\b[^{]*\{(.*)\}$", re.M)
FORMER = {"getD": "get_or"}
COLUMN = re.compile(r"^--   (\S(?:.*?\S)?)   +(\S.*)$")


def files():
    out = subprocess.run(["git", "ls-files"], capture_output=True, text=True, check=True).stdout.split("\n")
    return [f for f in out if f.startswith(("crates/", "docs/")) and f.endswith((".antt", ".rt", ".edit", ".md")) and f != "docs/PORT.md"] + ["README.md"]


def snake(word):
    return re.sub(r"(?<=[a-z0-9])([A-Z])", lambda m: "_" + m.group(1).lower(), word)


def respelled(name):
    parts = [FORMER.get(p, p if p[:1].isupper() else snake(p)) for p in name.split("-")]
    return "_".join(parts)


def words(text):
    """The names of a file, without the paths of modules in its lines of use and the fields behind a dot."""
    return set(TOKEN.findall(re.sub(r"\.[A-Za-z_][\w'\-]*", "", re.sub(r"^use [\w.+'\-]+", "use", text, flags=re.M))))


def declared(texts):
    names, kit = set(), set()
    for f, text in texts.items():
        if not f.endswith(".antt"):
            continue
        kit.update(t for line in BORROWED.findall(text) for t in TOKEN.findall(line))
        for line in text.split("\n"):
            m = DECLARED.match(line)
            if m and not (m.group(2) or "").startswith("goal."):
                names.add(m.group(1))
            names.update(LET.findall(line))
    return names - kit


def aligned(text):
    """The columns of the words at the head of a file, laid out anew."""
    lines = text.split("\n")
    end = next((i for i, l in enumerate(lines) if not l.startswith("--")), len(lines))
    rows = [(i, COLUMN.match(lines[i])) for i in range(end)]
    rows = [(i, m) for i, m in rows if m]
    if not rows:
        return text
    width = max(len(m.group(1)) for _, m in rows)
    for i, m in rows:
        lines[i] = "--   " + m.group(1).ljust(width) + "   " + m.group(2)
    return "\n".join(lines)


def main():
    texts = {f: open(f, encoding="utf-8").read() for f in files()}
    edits = {f.rsplit("/", 1)[1][:-5] for f in texts if f.endswith(".edit")}
    table = {n: respelled(n) for n in declared(texts)}
    for text in texts.values():
        for t in TOKEN.findall(text):
            if CAPITAL.match(t) and t not in KIT and not t.startswith("x") and t not in table:
                table[t] = respelled(t)
    table = {old: new for old, new in table.items() if old != new}
    # a lemma that would have its function's name
    for old in [o for o in table if "-" in o and table[o] in (n for k, n in table.items() if k != o)]:
        table[old] += "_lem"
    together = []
    values = {}
    for old, new in sorted(table.items()):
        if new in values:
            together.append(f"{values[new]} and {old} both become {new}")
        values[new] = old
    for f, text in texts.items():
        if not f.endswith(".antt"):
            continue
        have = words(text)
        together += [f"{f}: {old} becomes {table[old]}, which stands there" for old in sorted(have & set(table)) if table[old] in have]
    if "--list" in sys.argv:
        for old, new in sorted(table.items()):
            print(old, "->", new)
        print("\n".join(together))
        return 0
    if together:
        print("\n".join(together), file=sys.stderr)
        return 1
    for f, text in texts.items():
        if f.endswith(".antt"):
            new = TOKEN.sub(lambda m: table.get(m.group(0), m.group(0)), text)
            new = aligned(new)
        else:
            # dashes in code are signs, and in pages they stand in the names of edits
            new = TOKEN.sub(lambda m: m.group(0) if "-" in m.group(0) and m.group(0) in edits else "-".join(table.get(p, p) for p in m.group(0).split("-")), text)
        if new != text:
            open(f, "w", encoding="utf-8").write(new)
    print(len(table), "names respelled")
    return 0


sys.exit(main())
