#!/usr/bin/env python3
"""Sets the code's public heads and types, and the definitions and theorems, of two checkouts side by side.

usage: tools/design/changes.py OLD NEW     two checkouts; prints the last part of docs/DESIGN-PASS.md
"""

import os
import re
import sys
import textwrap

from sources import files


def crate_of(path):
    return path.split(os.sep)[1]


def squeezed(text):
    return re.sub(r"\s+", " ", text).strip()


def code(root):
    """(crate, name) of each public function, type and constant: its head, or its whole text"""
    found = {}
    for path, text in files(root, ".rt", "src"):
        crate, text = crate_of(path), re.sub(r"^\s*//[^\n]*\n", "", text, flags=re.M)
        owner = None
        for m in re.finditer(
            r"^(?P<impl>impl[^\n{]*)|^(?P<i>[ ]*)pub (?:extern \"C\" )?(?P<kind>fn|struct|enum|const|type|trait) (?P<name>\w+)"
            r"|^(?P<f>    )fn (?P<from>from|eq)\b", text, re.M):
            if m["impl"]:
                owner = squeezed(m["impl"])
                continue
            indent = m["i"] if m["i"] is not None else m["f"]
            kind, name = m["kind"] or "fn", m["name"] or m["from"]
            rest = text[m.start():]
            if kind == "fn":
                stop = re.search(r"^" + indent + r"\{|\{\n", rest, re.M)
                lines = rest[: stop.start()] if stop else rest.split("\n")[0]
            elif kind in ("const", "type"):
                lines = rest[: rest.index(";") + 1]
            else:
                stop = re.search(r"^\}|;$", rest, re.M)
                lines = rest[: stop.end()]
            place = f"{owner}: {name}" if indent and owner else name
            found[crate, kind, place] = lines.rstrip()
    return found


def statements(root, part):
    """(crate, file, name) of each definition or statement: its text"""
    found = {}
    for path, text in files(root, ".antt", part):
        if os.path.basename(path) in ("Answers.antt", "Invariants.antt", "Lib.antt"):
            continue
        where = os.path.basename(path)[:-5]
        crate, text = crate_of(path), re.sub(r"^\s*--[^\n]*\n", "", text, flags=re.M)
        start = re.compile(r"^( *)((?:abbrev |unfoldable )?pub (?:record |data |ruleset )?)([^\s:({]+)", re.M)
        for m in start.finditer(text):
            indent = len(m[1])
            lines = text[m.start():].split("\n")
            taken = [lines[0]]
            for l in lines[1:]:
                deep = len(l) - len(l.lstrip())
                if not l.strip() or deep < indent:
                    break
                if deep == indent and not l.strip().startswith(m[3]):
                    break
                # of a theorem the statement alone
                if part == "proofs" and deep == indent:
                    break
                taken.append(l)
            found[crate, where, m[3]] = squeezed(" ".join(taken))
    return found


def told(what, keys):
    print(textwrap.fill(f"{what}: " + ", ".join(f"`{k[2]}`" for k in keys) + ".", 98,
                        break_long_words=False, break_on_hyphens=False) + "\n")


def main():
    old_root, new_root = sys.argv[1:3]
    old, new = code(old_root), code(new_root)
    print("### Public functions, types and constants\n")
    print("Old above, new below; one that is gone or new stands alone.\n")
    crates = sorted({k[0] for k in old} | {k[0] for k in new})
    for crate in crates:
        keys = [k for k in sorted(set(old) | set(new)) if k[0] == crate and squeezed(old.get(k, "")) != squeezed(new.get(k, ""))]
        if not keys:
            continue
        print(f"**{crate}**\n\n```")
        for k in keys:
            for root, sign in ((old, "-"), (new, "+")):
                if k in root:
                    print("\n".join(f"{sign} {l}" for l in root[k].split("\n")))
            print()
        print("```\n")
    for part, title, whole in (("specs", "Definitions", True), ("proofs", "Theorems and lemmas", False)):
        old, new = statements(old_root, part), statements(new_root, part)
        moved = {}
        for k in old:
            if k not in new:
                to = [n for n in new if n[0] == k[0] and n[2] == k[2]]
                if to:
                    moved[k] = to[0]
        print(f"### {title}\n")
        if whole:
            print("Old above, new below.\n")
        for crate in sorted({k[0] for k in old} | {k[0] for k in new}):
            changed = [k for k in sorted(old) if k[0] == crate and (k in new or k in moved)
                       and old[k] != new[moved.get(k, k)]]
            gone = [k for k in sorted(old) if k[0] == crate and k not in new and k not in moved]
            fresh = [k for k in sorted(new) if k[0] == crate and k not in old and k not in moved.values()]
            if not changed and not gone and not fresh:
                continue
            print(f"**{crate}**\n")
            if changed:
                print("```")
                for k in changed:
                    for sign, text in (("- ", old[k]), ("+ ", new[moved.get(k, k)])):
                        print(textwrap.fill(text, 98, initial_indent=sign, subsequent_indent=sign + "    ",
                                            break_long_words=False, break_on_hyphens=False))
                    print()
                print("```\n")
            if gone:
                told("Gone", gone)
            if fresh:
                told("New", fresh)


main()
