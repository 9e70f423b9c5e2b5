#!/usr/bin/env python3
"""Brings the names of definitions and lemmas to the spelling of today's Rattle.

usage: tools/port/names.py [--list] [ROOT]     once, right after Rattle's own port.py; ROOT is the checkout (.)

- A definition is in snake case; one whose values are facts or types is in camel case, as a type is.
- A lemma's name has a dash only between two names (of definitions here or of std), else `_`.
- Functions of src/, exported C names, strings and the names that Rattle makes stay. So does a name
  whose new spelling stands for something else: those are listed as 'kept'.
"""

import os
import re
import subprocess
import sys

# std's folder: beside the page that rt names
STD = os.path.join(os.path.dirname(subprocess.run(["rt", "doc"], capture_output=True, text=True).stdout), "rattle")
WORD = re.compile(r"(^|[\s(){}\[\].,;\"`⌜⌝∥])([A-Za-z][^\s(){}\[\].,;\"`⌜⌝∥]*)")
COMMENT = re.compile(r"^\s*--")
GENERATED = ("Proof.antt",)


def files(root, *ends):
    for folder, dirs, names in os.walk(root):
        dirs[:] = sorted(d for d in dirs if d not in ("out", ".git", "target"))
        for n in sorted(names):
            if n.endswith(ends):
                yield os.path.join(folder, n)


def read(path):
    with open(path, encoding="utf-8") as f:
        return f.read()


def signatures(path):
    """(indent, kind, name, type) of each declaration of a file: its type is joined to one line."""
    lines = read(path).split("\n")
    for i, line in enumerate(lines):
        m = re.match(r"^(\s*)((?:abbrev |unfoldable |pub )*)(record |data |ruleset )?([A-Za-z][\w'-]*)"
                     r"((?:\s*[({].*)?)\s*:\s(.*)$", line)
        if not m or COMMENT.match(line):
            continue
        indent, marks, kind, name, params, type_ = m.groups()
        if params and not kind:
            continue
        if name in ("module", "use", "let", "in", "where", "mod"):
            continue
        j = i + 1
        while j < len(lines) and lines[j].startswith(indent + " ") and lines[j].strip():
            type_ += " " + lines[j].strip()
            j += 1
        yield len(indent), (kind or "").strip(), name, re.sub(r"\s+--.*$", "", type_).strip()


def snake(part):
    part = re.sub(r"(?<=[a-z0-9])([A-Z])", lambda m: "_" + m.group(1).lower(), part)
    return part


def camel(name):
    return "".join(p[:1].upper() + p[1:] for p in re.split(r"[_-]", name) if p)


def is_fact(type_):
    last = re.split(r"→", type_)[-1].strip()
    return re.match(r"^Type\b", last) is not None


def std_names():
    """The names that std's Prelude and Common hand out."""
    found = set()
    for path in ("core/specs/Prelude.antt", "std/specs/Prelude.antt", "core/proofs/Common.antt", "std/proofs/Common.antt"):
        p = os.path.join(STD, path)
        if os.path.exists(p):
            for m in re.finditer(r"\{([^{}]*)\}", read(p)):
                for n in m.group(1).split(","):
                    found.add(n.split(" as ")[-1].strip())
    return found


def declared(root):
    out = {}
    for path in files(os.path.join(root, "crates"), ".antt"):
        if os.path.basename(path) in GENERATED:
            continue
        for indent, kind, name, type_ in signatures(path):
            out.setdefault(name, []).append((path, indent, kind, type_))
    return out


LIST_WORDS = """length append take drop set map filter reverse replicate get_or getD mem snoc cons suc zero one add mul
sub div mod le lt eq and or not true false all any up_to collect keep flatten""".split()


# In a clause `result` is what the function returns.
SPECIAL = {"result": "result_of"}


def tokens(text):
    """The tokens of a file of definitions or lemmas, those behind a dot left out."""
    return {m.group(2) for m in WORD.finditer(text) if m.group(1) != "."}


def plan(root):
    names = declared(root)
    fact = {n for n, at in names.items()
            if any(is_fact(t) and k not in ("record", "data") for _, _, k, t in at)}
    types = {n for n, at in names.items() if any(k in ("record", "data") for _, _, k, _ in at)}
    known = {n for n in names if "-" not in n} | std_names() | set(LIST_WORDS)
    seen = [tokens(read(p)) for p in files(os.path.join(root, "crates"), ".antt")]
    new, kept = {}, []
    for n in sorted(names):
        if n in types or not re.search(r"-|[a-z0-9][A-Z]", n):
            continue
        if n in fact and not n[0].isupper():
            to = camel(n)
        elif n[0].isupper() and "-" not in n:
            continue
        else:
            parts = n.split("-")
            to = parts[0]
            for a, b in zip(parts, parts[1:]):
                to += ("-" if a in known and b in known else "_") + b
            to = "".join(snake(p) if p[:1].islower() else p for p in re.split(r"([-_])", to))
        if to != n:
            new[n] = to

    def met(a, b):
        return any(a in s and b in s for s in seen)

    # no two names fall together where both are read: a lemma's name then ends in `_lem`
    for n, to in sorted(new.items()):
        others = [m for m in new if m != n and new[m] == to] + ([to] if to in names or any(to in s for s in seen) else [])
        if not any(met(n, o) for o in others):
            continue
        if "-" in n:
            new[n] = to + "_lem"
        elif to in names and to not in new:
            new[to] = to + "_lem"
        elif any("-" in o for o in others):
            continue
        else:
            kept.append((n, to))
    for n, _ in kept:
        del new[n]
    new.update(SPECIAL)
    return names, fact, new, kept


def turn_text(text, new, behind):
    """Each token by its new name. behind(token): whether it is turned behind a dot, too."""
    out = []
    for line in text.split("\n"):
        code, note = line, ""
        k = re.search(r"(^|\s)--(\s|$)", line)
        if k:
            code, note = line[:k.start()], line[k.start():]
        code = WORD.sub(lambda m: m.group(1) + new.get(m.group(2), m.group(2))
                        if m.group(1) != "." or behind(m.group(2)) else m.group(0), code)
        note = WORD.sub(lambda m: m.group(1) + (new.get(m.group(2), m.group(2))
                        if re.search(r"[a-z0-9][A-Z]", m.group(2)) else m.group(2)), note)
        out.append(code + note)
    return "\n".join(out)


def turn_rt(text, new):
    """In a source file only `ghost` lines and clauses are turned."""
    def clause(m):
        return turn_text(m.group(0), new, lambda t: True)
    text = re.sub(r"^\s*ghost use [^;]*;", clause, text, flags=re.M)
    return re.sub(r"^\s*(?:requires|ensures|ghost)\b.*?(?=^\{|^\s*\{$|;$)", clause, text, flags=re.M | re.S)


def turn_page(text, new):
    return re.sub(r"`[^`\n]*`", lambda m: turn_text(m.group(0), new, lambda t: True), text)


def main():
    words = [w for w in sys.argv[1:] if w != "--list"]
    root = words[0] if words else "."
    names, fact, new, kept = plan(root)
    for n, to in kept:
        print(f"kept: {n} (not {to})")
    for n, to in sorted(new.items()):
        print(f"{n} -> {to}")
    if "--list" in sys.argv:
        return
    fields = {n for n, at in names.items() if any(i > 0 for _, i, _, _ in at)}
    made = {m.replace("_", "-") for m in
            (f for p in files(os.path.join(root, "crates"), ".rt") for f in re.findall(r"\bfn\s+(\w+)", read(p)))}
    for path in files(os.path.join(root, "crates"), ".antt", ".rt"):
        text = read(path)
        if path.endswith(".rt"):
            here = new
            if not re.search(r"System\.\{[^}]*\bresult\b", text):
                here = {n: to for n, to in new.items() if n not in SPECIAL}
            done = turn_rt(text, here)
        elif os.path.basename(path) in GENERATED:
            done = turn_text(text, new, lambda t: t in fields and t not in made and t not in SPECIAL)
        else:
            done = turn_text(text, new, lambda t: "_" not in t and t not in SPECIAL)
        if done != text:
            with open(path, "w", encoding="utf-8") as f:
                f.write(done)
    for path in files(root, ".md"):
        if "/crates/" in path or "/changes/" in path or path.endswith(("CHANGELOG.md", "PORT.md")):
            continue
        text = read(path)
        done = turn_page(text, {n: to for n, to in new.items() if n not in SPECIAL})
        if done != text:
            with open(path, "w", encoding="utf-8") as f:
                f.write(done)


if __name__ == "__main__":
    main()
