#!/usr/bin/env python3
"""Counts the places that docs/DESIGN-PASS.md speaks of, by its points, in the src/ (and proofs/) of all crates.

usage: tools/design/count.py [--list] [ROOT]     ROOT is the checkout (.); --list tells each place
"""

import collections
import re
import sys

from sources import files

FN = re.compile(r"^(?P<indent>[ \t]*)(?:pub(?:\(crate\))? )?(?:extern \"C\" )?fn (?P<name>\w+)", re.M)
PIECES = re.compile(r"\b(u8|u16|u32|u64|usize|i64)\b|\b\d+\b|\w+")


def bare(text):
    """the text without comments and strings; lines stay"""
    return re.sub(r"//[^\n]*|\"(?:\\.|[^\"\\])*\"", "", text)


def line(text, at):
    return text.count("\n", 0, at) + 1


def functions(text):
    """(name, start, head, body) of each function"""
    for m in FN.finditer(text):
        close = re.compile(r"^" + m["indent"] + r"\}", re.M).search(text, m.end())
        if not close:
            continue
        whole = text[m.start() : close.end()]
        cut = re.search(r"^" + m["indent"] + r"\{|\{\s*$", whole, re.M)
        cut = cut.start() if cut else 0
        yield m["name"], m.start(), whole[:cut], whole[cut:]


def enums(text):
    for m in re.finditer(r"^(?:pub )?enum (\w+)[^{]*\{(.*?)^\}", text, re.M | re.S):
        variants = re.findall(r"^    (\w+)(\([^)]*\)|\s*\{[^}]*\})?,?", m[2], re.M)
        yield m[1], m.start(), variants


def own_results(path, text):
    for name, at, variants in enums(text):
        fields = [bool(v[1]) for v in variants]
        if len(variants) == 2 and any(fields):
            yield path, line(text, at), f"enum {name}"
        elif any(v[0] in ("Refused", "Bad", "None") for v in variants) and any(fields):
            yield path, line(text, at), f"enum {name}"


def number_codes(path, text):
    for name, at, head, body in functions(text):
        to_number = re.search(r"-> (u64|usize|u8)\b", head)
        codes = re.search(r"return \d+;|=> \d+,|^\s+\d+$", body, re.M)
        tested = re.search(r"\b(\w+) != 0 \{\s*return (\1|\w+::Refused\(\1\)|Err\(\1\))", body)
        if (to_number and codes and not re.search(r"<<|>>|%", body)) or tested:
            yield path, line(text, at), f"fn {name}"


def flags(path, text):
    for m in re.finditer(r"^\s+(?:pub )?(\w+): bool,$|^    (\w+)\([^)]*\bbool\b[^)]*\),?$", text, re.M):
        yield path, line(text, m.start()), m[0].strip()


def twins(sources):
    groups = collections.defaultdict(list)
    for path, text in sources:
        for name, at, head, body in functions(text):
            seen = {}

            def piece(m):
                w = m[0]
                if m[1]:
                    return "TYPE"
                if w.isdigit():
                    return "N"
                if w in ("if", "else", "for", "in", "while", "return", "match", "let", "mut", "true", "false", "as"):
                    return w
                return seen.setdefault(w, f"v{len(seen)}")

            shape = re.sub(r"\s+", " ", PIECES.sub(piece, body))
            if len(re.findall(r"\w+", body)) >= 8:
                groups[shape].append((path, line(text, at), f"fn {name}"))
    return [g for g in groups.values() if len(g) > 1]


def loops(path, text):
    """each while and loop; one that counts: its own last lines raise or lower a number of its condition"""
    for m in re.finditer(r"^([ \t]*)(while|loop)\b([^\n]*)\{$", text, re.M):
        close = re.compile(r"^" + m[1] + r"\}", re.M).search(text, m.end())
        body = text[m.end() : close.start()] if close else ""
        counted = [v for v in re.findall(r"\b(\w+) [+-]= ", body) if m[2] == "loop" or re.search(rf"\b{v}\b", m[3])]
        yield path, line(text, m.start(2)), m[0].strip(), bool(counted)


HAND = re.compile(r"^(same|equal\w*|eq|cmp|compare|less|copy\w*|clone|of_\w+|to_\w+|from_\w+|wide\w*|narrow\w*|show\w*|\w*_word|number)$")


def by_hand(path, text):
    blocks = [(m.start(), m.end()) for m in re.finditer(r"^impl[^\n]* for .*?^\}", text, re.M | re.S)]
    for name, at, head, body in functions(text):
        if HAND.match(name) and not any(a < at < b for a, b in blocks):
            yield path, line(text, at), f"fn {name}"


def repeated_facts(sources):
    facts = collections.defaultdict(set)
    for path, text in sources:
        for name, at, head, body in functions(text):
            for m in re.finditer(r"requires\s*(?:\w+\s*)?\{((?:[^{}]|\{[^{}]*\})*)\}", head):
                facts[re.sub(r"\s+", " ", m[1]).strip()].add((path, line(text, at), f"fn {name}"))
    return {f: p for f, p in facts.items() if len(p) >= 3}


def lengths_beside(path, text):
    for name, at, head, body in functions(text):
        if re.search(r": &(?:mut )?\[", head) and re.search(r"\b(count|used|end|length|n|w): usize", head):
            yield path, line(text, at), f"fn {name}"


def tables(path, text):
    for m in re.finditer(r":\s*(?:&?\[?)\s*(?:extern \"C\" )?fn\s*\(|\bdyn\b", text):
        yield path, line(text, m.start()), m[0].strip()


def main():
    arguments = [a for a in sys.argv[1:] if a != "--list"]
    listed = "--list" in sys.argv[1:]
    root = arguments[0] if arguments else "."
    sources = [(p, bare(t)) for p, t in files(root, ".rt", "src")]

    def show(what, places):
        places = list(places)
        print(f"{len(places):5d}  {what}")
        if listed:
            for path, at, text in places:
                print(f"         {path}:{at}: {text}")

    def each(f):
        return [x for p, t in sources for x in f(p, t)]

    show("1  own enums of the shape of Option or Result", each(own_results))
    show("1  functions that give or test a number as a code", each(number_codes))
    show("1  flags beside values in structs and enums", each(flags))
    groups = twins(sources)
    print(f"{len(groups):5d}  2  groups of functions that differ in names, types and constants alone")
    if listed:
        for g in groups:
            print("         " + ", ".join(f"{p}:{n}: {t}" for p, n, t in g))
    all_loops = each(loops)
    show("3  loops by while or loop that count an index by hand", [x[:3] for x in all_loops if x[3]])
    show("3  other loops by while or loop", [x[:3] for x in all_loops if not x[3]])
    show("4  functions named as equality, order, copying, conversion or printing", each(by_hand))
    facts = repeated_facts(sources)
    print(f"{len(facts):5d}  5  facts that stand in the requires of three functions or more,"
          f" in {sum(len(p) for p in facts.values())} clauses")
    if listed:
        for f, places in sorted(facts.items(), key=lambda x: -len(x[1])):
            print(f"         {len(places):4d}  {f}")
    show("6  functions of a slice with a length or a count beside it", each(lengths_beside))
    show("7  function pointers and dyn", each(tables))
    answers = lines = 0
    for path, text in files(root, ".antt", "proofs"):
        answers += len(re.findall(r"^pub [^\n]* : goal\.", text, re.M)) if path.endswith("Answers.antt") else 0
        lines += text.count("\n")
    print(f"{answers:5d}  8  answers in Answers.antt, of {lines} lines of proofs/")


main()
