#!/usr/bin/env python3
"""Respells the repository's own names as today's Rattle does: definitions, labels and constructors in snake case, types in camel case.

A lemma keeps the dashes that join its parts; each part is in snake case. Run once, after the kit's port.py, at the top of the checkout:

    python3 tools/respell.py           rewrites crates/*/specs, crates/*/proofs, the clauses of crates/*/src and the edits of crates/*/must-fail;
                                       in the edits, which port.py leaves, also the names that port.py turned (tools/respelled.txt)
    python3 tools/respell.py --map     prints each old name and its new one
"""
import collections
import glob
import re
import sys

TOKEN = re.compile(r'"(?:[^"\\\n]|\\.)*"|[A-Za-z0-9_\'≡≢≤<>↔∷+\-]+')
PLACE = re.compile(r"\(([\w']+(?: \.[\w«»]+)+)\)")
DECL = re.compile(r"^( *)((?:abbrev |unfoldable |pub )*)([A-Za-z][A-Za-z0-9_'≡≢≤<>↔+\-]*) :(?: |$)")
HEAD = re.compile(r"^( *)(?:pub )?(data|record) ([A-Za-z][A-Za-z0-9_'\-]*)")
# two lemmas and definitions that would fall together: name -> its own new name
OWN = {
    "atEnd": "step_at_end",
    "atFault": "step_at_fault",
    "auth_of": "auth_is",
    "fed_by": "fed_is",
    "first_of": "first_found",  # a tactic has the other name
    "field_in": "field_in-lies",
    "fields_in": "fields_in-lie",
    "go_on": "go_on-held",
    "location-right": "location_is_right",
    "to_write": "to_write-gives",
}
# names of parameters, of Rattle's goals, or of the library, which stay
KEPT = set()


def snake(name):
    return re.sub(r"(?<=[a-z0-9])([A-Z])", lambda m: "_" + m.group(1).lower(), name)


def new_name(name, kind):
    if name in OWN:
        return OWN[name]
    if name in KEPT:
        return name
    if name[0].isupper():
        return re.sub(r"-([A-Za-z])", lambda m: m.group(1).upper(), name) if kind == "type" else name
    if kind == "lemma":
        return "-".join(part if part[:1].isupper() else snake(part) for part in name.split("-"))
    return snake(name).replace("-", "_")


def declared(files):
    """Each declared name with its kind: type, word (a definition, a label, a constructor) or lemma."""
    kinds = {}
    for path in files:
        body = None  # the indent of the data or record whose lines these are
        for line in open(path, encoding="utf-8"):
            h = HEAD.match(line)
            if h:
                body = len(h.group(1))
                kinds[h.group(3)] = "type"
                continue
            d = DECL.match(line)
            if line.strip() and body is not None and len(line) - len(line.lstrip()) <= body:
                body = None
            if not d:
                continue
            inside = body is not None and len(d.group(1)) == body + 2
            if len(d.group(1)) > 2 and not inside:
                continue
            word = inside or "abbrev" in d.group(2) or "unfoldable" in d.group(2) or "/specs/" in path
            kind = "word" if word else "lemma"
            if kinds.get(d.group(3)) != "word" or kind == "word":
                kinds[d.group(3)] = kind
    return kinds


def main():
    antt = sorted(glob.glob("crates/*/specs/**/*.antt", recursive=True) + glob.glob("crates/*/proofs/**/*.antt", recursive=True))
    own = [p for p in antt if not p.endswith("/Proof.antt")]
    kinds = declared(own)
    turned = {n: new_name(n, k) for n, k in kinds.items() if new_name(n, k) != n}
    files = antt + sorted(glob.glob("crates/*/src/*.rt")) + sorted(glob.glob("crates/*/must-fail/*.edit"))
    ported = dict(line.split() for line in open("tools/respelled.txt", encoding="utf-8"))
    goals = set()
    for p in antt:
        if p.endswith("/Proof.antt"):
            goals |= set(re.findall(r"tie\.Need-([A-Za-z0-9_\-]+)", open(p, encoding="utf-8").read()))
    for g in goals & set(turned):
        if kinds[g] != "type" and "-" in g:
            print(f"kept, since a goal has the name: {g}", file=sys.stderr)
            del turned[g]
    fell = collections.defaultdict(set)
    for n in set(kinds) | set(turned):
        fell[turned.get(n, n)].add(n)
    for t, ns in sorted(fell.items()):
        if 1 < len(ns):
            print(f"fall together: {sorted(ns)} -> {t}", file=sys.stderr)
    if "--map" in sys.argv:
        for n in sorted(turned):
            print(n, turned[n], kinds[n])
        return
    for path in files:
        with open(path, encoding="utf-8") as f:
            text = f.read()
        tokens = set(TOKEN.findall(text))
        for n in tokens & set(turned):
            if turned[n] in tokens and turned[n] not in OWN:
                print(f"look: {path}: {n} becomes {turned[n]}, which stands there too", file=sys.stderr)
        if path.endswith(".edit"):
            text = PLACE.sub(lambda m: m.group(1).replace(" .", "."), TOKEN.sub(lambda m: ported.get(m.group(0), m.group(0)), text))
        new = TOKEN.sub(lambda m: turned.get(m.group(0), m.group(0)), text)
        if new != text or path.endswith(".edit"):
            with open(path, "w", encoding="utf-8") as f:
                f.write(new)


main()
