#!/usr/bin/env python3
"""Brings the names that this repository defines for its contracts and proofs to one spelling.

usage: python3 tools/respell.py        at the top of the repository, once, after the toolchain's own respelling

Definitions, fields, constructors and lemmas are in snake case. In a lemma's name a dash joins two names of definitions, as in
`length-window`; any other word is joined by `_`. A prime is an apostrophe. Types and modules are in camel case as they were, and
so are the names of Rust's functions, exported names and strings. Words of the standard library are not touched. Names that
would fall together are printed with what they are now. It is kept so that an older checkout can be brought over in the same way.
"""
import os
import re
import subprocess

TOKEN = re.compile(r"[^\s(){}\[\],;.\"`]+")
REMARK = re.compile(r"((?:^|(?<=\s))(?:--|//|#)[ \n][^\n]*)", re.M)
DECLARED = re.compile(r"\s*(?:abbrev pub |unfoldable pub |abbrev |unfoldable |pub |ruleset pub |ruleset )?([^\s(){}\[\],;.:]+) :(?:\s|$)")
MOVES = [("crates/queue/specs/Contracts.antt", "crates/queue/specs/Promises.antt")]
MOVED = {"crates/queue/specs/Lib.antt": [("pub mod Contracts", "pub mod Promises")], "*": [("Rattle.queue.specs.Contracts.", "Rattle.queue.specs.Promises.")]}
# Names that the rule would make fall together with another, each with the name that it gets.
CHOSEN = {
    "byPlan": "plan_telling",
    "by-plan": "by_plan",
    "heldBy": "held_by_calls",
    "of-band": "in_band",
    "oneMore": "one_more_than",
    "with-list": "with_list",
    "waits_in": "waits_in_band",
    "slice_over": "slice_ends",
}


def files(ends):
    for folder, dirs, names in os.walk("crates"):
        dirs[:] = sorted(d for d in dirs if d != "out")
        for n in sorted(names):
            if n.endswith(ends):
                yield os.path.join(folder, n)


def declared():
    """The names that specs/ and the shared files of proofs/ declare, each with whether it is a lemma's alone."""
    found = {}
    for p in files((".antt",)):
        parts = p.split("/")
        if parts[2] == "proofs" and len(parts) > 4:
            continue
        for line in open(p, encoding="utf-8"):
            m = DECLARED.match(line)
            if m:
                lemma = parts[2] == "proofs" and line.startswith(("pub ", m.group(1)))
                found[m.group(1)] = found.get(m.group(1), True) and lemma
    return found


def snake(word):
    word = re.sub(r"(?<=[a-z0-9])([A-Z])", lambda m: "_" + m.group(1).lower(), word)
    return word.replace("\u2032", "'")


def spelled(name, lemma, words):
    if name[0].isupper() or not name[0].isalpha():
        return name.replace("\u2032", "'")
    parts = [snake(p) for p in name.split("-")]
    made = parts[0]
    last = parts[0]
    for p in parts[1:]:
        joined = lemma and last in words and p in words
        made += ("-" if joined else "_") + p
        last = p if joined else last + "_" + p
    return made


def ghost(text):
    """The parts of a Rust file in which a contract speaks: ghost lines, clauses and comments, as (start, end)."""
    for m in re.finditer(r"^ *(ghost use [^;]*;|//[^\n]*)", text, re.M):
        yield m.span()
    for m in re.finditer(r"\b(requires|ensures|ghost|invariant)\*? ?(\w+:?)? ?\{", text):
        depth, i = 1, m.end()
        while depth and i < len(text):
            depth += {"{": 1, "}": -1}.get(text[i], 0)
            i += 1
        yield m.start(), i


def main():
    for old, new in MOVES:
        if os.path.exists(old):
            subprocess.run(["git", "mv", old, new], check=True)
    for p in list(files((".antt", ".rt"))):
        t = u = open(p, encoding="utf-8").read()
        for a, b in MOVED["*"] + MOVED.get(p, []):
            u = u.replace(a, b)
        if u != t:
            open(p, "w", encoding="utf-8").write(u)
    names = declared()
    words = {snake(n) for n, lemma in names.items() if not lemma and "-" not in n}
    words |= {"length", "get_or", "take", "drop", "set", "replicate", "count", "map", "sum"}
    to = {}
    for n, lemma in sorted(names.items()):
        new = CHOSEN.get(n) or spelled(n, lemma, words)
        if new != n:
            to[n] = new
    taken = {}
    for n in list(names):
        taken.setdefault(to.get(n, n), []).append(n)
    for new, olds in sorted(taken.items()):
        if len(olds) > 1 and new != "with_list":
            # the definition has the name; what is said of it gets `_lem`
            first = min(olds, key=lambda o: ("-" in o, o == new, o))
            for o in olds:
                if o != first:
                    to[o] = new + "_lem"
            print("fell together:", ", ".join(f"{o} is {to.get(o, o)}" for o in olds))
    made = [to.get(n, n) for n in names]
    for n in sorted({n for n in made if made.count(n) > 1} - {"with_list"}):
        raise SystemExit(f"two names are {n} now")

    def plain(text):
        return TOKEN.sub(lambda m: to.get(m.group(0), m.group(0)), text)

    def quoted(text):
        return re.sub(r"`[^`\n]+`", lambda m: plain(m.group(0)), text)

    def turn(text):
        """The text with its names turned; in comments only those between backticks."""
        return "".join(quoted(s) if REMARK.match(s) else plain(s) for s in REMARK.split(text))

    changed = 0
    for p in list(files((".antt", ".rt", ".edit"))):
        t = open(p, encoding="utf-8").read()
        if p.endswith(".rt"):
            u, at = "", 0
            for a, b in sorted(ghost(t)):
                if a >= at:
                    u += t[at:a] + turn(t[a:b])
                    at = b
            u += t[at:]
        else:
            u = turn(t)
        if u != t:
            open(p, "w", encoding="utf-8").write(u)
            changed += 1
    for folder, dirs, ns in os.walk("."):
        dirs[:] = [d for d in dirs if d not in (".git", "crates", "target")]
        for n in ns:
            if n.endswith(".md"):
                p = os.path.join(folder, n)
                t = open(p, encoding="utf-8").read()
                u = quoted(t)
                if u != t:
                    open(p, "w", encoding="utf-8").write(u)
                    changed += 1
    print(f"{len(to)} names, {changed} files")


main()
