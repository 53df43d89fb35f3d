#!/usr/bin/env python3
"""Brings the names of this repository's own definitions and lemmas to the spelling of today's Rattle.

    python3 tools/respell.py [--show]

Run once, at the top, after the kit's own porting script. A definition, a field and a constructor are words in
snake case; a statement or a record, a word in camel case; a lemma keeps a dash only where it joins two names that
are defined. Goals (their names are the tool's), strings, comments and the code of src/ stay as they are: in a source
file only clauses are respelled. --show prints the table of names and changes nothing.
"""
import glob, re, sys

# words of the library that lemma names are made of
LIBRARY = set("length take drop append replicate map reverse set cond look".split())
# local names and second names that the rules below do not see
BY_HAND = {"trailer-of": "trailer_of", "users-of": "users_of"}

ANTT = sorted(glob.glob("crates/*/specs/**/*.antt", recursive=True) + glob.glob("crates/*/proofs/**/*.antt", recursive=True))
NAME = r"[^\s(){}\[\]«»;,.:=\\\"]+"
TOP = re.compile(r"^((?:abbrev |unfoldable |pub |ruleset |record |data )*)(%s)((?: [({].*?[)}])*) ?:(?: |$)(.*)$" % NAME)
INNER = re.compile(r"^ +((?:abbrev |unfoldable |pub )*)(%s)(?: [({].*?[)}])* :(?: |$)(.*)$" % NAME)


def names():
    defs, facts, lemmas = set(), set(), set()
    for path in ANTT:
        in_type = False
        for line in open(path):
            line = line.rstrip("\n")
            if line.startswith(("--", "use ", "mod ", "pub mod", "pub use")):
                continue
            m = TOP.match(line)
            if m:
                head, name, _, kind = m.groups()
                in_type = "record " in head or "data " in head
                if "goal." in kind:
                    continue
                if in_type or kind.endswith("Type 0") or "Type 0 where" in line:
                    facts.add(name)
                elif "abbrev" in head or "unfoldable" in head:
                    defs.add(name)
                else:
                    lemmas.add(name)
                continue
            if line and not line.startswith(" "):
                in_type = False
            m = INNER.match(line)
            if m and "goal." not in m.group(3):
                a_def = in_type or "abbrev" in m.group(1) or "unfoldable" in m.group(1)
                (facts if m.group(3).endswith("Type 0") else defs if a_def else lemmas).add(m.group(2))
    return defs, facts, lemmas


def camel(name):
    return "".join(w[:1].upper() + w[1:] for w in re.split("[-_]", name))


def snake(name):
    return name.replace("-", "_")


def lemma(name, known):
    words = name.split("-")
    out, i, joined = "", 0, False
    while i < len(words):
        for j in range(len(words), i, -1):
            if "_".join(words[i:j]) in known:
                break
        else:
            j = i
        named = j > i
        part = "_".join(words[i:max(j, i + 1)])
        out += ("" if not out else "-" if named and joined else "_") + part
        joined = named
        i = max(j, i + 1)
    return out


def table():
    defs, facts, lemmas = names()
    new = {n: snake(n) for n in defs if "-" in n}
    new.update({n: camel(n) for n in facts if "-" in n})
    known = {snake(n) for n in defs} | LIBRARY
    new.update({n: lemma(n, known) for n in lemmas if "-" in n and n not in new})
    new.update({k: v for k, v in BY_HAND.items()})
    return {k: v for k, v in new.items() if k != v}


TOKEN = re.compile(r"--[^\n]*|\"(?:[^\"\\]|\\.)*\"|%s" % NAME)
CLAUSE = re.compile(r"ghost use [^;]*;|(?:requires|ensures)\*?(?: \w+)? \{[^\n]*|ghost \w+(?:: \{| = \{)[^\n]*")


def respelled(text, new, goals=True):
    def one(m):
        word = m.group(0)
        if word.startswith(("--", '"')):
            return word
        at = m.start()
        if text[max(0, at - 5):at] == "goal." or re.search(r"\bc\.$|\bw\.$|\bl\.$", text[max(0, at - 2):at]):
            return word
        return new.get(word, word)
    return TOKEN.sub(one, text)


def main():
    new = table()
    if "--show" in sys.argv:
        for k in sorted(new):
            print(k, new[k])
        return
    for path in ANTT:
        text = open(path).read()
        done = respelled(text, new)
        if done != text:
            open(path, "w").write(done)
    for path in sorted(glob.glob("crates/*/src/**/*.rt", recursive=True)):
        text = open(path).read()
        done = CLAUSE.sub(lambda m: respelled(m.group(0), new), text)
        if done != text:
            open(path, "w").write(done)
    for path in ["README.md"] + sorted(glob.glob("docs/*.md")):
        text = open(path).read()
        done = re.sub(r"`([^`\n]+)`", lambda m: "`" + new.get(m.group(1), m.group(1)) + "`", text)
        if done != text:
            open(path, "w").write(done)


main()
