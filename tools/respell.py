#!/usr/bin/env python3
"""Respells the definitions and lemmas of this repository as the toolchain spells its own.

Run it once, at the top, after port.py: python3 tools/respell.py
Functions, constructors and fields come into snake case, types and modules into upper camel case.
In a lemma's name a dash stays where it joins two names, and is an underscore elsewhere.
Names of src/ (functions, types, variables), strings, inputs and outputs keep their spelling.
With --list it prints the renamings, and changes nothing.
"""
import collections
import glob
import re
import sys

CHARS = r"[A-Za-z0-9_'+\-*≡≤<ℕ]"
TOKEN = re.compile(r"(?<!" + CHARS + r")[A-Za-z]" + CHARS + "*")
DECLARED = re.compile(r"^\s*((?:abbrev |unfoldable |pub |private )*)([^\s(){}\[\];,.@:=→λ×|↦]+)((?:\s+\{[^}]*\})*)\s:\s(.*)$")
HEAD = re.compile(r"^\s*(?:abbrev |unfoldable |pub )*(record|data)\s+([^\s(){}]+)")

# words of the library that a lemma's name may join by a dash
LIBRARY = set("""length take drop map set get_or append replicate reverse sum min max not or and add sub mul div mod le lt
eq zero suc bit cond ap cc pow shl shr xor nth filter fold mem some none ok err nil cons push decimal codes joined""".split())

# where the plain spelling falls together with another name
OTHERWISE = {
    "first_by": "first_by_lem",
    "is_digit": "is_digit_lem",
    "cuts-of": "cuts_of_lem",
    "cone-of": "cone_of_lem",
    "net-text": "net_text_lem",
    "pair-look": "pair_look_lem",
    "outputRows": "rows_for_outputs",
    "bit-and": "bit-and",
}

# lemmas' names that are also names of functions in src/: only the lemma's own file is touched
ONLY_IN = {
    "is_digit": "/proofs/Digits.antt",
    "first_by": "/model/proofs/",
}


def snake(name):
    name = re.sub(r"(?<=[a-z0-9])([A-Z])(?=[a-z])", lambda m: "_" + m.group(1).lower(), name)
    return name


def camel(name):
    return "".join(p[:1].upper() + p[1:] for p in name.split("-"))


def antt_files():
    return sorted(glob.glob("crates/*/specs/**/*.antt", recursive=True) + glob.glob("crates/*/proofs/**/*.antt", recursive=True))


def source_files():
    return sorted(glob.glob("crates/*/src/**/*.rt", recursive=True)) + sorted(glob.glob("crates/*/must-fail/*.edit"))


def declarations():
    """For each name that is declared here: the places, and whether it is a type."""
    places, types, fields = collections.defaultdict(set), set(), set()
    asked = set()
    for path in antt_files():
        inside = None
        for line in open(path, encoding="utf-8"):
            asked.update(re.findall(r"goal\.([^\s(){}]+)", line))
            m = HEAD.match(line)
            if m:
                places[m.group(2)].add(path)
                types.add(m.group(2))
                inside = m.group(1)
                continue
            m = DECLARED.match(line)
            if not m:
                if line.strip() and not line.startswith(" ") and not line.startswith("--"):
                    inside = None
                continue
            if not line.startswith(" "):
                inside = None
            _, name, _, type_ = m.groups()
            places[name].add(path)
            if inside == "record":
                fields.add(name)
            if re.search(r"(^|→ )Type [0-9ℓ]+\s*$", type_):
                types.add(name)
    for name in asked:
        places.pop(name, None)
    for path in antt_files() + source_files():
        for alias in re.findall(r" as ([a-z]\w*[A-Z]\w*)", open(path, encoding="utf-8").read()):
            places[alias].add(path)
    return places, types, fields


def renamings():
    places, types, fields = declarations()
    ours = {snake(n) for n in places} | LIBRARY
    new = {}
    for name, where in places.items():
        if not re.match(r"[A-Za-z]", name):
            continue
        if name in OTHERWISE:
            new[name] = OTHERWISE[name]
        elif name[0].isupper():
            if "-" in name:
                new[name] = camel(name)
        else:
            spelled = snake(name)
            if "-" in spelled:
                parts = spelled.split("-")
                in_specs = any("/specs/" in w for w in where)
                out = parts[0]
                for a, b in zip(parts, parts[1:]):
                    joins = not in_specs and a in ours and b in ours
                    out += ("-" if joins else "_") + b
                spelled = out
            if spelled != name:
                new[name] = spelled
    return new, places, types, fields


def fallen_together(new, places):
    """Names that the new spelling would make one."""
    after = collections.defaultdict(set)
    for name in places:
        after[new.get(name, name)].add(name)
    return {k: v for k, v in after.items() if len(v) > 1}


def in_comment(text, at, mark):
    return text[text.rfind("\n", 0, at) + 1 : at].lstrip().startswith(mark)


def respell(text, new, fields, mark):
    def one(m):
        name = m.group(0)
        if name not in new:
            return name
        before = text[max(0, m.start() - 200) : m.start()]
        # prose has words with dashes
        if mark and "-" in name and name[0].islower() and in_comment(text, m.start(), mark):
            return name
        if before.endswith("."):
            owner = re.search(r"([^\s(){}\[\];,]*)\.$", before).group(1).split(".")[-1]
            # after `goal.` and after steps of `c.` stand names that the toolchain makes
            if owner == "goal":
                return name
            if not re.match(r"[A-Z]", owner) and "-" in name and name not in fields and owner not in ALIASES:
                return name
        return new[name]

    return TOKEN.sub(one, text)


ALIASES = set()


def main():
    new, places, types, fields = renamings()
    if "--list" in sys.argv:
        for k, v in sorted(new.items()):
            print(k, v, "TYPE" if k in types else "")
        for k, v in sorted(fallen_together(new, places).items()):
            print("together:", k, sorted(v))
        return
    for path in antt_files():
        for line in open(path, encoding="utf-8"):
            m = re.match(r"\s*use \S+ as (\w+)\s*$", line)
            if m and m.group(1) != "goal":
                ALIASES.add(m.group(1))
    for path in antt_files() + source_files() + sorted(glob.glob("docs/*.md")) + ["README.md"]:
        if path.endswith("-OTHER.md") or path.endswith("PORT.md"):
            continue
        text = open(path, encoding="utf-8").read()
        here = {k: v for k, v in new.items() if ONLY_IN.get(k, "") in path}
        if path.endswith(".edit"):
            here = {k: v for k, v in here.items() if "-" not in k or k[0].isupper()}
        if path.endswith(".md"):
            done = re.sub(r"`[^`\n]+`", lambda m: respell(m.group(0), here, fields, ""), text)
        else:
            # in a source file only clauses have these names: Rust's own have no dash and no inner capital
            done = respell(text, here, fields, "//" if path.endswith((".rt", ".edit")) else "--")
        if done != text:
            open(path, "w", encoding="utf-8").write(done)


main()
