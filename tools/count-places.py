#!/usr/bin/env python3
"""Lists the places that docs/DESIGN-PASS.md counts, point by point.

Run at the top of the repository: tools/count-places.py [POINT ..]
It reads crates/*/src only; the points that count proofs read crates/*/proofs.
"""
import collections
import glob
import itertools
import re
import sys

FILES = sorted(glob.glob("crates/*/src/**/*.rt", recursive=True))
TEXT = {name: open(name, encoding="utf-8").read() for name in FILES}


def lines(pattern, leave_out=None):
    found = []
    for name, text in TEXT.items():
        for number, line in enumerate(text.splitlines(), 1):
            if re.search(pattern, line) and not (leave_out and re.search(leave_out, line)):
                found.append(f"{name}:{number}: {line.strip()}")
    return found


def show(title, found):
    print(f"{title}: {len(found)}")
    for one in found:
        print(f"  {one}")


def structs():
    for name, text in TEXT.items():
        for m in re.finditer(r"struct (\w+)[^;{]*\{(.*?)\n\s*\}", text, re.S):
            yield name, m.group(1), m.group(2)


def functions():
    for name, text in TEXT.items():
        for m in re.finditer(r"fn (\w+)(?:<[^>]*>)?\(([^)]*)\)", text):
            parameters = [p.split(":")[0].strip() for p in m.group(2).split(",") if ":" in p]
            yield name.split("/")[1], m.group(1), [p for p in parameters if p]


def point1():
    show("1 own enums", lines(r"^\s*(pub(\(crate\))? )?enum \w+"))
    show("1 refusals and kinds as numbers", lines(r"number: u8|Refused\(u8|: u8 = |match \w+\.number "))
    show("1 flags in structs", [f"{n}: {s} {f}" for n, s, b in structs() for f in re.findall(r"(\w+): bool", b)])
    show("1 a match that hands a case on", lines(r"None => (None|\{\}|Err\()|(Err\((\w+)\) => Err\()|Some\(\w+\) => (Some|return Some)\(|Ok\(\w*\) => Ok\("))


def point2():
    seen = collections.defaultdict(set)
    for name, text in TEXT.items():
        rows = [re.sub(r"\s+", " ", r.strip()) for r in text.splitlines()]
        rows = [r for r in rows if len(r) > 3 and not r.startswith(("//", "use ", "ghost use", "pub use"))]
        for i in range(len(rows) - 4):
            seen[tuple(rows[i : i + 5])].add(name)
    pairs = collections.Counter()
    for names in seen.values():
        for pair in itertools.combinations(sorted(names), 2):
            pairs[pair] += 1
    show("2 pairs of files with five or more lines in common (runs)", [f"{a} {b} {n}" for (a, b), n in sorted(pairs.items())])
    names = collections.defaultdict(set)
    for name, text in TEXT.items():
        crate = name.split("/")[1]
        for m in re.finditer(r"^(?:pub(?:\(crate\))? )?(?:enum|struct|fn|const) (\w+)", text, re.M):
            if m.group(1) != "main":
                names[m.group(1)].add(crate)
    show("2 free items of one name in several crates", [f"{n}: {' '.join(sorted(c))}" for n, c in sorted(names.items()) if len(c) > 1])


def point3():
    show("3 loops over an index or a counter", lines(r"^\s*(while |loop \{|for \w+ in [^{]*\.\.|for \(\w+, \w+\) in [^{]*enumerate)"))
    show("3 counters moved by one", lines(r"([+-]= 1;|wrapping_add\(1\)|saturating_add\(1\))"))


def point4():
    show("4 impls of std traits by hand", lines(r"^\s*impl.* (PartialEq|Eq|PartialOrd|Ord|Clone|Copy|Debug|Default|Hash|From<.*>|TryFrom<.*>|(fmt::)?Display|Drop) for"))
    show("4 printing and comparing by functions", lines(r"fn (same|print_\w+|write_(answer|cut|cuts|tally|row|refusal|plain|cone|walk|places)|outcome_word|agrees?|is_cut)\b"))


def point5():
    facts = collections.defaultdict(list)
    for name, text in TEXT.items():
        for m in re.finditer(r"(requires|ensures)\s+\w*\s*\{(.*)\}", text):
            facts[(name.split("/")[1], m.group(1), m.group(2).strip())].append(name)
    show("5 clauses that stand three times or more in a crate", [f"{c}: {k} {f} ({len(v)})" for (c, k, f), v in sorted(facts.items()) if len(v) >= 3])
    together = collections.defaultdict(set)
    for crate, name, parameters in functions():
        for size in (2, 3, 4):
            for group in itertools.combinations(parameters, size):
                together[(crate, group)].add(name)
    wide = {k: v for k, v in together.items() if len(v) >= 3}
    best = [(c, g, v) for (c, g), v in wide.items() if not any(d == c and set(g) < set(h) and w >= v for (d, h), w in wide.items())]
    show("5 parameters together in three functions or more", [f"{c}: {', '.join(g)} in {', '.join(sorted(v))}" for c, g, v in sorted(best)])


def point6():
    found = []
    for name, struct, body in structs():
        buffers = re.findall(r"(\w+): (?:&'?\w* ?mut )?(?:\[[^\]]+\]|Vec<[^>]+>)", body)
        numbers = re.findall(r"(\w+): (?:usize|u8)\b", body)
        if buffers and numbers:
            found.append(f"{name}: {struct} ({', '.join(buffers)} beside {', '.join(numbers)})")
    show("6 a buffer with a number beside it", found)


def point7():
    show("7 switches on a step or kind, closures and dyn", lines(r"\bdyn |impl Fn|: Fn(Mut|Once)?\(|match (by|side|step|kind)\b"))


def point8():
    for kind, pattern in (("answers", "Answers.antt"), ("invariants", "Invariants.antt")):
        counts = []
        for crate in sorted(glob.glob("crates/*/proofs")):
            n = sum(len(re.findall(r"^(?:abbrev |unfoldable )?pub ", open(f, encoding="utf-8").read(), re.M)) for f in glob.glob(f"{crate}/**/{pattern}", recursive=True))
            if n:
                counts.append(f"{crate.split('/')[1]} {n}")
        print(f"8 {kind}: {sum(int(c.split()[1]) for c in counts)} ({', '.join(counts)})")
    counts = []
    for crate in sorted(glob.glob("crates/*/proofs")):
        n = sum(len(open(f, encoding="utf-8").read().splitlines()) for f in glob.glob(f"{crate}/**/*.antt", recursive=True))
        if n:
            counts.append(f"{crate.split('/')[1]} {n}")
    print(f"8 lines of proofs: {sum(int(c.split()[1]) for c in counts)} ({', '.join(counts)})")


def main():
    wanted = sys.argv[1:] or [str(n) for n in range(1, 9)]
    for n in wanted:
        globals()[f"point{n}"]()


main()
