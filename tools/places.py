#!/usr/bin/env python3
"""Finds the places of docs/DESIGN-PASS.md in crates/*/src and counts the proof files.

usage: python3 tools/places.py [-v]     in the repository; -v prints each place
"""
import collections
import difflib
import glob
import re
import sys

VERBOSE = "-v" in sys.argv[1:]
SOURCES = sorted(glob.glob("crates/*/src/**/*.rt", recursive=True))


def text_of(path):
    with open(path, encoding="utf-8") as f:
        return f.read()


def without_comments(text):
    return re.sub(r"//[^\n]*", lambda m: " " * len(m.group()), text)


CODE = {path: without_comments(text_of(path)) for path in SOURCES}


def found(pattern, flags=re.M):
    """Each match of a pattern, as FILE:LINE and its first line."""
    for path, code in CODE.items():
        for m in re.finditer(pattern, code, flags):
            start = m.start() + len(m.group()) - len(m.group().lstrip())
            line = code.count("\n", 0, start) + 1
            yield f"{path}:{line}", code[start : start + 90].split("\n")[0]


def items(keyword):
    """Each struct or enum: where, name, and what stands between its braces."""
    for path, code in CODE.items():
        for m in re.finditer(rf"^(?:pub )?{keyword} (\w+)[^{{;]*\{{(.*?)^\}}", code, re.M | re.S):
            yield f"{path}:{code.count(chr(10), 0, m.start()) + 1}", m.group(1), m.group(2)


def functions():
    """Each function: where, name, parameters, clauses, body."""
    for path, code in CODE.items():
        for m in re.finditer(r"^( *)(?:pub )?(?:extern \"C\" )?fn (\w+)", code, re.M):
            body = re.compile(rf"^{m.group(1)}\{{|\{{$", re.M).search(code, m.end())
            end = re.compile(rf"^{m.group(1)}\}}$", re.M).search(code, m.end())
            if not body or not end or body.start() > end.start():
                continue
            head = code[m.end() : body.start()]
            where = f"{path}:{code.count(chr(10), 0, m.start()) + 1}"
            yield where, m.group(2), head, code[body.start() : end.end()]


def report(point, name, places):
    places = list(places)
    print(f"{point}  {name}: {len(places)}")
    if VERBOSE:
        for place in places:
            print("      " + "  ".join(place))
    return len(places)


def twins():
    """Functions of 25 tokens or more whose bodies are the same, but for names and numbers, in nine tokens of ten."""
    shapes = []
    for where, name, _, body in functions():
        tokens = re.findall(r"\w+|[^\w\s]", body)
        if len(tokens) < 25:
            continue
        seen = {}
        shape = []
        for t in tokens:
            if re.fullmatch(r"[A-Za-z_]\w*", t) and t not in ("if", "else", "for", "in", "while", "match", "let", "mut", "return"):
                t = "n%d" % seen.setdefault(t, len(seen))
            elif re.match(r"\d", t):
                t = "0"
            shape.append(t)
        shapes.append((where, name, shape))
    for i, (where, name, a) in enumerate(shapes):
        for other, other_name, b in shapes[i + 1 :]:
            if 10 * min(len(a), len(b)) < 9 * max(len(a), len(b)):
                continue
            match = difflib.SequenceMatcher(None, a, b, autojunk=False)
            if match.quick_ratio() >= 0.9 and match.ratio() >= 0.9:
                yield f"{where} {name}", f"{other} {other_name}"


def clause_facts():
    """Facts that stand, word for word, in the clauses of three or more functions."""
    seen = collections.defaultdict(set)
    for where, name, head, _ in functions():
        for clause in re.findall(r"requires(?: \w+)? \{(.*?)\}\s*(?=requires|ensures|$)", head, re.S):
            for fact in re.split(r"×", clause):
                seen[" ".join(fact.split()).strip("() ")].add((where, name))
    for fact, where in sorted(seen.items()):
        if len(where) > 2:
            yield fact, f"{len(where)} functions"


def parameter_groups():
    """Parameters (three or more, side by side) that stand in the heads of three or more functions."""
    seen = collections.defaultdict(set)
    for where, name, head, _ in functions():
        m = re.search(r"\((.*?)\)\s*(->|requires|ensures|$)", head, re.S)
        if not m:
            continue
        parameters = [" ".join(p.split()) for p in re.split(r",(?![^\[<]*[\]>])", m.group(1)) if p.strip()]
        for size in range(3, len(parameters) + 1):
            for i in range(len(parameters) - size + 1):
                seen[tuple(parameters[i : i + size])].add(where)
    groups = [(g, w) for g, w in seen.items() if len(w) > 2]
    for g, w in groups:
        if not any(len(h) > len(g) and w == x and " ".join(g) in " ".join(h) for h, x in groups):
            yield "; ".join(g), f"{len(w)} functions"


report("1", "enums", ((w, n) for w, n, _ in items("enum")))
report("1", "flags beside values (a bool field named ok, good, found, same, written or carry)",
       found(r"^ +(?:pub )?(?:ok|good|found|same|written|carry): bool,"))
report("1", "codes of a refusal as numbers (a field, a value or an argument)",
       found(r"\bah: (?:u8|code::)|\brefuse\(\s*code::|\(code::\w+, code::\w+\)"))
report("1", "numbers for kinds (a public constant of a kind, task or sub-function; a number that is no byte)",
       found(r"^(?:pub )?const (?:UNUSED|FIRST|LATER|ENABLE|QUERY|PRESENCE|WRITE|CONTROL|READ|END): "))
report("2", "pairs of functions of one shape", twins())
report("3", "while loops", found(r"^ *(?:'\w+: )?while "))
report("3", "loops of a for or of a method", found(r"^ *(?:'\w+: )?for \w|\.(?:all|any|map|filter|fold|zip|chunks_exact)\("))
report("4", "a bool by hand", found(r"\{\s*(?:true|false)\s*\}\s*else|else\s*\{\s*(?:true|false)\s*\}|\{ 1 \} else \{ 0 \}"))
report("4", "a conversion or a wrapping sum by hand", found(r"\bwide\(|std::num::wrapping_"))
report("5", "a fact in the clauses of three or more functions", clause_facts())
report("5", "parameters that travel together through three or more functions", parameter_groups())
report("6", "a buffer with a length beside, or parallel arrays",
       ((w, n) for w, n, body in items("struct")
        if len(re.findall(r": \[[^;]*; \w+\],", body)) > 1 or (re.search(r": \[[^;]*; \w+\],", body) and re.search(r"\b(?:len|count): ", body))))
report("7", "a match or a test on a number from outside, or a function's address", found(r"\bmatch (?:\w+\.)?(?:op|buffer|task|sub|number) \{|\bif op == |: fn\("))
for name in ("Proof", "Answers", "Invariants"):
    report("8", f"files {name}.antt", ((p,) for p in sorted(glob.glob(f"crates/*/proofs/**/{name}.antt", recursive=True))))
print("8  lines in the proof files of functions:", sum(text_of(p).count("\n") for n in ("Proof", "Answers", "Invariants") for p in glob.glob(f"crates/*/proofs/**/{n}.antt", recursive=True)))
