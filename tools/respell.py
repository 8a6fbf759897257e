#!/usr/bin/env python3
"""Brings the repository's own names to today's spelling: definitions, lemmas, fields and local names in snake case.

usage: tools/respell.py            at the top: crates/, once, after port.py
       tools/respell.py --list     prints each name and what it becomes, and writes nothing
       tools/respell.py --text     turns standard input as a page of docs/ is turned

A name is turned where it has a capital inside (storeOk) or a dash (read-back). What Rattle or its library names keeps its spelling. A name that would
meet another one gets the ending _lem if it is a lemma. In comments a name with a dash is turned in backquotes and in the lists at the head of a file,
since elsewhere it is a word.
"""

import os
import re
import subprocess
import sys

NAME = re.compile(r"[^\s(){}\[\]:;,.λ→←↔∷⌜⌝\"`?@=×⊎|↦⊥]+")
DEFINES = re.compile(r"^\s*(?:unfoldable |abbrev )?(?:pub )?(?:record |data |ruleset )?([^\s(){}:;,.=]+)\s*(?:[({].*)?\s*[:=]\s")
BINDS = re.compile(r"(?:let|λ)\s+([^\s(){}:;,.=]+)")
GROUP = re.compile(r"[({]((?:[^\s(){}:;,.=]+ )+):")
# made by Rattle for a function's proof, or asked for by it
MADE = re.compile(r"^(Need-|invariant-|decreases-|In-|At-|After-|returns-\d)|-(requires|preserved|smaller|init)(-\d+)?$")
# lemmas that would meet a definition
LEMMA = {
    n: n.replace("-", "_") + "_lem"
    for n in (
        "all-unused chosen_at covers_at data-size emptied-at emptied-block emptied-count entries-of entry-count entry-line headers-apart input-text "
        "is-update line_after line-plan low_zeros old-sizes outcome-at put-line read-kind same_line shares_at update_line"
    ).split()
}
# a dash that joins two names stays
LEMMA["bit-or"] = "bit-or"


def files(root, ending):
    for folder, dirs, names in os.walk(os.path.join(root, "crates")):
        dirs[:] = sorted(d for d in dirs if d != "out")
        for n in sorted(names):
            if n.endswith(ending):
                yield os.path.join(folder, n)


def turned(name):
    if re.fullmatch(r"[A-Z][A-Z0-9]*(-[A-Z0-9]+)*", name) and ("-" in name or name == "SUCCESS"):
        return name.lower().replace("-", "_")
    name = name.replace("-", "_")
    if re.match(r"[a-z]", name):
        name = re.sub(r"(?<=[a-z0-9])([A-Z]+)", lambda m: "_" + m.group(1).lower(), name)
    return name


def wanted(name):
    if name == "SUCCESS":
        return True
    return bool(re.match(r"[A-Za-z]", name)) and ("-" in name or re.match(r"[a-z][a-z0-9_]*[A-Z]", name) is not None)


def own_names(root):
    """Each own name that is turned, with the files that define it; and the library's names."""
    own, library = {}, set()
    for path in files(root, ".antt"):
        with open(path, encoding="utf-8") as f:
            for line in f:
                if line.lstrip().startswith("--"):
                    continue
                m = re.match(r"^(?:pub )?use ([^\s{]+)\.\{(.*)\}", line)
                if m:
                    if not re.match(r"Rattle\.(?!std\b|core\b|io\b|libc\b|os\b)", m.group(1)):
                        library |= {x.strip().split(" as ")[0] for x in m.group(2).split(",")}
                    continue
                if re.match(r"^(?:pub )?use ", line):
                    continue
                found = [m.group(1) for m in [DEFINES.match(line)] if m]
                found += BINDS.findall(line)
                for g in GROUP.findall(line):
                    found += g.split()
                for n in found:
                    own.setdefault(n, set()).add(path)
    return own, library


def table(root):
    own, library = own_names(root)
    to = {}
    for n in sorted(own):
        if (wanted(n) or n in LEMMA) and n not in library and not MADE.search(n):
            to[n] = LEMMA.get(n, turned(n))
    return to, own, library


def in_code(text, to):
    def one(m):
        n = m.group(0)
        if n not in to:
            return n
        # behind a dot stands a field or a step, which meets no lemma
        return turned(n) if m.start() and text[m.start() - 1] == "." and wanted(n) else n if m.start() and text[m.start() - 1] == "." else to[n]

    return NAME.sub(one, text)


def in_comment(text, to):
    """A comment's text: what stands in backquotes is code; elsewhere only a name with a capital inside is surely no word."""
    parts = re.split(r"(`[^`]*`)", text)
    for i, p in enumerate(parts):
        if i % 2:
            parts[i] = in_code(p, to)
        else:
            parts[i] = NAME.sub(lambda m: to.get(m.group(0), m.group(0)) if re.match(r"[a-z][a-z0-9]*[A-Z]", m.group(0)) and "-" not in m.group(0) else m.group(0), p)
    return "".join(parts)


ROW = re.compile(r"^(\s*(?:--|//) {2,})(\S.*?)( {2,})(\S.*)$")


def comment_block(lines, to):
    """Comment lines that follow one another: a list of names keeps its columns, and a text that goes on below its first line stays below it."""
    out, rows, under = [], [], []
    for l in lines:
        m = ROW.match(l)
        mark = re.match(r"^\s*(?:--|//)", l).group(0)
        rest = l[len(mark):]
        column = len(l) - len(rest.lstrip())
        if m:
            rows.append(len(out))
            out.append([m.group(1), in_code(m.group(2), to), in_comment(m.group(4), to), len(m.group(1) + m.group(2) + m.group(3))])
        elif rows and isinstance(out[rows[-1]], list) and abs(column - out[rows[-1]][3]) <= 1 and rest.strip():
            under.append((len(out), rows[-1]))
            out.append([mark, in_comment(rest.strip(), to)])
        else:
            out.append(mark + in_comment(rest, to))
    groups = []
    for i in rows:
        near = [g for g in groups if any(abs(out[i][3] - out[j][3]) <= 2 for j in g)]
        if near:
            near[0].append(i)
        else:
            groups.append([i])
    at = {}
    for g in groups:
        widest = max(len(out[i][0]) + len(out[i][1]) for i in g)
        column = max(max(out[i][3] for i in g), widest + 2)
        for i in g:
            at[i] = column
    for i, row in under:
        out[i] = out[i][0] + " " * (at[row] - len(out[i][0])) + out[i][1]
    for i in rows:
        a, b, text, _ = out[i]
        out[i] = a + b + " " * (at[i] - len(a) - len(b)) + text
    return out


def turn_antt(text, to):
    out, block = [], []
    for line in text.split("\n"):
        if re.match(r"^\s*--( |$)", line):
            block.append(line)
            continue
        out += comment_block(block, to)
        block = []
        m = re.match(r"^(.*?\s)(-- .*)$", line)
        out.append(in_code(m.group(1), to) + "--" + in_comment(m.group(2)[2:], to) if m else in_code(line, to))
    return "\n".join(out + comment_block(block, to))


def turn_rt(text, to):
    out, block = [], []
    for line in text.split("\n"):
        if re.match(r"^\s*//( |$)", line):
            block.append(line)
            continue
        out += comment_block(block, to)
        block = []
        # what stands in quotes stays
        parts = re.split(r'(b?"(?:[^"\\]|\\.)*")', line)
        for i in range(0, len(parts), 2):
            m = re.match(r"^(.*?\s)?(//.*)$", parts[i])
            parts[i] = in_code(m.group(1) or "", to) + "//" + in_comment(m.group(2)[2:], to) if m else in_code(parts[i], to)
        out.append("".join(parts))
    return "\n".join(out + comment_block(block, to))


def main():
    root = os.getcwd()
    to, own, library = table(root)
    if "--list" in sys.argv:
        for n in sorted(to):
            print(n, to[n])
        return
    if "--text" in sys.argv:
        sys.stdout.write("\n".join(in_comment(l, to) for l in sys.stdin.read().split("\n")))
        return
    code = {n: to[n] for n in to if wanted(n) and n != "SUCCESS"}
    for ending, turn in ((".antt", lambda t: turn_antt(t, to)), (".rt", lambda t: turn_rt(t, code))):
        for path in files(root, ending):
            with open(path, encoding="utf-8") as f:
                old = f.read()
            new = turn(old)
            if new != old:
                with open(path, "w", encoding="utf-8") as f:
                    f.write(new)
    for crate in sorted(os.listdir(os.path.join(root, "crates"))):
        subprocess.run(["rt", "fmt"], cwd=os.path.join(root, "crates", crate), stdout=subprocess.DEVNULL, check=True)


main()
