#!/usr/bin/env python3
# design_places.py [COMMIT]: lists the places of docs/DESIGN-PASS.md's eight points in the crates' src/, as the tree stands or as it stood at
# COMMIT, a line each: point, file:line, function or type, what is found. The last lines count them. Points 2 and 5 and part of 1, 4, 6 are found by
# what repeats; a place that only reading finds stands in the page's own list.
import collections
import os
import re
import subprocess
import sys

ROOT = os.path.dirname(os.path.dirname(os.path.abspath(__file__)))
COMMIT = sys.argv[1] if len(sys.argv) > 1 else None


def git(*args):
    return subprocess.run(["git", "-C", ROOT, *args], check=True, capture_output=True, text=True).stdout


def files():
    names = git("ls-tree", "-r", "--name-only", COMMIT).split("\n") if COMMIT else git("ls-files", "--cached", "--others", "--exclude-standard").split("\n")
    return sorted(set(n for n in names if re.match(r"crates/[^/]+/src/.*\.rt$", n) and (COMMIT or os.path.exists(os.path.join(ROOT, n)))))


def text(name):
    if COMMIT:
        return git("show", f"{COMMIT}:{name}")
    with open(os.path.join(ROOT, name)) as f:
        return f.read()


def items(source):
    """The functions and types of a file: kind, name, first line, head (to the body), clauses, body."""
    lines = source.split("\n")
    i = 0
    while i < len(lines):
        m = re.match(r"(\s*)(?:pub(?:\(crate\))? )?(?:extern \"C\" )?(fn|enum|struct) (\w+)", lines[i])
        if not m:
            i += 1
            continue
        indent = len(m.group(1))
        j = i
        while j < len(lines) and not (lines[j].startswith(" " * indent + "}") and len(lines[j].rstrip()) <= indent + 2) and not (j == i and (lines[j].rstrip().endswith("}") or lines[j].rstrip().endswith(";"))):
            j += 1
        whole = lines[i : j + 1]
        cut = next((k for k, l in enumerate(whole) if l.rstrip() == " " * indent + "{" or (l.rstrip().endswith("{") and not re.match(r"\s*(ensures|requires)", l))), 0)
        yield m.group(2), m.group(3), i + 1, "\n".join(whole[: cut + 1]), whole[cut + 1 :], i + cut + 2
        i += 1 if m.group(2) == "fn" else max(1, j - i)


def code(line):
    return re.sub(r"//.*", "", line)


found = []


def place(point, name, line, what, said):
    found.append((point, f"{name}:{line}", what, said))


parameters = collections.defaultdict(list)
facts = collections.defaultdict(list)
bodies = collections.defaultdict(list)

for name in files():
    source = text(name)
    crate = name.split("/")[1]
    for kind, item, at, head, body, first in items(source):
        inside = "\n".join(code(l) for l in body)
        if kind == "enum":
            variants = [v for v in re.findall(r"^\s+(\w+)(?:\(.*\))?,$", inside, re.M)]
            if 2 <= len(variants) <= 3 and re.search(r"\b(No\w+|None|Done|Refused|More|Bad\w+)\b", " ".join(variants)):
                place(1, name, at, item, "an enum of the shape of Option or Result: " + ", ".join(variants))
        if kind == "struct":
            if re.search(r"^\s+(?:pub )?ok: bool,", inside, re.M):
                place(1, name, at, item, "a flag with the values that it speaks of beside it")
            buffers = re.findall(r"^\s+(?:pub )?(\w+): (?:\[[^\]]*\]|&[^,]*\[[^,]*),", inside, re.M)
            counts = re.findall(r"^\s+(?:pub )?(\w+): usize,", inside, re.M)
            if buffers and counts:
                place(6, name, at, item, "a buffer (" + ", ".join(buffers) + ") with a length beside it (" + ", ".join(counts) + ")")
        if kind != "fn":
            continue
        # 1: numbers for kinds, and numbers that mean that there is none
        if re.search(r"\b(kind|call|line|status|byte|budget) (==|<|!=|<=) \d+", inside) or re.search(r"if \d+ <= status", inside) or re.search(r"Move::Stick\(\d+\)", inside):
            place(1, name, at, item, "a number for a kind, tested or made")
        if re.search(r"-> usize", head) and re.search(r"return i;[\s\S]*\n\s+i\n", inside + "\n"):
            place(1, name, at, item, "a place, or else how many there are, for none")
        if re.search(r"(== 65536|return 65536;|top: 256|< 256 \{\n\s+return related|^\s+256$)", inside, re.M):
            place(1, name, at, item, "a number that stands for none")
        # 3: loops
        for k, l in enumerate(body):
            c = code(l)
            if re.search(r"\bwhile\b(?! let)", c) or re.search(r"(^|[\s=])loop \{", c):
                place(3, name, first + k, item, c.strip())
        # 4: by hand what a derive or a trait of std does
        if re.search(r"(\w+): (\w+)\.\1,", inside) and len(re.findall(r"(\w+): (\w+)\.\1,", inside)) >= 3:
            place(4, name, at, item, "a struct copied field by field")
        if re.search(r"^\s+(\w+): \1,$", inside, re.M):
            place(4, name, at, item, "a field set to the variable of its name")
        if re.search(r"(\w+)\[[\w ]+(?: \+ \w+)?\] = (\w+)\[[\w ]+\];", inside) and re.search(r"while", inside):
            place(4, name, at, item, "words copied one by one")
        if re.search(r"\[[\w +]+\] = 0;\n\s+\w+ \+= (1|4);", inside):
            place(4, name, at, item, "words set to 0 one by one")
        if re.search(r"!= \w+2", inside):
            place(4, name, at, item, "an order by hand")
        if re.search(r"word\(words, first \+ j\) != word\(words, start \+ j\)", inside):
            place(4, name, at, item, "two runs compared word by word")
        if re.search(r"^\s+[a-z_]+ as (u64|usize)$", inside, re.M) and len(body) <= 3:
            place(4, name, at, item, "a conversion with a function of its own")
        if re.search(r"^\s+(\w+\[i\] as usize|words\[i\]|run\[i\])$", inside, re.M) and len(body) <= 3:
            place(4, name, at, item, "an index with a function of its own")
        if re.search(r"fn (line_number|told_\w+|refused|line_word)\b", head):
            place(4, name, at, item, "a conversion with a function of its own")
        # 7
        if re.search(r"from_end: bool", head) and re.search(r"if from_end", inside):
            place(7, name, at, item, "a flag that picks the side")
        if len(re.findall(r"\b(kind|call|line) (==|<) \d+", inside)) >= 2:
            place(7, name, at, item, "a switch on a number")
        # for 2 and 5
        norm = re.sub(r"\b(u8|u16|u32|u64|usize)\b", "T", inside)
        norm = re.sub(r"\b(byte|word|words|bytes|matrix|area|run|numbers|area)s?\b", "x", norm)
        norm = re.sub(r"\s+", " ", norm).strip()
        if len(norm) > 30:
            bodies[norm].append((name, at, item))
        params = re.search(r"fn \w+(?:<[^>]*>)?\s*\(([\s\S]*?)\)\s*(?:->|\n|requires|ensures|\{)", head)
        names = re.findall(r"(?:mut )?(\w+): ", params.group(1)) if params else []
        for n in range(2, len(names) + 1):
            for s in range(len(names) - n + 1):
                parameters[(crate, tuple(names[s : s + n]))].append((name, at, item))
        for r in re.findall(r"requires(?: \w+)? \{ (.*?) \}\s*(?:$|\n)", head, re.M | re.S):
            for fact in re.split(r" × ", r):
                fact = re.sub(r"\s+", " ", fact.strip().strip("()"))
                facts[(crate, fact)].append((name, at, item))

for norm, where in bodies.items():
    if len(where) > 1:
        for name, at, item in where:
            place(2, name, at, item, "the same body as " + ", ".join(w[2] for w in where if w != (name, at, item)))
for key, where in sorted(facts.items()):
    crate, fact = key
    if len(where) >= 3:
        place(5, where[0][0], where[0][1], f"{len(where)} functions", "a fact in each one's contract: " + fact)
best = []
for (crate, group), where in sorted(parameters.items(), key=lambda x: -len(x[0][1])):
    if len(where) >= 3 and len(group) >= 3 and not any(c == crate and set(group) <= set(g) and len(where) <= len(w) for (c, g), w in best):
        best.append(((crate, group), where))
for (crate, group), where in best:
    place(5, where[0][0], where[0][1], f"{len(where)} functions", "parameters that travel together: " + ", ".join(group))

found.sort()
for point, where, what, said in found:
    print(point, where, what, said, sep="\t")
print()
for point in range(1, 8):
    print(f"point {point}: {sum(1 for f in found if f[0] == point)}")
answers = 0
proof_files = [n for n in (git("ls-tree", "-r", "--name-only", COMMIT) if COMMIT else git("ls-files")).split("\n") if re.match(r"crates/[^/]+/proofs/.*(Answers|Invariants)\.antt$", n)]
for n in proof_files:
    if n.endswith("Answers.antt") and (COMMIT or os.path.exists(os.path.join(ROOT, n))):
        answers += len(re.findall(r"^pub [\w-]+ : goal\.", text(n), re.M))
print(f"point 8: {answers} answers in {sum(1 for n in proof_files if n.endswith('Answers.antt'))} files Answers.antt, {sum(1 for n in proof_files if n.endswith('Invariants.antt'))} files Invariants.antt")
