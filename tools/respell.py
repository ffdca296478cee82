#!/usr/bin/env python3
"""Brings the repository's own names to the spelling of today's Rattle, after port.py: words in snake case, types in camel case.

usage: python3 tools/respell.py LANDED      at the top of the checkout, once, after port.py; LANDED is the commit before the port
       python3 tools/respell.py --members   only the last of the renamings below

It renames in every .rt and .antt file below crates/, comments included, in README.md, docs/ and tools/:
- each name that begins with a small letter and has a capital in it: `oneIfTerminal` becomes `one_if_terminal`, `sameSymbol-refl`
  `same_symbol-refl` (lemmas keep their dashes: a dash joins two names);
- the types of the demands: `Demand-1-contracts` becomes `Demand1Contracts`;
- the module `Contracts` of demands, a name that Rattle now takes for its own, becomes `ContractsMet`;
- the fields of records, the constructors of data and the definitions with a dash: `keeps-rules` becomes `keeps_rules`, but for those that would fall together with a word (a name
  that some file has in both spellings, or that another library has too), which keep their dash.
Before that it gives back its dash to each lemma whose new name port.py, or this script, would make the name of another thing (APART).
"""

import difflib
import os
import re
import subprocess
import sys

TOKEN = re.compile(r"[^\s(){}\[\];,.:@\"`|]+|[\s(){}\[\];,.:@\"`|]")
CAMEL = re.compile(r"[a-z0-9][A-Z]")
SMALL = re.compile(r"[a-z]")

# lemmas, constructors and local facts that would fall together with a word, and the files that name them
APART = {
    "at-rest": ["machine/specs/Schedules.antt", "results/specs/Progress.antt"],
    "byte-at": ["matrix/specs/EndMarkOfShape.antt"],
    "byte-fits": ["matrix/specs/EndMarkOfShape.antt", "matrix/proofs/MatrixLaw.antt"],
    "cut-at": ["laws/specs/Parts.antt", "demands/specs/Starred.antt"],
    "end-of": ["shape/specs/Rules.antt", "shape/specs/ShapeExactly.antt"],
    "entry-at": ["shape/specs/Decode.antt"],
    "first-of": ["shape/specs/KeptByTurns.antt", "shape/specs/Rules.antt", "shape/specs/RulesAfterTurn.antt", "shape/specs/ShapeExactly.antt"],
    "in-use": ["language/specs/Conflicts.antt", "language/specs/RelationPairs.antt", "table/specs/RelationRows.antt"],
    "is-live": ["machine/specs/AllowedExactly.antt", "machine/specs/GivenExactly.antt", "moving/specs/LiveWords.antt"],
    "next-of": ["machine/specs/AllowedExactly.antt"],
    "row-of": ["results/specs/UncutRow.antt"],
    "row-word": ["moving/specs/AroundChunk.antt"],
    "slots-at": ["shape/specs/Decode.antt", "shape/specs/Encoded.antt", "shape/specs/ShapeOfKept.antt"],
    "table-at": ["outcomes/specs/OutcomeWords.antt", "shape/specs/Decode.antt", "shape/specs/Encoded.antt", "shape/specs/ShapeOfKept.antt"],
    "words-of": ["demands/specs/Demands.antt", "demands/specs/Proved.antt", "moving/specs/OneMove.antt", "shape/specs/ShapeExactly.antt"],
    "by-shape": ["start/specs/StartChecks.antt"],
    "body-of": ["demands/specs/PublicCalls.antt", "demands/specs/Contracts.antt", "demands/specs/GivenDemand.antt", "demands/specs/AnswersDemand.antt"],
    "read-through": ["demands/specs/PublicCalls.antt", "demands/specs/Contracts.antt", "demands/specs/GivenDemand.antt", "demands/specs/AnswersDemand.antt"],
}

WHOLE = {
    "Demand-1-contracts": "Demand1Contracts",
    "Demand-1-parse": "Demand1Parse",
    "Demand-1": "Demand1",
    "Demand-2-parse": "Demand2Parse",
    "Demand-2-moves": "Demand2Moves",
    "Demand-2-reached": "Demand2Reached",
    "Demand-3-finishes": "Demand3Finishes",
    "Demand-3": "Demand3",
    "Start-never-15": "StartNever15",
}


def snake(name):
    """`getD` is std's `get_or`; else a capital within a name becomes `_` and its small letter."""
    name = re.sub(r"getD(?![a-z])", "get_or", name)
    return re.sub(r"([a-z0-9])([A-Z])", lambda m: m[1] + "_" + m[2].lower(), name)


def read(path):
    with open(path, encoding="utf-8") as f:
        return f.read()


def write(path, text):
    with open(path, "w", encoding="utf-8") as f:
        f.write(text)


def sources(folder):
    for at, dirs, files in os.walk(folder):
        dirs[:] = sorted(d for d in dirs if d not in ("out", ".git", "target"))
        for f in sorted(files):
            yield os.path.join(at, f)


def apart(landed):
    for name, files in APART.items():
        joined = name.replace("-", "_")
        for f in files:
            path = os.path.join("crates", f)
            was = subprocess.run(["git", "show", f"{landed}:{path}"], capture_output=True, text=True, check=True).stdout
            old, new = TOKEN.findall(was), TOKEN.findall(read(path))
            plain = lambda ts: [t.replace("-", "_") for t in ts]
            given = 0
            for op, i1, i2, j1, j2 in difflib.SequenceMatcher(None, plain(old), plain(new), autojunk=False).get_opcodes():
                if op == "equal":
                    for i, j in zip(range(i1, i2), range(j1, j2)):
                        if old[i] == name and new[j] == joined:
                            new[j] = name
                            given += 1
            write(path, "".join(new))
            left = sum(t == name for t in old) - given
            if left:
                print(f"left: {path}: {left} of {name}")


def code(text, mark):
    return "\n".join(l for l in text.split("\n") if not l.strip().startswith(mark))


def members():
    """The fields, constructors and definitions with a dash, in snake case."""
    text = {p: read(p) for p in sources("crates") if p.endswith((".rt", ".antt"))}
    tokens = {p: set(TOKEN.findall(code(t, "//" if p.endswith(".rt") else "--"))) for p, t in text.items()}
    names = set()
    for p, t in text.items():
        lines, depth = t.split("\n"), None
        for i, line in enumerate(lines):
            indent = len(line) - len(line.lstrip())
            head = re.match(r"\s*(?:pub )?(?:data|record) \S", line)
            word = re.match(r"\s*(?:abbrev|unfoldable)(?: pub)? ([^\s(){}:;,]+) :", line)
            if word and "-" in word[1] and not p.endswith("/Invariants.antt"):
                names.add(word[1])
            if head and p.endswith(".antt"):
                depth = indent
            elif depth is not None and (not line.strip() or indent <= depth):
                depth = None
            elif depth is not None and indent == depth + 2:
                member = re.match(r"\s+(?:pub )?([^\s(){}:;,]+) :", line)
                if member and "-" in member[1]:
                    names.add(member[1])
    foreign = set()
    for t in text.values():
        for line in re.findall(r"(?m)^(?:ghost |pub )*use (?!Rattle\.(?!std\.))(?:.*)$|^(?:ghost |pub )*use Rattle\.std\..*$", t):
            foreign |= set(TOKEN.findall(line))
    to = {}
    for n in sorted(names):
        joined = n.replace("-", "_")
        if n not in foreign and not any(n in ts and joined in ts for ts in tokens.values()):
            to[n] = joined
    for p in sources("crates"):
        if p.endswith((".rt", ".antt")):
            mark = "//" if p.endswith(".rt") else "--"
            out, main = [], False
            for line in read(p).split("\n"):
                comment = line.strip().startswith(mark)
                main = comment and (main or line.startswith(mark + " Main "))
                out.append("".join(to.get(x, x) for x in TOKEN.findall(line)) if main or not comment else quoted(line, to))
            write_if(p, "\n".join(out))
        elif p.endswith(".edit"):
            write_if(p, "\n".join(line if line.startswith("#") else "".join(to.get(x, x) for x in TOKEN.findall(line)) for line in read(p).split("\n")))
    for p in ["README.md"] + [p for d in ("docs", "tools") for p in sources(d)]:
        if p.endswith((".md", ".py")) and os.path.basename(p) not in ("respell.py", "PORT.md", "EDITS.md"):
            write_if(p, "\n".join(quoted(line, to) if p.endswith(".md") else strings(line, to) for line in read(p).split("\n")))
    print(f"{len(to)} fields, constructors and definitions respelled; kept: " + " ".join(sorted(n for n in names if n not in to)))


def quoted(line, to):
    """The line with the names renamed that stand in it between backquotes."""
    return re.sub(r"`[^`]*`", lambda m: "".join(to.get(x, x) for x in TOKEN.findall(m[0])), line)


def strings(line, to):
    """The line with each string renamed that is a name."""
    return re.sub(r'"([^"]*)"', lambda m: '"' + to.get(m[1], m[1]) + '"', line)


def write_if(path, text):
    if text != read(path):
        write(path, text)


def main(landed):
    if landed == "--members":
        members()
        return
    apart(landed)
    names = set()
    for p in sources("crates"):
        if p.endswith((".rt", ".antt")):
            for t in TOKEN.findall(code(read(p), "//" if p.endswith(".rt") else "--")):
                if CAMEL.search(t) and SMALL.match(t):
                    names.add(t)
    to = {n: snake(n) for n in names} | WHOLE
    folders = ["crates", "docs", "tools"]
    for p in ["README.md"] + [p for d in folders for p in sources(d)]:
        if p.endswith((".rt", ".antt", ".md", ".py")) and os.path.basename(p) != "respell.py":
            text = read(p)
            new = "".join(to.get(t, t) for t in TOKEN.findall(text))
            new = re.sub(r"(?<=specs[./])Contracts(?=[.`\s]|\.antt)", "ContractsMet", new)
            if p == "crates/demands/specs/Lib.antt":
                new = new.replace("pub mod Contracts\n", "pub mod ContractsMet\n")
            if new != text:
                write(p, new)
    subprocess.run(["git", "mv", "crates/demands/specs/Contracts.antt", "crates/demands/specs/ContractsMet.antt"], check=True)
    print(f"{len(to)} names respelled")
    members()


if __name__ == "__main__":
    if len(sys.argv) != 2:
        raise SystemExit(__doc__)
    main(sys.argv[1])
