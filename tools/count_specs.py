#!/usr/bin/env python3
"""Counts the lines of specs that a reader must believe.

A proof is checked by machine; a definition is not. What a reader has to read and agree with is every definition that a public
contract or a final statement names, and every definition that such a definition names, and so on. This script finds them:

- roots of the contracts: the names in the `ensures` of each `pub fn` of the library's crates (CONTRACTS below);
- roots of the statements: the names in the statements (not the proofs) of the theorems in STATEMENTS below;
- a definition is an `abbrev`, an `unfoldable`, a `data` or a `record` block of crates/*/specs/*.antt, or an enum of src/*.rt that specs use;
- a theorem stands in a file of specs/, or, in the crates of PROOFS, in a file of proofs/*.antt: that of the same name is on the
  definitions of the file of specs/.

It goes from name to name through the `use` lines of each file. Lines are counted without comments and blank lines. A name that a block
binds is a variable in all of that block. A plain definition (neither `abbrev` nor `unfoldable`) is opaque: where a counted block
names one, `--names` lists it.

    python3 tools/count_specs.py            the table, a line a file
    python3 tools/count_specs.py --names    the same, with the names in each file
    python3 tools/count_specs.py --why NAME how NAME is reached from a root
    python3 tools/count_specs.py --files    the other table: each file of specs, by its header
    python3 tools/count_specs.py --write    writes both tables into docs/THEOREMS.md, between their markers
    python3 tools/count_specs.py --edits    docs/EDITS.md: adds a row for each edit that has none, and fills the first error from
                                            the logs named after it (of `rt must-fail` or of the gate; else those under target/)
    python3 tools/count_specs.py --check    says whether the tables in docs/THEOREMS.md are those measured now, whether every name on
                                            that page and in docs/EDITS.md, PROMISES.md and DECISIONS.md is declared, whether every
                                            edit is listed, and whether grugalash_c promises what grugalash does
"""
import os
import re
import sys

ROOT = os.path.dirname(os.path.dirname(os.path.abspath(__file__)))
CRATES = os.path.join(ROOT, "crates")

# files whose `pub fn` are the library's public functions
CONTRACTS = [
    "refusals/src/lib.rt", "words/src/lib.rt", "table/src/lib.rt", "matrix/src/lib.rt", "area/src/lib.rt", "start/src/lib.rt", "reader/src/lib.rt", "parse/src/lib.rt", "report/src/lib.rt",
    "text/src/reading.rt", "lines/src/lib.rt", "grugalash/src/lib.rt",
]
PUBLIC = re.compile(r'^\s*pub (?:extern "C" )?fn (\w+)')
# the crates whose theorems stand in proofs/, so that an edit of a definition makes a theorem fail and not a file of specs. In other
# crates the files proofs/*.antt are lemmas of the proofs of functions
PROOFS = ["language", "machine", "text", "demands"]
# the final statements: a file of specs, and the names in it; None for every public theorem of the file
STATEMENTS = [("demands", "Proved", None), ("demands", "Starred", ["starred"]), ("text", "TextFed", ["text-fed", "numbers-fed", "pieces-read"])]

# definitions that compute, and the theorems that tie them to propositions: who believes the propositions need not read the definition.
# (The stages of the checks are tied by the `-given` theorems, whose conditions hold both.)
TIED = {
    ("language", "SetMasks", "left_set"): [("language", "SetMasks", "left-exactly"), ("language", "SetMasks", "left-set-is")],
    ("language", "SetMasks", "left_size"): [("language", "SetMasks", "left-members")],
    ("language", "SetMasks", "left_member"): [],
    ("language", "RelationTests", "relation_of"): [("language", "Conflicts", "relation-exactly")],
    ("language", "CheckHead", "head_stage"): [], ("language", "CheckContents", "contents_stage"): [], ("language", "CheckSymbols", "symbol_stage"): [],
    ("language", "CheckForm", "form_stage"): [], ("language", "CheckTwins", "twin_stage"): [], ("language", "Conflicts", "conflict_stage"): [],
    ("language", "Loads", "matrix_room"): [], ("language", "Loads", "past_the_last"): [],
    ("start", "Start", "shape_stage"): [], ("start", "Start", "empty_stage"): [], ("start", "Start", "length_stage"): [],
    ("start", "Start", "token_stage"): [], ("start", "Start", "cut_stage"): [], ("start", "Start", "room_stage"): [],
    ("language", "Stages", "checked"): [("language", "Stages", "given-exactly")],
    ("machine", "States", "step"): [("machine", "AllowedExactly", "step-exactly")],
    ("machine", "States", "join"): [("machine", "AllowedExactly", "join-exactly")],
    ("machine", "States", "run"): [("machine", "Counts", "run-exactly")],
    ("area", "Shape", "area_in_shape"): [("shape", "InShape", "in-shape-exactly")],
    ("layout", "Layout", "decode"): [("shape", "Decode", "decode-encode")],
    ("text", "Feeding", "fed_all"): [("text", "TextFed", "text-fed"), ("text", "TextFed", "pieces-read")],
    ("text", "Feeding", "fed"): [], ("text", "Feeding", "finish_of"): [], ("text", "Feeding", "answer_of"): [],
}
BEGIN, END = "<!-- count_specs begin -->", "<!-- count_specs end -->"
FILES_BEGIN, FILES_END = "<!-- files begin -->", "<!-- files end -->"
SECTIONS = ["What the library covers", "Numbers", "The grammar words", "Sets and matrix", "Moves of a chunk", "The report", "Refusal numbers", "Sample rows",
            "Errors my students make", "Forms to use in the code", "How far promises go"]
KEYWORDS = {"abbrev", "unfoldable", "data", "record", "bad", "requires", "ensures", "use", "clauses", "u16", "stdout"}
ORDER = ["refusals", "language", "laws", "machine", "results", "words", "table", "layout", "matrix", "area", "start", "shape", "outcomes", "moving", "reader", "parse", "report", "demands", "text", "lines", "grugalash", "grugalash_c", "rows", "vectors"]

HEAD = re.compile(r"^( *)(?:pub +)?(abbrev|unfoldable|data|record|module)\b(?: +pub)? +([^\s{]\S*)")
THEOREM = re.compile(r"^( *)pub +([^\s:]+) *:")
USE = re.compile(r"^(pub )?use +(Rattle\.(?!std\.)\S+?)(?:\.\{(.*)\})?(?: +as +(\S+))?;?$")
OUTSIDE = re.compile(r"^use +(?!Rattle\.(?!std\.))(\S+?)\.\{(.*)\};?$")
WORD = re.compile(r"[^\s(){}\[\],;|«»⌜⌝]+")


class Block:
    def __init__(self, crate, name, file, kind):
        self.crate, self.name, self.file, self.kind = crate, name, file, kind
        self.lines = []
        self.params = []     # header lines of the modules that it stands in
        self.statement = []  # a theorem: its statement alone

    def key(self):
        return (self.crate, self.file, self.name)


class File:
    def __init__(self, crate, name):
        self.crate, self.name = crate, name
        self.blocks, self.theorems, self.owner = {}, {}, {}
        self.imports, self.aliases, self.reexports, self.outside = {}, {}, {}, {}
        self.total = 0


def indent(line):
    return len(line) - len(line.lstrip(" "))


def module_of(path):
    """Rattle.machine.specs.States -> (machine, States); Rattle.machine.proofs.Moves -> (machine, proofs.Moves);
    Rattle.refusals.specs.declared.Refusal, of an enum and of its variants -> (refusals, declared.Refusal)."""
    crate, *rest = path.split(".")[1:]
    if rest and rest[0] == "specs":
        rest = rest[1:]
    if rest and rest[0] == "declared":
        rest = [p for p in rest if p != "TheVariants"]
        return crate, "declared." + rest[-1]
    return crate, ".".join(rest)


def read_use(line, f):
    o = OUTSIDE.match(line)
    if o:
        for item in o.group(2).split(","):
            f.outside[item.strip().split(" as ")[-1].strip("◌")] = o.group(1)
    m = USE.match(line)
    if not m:
        return
    target = module_of(m.group(2))
    if m.group(3) is not None:
        for item in m.group(3).split(","):
            item = item.strip()
            if item:
                old, _, new = item.partition(" as ")
                f.imports[(new or old).strip()] = (target, old.strip())
                if m.group(1):
                    f.reexports[(new or old).strip()] = (target, old.strip())
    elif m.group(4):
        f.aliases[m.group(4)] = target
    else:
        f.aliases[target[1].split(".")[-1]] = target


def read_specs(path, crate, name):
    f = File(crate, name)
    lines = open(path, encoding="utf-8").read().split("\n")
    i, modules = 0, []
    while i < len(lines):
        line = lines[i]
        text = line.strip()
        if not text or text.startswith("--"):
            i += 1
            continue
        f.total += 1
        modules = [m for m in modules if m[0] < indent(line)]
        if text.startswith("use ") or text.startswith("pub use "):
            read_use(text, f)
            i += 1
            continue
        m = HEAD.match(line)
        if m and m.group(2) == "module":
            head = [text]
            while not lines[i].rstrip().endswith("where") and i + 1 < len(lines):
                i += 1
                f.total += 1
                head.append(lines[i].strip())
            modules.append((indent(line), head))
            i += 1
            continue
        if m:
            b = Block(crate, m.group(3), name, m.group(2))
            b.params = [h for _, h in modules]
            b.lines.append(line)
            depth, j = indent(line), i + 1
            while j < len(lines):
                t = lines[j].strip()
                if not t or t.startswith("--"):
                    j += 1
                    continue
                own = indent(lines[j]) == depth and WORD.match(t) and WORD.match(t).group(0) == b.name and b.kind in ("abbrev", "unfoldable")
                if indent(lines[j]) > depth or own:
                    b.lines.append(lines[j])
                    f.total += 1
                    j += 1
                    continue
                break
            f.blocks.setdefault(b.name, b)
            if b.kind == "data":
                for l in b.lines[1:]:
                    if " : " in l and indent(l) == depth + 2:
                        for c in l.strip().split(" : ")[0].replace("pub ", "").split():
                            f.owner[c] = b
            i = j
            continue
        t = THEOREM.match(line)
        if t:
            b = Block(crate, t.group(2), name, "theorem")
            b.params = [h for _, h in modules]
            j = i
            while j < len(lines):
                s = lines[j].strip()
                if j > i and (indent(lines[j]) <= indent(line) or not s):
                    break
                b.statement.append(lines[j])
                j += 1
            f.theorems[b.name] = b
        i += 1
    return f


def read_enums(crate, files):
    """The enums and structs of code that specs speak of, as definitions."""
    src = os.path.join(CRATES, crate, "src")
    for name in sorted(os.listdir(src)) if os.path.isdir(src) else []:
        depth = None
        for line in open(os.path.join(src, name), encoding="utf-8").read().split("\n"):
            m = re.match(r"^(?:pub(?:\(\w+\))? )?(?:enum|struct) (\w+)", line)
            if m:
                f = File(crate, "declared." + m.group(1))
                f.src = "src/" + name
                depth = Block(crate, m.group(1), f.name, "enum")
                f.blocks[m.group(1)] = depth
                files[(crate, f.name)] = f
            if depth is not None and line.strip() and not line.strip().startswith("//"):
                depth.lines.append(line)
                v = re.match(r"^ +(\w+)[(,]", line)
                if v:
                    f.owner[v.group(1)] = depth
            if line.startswith("}"):
                depth = None


def bound_names(block, f, files):
    """Names bound by binders, lambdas, lets and the left sides of clauses; constructors on a left side are no variables."""
    bound = set()
    body = block.lines or block.statement
    text = "\n".join(body + [l for p in block.params for l in p])
    for group in re.findall(r"[({]([^(){}:=]+?) : ", text):
        bound.update(group.replace("pub ", "").split())
    for group in re.findall(r"λ ([^.]+)\.", text):
        bound.update(WORD.findall(group))
    bound.update(re.findall(r"\blet (\S+)", text))
    bound.update(re.findall(r"([^\s{;]+) = ", text)) if "record {" in text else None
    if block.kind in ("abbrev", "unfoldable"):
        for line in body[1:]:
            t = line.strip()
            if t.split(" ")[0] == block.name and " =" in t:
                for w in WORD.findall(t.split(" =")[0])[1:]:
                    found = resolve(w, f, files)
                    if not (found and found[1] == "constructor"):
                        bound.add(w)
    for pattern in re.findall(r"[\[|] ([^|↦\[\]]+) ↦", text):
        for w in WORD.findall(pattern):
            found = resolve(w, f, files)
            if not (found and found[1] == "constructor"):
                bound.add(w)
    if block.kind in ("data", "record"):
        for line in body[1:]:
            m = re.match(r"^ +(?:pub )?([^:]+?) : ", line)
            if m:
                bound.update(m.group(1).split())
    bound.discard(block.name)
    return bound


def lookup(target, name, files, seen=()):
    g = files.get(target)
    if g is None or target in seen:
        return None
    if name in g.blocks:
        return g.blocks[name], "block"
    if name in g.owner:
        return g.owner[name], "constructor"
    if name in g.theorems:
        return g.theorems[name], "theorem"
    if name in g.reexports:
        return lookup(g.reexports[name][0], g.reexports[name][1], files, seen + (target,))
    return None


def resolve(word, f, files):
    if word in f.blocks:
        return f.blocks[word], "block"
    if word in f.owner:
        return f.owner[word], "constructor"
    if word in f.imports:
        return lookup(f.imports[word][0], f.imports[word][1], files)
    head, _, tail = word.partition(".")
    if tail and head in f.aliases:
        return lookup(f.aliases[head], tail, files)
    return None


def theorem(files, crate, name, wanted):
    """A theorem of a file of specs, or of the file of proofs of that name."""
    for file in (name, "proofs." + name):
        f = files.get((crate, file))
        if f and wanted in f.theorems:
            return f.theorems[wanted]
    raise KeyError(f"{crate}/{name} has no theorem {wanted}")


def names_in(lines):
    text = "\n".join(re.sub(r"--.*", "", l) for l in lines)
    return [w.rstrip(".") if not w.startswith(".") else w for w in WORD.findall(text)]


def reached(roots, files, tied=None):
    """roots: list of (block, why). Returns {key: (block, from)}. A tied definition is not gone into, but its theorems are."""
    found, waiting, passed = {}, list(roots), set()
    while waiting:
        block, why = waiting.pop()
        if block.key() in found or block.key() in passed:
            continue
        if tied and block.key() in tied:
            passed.add(block.key())
            waiting += [(theorem(files, c, f, n), "tie") for c, f, n in tied[block.key()]]
            continue
        found[block.key()] = (block, why)
        f = files[(block.crate, block.file)]
        bound = bound_names(block, f, files)
        lines = (block.lines or block.statement) + [l for p in block.params for l in p]
        for w in names_in(lines):
            if w.startswith(".") or w in bound or w == block.name:
                continue
            r = resolve(w, f, files)
            if r and r[0].kind != "theorem":
                waiting.append((r[0], block.crate + "/" + block.file + "." + block.name))
    return found


def also_named(found, files):
    """Opaque names and names of the toolchain's libraries in the counted blocks."""
    opaque, outside = set(), set()
    for block, _ in found.values():
        f = files[(block.crate, block.file)]
        bound = bound_names(block, f, files)
        for w in names_in(block.lines or block.statement):
            if w in bound or w == block.name or w.startswith("."):
                continue
            r = resolve(w, f, files)
            if r and r[0].kind == "theorem":
                opaque.add(r[0].crate + "/" + r[0].file + "." + r[0].name)
            if not r and w in f.outside:
                outside.add((f.outside[w], w))
    return opaque, outside


def contract_roots(files):
    roots, unknown, count = [], [], 0
    for rel in CONTRACTS:
        if not os.path.exists(os.path.join(CRATES, rel)):
            continue
        crate = rel.split("/")[0]
        f = File(crate, rel)
        lines = open(os.path.join(CRATES, rel), encoding="utf-8").read().split("\n")
        public, fn = False, ""
        for line in lines:
            if line.startswith("ghost use "):
                read_use(line[6:].rstrip(), f)
            if PUBLIC.match(line):
                public, fn = True, PUBLIC.match(line).group(1)
                count += 1
            elif re.match(r"^\s*(fn |\{|\})", line):
                public = public and not line.lstrip().startswith(("fn ", "{"))
            if public and line.strip().startswith("ensures"):
                for w in names_in([line]):
                    r = resolve(w, f, files)
                    if r:
                        roots.append((r[0], rel + " " + fn))
                    elif w in f.imports:
                        unknown.append(w)
            if public:
                # the types of answers
                m = re.search(r"-> (.*)", line)
                for word in re.findall(r"\w+", m.group(1)) if m else []:
                    types = [(key, g) for key, g in files.items() if key[1] == "declared." + word]
                    for key, g in [t for t in types if t[0][0] == crate] or types:
                        roots.append((g.blocks[word], rel + " " + fn))
    return roots, unknown, count


def statement_roots(files):
    roots, names = [], []
    for crate, file, wanted in STATEMENTS:
        f = files.get((crate, file)) or files[(crate, "proofs." + file)]
        for name in wanted or [n for n, t in f.theorems.items() if indent(t.statement[0]) == 0]:
            roots.append((theorem(files, crate, file, name), "statement"))
            names.append(name)
    return roots, names


def header_of(path):
    lines = []
    for line in open(path, encoding="utf-8").read().split("\n"):
        if not line.startswith("--"):
            break
        lines.append(line[2:].strip())
    return " ".join(lines)


def place_in_document(header):
    said = [s for s in SECTIONS if '"' + s + '"' in header]
    numbers = sorted({int(n) for n in re.findall(r"\b(\d{1,2}) [A-Z]{3,}", header)} | {int(n) for n in re.findall(r"(?:^|[ ,(])(1[5]) (?:is|\.\.)", header)}
                     | {int(n) for n in re.findall(r"Check (\d),", header)})
    if numbers:
        said.append("refusals " + ", ".join(str(n) for n in numbers) if len(numbers) > 1 else "refusal " + str(numbers[0]))
    said += sorted({"demand " + n for n in re.findall(r"[Dd]emand[ -]?(\d)", header)})
    if "docs/AREA.md" in header:
        said.append("AREA.md")
    if "Document 004" in header:
        said.append("document 004")
    quoted = re.search(r'Document 01[^"]*"([^"]+)"', header)
    if not said and quoted:
        text = quoted.group(1)
        said.append('"' + (text if len(text) <= 60 else text[:60].rsplit(" ", 1)[0] + " ..") + '"')
    return "; ".join(said)


def path_at(crate, file):
    """machine, proofs.Moves -> crates/machine/proofs/Moves.antt; machine, Moves -> crates/machine/specs/Moves.antt."""
    folder, name = ("proofs", file[7:]) if file.startswith("proofs.") else ("specs", file)
    return os.path.join(CRATES, crate, folder, name + ".antt")


def main_names(header, crate, file):
    """The names that a header lists as main definitions and statements, as far as its file declares them; None if it lists none."""
    main = re.search(r"Main (?:definition|statement)s?:.*$", header)
    if not main:
        return None
    text = re.sub(r"\([^()]*\)", "", re.sub(r"Main (?:definition|statement)s?: *", "", main.group(0)))
    whole = open(path_at(crate, file), encoding="utf-8").read()
    known = set(re.findall(r"(?m)^ *(?:pub |abbrev |unfoldable |data |record )*([^\s:(){}]+)(?= )", whole))
    return [w for w in re.findall(r"[^\s,;.:]+", text) if w in known and w not in ("of", "and", "the", "to", "with", "a", "is", "no", "proofs")]


def public_names(f, in_modules=False):
    return [n for n, b in f.blocks.items() if " pub " in " " + b.lines[0]] + [n for n, t in f.theorems.items() if in_modules or indent(t.statement[0]) == 0]


def index(files):
    out = []
    for crate in ORDER:
        names = sorted((n for c, n in files if c == crate and not n.startswith("declared.")), key=lambda n: n.replace("proofs.", ""))
        names = [n for n in names if not (n.startswith("proofs.") and n[7:] in names)]
        if not names:
            continue
        out += ["### " + crate, "", "| file | what it says | in document 01 | main definitions and statements |", "|---|---|---|---|"]
        for name in names:
            header = header_of(path_at(crate, name))
            first = re.split(r"(?<=[^.])\. +(?=[A-Z\"#`*]|docs/)|(?<=[^.])\.$| +Document 0| +Rests on", header)[0].strip()
            mine = main_names(header, crate, name)
            beside = (crate, "proofs." + name)
            if beside in files:
                proved = main_names(header_of(path_at(*beside)), *beside)
                mine = (mine or []) + (public_names(files[beside], True) if proved is None else proved)
            elif mine is None:
                mine = public_names(files[(crate, name)])
            shown = name.replace("proofs.", "proofs/")
            out.append(f"| `{shown}` | {first} | {place_in_document(header)} | {', '.join('`' + w + '`' for w in dict.fromkeys(mine))} |")
        out.append("")
    return "\n".join(out).rstrip() + "\n"


def declared_names():
    """Every name that specs, proofs or code declare: theorems, definitions, fields, constructors, functions, files, edits."""
    names = set()
    for base, folders, found in os.walk(CRATES):
        folders[:] = [f for f in folders if f != "out"]
        for name in found:
            path = os.path.join(base, name)
            if name.endswith(".edit"):
                names.add(name[:-5])
            elif name.endswith(".antt"):
                rel = os.path.relpath(path, CRATES).split(os.sep)
                if rel[1] == "specs":
                    names.update({name[:-5], rel[0] + "/" + name[:-5]})
                elif rel[0] in PROOFS and len(rel) == 3:
                    names.update({name[:-5], rel[0] + "/" + name[:-5], "proofs/" + name[:-5]})
                for line in open(path, encoding="utf-8"):
                    m = re.match(r"^ *(?:pub |abbrev |unfoldable |data |record )*([^\s:(){}]+)(?: [^:=]*)?:", line)
                    if m:
                        names.add(m.group(1))
                    d = re.match(r"^ *(?:pub )?(?:data|record) ([^\s:(){}]+)", line)
                    if d:
                        names.add(d.group(1))
            elif name.endswith(".rt"):
                names.update(re.findall(r"\b(?:fn|enum|struct|mod) (\w+)", open(path, encoding="utf-8").read()))
    return names | set(os.listdir(CRATES))


def all_edits():
    found = {}
    for crate in sorted(os.listdir(CRATES)):
        folder = os.path.join(CRATES, crate, "must-fail")
        for name in sorted(os.listdir(folder)) if os.path.isdir(folder) else []:
            if name.endswith(".edit"):
                lines = open(os.path.join(folder, name), encoding="utf-8").read().split("\n")
                says = lines[0].lstrip("# ").strip()
                where = next((l[5:].strip() for l in lines if l.startswith("file:")), "")
                found[(crate, name[:-5])] = (says, where)
    return found


def functions_of(crate):
    """The names of the functions of a crate's code, and the lines at which they begin, file by file."""
    found = {}
    src = os.path.join(CRATES, crate, "src")
    for base, _, names in os.walk(src):
        for name in sorted(names):
            path = os.path.join(base, name)
            lines = open(path, encoding="utf-8").read().split("\n")
            found[os.path.relpath(path, os.path.join(CRATES, crate))] = [(i, m.group(1)) for i, l in enumerate(lines, 1) for m in [re.match(r'^ *(?:pub(?:\(\w+\))? )?(?:extern "C" )?fn (\w+)', l)] if m]
    return found


def declared_at(crate, file, line, name):
    """Where an edit is refused: a goal of a function, named at its code or in its answers, or a theorem or lemma of a file."""
    if file.startswith("src/"):
        begun = functions_of(crate).get(file, [])
        text = open(os.path.join(CRATES, crate, file), encoding="utf-8").read().split("\n")[line - 1]
        after = [f for at, f in begun if at >= line][:1] if text.startswith("#[") else []
        inside = after or [f for at, f in begun if at <= line][-1:] or [file]
        return "`" + name + "` in the proof of `" + inside[0] + "`"
    parts = file.split("/")
    if len(parts) > 2:
        return "`" + name + "` in the proof of `" + parts[-2] + "`"
    return "`" + name + "` (" + parts[-1][:-5] + ")"


def first_errors(sources):
    """From logs of `rt must-fail` or of `rt ci`, or folders of such logs: {(crate, edit): place of the first error}. A later log counts."""
    found, paths = {}, []
    for source in sources:
        paths += [source] if os.path.isfile(source) else sorted(os.path.join(b, n) for b, _, names in os.walk(source) for n in names if n.endswith(".log"))
    refused = re.compile(r"must-fail ([^\s/]+)/(\S+?)(?:\.edit)?: refused, as it must be: (?:note: )?(?:\./)?(\S+?):(\d+):\d+: (.*)")
    for path in paths:
        for m in refused.finditer(open(path, encoding="utf-8", errors="replace").read()):
            name = re.search(r"^error: `([^`]+)`", m.group(5)) or re.search(r"\(`([^`]+)`\)", m.group(5))
            if name:
                found[(m.group(1), m.group(2))] = declared_at(m.group(1), m.group(3), int(m.group(4)), name.group(1))
    return found


def edit_rows(page):
    """{(crate, edit): cells} of docs/EDITS.md."""
    rows, crate = {}, ""
    for line in page.split("\n"):
        if line.startswith("## "):
            crate = line[3:].strip()
        cells = [c.strip() for c in line.strip().strip("|").split(" | ")]
        m = re.match(r"^`([^`]+)`$", cells[0]) if line.startswith("| `") else None
        if m:
            rows[(crate, m.group(1))] = cells
    return rows


def write_edits(sources):
    path = os.path.join(ROOT, "docs", "EDITS.md")
    page = open(path, encoding="utf-8").read()
    rows, errors, edits = edit_rows(page), first_errors(sources), all_edits()
    head = page.split("\n## ")[0].rstrip() + "\n"
    out = [head]
    for crate in ORDER + sorted({c for c, _ in edits} - set(ORDER)):
        mine = [k for k in edits if k[0] == crate]
        if not mine:
            continue
        out += ["## " + crate, "", "| edit | changes | what it would do | what it breaks | first error |", "|---|---|---|---|---|"]
        for key in mine:
            says, where = edits[key]
            cells = rows.get(key, ["", "", says.replace("|", "\\|"), "", ""])
            cells = (cells + [""] * 5)[:5]
            if key in errors:
                cells[4] = errors[key]
            out.append("| " + " | ".join(["`" + key[1] + "`", "`" + where + "`", cells[2], cells[3], cells[4]]) + " |")
        out.append("")
    open(path, "w", encoding="utf-8").write("\n".join(out).rstrip() + "\n")


def wrong_files(page):
    """Rows of part 1 whose name is in none of the files beside it."""
    bad = []
    edits = {e for _, e in all_edits()}
    for line in open(os.path.join(ROOT, "docs", page), encoding="utf-8").read().split("# Part 2")[0].split("\n"):
        cells = [c.strip() for c in line.strip().strip("|").split(" | ")]
        beside = [w for w in re.findall(r"`([^`]+)`", cells[-1]) if "/" in w]
        if not line.startswith("|") or len(cells) < 3 or not beside:
            continue
        text = ""
        for w in beside:
            crate, _, name = w.partition("/")
            for path in (path_at(crate, name), path_at(crate, "proofs." + name)):
                text += open(path, encoding="utf-8").read() if os.path.exists(path) else ""
        for w in re.findall(r"`([^`]+)`", cells[1]):
            if w in edits or "/" in w or os.path.isdir(os.path.join(CRATES, w)):
                continue
            if not re.search(r"(?m)^ *(?:pub |abbrev |unfoldable |data |record )*" + re.escape(w) + r"( |:|$)", text):
                bad.append(w + " is not in " + ", ".join(beside))
    return bad


PLAIN = re.compile(r"[\w'·?ᴰ⁻¹₀-₉-]+(?:/[\w'-]+)?$|([a-z_]+)::([a-z_]+)$|(?:[a-z_]+::)?([a-z_]+)\(.*\)$|[\w/-]+\.(?:antt|rt|py|md|h|sh)$")


def unknown_names(page, names):
    """The names in backquotes that nothing declares. A goal of a function is declared by no file; that the function is there is looked at."""
    text = re.sub(r"```.*?```", "", open(os.path.join(ROOT, "docs", page), encoding="utf-8").read(), flags=re.S)
    text = re.sub(r"^    .*$", "", text, flags=re.M)
    text = re.sub(r"`[^`]+` in the proof of (`[^`]+`)", r"\1", text)
    bad = []
    for word in sorted(set(re.findall(r"`([^`\n]+)`", text))):
        pattern = word.startswith(("-", "specs/", "src/", "target/")) or any(mark in word for mark in ("*", "CRATE", ".."))
        path = os.path.exists(os.path.join(ROOT, word)) or os.path.exists(os.path.join(CRATES, word)) or any(word == f + ".antt" for f in names)
        plain = PLAIN.match(word)
        if not plain or word in names or word in KEYWORDS or pattern or path:
            continue
        if plain.group(1) or plain.group(3):
            # a function, with its crate or with its arguments
            if {plain.group(1), plain.group(2), plain.group(3)} - {None} <= names:
                continue
        crate, _, edit = word.partition("/")
        if (crate, edit) not in all_edits():
            bad.append(word)
    return bad


def read_all():
    files = {}
    for crate in sorted(os.listdir(CRATES)):
        specs = os.path.join(CRATES, crate, "specs")
        read_enums(crate, files)
        if os.path.isdir(specs):
            for name in sorted(os.listdir(specs)):
                if name.endswith(".antt") and name != "Lib.antt":
                    files[(crate, name[:-5])] = read_specs(os.path.join(specs, name), crate, name[:-5])
        proofs = os.path.join(CRATES, crate, "proofs")
        for name in sorted(os.listdir(proofs)) if crate in PROOFS and os.path.isdir(proofs) else []:
            if name.endswith(".antt") and name != "Lib.antt":
                files[(crate, "proofs." + name[:-5])] = read_specs(os.path.join(proofs, name), crate, "proofs." + name[:-5])
    return files


def size_of(found):
    """Lines of the blocks, and of the heads of the modules that they stand in, each once a file."""
    heads = {(b.crate, b.file, tuple(p)) for b, _ in found.values() for p in b.params}
    return sum(len(b.lines or b.statement) for b, _ in found.values()) + sum(len(p) for _, _, p in heads)


def path_of(block, files):
    f = files[(block.crate, block.file)]
    return f"{block.crate}/{f.src}" if hasattr(f, "src") else os.path.relpath(path_at(block.crate, block.file), CRATES)


def table(files, with_names):
    contracts, unknown, functions = contract_roots(files)
    finals, statements = statement_roots(files)
    by_contract, by_all, plain = reached(contracts, files), reached(contracts + finals, files), reached(contracts + finals, files, TIED)
    out = [f"{functions} public functions; final statements: " + ", ".join("`" + n + "`" for n in statements) + "."]
    if unknown:
        out.append("Names of contracts that were not found: " + ", ".join(sorted(set(unknown))) + ".")
    out += ["", "| file | definitions | lines that contracts cite | with the final statements |", "|---|---|---|---|"]
    rows = {}
    for key, (block, _) in by_all.items():
        rows.setdefault((ORDER.index(block.crate), path_of(block, files)), {})[key] = (block, "")
    crates = {}
    for (_, path), row in sorted(rows.items()):
        cited = {k: v for k, v in row.items() if k in by_contract}
        out.append(f"| `{path}` | {len(row)} | {size_of(cited)} | {size_of(row)} |")
        if with_names:
            out.append("    " + ", ".join(sorted(k[2] for k in row)))
        c = crates.setdefault(path.split("/")[0], [0, 0])
        c[0] += size_of(cited)
        c[1] += size_of(row)
    out.append(f"| together | {len(by_all)} | {sum(c[0] for c in crates.values())} | {sum(c[1] for c in crates.values())} |")
    out += ["", "By crate (contracts, and with the statements): " + "; ".join(f"{c} {n[0]}, {n[1]}" for c, n in crates.items()) + ".", ""]
    out += ["Read by way of the theorems below, which tie definitions that compute to propositions: "
            f"{len(plain)} definitions and statements, {size_of(plain)} lines.", ""]
    opaque, outside = also_named(by_all, files)
    words = sorted({w for _, w in outside if re.match(r"^[A-Za-z]", w)})
    out.append("Names of the toolchain's libraries in these lines: " + ", ".join("`" + w + "`" for w in words) + ".")
    out.append(f"All lines of specs, with those of the theorems in proofs/ of {' and '.join([', '.join(PROOFS[:-1]), PROOFS[-1]])}, comments and blank lines apart: {sum(f.total for f in files.values())}.")
    if with_names:
        out.append("Opaque: " + (", ".join(sorted(opaque)) or "none") + ".")
    return "\n".join(out) + "\n", set(words)


def why(name, files):
    found = reached(contract_roots(files)[0] + statement_roots(files)[0], files)
    for key, (_, source) in found.items():
        if key[2] == name:
            chain = ["/".join(key[:2]) + "." + name]
            while source:
                chain.append(source)
                source = next((v[1] for k, v in found.items() if k[0] + "/" + k[1] + "." + k[2] == source), None)
            print(" <- ".join(chain))


def exported(crate):
    """The heads and contracts of a crate's functions for C: name, parameters, answer and clauses, up to the body."""
    text = open(os.path.join(CRATES, crate, "src", "lib.rt"), encoding="utf-8").read()
    return dict(re.findall(r'(?ms)^#\[unsafe\(no_mangle\)\]\npub extern "C" fn (\w+)(.*?)^\{$', text))


def exports_differ():
    """Functions for C of grugalash and of grugalash_c, the static library over it, that are not the same in both."""
    library, archive = exported("grugalash"), exported("grugalash_c")
    return sorted(name for name in set(library) | set(archive) if library.get(name) != archive.get(name)), len(archive)


def filled(page, parts):
    """The page with each part between its markers; and whether that changes it."""
    old = page
    for begin, end, new in parts:
        before, rest = page.split(begin)
        page = before + begin + "\n" + new + end + rest.split(end)[1]
    return page, page == old


def check(page_fine, words):
    fine = page_fine
    print("the tables are those measured" if fine else "the tables are not those measured: python3 tools/count_specs.py --write")
    names = declared_names() | words
    for doc in ("THEOREMS.md", "PROMISES.md", "EDITS.md", "DECISIONS.md", "AREA.md"):
        bad = unknown_names(doc, names)
        fine = fine and not bad
        print(f"docs/{doc}: " + ("names that nothing declares: " + ", ".join(bad) if bad else "every name is declared"))
    for line in wrong_files("THEOREMS.md"):
        fine = False
        print("docs/THEOREMS.md: " + line)
    rows, edits = edit_rows(open(os.path.join(ROOT, "docs", "EDITS.md"), encoding="utf-8").read()), all_edits()
    for key in sorted(set(rows) ^ set(edits)):
        fine = False
        print("docs/EDITS.md: " + "/".join(key) + (" is not listed" if key in edits else " is no edit"))
    differ, count = exports_differ()
    print("grugalash_c: " + ("differs from grugalash: " + ", ".join(differ) if differ else f"{count} functions with the contracts of grugalash"))
    return fine and not differ


def main():
    asked, files = sys.argv[1:], read_all()
    if "--why" in asked:
        why(asked[asked.index("--why") + 1], files)
    elif "--edits" in asked:
        write_edits(asked[asked.index("--edits") + 1:] or [os.path.join(ROOT, "target", "must-fail")])
    elif "--files" in asked:
        print(index(files), end="")
    elif "--write" in asked or "--check" in asked:
        path = os.path.join(ROOT, "docs", "THEOREMS.md")
        counted, words = table(files, False)
        page, same = filled(open(path, encoding="utf-8").read(), ((BEGIN, END, counted), (FILES_BEGIN, FILES_END, index(files))))
        if "--write" in asked:
            open(path, "w", encoding="utf-8").write(page)
        elif not check(same, words):
            sys.exit(1)
    else:
        print(table(files, "--names" in asked)[0], end="")


if __name__ == "__main__":
    main()
