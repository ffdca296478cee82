"""The pictures of docs/LESSON.md, drawn from what the library prints.

    python3 tools/draw_lesson.py [--check]
        writes docs/pictures/table.svg and docs/pictures/steps.svg; with --check it writes nothing and says whether they are as they would be

First it plays every row of tools/lesson_rows.txt (three lines each: grammar words, tokens, cuts) and of tools/lesson_schedules.txt (a fourth
line: the order of calls) through the library, by examples/c/play.sh, compares what the library answers with the reference reader, and looks
that docs/LESSON.md shows it. Any difference ends it with 1.
"""

import re
import subprocess
import sys
from pathlib import Path

sys.dont_write_bytecode = True

from grugalash_reference import chunks, grammar, matrix, moves  # noqa: E402
from grugalash_reference.rows_text import rows  # noqa: E402

ROOT = Path(__file__).resolve().parent.parent
PAGE = (ROOT / "docs/LESSON.md").read_text()
TERMINALS = ["#", "s", ",", "(", ")", "c"]
NONTERMINALS = ["I", "L"]
RULES = ["I is s", "I is ( I ) c", "I is ( L ) c", "L is I , I", "L is L , I"]


def fail(what):
    print(f"lesson: FAILED: {what}")
    sys.exit(1)


def texts(file, lines):
    """The cases of a file, so many lines each."""
    all_lines = (ROOT / file).read_text().splitlines()
    return [all_lines[i : i + lines] for i in range(0, len(all_lines), lines)]


def play(case, *words):
    """What the library prints for a case."""
    run = subprocess.run([ROOT / "examples/c/play.sh", *words], input="\n".join(case) + "\n", capture_output=True, text=True, check=False)
    if run.returncode == 2 or run.stderr:
        sys.stderr.write(run.stderr)
    return run.stdout.splitlines()


def in_order(count):
    """The schedule of `rows`: each chunk to rest, then chunk 0 joined rightwards."""
    return " ".join([f"run {c}" for c in range(count)] + ["join 0 run 0"] * (count - 1))


def answer(lines):
    """The last lines that a play prints: the report or the refusal, as `rows` writes it."""
    for at, line in enumerate(lines):
        if line.startswith("parse "):
            return lines[at:]
    return [re.sub(r"^(load|start): ", "", lines[-1])]


def indented(lines):
    """Whether the page shows these lines as one block."""
    return "".join(f"    {line}\n" for line in lines) in PAGE


def moves_shown(cuts):
    """The count of moves that the page's tables give for these cuts, or None."""
    for head, _, counts in re.findall(r"^\| cuts \|(.*)\|\n\|([-|]*)\n\| moves \|(.*)\|$", PAGE, re.M):
        columns = [column.strip() for column in head.split("|")]
        if (cuts or "none") in columns:
            return counts.split("|")[columns.index(cuts or "none")].strip()
    return None


def check_row(case):
    """A row of lesson_rows.txt: library, reference and page agree."""
    by_library = answer(play([*case, in_order(len(case[2].split()) + 1)]))
    by_reference = rows("".join(line + "\n" for line in case).encode()).decode().splitlines()
    if by_library != by_reference:
        fail(f"{case}: the library says {by_library}, the reference {by_reference}")
    if by_library[0].startswith("refused"):
        shown = re.search(rf"^    ({re.escape(case[1])} .*)?{by_library[0]}$", PAGE, re.M)
    else:
        shown = indented(by_library) or (indented(by_library[1:]) and moves_shown(case[2]) == by_library[0].split()[3])
    if not shown:
        fail(f"the page does not show {case[1:]}: {by_library}")


def by_reference(case):
    """A schedule by the reference: the reductions in the order made, and the moves; or the refusal."""
    words, tokens, cuts = ([int(word) for word in line.split()] for line in case[:3])
    table = bytearray(matrix.MATRIX_BYTES)
    matrix.load(words, table)
    state = chunks.first_state(tokens, cuts)
    calls = case[3].split()
    for call, number in zip(calls[::2], calls[1::2]):
        if call == "join":
            moves.join(state, int(number))
        else:
            moves.run(grammar.read(words), table, state, int(number), 1 if call == "step" else 1 << 30)
    return state


def check_schedule(case):
    """A case of lesson_schedules.txt: the library's count of moves and report are the reference's, and the page has the count."""
    by_library = answer(play(case))
    state = by_reference(case)
    if state.chunks[0].stuck:
        wanted = [f"refused {state.chunks[0].stuck} {state.chunks[0].place}"]
    else:
        entries = sorted(state.reductions, key=lambda entry: (entry.after, -entry.first, entry.rule))
        wanted = [f"parse {state.n} {len(state.chunks)} {state.moves}"] + [f"{e.rule} {e.first} {e.after}" for e in entries]
    if by_library != wanted:
        fail(f"{case}: the library says {by_library}, the reference {wanted}")
    if not re.search(rf"\b{wanted[0].split()[-1]}\b", PAGE):
        fail(f"the page does not show {wanted[0]}")


def named(symbol):
    """A symbol as `play` prints it, by the name of the lesson."""
    mark, symbol = ("<", symbol[1:]) if symbol.startswith("<") else ("", symbol)
    return mark + (NONTERMINALS[int(symbol[1:])] if symbol.startswith("N") else TERMINALS[int(symbol)])


def check_moves(case):
    """The page's table of moves is what the library's area has after each move."""
    states = [line for line in play(case) if line.startswith("  chunk 0:")]
    lines = re.findall(r"^\| (\d*) ?\| (#.*?) \| (.*?) ?\| .* \|$", PAGE, re.M)
    if len(states) != len(lines):
        fail(f"the page has {len(lines)} moves, the library {len(states)}")
    for state, (number, stack, unread) in zip(states, lines):
        sides = [" ".join(named(symbol) for symbol in side.split()) for side in state.split(":", 1)[1].split("|")]
        if sides != [stack.strip(), unread.strip()]:
            fail(f"move {number}: the library has {sides}, the page {stack} | {unread}")


# ---- the pictures

INK, PALE, FONT = "#222222", "#8a8a8a", "font-family='DejaVu Sans, Verdana, sans-serif'"
COLOURS = {"<": "#cfe3f7", "=": "#dff0d0", ">": "#f9dfc4", ".": "#f2f2f2"}
MEANINGS = {"<": "yields", "=": "equal", ">": "takes", ".": "blank"}


def escaped(text):
    return text.replace("&", "&amp;").replace("<", "&lt;").replace(">", "&gt;")


def text(x, y, words, size=16, anchor="middle", fill=INK):
    return f"<text x='{x}' y='{y}' font-size='{size}' text-anchor='{anchor}' fill='{fill}' {FONT}>{escaped(words)}</text>"


def box(x, y, width, height, fill):
    return f"<rect x='{x}' y='{y}' width='{width}' height='{height}' fill='{fill}' stroke='{INK}' stroke-width='1' rx='3'/>"


def svg(width, height, title, parts):
    head = f"<svg xmlns='http://www.w3.org/2000/svg' width='{width}' height='{height}' viewBox='0 0 {width} {height}' role='img'>"
    return "\n".join([head, f"<title>{escaped(title)}</title>", f"<rect width='{width}' height='{height}' fill='white'/>", *parts, "</svg>", ""])


def table_picture(lines):
    """A line for each topmost stack terminal a, a column for each next symbol b."""
    cell, left, top = 44, 130, 70
    size = len(lines)
    parts = [text(left + size * cell / 2, 24, "next symbol b", 14, fill=PALE), text(14, top + size * cell / 2 + 5, "topmost a", 14, "start", PALE)]
    for b in range(size):
        parts.append(text(left + b * cell + cell / 2, top - 14, TERMINALS[b], 18))
    for a, line in enumerate(lines):
        parts.append(text(left - 20, top + a * cell + cell / 2 + 6, TERMINALS[a], 18))
        for b, sign in enumerate(line.split()):
            parts.append(box(left + b * cell, top + a * cell, cell, cell, COLOURS[sign]))
            if sign != ".":
                parts.append(text(left + b * cell + cell / 2, top + a * cell + cell / 2 + 7, sign, 20))
    for i, (sign, meaning) in enumerate(MEANINGS.items()):
        y = top + 20 + i * 52
        parts += [box(left + size * cell + 40, y, 32, 32, COLOURS[sign]), text(left + size * cell + 56, y + 22, sign.replace(".", ""), 18)]
        parts.append(text(left + size * cell + 84, y + 21, meaning, 16, "start"))
    return svg(left + size * cell + 180, top + size * cell + 20, "The table of grammar K", parts)


def steps_picture(tokens, lines):
    """The tokens of the row, and over them a bar for each step, on top of the steps that it covers."""
    cell, left, bar = 84, 20, 34
    entries = [tuple(int(word) for word in line.split()) for line in lines]
    levels = []
    for i, (_, first, after) in enumerate(entries):
        levels.append(1 + max((levels[j] for j in range(i) if first <= entries[j][1] and entries[j][2] <= after), default=-1))
    ground = 24 + (max(levels) + 1) * (bar + 8)
    parts = []
    for place, token in enumerate(tokens):
        x = left + place * cell
        parts += [box(x + 4, ground, cell - 8, 40, "#ffffff"), text(x + cell / 2, ground + 27, TERMINALS[token], 20)]
        parts.append(text(x + cell / 2, ground + 62, f"place {place}", 12, fill=PALE))
    for step, ((rule, first, after), level) in enumerate(zip(entries, levels), 1):
        y = ground - (level + 1) * (bar + 8)
        fill = COLOURS["<"] if RULES[rule].startswith("I") else COLOURS[">"]
        parts.append(box(left + first * cell + 4, y, (after - first) * cell - 8, bar, fill))
        label = f"{step}: {RULES[rule]}"
        parts.append(text(left + (first + after) * cell / 2, y + 22, label, 13))
    return svg(2 * left + len(tokens) * cell, ground + 76, "The steps of the row s , ( s , s ) c", parts)


def main():
    cases, schedules = texts("tools/lesson_rows.txt", 3), texts("tools/lesson_schedules.txt", 4)
    for case in cases:
        check_row(case)
    for case in schedules:
        check_schedule(case)
    check_moves(schedules[0])
    table = play([*cases[0], ""], "table")
    shown = ["a \\ b   " + "  ".join(TERMINALS)] + [f"  {name}     " + "  ".join(line.split()) for name, line in zip(TERMINALS, table)]
    if not indented(shown):
        fail("the page shows another table")
    tokens = [int(word) for word in cases[0][1].split()]
    report = answer(play([*cases[0], in_order(1)]))
    pictures = {"table.svg": table_picture(table), "steps.svg": steps_picture(tokens, report[1:])}
    folder = ROOT / "docs/pictures"
    for name, picture in pictures.items():
        if "--check" in sys.argv[1:]:
            if not (folder / name).exists() or (folder / name).read_text() != picture:
                fail(f"docs/pictures/{name} is not what this script draws")
        else:
            folder.mkdir(exist_ok=True)
            (folder / name).write_text(picture)
    print(f"lesson: ok: {len(cases)} rows and {len(schedules)} schedules, as the library, the reference and the page have them; pictures: {' '.join(pictures)}")


if __name__ == "__main__":
    main()
