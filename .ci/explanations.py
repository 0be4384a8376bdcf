"""Tries `explain` and `help`: `explanations.py WY_AID WY`.

Each source of examples/refused has its explanation beside it, in a file of the same name that ends in `.txt`, and its objects of JSON tell
the same place and kind; they and two large sources have every word of a fault. Those of examples/unshown take at most 30 lines of at most
100 columns, name the clause that README.md there has, and take at most 1.3 of the time of `check` and a second each. Sources that are changed
at random, by a fixed seed, are explained without a crash, and with the status and the place that `check` has. docs/WRITING.md has each hint.
The last line tells how many agreed. Where a program doesn't stand, nothing is tried.
"""
import glob
import json
import os
import random
import re
import subprocess
import sys
import tempfile
import time

HERE = os.path.dirname(os.path.dirname(os.path.abspath(__file__)))
MUTANTS, SEED = 200, 20240
PIECES = re.compile(rb"[A-Za-z_0-9]+|\n *|[ \t]+|==>|[=!<>]=|&&|\|\||\.\.|->|.", re.S)


def called(program, words, folder):
    ran = subprocess.run([program, *words], cwd=folder, capture_output=True, check=False, timeout=120)
    return ran.returncode, ran.stdout.decode(errors="replace"), ran.stderr.decode(errors="replace")


def place(text):
    """The file, line and column, and the number of the condition, of the first line."""
    found = re.match(r"(\S+:\d+:\d+): (condition \d+)?", text)
    return found.groups() if found else None


def agrees(programs, name, folder, *options):
    """The explanation, where its status and its first place are those of `check`; else nothing."""
    status, out, err = called(programs[0], ["explain", name, *options], folder)
    wanted, _, line = called(programs[1], ["check", name, "none", *options], folder)
    same = status == wanted and (status == 0 or place(out) == place(line))
    return out if same and err == "" else None


def as_written(programs):
    """Each refused example, with its explanation as it stands beside it."""
    for path in sorted(glob.glob(f"{HERE}/examples/refused/*.wy")):
        with open(path[:-3] + ".txt", encoding="utf-8", errors="replace") as file:
            wanted = file.read()
        yield os.path.basename(path), agrees(programs, os.path.basename(path), os.path.dirname(path)) == wanted


KEYS = {"file", "line", "column", "end", "kind", "condition", "ending", "message", "places", "goal", "literals", "hidden", "names", "hint"}


def as_object(it):
    """What the first line of an explanation has, by the object that tells the same."""
    number = f"condition {it['condition']} " if it["condition"] else ""
    ending = f": {it['ending']}" if it["condition"] else ""
    return f"{it['file']}:{it['line']}:{it['column']}: {number}{it['kind']}{ending}"


def as_json(programs):
    """Each refused example, as objects for editors."""
    for path in sorted(glob.glob(f"{HERE}/examples/refused/*.wy")):
        name, folder = os.path.basename(path), os.path.dirname(path)
        with open(path[:-3] + ".txt", encoding="utf-8", errors="replace") as file:
            wanted = file.readline().rstrip("\n")
        status, out, err = called(programs[0], ["explain", name, "--json"], folder)
        objects = [json.loads(line) for line in out.splitlines()]
        fit = all(set(it) == KEYS and it["end"]["line"] >= it["line"] for it in objects)
        yield name, (status, err) == (1, "") and fit and objects != [] and as_object(objects[0]) == wanted


def clauses():
    """The clause of each example that isn't shown: its line and its text."""
    with open(f"{HERE}/examples/unshown/README.md", encoding="utf-8") as table:
        for line in table:
            cells = [it.strip().replace("\\|", "|").strip("`") for it in re.split(r"(?<!\\)\|", line.strip())[1:-1]]
            if len(cells) == 3 and os.path.exists(f"{HERE}/examples/unshown/{cells[0]}.wy"):
                yield cells[0], [] if cells[1] == "-" else [(int(cells[1]), cells[2])]


def timed(program, words, folder):
    began = time.monotonic()
    return called(program, words, folder), time.monotonic() - began


def short(programs):
    """Each example that isn't shown is explained in few lines, with the clause that is owed, in time."""
    folder, owed = f"{HERE}/examples/unshown", dict(clauses())
    for path in sorted(glob.glob(f"{folder}/*.wy")):
        name = os.path.basename(path)
        options = ["--budget", "20" if name == "merge.wy" else "200"]
        (wanted, _, line), checked = timed(programs[1], ["check", name, "none", *options], folder)
        (status, out, err), took = timed(programs[0], ["explain", name, *options], folder)
        lines = out.splitlines()
        small = len(lines) <= 30 and all(len(it) <= 100 for it in lines) and took <= 1.3 * checked + 1
        yield name, (status, err) == (wanted, "") and small and (status == 0 or place(out) == place(line))
        _, text, _ = called(programs[0], ["explain", name, "--json", *options], folder)
        places = json.loads(text.splitlines()[0])["places"] if status else []
        told = [(it["line"], it["text"]) for it in places if re.match("This|Its", it["message"])][:1]
        yield f"the clause of {name}", status == 0 or told == owed[name[:-3]]


def every_word(programs):
    """Each word of a fault stands at the head of an explanation."""
    heads = "\n".join(out for _, out in large_ones(programs))
    for path in glob.glob(f"{HERE}/examples/refused/*.txt"):
        with open(path, encoding="utf-8", errors="replace") as file:
            heads += "\n" + file.readline()
    for path in ("wy_parse_front/src/fault.rt", "wy_aid/src/passes.rt"):
        with open(f"{HERE}/crates/{path}", encoding="utf-8") as file:
            for word in sorted(set(re.findall(r'"([A-Z]\w+)"', file.read()))):
                yield word, re.search(rf"^\S+: {word}$", heads, re.M) is not None


def hints(_programs):
    """The table of docs/WRITING.md has each hint."""
    with open(f"{HERE}/docs/WRITING.md", encoding="utf-8") as file:
        page = file.read().replace("\\|", "|")
    with open(f"{HERE}/crates/wy_explain/src/hints.rt", encoding="utf-8") as file:
        listed = re.search(r"HINTS: .*?\];", file.read().replace("\\n", " "), re.S)[0]
    for text in re.findall(r'^    "(.*)",$', listed, re.M):
        yield text, f"| {text} |" in page


def mutant(sources, chance):
    """A source with one to three of its pieces left out, written twice, or put in the place of others."""
    pieces = PIECES.findall(chance.choice(sources))
    for _ in range(chance.randint(1, 3)):
        at, other = chance.randrange(len(pieces)), chance.choice(pieces)
        pieces[at] = chance.choice([b"", pieces[at] * 2, other, other + pieces[at]])
    return b"".join(pieces)


def changed(programs):
    """Sources that are changed at random."""
    chance, sources = random.Random(SEED), []
    for path in sorted(glob.glob(f"{HERE}/examples/*/*.wy")):
        with open(path, "rb") as file:
            sources.append(file.read())
    with tempfile.TemporaryDirectory(prefix="wy-explanations-") as room:
        for number in range(MUTANTS):
            source = mutant(sources, chance)
            with open(f"{room}/{number}.wy", "wb") as file:
                file.write(source)
            yield f"the mutant {number}", agrees(programs, f"{number}.wy", room, "--budget", "200") is not None


def large_ones(programs):
    """The two faults that no small source has: the wanted first line, and the explanation."""
    many = "".join(f"property p{k}(int x) where x == {k}\n" for k in range(4097))
    parts = {"A": range(72), "B": range(72, 146), "C": range(57), "D": range(57, 114)}
    types = [f"type {name} is " + " | ".join(f"{{int {'ac'[name in 'CD']}{k}}}" for k in those) for name, those in parts.items()]
    wide = "\n".join(types) + "\ntype W is (A | B) & (C | D)\nmethod m(W x):\n    skip\n"
    for source, wanted in ((many, "a.wy:4097:1: TooMany\n"), (wide, "a.wy:6:10: TypeWide\n")):
        with tempfile.TemporaryDirectory(prefix="wy-explanations-") as room:
            with open(f"{room}/a.wy", "w", encoding="utf-8") as file:
                file.write(source)
            yield wanted, agrees(programs, "a.wy", room) or ""


def large(programs):
    for wanted, out in large_ones(programs):
        yield wanted.strip(), out.startswith(wanted)


def words(programs):
    """Words that are told, and words that aren't."""
    status, out, err = called(programs[0], ["help"], HERE)
    yield "help", status == 0 and err == "" and all(f"./wy {it} " in out for it in ("check", "explain", "run"))
    yield "no words", called(programs[0], [], HERE) == (2, "", "wy: words refused\n")
    yield "no file", called(programs[0], ["explain", "absent.wy"], HERE) == (3, "", "wy: absent.wy: absent\n")


def main():
    programs = [os.path.abspath(it) for it in sys.argv[1:3]]
    if not all(map(os.path.exists, programs)):
        print("explanations: no program stands there, so nothing is tried")
        return 0
    passed, failed = 0, 0
    for table in (as_written, as_json, short, every_word, changed, large, hints, words):
        for name, agreed in table(programs):
            passed, failed = passed + agreed, failed + (not agreed)
            if not agreed:
                print(f"explanations: {table.__name__}: {name} differs")
    print(f"{passed} passed, {failed} failed")
    return 1 if failed else 0


sys.exit(main())
