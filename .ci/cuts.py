"""Cuts a certificate, a source, an argument text and a cache at every byte, and changes a cache, 1,000 times: `cuts.py PROGRAM`.

What is wanted is worked out here from the rules, by a reader of its own: the first fault of a certificate file by its lines, the first
token of a source after which no program can follow, the offset at which an argument text leaves its grammar. A piece of a cache is none.
With a cache that was changed a program is accepted and refused as `check` does without one; what is as it was is kept, what the cache has
no entry for isn't, and what is saved keeps all of an accepted program. The last line counts.
"""
import concurrent.futures
import os
import random
import re
import subprocess
import sys
import tempfile

PROGRAM = os.path.abspath(sys.argv[1])
SOURCE = b"function inc(int x) -> (int r)\nrequires x < 100\nensures r > x:\n    return x + 1\n"
CERTIFICATES = b"wycert 1\ncond 1\nsum 1 2 1 5\ncond 2\nsum 1 4 1 6\ncond 3\nsum 1 7\nend\n"
LOW, HIGH, SUM = b"-39614081257132168796771975168", b"39614081257132168796771975167", b"add(num(x.0), 1)"
KNOWN = [b"kind(x.0, int)", LOW + b" <= num(x.0)", b"num(x.0) <= " + HIGH, b"not 100 <= num(x.0)", LOW + b" <= " + SUM, SUM + b" <= " + HIGH]
# another promise, which is false, and the goal of each
PROMISES = {b"r > x": b"not " + SUM + b" <= num(x.0)", b"r > 7": b"not " + SUM + b" <= 7"}
STEPS = [b"sum 1 2 1 5", b"sum 1 4 1 6", b"sum 1 7"]
KEYWORDS = b"""type is where function method property requires ensures if else while do switch case default for in return
break continue assert fail skip all some null bool int any void true false import""".split()
COMPARISONS = {b"<", b"<=", b">", b">=", b"==", b"!="}


class Unexpected(Exception):
    """The token at this offset is the first after which no program can follow."""


def fault_of_certificates(text):
    """The fault of a text that begins as the certificates do: a line that is whole is a good one."""
    if not text.startswith(b"wycert 1\n"):
        return "1: BadHeader"
    return f"{1 + text.count(10)}: Truncated"


def tokens_of(text):
    """Pairs of a token and its offset. A line end is made where the next line doesn't go on with the line before."""
    found, depth, line, blocks = [], 0, None, 0
    for it in re.finditer(rb"(?P<end>\n *)|[ ]|[a-z]+|[0-9]+|->|[<>=!]=|[^ \n]", text):
        if it["end"]:
            line = it if found and depth == 0 else None
            continue
        if it[0] == b" ":
            continue
        if line and it[0] not in (b"requires", b"ensures"):
            found.append((b"LINE", line.start()))
            if len(line[0]) > 1 and not blocks:
                blocks = 1
                found.append((b"IN", it.start()))
        line = None
        depth += (it[0] == b"(") - (it[0] == b")" and depth > 0)
        found.append((it[0], it.start()))
    if found and depth == 0:
        found.append((b"LINE", line.start() if line else len(text)))
        found += [(b"OUT", len(text))] * blocks
    return [*found, (b"END", len(text))]


class Reader:
    """Reads tokens by the part of the grammar that the source uses, and refuses the first that doesn't fit."""

    def __init__(self, tokens):
        self.tokens = tokens
        self.at = 0

    def sees(self, *wanted):
        token = self.tokens[self.at][0]
        kind = b"NAME" if token.isalpha() and token.islower() and token not in KEYWORDS else token
        return kind in wanted or token.isdigit() and b"NUMERAL" in wanted

    def take(self, *wanted):
        if not self.sees(*wanted):
            raise Unexpected(self.tokens[self.at][1])
        self.at += 1

    def program(self):
        while not self.sees(b"END"):
            self.declaration()

    def declaration(self):
        for token in (b"function", b"NAME", b"(", b"int", b"NAME", b")", b"->", b"(", b"int", b"NAME", b")"):
            # a type may be a name as well as `int`
            self.take(*((token, b"NAME") if token == b"int" else (token,)))
        while self.sees(b"requires", b"ensures"):
            self.take(b"requires", b"ensures")
            self.sum()
            if self.sees(*COMPARISONS):
                self.take(*COMPARISONS)
                self.sum()
        for token in (b":", b"LINE", b"IN"):
            self.take(token)
        self.statement()
        self.take(b"OUT")

    def statement(self):
        if self.sees(b"NAME"):
            # a declaration, an assignment or a call begins so: the source has none of them whole
            self.take(b"NAME")
            self.take(b"NAME", b"=", b"(", b"[", b".")
        self.take(b"return")
        if not self.sees(b"LINE"):
            self.sum()
        self.take(b"LINE")

    def sum(self):
        self.take(b"NAME", b"NUMERAL")
        while self.sees(b"+", b"-"):
            self.take(b"+", b"-")
            self.take(b"NAME", b"NUMERAL")


def layout_of(text):
    """What `fmt` answers: the same text up to spaces at its end and a line end, or the first fault."""
    try:
        Reader(tokens_of(text)).program()
    except Unexpected as fault:
        offset = fault.args[0]
        line = 1 + text[:offset].count(10)
        return 1, b"", b"i.wy:%d:%d: Unexpected\n" % (line, offset - text[:offset].rfind(b"\n"))
    return 0, text.rstrip() + b"\n" if text else b"", b""


def entries_for(promise):
    """The entries of the program's cache: the lines of a condition, and those of its steps."""
    goals = [KNOWN[4], KNOWN[5], PROMISES[promise]]
    return [((*KNOWN[: 4 + n], goal), (step,)) for n, (goal, step) in enumerate(zip(goals, STEPS))]


def cache_of(entries):
    lines = [b"wycache 1"]
    for key, steps in entries:
        lines += [b"for %d" % (len(key) - 1), *key, b"by %d" % len(steps), *steps]
    return b"\n".join([*lines, b"end", b""])


def entries_in(text):
    """The first entry of each condition in a cache, and nothing where the text is none."""
    found, lines = {}, text.split(b"\n")
    if lines[0] != b"wycache 1" or lines[-2:] != [b"end", b""]:
        return {}
    left = lines[1:-2]
    while left:
        key = taken(left, rb"for (0|[1-9]\d{0,7})", 1)
        steps = taken(left, rb"by ([1-9]\d{0,7})", 0)
        if key is None or steps is None:
            return {}
        found.setdefault(key, steps)
    return found


def taken(lines, pattern, more):
    """Takes a line with a number and so many lines behind it, and `more`; None where they aren't there."""
    head = re.fullmatch(pattern, lines.pop(0)) if lines else None
    many = int(head[1]) + more if head else len(lines) + 1
    if many > len(lines):
        return None
    own, lines[:] = tuple(lines[:many]), lines[many:]
    return own


def changed(entries, draw):
    """A cache of these entries in which a few lines, bytes and steps are others."""
    entries = list(entries)
    if draw.random() < 0.5:
        at = draw.randrange(len(entries))
        entries[at] = entries[at][0], draw.choice(entries)[1]
    lines = cache_of(entries).split(b"\n")
    for _ in range(draw.randint(0, 2)):
        at, other = draw.randrange(len(lines)), draw.randrange(len(lines))
        how = draw.randrange(4)
        if how == 0:
            del lines[at]
        elif how == 1:
            lines.insert(at, lines[other])
        elif how == 2:
            lines[at], lines[other] = lines[other], lines[at]
        elif lines[at]:
            byte = draw.randrange(len(lines[at]))
            lines[at] = lines[at][:byte] + bytes([draw.randrange(32, 127)]) + lines[at][byte + 1 :]
    return b"\n".join(lines)


def fault_of_cache(seed):
    """What is wrong of a cache that is made by this number, or nothing."""
    promise = (b"r > x", b"r > 7")[seed % 2]
    source, entries = SOURCE.replace(b"r > x", promise), entries_for(promise)
    text = changed(entries, random.Random(seed))
    found = entries_in(text)
    least = sum(found.get(key) == steps for key, steps in entries[: 3 if promise == b"r > x" else 2])
    most = sum(key in found for key, _ in entries)
    with tempfile.TemporaryDirectory(prefix="wy-cut-") as room:
        def call(*words):
            it = subprocess.run([PROGRAM, *words], cwd=room, capture_output=True, stdin=subprocess.DEVNULL, check=False)
            return it.returncode, it.stdout, it.stderr

        for name, content in (("p.wy", source), ("k", text)):
            with open(f"{room}/{name}", "wb") as file:
                file.write(content)
        status, out, err = call("check", "p.wy", "none")
        got = call("again", "p.wy", "k")
        if status != 0:
            return "" if got == (status, out, err) else f"{got}, and not {(status, out, err)}"
        numbers = re.fullmatch(rb"accepted 3 conditions, (\d) kept, (\d) searched\n", got[1])
        if (got[0], got[2]) != (status, err) or not numbers:
            return f"{got}, and not accepted"
        kept, searched = map(int, numbers.groups())
        if not least <= kept <= most or kept + searched != 3:
            return f"{kept} kept and {searched} searched, and not from {least} to {most} kept"
        again = call("again", "p.wy", "k", "--budget", "0")
        return "" if again == (0, b"accepted 3 conditions, 3 kept, 0 searched\n", b"") else f"behind the save {again}"


def ran(words, files):
    with tempfile.TemporaryDirectory(prefix="wy-cut-") as room:
        for name, text in files.items():
            with open(f"{room}/{name}", "wb") as file:
                file.write(text)
        it = subprocess.run([PROGRAM, *words], cwd=room, capture_output=True, stdin=subprocess.DEVNULL, check=False)
    return it.returncode, it.stdout, it.stderr


def cases():
    """Each piece: its name, the words, the files, and what is wanted."""
    for n in range(len(CERTIFICATES)):
        cut = CERTIFICATES[:n]
        wanted = 6, b"", f"c:{fault_of_certificates(cut)}\n".encode()
        yield f"{n} bytes of certificates", ["check", "inc.wy", "c"], {"inc.wy": SOURCE, "c": cut}, wanted
    accepted = 0, b"accepted 3 conditions\n", b""
    files = {"inc.wy": SOURCE, "c": CERTIFICATES}
    yield "certificates", ["check", "inc.wy", "c", "--budget", "0"], files, accepted
    for n in range(len(SOURCE) + 1):
        yield f"{n} bytes of a source", ["fmt", "i.wy"], {"i.wy": SOURCE[:n]}, layout_of(SOURCE[:n])
    cache = cache_of(entries_for(b"r > x"))
    for n in range(len(cache) + 1):
        kept = 3 if n == len(cache) else 0
        wanted = 0, b"accepted 3 conditions, %d kept, %d searched\n" % (kept, 3 - kept), b""
        yield f"{n} bytes of a cache", ["again", "inc.wy", "k"], {"inc.wy": SOURCE, "k": cache[:n]}, wanted
    text, files = "({head: 12, tail: [null, true]})", {"a.wy": b"function f(any x) -> any:\n    return x\n"}
    for n in range(len(text)):
        wanted = 7, b"", b"wy: argument text: Shape at %d\n" % n
        yield f"{n} bytes of arguments", ["run", "a.wy", "none", "f", text[:n]], files, wanted


def main():
    all_cases, failed = list(cases()), 0
    with concurrent.futures.ThreadPoolExecutor(os.cpu_count()) as pool:
        for (name, _, _, wanted), got in zip(all_cases, pool.map(lambda it: ran(it[1], it[2]), all_cases)):
            if got != wanted:
                failed += 1
                print(f"cuts: {name}: {got}, and not {wanted}")
        for seed, fault in zip(range(1000), pool.map(fault_of_cache, range(1000))):
            if fault:
                failed += 1
                print(f"cuts: cache {seed}: {fault}")
    print(f"{len(all_cases) + 1000 - failed} passed, {failed} failed")
    return 1 if failed else 0


sys.exit(main())
