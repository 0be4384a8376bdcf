"""Plays the stored runs of `runs/` against a built program, some side by side: `runs.py PROGRAM [FOLDER ..]`.

A call of `check` or `run` is played again by three workers, which is to give the same.

Prints each difference, and in the last line how many cases passed. runs/README.md tells how a case is written.
"""
import concurrent.futures
import dataclasses
import glob
import json
import os
import re
import shlex
import subprocess
import sys
import tempfile

HERE = os.path.dirname(os.path.dirname(os.path.abspath(__file__)))
SECONDS = 120


@dataclasses.dataclass
class Step:
    """One call of the program: what lies in the folder before, the words, and what is wanted behind."""

    folder: str
    given: dict = dataclasses.field(default_factory=dict)
    folders: list = dataclasses.field(default_factory=list)
    words: list = None
    sink: str = None
    statuses: tuple = (0,)
    wanted: dict = dataclasses.field(default_factory=lambda: {"out": b"", "err": b""})
    patterns: dict = dataclasses.field(default_factory=dict)
    ticks: int = None
    is_same: bool = False

    def stored(self, name):
        with open(f"{self.folder}/{name}", "rb") as file:
            return file.read()

    def add(self, name, text):
        """Adds to a file that is given, or behind the call to a text that is wanted."""
        texts = self.given if self.words is None else self.wanted
        texts[name] = texts.get(name, b"") + text

    def repeated(self, rest):
        """The text so many times, or once for each number from the first up to the second."""
        numbers, text = re.fullmatch(r"((?:\d+ )+)(.*)", rest).groups()
        text = self.stored(text[2:]) if text.startswith("< ") else json.loads(text).encode()
        first, *behind = map(int, numbers.split())
        if not behind:
            return text * first
        numbered = (text.replace(b"<n>", b"%d" % n).replace(b"<m>", b"%d" % (n + 1)) for n in range(first, behind[0]))
        return b"".join(numbered)

    def read(self, line):
        """Takes in one line of the table."""
        head, _, rest = line.partition(" ")
        sign, _, value = rest.partition(" ")
        if head == "$":
            words, _, sink = rest.partition(" > ")
            self.words, self.sink = json.loads(words) if words.startswith("[") else shlex.split(words), sink or None
        elif head == "=":
            self.statuses = tuple(map(int, rest.split()))
        elif head == "<":
            for name in rest.split():
                self.add(name, self.stored(name))
        elif head == "ticks":
            self.ticks = int(rest)
        elif head == "same":
            self.is_same = True
        elif head.endswith("|"):
            self.add(head[:-1], rest.encode() + b"\n")
        elif sign == "<":
            name, _, length = value.partition(" ")
            self.add(head, self.stored(name)[: int(length) if length else None])
        elif sign == "=":
            self.add(head, json.loads(value).encode())
        elif sign == "*":
            self.add(head, self.repeated(value))
        elif sign == "~":
            self.patterns[head] = re.compile(value.encode(), re.S)
        elif sign == "/":
            self.folders.append(head)
        else:
            raise ValueError(f"{self.folder}: {line}")

    def play(self, program, room):
        for name in self.folders:
            os.makedirs(f"{room}/{name}", exist_ok=True)
        for name, text in self.given.items():
            with open(f"{room}/{name}", "wb") as file:
                file.write(text)
        with open(self.sink or os.devnull, "wb") as sink:
            how = {"stdout": sink if self.sink else subprocess.PIPE, "stderr": subprocess.PIPE, "timeout": SECONDS}
            ran = subprocess.run([program, *self.words], cwd=room, stdin=subprocess.DEVNULL, check=False, **how)
        return ran.returncode, ran.stdout or b"", ran.stderr

    def differs(self, result, room):
        """Says how the results differ from what is wanted, or nothing."""
        status, *streams = result
        if status not in self.statuses:
            return f"status {status}, and not {self.statuses}: {streams[1][:200]!r}"
        got = dict(zip(("out", "err"), streams))
        for name, text in self.wanted.items():
            found = got[name] if name in got else self.found(f"{room}/{name}")
            if name in self.patterns:
                if not self.patterns[name].fullmatch(found):
                    return f"{name} is {found[:300]!r}, and not like {self.patterns[name].pattern!r}"
            elif found != text:
                return f"{name} is {found and found[:300]!r}, and not {text[:300]!r}"
        instructions = sum(line.startswith(b" ") for line in got["out"].split(b"\n"))
        if self.ticks is not None and instructions > 16 * self.ticks:
            return f"{instructions} instructions for {self.ticks} ticks"
        return ""

    def by_workers(self):
        """The same call by three workers, if it is one that judges conditions and doesn't say by how many."""
        if not self.words or self.words[0] not in ("check", "run") or any(it.startswith("--workers") for it in self.words):
            return []
        return [dataclasses.replace(self, words=[self.words[0], "--workers", "3", *self.words[1:]])]

    @staticmethod
    def found(path):
        if not os.path.isfile(path):
            return None
        with open(path, "rb") as file:
            return file.read()


def steps_of(folder, lines):
    """Reads the calls of a case, which a line `then` parts."""
    steps = [Step(folder)]
    for line in lines:
        if line == "then":
            steps.append(Step(folder))
        elif line:
            steps[-1].read(line)
    return steps


def cases_of(folder):
    """Reads the cases of a folder: pairs of a name and its calls."""
    with open(f"{folder}/cases.txt", encoding="utf-8", newline="\n") as file:
        _, *blocks = re.split(r"(?m)^== ", "\n" + file.read())
    for block in blocks:
        name, *lines = block.split("\n")
        numbers = [line.split()[1:] for line in lines if line.startswith("each ")]
        if not numbers:
            yield name, steps_of(folder, lines)
            continue
        rest = [line for line in lines if not line.startswith("each ")]
        for n in range(*map(int, numbers[0])):
            yield f"{name}, {n}", steps_of(folder, [line.replace("<n>", str(n)) for line in rest])


def failure(program, steps):
    """Plays a case in a folder of its own and says what differs, or nothing."""
    with tempfile.TemporaryDirectory(prefix="wy-run-") as room:
        before = None
        for step in steps:
            for call in [step, *step.by_workers()]:
                try:
                    result = call.play(program, room)
                except subprocess.TimeoutExpired:
                    return f"took longer than {SECONDS} seconds"
                why = call.differs(result, room)
                if not why and (call.is_same or call is not step) and result != before:
                    why = "the result isn't that of the call before"
                if why:
                    return f"{shlex.join(call.words)[:200]}: {why}"
                before = result
    return ""


def main():
    program, names = os.path.abspath(sys.argv[1]), sys.argv[2:]
    folders = [f"{HERE}/runs/{name}" for name in names] or sorted(glob.glob(f"{HERE}/runs/*/"))
    cases = [(os.path.basename(os.path.normpath(it)), *case) for it in folders for case in cases_of(it)]
    failed = 0
    with concurrent.futures.ThreadPoolExecutor(os.cpu_count()) as pool:
        for case, why in zip(cases, pool.map(lambda case: failure(program, case[2]), cases)):
            if why:
                failed += 1
                print(f"runs/{case[0]}: {case[1]}: {why}")
    print(f"{len(cases) - failed} passed, {failed} failed")
    return 1 if failed else 0


if __name__ == "__main__":
    sys.exit(main())
