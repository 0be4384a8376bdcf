"""Refuses each request for memory of some calls in turn: `memory.py PROGRAM`.

Each call answers 9 with nothing on standard error, or what it answers with ample memory. What it has written on standard output by
then is a beginning of what is due, and a save that isn't made leaves the old file. `refuse.c`, beside this, stands between the
program and the system; where no C compiler is there, nothing is tried. The last line counts the requests.
"""
import concurrent.futures
import os
import shutil
import subprocess
import sys
import tempfile

HERE = os.path.dirname(os.path.abspath(__file__))
PROGRAM = os.path.abspath(sys.argv[1])
SECONDS = 600
STORED = ["inc.wy", "inc.cert", "max.wy", "share.wy", "hello.wy"]
OLD = b"an old file\n"

# In this order: a run by certificates; one by a search; an update in a loop, and one of a value that is shared; what is printed;
# refusals of a condition, of words, of a source, of certificates, of arguments; and what lists code, conditions and a program.
CALLS = [
    ["run", "inc.wy", "inc.cert", "inc", "(5)"],
    ["run", "max.wy", "none", "max", "([3, 9, 9, 1])"],
    ["run", "share.wy", "none", "fill", "(4)", "--stats"],
    ["run", "share.wy", "none", "keep", "([1, 2])", "--stats"],
    ["run", "hello.wy", "none", "hello", "(3)"],
    ["check", "inc.wy", "none", "--budget", "0"],
    ["check", "inc.wy"],
    ["check", "inc.cert", "none"],
    ["check", "inc.wy", "inc.wy"],
    ["run", "inc.wy", "inc.cert", "inc", "(null)"],
    ["dis", "share.wy"],
    ["conds", "inc.wy"],
    ["fmt", "max.wy"],
    ["big", "1", "7"],
]

# Calls whose requests are refused each in a call of its own: a copy of a process has one thread.
BY_WORKERS = [
    ["check", "inc.wy", "none", "--workers", "2"],
    ["check", "inc.wy", "none", "--budget", "0", "--workers", "2"],
    ["run", "inc.wy", "inc.cert", "inc", "(5)", "--workers", "3"],
]


def compiled(room):
    """The library that refuses, or nothing where it can't be made."""
    compiler = next(filter(None, map(shutil.which, ("cc", "clang", "gcc"))), None)
    if not compiler or not sys.platform.startswith("linux"):
        return None
    made = subprocess.run([compiler, "-shared", "-fPIC", "-O1", "-o", f"{room}/refuse.so", f"{HERE}/refuse.c"], check=False)
    return f"{room}/refuse.so" if made.returncode == 0 else None


def filled(room):
    for name in STORED:
        shutil.copy(f"{HERE}/../runs/commands/{name}", f"{room}/{name}")


def ran(words, room, **settings):
    how = {"cwd": room, "capture_output": True, "check": False, "stdin": subprocess.DEVNULL, "timeout": SECONDS}
    it = subprocess.run([PROGRAM, *words], env={**os.environ, **settings}, **how)
    return it.returncode, it.stdout, it.stderr


def differing(due, log):
    """Counts the answers of a log, and lists those that are neither 9 nor what is due from there on."""
    status, out, err = due
    answers, wrong = [line.split(" ") for line in log.splitlines()], set()
    for got, its_out, its_err in answers:
        its_out, its_err = bytes.fromhex(its_out), bytes.fromhex(its_err)
        is_due = int(got) == status and out.endswith(its_out) and err.endswith(its_err)
        if not is_due and not (int(got) == 9 and its_err == b"" and its_out in out):
            wrong.add((int(got), its_out, its_err))
    return len(answers), wrong


def tried(words, library, room):
    """Has each request of a call refused in a copy of its process."""
    room = tempfile.mkdtemp(dir=room)
    filled(room)
    due = ran(words, room)
    if ran(words, room, LD_PRELOAD=library, WY_REFUSE="each", WY_LOG=f"{room}/log") != due:
        return 0, {"the call itself differs"}
    with open(f"{room}/log", encoding="ascii") as log:
        return differing(due, log.read())


def refused_at(words, number, library, room):
    """The answer of a call whose request of this number is refused, or nothing where it makes fewer."""
    log = f"{room}/{number}.log"
    got = ran(words, room, LD_PRELOAD=library, WY_REFUSE=str(number), WY_LOG=log)
    return got if os.path.exists(log) else None


def by_workers(words, library, room):
    """Has each request of a call refused, in a call of its own."""
    room = tempfile.mkdtemp(dir=room)
    filled(room)
    due, wrong, number = ran(words, room), set(), 0
    while (got := refused_at(words, number + 1, library, room)) is not None:
        number += 1
        if got not in (due, (9, b"", b"")):
            wrong.add((number, got))
    return number, wrong


def saved(library, room):
    """Has each request of a save refused, in a call of its own."""
    room = tempfile.mkdtemp(dir=room)
    filled(room)
    words, wrong, number = ["prove", "inc.wy", "o"], set(), 0
    due = ran(words, room)
    with open(f"{room}/o", "rb") as file:
        new = file.read()
    logs = tempfile.mkdtemp(dir=room)
    names = sorted(os.listdir(room))
    while True:
        with open(f"{room}/o", "wb") as file:
            file.write(OLD)
        log = f"{logs}/{number + 1}"
        got = ran(words, room, LD_PRELOAD=library, WY_REFUSE=str(number + 1), WY_LOG=log)
        if not os.path.exists(log):
            return number, wrong
        number += 1
        with open(f"{room}/o", "rb") as file:
            kept = file.read()
        is_right = got == due and kept == new or got == (9, b"", b"") and kept in (OLD, new)
        if not is_right or sorted(os.listdir(room)) != names:
            wrong.add((number, got, kept))


def main():
    requests, failed = 0, 0
    with tempfile.TemporaryDirectory(prefix="wy-memory-") as room:
        library = compiled(room)
        if not library:
            print("no C compiler: nothing is tried")
            return 0
        with concurrent.futures.ThreadPoolExecutor(os.cpu_count()) as pool:
            trials = [(words, pool.submit(tried, words, library, room)) for words in CALLS]
            trials += [(words, pool.submit(by_workers, words, library, room)) for words in BY_WORKERS]
            trials.append((["prove", "inc.wy", "o"], pool.submit(saved, library, room)))
            for words, trial in trials:
                count, wrong = trial.result()
                requests, failed = requests + count, failed + len(wrong)
                for it in sorted(wrong, key=repr)[:5]:
                    print(f"memory: {' '.join(words)}: {it}")
    print(f"{requests} requests refused, {failed} answers differ")
    return 1 if failed else 0


sys.exit(main())
