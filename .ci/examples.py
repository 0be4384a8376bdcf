"""Runs the tables of examples/accepted, examples/refused and examples/runs against a built program: `examples.py PROGRAM`.

A row of `accepted` names a file and its number of conditions, one of `refused` a file with the first line and, where it has one, the
last line on standard error, and behind them what a probe of a function writes, one of `runs` words with both outputs and the status.
The last line tells how many agreed.
"""
import os
import re
import subprocess
import sys

HERE = os.path.dirname(os.path.dirname(os.path.abspath(__file__)))


def rows(folder):
    with open(f"{HERE}/examples/{folder}/README.md", encoding="utf-8") as table:
        for line in table:
            cells = [re.sub(r"^`|`$", "", it.strip()) for it in re.split(r"(?<!\\)\|", line.strip())[1:-1]]
            if cells and (".wy" in cells[0]):
                yield cells


def called(program, folder, words):
    ran = subprocess.run([program, *words], cwd=f"{HERE}/examples/{folder}", capture_output=True, check=False)
    return ran.returncode, ran.stdout.decode(), ran.stderr.decode(errors="replace")


def accepted(program, cells):
    return called(program, "accepted", ["check", cells[0], "none"]) == (0, f"accepted {cells[1]} conditions\n", "")


def refused(program, cells):
    status, out, err = called(program, "refused", ["check", cells[0], "none"])
    lines = err.splitlines() or [""]
    last = cells[2] if len(cells) > 2 else ""
    refuses = status == 1 and out == "" and lines[0] == cells[1] and last in ("", lines[-1])
    return refuses and (len(cells) < 4 or probed(program, cells[0], *cells[3].split(": ", 1)))


def probed(program, file, name, line):
    wanted = (12 if line.startswith("fault") else 0, line + "\n", "")
    return called(program, "refused", ["probe", file, name, "1000", "2000"]) == wanted


def run(program, cells):
    found = re.fullmatch(r"run (\S+) (\S+) (\S+) (\(.*\))(.*)", cells[0])
    words = ["run", *found.groups()[:4], *found[5].split()]
    wanted = (int(cells[3]), cells[1].replace("\\n", "\n"), cells[2].replace("\\n", "\n"))
    return called(program, "runs", words) == wanted


def main():
    passed, failed = 0, 0
    for folder, test in (("accepted", accepted), ("refused", refused), ("runs", run)):
        for cells in rows(folder):
            if test(os.path.abspath(sys.argv[1]), cells):
                passed += 1
            else:
                failed += 1
                print(f"examples/{folder}: {cells[0]} differs")
    print(f"{passed} passed, {failed} failed")
    return 1 if failed else 0


sys.exit(main())
