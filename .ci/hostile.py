"""Tries real files that can't be read and real sinks that fail: `hostile.py PROGRAM`.

A load that fails is status 4 and an absent file 3, each with its line; a sink that takes no more is status 5, with what it took before.
A case that this machine can't have is left out. The last line tells how many agreed.
"""
import fcntl
import os
import resource
import signal
import subprocess
import sys
import tempfile
import threading

PROGRAM = os.path.abspath(sys.argv[1])
INC = "function inc(int x) -> (int r)\nrequires x < 100\nensures r > x:\n    return x + 1\n"
ABS = "function abs(int x) -> (int r)\nensures r >= 0:\n    if x < 0:\n        return -x\n    return x\n"
HELLO = """method hello(int n) -> (int r):
    print("hi ")
    print_int(n)
    print("\\n")
    return n
method six():
    print("abcdef")
"""
LONG = "function f() -> (int r):\n" + "    assert true\n" * 9000 + "    return 0\n"
ACCEPTED = (0, b"accepted 3 conditions\n", b"")
FORBIDDEN = (4, b"", b"wy: inc.wy: load failed\n")
CHECK = ("check", "inc.wy", "none")
NOBODY = 65534


class Room:
    """A folder with sources, in which the program is called."""

    def __init__(self, folder):
        self.folder = folder
        os.chmod(folder, 0o755)
        for name, text in (("inc.wy", INC), ("abs3.wy", ABS), ("hello.wy", HELLO), ("long.wy", LONG)):
            with open(self.path(name), "w", encoding="utf-8") as file:
                file.write(text)

    def path(self, name):
        return os.path.join(self.folder, name)

    def run(self, *words, before=None, out=subprocess.PIPE, err=subprocess.PIPE):
        how = {"cwd": self.folder, "stdin": subprocess.DEVNULL, "preexec_fn": before, "check": False, "timeout": 600}
        ran = subprocess.run([PROGRAM, *words], stdout=out, stderr=err, **how)
        return ran.returncode, ran.stdout or b"", ran.stderr or b""

    def within(self, sink, most, *words):
        """A call one of whose sinks is a file that takes so many bytes: its status, the file, and the other sink's text."""
        with open(self.path("sink"), "wb") as file:
            status, out, err = self.run(*words, before=lambda: short_files(most), **{sink: file})
        with open(self.path("sink"), "rb") as file:
            return status, file.read(), err if sink == "out" else out

    def loads(self, name):
        """How a file is refused, as a source and as certificates alike: the status and the end of the line."""
        status, out, err = self.run("check", name, "none")
        other = self.run("check", "inc.wy", name)
        begins = b"wy: " + name.encode() + b": "
        alike = out == b"" and err.startswith(begins) and other == (status, out, err)
        return (status, err[len(begins):].decode()) if alike else (status, out, err, other)


def short_files(most):
    """Has each file that the process writes end behind so many bytes, by an error."""
    resource.setrlimit(resource.RLIMIT_FSIZE, (most, most))
    signal.signal(signal.SIGXFSZ, signal.SIG_IGN)


ABSENT, FAILED, LONGER = (3, "absent\n"), (4, "load failed\n"), (10, "too long\n")


# ---- files
def a_file_that_isnt_there(room):
    return room.loads("no.wy") == ABSENT


def a_link_to_nothing(room):
    os.symlink("no.wy", room.path("link"))
    return room.loads("link") == ABSENT


def a_link_to_itself(room):
    os.symlink("link", room.path("link"))
    return room.loads("link") == FAILED


def a_folder(room):
    os.mkdir(room.path("folder"))
    return room.loads("folder") == FAILED


def a_file_whose_reading_fails(room):
    """What a process has at the address 0 can't be read, though the file is opened."""
    os.symlink("/proc/self/mem", room.path("link"))
    return room.loads("link") == FAILED


def a_name_that_is_too_long(room):
    return room.loads("n" * 5000) == FAILED


def a_file_that_isnt_allowed(room):
    os.chmod(room.path("inc.wy"), 0)
    if os.geteuid() != 0:
        return room.run(*CHECK) == FORBIDDEN
    try:
        ended = room.run(*CHECK, before=lambda: os.setuid(NOBODY))
    except PermissionError:
        # the program itself lies where only this user comes
        return True
    return ended == FORBIDDEN


def a_file_without_an_end(room):
    return room.loads("/dev/zero") == LONGER


def a_file_of_no_bytes(room):
    return room.run("check", "/dev/null", "none") == (0, b"accepted 0 conditions\n", b"")


def a_pipe_is_read(room):
    """A pipe gives its bytes in pieces."""
    os.mkfifo(room.path("pipe"))

    def give():
        with open(room.path("pipe"), "wb", buffering=0) as pipe:
            for at in range(0, len(INC), 7):
                pipe.write(INC[at:at + 7].encode())

    giver = threading.Thread(target=give)
    giver.start()
    ended = room.run("check", "pipe", "none")
    giver.join(60)
    return ended == ACCEPTED


# ---- sinks
def a_full_out(room):
    calls = [CHECK, *((it, "inc.wy") for it in ("fmt", "conds", "dis")), ("run", "hello.wy", "none", "six", "()")]
    with open("/dev/full", "wb") as full:
        return all(room.run(*words, out=full) == (5, b"", b"") for words in calls)


def a_full_err(room):
    """A refusal whose line isn't taken is status 5 whatever was refused."""
    calls = (("check", "abs3.wy", "none"), ("check", "no.wy", "none"), ("check",), ("run", "inc.wy", "none", "inc", "(100)"))
    with open("/dev/full", "wb") as full:
        return all(room.run(*words, err=full) == (5, b"", b"") for words in calls)


def a_full_err_to_which_nothing_is_written(room):
    with open("/dev/full", "wb") as full:
        return room.run(*CHECK, err=full) == ACCEPTED


def a_closed_out(room):
    return room.run(*CHECK, before=lambda: os.close(1), out=None) == (5, b"", b"")


def a_closed_err(room):
    return room.run("check", "abs3.wy", "none", before=lambda: os.close(2), err=None) == (5, b"", b"")


def an_out_that_nobody_reads(room):
    """Whether or not the signal of such a pipe ends processes by itself."""
    ended = []
    for action in (signal.SIG_IGN, signal.SIG_DFL):
        reader, writer = os.pipe()
        os.close(reader)
        how = {"cwd": room.folder, "stdout": writer, "stderr": subprocess.PIPE, "check": False, "restore_signals": False}
        ended.append(subprocess.run([PROGRAM, *CHECK], preexec_fn=lambda: signal.signal(signal.SIGPIPE, action), **how))
        os.close(writer)
    return all((it.returncode, it.stderr) == (5, b"") for it in ended)


def an_out_that_takes_some_bytes(room):
    """At each length: what was taken is the beginning of what is due."""
    due = b"hi 3\n3\n"
    words = ("run", "hello.wy", "none", "hello", "(3)")
    ended = [room.within("out", most, *words) == (5, due[:most], b"") for most in range(len(due))]
    return all(ended) and room.within("out", len(due), *words) == (0, due, b"")


def an_err_that_takes_some_bytes(room):
    due = room.run("check", "abs3.wy", "none")[2]
    ended = [room.within("err", most, "check", "abs3.wy", "none") == (5, due[:most], b"") for most in range(0, len(due), 7)]
    return all(ended) and room.within("err", 20, "check", "abs3.wy", "none") == (5, b"abs3.wy:4:16: condit", b"")


def an_out_that_takes_bytes_slowly(room):
    """A pipe of one page whose reader waits: each byte arrives, and none twice."""
    wanted = room.run("conds", "long.wy")
    reader, writer = os.pipe()
    fcntl.fcntl(writer, fcntl.F_SETPIPE_SZ, 4096)
    with subprocess.Popen([PROGRAM, "conds", "long.wy"], cwd=room.folder, stdout=writer, stderr=subprocess.DEVNULL) as called:
        os.close(writer)
        got = b"".join(iter(lambda: os.read(reader, 1000), b""))
        os.close(reader)
    return len(got) > 100000 and (called.returncode, got, b"") == wanted


CASES = [it for name, it in list(globals().items()) if name.startswith(("a_", "an_"))]


def main():
    failed = []
    for case in CASES:
        with tempfile.TemporaryDirectory(prefix="wy-hostile-") as folder:
            if not case(Room(folder)):
                failed.append(case.__name__)
    for name in failed:
        print(f"hostile: {name}: not as wanted")
    print(f"{len(CASES) - len(failed)} passed, {len(failed)} failed")
    return 1 if failed else 0


sys.exit(main())
