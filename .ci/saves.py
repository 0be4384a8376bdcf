"""Tries what `wy prove` and `wy again` save on real files: `saves.py PROGRAM`.

A save that fails, or whose process ends in the middle, leaves the old file as it was; nothing is left beside it where the program ends
by itself. A link stays, as do the permissions of a file, and what is no regular file is written over. A case that this machine can't
have (a file system of its own wants root) is left out. The last line tells how many agreed.
"""
import os
import resource
import shutil
import signal
import stat
import subprocess
import sys
import tempfile
import threading

PROGRAM = os.path.abspath(sys.argv[1])
SOURCE = "function inc(int x) -> (int r)\nrequires x < 100\nensures r > x:\n    return x + 1\n"
OLD = b"an old file, longer than what is saved\n" * 1000
ACCEPTED = (0, "accepted 3 conditions\n", "")


class Place:
    """A folder with the source, and maybe an old file of certificates."""

    def __init__(self, folder, old=None):
        self.folder = folder
        self.write("inc.wy", SOURCE.encode())
        if old is not None:
            self.write("inc.cert", old)

    def path(self, name):
        return os.path.join(self.folder, name)

    def write(self, name, content):
        with open(self.path(name), "wb") as file:
            file.write(content)

    def read(self, name):
        with open(self.path(name), "rb") as file:
            return file.read()

    def run(self, *words, before=None):
        ran = subprocess.run([PROGRAM, *words], cwd=self.folder, capture_output=True, check=False, preexec_fn=before)
        return ran.returncode, ran.stdout.decode(), ran.stderr.decode()

    def prove(self, name="inc.cert", before=None):
        return self.run("prove", "inc.wy", name, before=before)

    def is_proved_by(self, name="inc.cert"):
        return self.run("check", "inc.wy", name, "--budget", "0") == ACCEPTED

    def has_only(self, *names):
        return sorted(os.listdir(self.folder)) == sorted(names)


def short_files(ends):
    """Has each file that the process writes end behind 16 bytes: by an error, or by the end of the process."""
    resource.setrlimit(resource.RLIMIT_FSIZE, (16, 16))
    resource.setrlimit(resource.RLIMIT_CORE, (0, 0))
    signal.signal(signal.SIGXFSZ, signal.SIG_DFL if ends else signal.SIG_IGN)


def a_new_file(place):
    return place.prove() == ACCEPTED and place.is_proved_by() and place.has_only("inc.wy", "inc.cert")


def an_old_file_is_replaced(place):
    place.write("inc.cert", OLD)
    return a_new_file(place)


def a_failed_save_leaves_the_old_file(place):
    place.write("inc.cert", OLD)
    ended = place.prove(before=lambda: short_files(False))
    return ended == (5, "", "wy: inc.cert: save failed\n") and place.read("inc.cert") == OLD and place.has_only("inc.wy", "inc.cert")


def a_failed_save_leaves_the_old_cache(place):
    place.write("inc.cache", OLD)
    ended = place.run("again", "inc.wy", "inc.cache", before=lambda: short_files(False))
    stays = place.read("inc.cache") == OLD and place.read("inc.wy") == SOURCE.encode() and place.has_only("inc.wy", "inc.cache")
    return ended == (5, "", "wy: inc.cache: save failed\n") and stays


def a_failed_save_makes_no_file(place):
    ended = place.prove(before=lambda: short_files(False))
    return ended == (5, "", "wy: inc.cert: save failed\n") and place.has_only("inc.wy")


def a_process_that_ends_leaves_the_old_file(place):
    place.write("inc.cert", OLD)
    ended = place.prove(before=lambda: short_files(True))
    return ended[0] == -signal.SIGXFSZ and place.read("inc.cert") == OLD and place.prove() == ACCEPTED and place.is_proved_by()


def a_name_beside_that_is_taken_stays(place):
    place.write(".wy-part-0", b"mine")
    return place.prove() == ACCEPTED and place.read(".wy-part-0") == b"mine" and place.has_only("inc.wy", "inc.cert", ".wy-part-0")


def a_link_stays(place):
    os.mkdir(place.path("kept"))
    place.write("kept/real.cert", OLD)
    os.symlink("kept/real.cert", place.path("inc.cert"))
    ended = place.prove() == ACCEPTED and place.is_proved_by() and os.path.islink(place.path("inc.cert"))
    return ended and os.listdir(place.path("kept")) == ["real.cert"]


def permissions_stay(place):
    place.write("inc.cert", OLD)
    os.chmod(place.path("inc.cert"), 0o640)
    return a_new_file(place) and stat.S_IMODE(os.stat(place.path("inc.cert")).st_mode) == 0o640


def a_pipe_is_written(place):
    os.mkfifo(place.path("pipe"))
    taken = []

    def take():
        with open(place.path("pipe"), "rb") as pipe:
            taken.append(pipe.read())

    reader = threading.Thread(target=take)
    reader.start()
    ended = place.prove("pipe")
    reader.join(60)
    return ended == ACCEPTED and stat.S_ISFIFO(os.stat(place.path("pipe")).st_mode) and taken[0].endswith(b"end\n")


def a_folder_is_refused(place):
    os.mkdir(place.path("inc.cert"))
    return place.prove() == (5, "", "wy: inc.cert: save failed\n") and place.has_only("inc.wy", "inc.cert")


def a_missing_folder_is_refused(place):
    return place.prove("no/inc.cert") == (5, "", "wy: no/inc.cert: save failed\n") and place.has_only("inc.wy")


def a_source_is_saved_over(place):
    """No rule refuses it: the line is as ever, and the file has the certificates."""
    return place.run("prove", "inc.wy", "inc.wy") == ACCEPTED and place.read("inc.wy").startswith(b"wycert ") and place.has_only("inc.wy")


def on_a_full_disk(folder):
    """The same on a file system that is full but for the old file; None where none can be made."""
    if os.geteuid() != 0 or not shutil.which("mount"):
        return None
    if subprocess.run(["mount", "-t", "tmpfs", "-o", "size=64k", "tmpfs", folder], capture_output=True, check=False).returncode:
        return None
    try:
        place = Place(folder, OLD)
        with open(place.path("full"), "wb", buffering=0) as file:
            try:
                while file.write(b"\0" * 4096):
                    pass
            except OSError:
                pass
        ended = place.prove()
        return ended == (5, "", "wy: inc.cert: save failed\n") and place.read("inc.cert") == OLD and place.has_only("inc.wy", "inc.cert", "full")
    finally:
        subprocess.run(["umount", folder], check=False)


CASES = [
    a_new_file,
    an_old_file_is_replaced,
    a_failed_save_leaves_the_old_file,
    a_failed_save_leaves_the_old_cache,
    a_failed_save_makes_no_file,
    a_process_that_ends_leaves_the_old_file,
    a_name_beside_that_is_taken_stays,
    a_link_stays,
    permissions_stay,
    a_pipe_is_written,
    a_folder_is_refused,
    a_missing_folder_is_refused,
    a_source_is_saved_over,
]


def main():
    agreed = {}
    for case in CASES:
        with tempfile.TemporaryDirectory() as folder:
            agreed[case.__name__] = case(Place(folder))
    with tempfile.TemporaryDirectory() as folder:
        full = on_a_full_disk(folder)
        if full is not None:
            agreed["on_a_full_disk"] = full
    failed = [name for name, it in agreed.items() if not it]
    for name in failed:
        print(f"saves: {name}: not as wanted")
    print(f"{len(agreed) - len(failed)} passed, {len(failed)} failed")
    return 1 if failed else 0


sys.exit(main())
