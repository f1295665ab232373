#!/usr/bin/env python3
"""Tries the built program on real streams and files that fail, which no test inside the repository can have.

    tools/try_real_streams.py crates/odb/out/odb

Each case is run in a new folder, as nobody where this runs as root. It says what the program must answer, with which
status it must end, what it must say on standard error, and which files with which bytes must be there after it. A case
that can't be had here is skipped, with a line that says so. Status 6 is not tried: it wants a script of 2^30 bytes. The
last line is 'N passed, M failed', and the exit status is 1 where a case failed.
"""
import collections
import os
import resource
import shutil
import signal
import subprocess
import sys
import tempfile
import time

sys.dont_write_bytecode = True
from saved_nets import saved

SECONDS = 120
NOBODY = 65534
# How many saves each of two runs at once makes.
SAVES = 50
FAULTS = {
    2: b"odb: bad arguments\n",
    3: b"odb: reading the script failed\n",
    4: b"odb: writing replies failed\n",
    5: b"odb: a file failed\n",
    9: b"odb: out of memory\n",
}

FOLDER = object()

# A case: its script, the status that it ends with, and its replies; the words of the command line, the files before it
# and those after it (None: the same), the permissions of some of them ('.' is the folder itself), and limits of the
# system.
Case = collections.namedtuple(
    "Case", "name script status replies words before after modes limits", defaults=(b"", (), {}, None, {}, {})
)

ONE_NET = saved(1)
LIMITED = {resource.RLIMIT_FSIZE: 100}

CASES = [
    Case("a word that is no option", b"new_net n1\n", 2, words=["x"]),
    Case("an empty script", b"", 0),
    Case("a refused line", b"new_net n1\nnew_net n1\n", 1, b"ok 1 1 0 0 0\nrefused 6 NameTaken 1\n"),
    Case("a new file", b"new_net n1\nsave f\n", 0, b"ok 1 1 0 0 0\nok 177\n", after={"f": ONE_NET}),
    Case(
        "a file in place of a longer one",
        b"new_net n1\nsave f\n",
        0,
        b"ok 1 1 0 0 0\nok 177\n",
        before={"f": b"x" * 1000, "g": b"other"},
        after={"f": ONE_NET, "g": b"other"},
    ),
    Case(
        "a save passes over a file that another run left",
        b"new_net n1\nsave f\n",
        0,
        b"ok 1 1 0 0 0\nok 177\n",
        before={".odb-0": b"left", ".odb-1": FOLDER},
        after={".odb-0": b"left", ".odb-1": FOLDER, "f": ONE_NET},
    ),
    Case(
        "a save that finds each temporary name taken",
        b"new_net n1\nsave f\n",
        5,
        b"ok 1 1 0 0 0\n",
        before={"f": b"old bytes", **{f".odb-{number}": b"left" for number in range(1000)}},
    ),
    Case(
        "a save onto a folder",
        b"new_net n1\nnew_net n2\nsave d\nnew_net n3\n",
        5,
        b"ok 1 1 0 0 0\nok 2 1 0 0 0\n",
        before={"d": FOLDER},
    ),
    Case(
        "a load of a folder",
        b"new_net n1\nnew_net n2\nload d\nnew_net n3\n",
        5,
        b"ok 1 1 0 0 0\nok 2 1 0 0 0\n",
        before={"d": FOLDER},
    ),
    Case(
        "a load of a file without leave to read",
        b"new_net n1\nload f\nnew_net n2\n",
        5,
        b"ok 1 1 0 0 0\n",
        before={"f": ONE_NET},
        modes={"f": 0},
    ),
    Case(
        "a save in a folder without leave to write",
        b"new_net n1\nsave f\nnew_net n2\n",
        5,
        b"ok 1 1 0 0 0\n",
        before={"f": b"old bytes"},
        modes={".": 0o555},
    ),
    Case(
        "a save that finds no more room leaves the old file",
        b"new_net n1\nsave f\nnew_net n2\n",
        5,
        b"ok 1 1 0 0 0\n",
        before={"f": b"old bytes"},
        limits=LIMITED,
    ),
    Case(
        "a load that finds no more memory",
        b"load f\nnew_net n1\n",
        9,
        before={"f": bytes(64 << 20)},
        limits={resource.RLIMIT_AS: 60 << 20},
    ),
]


class Failed(Exception):
    """What a case has that it must not have."""


class Place:
    """A new folder with the files of a case, and the program beside it."""

    def __init__(self, room, program, can_drop):
        self.folder, self.program, self.can_drop = f"{room}/files", f"{room}/odb", can_drop
        os.chmod(room, 0o711)
        os.mkdir(self.folder)
        shutil.copyfile(program, self.program)
        os.chmod(self.program, 0o755)
        self.own(self.folder)

    def own(self, path):
        if self.can_drop:
            os.chown(path, NOBODY, NOBODY)

    def put(self, files, modes):
        for name, data in files.items():
            path = f"{self.folder}/{name}"
            if data is FOLDER:
                os.mkdir(path)
            else:
                with open(path, "wb") as it:
                    it.write(data)
            self.own(path)
        for name, mode in modes.items():
            os.chmod(f"{self.folder}/{name}", mode)

    def start(self, stdin, stdout, words=(), limits={}, is_stopped=False):
        """Starts the program, and returns it. Writing beyond a limit fails, or stops it where that is wanted."""

        def begin():
            resource.setrlimit(resource.RLIMIT_CORE, (0, 0))
            for it, most in limits.items():
                resource.setrlimit(it, (most, most))
            signal.signal(signal.SIGXFSZ, signal.SIG_DFL if is_stopped else signal.SIG_IGN)

        how = {"user": NOBODY, "group": NOBODY, "extra_groups": []} if self.can_drop else {}
        return subprocess.Popen(
            [self.program, *words],
            cwd=self.folder,
            stdin=stdin,
            stdout=stdout,
            stderr=subprocess.PIPE,
            preexec_fn=begin,
            **how,
        )

    def run(self, script, **how):
        """Runs a script, and returns the status, the replies and what was said on standard error."""
        ran = self.start(subprocess.PIPE, subprocess.PIPE, **how)
        replies, said = communicate(ran, script)
        return ran.returncode, replies, said

    def files(self):
        os.chmod(self.folder, 0o755)
        found = {}
        for name in os.listdir(self.folder):
            path = f"{self.folder}/{name}"
            if os.path.isdir(path):
                found[name] = FOLDER
            else:
                os.chmod(path, 0o644)
                with open(path, "rb") as it:
                    found[name] = it.read()
        return found


def communicate(ran, script=None):
    try:
        return ran.communicate(script, timeout=SECONDS)
    except subprocess.TimeoutExpired:
        ran.kill()
        ran.communicate()
        raise Failed(f"it had not ended after {SECONDS} seconds") from None


def shown(value):
    if isinstance(value, dict):
        return "{" + ", ".join(f"{name}: {shown(value[name])}" for name in sorted(value)) + "}"
    if value is FOLDER:
        return "a folder"
    text = repr(value)
    return text if len(text) < 200 else f"{text[:200]}.. ({len(value)} bytes)"


def expect(what, found, wanted):
    if found != wanted:
        raise Failed(f"{what}: {shown(found)}, and not {shown(wanted)}")


def expect_ended(found, status, replies):
    expect("status", found[0], status)
    expect("replies", found[1], replies)
    expect("standard error", found[2], FAULTS.get(status, b""))


def try_case(place, case):
    place.put(case.before, case.modes)
    expect_ended(place.run(case.script, words=case.words, limits=case.limits), case.status, case.replies)
    expect("files", place.files(), case.before if case.after is None else case.after)


def try_folder_as_script(place):
    """Standard input is a folder, which can be opened and not read."""
    folder = os.open(place.folder, os.O_RDONLY)
    try:
        ran = place.start(folder, subprocess.PIPE)
    finally:
        os.close(folder)
    replies, said = communicate(ran)
    expect_ended((ran.returncode, replies, said), 3, b"")


def try_closed_pipe(place):
    """Standard output is a pipe that nobody reads."""
    reads, writes = os.pipe()
    os.close(reads)
    try:
        ran = place.start(subprocess.PIPE, writes)
    finally:
        os.close(writes)
    _, said = communicate(ran, b"new_net n1\n")
    expect_ended((ran.returncode, b"", said), 4, b"")


def try_stopped_save(place):
    """A run that is stopped in the middle of a save leaves the old file, and the next run saves as ever."""
    place.put({"f": b"old bytes"}, {})
    script = b"new_net n1\nsave f\n"
    status, _, _ = place.run(script, limits=LIMITED, is_stopped=True)
    expect("status", status, -signal.SIGXFSZ)
    expect("files", place.files(), {"f": b"old bytes", ".odb-0": ONE_NET[:100]})
    expect_ended(place.run(script), 0, b"ok 1 1 0 0 0\nok 177\n")
    expect("files", place.files(), {"f": ONE_NET, ".odb-0": ONE_NET[:100]})


def try_two_at_once(place):
    """Two runs save one file at once: both end well, and whoever reads the file finds all bytes of one of them."""
    runs, whole = [], []
    for count in (1, 40):
        data = saved(count)
        script = b"".join(b"new_net n%d\n" % it for it in range(1, count + 1)) + b"save f\n" * SAVES
        replies = b"".join(b"ok %d 1 0 0 0\n" % it for it in range(1, count + 1)) + b"ok %d\n" % len(data) * SAVES
        whole.append(data)
        ran = place.start(subprocess.PIPE, subprocess.PIPE)
        ran.stdin.write(script)
        ran.stdin.close()
        ran.stdin = None
        runs.append((ran, replies))
    ends, looks = time.time() + SECONDS, 0
    while any(ran.poll() is None for ran, _ in runs) and time.time() < ends:
        try:
            with open(f"{place.folder}/f", "rb") as it:
                found = it.read()
        except FileNotFoundError:
            continue
        looks += 1
        if found not in whole:
            raise Failed(f"a look at the file found {shown(found)}")
    for ran, replies in runs:
        found = communicate(ran)
        expect_ended((ran.returncode, *found), 0, replies)
    files = place.files()
    expect("names of files", sorted(files), ["f"])
    if files["f"] not in whole or not looks:
        raise Failed("the file is not whole, or was never seen")


OTHERS = [
    ("the script is a folder", try_folder_as_script),
    ("replies into a closed pipe", try_closed_pipe),
    ("a run that is stopped in the middle of a save", try_stopped_save),
    ("two runs that save one file at once", try_two_at_once),
]


def drops_to_nobody():
    """Returns whether programs can be run as nobody, which only root can do."""
    if os.geteuid():
        return False
    how = {"user": NOBODY, "group": NOBODY, "extra_groups": []}
    try:
        return subprocess.run(["true"], **how).returncode == 0
    except (OSError, subprocess.SubprocessError):
        return False


def main(words):
    if len(words) != 1 or not os.path.isfile(words[0]):
        print(__doc__.strip())
        return 2
    can_drop = drops_to_nobody()
    passed = failed = 0
    tries = [(it.name, it.modes, lambda place, it=it: try_case(place, it)) for it in CASES]
    tries += [(name, {}, call) for name, call in OTHERS]
    for name, modes, call in tries:
        if modes and not can_drop and not os.geteuid():
            print(f"skipped: {name}: root has leave for all, and programs can't be run as nobody here")
            continue
        with tempfile.TemporaryDirectory(prefix="odb-streams-") as room:
            try:
                call(Place(room, words[0], can_drop))
                passed += 1
                print(f"passed: {name}")
            except (Failed, OSError, subprocess.SubprocessError) as why:
                failed += 1
                print(f"FAILED: {name}: {why}")
    print(f"{passed} passed, {failed} failed")
    return 1 if failed else 0


if __name__ == "__main__":
    sys.exit(main(sys.argv[1:]))
