#!/usr/bin/env python3
"""Prints what a run of the gate costs: the processor time of each crate's proof, tests and must-fail edits.

  tools/gate_times.py --watch LOG [PID]    watches a run of `rt ci`, and writes LOG; prints the table when the run has ended
  tools/gate_times.py LOG                  prints the table of a LOG again
  tools/gate_times.py LOG OTHER            prints what each crate cost in LOG, and what it cost in OTHER

Start the watch in the folder in which the gate runs, before the gate or after:

  tools/gate_times.py --watch ../gate-times.log & rt ci; wait

Without PID it waits for an `rt ci` whose working folder is this one; an `rt ci NAME..` works on a copy, and wants its PID.

`rt ci` prints no times: it runs one command of the toolchain for each proof, each crate's tests and each edit, on as many
lanes as there are processors. So the watch looks at these commands in /proc twice a second, and LOG has a line for each
one that ended: the crate, the kind, processor seconds (user and system, with all that the command started) and seconds
on the clock.

  proof     the proof of the crate alone
  tests     the proof of the crate with its tests, and their compilation
  starts    what the edits begin with: the proof of the crate as it stands, and another one at their end
  edits     the checks of the edits themselves
  other     compiling and linking of programs, and the runs of programs and tests

Processor seconds don't depend on the number of lanes, but those of a busy machine, or of two threads on one core, are
longer. The time of a command since the last look at it is lost, half a look's distance on average: the last line has
what `rt` itself counted for all its commands. What an earlier run on this machine proved is kept and takes no time here;
`rt ci --anew` proves all.
"""
import collections
import os
import re
import sys
import time

KINDS = ("proof", "tests", "starts", "edits", "other")
TICKS = os.sysconf("SC_CLK_TCK")
LOOK = 0.5


class Process(collections.namedtuple("Process", "pid start parent own reaped")):
    """A process: its number, when it started, its parent, and the seconds that it and its ended children took."""


def process(pid):
    try:
        with open(f"/proc/{pid}/stat", "rb") as it:
            words = it.read().rpartition(b")")[2].split()
    except OSError:
        return None
    if len(words) < 20:
        return None
    user, system, user_below, system_below = (int(it) / TICKS for it in words[11:15])
    return Process(pid, int(words[19]), int(words[1]), user + system, user_below + system_below)


def processes():
    found = (process(int(it)) for it in os.listdir("/proc") if it.isdigit())
    return {it.pid: it for it in found if it}


def words_of(pid):
    try:
        with open(f"/proc/{pid}/cmdline", "rb") as it:
            return it.read().decode(errors="replace").split("\0")[:-1]
    except OSError:
        return []


def folder_of(pid):
    try:
        return os.readlink(f"/proc/{pid}/cwd")
    except OSError:
        return ""


def after(words, flag):
    return words[words.index(flag) + 1] if flag in words[:-1] else ""


def task_of(pid):
    """Returns the crate and the kind of a command that `rt ci` started, or None of one that is not known yet."""
    words, folder = words_of(pid), folder_of(pid)
    name = os.path.basename(words[0]) if words else ""
    if not words or re.fullmatch(r"python[0-9.]*", name):
        return None
    if name == "rattle" and words[1:2] in (["check"], ["build"]):
        crate = after(words, "--crate-name")
        if "/rt-edit-" in folder:
            return crate, "starts" if os.path.basename(after(words, "--incremental")) == "seed" else "edits"
        if "--test" in words:
            return crate, "tests"
        return crate, "other" if "--crate-checked" in words else "proof"
    run = next((re.search(r"/rt-run-[^/]*/bin/(\w+)", it) for it in words if "/rt-run-" in it), None)
    at = run or re.search(r"/crates/(\w+)", folder)
    return (at[1].removesuffix("_tests"), "other") if at else None


class Watch:
    """What was seen of the commands of one `rt ci`."""

    def __init__(self, rt, log):
        self.rt, self.log, self.running, self.tasks = rt, log, {}, {}
        self.begun = time.time()

    def look(self):
        """Looks at all commands once, and writes those that have ended. Returns whether the run goes on."""
        found, now = processes(), time.time()
        rt = found.get(self.rt.pid)
        if not rt or rt.start != self.rt.start:
            rt = None
        else:
            self.rt = rt
        below = collections.defaultdict(list)
        for it in found.values():
            below[it.parent].append(it)
        there = {(it.pid, it.start): it for it in below[self.rt.pid]} if rt else {}
        for key in [it for it in self.running if it not in there]:
            self.end(key)
        for key, it in there.items():
            first, _, most = self.running.get(key, (now, now, 0.0))
            self.running[key] = first, now, max(most, self.whole(it, below))
            if not self.tasks.get(key):
                self.tasks[key] = task_of(it.pid)
        return rt is not None

    def whole(self, it, below):
        return it.own + it.reaped + sum(self.whole(child, below) for child in below[it.pid])

    def end(self, key):
        first, last, seconds = self.running.pop(key)
        crate, kind = self.tasks.pop(key) or ("-", "other")
        if seconds > 0:
            print(f"{crate} {kind} {seconds:.2f} {last - first:.1f}", file=self.log, flush=True)

    def close(self):
        print(f"= {self.rt.reaped:.2f} {self.rt.own:.2f} {time.time() - self.begun:.1f}", file=self.log, flush=True)


def gate_in(folder):
    """Returns the `rt ci` that works in the folder, if one runs."""
    for it in processes().values():
        words = words_of(it.pid)
        names = [os.path.basename(word) for word in words[:3]]
        if "rt" in names[:2] and names[names.index("rt") + 1 :][:1] == ["ci"] and folder_of(it.pid) == folder:
            return it
    return None


def watch(path, pid):
    folder, rt = os.path.realpath("."), process(pid) if pid else None
    if pid and not rt:
        sys.exit(f"there is no process {pid}")
    if not rt:
        print(f"waiting for an rt ci in {folder}", file=sys.stderr)
    while not rt:
        time.sleep(LOOK)
        rt = gate_in(folder)
    with open(path, "w", encoding="utf-8") as log:
        seen = Watch(rt, log)
        try:
            while seen.look():
                time.sleep(LOOK)
        except KeyboardInterrupt:
            for key in list(seen.running):
                seen.end(key)
        seen.close()
    table(path)


def read(path):
    """Returns the seconds of each crate by kind, and what `rt` counted, its own seconds and those on the clock."""
    seconds, ended = collections.defaultdict(collections.Counter), None
    with open(path, encoding="utf-8") as log:
        for line in log:
            first, *rest = line.split()
            if first == "=":
                ended = [float(it) for it in rest]
            else:
                seconds[first][rest[0]] += float(rest[1])
    return seconds, ended


def by_cost(seconds):
    return sorted(seconds, key=lambda it: -sum(seconds[it].values()))


def table(path):
    seconds, ended = read(path)
    wide = max([7, *map(len, seconds)])
    row = lambda name, of: f"{name:{wide}}" + "".join(f"{it:10.1f}" for it in [*of, sum(of)])
    print("seconds".ljust(wide) + "".join(f"{it:>10}" for it in [*KINDS, "all"]))
    for crate in by_cost(seconds):
        print(row(crate, [seconds[crate][it] for it in KINDS]))
    sums = [sum(it[kind] for it in seconds.values()) for kind in KINDS]
    print(row("all", sums))
    print(row("minutes", [it / 60 for it in sums]))
    if ended:
        counted, own, clock = ended
        print(f"rt counted {counted:.1f} s for its commands and {own:.1f} s for itself; {clock / 60:.1f} minutes on the clock")
    else:
        print("the run had not ended")


def compared(path, other):
    one, two = read(path)[0], read(other)[0]
    wide = max([7, *map(len, [*one, *two])])
    all_of = lambda seconds, crate: sum(seconds[crate].values()) if crate in seconds else 0.0
    row = lambda name, a, b: f"{name:{wide}}{a:10.1f}{b:10.1f}{b - a:+10.1f}"
    print("seconds".ljust(wide) + f"{'first':>10}{'second':>10}{'change':>10}")
    for crate in sorted({*one, *two}, key=lambda it: -max(all_of(one, it), all_of(two, it))):
        print(row(crate, all_of(one, crate), all_of(two, crate)))
    for kind in KINDS:
        print(row(kind, *(sum(it[kind] for it in seconds.values()) for seconds in (one, two))))
    whole = [sum(sum(it.values()) for it in seconds.values()) for seconds in (one, two)]
    print(row("all", *whole))
    print(row("minutes", *(it / 60 for it in whole)))


def main(words):
    if words[:1] == ["--watch"] and len(words) in (2, 3) and all(it.isdigit() for it in words[2:]):
        return watch(words[1], int(words[2]) if words[2:] else 0)
    if len(words) == 1 and words[0] not in ("-h", "--help"):
        return table(words[0])
    if len(words) == 2 and words[0] != "--watch":
        return compared(*words)
    print(__doc__.strip())
    return 0 if words[:1] in (["-h"], ["--help"]) else 2


if __name__ == "__main__":
    sys.exit(main(sys.argv[1:]))
