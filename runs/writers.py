#!/usr/bin/env python3
"""What the programs that write do to files and to each other: owners, modes, links, pipes, files given twice, writers that were killed and
writers at once. Run from the root, after the programs are built. A case that needs root is left out for others, and said to be."""
import concurrent.futures
import os
import resource
import shutil
import signal
import socket
import stat
import subprocess
import sys
import tempfile
import time

import judge as lists
import programs
import remedies
from programs import NEW, R1, R3, RELAYED, slots

RUN = os.path.join(programs.ROOT, "run")
NOBODY = 65534
NEVER = 2147483647      # no process has a number as high
TAKEN = "taken R1 version 3 vehicle 1 at 5000"
TAKE = ["take", "store", "1", "5000", "r1"]
SWEEP = ["sweep", "full", "700000"]
MARSHAL = ["marshal", "coach.list", "train", "9000", "bus"]
COMPOSE = ["compose", "next.list", "R1", "values", "out"]
RELAY = ["relay", "coach.list", "train", "7000", "1", "passed"]
CONVERT = ["convert", "L.list", "form2", "moved"]
WRITE = ["write_remedies", "door.texts", "desk"]
STORE_1 = slots.taken(NEW, 1, 5000, R1)
SWEPT = slots.expired(programs.FULL, *range(1, slots.VEHICLES + 1))
BUS = bytes.fromhex("F334 2000 2800 3F FF 1B58 2800 000000000000 FFFF")
# the words of each program that writes, the place of what it writes, its name there, and the octets before and after
WRITERS = [(TAKE, 1, "STORE", NEW, STORE_1), (SWEEP, 1, "STORE", programs.FULL, SWEPT), (MARSHAL, 4, "DATA", b"\xff" * 20, BUS), (COMPOSE, 4, "OUT", R3, R1),
           (RELAY, 5, "OUT", R3, RELAYED), (WRITE, 2, "TELEGRAM", remedies.TEXT, remedies.DOOR)]


def place(pid):
    """What a lock says of a process of this machine."""
    return f"{pid} {socket.gethostname()} {os.readlink('/proc/self/ns/pid')}\n".encode()


class Folder:
    """A folder of files for one case."""

    def __init__(self):
        self.path = tempfile.mkdtemp()
        os.chmod(self.path, 0o777)
        for name in ("r1", "store", "full", "bus", "train", "coach.list", "next.list", "L.list", "values"):
            self.write(name, programs.FILES[name])
        for name in ("out", "passed"):
            self.write(name, R3)
        self.write("desk", remedies.TEXT)
        self.write("door.texts", remedies.data("door.texts"))
        self.said = []

    def at(self, name):
        return os.path.join(self.path, name)

    def write(self, name, octets):
        with open(self.at(name), "wb") as f:
            f.write(octets)

    def read(self, name):
        with open(self.at(name), "rb") as f:
            return f.read()

    def start(self, words, before=None):
        return subprocess.Popen([RUN] + words, cwd=self.path, stdout=subprocess.PIPE, stderr=subprocess.STDOUT, preexec_fn=before, start_new_session=True)

    def run(self, words, before=None):
        """What the program prints; one that waits for ever is ended, with what it started."""
        process = self.start(words, before)
        try:
            return process.communicate(timeout=60)[0].decode()
        except subprocess.TimeoutExpired:
            os.killpg(process.pid, signal.SIGKILL)
            process.communicate()
            return "waits for ever\n"

    def expect(self, what, expected, got):
        if expected != got:
            self.said.append(f"{what}: expected {expected!r}, got {got!r}"[:500])

    def says(self, words, line, before=None):
        self.expect(" ".join(words), line + "\n", self.run(words, before))

    def holds(self, name, octets):
        if self.read(name) != octets:
            self.said.append(f"{name} holds something else")

    def has_left(self, *names):
        """That nothing stands beside the files but these."""
        left = [n for n in os.listdir(self.path) if n.endswith((".new", ".lock", ".unlock"))]
        self.expect("left", sorted(names), sorted(left))


def instead(words, i, word):
    return words[:i] + [word] + words[i + 1:]


def error(words, i, name, what, word=None):
    return instead(words, i, word or words[i]), f"error: {name} '{word or words[i]}': {what}"


# ---- one file, one writer

def mode_and_owner(f):
    for words, i, name, old, new in WRITERS:
        os.chmod(f.at(words[i]), 0o640)
        if os.geteuid() == 0:
            os.chown(f.at(words[i]), NOBODY, 7)
        before = os.stat(f.at(words[i]))
        f.run(words)
        after = os.stat(f.at(words[i]))
        f.holds(words[i], new)
        f.expect(f"{words[0]}: mode, owner, group", (before.st_mode, before.st_uid, before.st_gid), (after.st_mode, after.st_uid, after.st_gid))
    f.has_left()


def owner_not_kept(f):
    """Another user may write the file and its folder, and still can't give the new file to its owner: the old one stays."""
    for words, i, name, old, new in WRITERS:
        os.chmod(f.at(words[i]), 0o666)
        f.says(*error(words, i, name, "its owner and mode cannot be kept"), before=lambda: os.setuid(NOBODY))
        f.holds(words[i], old)
    f.has_left()


def read_only(f):
    for words, i, name, old, new in WRITERS:
        os.chmod(f.at(words[i]), 0o444)
        f.says(*error(words, i, name, "is read-only"))
        f.holds(words[i], old)
        f.expect("mode", 0o444, stat.S_IMODE(os.stat(f.at(words[i])).st_mode))
    f.has_left()


def links(f):
    """Links stay, over several steps too, and the file that they lead to is replaced."""
    os.mkdir(f.at("folder"))
    for words, i, name, old, new in WRITERS:
        target = "folder/" + words[i]
        os.rename(f.at(words[i]), f.at(target))
        os.symlink(f.at(target), f.at(words[i] + ".2"))
        os.symlink(words[i] + ".2", f.at(words[i]))
        f.run(words)
        f.expect("links", (words[i] + ".2", f.at(target)), tuple(os.readlink(f.at(n)) for n in (words[i], words[i] + ".2")))
        f.holds(target, new)
    f.has_left()
    f.expect("folder", ["bus", "desk", "full", "out", "passed", "store"], sorted(os.listdir(f.at("folder"))))


def link_to_nothing(f):
    os.symlink("made", f.at("new"))
    f.says(["take", "new", "new"], "made a store, no vehicle heard")
    f.holds("made", NEW)
    os.symlink("made-2", f.at("new-2"))
    f.says(instead(COMPOSE, 4, "new-2"), "composed R1 version 3 octets 128")
    f.holds("made-2", R1)
    os.symlink("made-3", f.at("new-3"))
    f.says(instead(CONVERT, 3, "new-3"), "moved to form 2: 1 signals, 46 octets")
    f.holds("made-3", lists.in_form_2(lists.L))
    os.symlink("made-4", f.at("new-4"))
    f.says(instead(RELAY, 5, "new-4"), "relayed R1 version 2 octets 128, live 128 of 129 signals")
    f.holds("made-4", RELAYED)
    os.symlink("made-5", f.at("new-5"))
    f.says(instead(WRITE, 2, "new-5"), "written in de: 4 texts, 470 octets")
    f.holds("made-5", remedies.DOOR)
    f.expect("links", ["made", "made-2", "made-3", "made-4", "made-5"], [os.readlink(f.at(n)) for n in ("new", "new-2", "new-3", "new-4", "new-5")])
    os.symlink("round", f.at("round"))
    f.says(*error(TAKE, 1, "STORE", "too many links", "round"))


def two_names(f):
    for words, i, name, old, new in WRITERS:
        os.link(f.at(words[i]), f.at("other"))
        f.says(*error(words, i, name, "has several names (hard links), and only one would be replaced"))
        f.holds(words[i], old)
        os.remove(f.at("other"))
    f.has_left()


def no_plain_file(f):
    """A pipe with nobody at its other end keeps no program waiting, and a device of the same numbers as /dev/null stays one."""
    os.mkfifo(f.at("pipe"))
    kinds = ["pipe"]
    if os.geteuid() == 0:
        os.mknod(f.at("device"), 0o666 | stat.S_IFCHR, os.makedev(1, 3))
        kinds.append("device")
    for words, i, name, old, new in WRITERS:
        for kind in kinds:
            was = os.stat(f.at(kind))
            f.says(*error(words, i, name, "is no plain file", kind))
            f.expect(kind, (was.st_mode, was.st_ino), (os.stat(f.at(kind)).st_mode, os.stat(f.at(kind)).st_ino))
    f.has_left()


def given_twice(f):
    """The same file by its name, another path, and a link."""
    os.mkdir(f.at("folder"))
    os.symlink("L.list", f.at("link"))
    os.symlink("values", f.at("values.link"))
    both = ["marshal", "L.list", "train", "9000", "L.list"]
    for words in (both, instead(both, 4, "folder/../L.list"), instead(both, 4, "link"), instead(both, 1, "link")):
        f.says(words, f"error: DATA '{words[4]}': is given twice")
    f.write("nothing", b"")
    f.says(["compose", "next.list", "R1", "values", "values.link"], "error: OUT 'values.link': is given twice")
    f.says(["compose", "L.list", "R1", "nothing", "L.list"], "error: OUT 'L.list': is given twice")
    f.says(instead(TAKE, 4, "store"), "error: STORE 'store': is given twice")
    os.symlink("train", f.at("train.link"))
    for words in (instead(RELAY, 5, "train"), instead(RELAY, 5, "train.link"), instead(RELAY, 2, "train.link")[:5] + ["folder/../train"], instead(RELAY, 5, "coach.list")):
        f.says(words, f"error: OUT '{words[5]}': is given twice")
    os.symlink("door.texts", f.at("door.link"))
    for words in (instead(WRITE, 2, "door.texts"), instead(WRITE, 2, "door.link"), instead(WRITE, 1, "door.link")[:2] + ["folder/../door.texts"]):
        f.says(words, f"error: TELEGRAM '{words[2]}': is given twice")
    f.holds("L.list", lists.L)
    f.holds("train", programs.TRAIN)
    f.holds("door.texts", remedies.data("door.texts"))
    f.has_left()


# ---- writers that were killed

def dies():
    """A write past 200 octets kills the program, as a switch-off would in its midst."""
    resource.setrlimit(resource.RLIMIT_FSIZE, (200, 200))
    resource.setrlimit(resource.RLIMIT_CORE, (0, 0))


def killed(f):
    """What a writer left that was killed keeps nobody from writing."""
    f.run(TAKE, dies)
    f.holds("store", NEW)
    f.has_left("store.lock", "store.new")
    f.says(TAKE, TAKEN)
    f.holds("store", STORE_1)
    f.has_left()


def killed_sweep(f):
    """A sweep marks all that is too old or nothing."""
    f.run(SWEEP, dies)
    f.holds("full", programs.FULL)
    f.has_left("full.lock", "full.new")
    f.says(SWEEP, "swept at 700000, expired 63: 1-63")
    f.holds("full", SWEPT)
    f.has_left()


def killed_new(f):
    """A store is made whole or not at all."""
    f.run(["take", "new", "made"], dies)
    f.expect("made", False, os.path.exists(f.at("made")))
    f.says(["take", "new", "made"], "made a store, no vehicle heard")
    f.holds("made", NEW)
    f.has_left()


def killed_convert(f):
    """A moved list is made whole or not at all."""
    words = ["convert", "coach.list", "form2", "moved"]
    f.run(words, dies)
    f.expect("moved", False, os.path.exists(f.at("moved")))
    f.says(words, "moved to form 2: 165 signals, 3404 octets")
    f.holds("moved", lists.in_form_2(programs.FILES["coach.list"]))
    f.has_left()


def killed_remedies(f):
    """A telegram with texts is replaced whole or not at all."""
    f.run(WRITE, dies)
    f.holds("desk", remedies.TEXT)
    f.has_left("desk.lock", "desk.new")
    f.says(WRITE, "written in de: 4 texts, 470 octets")
    f.holds("desk", remedies.DOOR)
    f.has_left()


def not_over_a_list(f):
    """The list that is moved stays, by its name, another path and a link, and whatever else is there."""
    os.mkdir(f.at("folder"))
    os.symlink("L.list", f.at("link"))
    for out in ("L.list", "folder/../L.list", "link", "store", "folder"):
        f.says(instead(CONVERT, 3, out), f"error: OUT '{out}': exists already")
    f.holds("L.list", lists.L)
    f.holds("store", NEW)
    f.has_left()


def others_new(f):
    """A file of that name that no writer left is not taken away."""
    f.write("store.new", lists.L)
    f.says(TAKE, "error: STORE 'store.new': exists; remove it if no program is at work")
    f.holds("store.new", lists.L)
    f.has_left("store.new")


def lock_without_process(f):
    f.write("store.lock", b"")
    f.says(TAKE, "error: busy: STORE 'store.lock': names no process; remove it if no program is at work")
    f.holds("store", NEW)


def lock_of_another_machine(f):
    f.write("store.lock", b"%d elsewhere pid:[1]\n" % NEVER)
    f.says(TAKE, f"error: busy: STORE 'store.lock': process {NEVER} holds it; remove it if that is no writer of this file")


def lock_half_freed(f):
    f.write("store.lock", place(NEVER))
    f.write("store.unlock", b"")
    f.says(TAKE, f"error: busy: STORE 'store.lock': process {NEVER} left it and is gone; remove it, and the .unlock beside it")


# ---- writers at once

def held(f):
    """A lock is waited for, and where its owner keeps it the word is `busy`. A link to the file makes no other lock."""
    os.symlink("store", f.at("link"))
    f.write("store.lock", place(os.getpid()))
    by_link = f.start(instead(TAKE, 1, "link"))
    busy = f"error: busy: STORE 'store.lock': process {os.getpid()} holds it; remove it if that is no writer of this file"
    f.says(TAKE, busy)
    f.expect("by the link", (busy + "\n", 2), (by_link.communicate()[0].decode(), by_link.returncode))
    waits = f.start(TAKE)
    time.sleep(1)
    f.expect("waits", None, waits.poll())
    os.remove(f.at("store.lock"))
    f.expect("waited", TAKEN + "\n", waits.communicate()[0].decode())
    f.holds("store", STORE_1)


def at_once(f):
    """A telegram of each vehicle at once, each by a take of its own: none is turned away, and none is lost."""
    takes = [f.start(["take", "store", str(v), "5000", "r1"]) for v in range(1, slots.VEHICLES + 1)]
    said = sorted(t.communicate()[0].decode() for t in takes)
    f.expect("takes", sorted(f"taken R1 version 3 vehicle {v} at 5000\n" for v in range(1, slots.VEHICLES + 1)), said)
    f.holds("store", programs.FULL)
    f.has_left()


def swept_at_once(f):
    """Takes and sweeps of one store at once: whatever the order, no telegram is lost, and each is heard, since each is taken at the sweep's clock."""
    takes = [f.start(["take", "full", str(v), "700000", "r1"]) for v in range(1, 9)] + [f.start(SWEEP) for _ in range(4)]
    said = [t.communicate()[0].decode() for t in takes]
    f.expect("takes", [f"taken R1 version 3 vehicle {v} at 700000\n" for v in range(1, 9)], said[:8])
    f.expect("sweeps", [True] * 4, [line.startswith("swept at 700000, expired ") for line in said[8:]])
    now = SWEPT
    for v in range(1, 9):
        now = slots.taken(now, v, 700000, R1)
    f.holds("full", now)
    f.has_left()


def at_once_behind_a_killed_one(f):
    f.write("store.lock", place(NEVER))
    f.write("store.new", b"cut")
    at_once(f)


ROOTS = [owner_not_kept]
ALONE = [at_once, swept_at_once, at_once_behind_a_killed_one]
CASES = [mode_and_owner, read_only, links, link_to_nothing, two_names, no_plain_file, given_twice, killed, killed_sweep, killed_new, killed_convert, killed_remedies,
         not_over_a_list, others_new, lock_without_process, lock_of_another_machine, lock_half_freed, held]


def nobody_can_run():
    done = subprocess.run([RUN, "take", "help"], cwd="/", stdout=subprocess.DEVNULL, stderr=subprocess.DEVNULL, preexec_fn=lambda: os.setuid(NOBODY))
    return done.returncode == 0


def one(case):
    f = Folder()
    try:
        case(f)
    except Exception as e:
        f.said.append(repr(e))
    finally:
        shutil.rmtree(f.path)
    return [f"{case.__name__}: {what}" for what in f.said]


def main():
    cases = list(CASES)
    if os.geteuid() == 0 and nobody_can_run():
        cases += ROOTS
    else:
        print("writers: left out, since it needs root: " + ", ".join(c.__name__ for c in ROOTS))
    with concurrent.futures.ThreadPoolExecutor(4) as pool:
        said = [what for whats in pool.map(one, cases) for what in whats]
    said += [what for case in ALONE for what in one(case)]
    print("\n".join(said + [f"writers: {len(cases) + len(ALONE)} cases, {len(said)} things wrong"]))
    return 1 if said else 0


if __name__ == "__main__":
    sys.exit(main())
