#!/usr/bin/env python3
"""Drives the programs as a script and a new user do: by `run`, and by what `run install` puts into a folder, with nothing else in PATH than
the tools that this needs. Builds, breaks and follows the README in copies of the tree. Run from the root, after the programs are built.

    runs/driven.py [PART..]     all parts, or these: status, list, input, install, build, once, readme
"""
import contextlib
import glob
import os
import re
import shutil
import subprocess
import sys
import tempfile
import time

import printed

ROOT = printed.ROOT
PROGRAMS = ("judge", "extends", "compare", "convert", "take", "sweep", "believe", "differ", "marshal", "compose", "relay", "remedies", "write_remedies", "christening", "desk", "recording")
LONGEST = 900  # seconds that a program may take to be proved beside all else that the gate does
TOOLS = ("sh", "awk", "readlink", "uname")  # what an installed program needs beside itself
BUILT = ("bin", "stamp")  # of target/: what a run goes by that finds all proved
PROVED = os.path.join(ROOT, "target", "ci")  # and what it goes by where the libraries are proved
OTHER = os.uname().machine != "x86_64"
COACH, NEXT, WRONG, STORE = "data/coach.list", "data/coach-next.list", "data/coach-wrong.list", "data/scene/train.store"
COACH_2, PLAIN, OFF = "data/coach-2.list", "data/plain-coach.list", "data/coach-off.list"
DOOR, DOOR_OFF, TEXTS = "data/door.telegram", "data/door-off.telegram", "data/door.texts"
RECORDS = "data/train.records"
PLATFORM, CONSIST = "data/scene/platform.store", "data/scene/platform.consist"
RECORDING, RECORDING_OFF = "data/train.rec", "data/train-off.rec"
OK = "list ok checks=48 signals=165 codes=41 routes=14 version=2\n"
OK_PLAIN = "list ok profile=plain-coach checks=11 signals=64 codes=3 routes=14 version=2\n"
OFF_PAGE = "! changed  R1 octet 54 bits 0-3  check octet 41 bits 2-3 -> octet 41 bits 4-5  breaks extending: check place\nextends: no\n"

count, amiss = 0, []


def check(what, is_so, shown=""):
    global count
    count += 1
    if not is_so:
        amiss.append(what)
        print(f"driven: {what}{': ' if shown else ''}{str(shown)[:1500]}")


def run(words, folder=ROOT, **more):
    return subprocess.run(words, cwd=folder, stdin=more.pop("stdin", subprocess.DEVNULL), capture_output=True, text=True, timeout=LONGEST, **more)


def ends(what, done, status, out=None, err=None):
    """The run ended with this status, its output is `out`, and its errors begin with `err`; where one is not given, it is empty."""
    shown = f"status {done.returncode}, out {done.stdout[:300]!r}, errors {done.stderr[:300]!r}"
    check(what, done.returncode == status and done.stdout == (out or "") and (done.stderr.startswith(err) if err else not done.stderr), shown)


@contextlib.contextmanager
def copy(libraries=False):
    """A copy of the tree as it stands, with what is built; with the proved libraries, which are only read, to build a program."""
    with tempfile.TemporaryDirectory() as folder:
        tree = os.path.join(folder, "tree")
        shutil.copytree(ROOT, tree, symlinks=True, ignore=shutil.ignore_patterns("target", ".git", "tmp", "__pycache__", "out"))
        os.mkdir(os.path.join(tree, "target"))
        for part in BUILT:
            shutil.copytree(os.path.join(ROOT, "target", part), os.path.join(tree, "target", part))
        if libraries:
            for rlib in glob.glob(os.path.join(ROOT, "crates", "*", "out", "rlib")):
                shutil.copytree(rlib, os.path.join(tree, os.path.relpath(rlib, ROOT)), copy_function=linked)
            if os.path.exists(PROVED):
                shutil.copy2(PROVED, os.path.join(tree, "target"))
        yield tree


def linked(one, other):
    """A file of a library, which rt and rattle only read."""
    try:
        os.link(one, other)
    except OSError:
        shutil.copy2(one, other)


def emulator():
    """Where the machine is not x86-64: the emulator that the programs of the tree are run by, as an installed program is told of it."""
    return {"DUSTFERRULE_EMULATOR": os.environ["DUSTFERRULE_EMULATOR"]} if OTHER else {}


def statuses(how, start, env=None):
    """`start` gives the words that start a program by its name."""

    def end(status, words, out=None, err=None):
        ends(f"{how}, {' '.join(words)}", run(start(words[0]) + words[1:], env=env), status, out, err)

    end(0, ["judge", COACH], OK)
    end(1, ["judge", "data/signals.csv"], err="refused 2 at 0: ")
    end(2, ["judge", "data/none"], err="error: LIST 'data/none': ")
    end(1, ["believe", COACH, STORE, "9000", "64"], err="refused 6: ")
    end(0, ["judge", COACH_2, "form2"], OK)
    end(1, ["judge", COACH_2], err="refused 3 at 116: ")
    end(0, ["judge", PLAIN, "plain-coach"], OK_PLAIN)
    end(1, ["judge", COACH, "plain-coach"], err="refused 34 at 1124: ")
    end(1, ["judge", COACH_2, "driving-trailer", "form2"], err="refused 34 at 1252: ")
    end(2, ["judge", PLAIN, "coach"], err="error: usage: judge ")
    end(1, ["convert", COACH_2, "form1", "data/none"], err="refused 32: ")
    end(2, ["convert", COACH, "form2", "data"], err="error: OUT 'data': exists already")
    end(0, ["extends", COACH, NEXT], "extends: yes\n")
    end(1, ["extends", COACH, WRONG], "extends: no\n")
    end(0, ["extends", COACH, COACH_2, "second-form2"], "extends: yes\n")
    end(2, ["extends", COACH, STORE], err="refused ")
    end(2, ["extends", COACH, "data/none"], err="error: ")
    end(0, ["compare", COACH, COACH], "extends: yes\n")
    end(0, ["compare", COACH, COACH_2, "second-form2"], "extends: yes\n")
    end(1, ["compare", COACH, OFF], OFF_PAGE)
    end(1, ["compare", OFF, COACH, "table"], "what\tchange\ttype\tstart\tbreaks\tfield\tfrom\tto\nsignal\tchanged\tR1\t424\t2\tcheck\t324\t322\nextends: no\n")
    for second, last in ((NEXT, "\nextends: yes\n"), (WRONG, "\nextends: no\n")):
        done = run(start("compare") + [COACH, second], env=env)
        check(f"{how}, compare with {second}", done.returncode == 1 and done.stdout.endswith(last) and not done.stderr, done)
    end(2, ["compare", COACH, COACH_2], err="refused 3 at 116 (second list): ")
    end(2, ["compare", "data/none", COACH], err="error: FIRST 'data/none': ")
    for status, second, last in ((0, COACH, r"differ: 0 of \d+ lines"), (1, NEXT, r"differ: 7 of \d+ lines")):
        done = run(start("differ") + [COACH, second, STORE, "9000"], env=env)
        found = re.fullmatch(last, done.stdout.splitlines()[-1] if done.stdout else "")
        check(f"{how}, differ with {second}", done.returncode == status and found and not done.stderr, done)
    for status, second, *behind in ((0, COACH), (1, NEXT), (0, COACH_2, "second-form2")):
        done = run(start("differ") + [COACH, second, STORE, "9000", "table", *behind], env=env)
        check(f"{how}, differ with {second} as a table", done.returncode == status and done.stdout.startswith("vehicle\t") and not done.stderr, done)
    for status, *behind in ((0, "9000"), (1, "7000"), (0, "9000", "table"), (1, "7000", "table")):
        done = run(start("differ") + [NEXT, NEXT, STORE, "9000", "behind", STORE, *behind], env=env)
        check(f"{how}, differ behind at {' '.join(behind)}", done.returncode == status and done.stdout and not done.stderr, done)
    end(2, ["differ", COACH, NEXT, STORE, "9000", "behind", COACH, "9000"], err="refused 5 (second store): ")
    end(1, ["relay", COACH, STORE, "9000", "4", "data/none"], err="refused 9: ")
    end(2, ["relay", COACH, STORE, "9000", "1", STORE], err=f"error: OUT '{STORE}': is given twice")
    with open(os.path.join(ROOT, "crates", "remedies", "stdout"), encoding="utf-8") as f:
        end(0, ["remedies", DOOR], f.read())
    end(1, ["remedies", DOOR_OFF], err="refused 29: ")
    end(2, ["remedies", "data/none"], err="error: TELEGRAM 'data/none': ")
    end(2, ["write_remedies", "data/signals.csv", "data/none"], err="error: FILE 'data/signals.csv' line 1: ")
    end(2, ["write_remedies", TEXTS, TEXTS], err=f"error: TELEGRAM '{TEXTS}': is given twice")
    with open(os.path.join(ROOT, "crates", "christening", "stdout"), encoding="utf-8") as f:
        end(0, ["christening", RECORDS, "leading", "5", "led", "1"], f.read())
    end(1, ["christening", DOOR], err="refused 31: ")
    end(1, ["christening", RECORDS, "led", "2"], err="refused 18: ")
    end(2, ["christening", RECORDS, "led", "6"], err="error: vehicle '6': ")
    end(2, ["christening", "data/none"], err="error: RECORDS 'data/none': ")
    with open(os.path.join(ROOT, "crates", "desk", "stdout"), encoding="utf-8") as f:
        end(0, ["desk", COACH, PLATFORM, "7000", CONSIST], f.read())
    end(0, ["desk", COACH_2, PLATFORM, "6000", CONSIST, "92", "form2"], "LEFT   LOCKED\nRIGHT  LOCKED\n")
    end(1, ["desk", "data/L.list", PLATFORM, "7000", CONSIST], err="refused 35: ")
    end(1, ["desk", COACH, PLATFORM, "7000", CONSIST, "63"], err="refused 20: ")
    end(2, ["desk", COACH, PLATFORM, "7000", CONSIST, "coaches"], err="error: ADDRESS 'coaches': ")
    end(2, ["desk", COACH, PLATFORM, "7000", "data/none"], err="error: CONSIST 'data/none': ")
    end(0, ["recording", RECORDING], "accepted, 3 steps\n")
    with open(os.path.join(ROOT, "crates", "recording", "stdout"), encoding="utf-8") as f:
        end(1, ["recording", RECORDING_OFF], f.read())
    end(2, ["recording", COACH], err=f"error: FILE '{COACH}': no recording: ")
    end(2, ["recording", "data/none"], err="error: FILE 'data/none': ")
    end(2, ["differ", COACH, STORE, STORE, "9000"], err="refused ")
    end(2, ["differ", COACH, "data/none", STORE, "9000"], err="error: ")
    for name in PROGRAMS:
        end(2, [name], err=f"error: usage: {name} ")
        for word in ("help", "--help", "-h"):
            done = run(start(name) + [word], env=env)
            check(f"{how}, {name} {word}", done.returncode == 0 and done.stdout.startswith(name + " ") and not done.stderr, done)
            check(f"{how}, {name} {word} says its status", name not in ("extends", "differ", "compare", "recording") or "`diff`" in done.stdout)
    with open("/dev/full", "w") as full:
        done = subprocess.run(start("judge") + [COACH], cwd=ROOT, stdout=full, stderr=subprocess.DEVNULL, env=env, timeout=60)
    check(f"{how}, an answer that cannot be written", done.returncode == 2, done.returncode)


def status():
    statuses("run", lambda name: [os.path.join(ROOT, "run"), name])
    with tempfile.TemporaryDirectory() as folder:
        program, go = os.path.join(folder, "program"), os.path.join(folder, "go")

        def stands_in(script):
            """`script` runs where the program would."""
            with open(program, "w") as f:
                f.write(f"go={go}\n{script}\n")
            return {**os.environ, "DUSTFERRULE_EMULATOR": f"sh {program}"}

        for what, script, out in (("is cut short", "echo list ok; exit 3", "list ok\n"), ("prints nothing", "", ""), ("is killed", "kill -9 $$", "")):
            done = run([os.path.join(ROOT, "run"), "judge", COACH], env=stands_in(script))
            check(f"a program that {what}", done.returncode == 2 and done.stdout == out, done)
        ends("a compare without a verdict", run([os.path.join(ROOT, "run"), "compare"], env=stands_in("echo '  changed  R1'")), 2, "  changed  R1\n")
        ends("a differ that does not count", run([os.path.join(ROOT, "run"), "differ"], env=stands_in("echo first")), 2, "first\n")
        # A long answer comes while the program goes on: it waits for what is done only once the first line is there.
        long = "i=0; while [ $((i += 1)) -le 20000 ]; do echo line $i; done; for i in 1 2 3 4 5; do [ -e $go ] || sleep 1; done; ls $go"
        with subprocess.Popen([os.path.join(ROOT, "run"), "believe"], stdout=subprocess.PIPE, text=True, env=stands_in(long)) as going:
            first = going.stdout.readline()
            open(go, "w").close()
            rest = going.stdout.read().splitlines()
        check("a long answer comes as it is made", first == "line 1\n" and len(rest) == 20000 and rest[-1] == go, rest[-3:])


def list_programs():
    me = os.path.join(ROOT, "run")
    for words, status in (([], 2), (["help"], 0), (["-h"], 0), (["--help"], 0), (["jugde"], 2), (["../crates/judge"], 2)):
        done = run([me] + words)
        said, other = (done.stdout, done.stderr) if status == 0 else (done.stderr, done.stdout)
        lines = [line for line in said.splitlines() if line.split(" ")[0] in PROGRAMS]
        check(f"run {' '.join(words)}", done.returncode == status and not other and len(lines) == len(PROGRAMS), done)
    with tempfile.TemporaryDirectory() as folder:
        os.symlink(me, os.path.join(folder, "link"))
        os.symlink("link", os.path.join(folder, "second"))
        for name in ("link", "second"):
            ends("run by a symbolic link", run([os.path.join(folder, name), "judge", COACH]), 0, OK)


def standard_input():
    me = os.path.join(ROOT, "run")

    def given(file, *words, folder=ROOT):
        with open(os.path.join(ROOT, file), "rb") as f:
            return run([me, *words], folder, stdin=f)

    ends("judge -", given(COACH, "judge", "-"), 0, OK)
    ends("judge - under a profile", given(PLAIN, "judge", "-", "plain-coach"), 0, OK_PLAIN)
    ends("extends - of the first", given(COACH, "extends", "-", NEXT), 0, "extends: yes\n")
    ends("extends - of the second", given(WRONG, "extends", COACH, "-"), 1, "extends: no\n")
    ends("compare - of the first", given(COACH, "compare", "-", OFF), 1, OFF_PAGE)
    ends("compare - of the second", given(COACH, "compare", COACH, "-"), 0, "extends: yes\n")
    ends("compare - twice", given(COACH, "compare", "-", "-"), 2, err="error: ")
    ends("extends - twice", given(COACH, "extends", "-", "-"), 2, err="error: ")
    ends("a number -", given(COACH, "believe", COACH, STORE, "-"), 2, err="error: ")
    both = run([me, "differ", NEXT, NEXT, STORE, "9000", "behind", STORE, "7000", "1"]).stdout
    ends("differ - behind", given(STORE, "differ", NEXT, NEXT, STORE, "9000", "behind", "-", "7000", "1"), 1, both)
    ends("differ of a vehicle, then -", given(STORE, "differ", NEXT, NEXT, STORE, "9000", "1", "-"), 2, err="error: '-' ")
    piped = subprocess.run(f"cat {COACH} | ./run judge -", shell=True, cwd=ROOT, capture_output=True, text=True)
    ends("judge - of a pipe", piped, 0, OK)
    with tempfile.TemporaryDirectory() as folder:
        for name in ("coach.list", "scene/train.store", "scene/1-R1.telegram", "scene/1-R1.values"):
            shutil.copy(os.path.join(ROOT, "data", name), folder)
        shutil.copy(os.path.join(ROOT, COACH), os.path.join(folder, "bus"))
        before = set(os.listdir(folder))
        for words in (["take", "-", "1", "1", "1-R1.telegram"], ["take", "new", "-"], ["sweep", "-", "9000"], ["marshal", "coach.list", "train.store", "9000", "-"],
                      ["compose", "coach.list", "R3", "1-R1.values", "-"], ["relay", "coach.list", "train.store", "7000", "1", "-"], ["convert", "coach.list", "form2", "-"],
                      ["write_remedies", os.path.join(ROOT, TEXTS), "-"]):
            ends(" ".join(words), given(COACH, *words, folder=folder), 2, err="error: '-' ")
        check("nothing is written to a file '-'", set(os.listdir(folder)) == before)
        ends("convert of -", given(COACH, "convert", "-", "form2", "moved", folder=folder), 0, "moved to form 2: 165 signals, 3404 octets\n")
        ends("judge of what it made", given(os.path.join(folder, "moved"), "judge", "-", "form2"), 0, OK)
        taken = given("data/scene/2-R2.telegram", "take", "train.store", "5", "8000", "-", folder=folder)
        ends("take of -", taken, 0, "taken R2 version 2 vehicle 5 at 8000\n")
        with open(os.path.join(ROOT, "crates", "remedies", "stdout"), encoding="utf-8") as f:
            ends("remedies of -", given(DOOR, "remedies", "-"), 0, f.read())
        with open(os.path.join(ROOT, "crates", "christening", "stdout"), encoding="utf-8") as f:
            ends("christening of -", given(RECORDS, "christening", "-", "led", "1", "leading", "5"), 0, f.read())
        ends("christening of a vehicle -", given(RECORDS, "christening", RECORDS, "led", "-"), 2, err="error: '-' ")
        with open(os.path.join(ROOT, "crates", "desk", "stdout"), encoding="utf-8") as f:
            page = f.read()
        for k, file in enumerate((COACH, PLATFORM, None, CONSIST)):
            words = [COACH, PLATFORM, "7000", CONSIST]
            words[k] = "-"
            ends(f"desk of -, word {k + 1}", given(file or COACH, "desk", *words), *((0, page) if file else (2, None, "error: '-' ")))
        ends("recording of -", given(RECORDING, "recording", "-"), 0, "accepted, 3 steps\n")
        with open(os.path.join(folder, "again.rec"), "wb") as f, open(os.path.join(ROOT, RECORDING), "rb") as whole:
            octets = whole.read()
            f.write(octets + octets[-8687:])
        ends("recording of - that is refused", given(os.path.join(folder, "again.rec"), "recording", "-"), 2, err="refused 37 in step 4: ")
        ends("write_remedies of -", given(TEXTS, "write_remedies", "-", "door", folder=folder), 0, "written in de: 4 texts, 470 octets\n")
        ends("relay of -", given(STORE, "relay", "coach.list", "-", "7000", "1", "passed", folder=folder), 0, "relayed R1 version 2 octets 128, live 128 of 129 signals\n")


def install():
    with tempfile.TemporaryDirectory() as folder:
        there, tools = os.path.join(folder, "two words"), os.path.join(folder, "tools")
        for time_of_it in ("first", "second"):
            done = run([os.path.join(ROOT, "run"), "install", there])
            check(f"install, the {time_of_it} time", done.returncode == 0 and not done.stderr and "x86-64" in done.stdout, done)
        os.mkdir(tools)
        for tool in TOOLS:
            os.symlink(shutil.which(tool), os.path.join(tools, tool))
        if not os.path.isdir(there):
            check("nothing is installed", False)
            return
        bare = {"PATH": tools}
        if OTHER:
            done = run([os.path.join(there, "judge"), COACH], env=bare)
            ends("an installed program without an emulator", done, 2, err="error: judge is a program for x86-64, and this machine is ")
            check("it says how to name one", "DUSTFERRULE_EMULATOR" in done.stderr)
        statuses("installed", lambda name: [os.path.join(there, name)], {**bare, **emulator()})
        os.symlink(os.path.join(there, "judge"), os.path.join(folder, "link"))
        ends("installed, by a link", run([os.path.join(folder, "link"), COACH], env={**bare, **emulator()}), 0, OK)
        other = os.path.join(folder, "other")
        os.mkdir(other)
        with open(os.path.join(other, "judge"), "w") as f:
            f.write("somebody's\n")
        ends("install over another's file", run([os.path.join(ROOT, "run"), "install", other]), 2, err="run: ")
        check("which stays, and alone", os.listdir(other) == ["judge"] and open(os.path.join(other, "judge")).read() == "somebody's\n")
        ends("install without a folder", run([os.path.join(ROOT, "run"), "install"]), 2, err="run: usage: ")


def build():
    with copy(libraries=True) as tree:
        me = os.path.join(tree, "run")
        done = run([me, "build"])
        check("build, where all is built", done.returncode == 0 and len((done.stdout + done.stderr).splitlines()) <= 2, done)
        os.remove(os.path.join(tree, "target", "bin", "judge"))
        done = run([me, "judge", os.path.join(tree, COACH)])
        lines = done.stderr.splitlines()
        check("a program that was removed comes back", done.returncode == 0 and done.stdout == OK, done)
        check("progress", any(re.fullmatch(r"proving \d+ of \d+: judge", line) for line in lines), done.stderr)
        logs = [word for line in lines for word in line.split() if word.endswith(".log")]
        check("the log is named", bool(logs) and "proved" in open(logs[0]).read(), done.stderr)
        check("a few lines", len(lines) <= 5 and "note:" not in done.stderr, done.stderr)
        with open(os.path.join(tree, "crates", "judge", "src", "main.rt"), "a") as f:
            f.write("\nfn broken() -> u8 {\n    300\n}\n")
        done = run([me, "judge", COACH], tree)
        lines = done.stderr.splitlines()
        check("a program that cannot be built", done.returncode == 2 and not done.stdout and len(lines) <= 25, done)
        check("its error is shown", any("main.rt" in line and "error" in line for line in lines), done.stderr)
        ends("the other programs are as they were", run([me, "extends", COACH, NEXT], tree), 0, "extends: yes\n")


# rt and rattle, which note each build and whether another was under way
NOTING = """#!/bin/sh
note() {{
    mkdir {notes}/busy || : >{notes}/two-at-once
    : >{notes}/check.$$
    "$@"
    status=$?
    rmdir {notes}/busy
    exit $status
}}
case $0:$1 in
*/rt:run) note {rt} "$@" ;;
*/rt:doc) echo {notes}/kit/START-HERE.md ;;
*/rt:*) exec {rt} "$@" ;;
*/rattle:build) note {kit}/bin/rattle "$@" ;;
*) exec {kit}/bin/rattle "$@" ;;
esac
"""


def notes_builds(notes):
    """A PATH with such an rt, beside a kit with such a rattle."""
    kit, own = os.path.dirname(run(["rt", "doc"]).stdout.strip()), os.path.join(notes, "kit")
    os.makedirs(os.path.join(own, "bin"))
    os.mkdir(os.path.join(notes, "bin"))
    for name in set(os.listdir(kit)) - {"bin"}:
        os.symlink(os.path.join(kit, name), os.path.join(own, name))
    for name in set(os.listdir(os.path.join(kit, "bin"))) - {"rattle"}:
        os.symlink(os.path.join(kit, "bin", name), os.path.join(own, "bin", name))
    for path in (os.path.join(notes, "bin", "rt"), os.path.join(own, "bin", "rattle")):
        with open(path, "w") as f:
            f.write(NOTING.format(rt=shutil.which("rt"), kit=kit, notes=notes))
        os.chmod(path, 0o755)
    return os.path.join(notes, "bin") + ":" + os.environ["PATH"]


def once():
    for time_of_it in ("first", "second"):
        with copy(libraries=True) as tree, tempfile.TemporaryDirectory() as notes:
            env = {**os.environ, "PATH": notes_builds(notes)}
            time.sleep(0.01)  # newer than all that is built
            os.utime(os.path.join(tree, "crates", "judge", "src", "main.rt"))
            words = [os.path.join(tree, "run"), "judge", os.path.join(tree, COACH)]
            six = [subprocess.Popen(words, env=env, stdin=subprocess.DEVNULL, stdout=subprocess.PIPE, stderr=subprocess.PIPE, text=True) for _ in range(6)]
            got = [(*p.communicate(timeout=LONGEST), p.returncode) for p in six]
            check(f"six at once, the {time_of_it} time", all(out == OK and code == 0 for out, _, code in got), got)
            checks = [name for name in os.listdir(notes) if name.startswith("check.")]
            check("one builds, the others wait", len(checks) == 1 and not os.path.exists(os.path.join(notes, "two-at-once")), sorted(os.listdir(notes)))


def readme():
    """Twice, in the tree itself; all but what builds for C and Rust, which printed.py runs."""
    with copy() as tree:
        with open(os.path.join(tree, "README.md")) as f:
            text = f.read()
        first = text.index("$ ")
        check("what is needed stands before the first command", re.search(r"Rattle kit.*minutes", text[:first], re.S) is not None)
        check("what document 01 is, and where its rules are", re.search(r"not in (this|the) repository", text) and "PROMISES" in text)
        subprocess.run("git init -q && git add -A", shell=True, cwd=tree, check=True)
        text = re.sub(r"^\$ (?:examples/|\./run install-library ).*\n(?:[^$`].*\n)*", "", text, flags=re.M)
        for time_of_it in ("first", "second"):
            ran, others = printed.follow("README.md", text, tree)
            check(f"the README, followed a {time_of_it} time", ran > 10 and not others)
        left = run(["git", "ls-files", "--others", "--exclude-standard"], tree).stdout + run(["git", "diff", "--stat"], tree).stdout
        check("git ignores what its commands leave", not left, left)


PARTS = {"status": status, "list": list_programs, "input": standard_input, "install": install, "build": build, "once": once, "readme": readme}


def main():
    for part in sys.argv[1:] or PARTS:
        try:
            PARTS[part]()
        except (OSError, subprocess.SubprocessError) as error:
            check(part, False, error)
    print(f"driven: {count} things looked at, {len(amiss)} amiss")
    return bool(amiss)


if __name__ == "__main__":
    sys.exit(main())
