#!/usr/bin/env -S python3 -B
"""Runs of the built program of which one call of the system fails. Each row of lib/fault_rows.py is run once more for each of its calls on a
file, which strace lets fail: the status is 3, what was printed is the front of the answers, up to the end of one, and the file opens; where
updates are automatic, it has the frames before the line under way or those after it. A script and an output fail in their turn, and of
an output the last answer gets out in part. Calls that are interrupted are made again. Of an automatic write the calls are compared,
with their bytes, and so is what a power cut may leave at each moment. Needs Python 3, and the Debian package strace, without which it is skipped."""
import os
import random
import resource
import signal
import subprocess
import sys

from lib import fault_rows as rows, kinds
from lib.crash_images import images, after, traced
from lib.head import SECONDS, Cases, ended, finished, first_difference, has, start

if not has("faults", "strace"):
    sys.exit(0)
program = start()
with open(program, "rb") as file:
    if file.read(2) == b"#!":
        print("faults: skipped: the program to try is a script, whose own calls would fail, too")
        sys.exit(0)
cases = Cases("faults")
FILE, SCRIPT, OUT = (os.path.abspath(it) for it in ("a.wav", "script.txt", "out.txt"))
# what is asked of a file by its name or its number
CALLS = ("openat", "statx", "pread64", "pwrite64", "ftruncate", "fsync", "fdatasync")


def put(name, content):
    with open(name, "wb") as file:
        file.write(content)


def held(name=FILE):
    with open(name, "rb") as file:
        return file.read()


def failing(path, calls, error, number, words, script, out=subprocess.PIPE):
    """A run whose call of this number fails, of those on a path; and whether it made that call."""
    told = ["strace", "--quiet=all", "-o", "trace.txt", "-P", path, "-e", f"trace={calls}", "-e", f"inject={calls}:error={error}:when={number}"]
    put(SCRIPT, script)
    with open(SCRIPT, "rb") as given:
        done = subprocess.run([*told, program, *words], stdin=given, stdout=out, stderr=subprocess.PIPE, timeout=SECONDS)
    with open("trace.txt", encoding="latin-1") as trace:
        return done, "(INJECTED)" in trace.read()


def stopped(done, answers):
    """The faults of a run that a call that failed has stopped; how many answers are out."""
    wrong = [f"status {done.returncode} for 3"] * (done.returncode != 3) + first_difference("standard error", done.stderr, b"")
    fronts = [b"".join(answers[:i]) for i in range(len(answers) + 1)]
    if done.stdout not in fronts:
        wrong.append(f"{done.stdout!r} is no front of the answers")
    return wrong


def numbers_of(b):
    it = kinds.stated(b)
    return kinds.numbers_of(it.codec, it.data[:it.frames * it.channels * kinds.size(it.codec)])


# ---- each call on the file fails in turn, those of each name up to where none does; and each that reads or writes is interrupted
def in_turn(before, calls, error, words, script, wrong_run):
    """The faults of the runs of which one call is answered with an error, and how many there are; `wrong_run` has those of one."""
    wrong, count = [], 0
    for call in calls:
        for number in range(1, 100):
            put(FILE, before)
            done, was_made = failing(FILE, call, error, number, words, script)
            if not was_made:
                break
            count += 1
            wrong += [f"{call} {number}: {it}" for it in wrong_run(done)]
    return wrong, count


for what, words, before, script, answers, end, frames, least in rows.RUNS:
    script, answers = script.encode(), [it.encode() for it in answers]

    def as_ample(done):
        return ended(done, b"".join(answers), b"", 0) + first_difference("the file", held(), end)

    def cut_short(done):
        found = numbers_of(held())
        return stopped(done, answers) + [f"the file has the frames {found}"] * (found not in frames)

    put(FILE, before)
    wrong = as_ample(finished([program, *words], script))
    more, count = in_turn(before, CALLS, "EIO", words, script, cut_short)
    cases.case(f"{what}: each call fails", wrong + more + [f"{count} calls were made, and {least} are to be at least"] * (count < least))
    wrong, count = in_turn(before, ("pread64", "pwrite64"), "EINTR", words, script, as_ample)
    cases.case(f"{what}: each call is interrupted", wrong + ["no call was made"] * (count == 0))

# ---- the script fails, once some lines of it came: these are done, and their answers out
os.mkfifo("fifo")
lines, answers = [[it.encode() for it in found] for found in (rows.LINES, rows.ANSWERS)]


def fails_behind(many):
    """The faults of a run whose script fails behind so many lines."""
    put(FILE, rows.STEPS[0])
    told = ["strace", "--quiet=all", "-o", "trace.txt", "-P", os.path.abspath("fifo"), "-e", "trace=read", "-e", f"inject=read:error=EIO:when={many + 1}"]
    given = os.open("fifo", os.O_RDWR)
    run = subprocess.Popen([*told, program, "script"], stdin=given, stdout=subprocess.PIPE, stderr=subprocess.PIPE)
    try:
        out = b""
        for line, answer in zip(lines[:many], answers):
            os.write(given, line)
            out += run.stdout.readline()
        more, err = run.communicate(timeout=SECONDS)
    finally:
        run.kill()
        run.wait()
        os.close(given)
    done = subprocess.CompletedProcess([], run.returncode, out + more, err)
    return ended(done, b"".join(answers[:many]), b"", 3) + first_difference("the file", held(), rows.STEPS[many])


for many in range(len(lines) + 1):
    cases.case(f"the script fails behind {many} lines", fails_behind(many))

# ---- the output fails: the line is done whose answer does not get out, or gets out in part
script = b"".join(lines)
for many in range(len(lines)):
    put(FILE, rows.STEPS[0])
    with open(OUT, "wb") as out:
        done, was_made = failing(OUT, "write", "EIO", many + 1, ["script"], script, out)
    done.stdout = held(OUT)
    wrong = ended(done, b"".join(answers[:many]), b"", 3) + first_difference("the file", held(), rows.STEPS[many + 1])
    cases.case(f"the output fails behind {many} answers", wrong + ["it was not written to"] * (not was_made))
    put(FILE, rows.STEPS[0])
    # so long that the limit is none to the other file
    front = b"." * 1000
    put(OUT, front)
    limit = len(front) + len(b"".join(answers[:many])) + 2

    def limited():
        signal.signal(signal.SIGXFSZ, signal.SIG_IGN)
        resource.setrlimit(resource.RLIMIT_FSIZE, (limit, limit))

    with open(OUT, "ab") as out:
        done = subprocess.run([program, "script"], input=script, stdout=out, stderr=subprocess.PIPE, preexec_fn=limited, timeout=SECONDS)
    done.stdout = held(OUT)[len(front):]
    wrong = ended(done, (b"".join(answers[:many]) + answers[many])[:limit - len(front)], b"", 3) + first_difference("the file", held(), rows.STEPS[many + 1])
    cases.case(f"the output takes two bytes behind {many} answers", wrong)

# ---- the input and the output are interrupted
for path, call in ((SCRIPT, "read"), (OUT, "write")):
    wrong, number = [], 0
    while len(wrong) < 6 and number < 200:
        number += 1
        put(FILE, rows.STEPS[0])
        with open(OUT, "wb") as out:
            done, was_made = failing(path, call, "EINTR", number, ["script"], script, out)
        done.stdout = held(OUT)
        wrong += [f"call {number}: {it}" for it in ended(done, b"".join(answers), b"", 0) + first_difference("the file", held(), rows.STEPS[-1])]
        if not was_made:
            break
    cases.case(f"each {call} is interrupted", wrong + ["no call was made"] * (number == 1))

# ---- the calls of an automatic write, and of the seals before and behind it
put(FILE, rows.STEPS[0])
done, events = traced(program, ["script"], rows.AUTOMATIC, b"a.wav")
cases.case("the calls of an automatic write", [] if events == rows.EVENTS else [f"{events}"])

# ---- what a power cut may leave of four files, at each moment
for what, lines, found, stages in rows.CUTS:
    put(FILE, found[0])
    done, events = traced(program, ["script", "--auto", "a.wav"], lines, b"a.wav")
    contents, met = [found[0]], [{found[0]}]
    for event in events:
        contents = [contents[-1]] if event[0] == "sync" else contents + [after(contents[-1], event)] if event[0] in ("put", "cut") else contents
        left = images(random.Random(0), contents)
        met += [left] if left != met[-1] else []
    wanted = [{found[i] for i in stage} for stage in stages]
    cases.case(f"what a power cut may leave: {what}", [] if met == wanted else [f"{len(met)} stages for {len(wanted)}: {met}"])
cases.end(2 * len(rows.RUNS) + 6 + 2 * 5 + 2 + 1 + 4)
